#!/usr/bin/env python3
"""Answers what the program `pool_check` must answer, written from docs/ alone and in the plainest way.

    tools/pool_oracle.py < INPUT

Sheets and tickets are read by tools/sheet_oracle.py. A term is a tuple of its symbol and of its arguments; each step searches
it anew from the root, and makes a new one. It knows nothing of the crates: it is there to be compared with the program, which
tools/pool_compare.py does.
"""
import re
import sys
import threading
from collections import namedtuple

# leaves nothing behind in tools/
sys.dont_write_bytecode = True

from sheet_oracle import LINE_BYTES, Refused, read_sheet, read_ticket, split_input

MOST_NODES = 16_384
MOST_STEPS = 4_294_967_295

# a term may be as deep as a pool has nodes
sys.setrecursionlimit(200_000)
STACK_BYTES = 512 * 1024 * 1024

LINE = re.compile(rb"(0|[1-9][0-9]*) (0|[1-9][0-9]*) (.*)", re.DOTALL)

# state: finished, spent or short; steps: how many were made; term: what is held then
Outcome = namedtuple("Outcome", "state steps term")


# Terms and rules


def plain(term):
    """A term of sheet_oracle as a tuple."""
    return (term.symbol, tuple(plain(arg) for arg in term.args))


def rules_of(sheet):
    return [(plain(left), plain(right)) for left, right in sheet.rules]


def symbols_of(term):
    return 1 + sum(symbols_of(arg) for arg in term[1])


def text_of(term):
    symbol, args = term
    if not args:
        return symbol
    return symbol + "(" + ",".join(text_of(arg) for arg in args) + ")"


# Steps


def is_variable(symbol):
    return symbol in "ABCDEFGH"


def matches(left, term, bound):
    """Whether the left side is the term under some substitution, which `bound` then is."""
    symbol, args = left
    if is_variable(symbol):
        bound[symbol] = term
        return True
    return symbol == term[0] and all(matches(arg, part, bound) for arg, part in zip(args, term[1]))


def filled(right, bound):
    symbol, args = right
    if is_variable(symbol):
        return bound[symbol]
    return (symbol, tuple(filled(arg, bound) for arg in args))


def next_term(rules, term):
    """The term after the next step, or None if no rule matches anywhere."""
    symbol, args = term
    for n, arg in enumerate(args):
        stepped = next_term(rules, arg)
        if stepped is not None:
            return (symbol, args[:n] + (stepped,) + args[n + 1 :])
    for left, right in rules:
        bound = {}
        if matches(left, term, bound):
            return filled(right, bound)
    return None


def reduced(rules, term, nodes, allowed):
    steps = 0
    free = nodes - symbols_of(term)
    while True:
        after = next_term(rules, term)
        if after is None:
            return Outcome("finished", steps, term)
        if steps == allowed:
            return Outcome("spent", steps, term)
        more = symbols_of(after) - symbols_of(term)
        if more > free:
            return Outcome("short", steps, term)
        steps += 1
        free -= more
        term = after


# The program


def asked(line):
    """The nodes, the steps and the ticket that a line names, or None if it has another form."""
    found = LINE.fullmatch(line)
    if len(line) > LINE_BYTES or not found:
        return None
    nodes, steps = int(found[1]), int(found[2])
    if not 1 <= nodes <= MOST_NODES or steps > MOST_STEPS:
        return None
    return nodes, steps, found[3]


def line_answer(sheet, rules, line):
    request = asked(line)
    if request is None:
        return "bad line"
    nodes, steps, ticket = request
    try:
        term = plain(read_ticket(sheet, ticket))
    except Refused as refused:
        return str(refused)
    if symbols_of(term) > nodes:
        return "no room"
    outcome = reduced(rules, term, nodes, steps)
    free = nodes - symbols_of(outcome.term)
    return f"{outcome.state} {outcome.steps} {free} {text_of(outcome.term)}"


def answers(data):
    text, lines = split_input(data)
    try:
        sheet = read_sheet(text)
    except Refused as refused:
        return [str(refused)]
    rules = rules_of(sheet)
    return [line_answer(sheet, rules, line) for line in lines]


def printed(data):
    return "".join(line + "\n" for line in answers(data)).encode("latin-1")


def deeply(work):
    """Runs it with a large stack, for deep recursion."""
    threading.stack_size(STACK_BYTES)
    thread = threading.Thread(target=work)
    thread.start()
    thread.join()


if __name__ == "__main__":
    deeply(lambda: sys.stdout.buffer.write(printed(sys.stdin.buffer.read())))
