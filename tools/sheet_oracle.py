#!/usr/bin/env python3
"""Reads sheets and tickets, written from docs/ alone and in the plainest way.

It knows nothing of the crates: it is there to be compared with them (tools/sheet_compare.py, tools/book_oracle.py).
"""
import re
import sys
from collections import namedtuple

# A rule is read by recursion, and a ticket of 4,096 bytes can be 1,365 levels deep.
sys.setrecursionlimit(20_000)
# and a number may have as many digits as a text has bytes
sys.set_int_max_str_digits(0)

SHEET_BYTES = 32_768
TICKET_BYTES = 4_096
LINE_BYTES = 4_200
MOST_NAMES = 32
MOST_RULES = 32
MOST_SYMBOLS = 32
MOST_LEVELS = 16

LAYERS = {1: "text", 2: "text", 3: "text", 4: "text", 5: "text", 6: "text", 7: "sheet", 8: "sheet", 9: "sheet", 10: "sheet"}

# kind: name, number, instrument, variable, mark, stray or end; text: its bytes, as characters
Token = namedtuple("Token", "kind text place line")
# args: the terms of its arguments; symbol: what stands at its root, as it is written
Term = namedtuple("Term", "symbol args")
# rows: for each weighing that is written four lists of values, a number or None for '-'
Sheet = namedtuple("Sheet", "names arities weighings rules")


class Refused(Exception):
    def __init__(self, number, place, line):
        super().__init__(f"refused {number} {LAYERS[number]} {place} {line}")


def refuse(number, token):
    raise Refused(number, token.place, token.line)


TOKEN = re.compile(
    r"(?P<name>[a-z][a-z0-9]{0,11})|(?P<number>[0-9]+)|(?P<instrument>#[0-9]*)|(?P<variable>[A-H])|(?P<mark>[(),= \n-])|(?P<stray>.)",
    re.DOTALL,
)


def cut(text):
    """The tokens of a text, and the end behind them."""
    # a byte becomes the character of its number, so that places are bytes
    text = text.decode("latin-1")
    line = 0
    for found in TOKEN.finditer(text):
        yield Token(found.lastgroup, found.group(), found.start(), line)
        line += found.group().count("\n")
    while True:
        yield Token("end", "", len(text), line)


def needless_zero(digits):
    return len(digits) > 1 and digits[0] == "0"


def ill_formed(instrument):
    digits = instrument[1:]
    return digits == "" or needless_zero(digits) or int(digits) > 999_999


class Reader:
    """Looks at one token at a time. A token that is wrong wherever it stands is refused as soon as it is looked at."""

    def __init__(self, text):
        self.tokens = cut(text)
        self.step()

    def step(self):
        self.token = next(self.tokens)

    def look(self):
        token = self.token
        if token.kind == "stray":
            refuse(1, token)
        if token.kind == "number" and needless_zero(token.text):
            refuse(2, token)
        if token.kind == "instrument" and ill_formed(token.text):
            refuse(2, token)
        return token

    def is_mark(self, mark):
        token = self.look()
        return token.kind == "mark" and token.text == mark

    def want_mark(self, mark):
        if not self.is_mark(mark):
            refuse(3, self.look())
        self.step()

    def take(self):
        token = self.look()
        self.step()
        return token


# Terms


class Side:
    """What the symbols of a side of a rule are judged by. `bound` are the variables of the left side, on the right."""

    def __init__(self, past_rules=False, bound=None):
        self.past_rules = past_rules
        self.bound = bound
        self.symbols = 0
        self.variables = set()

    def judge(self, token, level):
        self.symbols += 1
        if self.symbols > MOST_SYMBOLS or level > MOST_LEVELS or self.past_rules:
            refuse(6, token)
        on_left = self.bound is None
        if on_left and self.symbols == 1 and token.kind != "name":
            refuse(8, token)
        if token.kind == "variable":
            if on_left and token.text in self.variables:
                refuse(9, token)
            if not on_left and token.text not in self.bound:
                refuse(10, token)
            self.variables.add(token.text)


class Whole:
    """A ticket's symbols are not judged further."""

    def judge(self, token, level):
        pass


def read_term(reader, arities, judge, variables, level=1):
    """`arities`: of each declared name; `variables`: whether they may stand here."""
    first = reader.look()
    begins = first.kind in ("name", "instrument") or (first.kind == "variable" and variables)
    if not begins:
        refuse(3, first)
    if first.kind == "name" and first.text not in arities:
        refuse(4, first)
    judge.judge(first, level)
    reader.step()
    if first.kind != "name":
        return Term(first.text, [])
    arity = arities[first.text]
    if (arity > 0) != reader.is_mark("("):
        refuse(5, first)
    args = []
    if arity > 0:
        reader.step()
        while True:
            args.append(read_term(reader, arities, judge, variables, level + 1))
            wanted, other = (")", ",") if len(args) == arity else (",", ")")
            if reader.is_mark(other):
                refuse(5, first)
            reader.want_mark(wanted)
            if wanted == ")":
                break
    return Term(first.text, args)


def text_of(term):
    if not term.args:
        return term.symbol
    return term.symbol + "(" + ",".join(text_of(arg) for arg in term.args) + ")"


def symbols_of(term):
    return 1 + sum(symbols_of(arg) for arg in term.args)


def read_ticket(sheet, text):
    if len(text) > TICKET_BYTES:
        raise Refused(6, 0, 0)
    reader = Reader(text)
    term = read_term(reader, dict(zip(sheet.names, sheet.arities)), Whole(), variables=False)
    if reader.look().kind != "end":
        refuse(3, reader.look())
    return term


# Sheets


def read_names(reader):
    names = []
    while True:
        token = reader.look()
        if token.kind != "name":
            refuse(3, token)
        if len(names) == MOST_NAMES:
            refuse(6, token)
        if token.text in names:
            refuse(7, token)
        names.append(token.text)
        reader.step()
        if reader.is_mark("\n"):
            reader.step()
            return names
        reader.want_mark(" ")


def read_number(reader, least, most):
    token = reader.look()
    if token.kind != "number":
        refuse(3, token)
    if not least <= int(token.text) <= most:
        refuse(2, token)
    reader.step()
    return int(token.text)


def read_line(reader, values):
    """A line of values. `values`: for each the range that it must be in, or None where '-' must stand."""
    read = []
    for n, value in enumerate(values):
        if n > 0:
            reader.want_mark(" ")
        if value is None:
            reader.want_mark("-")
            read.append(None)
        else:
            read.append(read_number(reader, *value))
    reader.want_mark("\n")
    return read


def read_weighing(reader, arities):
    lines = [read_line(reader, [(0, 100) for _ in arities])]
    for argument in range(3):
        lines.append(read_line(reader, [(1, 4) if argument < arity else None for arity in arities]))
    return lines


def read_word_rules(reader):
    token = reader.look()
    if token.kind != "name" or token.text != "rules":
        refuse(3, token)
    reader.step()
    reader.want_mark("\n")


def read_rules(reader, arities):
    rules = []
    while reader.look().kind != "end":
        side = Side(past_rules=len(rules) == MOST_RULES)
        left = read_term(reader, arities, side, variables=True)
        reader.want_mark("=")
        right = read_term(reader, arities, Side(bound=side.variables), variables=True)
        reader.want_mark("\n")
        rules.append((left, right))
    return rules


def read_sheet(text):
    if len(text) > SHEET_BYTES:
        raise Refused(6, 0, 0)
    reader = Reader(text)
    names = read_names(reader)
    arities = read_line(reader, [(0, 3) for _ in names])
    weighings = [read_weighing(reader, arities)]
    if reader.look().kind == "number":
        weighings.append(read_weighing(reader, arities))
    read_word_rules(reader)
    rules = read_rules(reader, dict(zip(names, arities)))
    return Sheet(names, arities, weighings, rules)


# The program


def split_input(data):
    """The text of the sheet, and the lines behind it; a last line counts only if it has bytes."""
    lines = data.split(b"\n")
    for n, line in enumerate(lines):
        if line == b".":
            tickets = lines[n + 1 :]
            if tickets and tickets[-1] == b"":
                tickets.pop()
            return b"".join(before + b"\n" for before in lines[:n]), tickets
    return data, []
