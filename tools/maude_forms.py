#!/usr/bin/env python3
"""Makes crates/maude_table/src/cases.rt: tickets on six sheets, and the normal forms that Maude 3.2 makes of them.

    tools/maude_forms.py --write         makes the tickets, asks Maude, and stores tickets and forms
    tools/maude_forms.py --check         asks Maude again about each ticket that is stored

The rules of a sheet become equations of a functional module, each instrument a constant of it. The rules of each sheet end, and
by them each ticket has one normal form only. tools/pool_oracle.py is asked for nothing but which tickets are small enough.
"""
import argparse
import os
import random
import re
import subprocess
import sys

# leaves nothing behind in tools/
sys.dont_write_bytecode = True

import pool_oracle
from sheet_oracle import read_sheet, read_ticket

TOP = os.path.dirname(os.path.dirname(os.path.abspath(__file__)))
CASES = os.path.join(TOP, "crates/maude_table/src/cases.rt")

TICKETS = 36
INSTRUMENTS = ["#0", "#7", "#12", "#999999"]
# what is stored is to stay small
TICKET_BYTES = 110
FORM_BYTES = 160
NODES = 2_000
STEPS = 3_000

# caption, names with their arities, rules
SHEETS = [
    (
        "what is negated, and what stands together",
        "nil/0 neg/1 both/2",
        "neg(neg(A))=A neg(nil)=nil neg(both(A,B))=both(neg(A),neg(B)) both(nil,A)=A both(A,nil)=A both(both(A,B),C)=both(A,both(B,C))",
    ),
    (
        "pairs: doubled, swapped, and one of the two dropped",
        "pair/2 twice/1 swap/1 first/1 second/1 unit/0",
        "twice(A)=pair(A,A) swap(pair(A,B))=pair(B,A) first(pair(A,B))=A second(pair(A,B))=B first(unit)=unit swap(unit)=unit",
    ),
    (
        "numbers: sums, products, Fibonacci's and Ackermann's",
        "z/0 s/1 add/2 mul/2 fib/1 ack/2 three/0",
        "three=s(s(s(z))) add(z,A)=A add(s(A),B)=s(add(A,B)) mul(z,A)=z mul(s(A),B)=add(B,mul(A,B)) fib(z)=z fib(s(z))=s(z)"
        " fib(s(s(A)))=add(fib(s(A)),fib(A)) ack(z,A)=s(A) ack(s(A),z)=ack(A,s(z)) ack(s(A),s(B))=ack(A,ack(s(A),B))",
    ),
    (
        "three arguments: one chosen, the majority, turned, tripled; rules that overlap",
        "yes/0 no/0 not/1 if/3 maj/3 tri/3 turn/1 thrice/1",
        "not(yes)=no not(no)=yes if(yes,A,B)=A if(no,A,B)=B maj(yes,yes,A)=yes maj(yes,A,yes)=yes maj(A,yes,yes)=yes"
        " maj(no,no,A)=no maj(no,A,no)=no maj(A,no,no)=no turn(tri(A,B,C))=tri(B,C,A) thrice(A)=tri(A,A,A) not(tri(A,B,C))=tri(not(A),not(B),not(C))",
    ),
    (
        "lists: put behind each other, turned round, mixed, and their tails copied",
        "nil/0 cons/2 app/2 rev/1 mix/2 tails/1",
        "app(nil,A)=A app(cons(A,B),C)=cons(A,app(B,C)) rev(nil)=nil rev(cons(A,B))=app(rev(B),cons(A,nil)) mix(nil,A)=A"
        " mix(cons(A,B),C)=cons(A,mix(C,B)) tails(nil)=cons(nil,nil) tails(cons(A,B))=cons(cons(A,B),tails(B))",
    ),
    (
        "words: letters sorted, doubles taken out",
        "a/1 b/1 c/1 e/0 start/0",
        "start=c(b(a(e))) b(a(A))=a(b(A)) c(a(A))=a(c(A)) c(b(A))=b(c(A)) a(a(A))=a(A) c(c(A))=A",
    ),
]


# Sheets and Maude's modules


def operators_of(names):
    return [(name, int(arity)) for name, arity in (operator.split("/") for operator in names.split())]


def sheet_text(names, rules):
    """The lines of the sheet, '/' for a line end."""
    operators = operators_of(names)
    lines = [" ".join(name for name, _ in operators), " ".join(str(arity) for _, arity in operators), " ".join("0" for _ in operators)]
    for argument in range(3):
        lines.append(" ".join("1" if argument < arity else "-" for _, arity in operators))
    return "/".join(lines + ["rules"] + rules.split()) + "/"


def sheet_of(text):
    return read_sheet(text.replace("/", "\n").encode("latin-1"))


def declared(text, tickets):
    """What a module of Maude says of a sheet, and of the instruments of these tickets."""
    sheet = sheet_of(text)
    lines = ["sort Term .", "vars A B C D E F G H : Term ."]
    lines += [f"op {name} : {'Term ' * arity}-> Term ." for name, arity in zip(sheet.names, sheet.arities)]
    lines += [f"op {instrument} : -> Term ." for instrument in sorted(set(re.findall("#[0-9]+", " ".join(tickets))))]
    rules = text.rstrip("/").split("/rules/")[1].split("/")
    return lines + [f"eq {rule.replace('=', ' = ')} ." for rule in rules]


def forms(text, tickets):
    """What Maude makes of each ticket."""
    lines = ["set include BOOL off .", "fmod SHEET is"] + declared(text, tickets) + ["endfm"]
    lines += ["set show command off .", "set show stats off .", "set show timing off ."]
    lines += [f"red {ticket} ." for ticket in tickets]
    made = subprocess.run(
        ["maude", "-no-banner", "-no-wrap", "-no-advise"], input="\n".join(lines) + "\n", capture_output=True, text=True, timeout=600, check=True
    )
    found = [line.removeprefix("result Term: ").replace(" ", "") for line in made.stdout.splitlines() if line.startswith("result Term: ")]
    if len(found) != len(tickets) or made.stderr:
        raise ValueError(f"{len(tickets)} tickets, {len(found)} forms: {made.stderr}")
    return found


# Tickets


def random_term(r, operators, symbols):
    grown = [operator for operator in operators if operator[1] > 0]
    if symbols < 2:
        flat = [name for name, arity in operators if arity == 0]
        return r.choice(flat) if flat and r.random() < 0.75 else r.choice(INSTRUMENTS)
    name, arity = r.choice(grown)
    left = max(symbols - 1 - arity, 0)
    args = []
    for n in range(arity):
        more = left if n == arity - 1 else r.randint(0, left)
        left -= more
        args.append(random_term(r, operators, 1 + more))
    return f"{name}({','.join(args)})"


def is_fitting(sheet, ticket):
    """Whether the next steps of a ticket end soon, and some are made."""
    term = pool_oracle.plain(read_ticket(sheet, ticket.encode("latin-1")))
    outcome = pool_oracle.reduced(pool_oracle.rules_of(sheet), term, NODES, STEPS)
    return outcome.state == "finished" and outcome.steps > 1 and len(pool_oracle.text_of(outcome.term)) <= FORM_BYTES


def tickets_of(number, names, text):
    """The tickets of a sheet, the same each time."""
    r = random.Random(number)
    sheet = sheet_of(text)
    found = []
    while len(found) < TICKETS:
        ticket = random_term(r, operators_of(names), r.choice([3, 5, 8, 12, 16, 20, 25, 30]))
        if len(ticket) <= TICKET_BYTES and ticket not in found and is_fitting(sheet, ticket):
            found.append(ticket)
    return found


# The table


HEAD = """// Tickets and their normal forms as Maude 3.2 makes them; tools/maude_forms.py wrote this. A sheet begins with a caption, two bars and
// its lines, with '/' for a line end. Then, one on a line: a ticket, a bar, its normal form. An empty line parts two sheets.
pub const CASES: &str =
    \"""" 


def write():
    parts = []
    for number, (caption, names, rules) in enumerate(SHEETS):
        text = sheet_text(names, rules)
        tickets = tickets_of(number, names, text)
        lines = [f"{ticket}|{form}" for ticket, form in zip(tickets, forms(text, tickets))]
        parts.append("\n".join([f"{caption}||{text}"] + lines))
    with open(CASES, "w", encoding="utf-8") as file:
        file.write(HEAD + "\n\n".join(parts) + '";\n')


def stored():
    """Of each sheet that is stored its text, its tickets and their forms."""
    with open(CASES, encoding="utf-8") as file:
        table = re.search(r'"(.*)";', file.read(), re.DOTALL)[1]
    for part in table.split("\n\n"):
        front, *cases = part.split("\n")
        tickets, made = zip(*(case.split("|") for case in cases))
        yield front.split("||")[1], tickets, list(made)


def check():
    count = differences = 0
    for text, tickets, made in stored():
        for ticket, form, found in zip(tickets, made, forms(text, tickets)):
            count += 1
            if form != found:
                differences += 1
                print(f"{ticket}\n    stored: {form}\n    Maude:  {found}")
    print(f"{count} tickets, {differences} differences")
    return differences


def main():
    parser = argparse.ArgumentParser()
    what = parser.add_mutually_exclusive_group(required=True)
    what.add_argument("--write", action="store_true")
    what.add_argument("--check", action="store_true")
    if parser.parse_args().write:
        write()
    else:
        sys.exit(1 if check() else 0)


if __name__ == "__main__":
    pool_oracle.deeply(main)
