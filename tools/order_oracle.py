#!/usr/bin/env python3
"""Answers how the default order orients each rule of a sheet, written from docs/ alone and in the plainest way.

    tools/order_oracle.py < SHEET              a line `read N`, and for each rule `rule I falls`, `rule I holds` or `rule I no`
    tools/order_oracle.py --weights < SHEET    and the weights of both sides of each rule, by both weighings
    tools/order_oracle.py table                compares the table of crates/order_table with it
    tools/order_oracle.py program [N]          compares crates/book/out/book with it on N sheets of tools/order_cases.py (2,000)

It knows nothing of the crates: it is there to be compared with them. Sheets are read by tools/sheet_oracle.py.
"""
import collections
import os
import re
import subprocess
import sys

# leaves nothing behind in tools/
sys.dont_write_bytecode = True

import order_cases
import sheet_oracle

TOP = os.path.dirname(os.path.dirname(os.path.abspath(__file__)))
VARIABLES = "ABCDEFGH"


def weighings_of(sheet):
    """For each of two weighings, the base and the factors of each name; a missing one has base 0 and factors 1."""
    both = []
    for rows in (sheet.weighings + [None, None])[:2]:
        one = {}
        for n, name in enumerate(sheet.names):
            if rows is None:
                one[name] = (0, [1, 1, 1])
            else:
                one[name] = (rows[0][n], [1 if row[n] is None else row[n] for row in rows[1:]])
        both.append(one)
    return both


def paths_of(term, weighing, factor=1):
    """The symbols of a term, each with the product of the factors that stand above it."""
    yield term.symbol, factor
    if term.args:
        _, factors = weighing[term.symbol]
        for arg, times in zip(term.args, factors):
            yield from paths_of(arg, weighing, factor * times)


def weight_of(term, weighing):
    """The constant of a term, and its coefficients by variable."""
    constant = 0
    coefficients = dict.fromkeys(VARIABLES, 0)
    for symbol, factor in paths_of(term, weighing):
        if symbol in coefficients:
            coefficients[symbol] += factor
        elif not symbol.startswith("#"):
            constant += factor * weighing[symbol][0]
    return constant, coefficients


def compare(left, right):
    """Whether the left weight is greater, at least the right one ('weak'), or neither (None)."""
    if any(left[1][x] < right[1][x] for x in VARIABLES) or left[0] < right[0]:
        return None
    return "strict" if left[0] > right[0] else "weak"


def orientation(rule, weighings):
    for weighing in weighings:
        found = compare(weight_of(rule[0], weighing), weight_of(rule[1], weighing))
        if found == "strict":
            return "falls"
        if found is None:
            return "no"
    return "holds"


def leaves_of(term):
    return [term.symbol] if not term.args else [leaf for arg in term.args for leaf in leaves_of(arg)]


def by_symbols(rule):
    left, right = rule
    if any(leaves_of(left).count(x) < leaves_of(right).count(x) for x in VARIABLES):
        return "no"
    fewer = sheet_oracle.symbols_of(left) - sheet_oracle.symbols_of(right)
    return "falls" if fewer > 0 else "holds" if fewer == 0 else "no"


def shown(weight):
    constant, coefficients = weight
    return "".join([str(constant)] + [f"+{n}{x}" for x, n in coefficients.items() if n > 0])


def sides_shown(rule, weighing):
    return " ".join(shown(weight_of(side, weighing)) for side in rule)


def answers(text, weights=False):
    try:
        sheet = sheet_oracle.read_sheet(text)
    except sheet_oracle.Refused as refused:
        return [str(refused)]
    weighings = weighings_of(sheet)
    lines = [f"read {len(sheet.rules)}"]
    for n, rule in enumerate(sheet.rules):
        line = f"rule {n} {orientation(rule, weighings)}"
        if weights:
            line += "".join("; " + sides_shown(rule, weighing) for weighing in weighings)
        lines.append(line)
    return lines


# The table


def repeated(part):
    return re.sub(r"\{(\d+):([^}]*)\}", lambda found: int(found[1]) * found[2], part)


def table():
    """The cases of the table: the lines before the rules, a rule, and what is expected of it."""
    with open(os.path.join(TOP, "crates/order_table/src/cases.rt"), encoding="utf-8") as source:
        text = re.search(r'pub const CASES: &str =\s+"(.*?)";', source.read(), re.DOTALL)[1]
    for sheet in text.split("\n\n"):
        head, *rules = sheet.split("\n")
        _caption, front = head.split("||")
        for line in rules:
            rule, expected = line.split("|", 1)
            yield front.replace("/", "\n"), rule, expected


def compare_table():
    cases, wrong = 0, 0
    for front, rule, expected in table():
        sheet = sheet_oracle.read_sheet((front + repeated(rule) + "\n").encode())
        first, second = weighings_of(sheet)
        (read,) = sheet.rules
        found = "|".join([sides_shown(read, first), sides_shown(read, second), orientation(read, (first, second)), by_symbols(read)])
        cases += 1
        if found != expected:
            wrong += 1
            print(f"{rule}: found {found}, expected {expected}")
    print(f"{cases} cases, {wrong} wrong")
    return 1 if wrong or not cases else 0


# The program


def compare_program(sheets):
    program = os.path.join(TOP, "crates/book/out/book")
    counts, wrong = collections.Counter(), 0
    for seed in range(sheets):
        text = order_cases.sheet(seed).encode()
        expected = answers(text)
        found = subprocess.run([program], input=text + b".\n", capture_output=True, check=True).stdout.decode().splitlines()
        counts.update(line.split()[-1] for line in expected[1:])
        if found != expected:
            wrong += 1
            print(f"sheet {seed}: found {found}, expected {expected}")
    print(f"{sheets} sheets, {wrong} wrong; rules: " + ", ".join(f"{n} {word}" for word, n in sorted(counts.items())))
    return 1 if wrong or not counts else 0


if __name__ == "__main__":
    if sys.argv[1:] == ["table"]:
        sys.exit(compare_table())
    if sys.argv[1:2] == ["program"]:
        sys.exit(compare_program(int(sys.argv[2]) if sys.argv[2:] else 2000))
    data, _ = sheet_oracle.split_input(sys.stdin.buffer.read())
    print("\n".join(answers(data, "--weights" in sys.argv[1:])))
