#!/usr/bin/env python3
"""Compares tools/sheet_oracle.py with the table of sheets, and tools/book_oracle.py with the program `book`.

    tools/sheet_compare.py table                         every case of crates/sheet_table/src/cases.rt
    tools/sheet_compare.py program [PROGRAM] [--cases N] [--seed S] [--keep FOLDER]
                                                         N inputs of tools/sheet_cases.py (PROGRAM: crates/book/out/book)

Prints each difference (the first fifty), and how many cases there were; ends with status 1 if any case differs.
"""
import argparse
import collections
import concurrent.futures
import os
import random
import re
import subprocess
import sys
import threading
import time

# leaves nothing behind in tools/
sys.dont_write_bytecode = True

import book_oracle
import sheet_cases
import sheet_oracle

TOP = os.path.dirname(os.path.dirname(os.path.abspath(__file__)))

# The table


def table():
    """The texts of the table, by the names of their constants."""
    with open(os.path.join(TOP, "crates/sheet_table/src/cases.rt"), encoding="utf-8") as source:
        found = re.findall(r'pub const (\w+): &str =\s+"(.*?)";', source.read(), re.DOTALL)
    return {name: text.replace("\\t", "\t").replace("\\r", "\r").replace("\\u{0}", "\0") for name, text in found}


TABLE = table()
SHORT_TEXTS = {"&": TABLE["HOUSE"], "@": TABLE["HOUSE"] + "rules/", "%": TABLE["NAMES"]}
SHORT_OPERATORS = {
    "@": TABLE["HOUSE_OPERATORS"],
    "%": ", ".join(name + " 0 0:--- 0:111" for name in TABLE["NAMES"].split()),
}


def repeated(part):
    return re.sub(r"\{(\d+):([^}]*)\}", lambda found: int(found[1]) * found[2], part)


def unfold(column, short):
    if column[:1] in short:
        column = short[column[0]] + column[1:]
    return repeated(column)


def weighed(lines, operator):
    if lines is None:
        return "0:111"
    base, *factors = [str(line[operator]) if line[operator] is not None else "-" for line in lines]
    return base + ":" + "".join(factors)


def shown(sheet):
    first, second = (sheet.weighings + [None])[:2]
    operators = ", ".join(
        f"{name} {arity} {weighed(first, n)} {weighed(second, n)}" for n, (name, arity) in enumerate(zip(sheet.names, sheet.arities))
    )
    sides = [f"{sheet_oracle.text_of(left)}={sheet_oracle.text_of(right)}" for left, right in sheet.rules]
    return "; ".join([operators] + sides)


def read_anew(text):
    try:
        return shown(sheet_oracle.read_sheet(text))
    except sheet_oracle.Refused as refused:
        return str(refused)


def table_cases():
    """Each text and what is expected: the cases, and the fronts of the long sheet."""
    for line in TABLE["CASES"].split("\n"):
        if "|" in line:
            text, expected = line.split("|")
            yield unfold(text, SHORT_TEXTS), unfold(expected, SHORT_OPERATORS)
    for n, expected in enumerate(TABLE["FRONTS"].split("\n")):
        yield TABLE["LONG"][:n], expected


def compare_table():
    differences = count = 0
    for text, expected in table_cases():
        count += 1
        found = read_anew(text.replace("/", "\n").encode())
        if found != expected:
            differences += 1
            print(f"{text}\n    table:  {expected}\n    oracle: {found}")
    print(f"{count} cases, {differences} differences")
    return differences


# The program


def run_whole(program, data):
    ran = subprocess.run([program], input=data, capture_output=True, timeout=60)
    return ran.returncode, ran.stdout


def run_slowly(program, data, seed):
    """Gives the program its input in pieces, so that its reads come back short."""
    pieces = random.Random(seed)
    with subprocess.Popen([program], stdin=subprocess.PIPE, stdout=subprocess.PIPE) as ran:
        giving = threading.Thread(target=give_pieces, args=(ran.stdin, data, pieces))
        giving.start()
        found = ran.stdout.read()
        giving.join()
    return ran.returncode, found


def give_pieces(pipe, data, pieces):
    at = 0
    try:
        while at < len(data):
            size = pieces.choice([1, 2, 3, 10, 100, 1000, 5000])
            pipe.write(data[at : at + size])
            pipe.flush()
            at += size
            if at < 20_000:
                time.sleep(0.0005)
    except BrokenPipeError:
        # the program refused the sheet and ended
        pass
    try:
        pipe.close()
    except BrokenPipeError:
        pass


def run_one(program, seed):
    data = sheet_cases.case(seed)
    status, found = run_slowly(program, data, seed) if seed % 50 == 0 else run_whole(program, data)
    return data, status, found, book_oracle.printed(data)


def first_difference(found, expected):
    found, expected = found.split(b"\n"), expected.split(b"\n")
    for n in range(max(len(found), len(expected))):
        if found[n : n + 1] != expected[n : n + 1]:
            return n, found[n : n + 1], expected[n : n + 1]
    return None


def compare_program(program, cases, seed, keep):
    differences = 0
    kinds = collections.Counter()
    with concurrent.futures.ThreadPoolExecutor(2) as pool:
        seeds = range(seed, seed + cases)
        for number, (data, status, found, expected) in zip(seeds, pool.map(lambda n: run_one(program, n), seeds)):
            for line in expected.decode("latin-1").splitlines():
                kinds[" ".join(line.split()[:3]) if line.startswith("refused") else line.split()[0]] += 1
            if status == 0 and found == expected:
                continue
            differences += 1
            if keep:
                os.makedirs(keep, exist_ok=True)
                with open(os.path.join(keep, f"case-{number}"), "wb") as file:
                    file.write(data)
            if differences <= 50:
                print(f"case {number}: status {status}; line, program, oracle: {first_difference(found, expected)}")
    for kind, count in sorted(kinds.items()):
        print(f"{count:8} {kind}")
    print(f"{cases} cases, {differences} differences")
    return differences


def main():
    parser = argparse.ArgumentParser()
    parser.add_argument("what", choices=["table", "program"])
    parser.add_argument("program", nargs="?", default=os.path.join(TOP, "crates/book/out/book"))
    parser.add_argument("--cases", type=int, default=2000)
    parser.add_argument("--seed", type=int, default=0)
    parser.add_argument("--keep", help="a folder for the inputs that differ")
    args = parser.parse_args()
    if args.what == "table":
        differences = compare_table()
    else:
        differences = compare_program(args.program, args.cases, args.seed, args.keep)
    sys.exit(1 if differences else 0)


if __name__ == "__main__":
    main()
