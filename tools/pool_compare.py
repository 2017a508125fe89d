#!/usr/bin/env python3
"""Compares tools/pool_oracle.py with the program `pool_check`, line by line.

    tools/pool_compare.py [PROGRAM] [--cases N] [--seed S] [--jobs J] [--keep FOLDER]
                                                         N inputs of tools/pool_cases.py (PROGRAM: crates/pool_check/out/pool_check)

Prints each input with a difference (the first fifty), and how many answers of each kind there were; ends with status 1 if any
input differs.
"""
import argparse
import collections
import multiprocessing
import os
import subprocess
import sys

# leaves nothing behind in tools/
sys.dont_write_bytecode = True

import pool_cases
import pool_oracle

TOP = os.path.dirname(os.path.dirname(os.path.abspath(__file__)))

# seconds for an input
PATIENCE = 120


def ran(program, data):
    """The status of the program and what it printed; no status if it did not end in time."""
    try:
        done = subprocess.run([program], input=data, capture_output=True, timeout=PATIENCE)
    except subprocess.TimeoutExpired as late:
        return None, late.stdout or b""
    return done.returncode, done.stdout


def first_difference(found, expected):
    found, expected = found.split(b"\n"), expected.split(b"\n")
    for n in range(max(len(found), len(expected))):
        if found[n : n + 1] != expected[n : n + 1]:
            return n, found[n : n + 1], expected[n : n + 1]
    return None


def kind(line):
    words = line.split()
    return " ".join(words[:2]) if words[0] in ("refused", "bad", "no") else words[0]


def judged(work):
    """Of an input: how many answers of each kind, how many rules, and the difference if there is one."""
    program, seed, keep = work
    found = []

    def compare():
        data = pool_cases.case(seed)
        expected = pool_oracle.printed(data)
        kinds = collections.Counter(kind(line) for line in expected.decode("latin-1").splitlines())
        status, printed = ran(program, data)
        difference = None
        if status != 0 or printed != expected:
            difference = f"case {seed}: status {status}; line, program, oracle: {first_difference(printed, expected)}"
            if keep:
                os.makedirs(keep, exist_ok=True)
                with open(os.path.join(keep, f"case-{seed}"), "wb") as file:
                    file.write(data)
        found.append((kinds, difference))

    pool_oracle.deeply(compare)
    return found[0]


def main():
    parser = argparse.ArgumentParser()
    parser.add_argument("program", nargs="?", default=os.path.join(TOP, "crates/pool_check/out/pool_check"))
    parser.add_argument("--cases", type=int, default=500)
    parser.add_argument("--seed", type=int, default=0)
    parser.add_argument("--jobs", type=int, default=2)
    parser.add_argument("--keep", help="a folder for the inputs that differ")
    args = parser.parse_args()
    kinds = collections.Counter()
    differences = 0
    seeds = range(args.seed, args.seed + args.cases)
    with multiprocessing.Pool(args.jobs) as pool:
        for counted, difference in pool.imap(judged, [(args.program, seed, args.keep) for seed in seeds]):
            kinds += counted
            if difference:
                differences += 1
                if differences <= 50:
                    print(difference, flush=True)
    for name, count in sorted(kinds.items()):
        print(f"{count:8} {name}")
    print(f"{args.cases} sheets, {sum(kinds.values())} lines, {differences} differences")
    sys.exit(1 if differences else 0)


if __name__ == "__main__":
    main()
