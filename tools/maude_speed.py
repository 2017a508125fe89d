#!/usr/bin/env python3
"""How long Maude 3.2 takes over the tickets of the program `bench`, by its own clock.

    tools/maude_speed.py [PROGRAM]                       (PROGRAM: crates/bench/out/bench)

The rules of a sheet become equations of a functional module; further equations make all tickets of the job anew and have them
reduced, many times over. Instruments become constants.
"""
import os
import re
import subprocess
import sys

# leaves nothing behind in tools/
sys.dont_write_bytecode = True

from maude_forms import declared

TOP = os.path.dirname(os.path.dirname(os.path.abspath(__file__)))

# how often the tickets of a job are reduced, by a word of its caption; else 200 times
TIMES = {"left": 3, "letters": 3, "doubling": 2_000, "right": 2_000, "500": 1_000}


STATS = re.compile(r"rewrites: (\d+) in (\d+)ms cpu")


def jobs(program):
    """Of each job its caption, the text of its sheet with '/' for a line end, and its tickets."""
    shown = subprocess.run([program, "show"], capture_output=True, text=True, timeout=600, check=True).stdout
    for part in shown.strip().split("\n\n"):
        front, tickets = part.split("\n.\n")
        caption, sheet = front.split("\n", 1)
        yield caption, sheet.replace("\n", "/") + "/", tickets.split("\n")


def times_of(caption):
    return next((n for word, n in TIMES.items() if word in caption.split()), 200)


def seconds(text, tickets, times):
    """How many rewrites Maude makes in all, and the seconds that it says they take."""
    count = len(tickets)
    lines = ["fmod JOB is", "protecting NAT ."] + declared(text, tickets)
    lines += ["op again : Nat -> Term .", f"op all : Nat {'Term ' * count} -> Term .", "var N : Nat ."]
    lines += [f"op made{n} : Nat -> Term ." for n in range(count)]
    lines += [f"eq made{n}(N) = {ticket} ." for n, ticket in enumerate(tickets)]
    lines += [f"eq again(s N) = all(N, {', '.join(f'made{n}(N)' for n in range(count))}) ."]
    lines += [f"vars {' '.join(f'X{n}' for n in range(count))} : Term ."]
    lines += [f"eq all(N, {', '.join(f'X{n}' for n in range(count))}) = again(N) .", "endfm", f"red again({times}) ."]
    made = subprocess.run(["maude", "-no-banner", "-no-wrap", "-no-advise"], input="\n".join(lines) + "\n", capture_output=True, text=True, timeout=3600, check=True)
    rewrites, milliseconds = map(int, STATS.search(made.stdout).groups())
    # beside the steps: one for each ticket that is made, and two for each time
    return rewrites - times * (count + 2), milliseconds / 1000


def main():
    program = sys.argv[1] if len(sys.argv) > 1 else os.path.join(TOP, "crates/bench/out/bench")
    for caption, text, tickets in jobs(program):
        rewrites, spent = seconds(text, tickets, times_of(caption))
        print(f"{caption}: {rewrites} steps, {spent * 1e9 / max(rewrites, 1):.1f} ns a step", flush=True)


if __name__ == "__main__":
    main()
