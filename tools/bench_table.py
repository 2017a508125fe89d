#!/usr/bin/env python3
"""The table of docs/PERFORMANCE.md: what a step costs in the jobs of the program `bench`, and in Maude 3.2.

    tools/bench_table.py [PROGRAM] [--runs N]            (PROGRAM: crates/bench/out/bench)

For each job: the steps of its tickets; the nanoseconds a step, the least of N runs, by the clock of the processor; the instructions
a step, as callgrind counts them, of a run that makes all steps less those of a run that makes none; and Maude's nanoseconds a step,
the least of N runs, by its own clock, or a dash where it is too fast for that clock. Where Maude makes fewer steps than the pool,
because it shares equal parts, it says so.
"""
import argparse
import os
import re
import subprocess
import sys
import tempfile

# leaves nothing behind in tools/
sys.dont_write_bytecode = True

import maude_speed

TOP = os.path.dirname(os.path.dirname(os.path.abspath(__file__)))

ALL_STEPS = 4_294_967_295
# Maude's clock tells milliseconds
LEAST_SECONDS = 0.02
# how often a job is done under callgrind
CALLGRIND_ROUNDS = 2


def speeds(program):
    """The nanoseconds a step of each job, in one run."""
    ran = subprocess.run([program, "speed"], capture_output=True, text=True, timeout=600, check=True)
    return [float(ns) for ns in re.findall(r": ([0-9.]+) ns a step", ran.stderr)]


def counted(program, job, allowed):
    """The steps of a job, and the instructions of the run."""
    with tempfile.TemporaryDirectory() as folder:
        command = ["valgrind", "--tool=callgrind", f"--callgrind-out-file={folder}/out", program, str(job), str(allowed), str(CALLGRIND_ROUNDS)]
        ran = subprocess.run(command, capture_output=True, text=True, timeout=600, check=True)
    steps = int(re.search(r": (\d+) steps", ran.stdout)[1])
    return steps, int(re.search(r"Collected : (\d+)", ran.stderr)[1])


def instructions(program, job):
    """The steps that the tickets of a job take, and the instructions a step."""
    steps, all_instructions = counted(program, job, ALL_STEPS)
    _, setting_up = counted(program, job, 0)
    return steps // CALLGRIND_ROUNDS, (all_instructions - setting_up) / steps


def maude_cell(steps, text, tickets, times, runs):
    """Maude's nanoseconds a step."""
    made = [maude_speed.seconds(text, tickets, times) for _ in range(runs)]
    rewrites = made[0][0] // times
    least = min(spent for _, spent in made)
    if least < LEAST_SECONDS:
        return "-"
    least *= 1e9 / made[0][0]
    return f"{least:.0f}" if rewrites == steps else f"{least:.0f} ({rewrites} steps)"


def main():
    parser = argparse.ArgumentParser()
    parser.add_argument("program", nargs="?", default=os.path.join(TOP, "crates/bench/out/bench"))
    parser.add_argument("--runs", type=int, default=3)
    args = parser.parse_args()
    nanoseconds = [min(job) for job in zip(*(speeds(args.program) for _ in range(args.runs)))]
    print("| job | steps | ns a step | instructions a step | Maude, ns a step |\n|---|---|---|---|---|")
    for job, (caption, text, tickets) in enumerate(maude_speed.jobs(args.program)):
        steps, each = instructions(args.program, job)
        maude = maude_cell(steps, text, tickets, maude_speed.times_of(caption), args.runs)
        print(f"| {caption} | {steps:,} | {nanoseconds[job]:,.0f} | {each:,.0f} | {maude} |", flush=True)


if __name__ == "__main__":
    main()
