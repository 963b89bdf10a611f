#!/usr/bin/env python3
"""Measures what a write to a write set and a look at one cost, with signatures of 64 and of 1,024 bits.

Run by hand: bench/writes.py. It prints nanoseconds for each write with its look, the best of five runs of 20,000 attempts
of 256 writes and 256 looks. The program is built first, if it isn't there: `rt run` in crates/bench_writes.
"""

import os
import subprocess
import time

TOP = os.path.dirname(os.path.dirname(os.path.abspath(__file__)))
CRATE = os.path.join(TOP, "crates", "bench_writes")
PROGRAM = os.path.join(CRATE, "out", "bench_writes")
ATTEMPTS = 20_000
WRITES = 256
RUNS = 5


def seconds(*words):
    """The best time of some runs, which must have found each value."""
    best = None
    for _ in range(RUNS):
        start = time.perf_counter()
        done = subprocess.run([PROGRAM, *map(str, words)], capture_output=True, check=True, text=True)
        took = time.perf_counter() - start
        if done.stdout != f"{words[1] * WRITES} looks found their value\n":
            raise SystemExit(f"bench_writes printed {done.stdout!r}")
        best = took if best is None else min(best, took)
    return best


def main():
    if not os.path.exists(PROGRAM):
        subprocess.run(["rt", "run"], cwd=CRATE, check=True, stdin=subprocess.DEVNULL, stdout=subprocess.DEVNULL)
    for bits in (64, 1024):
        each = (seconds(bits, ATTEMPTS) - seconds(bits, 0)) / (ATTEMPTS * WRITES)
        print(f"{bits:>5} bits {each * 1e9:>8.1f} ns for a write and a look")


main()
