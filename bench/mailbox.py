#!/usr/bin/env python3
"""Measures how long the mailbox of 100,000 messages takes to make, beside a plain Rust program that makes the same.

Run by hand: bench/mailbox.py. It prints the best seconds of five runs of each, and their ratio. The program is built first,
if it isn't there: `rt run` in crates/bench_gen. The plain one is built by rustc.
"""

import os
import subprocess
import tempfile
import time

TOP = os.path.dirname(os.path.dirname(os.path.abspath(__file__)))
CRATE = os.path.join(TOP, "crates", "bench_gen")
PROGRAM = os.path.join(CRATE, "out", "bench_gen")
MESSAGES = 100_000
RUNS = 5


def seconds(program):
    """The best time of some runs, each of which must have made the whole mailbox."""
    best = None
    for _ in range(RUNS):
        start = time.perf_counter()
        done = subprocess.run([program, str(MESSAGES)], capture_output=True, check=True, text=True)
        took = time.perf_counter() - start
        if done.stdout != "39475178 bytes\n":
            raise SystemExit(f"{program} printed {done.stdout!r}")
        best = took if best is None else min(best, took)
    return best


def main():
    if not os.path.exists(PROGRAM):
        subprocess.run(["rt", "run"], cwd=CRATE, check=True, stdin=subprocess.DEVNULL, stdout=subprocess.DEVNULL)
    with tempfile.TemporaryDirectory() as folder:
        plain = os.path.join(folder, "mailbox")
        subprocess.run(["rustc", "-O", "-o", plain, os.path.join(TOP, "bench", "mailbox.rs")], check=True)
        ours, theirs = seconds(PROGRAM), seconds(plain)
    print(f"mail_gen {ours:.3f} s, plain {theirs:.3f} s, ratio {ours / theirs:.2f}")


main()
