#!/usr/bin/env python3
"""Measures what it costs to bring the word lists of 20,000 made messages into an index, beside a hash map of the same lists.

Run by hand: bench/postings.py. One worker of `bench_index` brings them into the index over `TurnMemory`, by batches; the plain
program bench/postings.rs brings them into a hash map, as bench/plain.rs does. It prints the processor time of both and their ratio. The
programs take turns, and each figure is the best of seven runs, with the best of a run taken off that does all but this: one that opens
the memory and closes it, and one that makes the lists alone. The program is built first, if it isn't there: `rt run` in
crates/bench_index. The plain one is built by rustc.
"""

import os
import resource
import subprocess
import sys
import tempfile

TOP = os.path.dirname(os.path.dirname(os.path.abspath(__file__)))
CRATE = os.path.join(TOP, "crates", "bench_index")
PROGRAM = os.path.join(CRATE, "out", "bench_index")
RUNS = 7
COUNT = 20_000


def seconds(command):
    """The processor time of a run."""
    before = resource.getrusage(resource.RUSAGE_CHILDREN)
    done = subprocess.run(command, capture_output=True, check=True, text=True)
    after = resource.getrusage(resource.RUSAGE_CHILDREN)
    if not done.stdout.startswith(f"{COUNT} messages, {51 * COUNT} words"):
        sys.exit(f"{command[0]} printed {done.stdout!r}")
    return after.ru_utime - before.ru_utime + after.ru_stime - before.ru_stime


def main():
    if not os.path.exists(PROGRAM):
        subprocess.run(["rt", "run"], cwd=CRATE, check=True, stdin=subprocess.DEVNULL, stdout=subprocess.DEVNULL)
    with tempfile.TemporaryDirectory() as folder:
        plain = os.path.join(folder, "postings")
        subprocess.run(["rustc", "--edition", "2021", "-O", "-o", plain, os.path.join(TOP, "bench", "postings.rs")], check=True)
        commands = [
            [PROGRAM, "turn_memory", str(COUNT), "1"],
            [PROGRAM, "turn_memory", str(COUNT), "0"],
            [plain, "map", str(COUNT)],
            [plain, "lists", str(COUNT)],
        ]
        runs = [[seconds(command) for command in commands] for _ in range(RUNS)]
    indexed, opened, mapped, listed = (min(run[place] for run in runs) for place in range(4))
    ours, theirs = indexed - opened, mapped - listed
    print(f"index: {ours:.3f} s, hash map: {theirs:.3f} s, {ours / theirs:.2f} times")


if __name__ == "__main__":
    main()
