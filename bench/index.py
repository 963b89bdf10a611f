#!/usr/bin/env python3
"""Measures what workers cost and save: reading the words of made messages, and bringing them into an index over each of the memories.

Run by hand: bench/index.py. It prints a table: the seconds on the clock and of processor time that so many workers take, starting the
threads counted in, and the time on the clock beside that of one worker. The best of five runs counts, with the time of a run of
`bench_index` taken off that does all but the work: one that makes the mailbox and reads nothing, or that opens the memory and closes it.
The program is built first, if it isn't there: `rt run` in crates/bench_index.
"""

import os
import resource
import subprocess
import sys
import time

TOP = os.path.dirname(os.path.dirname(os.path.abspath(__file__)))
CRATE = os.path.join(TOP, "crates", "bench_index")
PROGRAM = os.path.join(CRATE, "out", "bench_index")
RUNS = 5
# Each task with its messages.
TASKS = [("lists", 100_000), ("turn_memory", 20_000), ("ring", 20_000)]
WORKERS = (1, 2, 4, 64)


def once(task, count, workers):
    """The seconds on the clock and of processor time of one run."""
    before, start = resource.getrusage(resource.RUSAGE_CHILDREN), time.perf_counter()
    done = subprocess.run([PROGRAM, task, str(count), str(workers)], capture_output=True, check=True, text=True)
    clock, after = time.perf_counter() - start, resource.getrusage(resource.RUSAGE_CHILDREN)
    read = count if workers > 0 or task != "lists" else 0
    if not done.stdout.startswith(f"{read} messages, {51 * read} words"):
        sys.exit(f"{task} printed {done.stdout!r}")
    return clock, after.ru_utime - before.ru_utime + after.ru_stime - before.ru_stime


def best(task, count, workers):
    runs = [once(task, count, workers) for _ in range(RUNS)]
    return [min(run[place] for run in runs) for place in (0, 1)]


def main():
    if not os.path.exists(PROGRAM):
        subprocess.run(["rt", "run"], cwd=CRATE, check=True, stdin=subprocess.DEVNULL, stdout=subprocess.DEVNULL)
    print(f"{'':<24} {'workers':>7} {'clock':>10} {'processor':>10} {'beside one':>10}")
    for task, count in TASKS:
        rest = best(task, count, 0)
        one = None
        for workers in WORKERS:
            clock, processor = (full - empty for full, empty in zip(best(task, count, workers), rest))
            one = one or clock
            print(f"{f'{task}, {count:,} messages':<24} {workers:>7} {clock:>8.3f} s {processor:>8.3f} s {clock / one:>10.2f}", flush=True)


if __name__ == "__main__":
    main()
