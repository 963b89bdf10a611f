#!/usr/bin/env python3
"""Measures what a commit costs on the transaction memories, beside plain Rust programs that do the same.

Run by hand: bench/stm.py. It prints a table: nanoseconds of processor time for each commit, at 1, 2 and 4 threads, and their ratio to
those of the plain program beside it; behind these the commits a second of time on the clock, and the stops for each commit. The programs
take turns, and each figure is the best of seven runs, with the time of a run of no rounds taken off. All programs read and write the same
words, and what they read is compared where the order of the threads can't change it.

`bench/stm.py ring` measures the ring alone. `bench/stm.py instructions` counts the instructions of each commit of the ring by valgrind's
callgrind, at one thread, beside those of the plain one: they don't depend on what else the machine does, and say nothing of what an atomic
store costs.

The program is built first, if it isn't there: `rt run` in crates/bench_stm. The plain ones are built by rustc.
"""

import os
import re
import resource
import subprocess
import sys
import tempfile
import time

TOP = os.path.dirname(os.path.dirname(os.path.abspath(__file__)))
CRATE = os.path.join(TOP, "crates", "bench_stm")
PROGRAM = os.path.join(CRATE, "out", "bench_stm")
RUNS = 7
# For each task the rounds of each thread, and whether the sum of what is read depends on the order of the threads.
TASKS = {"counter": (1_000_000, False), "transfers": (1_000_000, True), "scans": (400_000, False), "batches": (200_000, True)}
BITS = ("64", "1024")
# So many rounds under callgrind, and as many once more: what the second ones take is counted.
COUNTED = 2_000


def run(command):
    """The processor time and the time on the clock of a run, in seconds, and what it printed."""
    before, start = resource.getrusage(resource.RUSAGE_CHILDREN), time.perf_counter()
    done = subprocess.run(command, capture_output=True, check=True, text=True)
    clock, after = time.perf_counter() - start, resource.getrusage(resource.RUSAGE_CHILDREN)
    return after.ru_utime - before.ru_utime + after.ru_stime - before.ru_stime, clock, done.stdout


def measure(commands, threads, rounds, ordered):
    """For each command its best times for a commit, and its stops for a commit. They take turns."""
    best = [[None, None, 0] for _ in commands]
    sums = set()
    for _ in range(RUNS):
        for figures, command in zip(best, commands):
            empty = run([*command, str(threads), "0"])
            full = run([*command, str(threads), str(rounds)])
            commits, _, stops, _, _, total = full[2].split()
            if int(commits) != threads * rounds:
                sys.exit(f"{command[0]} printed {full[2]!r}")
            sums.add(total)
            for place in (0, 1):
                each = (full[place] - empty[place]) / int(commits)
                figures[place] = each if figures[place] is None else min(figures[place], each)
            figures[2] = int(stops) / int(commits)
    if len(sums) > 1 and (threads == 1 or not ordered):
        sys.exit(f"{commands[0]} and the plain programs read different words")
    return best


def row(name, threads, figures, base):
    """Prints a row: the processor time of a commit, its ratio to that of the first plain program, commits a second, and stops."""
    cpu, clock, stops = figures
    ratio = f"{cpu / base:.2f}" if base else ""
    print(f"{name:<28} {threads:>7} {cpu * 1e9:>10.1f} ns {ratio:>6} {1 / clock:>13,.0f} a second {stops:>7.3f} stops")


def measure_turn_memory(locks):
    """The memory that runs one attempt at a time, beside mutexes."""
    for task, (rounds, ordered) in TASKS.items():
        for threads in (1, 2, 4):
            ours, mutex, words = measure([[PROGRAM, task], [locks, "mutex", task], [locks, "words", task]], threads, rounds, ordered)
            row(f"{task}: TurnMemory", threads, ours, mutex[0])
            row(f"{task}: one mutex", threads, mutex, None)
            row(f"{task}: a mutex a word", threads, words, mutex[0])


def measure_ring(ring):
    """The ring, beside the plain one. With several threads their sums differ: ours counts what an attempt read that its commit refused."""
    for task, (rounds, _) in TASKS.items():
        for bits in BITS:
            for threads in (1, 2, 4):
                ours, plain = measure([[PROGRAM, "ring", bits, task], [ring, bits, task]], threads, rounds, True)
                row(f"{task}, {bits} bits: ring", threads, ours, plain[0])
                row(f"{task}, {bits} bits: plain ring", threads, plain, None)


def counted(command):
    """The instructions that a command takes."""
    valgrind = ["valgrind", "--tool=callgrind", "--callgrind-out-file=/dev/null"]
    done = subprocess.run([*valgrind, *command], capture_output=True, check=True, text=True)
    return int(re.search(r"Collected : (\d+)", done.stderr)[1])


def count_instructions(ring):
    """The instructions of each commit of the ring and of the plain one, at one thread."""
    for task in TASKS:
        for bits in BITS:
            each = []
            for command in ([PROGRAM, "ring", bits, task], [ring, bits, task]):
                few, more = (counted([*command, "1", str(times * COUNTED)]) for times in (1, 2))
                each.append((more - few) / COUNTED)
            print(f"{task + ', ' + bits + ' bits':<28} {each[0]:>9,.0f} {each[1]:>9,.0f} {each[0] / each[1]:>6.2f}")


def main():
    wanted = sys.argv[1:]
    if not os.path.exists(PROGRAM):
        subprocess.run(["rt", "run"], cwd=CRATE, check=True, stdin=subprocess.DEVNULL, stdout=subprocess.DEVNULL)
    with tempfile.TemporaryDirectory() as folder:
        locks, ring = os.path.join(folder, "locks"), os.path.join(folder, "ring")
        for program in (locks, ring):
            source = os.path.join(TOP, "bench", f"{os.path.basename(program)}.rs")
            subprocess.run(["rustc", "--edition", "2021", "-O", "-o", program, source], check=True)
        if "instructions" in wanted:
            print(f"{'':<28} {'ring':>9} {'plain':>9} {'ratio':>6}")
            count_instructions(ring)
            return
        print(f"{'':<28} {'threads':>7} {'a commit':>13} {'ratio':>6}")
        if "ring" not in wanted:
            measure_turn_memory(locks)
        measure_ring(ring)


main()
