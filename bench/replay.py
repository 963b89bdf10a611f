#!/usr/bin/env python3
"""Measures what replaying a script costs: `bench/replay.py PROGRAM WORD...`, over `mailring` with the word `--replay`.

The scripts: short transactions by four callers, as many lines of events as a script may have; one read over a ring of 4,096 slots, all published,
with signatures of 1,024 bits; commits by one caller, as many as a script has room for, and half as many; and one writer that stands at `writing`
with 62 callers stamped behind it, whose entries a last caller's reads load.
"""

import resource
import subprocess
import sys


def short_transactions():
    lines = ["ring 64 bits 64 words 64 callers 4 life 1000000"]
    for turn in range(200_000):
        who = turn % 4
        lines += [f"{who} begin run", f"{who} read {turn % 64} run", f"{who} write {turn * 7 % 64} {turn}", f"{who} stamp run", f"{who} turn run"]
    return lines


def long_read():
    lines = ["ring 4096 bits 1024 words 65536 callers 2 life 5000", "0 begin run"]
    for commit in range(4095):
        lines += ["1 begin run", f"1 write 1 {commit}", "1 stamp run", "1 turn run"]
    return lines, [*lines, "0 read 3", "0 step 70000"]


def commits(count):
    lines = ["ring 64 bits 64 words 64 callers 1 life 1000000"]
    for commit in range(count):
        lines += ["0 begin run", f"0 write 1 {commit}", "0 stamp run", "0 turn run"]
    return lines


def place(addr):
    return (addr * 0x9E3779B97F4A7C15 % 2**64) >> 54


def stalled_writer():
    lines = ["ring 64 bits 1024 words 4096 callers 64 life 1000000"]
    lines += [f"{who} begin run" for who in range(64)]
    for who in range(63):
        lines += [f"{who} write {who} 1", f"{who} stamp run", f"{who} turn", f"{who} step 18"]
    written = {place(who) for who in range(63)}
    beside = next(addr for addr in range(63, 4096) if place(addr) not in written)
    lines += [f"63 read {beside} run"] * (1_000_001 - len(lines))
    return lines


def seconds(words, lines):
    script = ("\n".join(lines) + "\n").encode()
    before = resource.getrusage(resource.RUSAGE_CHILDREN)
    done = subprocess.run(words, input=script, capture_output=True)
    after = resource.getrusage(resource.RUSAGE_CHILDREN)
    return done.returncode, after.ru_utime + after.ru_stime - before.ru_utime - before.ru_stime, done.stdout


def report(name, words, lines):
    status, time, trace = seconds(words, lines)
    print(f"{name}: status {status}, {time:.2f} s, {len(lines) - 1} lines of events, {trace.count(10)} lines of trace", flush=True)
    return time


def main():
    words = sys.argv[1:]
    report("short transactions by 4 callers", words, short_transactions())
    before, whole = long_read()
    report("4,095 commits with 1,024 bits", words, before)
    report("the same and one read of the ring", words, whole)
    report("125,000 commits", words, commits(125_000))
    report("250,000 commits", words, commits(250_000))
    report("a stalled writer, 62 stamped behind it", words, stalled_writer())


main()
