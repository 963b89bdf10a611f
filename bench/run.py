#!/usr/bin/env python3
"""Measures the program on generated mailboxes, beside a plain Rust program and the indexers that are installed.

Run by hand: bench/run.py. It prints a table: seconds (the best of five runs) and the processor's seconds of that run, the
peak memory of these runs and the memory that was seen last, and the ratio of the seconds to those of the plain Rust
program, whose answers are compared with the program's. The program runs with 1, 4 and 64 workers. `--generate` is the
program with 4 workers that makes the same mailbox itself and reads none. An indexer makes its index from nothing in each
run. A child's peak counts from that of this script on, about 14 MB: less isn't seen.
"""

import os
import shutil
import subprocess
import sys
import tempfile
import time

TOP = os.path.dirname(os.path.dirname(os.path.abspath(__file__)))
PROGRAM = os.path.join(TOP, "crates", "mailring", "out", "mailring")
SIZES = (2_000, 20_000, 100_000)
RUNS = 5
WORKERS = (1, 4, 64)
WORD = "w40503"
MIX = 0x9E3779B97F4A7C15


def message(number):
    """A message of 51 distinct words: 48 by a multiplicative hash, its number, its last digit, and `subject`."""
    first = 48 * (number - 1)
    words = [f"w{((first + place) * MIX % 2**64) >> 48}" for place in range(1, 49)]
    lines = [" ".join(words[start : start + 12]) for start in range(0, 48, 12)]
    head = ["From gen@example.org Thu Jan  1 00:00:00 1970", f"Subject: m{number} d{number % 10}", ""]
    return "\n".join([*head, *lines, "", ""])


def make_mailbox(path, messages):
    with open(path, "w", encoding="ascii") as file:
        for number in range(1, messages + 1):
            file.write(message(number))


def make_maildir(folder, messages):
    """The same messages, each in a file of its own, as the indexers want them (mairix takes 65,536 of one mailbox)."""
    for name in ("cur", "new", "tmp"):
        os.makedirs(os.path.join(folder, "maildir", name))
    for number in range(1, messages + 1):
        with open(os.path.join(folder, "maildir", "cur", f"{number}:2,S"), "w", encoding="ascii") as file:
            file.write(message(number).split("\n", 1)[1])


def last_seen(pid):
    """The memory of a running process in KiB when it was seen last. It is looked at every few milliseconds."""
    seen = 0
    while True:
        try:
            with open(f"/proc/{pid}/statm", encoding="ascii") as file:
                pages = int(file.read().split()[1])
        except (OSError, IndexError):
            return seen
        if not pages:
            return seen
        seen = pages * os.sysconf("SC_PAGE_SIZE") // 1024
        time.sleep(0.002)


def measure(command, path, made=None):
    """The best time in seconds, the processor's seconds of that run, the peak memory of some runs and the last memory seen, in KiB,
    and the output. What a run makes is taken away before the next."""
    best, busy, peak, open_at, output = None, 0.0, 0, 0, b""
    for _ in range(RUNS):
        if made:
            shutil.rmtree(made, ignore_errors=True)
        with open(path, "rb") as mailbox, tempfile.TemporaryFile() as written:
            start = time.perf_counter()
            run = subprocess.Popen(command, stdin=mailbox, stdout=written)
            seen = last_seen(run.pid)
            _, status, used = os.wait4(run.pid, 0)
            seconds = time.perf_counter() - start
            run.returncode = os.waitstatus_to_exitcode(status)
            if run.returncode:
                sys.exit(f"{command[0]} ended with status {run.returncode}")
            written.seek(0)
            output = written.read()
        if best is None or seconds < best:
            best, busy = seconds, used.ru_utime + used.ru_stime
        peak = max(peak, used.ru_maxrss)
        open_at = max(open_at, seen)
    return best, busy, peak, open_at, output


def row(name, messages, measured, base):
    """Prints a row: what was measured, and the ratio of its seconds to others, where there are any."""
    seconds, busy, peak, seen, _ = measured
    ratio = f"{seconds / base:.2f}" if base else ""
    print(f"{name:<12} {messages:>9,} {seconds:>9.3f} s {busy:>9.3f} s {peak / 1024:>6.0f} MB {seen / 1024:>6.0f} MB {ratio}")


def indexers(folder):
    """The installed indexers of mail, each with the command that indexes the messages in this folder, and the folder that it makes."""
    if shutil.which("mairix"):
        config, made = os.path.join(folder, "mairixrc"), os.path.join(folder, "mairix")
        with open(config, "w", encoding="ascii") as file:
            file.write(f"base={folder}\nmaildir=maildir\nmfolder=found\nmformat=mbox\ndatabase={made}/index\n")
        yield "mairix", f"mkdir {made} && mairix -Q -f {config}", made
    if shutil.which("notmuch"):
        config, made = os.path.join(folder, "notmuch.conf"), os.path.join(folder, "maildir", ".notmuch")
        with open(config, "w", encoding="ascii") as file:
            file.write(f"[database]\npath={folder}/maildir\n[user]\nname=bench\nprimary_email=bench@example.org\n")
        yield "notmuch", f"NOTMUCH_CONFIG={config} notmuch new --quiet", made
    if shutil.which("mu"):
        made = os.path.join(folder, "mu")
        home = f"--muhome={made} --quiet"
        yield "mu", f"mu init {home} --maildir={folder}/maildir && mu index {home}", made


def main():
    if not os.access(PROGRAM, os.X_OK):
        sys.exit(f"bench/run.py: there is no program {PROGRAM}: rt ci or bin/mailring builds it")
    with tempfile.TemporaryDirectory() as folder:
        plain = os.path.join(folder, "plain")
        rustc = shutil.which("rustc")
        if rustc:
            source = os.path.join(TOP, "bench", "plain.rs")
            subprocess.run([rustc, "--edition", "2021", "-O", "-o", plain, source], check=True)
        else:
            print("rustc isn't installed, so the plain program is left out")
        for name in ("mairix", "notmuch", "mu"):
            if not shutil.which(name):
                print(f"{name} isn't installed and is left out")
        print(f"{'':<12} {'messages':>9} {'time':>11} {'processor':>11} {'peak':>9} {'last':>9} ratio")
        for messages in SIZES:
            path = os.path.join(folder, f"{messages}.mbox")
            make_mailbox(path, messages)
            base = None
            if rustc:
                by_plain = measure([plain, WORD], path)
                base = by_plain[0]
            made = measure([PROGRAM, "--generate", str(messages), WORD], os.devnull)
            for workers in WORKERS:
                ours = measure([PROGRAM, "--workers", str(workers), WORD], path)
                if made[-1] != ours[-1] or (rustc and by_plain[-1] != ours[-1]):
                    sys.exit(f"the answers of {workers} workers differ at {messages} messages")
                row(f"{workers} workers", messages, ours, base)
            row("--generate", messages, made, base)
            if rustc:
                row("plain Rust", messages, by_plain, base)
            with tempfile.TemporaryDirectory() as own:
                make_maildir(own, messages)
                for name, command, made in indexers(own):
                    row(name, messages, measure(["sh", "-c", command], path, made), base)


if __name__ == "__main__":
    main()
