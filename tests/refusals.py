#!/usr/bin/env python3
"""Refuses each allocation of the built program in turn, with two workers over the mailbox of three messages.

Run by hand: tests/refusals.py. Each run must end within seconds, with status 0 and the whole output, or with status 7, the note and a
beginning of the output. It ends with status 1 where one doesn't. A small C library, which is put before the program's own `malloc`,
`calloc` and `realloc`, refuses call N; without a C compiler nothing is tried. How many calls a run makes may depend on which worker is
first, so the runs go on until a few in a row made fewer calls than N.
"""

import os
import shutil
import subprocess
import sys
import tempfile

TOP = os.path.dirname(os.path.dirname(os.path.abspath(__file__)))
PLACES = ("bin/out/mailring", "crates/mailring/out/mailring")
MAILBOX = os.path.join(TOP, "examples", "three.mbox")
WORDS = ["--workers", "2", "ring", "hello"]
OUTPUT = b"2: 1 3\n2: 1 2\n"
NOTE = b"mailring: no memory\n"
SECONDS = 20
# So many runs in a row in which nothing was left to refuse end the trial, and so many runs at most are made.
ENOUGH = 5
MOST = 2_000

LIBRARY = r"""
#include <errno.h>
#include <fcntl.h>
#include <stdatomic.h>
#include <stdlib.h>
#include <unistd.h>

extern void *__libc_malloc(size_t);
extern void *__libc_calloc(size_t, size_t);
extern void *__libc_realloc(void *, size_t);

static atomic_long calls, refused_call;

__attribute__((constructor)) static void begin(void) {
    char *number = getenv("REFUSED_CALL");
    atomic_store(&calls, 0);
    atomic_store(&refused_call, number ? atol(number) : 0);
}

/* Leaves a file where the call came: the program may end without its destructors. */
static int refused(void) {
    char *path = getenv("REFUSED_FILE");
    if (atomic_fetch_add(&calls, 1) + 1 != atomic_load(&refused_call)) return 0;
    if (path) close(open(path, O_CREAT | O_WRONLY, 0600));
    errno = ENOMEM;
    return 1;
}

void *malloc(size_t size) { return refused() ? 0 : __libc_malloc(size); }
void *calloc(size_t count, size_t size) { return refused() ? 0 : __libc_calloc(count, size); }
void *realloc(void *old, size_t size) { return refused() ? 0 : __libc_realloc(old, size); }
"""


def program():
    for place in PLACES:
        path = os.path.join(TOP, place)
        if os.access(path, os.X_OK):
            return path
    sys.exit("tests/refusals.py: the program isn't built; bin/mailring builds it")


def build(folder):
    """The library, or None where there is no C compiler."""
    compiler = shutil.which("cc") or shutil.which("gcc") or shutil.which("clang")
    if compiler is None:
        return None
    source, library = os.path.join(folder, "refused.c"), os.path.join(folder, "refused.so")
    with open(source, "w") as file:
        file.write(LIBRARY)
    subprocess.run([compiler, "-O", "-shared", "-fPIC", "-o", library, source], check=True)
    return library


def run(library, call, came):
    """One run in which this call is refused, or none where it is 0: whether it came, and what went wrong, if something did."""
    environment = {**os.environ, "LD_PRELOAD": library, "REFUSED_CALL": str(call), "REFUSED_FILE": came}
    with open(MAILBOX, "rb") as mailbox:
        try:
            done = subprocess.run([program(), *WORDS], stdin=mailbox, capture_output=True, env=environment, timeout=SECONDS)
        except subprocess.TimeoutExpired:
            return True, f"it didn't end within {SECONDS} s", None
    there = os.path.exists(came)
    if there:
        os.remove(came)
    whole = done.returncode == 0 and done.stdout == OUTPUT and done.stderr == b""
    wanted = done.returncode == 7 and OUTPUT.startswith(done.stdout) and done.stderr == NOTE
    if whole or (wanted and call > 0):
        return there, None, done.returncode
    return there, f"status {done.returncode}, output {done.stdout!r}, notes {done.stderr!r}", done.returncode


def main():
    with tempfile.TemporaryDirectory() as folder:
        library = build(folder)
        if library is None:
            print("no C compiler: nothing is tried")
            return 0
        came = os.path.join(folder, "came")
        wrong, statuses, missed, call = 0, {0: 0, 7: 0}, 0, 0
        while missed < ENOUGH and call < MOST:
            there, fault, status = run(library, call, came)
            if fault:
                wrong += 1
                print(f"call {call} refused: {fault}")
            elif call > 0 and there:
                statuses[status] += 1
            missed = 0 if there or call == 0 else missed + 1
            call += 1
        print(f"{sum(statuses.values())} calls refused in turn: status 7 at {statuses[7]}, status 0 at {statuses[0]}, {wrong} wrong")
        return 1 if wrong or call == MOST else 0


if __name__ == "__main__":
    sys.exit(main())
