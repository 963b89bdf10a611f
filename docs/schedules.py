#!/usr/bin/env python3
"""Draws the schedules of SCHEDULES.md: `docs/schedules.py [--check] PROGRAM [WORD ..]`, where the program replays the script on its standard input.

Below each line of the document that names a script of examples/scripts stands its drawing. A row is one line of events; what it changed is found by
replaying each beginning of the script. With --check nothing is written: the status is 1 where a drawing isn't the one that would be written, or a
script that has a trace isn't drawn.
"""

import os
import re
import subprocess
import sys

FOLDER = os.path.dirname(os.path.abspath(__file__))
DOCUMENT = os.path.join(FOLDER, "SCHEDULES.md")
SCRIPTS = os.path.join(os.path.dirname(FOLDER), "examples", "scripts")
DRAWING = re.compile(r"(^`examples/scripts/(\w+)\.script`.*\n\n)((?:^\|.*\n)*)", re.MULTILINE)
SETUP = ("ring", "region", "word")


def replayed(command, lines):
    """What the requests were answered, and the index and the words, as the lines of the trace."""
    script = "".join(line + "\n" for line in lines)
    done = subprocess.run(command, input=script, capture_output=True, text=True, timeout=60)
    if done.returncode != 0:
        sys.exit(f"schedules.py: {command[0]} ended with status {done.returncode} at {lines[-1]!r}")
    trace = done.stdout.splitlines()
    at = next(at for at, line in enumerate(trace) if line.startswith("index "))
    return trace[:at], trace[at:]


def rows(command, lines):
    """For each line of events: its caller, the request with what was answered, and the index and the words then."""
    setup = [line for line in lines if line.startswith(SETUP)]
    events = lines[len(setup):]
    told = 0
    for count, event in enumerate(events, 1):
        answers, state = replayed(command, setup + events[:count])
        caller, request = event.split(" ", 1)
        new = [answer.split(" ", 1) for answer in answers[told:]]
        if any(who != caller for who, _ in new):
            sys.exit(f"schedules.py: {event!r} had an answer for another caller")
        told = len(answers)
        yield int(caller), ": ".join([f"`{request}`", *(answer for _, answer in new)]), ", ".join(state)


def drawing(command, name):
    with open(os.path.join(SCRIPTS, name + ".script"), encoding="ascii") as file:
        lines = file.read().splitlines()
    callers = int(lines[0].split()[lines[0].split().index("callers") + 1])
    table = [[f"caller {caller}" for caller in range(callers)] + ["then"]]
    for caller, request, state in rows(command, lines):
        table.append([request if column == caller else "" for column in range(callers)] + [state])
    widths = [max(len(row[column]) for row in table) for column in range(callers + 1)]
    table.insert(1, ["-" * width for width in widths])
    return "".join("| " + " | ".join(cell.ljust(width) for cell, width in zip(row, widths)) + " |\n" for row in table)


def main(words):
    check = words[:1] == ["--check"]
    command = words[check:]
    if not command:
        sys.exit(__doc__)
    with open(DOCUMENT, encoding="utf-8") as file:
        old = file.read()
    new = DRAWING.sub(lambda found: found[1] + drawing(command, found[2]), old)
    if not check:
        with open(DOCUMENT, "w", encoding="utf-8") as file:
            file.write(new)
        return 0
    drawn = {found[2] for found in DRAWING.finditer(old)}
    traced = {name[: -len(".trace")] for name in os.listdir(SCRIPTS) if name.endswith(".trace")}
    if drawn != traced:
        print(f"schedules.py: drawn are {sorted(drawn)}, and traced {sorted(traced)}")
    if old != new:
        print("schedules.py: docs/SCHEDULES.md is stale: draw it anew")
    return int(drawn != traced or old != new)


if __name__ == "__main__":
    sys.exit(main(sys.argv[1:]))
