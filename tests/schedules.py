#!/usr/bin/env python3
"""Shows that the drawings of docs/SCHEDULES.md are those of the program that was built last."""

import os
import subprocess
import sys

TOP = os.path.dirname(os.path.dirname(os.path.abspath(__file__)))
COMMAND = [os.path.join(TOP, "crates", "mailring", "out", "mailring"), "--replay"]


def main():
    if not os.access(COMMAND[0], os.X_OK):
        sys.exit(f"tests/schedules.py: there is no program {COMMAND[0]}: rt ci builds it")
    return subprocess.run([sys.executable, os.path.join(TOP, "docs", "schedules.py"), "--check", *COMMAND]).returncode


if __name__ == "__main__":
    sys.exit(main())
