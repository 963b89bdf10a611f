#!/usr/bin/env python3
"""Runs the program that was built last as a user does: real streams, real exit statuses."""

import os
import subprocess
import sys
import time

TOP = os.path.dirname(os.path.dirname(os.path.abspath(__file__)))
PROGRAM = os.path.join(TOP, "crates", "mailring", "out", "mailring")
LIMIT = 67_108_864
USAGE = (
    b"mailring: usage: mailring [--workers N] [--ring R] [--bits B] [--report] [--generate N] "
    b"QUERY... or mailring --replay\n"
)

passed = 0
failed = 0


def example(name):
    with open(os.path.join(TOP, "examples", name), "rb") as file:
        return file.read()


def check(name, got, wanted):
    global passed, failed
    if got == wanted:
        passed += 1
    else:
        failed += 1
        print(f"{name}: got {got!r}, wanted {wanted!r}")


def run(words, data, **options):
    """The status, the output and the note of one run."""
    done = subprocess.run([PROGRAM, *words], input=data, capture_output=True, timeout=120, **options)
    return done.returncode, done.stdout, done.stderr


def answers(name, words, data, output):
    check(name, run(words, data), (0, output, b""))


def refuses(name, words, data, status, note):
    check(name, run(words, data), (status, b"", note))


def test_answers():
    three = example("three.mbox")
    answers("a word of two messages", ["ring"], three, b"2: 1 3\n")
    answers("capitals in the word sought", ["RiNg"], three, b"2: 1 3\n")
    answers("a word of a separator only", ["alice"], three, b"0:\n")
    answers("a word of no message", ["x"], three, b"0:\n")
    answers("a word of the list", ["octet"], example("list.mbox"), b"1: 2\n")
    answers("a word beside base64", ["b3duZXJzaGlwIHJlY29yZHMu"], example("list.mbox"), b"1: 2\n")
    answers("empty input", ["x"], b"", b"0:\n")
    answers("two empty lines", ["x"], b"\n\n", b"0:\n")
    answers("a line that begins as a separator", ["two"], b"From a\none\nFrom two\n", b"1: 1\n")
    answers("the same behind an empty line", ["two"], b"From a\none\n\nFrom two\n", b"0:\n")
    answers("carriage returns", ["z"], b"From a\r\nx y\r\n\r\nFrom b\r\nz", b"1: 2\n")
    answers("a run of 32 letters", ["a" * 32], b"From a\n" + b"a" * 32 + b"\n", b"1: 1\n")
    answers("a run of 33 letters", ["b"], b"From a\n" + b"b" * 33 + b"\n", b"0:\n")
    answers("bytes that are no text", ["b"], b"From a\n\xffb\x00c_d\n", b"1: 1\n")
    answers("two queries", ["hello !ring", "alice"], three, b"1: 2\n0:\n")
    answers("parentheses", ["(ring|bloom) !(subject hello)"], three, b"1: 3\n")
    answers("64 queries", ["ring"] * 64, three, b"2: 1 3\n" * 64)
    answers("spaces", ["  ring  |  other "], three, b"3: 1 2 3\n")
    check("from another folder", run(["ring"], three, cwd="/"), (0, b"2: 1 3\n", b""))


def test_refusals():
    three = example("three.mbox")
    mbox = b"mailring: input is not an mbox\n"
    refuses("no mailbox", ["ring"], b"Hello\n", 3, mbox)
    refuses("one carriage return", ["ring"], b"\r", 3, mbox)
    refuses("a byte order mark", ["ring"], b"\xef\xbb\xbf" + three, 3, mbox)
    refuses("no query", [], three, 2, USAGE)
    refuses("65 queries", ["ring"] * 65, three, 2, USAGE)
    refuses("an option", ["--help"], three, 2, USAGE)
    refuses("an option behind a query", ["ring", "-x"], three, 2, USAGE)
    refuses("a word that isn't UTF-8", [b"\xff"], three, 2, USAGE)
    refuses("an empty query", [""], three, 5, b"mailring: query 1: bad\n")
    refuses("half a query", ["ring", "a |"], three, 5, b"mailring: query 2: bad\n")
    refuses("a word of 33 letters", ["a" * 33], three, 5, b"mailring: query 1: long word\n")
    refuses("a byte of no query", ["a-b"], three, 5, b"mailring: query 1: bad\n")
    refuses("33 parentheses", ["(" * 33 + "a" + ")" * 33], three, 5, b"mailring: query 1: too deep\n")
    answers("32 parentheses", ["(" * 32 + "ring" + ")" * 32], three, b"2: 1 3\n")
    refuses("a query of 4,097 bytes", ["a" + " " * 4096], three, 5, b"mailring: query 1: too long\n")
    answers("a query of 4,096 bytes", ["ring" + " " * 4092], three, b"2: 1 3\n")
    refuses("the last of 64 queries", ["a"] * 63 + ["|"], three, 5, b"mailring: query 64: bad\n")
    refuses("a query comes before the input", ["|"], b"Hello\n", 5, b"mailring: query 1: bad\n")


def drawn(number):
    """The numbers of the 48 words in the lines of a made message, by the generator's rule."""
    first = 48 * (number - 1)
    return {(first + place) * 0x9E3779B97F4A7C15 % 2**64 >> 48 for place in range(1, 49)}


def answer_line(numbers):
    return b"%d:%s\n" % (len(numbers), b"".join(b" %d" % number for number in numbers))


def test_options():
    three = example("three.mbox")
    answers("workers", ["--workers", "3", "--", "ring"], three, b"2: 1 3\n")
    answers("an option behind a query", ["ring", "--workers=064"], three, b"2: 1 3\n")
    refuses("a query that begins with a dash", ["--", "-a"], three, 5, b"mailring: query 1: bad\n")
    refuses("65 workers", ["--workers", "65", "x"], three, 2, USAGE)
    refuses("an option twice", ["--workers", "3", "--workers", "3", "x"], three, 2, USAGE)
    for bits in ("64", "128", "256", "512", "1024"):
        answers(f"signatures of {bits} bits", ["--bits", bits, "ring"], three, b"2: 1 3\n")
    for entries in ("1", "2", "4096"):
        answers(f"a ring of {entries} entries", ["--ring", entries, "ring"], three, b"2: 1 3\n")
    answers("the least ring over empty input", ["--ring", "1", "--bits", "064", "x"], b"", b"0:\n")
    answers("a report", ["--report", "ring"], three, b"2: 1 3\ncommits 3 seals 0\n")
    answers("a report behind two queries", ["ring", "--report", "--workers", "1", "hello"], three, b"2: 1 3\n2: 1 2\ncommits 3 seals 0\n")
    answers("a report on no messages", ["--report", "x"], b"", b"0:\ncommits 0 seals 0\n")
    for line in (["--ring", "0"], ["--ring", "4097"], ["--bits", "96"], ["--bits", "0"], ["--report=1"], ["--report", "--report"]):
        refuses(" ".join(line), [*line, "x"], three, 2, USAGE)
    refuses("a report alone", ["--report"], three, 2, USAGE)
    for line in (["--ring", "8"], ["--bits", "64"], ["--report"], ["--workers", "4"], ["--generate", "1"], ["x"], ["--replay"]):
        refuses("a replay with " + line[0], ["--replay", *line], b"no script\n", 2, USAGE)
    answers("a made mailbox", ["--generate", "20", "d7"], b"", b"2: 7 17\n")
    answers("a mailbox of no messages", ["--generate", "0", "d7"], b"", b"0:\n")
    for workers in ("1", "4"):
        answers("2,000 made messages", ["--generate", "2000", "--workers", workers, "w40503"], b"", b"2: 1 1564\n")
    answers("a small ring", ["--generate", "2000", "--workers", "4", "--ring", "8", "--bits", "64", "w40503"], b"", b"2: 1 1564\n")
    answers("one of 2,000 made messages", ["--generate", "2000", "m1564 w40503"], b"", b"1: 1564\n")
    refuses("a message too many", ["--generate", "100001", "x"], b"", 2, USAGE)
    numbers = range(1, 100_001)
    lines = answer_line([number for number in numbers if 40503 in drawn(number)])
    lines += answer_line([number for number in numbers if number % 10 == 7])
    answers("the largest made mailbox", ["--generate", "100000", "--workers", "4", "w40503", "d7"], b"", lines)


def not_read(line):
    return b"mailring: script line %d is not read\n" % line


def test_replays():
    names = sorted(name.removesuffix(".script") for name in os.listdir(os.path.join(TOP, "examples", "scripts")) if name.endswith(".script"))
    check("scripts to replay", len(names), 8)
    for name in names:
        script = example(f"scripts/{name}.script")
        if name == "owned":
            refuses("a script that seals a region", ["--replay"], script, 9, not_read(8))
        else:
            answers(f"the script {name}", ["--replay"], script, example(f"scripts/{name}.trace"))
    front = b"ring 4 bits 64 words 64 callers 1 life 100\n"
    answers("a script of its first line alone", ["--replay"], front, b"index 0\n")
    answers("a word that opens as another number", ["--replay"], front + b"word 5 7\n", b"index 0\nword 5 7\n")
    answers("a lone `--` behind", ["--replay", "--"], front, b"index 0\n")
    refuses("a turn before a stamp", ["--replay"], front + b"0 turn\n", 9, not_read(2))
    refuses("a refused event behind others", ["--replay"], front + b"0 begin run\n\n# here\n0 turn\n0 done\n", 9, not_read(5))
    refuses("an event behind which a line is no script's", ["--replay"], front + b"0 turn\n0 begin \n", 9, not_read(3))
    refuses("a mailbox", ["--replay"], example("three.mbox"), 9, not_read(1))
    refuses("no script", ["--replay"], b"", 9, not_read(1))
    large = b"mailring: input is larger than 67108864 bytes\n"
    refuses("a script larger than the limit", ["--replay"], front + b"#" * LIMIT, 4, large)


def test_limit():
    front = b"From a\n\n"
    body = b"a b\n" * ((LIMIT - len(front)) // 4)
    at_limit = front + body + b"\n" * (LIMIT - len(front) - len(body))
    check("bytes at the limit", len(at_limit), LIMIT)
    answers("input at the limit", ["b"], at_limit, b"1: 1\n")
    refuses("a byte more", ["b"], at_limit + b"\n", 4, b"mailring: input is larger than 67108864 bytes\n")
    refuses("too large comes before no mailbox", ["b"], b"x" * (LIMIT + 1), 4, b"mailring: input is larger than 67108864 bytes\n")


def test_streams():
    three = example("three.mbox")
    slow = subprocess.Popen([PROGRAM, "ring"], stdin=subprocess.PIPE, stdout=subprocess.PIPE, stderr=subprocess.PIPE)
    for start in range(0, len(three), 37):
        slow.stdin.write(three[start : start + 37])
        slow.stdin.flush()
        time.sleep(0.01)
    output, note = slow.communicate(timeout=60)
    check("slow input", (slow.returncode, output, note), (0, b"2: 1 3\n", b""))

    def shell(line):
        done = subprocess.run(["sh", "-c", line, "sh", PROGRAM], input=three, capture_output=True, timeout=60)
        return done.returncode, done.stdout, done.stderr

    check("closed input", shell('"$1" ring <&-'), (1, b"", b"mailring: reading failed\n"))
    check("closed output", shell('"$1" ring >&-'), (6, b"", b"mailring: writing failed\n"))
    check("closed notes", shell('"$1" 2>&-'), (2, b"", b""))
    check("a replay of closed input", shell('"$1" --replay <&-'), (1, b"", b"mailring: reading failed\n"))
    check("a trace to closed output", shell('echo ring 1 bits 64 words 1 callers 1 life 1 | "$1" --replay >&-'), (6, b"", b"mailring: writing failed\n"))
    check("a folder as input", shell('"$1" ring </'), (1, b"", b"mailring: reading failed\n"))
    if os.path.exists("/dev/full"):
        check("full output", shell('"$1" ring >/dev/full'), (6, b"", b"mailring: writing failed\n"))
        check("full notes", shell('"$1" 2>/dev/full'), (2, b"", b""))


def main():
    if not os.access(PROGRAM, os.X_OK):
        sys.exit(f"tests/mailring.py: there is no program {PROGRAM}: rt ci or bin/mailring builds it")
    for test in (test_answers, test_refusals, test_options, test_replays, test_limit, test_streams):
        test()
    print(f"{passed} passed, {failed} failed")
    return 1 if failed else 0


if __name__ == "__main__":
    sys.exit(main())
