#!/usr/bin/env python3
"""Measures the built program on inputs that cost much for their size, beside the bounds that it is held to.

Run by hand: tests/hostile.py. It prints a table of processor seconds and peak memory, and ends with status 1 where a
bound is passed or an answer isn't the wanted one. A row with no bound is shown for what it costs. Where several rows
ask the same mailbox, the first asks for one word, and the bounds of the others are on what they take beyond it: what
their queries cost, and not that the mailbox is read and indexed.
"""

import itertools
import os
import string
import subprocess
import sys
import tempfile

TOP = os.path.dirname(os.path.dirname(os.path.abspath(__file__)))
PLACES = ("bin/out/mailring", "crates/mailring/out/mailring")
LIMIT = 67_108_864
MESSAGES = 1_048_576
EIGHT = "abcdefgh"
ALPHABET = string.ascii_lowercase + string.digits
# The bucket and the lane of `ring`. So many messages of all 7,513 words of five letters and digits there have a tenth of the words that are taken.
BUCKET = (879, 1)
ONE_BUCKET_MESSAGES = 112
PAIRS = ["".join(pair) for pair in itertools.product(ALPHABET, repeat=2)][:1000]


def program():
    for place in PLACES:
        path = os.path.join(TOP, place)
        if os.access(path, os.X_OK):
            return path
    sys.exit("tests/hostile.py: the program isn't built; bin/mailring builds it")


# Files are written piece by piece: the memory of a child counts what its parent held when it began.
def fill(file, piece, count):
    at_once = max(1, 1_048_576 // len(piece))
    for first in range(0, count, at_once):
        file.write(piece * min(at_once, count - first))


def one_word(file):
    """One message of as many runs `a` as fit."""
    head = b"From a\n"
    file.write(head)
    fill(file, b"a ", (LIMIT - len(head)) // 2)


def distinct_words(file):
    """One message of 8,250,000 words of seven letters and digits."""
    words = ("".join(letters) for letters in itertools.product(ALPHABET, repeat=7))
    file.write(b"From a\n")
    for _ in range(825):
        file.write((" ".join(itertools.islice(words, 10_000)) + " ").encode())


def eight_words(file):
    """As many messages as are taken, each with the same eight words."""
    fill(file, f"From a\n{' '.join(EIGHT)}\n\n".encode(), MESSAGES)


def spread_words(file):
    """As many messages as are taken, with eight each of 1,000 words in turn: the same 125 messages over and over."""
    lines = (" ".join(PAIRS[first : first + 8]) for first in range(0, len(PAIRS), 8))
    fill(file, "".join(f"From a\n{line}\n\n" for line in lines).encode(), MESSAGES // 125)


def line_feeds(file):
    fill(file, b"\n", LIMIT)


def separators(file):
    fill(file, b"From a\n\n", MESSAGES)


def packed(numbers):
    """Numbers of 64 bits in one, each in a place of 128 bits, so that one step of the hash is taken of all of them at once."""
    return int.from_bytes(b"".join(number.to_bytes(16, "little") for number in numbers), "little")


def hashed(numbers, ones):
    """One round of a key's hash, of each of the packed numbers."""
    low = ones * (2**64 - 1)
    products = numbers * 0x9E37_79B9_7F4A_7C15 & low
    return products ^ (products >> 32 & ones * (2**32 - 1))


def of_one_bucket(bucket, lane):
    """The words of five letters and digits that fall into this bucket of this lane: some 7,400."""
    ends = ["".join(letters) for letters in itertools.product(ALPHABET, repeat=3)]
    ones = packed([1] * len(ends))
    behind = packed([int.from_bytes(end.encode().ljust(6, b"\0"), "big") for end in ends])
    wanted = bucket << 3 | lane
    words = []
    for front in itertools.product(ALPHABET, repeat=2):
        keys = behind + ones * (int.from_bytes("".join(front).encode(), "big") << 48)
        for _ in range(4):
            keys = hashed(keys, ones)
        found = keys.to_bytes(16 * len(ends), "little")
        highest = found[7::16]
        place = highest.find(wanted >> 5)
        while place >= 0:
            if found[16 * place + 6] >> 3 == wanted & 31:
                words.append("".join(front) + ends[place])
            place = highest.find(wanted >> 5, place + 1)
    return words


def one_bucket(file):
    """A tenth of the words that are taken, all of one bucket: each message has all of them that there are."""
    words = of_one_bucket(*BUCKET)
    fill(file, f"From a\n{' '.join(words)}\n\n".encode(), ONE_BUCKET_MESSAGES)


def turns(joint, count, words=EIGHT):
    """So many of the words, one after the other."""
    return joint.join(itertools.islice(itertools.cycle(words), count))


def answer_of(messages):
    line = bytearray(f"{len(messages)}:".encode())
    for first in range(0, len(messages), 10_000):
        line += "".join(f" {number}" for number in messages[first : first + 10_000]).encode()
    return bytes(line + b"\n")


def answer(hits):
    return answer_of(range(1, hits + 1))


EVERYTHING = answer(MESSAGES)

# The mailbox, its queries, what is printed (None: it isn't compared), and the bounds in seconds and in MB.
CASES = [
    ("33 million runs of one letter", one_word, ["a"], b"1: 1\n", 2.0, 200),
    ("8.25 million distinct words", distinct_words, ["aaaaaaa"], b"1: 1\n", None, None),
    ("67 million line feeds", line_feeds, ["a"], b"0:\n", None, None),
    ("separators alone", separators, ["!a"], EVERYTHING, None, None),
    ("eight words, one of them asked for", eight_words, ["a"], EVERYTHING, None, None),
    ("2,048 choices", eight_words, [turns("|", 2048)], EVERYTHING, 1.5, None),
    ("2,048 side by side", eight_words, [turns(" ", 2048)], EVERYTHING, 1.5, None),
    ("1,024 choices of two", eight_words, ["|".join(["a b", "c d", "e f", "g h"] * 256)[:4095]], EVERYTHING, 5.0, None),
    ("800 groups of two", eight_words, [turns("", 800, ["(a b)", "(c d)", "(e f)", "(g h)"])], EVERYTHING, 5.0, None),
    ("1,000 words that aren't there, negated", eight_words, ["".join(f"!{word}" for word in PAIRS)], EVERYTHING, 5.0, None),
    ("1,000 words, one of them asked for", spread_words, [PAIRS[0]], answer_of(range(1, MESSAGES // 125 * 125, 125)), None, None),
    ("1,000 words that are there, negated", spread_words, ["".join(f"!{word}" for word in PAIRS)], b"0:\n", 5.0, None),
    ("1,000 words that are there, as choices", spread_words, ["|".join(PAIRS)], answer(MESSAGES // 125 * 125), 5.0, None),
    ("a tenth of the words, of one bucket", one_bucket, ["aac6v"], answer(ONE_BUCKET_MESSAGES), None, None),
    ("64 queries of 2,048 choices", eight_words, [turns("|", 2048)] * 64, None, 96.0, None),
]


def measure(path, queries):
    """Processor seconds, the peak memory in KiB, the status and the output of one run."""
    with open(path, "rb") as mailbox, tempfile.TemporaryFile() as output:
        child = subprocess.Popen([program(), *queries], stdin=mailbox, stdout=output)
        _, status, usage = os.wait4(child.pid, 0)
        seconds = usage.ru_utime + usage.ru_stime
        child.returncode = os.waitstatus_to_exitcode(status)
        output.seek(0)
        return seconds, usage.ru_maxrss, child.returncode, output.read()


def within(figure, bound):
    return bound is None or figure <= bound


def main():
    good = True
    first = {}
    print(f"{'':<38} {'input':>8} {'time':>9} {'bound':>8} {'memory':>9} {'bound':>8}")
    with tempfile.TemporaryDirectory() as folder:
        for name, make, queries, wanted, most_seconds, most_memory in CASES:
            path = os.path.join(folder, make.__name__)
            if not os.path.exists(path):
                with open(path, "wb") as file:
                    make(file)
            seconds, kib, status, output = measure(path, queries)
            beyond = seconds - first.get(make, 0.0)
            first.setdefault(make, seconds)
            memory = kib / 1024
            right = status == 0 and wanted in (None, output)
            good = good and right and within(beyond, most_seconds) and within(memory, most_memory)
            bounds = (f"{most_seconds} s" if most_seconds else "", f"{most_memory} MB" if most_memory else "")
            size = f"{os.path.getsize(path) / 1e6:.1f} MB"
            print(f"{name:<38} {size:>8} {seconds:>7.2f} s {bounds[0]:>8} {memory:>6.0f} MB {bounds[1]:>8}" + ("" if right else "  wrong"), flush=True)
    sys.exit(0 if good else 1)


if __name__ == "__main__":
    main()
