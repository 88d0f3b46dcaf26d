#!/usr/bin/env python3
"""Runs the program on input that nobody wrote, and looks whether each answer has its form.

    tools/hostile.py random PROGRAM COUNT [SEED] [FILE..]   # bytes at random, and the files with bytes changed, dropped or doubled
    tools/hostile.py fronts PROGRAM FILE..                  # each front of each file

Each document is read whole, and then in pieces: status, lines and log are to be the same. The status is 0 or 1; at 0 the log is
empty and the last line is `C`; at 1 the log is one line `NAME:LINE:COLUMN:CODE` and no line is `C`; each line has a letter or sign
of the format. It prints each document that breaks this, as a Python string, and ends with the counts. It isn't part of the gate.
"""
import os
import random
import re
import subprocess
import sys
import tempfile

LINE = re.compile(rb"[()\-&?ANEIsp#C]")
LOG = re.compile(rb"[^\n]*:[0-9]+:[0-9]+:[A-Za-z]+\n")
LIMIT = 60


def answer(program, path, *words):
    """The status, the lines and the log of one run."""
    ran = subprocess.run([program, *words, path], capture_output=True, timeout=LIMIT)
    return ran.returncode, ran.stdout, ran.stderr


def fault(status, out, log):
    """What is wrong with this answer, or None."""
    lines = out.split(b"\n")
    if lines.pop() != b"":
        return "the last line has no end"
    if not all(LINE.match(it) for it in lines):
        return "a line is in no form"
    if status == 0:
        return None if log == b"" and lines[-1:] == [b"C"] else "conforming without C, or with a log"
    if status == 1:
        return None if LOG.fullmatch(log) and b"C" not in lines else "refused with C, or without its place"
    return f"status {status}"


def look(program, folder, text, pieces):
    """Reads a document whole and in pieces, and tells what is wrong."""
    path = os.path.join(folder, "document.sgm")
    with open(path, "wb") as it:
        it.write(text)
    whole = answer(program, path)
    wrong = fault(*whole)
    for size in pieces:
        if wrong is None and answer(program, path, "--piece", str(size)) != whole:
            wrong = f"another answer in pieces of {size}"
    if wrong:
        print(f"{wrong}: {text!r}")
    return wrong is None, whole[0]


def changed(rng, text):
    """A text with some bytes changed, dropped or doubled."""
    for _ in range(rng.choice((1, 1, 1, 2, 5))):
        at = rng.randrange(len(text) + 1)
        how = rng.randrange(5)
        if how == 0:
            text = text[:at] + bytes([rng.randrange(256)]) + text[at + 1:]
        elif how == 1:
            text = text[:at] + text[at + 1:]
        elif how == 2:
            text = text[:at] + text[at:at + 1] * 2 + text[at + 1:]
        elif how == 3:
            text = text[:at] + rng.choice((b"<", b">", b"&", b"/", b"]]>", b"<!", b"\r", b"\n", b"'", b"--")) + text[at:]
        else:
            to = rng.randrange(len(text) + 1)
            text = text[:at] + text[to:to + rng.randrange(40)] + text[at:]
    return text


def documents(count, seed, texts):
    """Documents at random, the same for each seed."""
    rng = random.Random(seed)
    for number in range(count):
        if not texts or number % 10 == 0:
            yield bytes(rng.randrange(256) for _ in range(rng.randrange(200)))
        else:
            yield changed(rng, rng.choice(texts))


def contents(paths):
    for path in paths:
        with open(path, "rb") as it:
            yield it.read()


def main():
    kind, program = sys.argv[1:3]
    if kind == "random":
        count, seed = int(sys.argv[3]), int(sys.argv[4]) if len(sys.argv) > 4 else 1
        texts, pieces = documents(count, seed, list(contents(sys.argv[5:]))), (3,)
    else:
        texts = (text[:n] for text in contents(sys.argv[3:]) for n in range(len(text) + 1))
        pieces = (1, 7)
    right = total = 0
    statuses = {}
    with tempfile.TemporaryDirectory() as folder:
        for text in texts:
            passed, status = look(program, folder, text, pieces)
            right, total = right + passed, total + 1
            statuses[status] = statuses.get(status, 0) + 1
    print(f"{right} of {total} as they must be; by status: {dict(sorted(statuses.items()))}")
    return 0 if right == total else 1


if __name__ == "__main__":
    sys.exit(main())
