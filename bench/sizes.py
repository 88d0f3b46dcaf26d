#!/usr/bin/env python3
"""Runs the program, and `onsgmls` beside it, on input of unusual size, and prints time, memory and the answer.

    bench/sizes.py PROGRAM
    bench/sizes.py --write NUMBER FILE      # writes the document of that row alone

Each document is made in a folder of its own; lines go to the null device. A program is stopped after 120 seconds.
"""
import itertools
import os
import resource
import subprocess
import sys
import tempfile
import time

LIMIT = 120
GREATEST = 268_435_456
ROWS = 13


def document(declared, content):
    return f"<!DOCTYPE d [{declared}]>\n<d>{content}</d>\n"


def document_of(length):
    """A document of so many bytes, in lines of 80."""
    empty = document(TEXT, "")
    text = ("x" * 79 + "\n") * (length // 80 + 1)
    return document(TEXT, text[:length - len(empty)])


TEXT = "<!ELEMENT d - - (#PCDATA|e)*><!ELEMENT e - - (#PCDATA)>"


def kinds():
    yield "a comment of 100 MB", document(TEXT, "a<!-- " + "x y " * 25_000_000 + "-->b")
    yield "a line of 100 MB", document(TEXT, "x" * 100_000_000)
    yield "a name of 10 MB", document(TEXT, "<" + "a" * 10_000_000 + ">")
    yield "a tag of 10 MB", document(TEXT + "<!ATTLIST e a CDATA #IMPLIED>", "<e" + " " * 10_000_000 + 'a="x">x</e>')
    yield "100,000 attributes in one list", document(
        TEXT + "<!ATTLIST d " + " ".join(f"a{i} CDATA #IMPLIED" for i in range(100_000)) + ">", "x")
    yield "100,000 entities, each referenced", document(
        TEXT + "".join(f'<!ENTITY e{i} "t{i}">' for i in range(100_000)), "".join(f"&e{i};" for i in range(100_000)))
    yield "100,000 open sections", document(TEXT, "<![INCLUDE[" * 100_000 + "x" + "]]>" * 100_000)
    yield "1,000,000 record ends", document(TEXT, "a" + "\n" * 1_000_000 + "b")
    yield "an OR group of 20,000 names", document(
        "<!ELEMENT d - - (" + "|".join(f"n{i}" for i in range(20_000)) + ")*>", "")
    yield "30,000 nested groups", document("<!ELEMENT d - - " + "(" * 30_000 + "#PCDATA" + ")" * 30_000 + ">", "x")
    yield "the greatest length", document_of(GREATEST)
    yield "one byte more", document_of(GREATEST + 1)
    yield "entities that open entities", document(
        TEXT + '<!ENTITY a0 "xxxxxxxxxx">' + "".join(f'<!ENTITY a{i + 1} "' + f"&a{i};" * 10 + '">' for i in range(12)), "&a12;")


def run(words):
    """Seconds, megabytes and how it ended."""
    begun = time.perf_counter()
    with subprocess.Popen(words, stdout=subprocess.DEVNULL, stderr=subprocess.PIPE) as ran:
        try:
            log = ran.stderr.read(4096).decode("latin-1")
            ran.stderr.close()
            _, status, used = os.wait4(ran.pid, 0)
        except KeyboardInterrupt:
            ran.kill()
            raise
        ran.returncode = os.waitstatus_to_exitcode(status)
    spent = time.perf_counter() - begun
    last = log.strip().split("\n")[-1].rsplit(":", 1)[-1].strip()
    return spent, used.ru_maxrss / 1024, ran.returncode, last


def write(number, path):
    """Writes the document of a row, and tells its name and length."""
    name, text = next(itertools.islice(kinds(), number, None))
    with open(path, "w", encoding="latin-1") as it:
        it.write(text)
    print(name)


def main():
    if sys.argv[1] == "--write":
        return write(int(sys.argv[2]), sys.argv[3])
    # what a program may take; past it, it ends by itself
    resource.setrlimit(resource.RLIMIT_CPU, (LIMIT, LIMIT))
    print("| Document | bytes | sgmlesis | onsgmls |")
    print("|---|---|---|---|")
    with tempfile.TemporaryDirectory() as folder:
        path = f"{folder}/document.sgm"
        for number in range(ROWS):
            # in a process of its own, whose memory isn't counted for what runs next
            name = subprocess.run([sys.executable, __file__, "--write", str(number), path], capture_output=True, check=True).stdout.decode().strip()
            size = os.path.getsize(path)
            mine, other = run([sys.argv[1], path]), run(["onsgmls", "-s", path])
            said = mine[3] if mine[2] == 1 else f"status {mine[2]}"
            print(f"| {name} | {size} | {mine[0]:.2f} s, {mine[1]:.0f} MB, {said} | {other[0]:.2f} s, {other[1]:.0f} MB, status {other[2]} |")


if __name__ == "__main__":
    main()
