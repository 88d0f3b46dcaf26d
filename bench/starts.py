#!/usr/bin/env python3
"""Tells what the attributes of a start-tag cost the program, beside the same document without them.

    bench/starts.py PROGRAM [ROUNDS]          # seconds; 9 rounds where none are given
    bench/starts.py --instructions PROGRAM    # by valgrind, of documents a twentieth as long

Of each kind the fastest round counts. The documents have as many start-tags and differ in these alone; with attributes they are longer
too, so that reading and writing what is longer is in the figure.
"""
import os
import re
import subprocess
import sys
import tempfile
import time

STARTS = 400000

DEFINED = "<!ATTLIST e\none NMTOKEN #IMPLIED\ntwo CDATA #IMPLIED>\n"

KINDS = (
    ("no attribute list", "", "<e>"),
    ("a list, nothing specified", DEFINED, "<e>"),
    ("one short attribute", DEFINED, "<e one=a1>"),
    ("two short attributes", DEFINED, '<e one=a1 two="some text">'),
)


def document(defined, tag, count):
    elements = "<!ELEMENT d - - (e*)>\n<!ELEMENT e - O EMPTY>\n"
    return f"<!DOCTYPE d [\n{elements}{defined}]>\n<d>{tag * count}</d>\n"


def seconds(program, path, rounds):
    best = None
    for _ in range(rounds):
        begun = time.perf_counter()
        subprocess.run([program, path], stdout=subprocess.DEVNULL, check=True)
        spent = time.perf_counter() - begun
        best = spent if best is None else min(best, spent)
    return best


def instructions(program, path, rounds):
    ran = subprocess.run(
        ["valgrind", "--tool=callgrind", "--callgrind-out-file=/dev/null", program, path],
        stdout=subprocess.DEVNULL, stderr=subprocess.PIPE, text=True, check=True,
    )
    return int(re.search(r"refs:\s*([\d,]+)", ran.stderr)[1].replace(",", ""))


def main():
    counts = sys.argv[1] == "--instructions"
    words = sys.argv[2:] if counts else sys.argv[1:]
    rounds = int(words[1]) if len(words) > 1 else 9
    count = STARTS // 20 if counts else STARTS
    unit, scale = ("instructions", 1) if counts else ("ns", 1e9)
    print(f"| Start | {unit} a start | more than without a list |")
    print("|---|---|---|")
    with tempfile.TemporaryDirectory() as folder:
        path = os.path.join(folder, "document.sgm")
        least = None
        for name, defined, tag in KINDS:
            spent = []
            for starts in (0, count):
                with open(path, "w", encoding="latin-1") as it:
                    it.write(document(defined, tag, starts))
                spent.append((instructions if counts else seconds)(words[0], path, rounds))
            each = (spent[1] - spent[0]) * scale / count
            least = each if least is None else least
            print(f"| {name} | {each:.0f} | {each - least:.0f} |", flush=True)


if __name__ == "__main__":
    main()
