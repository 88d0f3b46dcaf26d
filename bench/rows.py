#!/usr/bin/env python3
"""Times the program beside `onsgmls` (Debian's `opensp`) on documents of several kinds, in turns, and prints a table.

    bench/rows.py PROGRAM [ROUNDS]          # 5 rounds where none are given
    bench/rows.py --instructions PROGRAM    # what both take by valgrind, of documents a twentieth as long

Of each kind the median of the rounds counts, in seconds of wall time and in MB of the document a second. Outputs go to the null
device. The documents are made in a folder of their own and are the same in each run. Instructions don't depend on what else
the machine does. Where Debian's `docbook` is installed its document type is read too, by a catalog of all public identifiers
that the machine's catalogs name.
"""
import os
import re
import statistics
import subprocess
import sys
import tempfile
import time

import document_types

FOLDER = os.path.dirname(os.path.abspath(__file__))
# In words it stands for the file of the catalog.
CATALOG = "CATALOG"
DOCBOOK = "-//OASIS//DTD DocBook V4.5//EN"


def head(elements, more=""):
    return f"<!DOCTYPE d [\n{elements}\n{more}]>\n"


def dense(n):
    elements = "<!ELEMENT d - - (p*)>\n<!ELEMENT p - - (#PCDATA|e)*>\n<!ELEMENT e - - (#PCDATA)>"
    return head(elements) + "<d>" + "<p><e>ab</e>c</p>\n" * n + "</d>\n"


def prose(n):
    line = "It was the best of times, it was the worst of times, it was the age of wisdom,\n"
    return head("<!ELEMENT d - - (p*)>\n<!ELEMENT p - O (#PCDATA)>") + "<d>" + ("<p>" + line * 20) * n + "</d>\n"


def short_references(n):
    elements = "<!ELEMENT d - - (row*)>\n<!ELEMENT row O O (cell, cell)>\n<!ELEMENT cell O O (#PCDATA)>"
    maps = '<!ENTITY next ENDTAG "cell">\n<!SHORTREF m "|" next>\n<!USEMAP m row>\n'
    return head(elements, maps) + "<d>" + "<row><cell>left part|<cell>right part</row>\n" * n + "</d>\n"


def attributes(n):
    kinds = ("CDATA", "NAME", "NUMBER", "NMTOKENS", "(yes|no)", "ID", "NAMES", "NUTOKEN", "CDATA", "NMTOKEN")
    values = ('"some text"', "left", "12", '"a 1 b"', "yes", "i{}", '"a b"', "1cm", '"x &#38; y"', "n.1")
    defs = "".join(f"a{i} {kind} #IMPLIED\n" for i, kind in enumerate(kinds))
    elements = f"<!ELEMENT d - - (e*)>\n<!ELEMENT e - - (#PCDATA)>\n<!ATTLIST e\n{defs}>"
    said = " ".join(f"a{i}={value}" for i, value in enumerate(values))
    return head(elements) + "<d>" + "".join(f"<e {said.format(i)}>t</e>\n" for i in range(n)) + "</d>\n"


def entities(n):
    declared = '<!ENTITY firm "Duval, Bell and Sons">\n<!ENTITY mdash SDATA "[mdash ]">\n'
    line = "<p>A line of some forty characters by &firm; and then &mdash; more of it\n"
    return head("<!ELEMENT d - - (p*)>\n<!ELEMENT p - O (#PCDATA)>", declared) + "<d>" + line * n + "</d>\n"


def script(name, *words):
    ran = subprocess.run([sys.executable, f"{FOLDER}/{name}", *words], capture_output=True, check=True)
    return ran.stdout.decode("latin-1")


def kinds(part):
    """Each kind: its name, the document (or one with so many times fewer parts), and the words of each program before the file."""
    book = script("book.py", str(100000 // part))
    yield "generated book", book, [], []
    yield "the same, mode check", book, ["--mode", "check"], ["-s"]
    yield "a tag every few bytes", dense(200000 // part), [], []
    yield "prose, record ends kept", prose(4000 // part), [], []
    yield "short references", short_references(100000 // part), [], []
    yield "ten attributes a start", attributes(20000 // part), [], []
    yield "an entity every 40 bytes", entities(50000 // part), [], []
    yield "a large document type", script("large_doctype.py"), [], []
    if DOCBOOK in document_types.identifiers():
        page = f'<!DOCTYPE article PUBLIC "{DOCBOOK}">\n<article><title>T</title><para>text</para></article>\n'
        yield "a page of DocBook", page, ["--mode", "check", "--catalog", CATALOG], ["-s", "-c", CATALOG]


def written(part):
    """Each kind with its document in a file: its name, the document's length, and the words of each program, the file among them."""
    with tempfile.TemporaryDirectory() as folder:
        path, catalog = f"{folder}/document.sgm", f"{folder}/catalog"
        with open(catalog, "wb") as it:
            it.write(document_types.merged(document_types.identifiers()))
        for name, text, *words in kinds(part):
            with open(path, "w", encoding="latin-1") as it:
                it.write(text)
            ours, theirs = [[catalog if word == CATALOG else word for word in it] for it in words]
            yield name, len(text), [*ours, path], [*theirs, path]


def seconds(words):
    begun = time.perf_counter()
    ran = subprocess.run(words, stdout=subprocess.DEVNULL, stderr=subprocess.DEVNULL)
    return time.perf_counter() - begun, ran.returncode


def instructions(words):
    """How many instructions a run takes."""
    ran = subprocess.run(
        ["valgrind", "--tool=callgrind", "--callgrind-out-file=/dev/null", *words], stdout=subprocess.DEVNULL, stderr=subprocess.PIPE, text=True
    )
    return int(re.search(r"refs:\s*([\d,]+)", ran.stderr)[1].replace(",", ""))


def count(program):
    print("| Document | bytes | sgmlesis, millions | a byte | onsgmls, millions | times as few |")
    print("|---|---|---|---|---|---|")
    for name, length, ours, theirs in written(20):
        mine, other = instructions([program, *ours]), instructions(["onsgmls", *theirs])
        print(f"| {name} | {length} | {mine / 1e6:.1f} | {mine / length:.0f} | {other / 1e6:.1f} | {other / mine:.2f} |", flush=True)


def measure(program, rounds):
    print("| Document | bytes | sgmlesis, s | MB/s | onsgmls, s | times as fast |")
    print("|---|---|---|---|---|---|")
    for name, length, ours, theirs in written(1):
        times = [[], []]
        for _ in range(rounds):
            for number, words in enumerate(([program, *ours], ["onsgmls", *theirs])):
                spent, status = seconds(words)
                times[number].append(spent)
                if status and number == 0:
                    sys.exit(f"{name}: status {status}")
        mine, other = map(statistics.median, times)
        print(f"| {name} | {length} | {mine:.3f} | {length / mine / 1e6:.0f} | {other:.3f} | {other / mine:.2f} |")


def main():
    if sys.argv[1] == "--instructions":
        count(sys.argv[2])
    else:
        measure(sys.argv[1], int(sys.argv[2]) if len(sys.argv) > 2 else 5)


if __name__ == "__main__":
    main()
