#!/usr/bin/env python3
"""event_lines.py PROGRAM [CHAPTERS]: what the lines of events cost, by instructions (valgrind) and as MB/s at the program's own pace."""
import os
import re
import subprocess
import sys
import tempfile
import time

program = os.path.abspath(sys.argv[1])
chapters = sys.argv[2] if len(sys.argv) > 2 else "5000"
here = os.path.dirname(os.path.abspath(__file__))


def best(words, runs=5):
    """The least processor time of some runs."""
    taken = []
    for _ in range(runs):
        before = os.times()
        subprocess.run(words, stdout=subprocess.DEVNULL, check=True)
        after = os.times()
        taken.append(after.children_user - before.children_user + after.children_system - before.children_system)
    return min(taken)


with tempfile.TemporaryDirectory() as folder:
    book, counts = f"{folder}/book.sgm", f"{folder}/counts"
    with open(book, "wb") as out:
        subprocess.run([sys.executable, f"{here}/book.py", chapters], stdout=out, check=True)
    lines = subprocess.run(
        ["valgrind", "--tool=callgrind", f"--callgrind-out-file={counts}", program, book], stdout=subprocess.PIPE, stderr=subprocess.DEVNULL, check=True
    ).stdout
    report = subprocess.run(["callgrind_annotate", "--inclusive=yes", counts], stdout=subprocess.PIPE, check=True, text=True).stdout
    whole = taken = 0
    for row in report.split("\n"):
        found = re.match(r"\s*([\d,]+) \(", row)
        if found and "PROGRAM TOTALS" in row:
            whole = int(found[1].replace(",", ""))
        if found and "take_events" in row:
            taken += int(found[1].replace(",", ""))
    if not whole or not taken:
        sys.exit("the program has no names of functions")
    seconds = best([program, book]) * taken / whole
    print(f"{len(lines)} bytes of lines, {taken} of {whole} instructions, {taken / len(lines):.1f} a byte, {len(lines) / seconds / 1e6:.0f} MB/s")
