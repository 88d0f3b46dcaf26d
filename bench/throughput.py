#!/usr/bin/env python3
"""Times programs on documents and prints MB/s, and the ratio to onsgmls where that is installed.

    throughput.py PROGRAM FILE...

Each program is run five times a file, output to /dev/null; the best time counts.
"""
import os
import shutil
import subprocess
import sys
import time

RUNS = 5


def best(command):
    times = []
    for _ in range(RUNS):
        begin = time.perf_counter()
        subprocess.run(command, stdout=subprocess.DEVNULL, stderr=subprocess.DEVNULL, check=False)
        times.append(time.perf_counter() - begin)
    return min(times)


def main():
    program, files = sys.argv[1], sys.argv[2:]
    peer = shutil.which("onsgmls")
    for name in files:
        size = os.path.getsize(name) / 1e6
        own = best([program, name])
        line = "%s: %.1f MB, sgmlesis %.3f s, %.1f MB/s" % (name, size, own, size / own)
        if peer:
            other = best([peer, name])
            line += ", onsgmls %.3f s, %.1f MB/s, ratio %.2f" % (other, size / other, other / own)
        print(line)


if __name__ == "__main__":
    main()
