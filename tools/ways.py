#!/usr/bin/env python3
"""Tells how many ways lead through the lists of crates.txt, which the gate goes along.

    tools/ways.py               # the crates with the most ways, and the entries that could go
    tools/ways.py --most N      # fails where there are more than N ways in all, or an entry could go

A way goes from a crate to one in its list, on to one in that one's list, and so on; a crate has as many as there are such ways,
and the empty one. An entry could go where another way leads to the same crate and the code doesn't name it: what only
specs, proofs and ghost lines cite comes through the crate between (its specs/Lib.antt and proofs/Lib.antt pass it on).
"""
import os
import re
import sys

ROOT = os.path.dirname(os.path.dirname(os.path.abspath(__file__)))


def lists():
    """The crates of the repository that each crate lists."""
    found = {}
    with open(f"{ROOT}/crates.txt", encoding="utf-8") as it:
        for line in it:
            name, colon, listed = line.partition("#")[0].partition(":")
            if colon:
                found[name.split()[0]] = listed.split()
    return {name: [it for it in listed if it in found] for name, listed in found.items()}


def counted(listed):
    """How many ways each crate has."""
    ways = {}

    def count(name):
        if name not in ways:
            ways[name] = 1 + sum(map(count, listed[name]))
        return ways[name]

    for name in listed:
        count(name)
    return ways


def below(listed, name, found):
    """The crates to which a way leads."""
    for it in listed[name]:
        if it not in found:
            found.add(it)
            below(listed, it, found)
    return found


def code_of(name):
    """The lines of a crate's code, without comments, ghost lines and what is cited of specs."""
    lines = []
    for at, _, files in os.walk(f"{ROOT}/crates/{name}/src"):
        for file in files:
            with open(f"{at}/{file}", encoding="utf-8") as it:
                lines += [line for line in it if not re.match(r"\s*((pub )?ghost use|//)", line)]
    return re.sub(r"Rattle\.[\w.]+", "", "".join(lines))


def needless(listed):
    """Entries that another way gives, and that the code doesn't name."""
    for name, entries in listed.items():
        code = code_of(name)
        for it in entries:
            others = set().union(*(below(listed, other, set()) for other in entries if other != it))
            if it in others and not re.search(rf"\b{it}\b", code):
                yield name, it


def main():
    listed = lists()
    ways, could_go = counted(listed), list(needless(listed))
    total = sum(ways.values())
    if sys.argv[1:2] == ["--most"]:
        if total > int(sys.argv[2]) or could_go:
            sys.exit(f"crates.txt: {total} ways; entries that could go: {', '.join(map(':'.join, could_go)) or 'none'}")
        return
    for name in sorted(ways, key=ways.get, reverse=True)[:10]:
        print(f"{ways[name]:9} {name}")
    print(f"{total:9} in all")
    for name, it in could_go:
        print(f"{name}: {it} could go")


if __name__ == "__main__":
    main()
