#!/usr/bin/env python3
"""Runs the gate and tells how long each proof, each proof of tests and each must-fail edit took.

    tools/gate_times.py [WORD..]        # runs 'rt ci WORD..' at the top of the repository, and passes its lines on
    tools/gate_times.py --table FILE..  # prints the tables of earlier runs, each of which wrote one FILE
    tools/gate_times.py --table FILE.. --crates NAME..  # of these crates alone

A crate's proof is counted with the building of its library, which the gate does in one go. A run writes
build/gate_times.json, and then prints a line for each crate (processor seconds and wall seconds of its
proof, of its tests' proof, and of its edits), what each of the three comes to, and the ten dearest single checks. It looks at the prover's processes a
few times a second, so a time may be short by as much.
"""
import json
import os
import re
import subprocess
import sys
import time
from collections import defaultdict

TICK = os.sysconf("SC_CLK_TCK")
PAUSE = 0.2
KINDS = {"proofs": ("proof",), "tests": ("tests",), "edits": ("edit", "seed")}


def parent_of(number):
    """The number of a process's parent, or '0' where it has none."""
    try:
        with open(f"/proc/{number}/stat") as it:
            return it.read().rpartition(")")[2].split()[1]
    except OSError:
        return "0"


def is_below(number, top):
    """Whether a process was started by this one, or by one that it started."""
    while number not in ("0", "1", top):
        number = parent_of(number)
    return number == top


def provers(top):
    """The prover's running checks and builds that the run started, by process number: words, folder, parent, and
    processor seconds with those of children that ended."""
    found = {}
    for number in filter(str.isdigit, os.listdir("/proc")):
        try:
            with open(f"/proc/{number}/cmdline", "rb") as it:
                words = it.read().decode(errors="replace").split("\0")
            if len(words) < 4 or not words[0].endswith("/rattle") or words[1] not in ("build", "check"):
                continue
            if not is_below(number, top):
                continue
            with open(f"/proc/{number}/stat") as it:
                fields = it.read().rpartition(")")[2].split()
            used = sum(map(int, fields[11:15])) / TICK
            found[number] = words, os.readlink(f"/proc/{number}/cwd"), fields[1], used
        except OSError:
            continue
    return found


def checks_now(top):
    """The checks that run now: process number, words, folder, and processor seconds with those of its helpers."""
    found = provers(top)
    used = defaultdict(float)
    for number, (_, _, parent, seconds) in found.items():
        while parent in found:
            number, parent = parent, found[parent][2]
        used[number] += seconds
    return [(number, *found[number][:2], seconds) for number, seconds in used.items()]


def edits_of(crate):
    """The edits of a crate: name, file, and the lines that each puts there."""
    folder = f"crates/{crate}/must-fail"
    for name in sorted(os.listdir(folder)) if os.path.isdir(folder) else ():
        with open(f"{folder}/{name}") as it:
            text = it.read()
        file = re.search(r"^file: (.*)$", text, re.M)
        pairs = re.findall(r"^old: (.*)\nnew: (.*)$", text, re.M)
        if file and pairs:
            yield name.removesuffix(".edit"), file[1], pairs


def edit_in(crate, room):
    """The edit that was made to the copy of a crate in this folder, or '' where it is the crate as it is."""
    for name, file, pairs in edits_of(crate):
        try:
            with open(f"crates/{crate}/{file}") as it:
                wanted = it.read()
            with open(f"{room}/{file}") as it:
                found = it.read()
        except OSError:
            continue
        for old, new in pairs:
            wanted = wanted.replace(old, new, 1)
        if wanted == found:
            return name
    return ""


def task_of(words, folder):
    """What a check is for: crate, kind and name."""
    crate = words[words.index("--crate-name") + 1]
    if "rt-edit" in folder:
        name = edit_in(crate, folder)
        return crate, "edit" if name else "seed", name
    return crate, "tests" if "--test" in words else "proof", ""


def watch(words):
    """Runs the gate, and gives its status and the checks that it made."""
    seen = {}
    ran = subprocess.Popen(["rt", "ci", *words])
    ours = re.compile(r"/crates/|rt-edit")
    while ran.poll() is None:
        now = time.time()
        for number, said, folder, used in checks_now(str(ran.pid)):
            if "--only" in said or "--crate-name" not in said or not ours.search(folder):
                continue
            if number not in seen:
                seen[number] = {"task": task_of(said, folder), "from": now, "used": 0.0}
            seen[number] |= {"used": max(used, seen[number]["used"]), "to": now}
        time.sleep(PAUSE)
    return ran.returncode, [{"task": it["task"], "used": it["used"], "wall": it["to"] - it["from"]} for it in seen.values()]


def tables(checks, wall):
    """Prints what the checks of a run took."""
    sums = defaultdict(lambda: defaultdict(lambda: [0, 0.0, 0.0]))
    for it in checks:
        crate, kind, _ = it["task"]
        for row in (sums[crate][kind], sums["all"][kind]):
            row[0] += 1
            row[1] += it["used"]
            row[2] += it["wall"]
    print("| Crate | proof, processor s | wall s | tests, processor s | wall s | edits | processor s |")
    print("|---|---|---|---|---|---|---|")
    for crate in sorted(sums, key=lambda it: -sum(row[1] for row in sums[it].values())):
        proof, tests, edit, seed = (sums[crate][it] for it in ("proof", "tests", "edit", "seed"))
        print(f"| {crate} | {proof[1]:.0f} | {proof[2]:.0f} | {tests[1]:.0f} | {tests[2]:.0f} | {edit[0]} | {edit[1] + seed[1]:.0f} |")
    kinds = {it: sum(check["used"] for check in checks if check["task"][1] in of) / 60 for it, of in KINDS.items()}
    said = ", ".join(f"{it} {minutes:.0f}" for it, minutes in kinds.items())
    print(f"\n{sum(kinds.values()):.0f} processor minutes ({said}) in {wall / 60:.0f} minutes. The ten dearest checks:\n")
    for it in sorted(checks, key=lambda it: -it["used"])[:10]:
        print(f"- {it['used']:.0f} s: {' '.join(filter(None, it['task']))}")


def main():
    os.chdir(os.path.join(os.path.dirname(os.path.abspath(__file__)), ".."))
    if sys.argv[1:2] == ["--table"]:
        words = [*sys.argv[2:], "--crates"]
        files, crates = words[: words.index("--crates")], words[words.index("--crates") + 1 : -1]
        runs = []
        for name in files:
            with open(name) as it:
                runs.append(json.load(it))
        checks = [check for run in runs for check in run["checks"] if not crates or check["task"][0] in crates]
        return tables(checks, sum(run["wall"] for run in runs))
    begun = time.time()
    status, checks = watch(sys.argv[1:])
    wall = time.time() - begun
    os.makedirs("build", exist_ok=True)
    with open("build/gate_times.json", "w") as it:
        json.dump({"wall": wall, "checks": checks}, it)
    tables(checks, wall)
    return status


if __name__ == "__main__":
    sys.exit(main())
