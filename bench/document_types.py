#!/usr/bin/env python3
"""document_types.py PROGRAM: reads each document type that the catalogs in /etc/sgml name.

PROGRAM is the trial of the prolog (crates/sgml_prolog_trials/out/sgml_prolog_trials). A line an identifier: `done` and
how many element types there are, or where its reading stops and why. Debian's packages docbook, sgml-data,
linuxdoc-tools and debiandoc-sgml have such types.
"""
import glob
import os
import re
import subprocess
import sys
import tempfile

# keywords of a catalog with one argument; all others have two
ONE = ("BASE", "CATALOG", "DOCUMENT", "SGMLDECL", "OVERRIDE")
NAMES = (("HTML", "html"), ("inux[Dd]oc", "linuxdoc"), ("DebianDoc", "debiandoc"), ("General Document", "general"))


def words(path):
    with open(path, encoding="latin1") as file:
        text = re.sub(r"--.*?--", " ", file.read(), flags=re.S)
    return [w.strip("\"'") for w in re.findall(r"\"[^\"]*\"|'[^']*'|[^\s\"']+", text)]


def entries(path, seen):
    """The public identifiers of a catalog and of those that it names, each with its file."""
    path = os.path.realpath(path)
    if path in seen or not os.path.isfile(path):
        return {}
    seen.add(path)
    found, base, rest = {}, os.path.dirname(path), words(path)
    while len(rest) > 1:
        word = rest[0].upper()
        if word == "CATALOG":
            found = {**entries(os.path.join(base, rest[1]), seen), **found}
        elif word == "BASE":
            base = os.path.join(base, os.path.dirname(rest[1]))
        elif word == "PUBLIC" and len(rest) > 2:
            found.setdefault(rest[1], os.path.join(base, rest[2]))
        rest = rest[2:] if word in ONE else rest[3:]
    return found


def spelled(data):
    """As a part of a line of cases has it."""
    for one, other in ((b"\\", b"\\\\"), (b"\t", b"\\t"), (b"\r", b"\\r"), (b"\n", b"\\n")):
        data = data.replace(one, other)
    return data


def answer(program, catalog, files, document, folder):
    lines = [b"catalog\t" + spelled(catalog)]
    lines += [b"file\t" + name.encode("latin1") + b"\t" + spelled(data) for name, data in files.items()]
    lines.append(b"read\t" + spelled(document))
    path = os.path.join(folder, "cases")
    with open(path, "wb") as file:
        file.write(b"\n".join(lines) + b"\n")
    out = subprocess.run([program, path], stdout=subprocess.PIPE).stdout
    told = [line for line in out.split(b"\n") if line.startswith(b"read\t")]
    return told[-1].rsplit(b"\t", 1)[1].decode("latin1") if told else "no answer"


def read(program, catalog, document):
    """Gives each file that is asked for, until none is or one isn't there."""
    files = {}
    with tempfile.TemporaryDirectory() as folder:
        while True:
            told = answer(program, catalog, files, document, folder)
            asked = [name for name in re.findall(r"want \d+ ([^;]*);", told) if name not in files]
            if not (asked and told.split(" BYTE BY BYTE ")[0].endswith(":Absent")):
                return told
            if not os.path.isfile(asked[0]):
                return "no such file: " + asked[0]
            with open(asked[0], "rb") as file:
                files[asked[0]] = file.read()


def brief(told):
    done = re.search(r"done f:\d+:\d+, elements (\d+)", told)
    cut = ", and another answer byte by byte" if " BYTE BY BYTE " in told else ""
    return (done.group(1) + " element types" if done else told[-100:]) + cut


def identifiers():
    """The public identifiers of all catalogs of the machine, each with its file."""
    seen, found = set(), {}
    for path in ["/etc/sgml/catalog", *sorted(glob.glob("/etc/sgml/*.cat"))]:
        found = {**entries(path, seen), **found}
    return found


def merged(found):
    """One catalog of these identifiers."""
    return b"".join(b'PUBLIC "%s" "%s"\n' % (k.encode("latin1"), v.encode("latin1")) for k, v in found.items())


def main():
    program, found = os.path.abspath(sys.argv[1]), identifiers()
    catalog = merged(found)
    for identifier in sorted(k for k in found if "//DTD " in k):
        name = next((name for words, name in NAMES if re.search(words, identifier)), "book")
        document = ('<!DOCTYPE %s PUBLIC "%s">\n' % (name, identifier)).encode("latin1")
        print(identifier + ": " + brief(read(program, catalog, document)), flush=True)


if __name__ == "__main__":
    main()
