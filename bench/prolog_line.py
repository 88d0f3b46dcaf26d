#!/usr/bin/env python3
"""prolog_line.py DOCUMENT: the line of a trial that has the prolog of this document read once, whole."""
import sys

from document_types import spelled

with open(sys.argv[1], "rb") as file:
    sys.stdout.buffer.write(b"whole\t" + spelled(file.read()) + b"\n")
