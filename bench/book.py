#!/usr/bin/env python3
"""Writes the generated book of N chapters, tags left out where they may be; book_lines.py writes its lines.

    book.py N > FILE
"""
import sys

HEAD = """<!DOCTYPE book [
<!ELEMENT book O O (title, chapter+)>
<!ELEMENT title O O (#PCDATA)>
<!ELEMENT chapter - O (title, p+)>
<!ELEMENT p O O (#PCDATA | em)*>
<!ELEMENT em - - (#PCDATA)>
<!ATTLIST chapter n NUMBER #REQUIRED>
]>
"""


def main():
    number = int(sys.argv[1])
    out = sys.stdout
    out.write(HEAD + "Book of %d\n" % number)
    for i in range(1, number + 1):
        out.write("<chapter n=%d>Part %d\n<p>Line %d of <em>%d</em>.\n" % (i, i, i, number))


if __name__ == "__main__":
    main()
