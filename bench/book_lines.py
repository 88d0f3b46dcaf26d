#!/usr/bin/env python3
"""Writes the lines of the generated book of N chapters, as the program writes them.

    book_lines.py N > FILE
"""
import sys


def main():
    number = int(sys.argv[1])
    out = sys.stdout
    out.write("(BOOK\n(TITLE\n-Book of %d\n)TITLE\n" % number)
    for i in range(1, number + 1):
        out.write("AN TOKEN %d\n(CHAPTER\n(TITLE\n-Part %d\n)TITLE\n" % (i, i))
        out.write("(P\n-Line %d of \n(EM\n-%d\n)EM\n-.\n)P\n)CHAPTER\n" % (i, number))
    out.write(")BOOK\nC\n")


if __name__ == "__main__":
    main()
