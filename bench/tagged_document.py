#!/usr/bin/env python3
"""Writes a document in which every tag stands, of at least the given number of bytes.

    tagged_document.py BYTES > FILE

The text is always the same for the same number.
"""
import random
import sys

HEAD = """<!DOCTYPE manual [
<!ELEMENT manual - - (title, chapter+)>
<!ELEMENT title - - (#PCDATA)>
<!ELEMENT chapter - - (title, (p | list | note)+)>
<!ELEMENT p - - (#PCDATA | em | code)*>
<!ELEMENT em - - (#PCDATA)>
<!ELEMENT code - - (#PCDATA)>
<!ELEMENT list - - (item+)>
<!ELEMENT item - - (p+)>
<!ELEMENT note - - (p+)>
]>
"""
WORDS = "the valve opens before pressure falls and each gauge shows its reading in the second column of this table".split()


def sentence(chance):
    words = [chance.choice(WORDS) for _ in range(chance.randint(6, 18))]
    if chance.random() < 0.5:
        at = chance.randrange(len(words))
        tag = chance.choice(["em", "code"])
        words[at] = "<%s>%s</%s>" % (tag, words[at], tag)
    return " ".join(words).capitalize() + "."


def paragraph(chance):
    return "<p>%s</p>\n" % " ".join(sentence(chance) for _ in range(chance.randint(1, 5)))


def block(chance):
    kind = chance.random()
    if kind < 0.7:
        return paragraph(chance)
    if kind < 0.9:
        items = "".join("<item>\n%s</item>\n" % paragraph(chance) for _ in range(chance.randint(2, 6)))
        return "<list>\n%s</list>\n" % items
    return "<note>\n%s</note>\n" % paragraph(chance)


def main():
    wanted = int(sys.argv[1])
    chance = random.Random(8879)
    out = sys.stdout
    written = out.write(HEAD + "<manual>\n<title>A manual</title>\n")
    chapter = 0
    while written < wanted:
        chapter += 1
        blocks = "".join(block(chance) for _ in range(20))
        written += out.write("<chapter>\n<title>Chapter %d</title>\n%s</chapter>\n" % (chapter, blocks))
    out.write("</manual>\n")


if __name__ == "__main__":
    main()
