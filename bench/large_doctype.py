#!/usr/bin/env python3
"""Writes a document with a document type of about 372 kB, of the size and shape of DocBook's: sets of
character entities, classes and mixtures of element types as parameter entities that stand in one
another, switchable modules as marked sections, and elements with attribute lists.

    large_doctype.py > large.sgm

Always the same bytes. The document element has one paragraph.
"""
import sys

SETS = 19
ENTITIES = 91
CLASSES = 24
MEMBERS = 15
MIXTURES = 14
ELEMENTS = CLASSES * MEMBERS

out = []


def line(text=""):
    out.append(text)


def element(n):
    return "el%03d.%s" % (n, "abcdefgh"[n % 8] * (n % 5 + 2))


def entity_sets():
    for s in range(SETS):
        line("<!-- Character entity set %d. Typical invocation: a parameter entity of this set -->" % s)
        for e in range(ENTITIES):
            name = "ch%02d%02d%s" % (s, e, "xyz"[e % 3])
            line('<!ENTITY %-10s SDATA "[%s]"--=character %d of set %d, with its description-->' % (name, name, e, s))


def classes():
    for c in range(CLASSES):
        members = "|".join(element(c * MEMBERS + i) for i in range(MEMBERS))
        line('<!ENTITY %% local.class%02d "">' % c)
        line('<!ENTITY %% class%02d "%s %%local.class%02d;">' % (c, members, c))


def mixtures():
    for m in range(MIXTURES):
        parts = " |".join("%%class%02d;" % ((m * 5 + i) % CLASSES) for i in range(4))
        line('<!ENTITY %% local.mix%02d "">' % m)
        line('<!ENTITY %% mix%02d\n\t\t"%s\n\t\t%%local.mix%02d;">' % (m, parts, m))


def attributes():
    line('<!ENTITY % yesorno.attvals "NUMBER">')
    line('<!ENTITY % local.common.attrib "">')
    line("""<!ENTITY % common.attrib
\t"id\t\tID\t\t#IMPLIED
\tlang\t\tCDATA\t\t#IMPLIED
\tremap\t\tCDATA\t\t#IMPLIED
\trole\t\tCDATA\t\t#IMPLIED
\txreflabel\tCDATA\t\t#IMPLIED
\trevisionflag\t(changed|added|deleted|off)\t#IMPLIED
\t%local.common.attrib;">""")


def model(n):
    kind = n % 4
    mix = "%%mix%02d;" % (n % MIXTURES)
    if kind == 0:
        return "((#PCDATA|%s)*)" % mix
    if kind == 1:
        return "(heading, (subheading|summary)?, (%s)+)" % mix
    if kind == 2:
        return "((%s)+)" % mix
    return "(#PCDATA)"


def modules():
    line("<!ELEMENT (heading|subheading|summary) - - (#PCDATA)>")
    for n in range(ELEMENTS):
        name = element(n)
        line('<!ENTITY %% %s.module "INCLUDE">' % name)
        line("<![ %%%s.module; [" % name)
        line('<!ENTITY %% local.%s.attrib "">' % name)
        line("<!ELEMENT %s - O %s>" % (name, model(n)))
        line("<!-- The type %s: what it stands for, and where it is used; %d of %d. -->" % (name, n, ELEMENTS))
        line("<!ATTLIST %s" % name)
        line("\t\t--\n\t\tKind: how this element is shown, where a style doesn't say it otherwise\n\t\tMode: which of its three ways it goes\n\t\tCount: of what stands in it\n\t\t--")
        line('\t\tkind%03d\t\tCDATA\t\t"plain value &#35;%d"' % (n, n))
        line("\t\tmode%03d\t\t(first%d|second%d|third%d)\tsecond%d" % (n, n, n, n, n))
        line("\t\tcount%03d\t%%yesorno.attvals;\t#IMPLIED" % n)
        line("\t\t%%common.attrib;\n\t\t%%local.%s.attrib;\n>" % name)
        line("]]>")
        line()


line("<!DOCTYPE %s [" % element(0))
line("<!-- A generated document type -->")
entity_sets()
classes()
mixtures()
attributes()
modules()
line("]>")
line("<%s>Text.</%s>" % (element(0), element(0)))
sys.stdout.write("\n".join(out) + "\n")
