#!/usr/bin/env python3
"""Writes the cases of crates/sgml_tree_cases: small document types with tags, and what is inferred.

A slow, plain program of the definitions, written apart from the crates: a document is kept as the
list of all that was read; the open elements, what is left of each one's content model, and which
omitted tags may stand are searched anew in it at every step, and of the runs of omitted tags that
may stand the longest is looked for among all of them.

    tools/inference_cases.py crates/sgml_tree_cases

writes `data/cases` and `stdout` there. The same seed gives the same cases.
"""
import random
import sys

TEXT = "#PCDATA"

# CONTENT MODELS (ISO 8879, 11.2.4). A term is a tuple whose first item is its kind.
EMPTY = ("empty",)


def done(t):
    kind = t[0]
    if kind in ("empty", "text", "opt", "rep"):
        return True
    if kind == "name":
        return False
    if kind in ("seq", "and"):
        return all(done(m) for m in t[1])
    if kind == "or":
        return any(done(m) for m in t[1])
    if kind in ("plus", "round"):
        return done(t[1])
    if kind == "member":
        return done(t[1]) and all(done(m) for m in t[2])
    raise ValueError(kind)


def begun(members, k):
    """Each way to begin a member: (token number, what is left of it, the others)."""
    for i, m in enumerate(members):
        for number, r in takes(m, k):
            yield number, r, members[:i] + members[i + 1:]


def takes(t, k):
    """Each (token number, term left) with which the term takes a token of the label k."""
    kind = t[0]
    if kind == "name":
        return [(t[1], EMPTY)] if t[2] == k else []
    if kind == "text":
        return [(t[1], t)] if k == TEXT else []
    if kind == "seq":
        out = []
        for i, m in enumerate(t[1]):
            out += [(n, ("seq", (r,) + t[1][i + 1:])) for n, r in takes(m, k)]
            if not done(m):
                break
        return out
    if kind == "or":
        return [x for m in t[1] for x in takes(m, k)]
    if kind == "and":
        return [(n, ("member", r, others)) for n, r, others in begun(t[1], k)]
    if kind == "member":
        out = [(n, ("member", r, t[2])) for n, r in takes(t[1], k)]
        if done(t[1]):
            out += [(n, ("member", r, others)) for n, r, others in begun(t[2], k)]
        return out
    if kind == "opt":
        return takes(t[1], k)
    if kind in ("plus", "rep"):
        return [(n, ("round", r, t[1])) for n, r in takes(t[1], k)]
    if kind == "round":
        out = [(n, ("round", r, t[2])) for n, r in takes(t[1], k)]
        if done(t[1]):
            # a token that the present round takes begins no new one
            taken = {n for n, _ in out}
            out += [(n, ("round", r, t[2])) for n, r in takes(t[2], k) if n not in taken]
        return out
    return []


def required(t):
    kind = t[0]
    if kind == "name":
        return t[2]
    if kind in ("seq", "or", "and") and len(t[1]) == 1 and kind != "seq":
        return required(t[1][0])
    if kind == "seq":
        for m in t[1]:
            if not done(m):
                return required(m)
        return None
    if kind in ("plus", "round"):
        return required(t[1])
    if kind == "member":
        return None if done(t[1]) else required(t[1])
    return None


def labels(t):
    kind = t[0]
    if kind == "name":
        return {t[2]}
    if kind == "text":
        return {TEXT}
    if kind in ("seq", "or", "and"):
        return set().union(*[labels(m) for m in t[1]])
    if kind in ("opt", "plus", "rep"):
        return labels(t[1])
    return set()


def is_unambiguous(model):
    """In no term that is reached two tokens of one label can come (11.2.4.3)."""
    names, seen, open_terms = labels(model), {model}, [model]
    while open_terms:
        t = open_terms.pop()
        if len(seen) > 400:
            return False
        for k in names:
            ways = takes(t, k)
            if kind_is_twice(ways):
                return False
            for _, r in ways:
                if r not in seen:
                    seen.add(r)
                    open_terms.append(r)
    return True


def kind_is_twice(ways):
    return len({n for n, _ in ways}) > 1


# DOCUMENT TYPES (11)
class Type:
    def __init__(self, content, start, end, included=(), excluded=(), attribute=False):
        self.content = content  # a term, or "EMPTY", "CDATA", "RCDATA", "ANY"
        self.start, self.end = start, end
        self.included, self.excluded = frozenset(included), frozenset(excluded)
        self.attribute = attribute  # one that each start-tag has to specify

    def has_model(self):
        return not isinstance(self.content, str)


class Doctype:
    def __init__(self, omittag, taglvl, root, types):
        self.omittag, self.taglvl, self.root, self.types = omittag, taglvl, root, types


def spelled(t):
    kind = t[0]
    if kind == "name":
        return t[2]
    if kind == "text":
        return TEXT
    if kind in ("opt", "plus", "rep"):
        return spelled(t[1]) + {"opt": "?", "plus": "+", "rep": "*"}[kind]
    sign = {"seq": ",", "or": "|", "and": "&"}[kind]
    return "(" + sign.join(spelled(m) for m in t[1]) + ")"


def declarations(d):
    out = "<!DOCTYPE %s [" % d.root
    for name, t in d.types.items():
        content = spelled(t.content) if t.has_model() else t.content
        marks = "%s %s" % ("O" if t.start else "-", "O" if t.end else "-")
        exceptions = ""
        if t.excluded:
            exceptions += " -(%s)" % "|".join(sorted(t.excluded))
        if t.included:
            exceptions += " +(%s)" % "|".join(sorted(t.included))
        out += "<!ELEMENT %s %s %s%s>" % (name, marks, content, exceptions)
        if t.attribute:
            out += "<!ATTLIST %s X CDATA #REQUIRED>" % name
    return out + "]>"


# WHAT WAS READ: a list of pieces, the oldest first. A piece is a dict; those that are no tag are
# characters, and the end of the document.
def start(name, omitted=False, slash=False, at_once=False):
    return {"what": "start", "name": name, "omitted": omitted, "slash": slash, "at_once": at_once}


def end(name, how, omitted=False):
    return {"what": "end", "name": name, "how": how, "omitted": omitted}


CHARS = {"what": "chars"}
FINISH = {"what": "finish"}


def label(p):
    """What a piece is to a content model (7.6)."""
    return {"start": p.get("name"), "chars": TEXT}.get(p["what"])


def open_elements(pieces):
    """The open elements with the pieces that stand directly in each, the outermost first."""
    opened = []
    for p in pieces:
        if p["what"] == "end":
            opened.pop()
            continue
        if opened:
            opened[-1][1].append(p)
        if p["what"] == "start" and not p["at_once"]:
            opened.append((p, []))
    return opened


class Seen:
    """All that the definitions ask of what was read."""

    def __init__(self, d, pieces):
        self.d = d
        opened = open_elements(pieces)
        self.path = [p["name"] for p, _ in opened]
        self.slashes = [p["slash"] for p, _ in opened]
        self.begun = any(p["what"] == "start" for p in pieces)
        self.inferred = bool(pieces) and pieces[-1]["what"] == "start" and pieces[-1]["omitted"]
        self.left = self.left_after(opened[-1][0]["name"], opened[-1][1]) if opened else None
        if not opened:
            self.left = EMPTY if self.begun else ("name", 0, d.root)

    def left_after(self, name, inside):
        t = self.d.types[name]
        left = t.content if t.has_model() else EMPTY
        for p in inside:
            k = label(p)
            if k is not None:
                ways = takes(left, k)
                left = ways[0][1] if ways else left
        return left

    def type_of(self, name):
        return self.d.types[name]

    def fits(self, k):
        if not self.path:
            return bool(takes(self.left, k))
        t = self.type_of(self.path[-1])
        if t.has_model():
            included = any(k in self.type_of(e).included for e in self.path)
            return bool(takes(self.left, k)) or included
        if t.content == "ANY":
            return k == TEXT or k in self.d.types
        return t.content in ("CDATA", "RCDATA") and k == TEXT

    def excluded(self, k):
        return any(k in self.type_of(e).excluded for e in self.path)

    def allowed(self, k):
        return self.fits(k) and not self.excluded(k)

    def finished(self):
        if not self.path:
            return done(self.left)
        return not self.type_of(self.path[-1]).has_model() or done(self.left)

    def proper(self, name):
        if self.path and not self.type_of(self.path[-1]).has_model():
            return self.type_of(self.path[-1]).content == "ANY" and name in self.d.types
        return bool(takes(self.left, name))

    def ended(self, p):
        """How many elements stand inside the one that an end-tag or NET ends."""
        for inside in range(len(self.path)):
            at = len(self.path) - 1 - inside
            if p["how"] == "short" or (p["how"] == "net" and self.slashes[at]):
                return inside
            if p["how"] == "tag" and self.path[at] == p["name"]:
                return inside
        return None

    def ends_first(self, x):
        """Whether the innermost element is left for x."""
        k = label(x)
        if k is not None:
            return not self.allowed(k) and len(self.path) > 1 and not self.inferred
        if x["what"] == "end":
            return (self.ended(x) or 0) > 0
        return x["what"] == "finish"

    def may_stand(self, o, x):
        """Whether the omitted tag o may stand here before x (7.3.1)."""
        if not self.d.omittag:
            return False
        if o["what"] == "end":
            return bool(
                self.path
                and o["name"] == self.path[-1]
                and self.finished()
                and self.type_of(o["name"]).end
                and self.ends_first(x)
            )
        k, n = label(x), o["name"]
        return bool(
            k is not None
            and not self.allowed(k)
            and not self.finished()
            and required(self.left) == n
            and n in self.d.types
            and not self.excluded(n)
            and self.type_of(n).start
            and not self.type_of(n).attribute
            and (self.type_of(n).has_model() or self.type_of(n).content == "ANY")
            and len(self.path) < self.d.taglvl
        )


def longest_run(d, pieces, x):
    """The longest run of omitted tags, among all runs that may stand."""
    seen = Seen(d, pieces)
    ways = []
    for n in d.types:
        for o in (end(n, "tag", omitted=True), start(n, omitted=True)):
            if seen.may_stand(o, x):
                ways.append(o)
    if not ways:
        return []
    runs = [[o] + longest_run(d, pieces + [o], x) for o in ways]
    runs.sort(key=len)
    return runs[-1]


def reason(s, x):
    """Why x can't stand, as the first row that holds; s is what was seen after the longest run."""
    k, depth = label(x), len(s.path)
    if k is not None:
        full = depth >= s.d.taglvl
        if s.allowed(k):
            return "TagLevel" if x["what"] == "start" and full else None
        if s.inferred and s.finished():
            return "EmptyInferred"
        if depth == 0 and s.begun:
            return "NotAllowed"
        if s.finished() and s.fits(k) and s.excluded(k):
            return "Excluded"
        if s.finished() and depth == 1:
            return "NotAllowed"
        if s.finished():
            return "OmitUndeclared"
        n = required(s.left)
        if n is None or n not in s.d.types or s.excluded(n):
            return "Excluded" if s.fits(k) else "NotAllowed"
        if not (s.d.omittag and s.type_of(n).start):
            return "OmitUndeclared"
        t = s.type_of(n)
        if t.attribute or t.content in ("EMPTY", "CDATA", "RCDATA"):
            return "NotOmissible"
        return "TagLevel"
    if x["what"] == "end":
        inside = s.ended(x)
        if inside == 0 and s.finished():
            return None
        if inside is None:
            return "NotOpen"
    elif depth == 0 and s.begun:
        return None
    if not s.finished() or not s.begun:
        return "Unfinished"
    if not (s.path and s.d.omittag and s.type_of(s.path[-1]).end):
        return "OmitUndeclared"
    raise AssertionError("no row holds")


def shown(o):
    return ("-" if o["what"] == "end" else "+") + o["name"]


def piece(d, pieces, word):
    """The visible piece of a word, where the word can stand for one."""
    body = word[1:]
    if word == "#":
        return CHARS
    if word == ".":
        return FINISH
    if word == "/":
        return end(None, "net")
    if word == ">":
        return end(None, "short")
    if word[0] == ")":
        return end(body, "tag")
    how, name = word[0], body
    return start(name, slash=how == "/", at_once=how == "!" or d.types[name].content == "EMPTY")


def answers(d, words):
    """What is answered to each word. A refused one leaves all as it was."""
    pieces, out = [], []
    for word in words:
        x = piece(d, pieces, word)
        run = longest_run(d, pieces, x)
        after = pieces + run
        s = Seen(d, after)
        why = reason(s, x)
        if why:
            out.append(why)
            continue
        included = x["what"] == "start" and not s.proper(x["name"])
        out.append("[%s]%s" % ("".join(map(shown, run)), "i" if included else ""))
        if x["what"] == "end":
            x = end(s.path[-1 - (s.ended(x) or 0)], x["how"])
        pieces = after + [x]
    s = Seen(d, pieces)
    return " ".join(out) + " : " + "/".join(s.path) + (" net" if any(s.slashes) else "")


# CASES

class Maker:
    def __init__(self, seed):
        self.random = random.Random(seed)
        self.number = 0

    def primitive(self, names, text):
        self.number += 1
        if text and self.random.random() < 0.2:
            return ("text", self.number)
        return ("name", self.number, self.random.choice(names))

    def group(self, names, depth, text):
        kind = self.random.choice(["seq", "seq", "or", "and"])
        count = self.random.choice([1, 2, 2, 3])
        members = []
        for _ in range(count):
            if depth > 1 and self.random.random() < 0.3:
                m = self.group(names, depth - 1, text)
            else:
                m = self.primitive(names, text)
            if m[0] != "text" and m[0] not in ("opt", "plus", "rep"):
                m = self.marked(m)
            members.append(m)
        if count == 1:
            kind = "seq"
        return self.marked((kind, tuple(members)))

    def marked(self, m):
        mark = self.random.choice([None, None, "opt", "plus", "rep"])
        return (mark, m) if mark else m

    def content(self, names):
        roll = self.random.random()
        if roll < 0.08:
            return "EMPTY"
        if roll < 0.12:
            return "CDATA"
        if roll < 0.15:
            return "RCDATA"
        if roll < 0.2:
            return "ANY"
        if roll < 0.45:
            self.number += 1
            return ("seq", (("text", self.number),))
        while True:
            self.number = 0
            t = self.group(names, 2, True)
            if t[0] in ("name", "text"):
                continue
            if is_unambiguous(t):
                return t

    def doctype(self):
        names = ["A", "B", "C", "E", "F"][: self.random.choice([2, 3, 4, 5])]
        types = {}
        for name in ["D"] + names:
            some = lambda chance: [n for n in names if self.random.random() < chance]
            included = some(0.3) if self.random.random() < 0.2 else []
            excluded = some(0.3) if self.random.random() < 0.2 else []
            content = self.content(names)
            while name == "D" and isinstance(content, str):
                content = self.content(names)
            if isinstance(content, str) and content != "ANY":
                included = excluded = []
            types[name] = Type(
                content,
                self.random.random() < 0.7,
                content != "EMPTY" and self.random.random() < 0.8 or content == "EMPTY",
                included,
                excluded,
                self.random.random() < 0.1,
            )
        omittag = self.random.random() < 0.95
        return Doctype(omittag, self.random.choice([2, 3, 4, 6, 24]), "D", types)

    def words(self, d):
        names = list(d.types)
        out = []
        for _ in range(self.random.randint(4, 12)):
            roll = self.random.random()
            if roll < 0.5:
                out.append("(" + self.random.choice(names))
            elif roll < 0.55:
                out.append("/" + self.random.choice(names))
            elif roll < 0.58:
                out.append("!" + self.random.choice(names))
            elif roll < 0.75:
                out.append("#")
            elif roll < 0.85:
                out.append(")" + self.random.choice(names))
            elif roll < 0.9:
                out.append(">")
            else:
                out.append("/")
        return out + ["."]


def walk_of(maker, d):
    """Words of which most are accepted: each is the best of some, and tags that are inferred count."""
    words, pieces = [], []
    for _ in range(maker.random.randint(5, 14)):
        best = None
        for word in maker.words(d)[:-1]:
            x = piece(d, pieces, word)
            run = longest_run(d, pieces, x)
            s = Seen(d, pieces + run)
            ok = reason(s, x) is None
            left = len(s.path) - (1 + s.ended(x) if ok and x["what"] == "end" else 0)
            worth = (ok and left > 0, ok, len(run), maker.random.random())
            if best is None or worth > best[0]:
                best = (worth, word, pieces + run + [x] if ok else pieces)
        if maker.random.random() < 0.15:
            word = maker.random.choice(maker.words(d)[:-1])
            words.append(word)
            x = piece(d, pieces, word)
            run = longest_run(d, pieces, x)
            pieces = pieces + run + [x] if reason(Seen(d, pieces + run), x) is None else pieces
            continue
        words.append(best[1])
        pieces = best[2]
    return words + ["."]


def seq(*members):
    return ("seq", members)


def name(number, n):
    return ("name", number, n)


def worked():
    """Document types and tags with the answers that are known by hand."""
    data = seq(("text", 1))
    t = {
        "D": Type(seq(("opt", name(1, "T")), ("plus", name(2, "P"))), True, True),
        "T": Type(data, True, True),
        "P": Type(data, True, True),
    }
    a = {"D": Type(seq(("plus", name(1, "P"))), False, False), "P": Type(data, False, False)}
    exceptions = {
        "D": Type(seq(("plus", name(1, "P"))), False, False, included=["N"]),
        "P": Type(data, False, False),
        "N": Type(data, False, False, excluded=["N"]),
    }
    deep = {"A": Type(seq(("opt", name(1, "A"))), False, False)}
    again = {"A": Type(seq(name(1, "A")), True, True)}
    nested = {
        "A": Type(seq(name(1, "B")), True, True),
        "B": Type(seq(name(1, "C")), True, True),
        "C": Type(data, True, True),
    }
    hollow = {
        "A": Type(seq(name(1, "B")), True, True),
        "B": Type(seq(("opt", name(1, "C"))), True, True),
        "C": Type("EMPTY", False, True),
    }
    void = {"A": Type(seq(name(1, "B")), True, True), "B": Type("EMPTY", True, True)}
    titled = Doctype(True, 256, "D", t)
    plain = Doctype(True, 256, "D", a)
    noted = Doctype(True, 256, "D", exceptions)
    # data alone: the starts before it and the ends at the document's end
    yield titled, "# .", "[+D+P] [-P-D] : "
    yield titled, "(T # # (P # (P .", "[+D] [] [] [-T] [] [-P] [-P-D] : "
    yield titled, "(T # .", "[+D] [] Unfinished : D/T"
    yield Doctype(True, 256, "A", nested), "# .", "[+A+B+C] [-C-B-A] : "
    yield Doctype(True, 256, "A", nested), ".", "Unfinished : "
    # a walk that is refused leaves all as it was
    yield titled, "(P # (T .", "[+D] [] NotAllowed [-P-D] : "
    # an element in itself, up to TAGLVL
    yield Doctype(True, 256, "A", again), "#", "TagLevel : "
    yield Doctype(True, 3, "A", again), "#", "TagLevel : "
    # inclusions and exclusions
    yield noted, "(D (N # )N (P # (N # )N )P )D .", "[] []i [] [] [] [] []i [] [] [] [] [] : "
    yield noted, "(D (N (N )N )N", "[] []i Excluded [] NotOpen : D"
    # null end-tags
    yield plain, "(D /P # / (P # )P )D .", "[] [] [] [] [] [] [] [] [] : "
    yield plain, "/D /P # / (P # > / .", "[] [] [] [] [] [] [] [] [] : "
    yield plain, "(D (P # /", "[] [] [] NotOpen : D/P"
    # empty tags: the start has the type of the open element, and without OMITTAG of the last ended
    yield plain, "(D (P # > (D", "[] [] [] [] NotAllowed : D"
    yield Doctype(False, 256, "D", a), "(D (P # > (P # )P )D .", "[] [] [] [] [] [] [] [] [] : "
    # tags that can't be left out
    yield plain, ".", "Unfinished : "
    yield plain, "(D (P # )D", "[] [] [] OmitUndeclared : D/P"
    yield plain, "(D #", "[] OmitUndeclared : D"
    yield plain, "(D )D", "[] Unfinished : D"
    yield Doctype(True, 256, "A", hollow), "#", "EmptyInferred : "
    yield Doctype(True, 256, "A", void), "#", "NotOmissible : "
    # one element more than TAGLVL
    yield Doctype(True, 256, "A", deep), "(A " * 257 + ")A", "[] " * 256 + "TagLevel [] : " + "/".join(["A"] * 255)
    yield Doctype(False, 256, "D", t), "# (D .", "OmitUndeclared [] Unfinished : D"


def cases():
    for d, words, wanted in worked():
        given = answers(d, words.split())
        assert given == wanted, (words, given, wanted)
        yield d, words.split()
    seed, kept, rare = 0, 0, {}
    while kept < 200:
        maker = Maker(seed)
        seed += 1
        d = maker.doctype()
        words = walk_of(maker, d)
        given = answers(d, words).split(" : ")[0].split(" ")
        inferred = [g for g in given if len(g) > 3 and g[0] == "["]
        refused = [g for g in given if g[0] != "["]
        new = [g for g in refused if rare.get(g, 0) < 12]
        if (len(inferred) > 1 and len(refused) * 2 < len(given)) or (inferred and new):
            for g in set(refused):
                rare[g] = rare.get(g, 0) + 1
            kept += 1
            yield d, words


def main(folder):
    with open(folder + "/data/cases", "w") as data, open(folder + "/stdout", "w") as out:
        for d, words in cases():
            data.write("%s %d %s\n%s\n" % ("YES" if d.omittag else "NO", d.taglvl, declarations(d), " ".join(words)))
            out.write(answers(d, words) + "\n")


if __name__ == "__main__":
    main(sys.argv[1])
