"""The answers of `crates/sgml_model_trials` to the lines of a file that ask of words: what each word leaves
of a content model (ISO 8879, 11.2.4), by sets of terms that may be left. It knows nothing of the crates."""
import re
import sys


def parsed(text):
    """A group as a term: ('name', n), ('text',), or a connector or mark and its members."""
    at = 0

    def item():
        nonlocal at
        if text[at] != '(':
            at += 1
            name = text[at - 1]
            term = ('text',) if name == '#' else ('name', name)
        else:
            at += 1
            members, connector = [item()], ','
            while text[at] != ')':
                connector = text[at]
                at += 1
                members.append(item())
            at += 1
            term = (connector,) + tuple(members)
        if at < len(text) and text[at] in '?+*':
            at += 1
            term = (text[at - 1], term)
        return term

    return item()


def finished(term):
    kind, members = term[0], term[1:]
    if kind in ('text', '?', '*'):
        return True
    if kind == 'name':
        return False
    if kind == '|':
        return any(map(finished, members))
    return all(map(finished, members))


def left(term, name):
    """The terms that may be left when the name is taken."""
    kind, members = term[0], term[1:]
    if kind == 'text':
        return [term] if name == '#' else []
    if kind == 'name':
        return [('then',)] if members[0] == name else []
    if kind in (',', 'then'):
        found = []
        for i, member in enumerate(members):
            found += [('then', rest) + members[i + 1:] for rest in left(member, name)]
            if not finished(member):
                break
        return found
    if kind == '|':
        return [rest for member in members for rest in left(member, name)]
    if kind == '&':
        return [('then', rest, ('&',) + members[:i] + members[i + 1:])
                for i, member in enumerate(members) for rest in left(member, name)]
    if kind == '?':
        return left(members[0], name)
    return [('then', rest, ('*', members[0])) for rest in left(members[0], name)]


def required(term):
    """The element that must come next, where there is one (ISO 8879, 4); no member of an AND group must begin."""
    kind, members = term[0], term[1:]
    if kind == 'name':
        return members[0]
    if kind in (',', 'then'):
        behind = [member for member in members if not finished(member)]
        return required(behind[0]) if behind else None
    if kind == '|':
        return required(members[0]) if len(members) == 1 else None
    return required(members[0]) if kind == '+' else None


def written_out(text):
    return re.sub(r'(\d+)\[([^]]*)\]', lambda m: m[2] * int(m[1]), text)


def told(term):
    return ('done:' if finished(term) else 'open:') + (required(term) or '-')


def step(terms, name):
    return list(dict.fromkeys(rest for term in terms for rest in left(term, name)))


def place(terms):
    assert len({told(term) for term in terms}) == 1, terms
    return told(terms[0]) + ':' + ''.join(name for name in 'ABCD#' if step(terms, name))


def places(term, word):
    terms, answers = [term], [place([term])]
    for name in word:
        terms = step(terms, name) or terms
        answers.append(place(terms))
    return answers


def main():
    for line in open(sys.argv[1], encoding='ascii').read().split('\n'):
        word, *rest = line.split('\t')
        if word == 'walk':
            terms, count = [parsed(written_out(rest[0]))], 0
            for name in rest[1]:
                following = step(terms, name)
                if not following:
                    break
                terms, count = following, count + 1
            print(f'{line}\t{count} ' + '/'.join(sorted({told(term) for term in terms})))
        elif word == 'places':
            print(f'{line}\t' + ' '.join(places(parsed(rest[0]), rest[1])))
        elif word == 'copy':
            answers = places(parsed(rest[0]), rest[1])
            print(f'{line}\t{answers[0]} {answers[-1]} one')


if __name__ == '__main__':
    sys.setrecursionlimit(100_000)
    main()
