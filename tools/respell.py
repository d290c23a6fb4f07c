#!/usr/bin/env python3
"""Spells the repository's own definitions, laws and fields in snake case, after /opt/rattle/port/port.py has run once.

usage: python3 tools/respell.py [--check]      at the top of the repository

`mostRules` becomes `most_rules` and `next-sixteen` becomes `next_sixteen`. A name that begins with a capital is that of
a type and stays. Where a law would get the name of a definition or of another law, it gets `_lem` after its name. A
name counts as the repository's own if a file of specs/ or proofs/ declares it. What only one Proof.antt declares is
turned in that file alone. Functions of src/, exported names, strings, inputs and outputs are not touched: of a file of
src/ only its clauses, its `ghost use` lines and what stands in backticks in its comments are turned. README.md,
CONTRIBUTING.md and docs/ are turned in backticks alone. A second run changes nothing. --check writes nothing."""

import collections
import os
import re
import sys

# Laws that fall together with a definition or with another law once both are in snake case.
BESIDE = {
    'no-rule', 'by-larger', 'decision-order', 'no-later', 'none-broken', 'joint-after', 'known-broken', 'table-goes',
    'table-satisfied', 'table-broken', 'satisfies-to', 'read-back', 'found-by', 'table-search', 'all-kept',
    'step-refusal', 'refused-or', 'first-fate', 'second-fate', 'kept-first', 'others-kept', 'test-search',
    'table-outcome', 'kept-before', 'has-rule', 'most-standings', 'kind-in', 'in-limits', 'one-step-away', 'left-soon',
    'in-set', 'word-in', 'value-of', 'put-at', 'second-count', 'field-of',
}  # fmt: skip

# Laws of the same kind that the scripts of the kit have spelled with an underscore already, each with the definition
# that gets its name.
BESIDE_TURNED = {
    'first_count': 'firstCount',
    'no_second': 'noSecond',
    'two_bytes': 'twoBytes',
    'four_bytes': 'fourBytes',
    'of_number': 'ofNumber',
}

DECLARED = re.compile(
    r'^\s*(?:(?:pub|abbrev|unfoldable|where|let|record|data) +)*([^\s(){}.;,@"«»λ]+)(?: \{[^{}\n]*\})* :(?:\s|$)'
)
WORD = re.compile(r'[^\s(){}.;,@"«»`]+')
SPAN = re.compile(r'`[^`\n]+`')
FIELD = re.compile(r'^\s+(?:pub +)?([^\s(){}.;,@"«»λ]+) :(?:\s|$)')
COMMENT = re.compile(r'(?:(?<=\s)|^)--(?=\s).*')
PATH = re.compile(r'\b(?:specs|proofs)(?:\.\w+)*\.$')
# The clauses and the `ghost use` lines of a file of src/.
CLAUSE = re.compile(r'\b(?:requires|ensures)\b\*?(?: \w+)? \{')


def snake(name):
    return re.sub(r'(?<=[a-z0-9])[A-Z]', lambda m: '_' + m[0].lower(), name).replace('-', '_')


def turned(name):
    if name in BESIDE_TURNED:
        return name + '_lem'
    return snake(name) + ('_lem' if name in BESIDE else '')


def files(*endings, top='crates'):
    for folder, folders, names in os.walk(top):
        folders[:] = sorted(it for it in folders if it != 'out')
        for name in sorted(names):
            if name.endswith(endings):
                yield os.path.join(folder, name)


def read(path):
    with open(path, encoding='utf-8') as file:
        return file.read()


def declared_in(text):
    for line in text.splitlines():
        found = DECLARED.match(COMMENT.sub('', line))
        if found and not found[1][0].isupper():
            yield found[1]


# The fields of the records of a file, each on a line of its own below `record NAME .. where`.
def fields_in(text):
    inside = None
    for line in text.splitlines():
        line = COMMENT.sub('', line)
        if not line.strip():
            continue
        margin = len(line) - len(line.lstrip())
        if re.match(r'\s*(?:pub +)?record ', line):
            inside = margin
        elif inside is not None and margin <= inside:
            inside = None
        elif inside is not None and (found := FIELD.match(line)):
            yield found[1]


class Names:
    def __init__(self):
        self.shared, self.fields, self.own = set(), set(), collections.defaultdict(set)
        declared = {name for path in files('.antt') for name in declared_in(read(path))}
        for path in files('.antt'):
            if not path.endswith('/Proof.antt'):
                self.fields.update(fields_in(read(path)))
            for name in declared_in(read(path)):
                if turned(name) == name or name in BESIDE_TURNED and BESIDE_TURNED[name] not in declared:
                    continue
                if path.endswith('/Proof.antt'):
                    self.own[path].add(name)
                else:
                    self.shared.add(name)

    # In a walk through code a name behind a dot is one that Rattle makes, as `c.standing-at`, unless it is a field of a
    # record or a path of modules leads to it.
    def antt(self, path, text):
        names = self.shared | self.own.get(path, set())
        walk = path.endswith('/Proof.antt')

        def one(found):
            word = found[0]
            if word not in names:
                return word
            behind_dot = found.start() > 0 and found.string[found.start() - 1] == '.'
            if walk and behind_dot and word not in self.fields and not PATH.search(found.string[: found.start()]):
                return word
            return turned(word)

        return WORD.sub(one, text)

    # What stands in backticks, in a comment or a page.
    def spans(self, text):
        one = lambda m: turned(m[0]) if m[0] in self.shared else m[0]
        return SPAN.sub(lambda m: WORD.sub(one, m[0]), text)

    def source(self, text):
        names = self.shared
        turn = lambda part: WORD.sub(lambda m: turned(m[0]) if m[0] in names else m[0], part)
        out, at = [], 0
        for found in re.finditer(r'//.*|ghost use [^;]*;|' + CLAUSE.pattern, text):
            if found.start() < at:
                continue
            end = found.end()
            if found[0].startswith('//'):
                out += [text[at : found.start()], self.spans(found[0])]
                at = end
                continue
            if not found[0].startswith('ghost'):
                depth = 1
                while depth:
                    depth += {'{': 1, '}': -1}.get(text[end], 0)
                    end += 1
            out += [text[at : found.start()], turn(text[found.start() : end])]
            at = end
        return ''.join(out) + text[at:]


def main():
    check = '--check' in sys.argv[1:]
    names, changed = Names(), 0
    for path in files('.antt', '.rt'):
        old = read(path)
        new = names.source(old) if path.endswith('.rt') else names.antt(path, old)
        if new != old:
            changed += 1
            if not check:
                with open(path, 'w', encoding='utf-8') as file:
                    file.write(new)
    pages = [it for it in files('.md', top='docs') if not it.startswith('docs/PORT')]
    for path in ['README.md', 'CONTRIBUTING.md', *pages]:
        old = read(path)
        new = names.spans(old)
        if new != old:
            changed += 1
            if not check:
                with open(path, 'w', encoding='utf-8') as file:
                    file.write(new)
    print(f'respell: {changed} files{" would change" if check else ""}')


main()
