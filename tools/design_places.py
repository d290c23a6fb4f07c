#!/usr/bin/env python3
"""Lists the places of src/ at which docs/DESIGN-PASS.md looks, by its points, and how many there are.

usage: tools/design_places.py [COMMIT]     of the checkout, or as it was at a commit

It goes by text: what it lists is to be read, and what it cannot see (a twin under two names, say) the page lists by
name.
"""
import itertools
import re
import subprocess
import sys
from collections import defaultdict
from pathlib import Path

ROOT = Path(__file__).resolve().parent.parent


def sources(commit):
    if commit is None:
        paths = sorted(ROOT.glob('crates/*/src/*.rt'))
        return {str(path.relative_to(ROOT)): path.read_text() for path in paths}
    git = ['git', '-C', str(ROOT)]
    names = subprocess.run([*git, 'ls-tree', '-r', '--name-only', commit, 'crates'], capture_output=True, text=True,
                           check=True).stdout.split()
    return {name: subprocess.run([*git, 'show', f'{commit}:{name}'], capture_output=True, text=True, check=True).stdout
            for name in names if re.fullmatch(r'crates/\w+/src/\w+\.rt', name)}


FUNCTION = re.compile(r'^( *)(?:pub )?(?:extern "C" )?fn (\w+)(?:<[^>]*>)?\(([^{]*?)\)(?: -> ([^\n{]+?))?'
                      r'(?=\s*\n| *\{)', re.M | re.S)


class Function:
    def __init__(self, path, text, found):
        self.path, self.name = path, found.group(2)
        self.line = text.count('\n', 0, found.start()) + 1
        self.parameters = [part.strip() for part in re.split(r',\s*(?![^\[<]*[\]>])', found.group(3)) if part.strip()]
        self.result = (found.group(4) or '').strip()
        rest = text[found.end():]
        brace = re.search(r'^%s\{|^[^\n]*\{\n' % found.group(1), rest, re.M)
        self.clauses = rest[:brace.start()] if brace else ''
        end = re.search(r'^%s\}' % found.group(1), rest, re.M)
        self.body = rest[brace.start() if brace else 0:end.start() if end else None]

    def __str__(self):
        return f'{self.path}:{self.line}: {self.name}'


def functions(files):
    return [Function(path, text, found) for path, text in files.items() for found in FUNCTION.finditer(text)]


def lines(files, pattern):
    for path, text in files.items():
        for number, line in enumerate(text.splitlines(), 1):
            if not line.lstrip().startswith('//') and re.search(pattern, line):
                yield f'{path}:{number}: {line.strip()}'


# ---- point 1

def option_like(files):
    """Enums with a variant that says none or refused beside one that holds something."""
    for path, text in files.items():
        for found in re.finditer(r'^pub enum (\w+) \{(.*?)^\}', text, re.M | re.S):
            variants = re.findall(r'^    (\w+)(\(|\s*\{)?', found.group(2), re.M)
            if len(variants) <= 3 and any(held for _, held in variants):
                yield f'{path}: enum {found.group(1)}'


def numbers(every):
    """Functions that take or give the number of a refusal, a kind, or an index or standing that stands for none."""
    words = r'(refusal|fault|refused|later|before|number): u8|\bkind: usize'
    names = r'(refusal|fault|refused)$|^(prune|show|write_state|begin|step)$'
    for one in every:
        taken = [part for part in one.parameters if re.search(words, part)]
        given = (one.result == 'u8' and re.search(names, one.name)
                 or one.result == 'usize' and one.name.startswith('kind_'))
        none = (one.name in ('first_fitting', 'place_among_few', 'broken_standing')
                and not one.result.startswith('Option'))
        if taken or given or none:
            yield str(one)


# ---- point 5

def together(every):
    """Pairs of parameters, by name and type, that stand in three functions or more."""
    pairs = defaultdict(list)
    for one in every:
        parts = [part for part in one.parameters if ':' in part]
        for pair in itertools.combinations([part.replace('mut ', '', 1) if part.startswith('mut ') else part
                                            for part in parts], 2):
            pairs[pair].append(one)
    for pair, users in sorted(pairs.items(), key=lambda item: -len(item[1])):
        if len(users) >= 3:
            yield f'{len(users)}: {pair[0]}, {pair[1]}'


def facts(every):
    """Facts of `requires`, up to the names of their variables, that stand in three contracts or more."""
    held = defaultdict(list)
    for one in every:
        for clause in re.findall(r'requires(?: \w+)? \{(.*?)\}\s*(?=requires|ensures|$)', one.clauses, re.S):
            for fact in re.sub(r'\s+', ' ', clause).split('×'):
                held[re.sub(r'\b(\w+)\.(now|old)\b', r'\1', fact).strip(' ()')].append(one)
    for fact, users in sorted(held.items(), key=lambda item: -len(item[1])):
        if len(users) >= 3:
            yield f'{len(users)}: {fact}'


# ---- point 6

def beside(every, files):
    """Arrays or areas with a number beside that says how much of them is used: in parameters, and in fields."""
    length = r'^(count|n|steps|size|at|k|most|first)$'
    for one in every:
        names = [part.split(':')[0].strip() for part in one.parameters if ':' in part]
        arrays = r'(list|order|words|steps|rules|names|out|buf|verdicts): .*\['
        held = [part for part in one.parameters if re.search(arrays, part)]
        if held and any(re.match(length, name) for name in names):
            yield str(one)
    for path, text in files.items():
        for found in re.finditer(r'^pub struct (\w+)[^{;]*\{(.*?)^\}', text, re.M | re.S):
            fields = re.findall(r'^    (?:pub )?(\w+): (.*),$', found.group(2), re.M)
            if any(kind.startswith('[') for _, kind in fields) and any(kind == 'usize' for _, kind in fields):
                yield f'{path}: struct {found.group(1)}'


def main():
    files = sources(sys.argv[1] if len(sys.argv) > 1 else None)
    every = functions(files)
    by_hand = (r'^(pub )?fn (smaller|larger|held_\w+|tried_\w+|but_worst|same_bytes|are|choose|wide|of_words|counted|'
               r'\w*number_of|\w+_number|rule_at|is_final)\(')
    constants = r'pub const ([A-Z_]+: u8 = \d+;$|(X|Y|OTHER|SATISFIED|BROKEN|STANDINGS): usize = [0-5];)'
    points = [
        ('1, enums of the shape of Option or Result', option_like(files)),
        ('1, a refusal beside a value', lines(files, r'^\s+pub refusal: u8')),
        ('1, constants that number refusals or kinds', lines(files, constants)),
        ('1, numbers for refusals, kinds or none in signatures', numbers(every)),
        ('3, loops that are no `for`', lines(files, r'^\s*(while\b.*|loop) \{')),
        ('4, equality, order, copying or conversion by hand, by name', lines(files, by_hand)),
        ('5, parameters that go together', together(every)),
        ('5, facts in three contracts or more', facts(every)),
        ('6, an array or area with a length beside', beside(every, files)),
        ('7, closures, function pointers, dyn', lines(files, r'\bdyn |impl Fn|: fn\(')),
    ]
    for title, places in points:
        places = list(places)
        print(f'== {title}: {len(places)}')
        for place in places:
            print(f'   {place}')
    print(f'functions: {len(every)}; lines of src: {sum(text.count(chr(10)) for text in files.values())}')


main()
