"""What the tests of the Python module share. Importing it puts python/ on sys.path.

Paths      ROOT, SAMPLES, COMMAND, REFERENCE, HEADER, TEXT_HEADER; sample_files() lists the samples.
Meant      a rule file as its generator meant it; `.data` are its bytes, written here and not by the module.
           random_meant(random) makes one with any names, rules and weights; small_meant(random) one that the
           independent implementation decides quickly.
Damaged    damaged(random, meant) gives bytes of a file that was changed, cut or added to; expected_fault(data) is
           the refusal number of any bytes and the number of the faulty field, read here by 01 and 02.
Rank       decision_order(rules) lists the places of rules from the best to the worst, by 01 and 02.
Command    run_command(*words) runs bin/tullweth as a program, call_command(*words) in this process; both give Ran
           with status, out (bytes) and err (text), and take the bytes of standard input as `given`.
Reference  ask_reference(data, questions) gives the lines that the independent implementation answers each with.

All random numbers come from random.Random with a fixed seed: seeded('a name').
"""

import contextlib
import io
import os
import random
import struct
import subprocess
import sys
import tempfile
from dataclasses import dataclass
from pathlib import Path
from typing import List, Optional, Sequence, Tuple

ROOT = Path(__file__).resolve().parent.parent.parent
SAMPLES = ROOT / 'samples'
COMMAND = ROOT / 'bin' / 'tullweth'
REFERENCE = ROOT / 'tests' / 'target' / 'release' / 'reference'
HEADER = ROOT / 'include' / 'tullweth.h'
TEXT_HEADER = ROOT / 'include' / 'tullweth_text.h'

if str(ROOT / 'python') not in sys.path:
    sys.path.insert(0, str(ROOT / 'python'))

# ---- 01 and 02, written down once more

ONE_STEP = (1, 2, 3, 4)
COUNTING = (19, 20, 21)
TWO_STEPS = (*range(5, 19), 22, 23)
TEMPLATE_NAMES = (
    'Participation AtMostOne Init End RespondedExistence Response AlternateResponse ChainResponse Precedence '
    'AlternatePrecedence ChainPrecedence CoExistence Succession AlternateSuccession ChainSuccession '
    'NotChainSuccession NotSuccession NotCoExistence AtLeast AtMost Exactly Choice ExclusiveChoice').split()
ONE = 0x3F800000


def seeded(name: str) -> random.Random:
    """Random numbers that are the same in every run."""
    return random.Random(f'tullweth {name}')


def sample_files() -> List[Path]:
    """The rule files among the samples."""
    return sorted(SAMPLES.glob('*.rules'))


# ---- rule files


@dataclass(frozen=True)
class MeantRule:
    """The three bytes of a rule and the bits of its weights."""

    template: int
    x: int
    y: int
    weights: Tuple[int, int, int]

    @property
    def name(self) -> str:
        """The name of the template."""
        return TEMPLATE_NAMES[self.template - 1]

    @property
    def field(self) -> bytes:
        """The rule field."""
        weights = b''.join(bits.to_bytes(4, 'big') for bits in self.weights)
        return b'\x52\x00\x0f' + bytes([self.template, self.x, self.y]) + weights


@dataclass(frozen=True)
class Meant:
    """Steps and rules of a rule file."""

    steps: Tuple[str, ...]
    rules: Tuple[MeantRule, ...]

    @property
    def fields(self) -> List[bytes]:
        """The fields of the file."""
        return [step_field(name.encode()) for name in self.steps] + [rule.field for rule in self.rules]

    @property
    def data(self) -> bytes:
        """The bytes of the file."""
        return b''.join(self.fields)


def step_field(name: bytes) -> bytes:
    """A step field with any content."""
    return b'\x53' + len(name).to_bytes(2, 'big') + name


def float_of(bits: int) -> float:
    """The number that 32 bits are."""
    return struct.unpack('>f', bits.to_bytes(4, 'big'))[0]


# All bytes from hex 21 to 7E occur in the last row.
NOTED_NAMES = [
    'step', 'rule', 'Response', 'Init', 'AtMost', 'one', 'Not', 'Existence2', '3', '0.5', '1e-3', '0x3F800000', '-1',
    '#', '##', '#a', 'a#', '"', '""', '"a"', 'a"b\\', '\\', '\\\\', '\\"', "'", ',', 'a,b', '(', ')', '[a]', '{a,b}',
    '{', '}', '(a,', 'a', 'A', '!', '~', '!' * 16, '~' * 16, '--', '-', '--json', 'run', '%s', '$HOME', '`ls`',
    *(bytes(range(first, min(first + 16, 0x7F))).decode() for first in range(0x21, 0x7F, 16)),
]
NOTED_WEIGHTS = [0, 1, 2, 0x007FFFFF, 0x00800000, 0x3E800000, 0x3F000000, ONE - 1, ONE]


def _random_name(chance: random.Random, names: Sequence[str]) -> str:
    kind = chance.randrange(4)
    if kind == 0:
        return chance.choice(NOTED_NAMES)
    if kind == 1 and names:
        name = chance.choice(names)
        place = chance.randrange(len(name))
        return name[:place] + chr(chance.randint(0x21, 0x7E)) + name[place + 1:]
    length = chance.randint(1, 16)
    letters = '#"\\,()[]{}' if kind == 2 else [chr(byte) for byte in range(0x21, 0x7F)]
    return ''.join(chance.choice(letters) for _ in range(length))


def random_names(chance: random.Random, count: int) -> Tuple[str, ...]:
    """So many distinct names of all kinds."""
    names: List[str] = []
    while len(names) < count:
        name = _random_name(chance, names)
        if name not in names:
            names.append(name)
    return tuple(names)


def _random_weight(chance: random.Random) -> int:
    kind = chance.randrange(4)
    if kind == 0:
        return chance.choice(NOTED_WEIGHTS)
    if kind == 1:
        return int.from_bytes(struct.pack('>f', chance.randint(0, 1000) / 1000), 'big')
    return chance.randrange(0x00800000) if kind == 2 else chance.randint(0, ONE)


def random_rule(chance: random.Random, steps: int, template: int) -> MeantRule:
    """An accepted rule of this template, or of one that names one step where no more are declared."""
    if steps == 1 and template in TWO_STEPS:
        template = chance.choice(ONE_STEP + COUNTING)
    x = chance.randrange(steps)
    if template in ONE_STEP:
        y = 0xFF
    elif template in COUNTING:
        y = chance.randint(1, chance.choice((2, 14)))
    else:
        y = (x + chance.randint(1, steps - 1)) % steps
    return MeantRule(template, x, y, (_random_weight(chance), _random_weight(chance), _random_weight(chance)))


def _of_size(chance: random.Random, steps: int, rules: int) -> Meant:
    few = [chance.randint(1, 23) for _ in range(4)]
    templates = few if chance.randrange(3) == 0 else range(1, 24)
    made = [random_rule(chance, steps, chance.choice(templates)) for _ in range(rules)]
    if made and chance.randrange(4) == 0:
        made[chance.randrange(rules)] = chance.choice(made)
    if chance.randrange(4) == 0:
        made = [MeantRule(rule.template, rule.x, rule.y, made[0].weights) for rule in made]
    return Meant(random_names(chance, steps), tuple(made))


def random_meant(chance: random.Random) -> Meant:
    """Any accepted file: 1 to 24 steps, 0 to 32 rules, more often a small one."""
    steps = chance.randint(1, chance.choice((3, 6, 24)))
    rules = chance.randint(0, chance.choice((2, 6, 32)))
    return _of_size(chance, steps, rules)


def small_meant(chance: random.Random) -> Meant:
    """An accepted file of few steps with enough rules to meet, which is decided quickly; one of a dozen is large."""
    if chance.randrange(12) == 0:
        return _of_size(chance, chance.randint(1, 24), chance.randint(0, 32))
    return _of_size(chance, chance.randint(1, 5), chance.randint(0, 9))


# ---- damaged files


def _one_damage(chance: random.Random, fields: List[bytes]) -> List[bytes]:
    """The fields with one of them changed, or one more, or one less."""
    place = chance.randrange(len(fields))
    one = fields[place]
    at = chance.randrange(len(one))
    kinds = {
        'change': lambda: [one[:at] + bytes([chance.randrange(256)]) + one[at + 1:]],
        'flip': lambda: [one[:at] + bytes([one[at] ^ 1 << chance.randrange(8)]) + one[at + 1:]],
        'edge': lambda: [one[:at] + bytes([chance.choice((0, 1, 0x0F, 0x20, 0x3F, 0x7F, 0x80, 0xFF))]) + one[at + 1:]],
        'cut': lambda: [one[:at]] if at else [],
        'twice': lambda: [one, one],
        'lose': lambda: [],
        'add': lambda: [one, bytes(chance.randrange(256) for _ in range(chance.randint(1, 4)))],
        'empty': lambda: [chance.choice((b'\x53\0\0', b'\x52\0\0', b'\x41\0\0'))],
        'longer': lambda: [one[:1] + len(one[3:] + b'a').to_bytes(2, 'big') + one[3:] + b'a'],
        'head': lambda: [one[:3] + bytes(chance.randrange(26) for _ in one[3:6]) + one[6:]],
        'move': lambda: [fields[-1], one],
    }
    return fields[:place] + kinds[chance.choice(list(kinds))]() + fields[place + 1:]


def _too_many(chance: random.Random, meant: Meant) -> List[bytes]:
    """The fields with more steps or more rules than a file takes."""
    steps = [step_field(name.encode()) for name in meant.steps]
    rules = [rule.field for rule in meant.rules]
    if chance.randrange(2) and rules:
        return steps + [chance.choice(rules) for _ in range(33)]
    return [step_field(b'n%d' % number) for number in range(chance.randint(25, 26))] + rules


def damaged(chance: random.Random, meant: Meant) -> bytes:
    """The bytes of a file after one to three damages; some such bytes are a file that is accepted."""
    if chance.randrange(25) == 0:
        return b''.join(_too_many(chance, meant))
    fields = meant.fields
    for _ in range(chance.choice((1, 1, 1, 2, 3))):
        fields = _one_damage(chance, fields) or [b'\x53\0\0']
    data = b''.join(fields)
    if chance.randrange(8) == 0:
        data = data[:chance.randrange(len(data) + 1)]
    return data


def _step_fault(name: bytes, names: List[bytes], rules: int) -> int:
    if rules:
        return 4
    if len(names) == 24:
        return 5
    if not 1 <= len(name) <= 16 or min(name) < 0x21 or max(name) > 0x7E:
        return 6
    return 7 if name in names else 0


def _rule_fault(content: bytes, steps: int, rules: int) -> int:
    if rules == 32:
        return 8
    if len(content) != 15:
        return 9
    template, x, y = content[:3]
    if not 1 <= template <= 23:
        return 10
    if template in COUNTING and not 1 <= y <= 14:
        return 17
    if x >= steps or template in TWO_STEPS and (y >= steps or y == x) or template in ONE_STEP and y != 0xFF:
        return 11
    weights = [content[at:at + 4] for at in (3, 7, 11)]
    return 12 if any(weight > ONE.to_bytes(4, 'big') for weight in weights) else 0


def expected_fault(data: bytes) -> Tuple[int, Optional[int]]:
    """The number by which 01 and 02 refuse these bytes, and the number of the faulty field from 1; 0 if accepted."""
    names: List[bytes] = []
    rules, field, rest = 0, 0, data
    while rest:
        field += 1
        length = 3 + int.from_bytes(rest[1:3], 'big')
        if len(rest) < 3 or len(rest) < length:
            return 2, field
        tag, content, rest = rest[0], rest[3:length], rest[length:]
        if tag not in (0x53, 0x52):
            return 3, field
        fault = _step_fault(content, names, rules) if tag == 0x53 else _rule_fault(content, len(names), rules)
        if fault:
            return fault, field
        if tag == 0x53:
            names.append(content)
        else:
            rules += 1
    return (0, None) if names else (13, None)


# ---- rank


def decision_order(rules: Sequence[MeantRule]) -> List[int]:
    """The places of the rules from the best to the worst: larger support, confidence, interest and template number,
    smaller x and y, the earlier rule."""
    def better_first(place: int) -> Tuple[int, ...]:
        rule = rules[place]
        support, confidence, interest = rule.weights
        return -support, -confidence, -interest, -rule.template, rule.x, rule.y, place

    return sorted(range(len(rules)), key=better_first)


# ---- the command


@dataclass(frozen=True)
class Ran:
    """How the command ended and what it wrote."""

    status: int
    out: bytes
    err: str


def run_command(*words: str, given: bytes = b'') -> Ran:
    """Runs bin/tullweth as a program of its own, with these bytes on standard input."""
    done = subprocess.run([sys.executable, str(COMMAND), *words], input=given, capture_output=True, check=False,
                          timeout=60)
    return Ran(done.returncode, done.stdout, done.stderr.decode('utf-8'))


def call_command(*words: str, given: bytes = b'') -> Ran:
    """The same in this process, which is quicker."""
    from tullweth.command import main

    out, err = (io.TextIOWrapper(io.BytesIO(), encoding='utf-8', write_through=True) for _ in range(2))
    before = sys.stdin
    sys.stdin = io.TextIOWrapper(io.BytesIO(given), encoding='utf-8')
    try:
        with contextlib.redirect_stdout(out), contextlib.redirect_stderr(err):
            status = main(list(words))
    finally:
        sys.stdin = before
    return Ran(status, out.buffer.getvalue(), err.buffer.getvalue().decode('utf-8'))


# ---- the independent implementation


def ask_reference(data: bytes, questions: Sequence[Sequence[str]]) -> List[List[str]]:
    """The lines that the independent implementation answers each question about a file with. A question is a list
    of words: none asks for pruning, a rule number for its sequences, that and 'run' and names for a state."""
    with tempfile.TemporaryDirectory() as folder:
        asked = os.path.join(folder, 'questions')
        with open(asked, 'w', encoding='ascii', newline='') as stream:
            stream.writelines('\t'.join(words) + '\n' for words in questions)
        done = subprocess.run([str(REFERENCE), 'all', asked], input=data, capture_output=True, check=True, timeout=60)
    answers = _split_answers(done.stdout.decode('ascii'))
    if [question for question, _ in answers] != ['\t'.join(words) for words in questions]:
        raise AssertionError('the independent implementation answered other questions')
    return [lines for _, lines in answers]


def _split_answers(printed: str) -> List[Tuple[str, List[str]]]:
    """The questions and the lines under each, without the last, which is the status."""
    found: List[Tuple[str, List[str]]] = []
    for line in printed.splitlines():
        if line.startswith('> '):
            found.append((line[2:], []))
        elif not line.startswith('status '):
            found[-1][1].append(line)
    return found
