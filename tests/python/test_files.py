"""Rule files: read, written as text and back, and refused by the number and at the field that 01 and 02 say."""

import struct
import unittest
from collections import Counter
from decimal import Context, Decimal

from support import (COUNTING, ONE_STEP, SAMPLES, TWO_STEPS, Meant, MeantRule, call_command, damaged, expected_fault,
                     float_of, random_meant, sample_files, seeded, step_field)
from tullweth import BadText, Refused, Rule, RuleFile
from tullweth.fields import fields_of, first_fault, place_of
from tullweth.refusals import MEANINGS, Place
from tullweth.rule_file import is_rule_file

RANDOM_FILES = 10000
WRITTEN_TEXTS = 1500
DAMAGED_FILES = 5000
FILE_REFUSALS = {*range(2, 14), 17}


def meant_rule(rule, steps):
    """A rule as the module has to read it."""
    y = steps[rule.y] if rule.template in TWO_STEPS else None
    count = rule.y if rule.template in COUNTING else None
    return Rule(rule.name, steps[rule.x], y, count, *map(float_of, rule.weights))


def shortest_decimal(bits):
    """A weight rounded to the fewest digits with which it has the same 32 bits."""
    exact = Decimal(float_of(bits))
    rounded = (Context(prec=digits).create_decimal(exact) for digits in range(1, 10))
    return next(number for number in rounded if struct.pack('>f', float(number)) == bits.to_bytes(4, 'big'))


class Samples(unittest.TestCase):
    """Each sample's text and rule file are the same file."""

    def test_pairs(self):
        """The text packs to the rule file, and that unpacks to a text that packs to it."""
        self.assertGreaterEqual(len(sample_files()), 13)
        for path in sample_files():
            with self.subTest(path.name):
                packed = path.read_bytes()
                self.assertEqual(RuleFile.read(path.with_suffix('.txt')).data, packed)
                file = RuleFile.read(path)
                self.assertEqual((file.data, file.is_text), (packed, False))
                again = RuleFile.parse(file.text())
                self.assertEqual((again.data, again.is_text), (packed, True))
                self.assertEqual(again.text(), file.text())

    def test_by_the_command(self):
        """pack and unpack do the same, and undo each other."""
        for path in sample_files():
            with self.subTest(path.name):
                packed = call_command('pack', str(path.with_suffix('.txt'))).out
                self.assertEqual(packed, path.read_bytes())
                text = call_command('unpack', str(path)).out
                self.assertEqual(call_command('pack', '-', given=text).out, packed)
                self.assertEqual(call_command('unpack', '-', given=text).out, text)
                self.assertEqual(call_command('unpack', str(path.with_suffix('.txt'))).out, text)

    def test_the_worked_example(self):
        """samples/incident.rules byte by byte, as docs/FORMAT.md has it."""
        fields = ['53 00 07 61 63 71 75 69 72 65', '53 00 05 67 75 69 64 65', '53 00 06 65 78 70 6F 73 65',
                  '53 00 03 61 72 63', '53 00 07 72 65 61 64 6F 75 74',
                  '52 00 0F 01 02 FF 3F 40 00 00 3F 60 00 00 3F 00 00 00',
                  '52 00 0F 06 02 03 3F 00 00 00 3F 40 00 00 3F 00 00 00',
                  '52 00 0F 11 02 03 3E 80 00 00 3F 00 00 00 3F 00 00 00']
        file = RuleFile(bytes.fromhex(''.join(fields)))
        self.assertEqual(file, RuleFile.read(SAMPLES / 'incident.txt'))
        self.assertEqual(file.steps, ('acquire', 'guide', 'expose', 'arc', 'readout'))
        self.assertEqual(file.rules, (Rule('Participation', 'expose', None, None, 0.75, 0.875, 0.5),
                                      Rule('Response', 'expose', 'arc', None, 0.5, 0.75, 0.5),
                                      Rule('NotSuccession', 'expose', 'arc', None, 0.25, 0.5, 0.5)))
        self.assertEqual(file.text().splitlines()[-1], 'rule NotSuccession expose arc 0.25 0.5 0.5')


class RandomFiles(unittest.TestCase):
    """Accepted files of all kinds, whose bytes are not written by the module."""

    def check(self, meant):
        data = meant.data
        file = RuleFile(data)
        self.assertEqual(file.data, data)
        self.assertEqual(file.steps, meant.steps)
        self.assertEqual(file.rules, tuple(meant_rule(rule, meant.steps) for rule in meant.rules))
        self.assertTrue(is_rule_file(data))
        text = file.text().encode('ascii')
        self.assertFalse(is_rule_file(text))
        read = RuleFile.from_content(text)
        self.assertEqual((read.data, read.is_text), (data, True))
        self.assertEqual(read.text().encode('ascii'), text)

    def test_round_trips(self):
        """Bytes to steps and rules, to a text and back; the text is its own canonical form; both are told apart."""
        chance = seeded('round trips')
        letters, templates, counts, weights, sizes = set(), set(), set(), set(), set()
        for number in range(RANDOM_FILES):
            meant = random_meant(chance)
            with self.subTest(number=number, data=meant.data.hex()):
                self.check(meant)
            letters.update(*meant.steps)
            sizes.update({('steps', len(meant.steps)), ('rules', len(meant.rules))})
            for rule in meant.rules:
                templates.add(rule.template)
                weights.update(rule.weights)
                counts.update([rule.y] if rule.template in COUNTING else [])
        self.assertEqual(letters, {chr(byte) for byte in range(0x21, 0x7F)})
        self.assertEqual(templates, set(range(1, 24)))
        self.assertEqual(counts, set(range(1, 15)))
        self.assertLess({0, 1, 0x007FFFFF, 0x3F7FFFFF, 0x3F800000}, weights)
        self.assertEqual(sizes, {('steps', n) for n in range(1, 25)} | {('rules', n) for n in range(33)})

    def test_from_content(self):
        """A rule file is told from a text by its content, and stays as it is."""
        chance = seeded('from content')
        for _ in range(300):
            data = random_meant(chance).data
            file = RuleFile.from_content(data)
            self.assertEqual((file.data, file.is_text), (data, False))

    def test_from_steps_and_rules(self):
        """RuleFile.of writes what was read, and with_rules some of the rules in any order."""
        chance = seeded('of')
        for _ in range(500):
            meant = random_meant(chance)
            file = RuleFile(meant.data)
            self.assertEqual(RuleFile.of(file.steps, file.rules), file)
            places = [chance.randrange(len(meant.rules)) for _ in meant.rules]
            chosen = Meant(meant.steps, tuple(meant.rules[place] for place in places))
            self.assertEqual(file.with_rules(place + 1 for place in places).data, chosen.data)

    def test_weights(self):
        """Weights near each power of two, and random ones, come back bit by bit; each is written with the fewest
        digits to which it can be rounded without becoming another one."""
        chance = seeded('weights')
        near = {bits for power in range(0, 0x3F800001, 0x00400000) for bits in range(power - 2, power + 3)}
        near.update(chance.randint(0, 0x3F800000) for _ in range(2000))
        accepted = sorted(bits for bits in near if 0 <= bits <= 0x3F800000)
        for at in range(0, len(accepted), 96):
            weights = accepted[at:at + 96]
            threes = [tuple((weights[n:] + [0, 0])[:3]) for n in range(0, len(weights), 3)]
            meant = Meant(('a',), tuple(MeantRule(3, 0, 0xFF, three) for three in threes))
            self.check(meant)
            words = [word for line in RuleFile(meant.data).text().splitlines()[2:] for word in line.split()[3:]]
            shortest = [shortest_decimal(bits) for three in threes for bits in three]
            self.assertEqual([Decimal(word) for word in words], shortest)


# ---- texts written here


def in_quotes(name):
    """A name in quotes."""
    return '"' + ''.join('\\' + c if c in '"\\' else c for c in name) + '"'


def written_name(chance, name):
    """A name, in quotes where it has to be and sometimes where it does not."""
    needed = name[0] == '#' or any(c in '()[]{},"' for c in name)
    return in_quotes(name) if needed or chance.randrange(3) == 0 else name


def written_weight(chance, bits):
    """A weight as its bits or as a decimal number that is exact or nearly so."""
    exact = float_of(bits)
    return chance.choice([f'0x{bits:08X}', f'0x{bits:08x}', repr(exact), f'{exact:.9g}', f'{exact:.60f}'
                          if exact > 1e-9 or exact == 0 else f'{exact:.17E}'])


def written_rule(chance, rule, steps):
    """A rule with or without brackets and with spaces of all kinds."""
    x, y = written_name(chance, steps[rule.x]), None
    if rule.template in COUNTING:
        y = str(rule.y)
    elif rule.template not in ONE_STEP:
        y = written_name(chance, steps[rule.y])
    words = [x] if y is None else [x, y]
    forms = [(' ', ' ', ' '), ('(', ')', ', '), ('[', ']', ','), (' ( ', ' ) ', ' ,\t')]
    opened, closed, between = chance.choice(forms)
    name = chance.choice([rule.name, rule.name.lower(), rule.name.upper()])
    weights = chance.choice([' ', '\t', '   ']).join(written_weight(chance, bits) for bits in rule.weights)
    return f'rule {name}{opened}{between.join(words)}{closed} {weights}'


def written_text(chance, meant):
    """A text of a file, with comments and blank lines, and any ends of lines."""
    lines = []
    for line in [*(f'step {written_name(chance, name)}' for name in meant.steps),
                 *(written_rule(chance, rule, meant.steps) for rule in meant.rules)]:
        lines += chance.choice([[], [], [''], ['# "a comment (of any kind]'], ['  \t ']])
        lines.append(chance.choice(['', ' ', '\t']) + line + chance.choice(['', ' ', '\t# it, "is"', ' #']))
    ends = chance.choice(['\n', '\r\n', '\r'])
    mark = '\ufeff' if chance.randrange(4) == 0 else ''
    return mark + ends.join(lines) + chance.choice([ends, ''])


class WrittenTexts(unittest.TestCase):
    """Texts in all spellings, written here, pack to the bytes that were meant."""

    def test_written_texts(self):
        """Quotes, brackets, weights, comments and ends of lines of all kinds."""
        chance = seeded('written texts')
        for number in range(WRITTEN_TEXTS):
            meant = random_meant(chance)
            text = written_text(chance, meant)
            with self.subTest(number=number, text=text):
                self.assertEqual(RuleFile.parse(text).data, meant.data)
                self.assertEqual(RuleFile.from_content(text.encode()).text(), RuleFile(meant.data).text())


# ---- refused files

STEP_A = '53 00 01 61'
RULE_HEAD = '52 00 0F'
ZEROS = '00 ' * 12
# The examples of docs/FORMAT.md and some at the edges: number, faulty field, bytes in hex.
REFUSED = [
    (2, 1, '53'),
    (2, 1, '41'),
    (2, 1, '53 00 02 61'),
    (2, 2, STEP_A + '52 00 0F 01 00 FF'),
    (2, 2, STEP_A + '53 FF FF 61'),
    (3, 1, '41 00 00'),
    (3, 2, STEP_A + '00 00 00'),
    (4, 3, STEP_A + RULE_HEAD + '01 00 FF' + ZEROS + '53 00 01 62'),
    (4, 3, STEP_A + RULE_HEAD + '01 00 FF' + ZEROS + '53 00 00'),
    (5, 25, ''.join(f'53 00 01 {letter:02X}' for letter in range(0x61, 0x7A))),
    (6, 1, '53 00 00'),
    (6, 1, '53 00 01 20'),
    (6, 1, '53 00 01 7F'),
    (6, 2, STEP_A + '53 00 11' + '61' * 17),
    (7, 2, STEP_A * 2),
    (8, 34, STEP_A + (RULE_HEAD + '01 00 FF' + ZEROS) * 33),
    (8, 34, STEP_A + (RULE_HEAD + '01 00 FF' + ZEROS) * 32 + '52 00 00'),
    (9, 2, STEP_A + '52 00 00'),
    (9, 2, STEP_A + '52 00 01 01'),
    (9, 2, STEP_A + '52 00 10 01 00 FF 00' + ZEROS),
    (10, 2, STEP_A + RULE_HEAD + '18 00 FF' + ZEROS),
    (10, 2, STEP_A + RULE_HEAD + '00 05 05' + 'FF' * 12),
    (17, 2, STEP_A + RULE_HEAD + '13 00 0F' + ZEROS),
    (17, 2, STEP_A + RULE_HEAD + '14 00 00' + ZEROS),
    (17, 2, STEP_A + RULE_HEAD + '13 05 00' + '80' + '00' * 11),
    (11, 2, STEP_A + RULE_HEAD + '01 01 FF' + ZEROS),
    (11, 2, STEP_A + RULE_HEAD + '06 00 01' + ZEROS),
    (11, 2, STEP_A + RULE_HEAD + '06 00 00' + ZEROS),
    (11, 2, STEP_A + RULE_HEAD + '06 00 FF' + ZEROS),
    (11, 2, STEP_A + RULE_HEAD + '01 00 00' + 'FF' * 12),
    (11, 2, STEP_A + RULE_HEAD + '13 01 01' + ZEROS),
    (11, 1, RULE_HEAD + '01 00 FF' + ZEROS),
    (12, 2, STEP_A + RULE_HEAD + '01 00 FF' + '3F 80 00 01' + '00' * 8),
    (12, 2, STEP_A + RULE_HEAD + '15 00 0E' + '00' * 4 + '80 00 00 00' + '00' * 4),
    (12, 2, STEP_A + RULE_HEAD + '01 00 FF' + '00' * 8 + '7F C0 00 00'),
    (13, None, ''),
]


class RefusedFiles(unittest.TestCase):
    """A refused file has the library's number, and the place that the reader in Python finds."""

    def check(self, data, number, field):
        """The library, the reader and the reader of the tests agree on these bytes."""
        self.assertEqual(first_fault(data)[0], number)
        if number == 0:
            self.assertEqual(RuleFile(data).data, data)
            return
        with self.assertRaises(Refused) as caught:
            RuleFile(data)
        refused = caught.exception
        self.assertEqual((refused.number, refused.meaning), (number, MEANINGS[number]))
        self.assertEqual(refused.place, place_of(data, number))
        self.assertEqual((refused.place.field, refused.place.line), (field, None))
        if number != 13:
            self.assertTrue(1 <= refused.place.field <= len(list(fields_of(data))))
            self.assertTrue(str(refused).startswith(f'field {field}: refused {number}: '), str(refused))
            self.assertTrue(refused.place.detail)

    def test_examples(self):
        """The examples of each number, and the order in which the numbers are tested."""
        self.assertEqual({number for number, _, _ in REFUSED}, FILE_REFUSALS)
        for number, field, written in REFUSED:
            data = bytes.fromhex(written)
            with self.subTest(number=number, bytes=written):
                self.assertEqual(expected_fault(data), (number, field))
                self.check(data, number, field)

    def test_damaged_files(self):
        """Accepted files with bytes changed, cut or added, or with fields moved."""
        chance = seeded('damaged')
        numbers = Counter()
        for place in range(DAMAGED_FILES):
            data = damaged(chance, random_meant(chance))
            number, field = expected_fault(data)
            numbers[number] += 1
            with self.subTest(place=place, data=data.hex()):
                self.check(data, number, field)
        self.assertEqual(set(numbers), {0} | FILE_REFUSALS)
        self.assertLess(numbers[0], DAMAGED_FILES / 2)

    def test_any_bytes(self):
        """Bytes without any form are refused, or read as a text that is bad; nothing else is raised."""
        chance = seeded('any bytes')
        for _ in range(1000):
            alphabet = chance.choice([bytes(range(256)), b'SR\0\1\2\3aab\xff', b'step rule\n"#(,)[]{}\\ab 01.\r\t'])
            data = bytes(chance.choice(alphabet) for _ in range(chance.randrange(60)))
            number, field = expected_fault(data)
            with self.subTest(data=data.hex()):
                self.check(data, number, field)
                if number:
                    with self.assertRaises((Refused, BadText)) as caught:
                        RuleFile.from_content(data)
                    self.assertEqual(len(str(caught.exception).splitlines()), 1)

    def test_by_the_command(self):
        """The command says number and meaning in one line, and ends with status 1."""
        for number, field, written in REFUSED:
            data = bytes.fromhex(written)
            if not is_rule_file(data) and data:
                continue
            ran = call_command('prune', '-', given=data)
            place = '' if field is None else f'field {field}: '
            said = f'tullweth: standard input: {place}refused {number}: {MEANINGS[number]}'
            with self.subTest(number=number, bytes=written):
                self.assertEqual((ran.status, ran.out, ran.err.count('\n')), (1, b'', 1))
                self.assertTrue(ran.err.startswith(said), ran.err)

    def test_no_place_for_another_number(self):
        """Where the reader does not find the library's number, no place is said."""
        data = bytes.fromhex(STEP_A * 2)
        self.assertEqual(place_of(data, 6), Place())
        self.assertEqual(place_of(step_field(b'a'), 7), Place())


if __name__ == '__main__':
    unittest.main()
