"""Holds the examples in docs/FORMAT.md to the library: bytes, refusals, templates, cases and spellings."""

import re
import unittest

from support import ROOT, SAMPLES

from tullweth import TEMPLATES, Refused, Rule, RuleFile, prune, state
from tullweth.fields import bits_of, float_of

FORMAT = (ROOT / 'docs' / 'FORMAT.md').read_text()


def section(title):
    """The text of a section, up to the next one of the same or a higher level."""
    found = re.search(rf'^(##+) {re.escape(title)}\n(.*?)(?=^##? |\Z)', FORMAT, flags=re.MULTILINE | re.DOTALL)
    return found[2]


def rows(text, columns):
    """The rows of the tables of a text that have so many columns, without headings."""
    lines = [line for line in text.splitlines() if line.startswith('|')]
    split = [[cell.strip() for cell in line.strip('|').split('|')] for line in lines]
    return [cells for cells in split if len(cells) == columns and not set(''.join(cells)) <= set('-')]


def quoted(cell):
    """What stands in backticks in a cell."""
    return re.findall('`([^`]*)`', cell)


def is_hex(text):
    """Whether a text is bytes in hex."""
    return re.fullmatch('[0-9A-F]{2}( [0-9A-F]{2})*', text) is not None


class BytesTest(unittest.TestCase):
    def test_the_dump_is_the_sample(self):
        dump = [cells for cells in rows(section('Rule file'), 3) if is_hex(''.join(quoted(cells[1])))]
        self.assertEqual(len(dump), 8)
        at = 0
        for offset, content, _ in dump:
            self.assertEqual(int(offset, 16), at)
            at += len(bytes.fromhex(quoted(content)[0]))
        whole = b''.join(bytes.fromhex(quoted(content)[0]) for _, content, _ in dump)
        self.assertEqual(whole, (SAMPLES / 'incident.rules').read_bytes())

    def test_refused_files(self):
        met = set()
        for number, _, example in rows(section('Refused inputs'), 3):
            files = [each for each in quoted(example) if is_hex(each)]
            if not number.isdigit() or not 2 <= int(number) <= 17 or number in ('5', '8', '13', '14', '15', '16'):
                continue
            self.assertTrue(files, number)
            for each in files:
                with self.subTest(each), self.assertRaises(Refused) as raised:
                    RuleFile(bytes.fromhex(each))
                self.assertEqual(raised.exception.number, int(number))
                met.add(int(number))
        self.assertEqual(met, {2, 3, 4, 6, 7, 9, 10, 11, 12, 17})


class TemplatesTest(unittest.TestCase):
    def test_names_and_examples(self):
        table = [cells for cells in rows(section('Templates'), 9) if cells[0].isdigit()]
        self.assertEqual([(int(cells[0]), cells[1]) for cells in table],
                         [(template.number, template.name) for template in TEMPLATES])
        for cells in table:
            template = TEMPLATES[int(cells[0]) - 1]
            rule = Rule(template.name, 'a', 'b' if template.has_y else None, 2 if template.counts else None)
            file = RuleFile.of('abc', [rule])
            for sequence, satisfied in ((cells[6], True), (cells[7], False)):
                with self.subTest(f'{rule}: {sequence}'):
                    run = quoted(sequence)[0].split()
                    self.assertEqual(state(file, 1, run).value.satisfied, satisfied)


class CasesTest(unittest.TestCase):
    def test_pruned(self):
        cases = [cells for cells in rows(section('Cases'), 4) if len(quoted(cells[3])) > 1]
        self.assertEqual(len(cases), 6)
        for _, steps, rules, output in cases:
            lines = [f'step {step}' for step in steps.split()]
            weights = (f'{0.9 - 0.1 * place:.1f} 0 0' for place in range(8))
            lines += [f'rule {rule} {next(weights)}' for rule in rules.split('; ')]
            said = [f'{each.number} {each.fate:d} {each.first_count} {each.second_count}'
                    for each in prune(RuleFile.parse('\n'.join(lines)))]
            self.assertEqual(said, quoted(output), rules)

    def test_states(self):
        cases = [cells for cells in rows(section('Cases'), 6) if cells[0] == 'P']
        self.assertEqual(len(cases), 9)
        for _, steps, rule, run, value, relevant in cases:
            file = RuleFile.parse('\n'.join([*(f'step {step}' for step in steps.split()), f'rule {rule} 1 1 1']))
            answer = state(file, 1, [] if run == '(empty)' else run.split())
            self.assertEqual((answer.value, answer.relevant), (int(value), int(relevant)), f'{rule}: {run}')

    def test_rank(self):
        keys = rows(section('Rank'), 5)[1:]
        self.assertEqual(len(keys), 8)
        for key, steps, rules, _, fates in keys:
            weighted = [rule if '.' in rule else f'{rule} 0.5 0.5 0.5' for rule in rules.split('; ')]
            lines = [*(f'step {step}' for step in steps.split()), *(f'rule {rule}' for rule in weighted)]
            verdicts = prune(RuleFile.parse('\n'.join(lines)))
            self.assertEqual([int(each.fate) for each in verdicts], [int(fate) for fate in fates.split()], key)


class TextFormTest(unittest.TestCase):
    def test_weights(self):
        self.assertEqual((bits_of(0.75), float_of(0x3F400000)), (0x3F400000, 0.75))

    def test_synonyms(self):
        table = [cells for cells in rows(section('Text form'), 2) if cells[0] != 'written']
        self.assertEqual(len(table), 10)
        for written, template in table:
            for name in re.sub(r'\([^)]*\)| for N from \d on', '', written).split(','):
                self.check(name.strip().replace('N', '3') if re.search('[a-z]N', name) else name.strip(), template)

    def check(self, name, template):
        """A name with N replaced by 3 stands for the template that the table says."""
        if template == 'none':
            self.assertRaises(ValueError, RuleFile.parse, f'step a\nrule {name} a 1 1 1\n')
            return
        two = name.startswith('Not')
        rule = RuleFile.parse(f'step a\nstep b\nrule {name} {"a b" if two else "a"} 1 1 1\n').rules[0]
        self.assertIn(rule.template, template)
        counts = {'count N-1': 2, 'count N': 3, 'count 1': 1}
        wanted = next((count for words, count in counts.items() if template.endswith(words)), None)
        self.assertEqual(rule.count, wanted, name)


if __name__ == '__main__':
    unittest.main()
