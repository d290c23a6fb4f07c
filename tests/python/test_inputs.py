"""Arguments, inputs that cannot be read, and refusals with their places, through the command."""

import contextlib
import os
import subprocess
import time
import unittest

from calling import (CommandTest, INCIDENT, PATIENCE, SUBCOMMANDS, as_nobody, environment, lines_of,
                     nobody_runs_python, rule_field)
from support import COMMAND, TEXT_HEADER, step_field

from tullweth import __version__


class ArgumentsTest(CommandTest):
    inside = True
    arguments = {
        'prune': 'FILE --json --kept -o OUT', 'show': 'FILE RULE --json', 'state': 'FILE RULE --json STEP --',
        'watch': 'FILE --json', 'pack': 'FILE --json -o OUT', 'unpack': 'FILE --json -o OUT', 'names': 'FILE --json',
        'import': 'MODEL --json --best N --skip --used --weights SUPPORT CONFIDENCE INTEREST -o OUT',
    }

    def test_help(self):
        """Each subcommand says its arguments and the statuses."""
        self.assertEqual(set(self.arguments), set(SUBCOMMANDS))
        for name, words in self.arguments.items():
            said = self.text(name, '--help')
            self.assertRegex(said, rf'\Ausage: tullweth {name} ')
            self.assertHas(said, *words.split(), 'Status: 0', '1 refused', '2 wrong usage')
            self.assertEqual(self.text(name, '-h'), said)

    def test_help_of_all(self):
        """The command alone lists its subcommands."""
        for word in ('-h', '--help'):
            self.assertHas(self.text(word), 'usage: tullweth', '--version', 'Status: 0', *SUBCOMMANDS)

    def test_help_of_watch(self):
        """watch takes its steps from standard input, so its help does not say that FILE may be."""
        self.assertNotIn("'-' is standard input", self.text('watch', '--help'))

    def test_version(self):
        """The version of the module."""
        self.assertEqual(self.text('--version'), f'tullweth {__version__}\n')

    def test_help_needs_nothing(self):
        """Help and wrong usage need no library."""
        broken = {'TULLWETH_LIBRARY': '/nowhere'}
        self.assertIn('FILE', self.text('show', '--help', variables=broken))
        self.assertIn('FILE', self.usage('show', variables=broken))

    def test_wrong_usage(self):
        """Status 2, what is wrong, and the usage on standard error."""
        path = str(INCIDENT)
        wrong = [
            [], ['nothing'], ['--json'], ['--kept', 'prune', path], ['prun', path], ['PRUNE', path], [''],
            *([name] for name in SUBCOMMANDS), *([name, path, '--nothing'] for name in SUBCOMMANDS),
            ['prune', path, '1'], ['prune', path, '--keep'], ['prune', path, '--js'], ['prune', path, '-o'],
            ['prune', path, '--kept=1'], ['show', path, '1', '2'], ['show', path, '-o', 'x'], ['state', '--', path],
            ['state', path, '1', 'expose', '--', 'arc'], ['names', path, path], ['pack', path, '--kept'],
            ['watch', path, 'expose'], ['import', path, '--best'], ['import', path, '--best', 'x'],
            ['import', path, '--best', '-1'], ['import', path, '--best', '1.5'],
            *(['import', path, '--weights', '1', *others] for others in (['1'], ['1', '2'], ['nan', '1'])),
        ]
        self.assertEqual(len(self.each(self.usage, [(words, b'') for words in wrong])), len(wrong))
        self.assertEqual(list(self.folder.iterdir()), [self.temporary])

    def test_hints(self):
        """What is wrong is named; the steps of a run come after --."""
        self.assertHas(self.usage('state', INCIDENT, '2', 'expose', 'arc'), 'expose arc', '--', 'usage: tullweth state')
        self.assertHas(self.usage('prune', INCIDENT, '--keep'), '--keep', 'usage: tullweth prune')
        self.assertHas(self.usage('nothing'), "'nothing'", *SUBCOMMANDS)
        self.assertHas(self.usage('watch', '-'), 'standard input', 'usage: tullweth watch')

    def test_order_of_arguments(self):
        """Options may stand before and after the file."""
        said = self.answer('prune', '--json', '--kept', INCIDENT)
        self.assertEqual(self.answer('prune', INCIDENT, '--kept', '--json'), said)
        self.assertEqual(self.answer('prune', '--kept', INCIDENT, '--json'), said)


class BadInputTest(CommandTest):
    inside = True

    def test_no_file(self):
        """A missing file, a folder and an empty name, for each subcommand."""
        calls = [([name, path], b'') for name in SUBCOMMANDS for path in ('missing.txt', str(self.folder), '')]
        for (words, _), message in zip(calls, self.each(self.failure, calls)):
            self.assertHas(message, f'{words[1]}: cannot be read')
        missing = self.folder / 'no folder' / 'a.txt'
        self.assertHas(self.failure('prune', missing), missing, 'cannot be read: No such file')
        self.assertHas(self.json_failure('show', '--json', missing)['message'], missing, 'cannot be read')

    def test_unreadable(self):
        """A file that this user may not read."""
        if not nobody_runs_python():
            self.skipTest('the other user cannot run python3')
        path = self.write('hidden.txt', INCIDENT.read_bytes())
        path.chmod(0)
        message = self.failure('prune', path, before=as_nobody())
        self.assertHas(message, path, 'cannot be read: Permission denied')

    def test_empty(self):
        """An empty file is refused by 13; so is a text of comments."""
        calls = [([name, '-'], content) for name in ('prune', 'show', 'names') for content in (b'', b'# nothing\n\n')]
        for message in self.each(self.failure, calls):
            self.assertHas(message, 'standard input', 'refused 13: there is no step')

    def test_endless(self):
        """Inputs without an end are not read on and on."""
        for name in SUBCOMMANDS:
            self.assertHas(self.failure(name, '/dev/zero'), '/dev/zero', 'longer than')
        with open('/dev/zero', 'rb') as zeros:
            self.assertHas(self.failure('prune', '-', stdin=zeros), 'standard input', 'longer than')

    def test_long_line(self):
        """A model in one long line, given to prune by mistake, is told at once."""
        path = self.write('model.json', b'{' + b'"a": [1, 2], ' * 150000 + b'}')
        self.assertHas(self.failure('prune', path), path, 'line 1')

    def test_endless_line_of_steps(self):
        """Nor is a line of steps that does not end; the limit of memory is there for where it is."""
        shell = 'ulimit -v 1500000; exec "$0" watch "$1" < /dev/zero'
        self.assertIn('standard input', self.failure('-c', shell, COMMAND, INCIDENT, command='bash'))

    def test_input_that_does_not_wait(self):
        """Standard input that says at once that there is nothing yet: it is read later, or said to be bad."""
        read, write = os.pipe()
        os.set_blocking(read, False)
        streams = {'stdin': read, 'stdout': subprocess.PIPE, 'stderr': subprocess.PIPE}
        child = subprocess.Popen([COMMAND, 'names', '-'], env=environment(), **streams)
        os.close(read)
        time.sleep(0.5)
        with contextlib.suppress(BrokenPipeError):
            os.write(write, INCIDENT.read_bytes())
        os.close(write)
        out, err = child.communicate(timeout=PATIENCE)
        self.assertNotIn(b'Traceback', err)
        self.assertIn((child.returncode, out), [(0, self.answer('names', INCIDENT)), (1, b'')])

    def test_other_files(self):
        """What is neither form is said with a line or a field."""
        others = {
            b'\x7fELF\2\1\1\0\0\0': 'line 1', b'{"a": 1}\n': 'line 1', '\ufeffstep a'.encode('utf-16'): 'UTF-16',
            b'step a\nstep \xff\n': 'line 2', b'step a\nstep b\0c\n': 'line 2', COMMAND.read_bytes(): 'line 2',
        }
        for content, part in others.items():
            self.assertHas(self.failure('prune', '-', input=content), 'standard input', part)

    def test_closed_input(self):
        """Standard input that is closed."""
        for words in ('prune -', 'import -', f'watch "{INCIDENT}"'):
            message = self.failure('-c', f'exec "$0" {words} <&-', COMMAND, command='bash')
            self.assertHas(message, 'standard input', 'closed')
        said = self.text('-c', 'exec "$0" names "$1" <&-', COMMAND, INCIDENT, command='bash')
        self.assertEqual(said, self.text('names', INCIDENT))

    def test_bad_texts(self):
        """The line that cannot be read, with the word."""
        bad = [
            (['step a', '# a comment', 'rule Nothing a 1 1 1'], 'Nothing'),
            (['step a', 'rule Response a b 1 1 1'], "'b'"), (['step a', 'rule Init a 1 much 1'], "'much'"),
            (['step a', 'rule Response a 1 1 1'], 'Response X Y'),
            (['step a', 'rule Choice a 1 1 1'], 'Choice X Y'), (['step a', 'rule AtLeast a 1 1 1'], 'AtLeast X COUNT'),
            (['step a', 'rule Exactly b 3 1 1 1'], "'b'"), (['steps a'], "'steps'"), (['step a b'], 'step NAME'),
            (['step a', 'step "b'], 'quotes'), (['step a', 'rule Init(a 1 1 1'], "')'"), (['step a,b'], "','"),
            (['step a', 'rule Absence a 1 1 1'], 'Absence'), (['step a', 'rule Init {a} 1 1 1'], '{'),
            (['step a', 'rule Init a 1 1 1e99'], '1e99'), (['step a', 'rule'], 'TEMPLATE'),
            *((['step a', f'rule AtMost a {count} 1 1 1'], f"'{count}'") for count in ('a', '-1', '1.0', '256')),
        ]
        messages = self.each(self.failure, [(['prune', '-'], lines_of(*lines)) for lines, _ in bad])
        for (lines, part), message in zip(bad, messages):
            self.assertHas(message, f'standard input: line {len(lines)}: ', part)

    def test_bad_text_everywhere(self):
        """Each subcommand that reads a text says the same; for programs the line is a number."""
        path = self.write('bad.txt', lines_of('step expose', '', 'rule Init expos 1 1 1'))
        reading = [name for name in SUBCOMMANDS if name != 'import']
        for message in self.each(self.failure, [([name, path], b'') for name in reading]):
            self.assertHas(message, f'{path}: line 3: ', "'expos'", 'expose')
        for error in self.each(self.json_failure, [([name, path, '--json'], b'') for name in reading]):
            self.assertEqual(error['line'], 3)
            self.assertHas(error['message'], path, "'expos'")

    def test_long_names_are_cut(self):
        """A message stays short and in one line, whatever the text has."""
        for content in (b'step a\nrule ' + b'x' * 60000 + b' a 1 1 1\n', b'x\x1b[31m\x07\n', b'step ' + b'y' * 70000):
            message = self.failure('prune', '-', input=content)
            self.assertLess(len(message), 500)
            self.assertTrue(message.isprintable())


ONE = 'S\0\1a'.encode()
OVER_ONE = bytes.fromhex('3f80000100000000') + bytes(4)
#: Rule files that are refused: number, number of the field, a word of the message, bytes.
REFUSED_FILES = [
    (2, 1, 'step 0', b'S\0\2a'), (2, 2, 'rule 1', ONE + b'R\0\x0f\1'), (3, 1, '41', b'A\0\0'),
    (4, 3, "'b'", ONE + rule_field() + step_field(b'b')),
    (5, 25, "'y'", b''.join(step_field(bytes([97 + n])) for n in range(25))),
    (6, 1, '', step_field(b'')), (6, 2, '17', ONE + step_field(b'q' * 17)), (6, 1, '', step_field(b' ')),
    (7, 2, "'a'", ONE + ONE), (8, 34, '33', ONE + rule_field() * 33), (9, 2, 'rule 1', ONE + b'R\0\0'),
    (10, 3, '24', ONE + rule_field() + rule_field(24)),
    (11, 2, 'x', ONE + rule_field(x=1)), (11, 2, 'y', ONE + rule_field(6, 0, 1)),
    (11, 2, "'a'", ONE + rule_field(6, 0, 0)), (11, 2, 'FF', ONE + rule_field(y=0)),
    (12, 2, 'support', ONE + rule_field(weights=OVER_ONE)), (17, 2, '15', ONE + rule_field(19, 0, 15)),
]
#: The same for texts: number, number of the field, line, a word of the message, lines.
REFUSED_TEXTS = [
    (4, 3, 4, "'b'", ['step a', '', 'rule Init a 1 1 1', 'step b']),
    (5, 25, 26, "'y'", ['# many', *(f'step {chr(97 + n)}' for n in range(25))]),
    (6, 1, 2, '17', ['', 'step ' + 'q' * 17]), (6, 2, 2, 'é', ['step a', 'step é']), (6, 1, 1, '', ['step ""']),
    (7, 2, 3, "'a'", ['step a', '# again', 'step a']), (8, 34, 34, '33', ['step a', *['rule Init a 1 1 1'] * 33]),
    (11, 2, 2, "'a'", ['step a', 'rule Response a a 1 1 1']),
    (12, 3, 5, 'interest', ['step a', '', 'rule Init a 1 1 1', '', 'rule Init a 1 1 2']),
    (12, 2, 2, 'support', ['step a', 'rule Init a -1 1 1']),
    (12, 2, 2, 'confidence', ['step a', 'rule Init a 1 0x7FC00000 1']),
    (17, 2, 2, '15', ['step a', 'rule AtMost a 15 1 1 1']), (17, 2, 2, '0', ['step a', 'rule AtMost a 00 1 1 1']),
    (17, 2, 2, '99', ['step a', 'rule Exactly99 a 1 1 1']),
]


class RefusedTest(CommandTest):
    inside = True

    def test_rule_files(self):
        """Number, meaning and field of each refusal that a rule file can meet."""
        messages = self.each(self.failure, [(['prune', '-'], content) for *_, content in REFUSED_FILES])
        for (number, field, word, _), message in zip(REFUSED_FILES, messages):
            self.assertRegex(message, rf'\Astandard input: field {field}: refused {number}: [a-z]')
            self.assertHas(message, word)

    def test_rule_files_for_programs(self):
        """The same with --json, as numbers; the meanings are those of include/tullweth_text.h."""
        header = TEXT_HEADER.read_text()
        errors = self.each(self.json_failure, [(['names', '-', '--json'], content) for *_, content in REFUSED_FILES])
        for (number, field, word, _), error in zip(REFUSED_FILES, errors):
            self.assertEqual((error['refused'], error['field']), (number, field))
            self.assertNotIn('line', error)
            self.assertHas(error['detail'], word)
            self.assertHas(error['message'], 'standard input', f'refused {number}: {error["meaning"]}')
            self.assertIn(f'return "{error["meaning"]}";', header)

    def test_texts(self):
        """For a text the line too."""
        messages = self.each(self.failure, [(['pack', '-'], lines_of(*lines)) for *_, lines in REFUSED_TEXTS])
        for (number, field, line, word, _), message in zip(REFUSED_TEXTS, messages):
            self.assertRegex(message, rf'\Astandard input: line {line}: refused {number}: [a-z]')
            self.assertHas(message, f'field {field}', word)

    def test_texts_for_programs(self):
        """The same with --json."""
        calls = [(['show', '--json', '-'], lines_of(*lines)) for *_, lines in REFUSED_TEXTS[:6]]
        for (number, field, line, word, _), error in zip(REFUSED_TEXTS, self.each(self.json_failure, calls)):
            self.assertEqual((error['refused'], error['field'], error['line']), (number, field, line))
            self.assertHas(error['detail'], word)

    def test_every_subcommand(self):
        """Each says the same of a refused file, and nothing else."""
        path = self.write('heavy.txt', lines_of('step a', 'rule Init a 2 1 1'))
        messages = {self.failure(name, path) for name in SUBCOMMANDS if name != 'import'}
        self.assertEqual(len(messages), 1)
        self.assertHas(messages.pop(), path, 'line 2', 'refused 12: a weight is not from 0 to 1', 'rule 1', 'field 2')

    def test_run(self):
        """A step of the run that is not declared: refusal 15 with its name, its place and the nearest name."""
        message = self.failure('state', INCIDENT, '1', '--', 'expose', 'exposs')
        self.assertHas(message, INCIDENT, 'refused 15: a step of the run is not declared', "'exposs'", '2')
        self.assertHas(message, 'nearest is expose')
        error = self.json_failure('state', '--json', INCIDENT, '--', 'Arc')
        self.assertEqual((error['refused'], error['meaning']), (15, 'a step of the run is not declared'))
        self.assertHas(error['detail'], "'Arc'", '1')
        bare = self.write('bare.txt', b'step a\n')
        self.assertHas(self.failure('state', bare, '--', 'b'), 'refused 15', "'b'")


if __name__ == '__main__':
    unittest.main()
