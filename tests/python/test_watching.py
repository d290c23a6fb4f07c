"""Watching, by a pipe and at a terminal, and the progress that a terminal sees."""

import contextlib
import io
import json
import os
import re
import select
import signal
import subprocess
import time
import unittest
from unittest import mock

from calling import CommandTest, INCIDENT, PATIENCE, Terminal, environment
from support import COMMAND, SAMPLES

from tullweth import output

WATCHED = '''\
1 expose
  1  Participation(expose)       permanently satisfied
  2  Response(expose, arc)       temporarily violated
  3  NotSuccession(expose, arc)  temporarily satisfied, other steps permitted
2 arc
  2  Response(expose, arc)       temporarily satisfied
  3  NotSuccession(expose, arc)  permanently violated
3 guide
'''
END_OF_WATCHED = 'end after 3 steps: not satisfied: 3 NotSuccession(expose, arc)\n'


class WatchTest(CommandTest):
    def test_piped(self):
        """Steps one or several a line, with empty lines and without a last end of line."""
        for content in (b'expose\narc\nguide\n', b'expose arc guide', b'\n  expose\t\r\n\narc guide \n'):
            self.assertEqual(self.text('watch', INCIDENT, input=content), WATCHED + END_OF_WATCHED)

    def test_end(self):
        """What is said at the end: of an empty input, of satisfied rules, of a file without rules."""
        said = self.text('watch', INCIDENT)
        self.assertEqual(said, 'end after 0 steps: not satisfied: 1 Participation(expose)\n')
        said = self.text('watch', SAMPLES / 'alternating.txt', input=b'acquire').splitlines()
        self.assertEqual(said[-1], 'end after 1 step: all rules are satisfied')
        bare = self.write('bare.txt', b'step a\n')
        self.assertEqual(self.text('watch', bare, input=b'a a'), '1 a\n2 a\nend after 2 steps: the file has no rule\n')

    def test_agrees_with_state(self):
        """After each step the rules that are said to have changed are those whose relevant steps are one more."""
        run = ['slew', 'focus', 'flat', 'flat', 'sky', 'slew', 'flat', 'slew', 'lamp', 'focus']
        path = SAMPLES / 'calibration.txt'
        lines = self.text('watch', '--json', path, input=' '.join(run).encode()).splitlines()
        before = {each['number']: each for each in self.json('state', path)['states']}
        for length, line in enumerate(map(json.loads, lines[:-1]), start=1):
            states = json.loads(self.answer('state', '--json', path, '--', *run[:length]))['states']
            changed = [each for each in states if each['relevant'] != before[each['number']]['relevant']]
            self.assertEqual(line, {'number': length, 'step': run[length - 1], 'changed': changed})
            before = {each['number']: each for each in states}
        unsatisfied = [number for number, each in before.items() if not each['satisfied']]
        self.assertEqual(json.loads(lines[-1]), {'end': len(run), 'not_satisfied': unsatisfied})

    def test_for_programs(self):
        """--json prints a line a step, each JSON by itself."""
        lines = self.text('watch', '--json', INCIDENT, input=b'arc expose').splitlines()
        self.assertEqual([list(json.loads(line)) for line in lines],
                         [['number', 'step', 'changed'], ['number', 'step', 'changed'], ['end', 'not_satisfied']])
        self.assertEqual(json.loads(lines[0]), {'number': 1, 'step': 'arc', 'changed': []})
        self.assertEqual(json.loads(lines[1])['changed'][1], {
            'number': 2, 'rule': 'Response(expose, arc)', 'value': 'temporarily violated', 'value_number': 1,
            'satisfied': False, 'relevant': 1})

    def test_undeclared(self):
        """A step that is not declared ends it with its line; what was printed before stays."""
        message = self.failure('watch', INCIDENT, input=b'expose arc\n\nguide exposs arc\n', printed=WATCHED.encode())
        self.assertHas(message, 'line 3', 'refused 15: a step of the run is not declared', "'exposs'")

    def test_undeclared_for_programs(self):
        """With --json the number, the meaning and the line are there too."""
        error = self.json_failure('watch', '--json', INCIDENT, input=b'\nnothing\n')
        self.assertHas(error['message'], 'standard input', 'line 2', 'refused 15', "'nothing'")
        self.assertEqual(error.get('refused'), 15)
        self.assertEqual(error.get('meaning'), 'a step of the run is not declared')
        self.assertEqual(error.get('line'), 2)

    def test_undeclared_of_any_bytes(self):
        """Steps that are no text, or not in this file, also where it has no rule."""
        bare = self.write('bare.txt', b'step a\n')
        for content in (b'\xff\xfe', 'é'.encode(), b'\0', b'x' * 100000):
            message = self.failure('watch', bare, input=content)
            self.assertHas(message, 'line 1', 'refused 15')
            self.assertTrue(message.isprintable())

    def test_refused_file(self):
        """A file that is refused is said before a step is read."""
        child = subprocess.Popen([COMMAND, 'watch', '/dev/null'], env=environment(), stdin=subprocess.PIPE,
                                 stdout=subprocess.PIPE, stderr=subprocess.PIPE)
        with child:
            self.assertEqual(child.stderr.read().count(b'refused 13'), 1)
            self.assertEqual(child.wait(PATIENCE), 1)

    def watching(self, *words):
        """A call that waits for steps."""
        streams = {'stdin': subprocess.PIPE, 'stdout': subprocess.PIPE, 'stderr': subprocess.PIPE}
        child = subprocess.Popen([COMMAND, 'watch', *words, INCIDENT], env=environment(), bufsize=0, **streams)
        self.addCleanup(self.stop, child)
        return child

    @staticmethod
    def stop(child):
        if child.poll() is None:
            child.kill()
        child.communicate()

    def line_of(self, child):
        """The next line of its output, which has to come soon."""
        line = b''
        while not line.endswith(b'\n'):
            ready, _, _ = select.select([child.stdout], [], [], PATIENCE)
            self.assertTrue(ready, 'nothing is printed')
            byte = os.read(child.stdout.fileno(), 1)
            self.assertNotEqual(byte, b'')
            line += byte
        return line.decode()

    def test_printed_at_once(self):
        """What a step changed is printed before the next step comes."""
        child = self.watching()
        child.stdin.write(b'expose\n')
        self.assertEqual(''.join(self.line_of(child) for _ in range(4)), ''.join(WATCHED.splitlines(True)[:4]))
        child.stdin.write(b'guide\n')
        self.assertEqual(self.line_of(child), '2 guide\n')
        out, err = child.communicate(timeout=PATIENCE)
        self.assertEqual((child.returncode, err), (0, b''))
        self.assertEqual(out, b'end after 2 steps: not satisfied: 2 Response(expose, arc)\n')

    def test_printed_at_once_for_programs(self):
        """The same with --json."""
        child = self.watching('--json')
        for number, name in enumerate(['expose', 'arc', 'guide'], start=1):
            child.stdin.write(f'{name}\n'.encode())
            self.assertEqual(json.loads(self.line_of(child))['number'], number)
        out, _ = child.communicate(timeout=PATIENCE)
        self.assertEqual(json.loads(out), {'end': 3, 'not_satisfied': [3]})

    def test_interrupted(self):
        """Ctrl-C ends it with 130 and no message."""
        child = self.watching()
        child.stdin.write(b'guide\n')
        self.assertEqual(self.line_of(child), '1 guide\n')
        child.send_signal(signal.SIGINT)
        self.assertEqual(child.wait(PATIENCE), 130)
        self.assertEqual((child.stdout.read(), child.stderr.read()), (b'', b''))

    def test_reader_goes_away(self):
        """Where nobody reads any more the next step ends it."""
        child = self.watching()
        child.stdin.write(b'guide\n')
        self.assertEqual(self.line_of(child), '1 guide\n')
        child.stdout.close()
        child.stdin.write(b'arc\n')
        self.assertEqual(child.wait(PATIENCE), 1)
        self.assertEqual(child.stderr.read(), b'')
        child.stdout = None

    def test_at_a_terminal(self):
        """A person is told how to type; a step that is not declared is said and not taken; Ctrl-D ends it."""
        terminal = Terminal(['watch', str(INCIDENT)])
        self.assertIn('3 rules', terminal.wait_for('Ctrl-D'))
        terminal.type('expose\n')
        terminal.wait_for('other steps permitted')
        terminal.type('exposs arc\n')
        said = terminal.wait_for('permanently violated')
        self.assertHas(said, 'tullweth: refused 15', "'exposs'", 'not taken', '2 arc')
        terminal.type('\x04')
        status, said = terminal.end()
        self.assertEqual(status, 0)
        self.assertHas(said, 'end after 2 steps: not satisfied: 3 NotSuccession(expose, arc)')
        self.assertNotIn('Traceback', said)

    def test_interrupted_at_a_terminal(self):
        """Ctrl-C at a terminal."""
        terminal = Terminal(['watch', str(INCIDENT)])
        terminal.wait_for('Ctrl-D')
        terminal.child.send_signal(signal.SIGINT)
        status, said = terminal.end()
        self.assertEqual(status, 130)
        self.assertNotIn('Traceback', said)

    def test_programs_at_a_terminal(self):
        """With --json nothing but JSON is printed there."""
        terminal = Terminal(['watch', '--json', str(INCIDENT)])
        terminal.type('nothing guide\n')
        terminal.wait_for('nothing guide\r\n')
        self.assertIn('refused 15', json.loads(terminal.wait_for('\n'))['error']['message'])
        self.assertEqual(json.loads(terminal.wait_for('\n')), {'number': 1, 'step': 'guide', 'changed': []})
        terminal.type('\x04')
        self.assertEqual(terminal.end()[0], 0)


class Screen(io.StringIO):
    """A standard error that is a terminal, or is none."""

    def __init__(self, terminal=True):
        super().__init__()
        self.terminal = terminal

    def isatty(self):
        return self.terminal


class ProgressTest(unittest.TestCase):
    def seen(self, items, seconds, terminal=True):
        """What is seen of these items, each of which takes so many seconds, and what is given."""
        screen = Screen(terminal)
        clock = (seconds * turn for turn in range(1000))
        with contextlib.redirect_stderr(screen), mock.patch.object(output.time, 'monotonic', lambda: next(clock)):
            done = output.with_progress(iter(items), len(items), 'showing rules')
        self.assertEqual(done, items)
        return screen.getvalue()

    def test_long_work(self):
        """A terminal sees how far it is, in one line that is wiped at the end."""
        seen = self.seen([1, 2, 3, 4], 1.0)
        self.assertEqual(re.findall(r'showing rules: (\d) of 4', seen), ['1', '2', '3'])
        self.assertTrue(seen.startswith('\rshowing rules: 1 of 4\r'))
        self.assertTrue(seen.endswith('\r\033[K'))
        self.assertNotIn('\n', seen)

    def test_after_a_moment(self):
        """What is done within half a second shows nothing; then it begins."""
        self.assertEqual(self.seen([1, 2, 3, 4], 0.1), '')
        self.assertEqual(re.findall(r'(\d+) of 20', self.seen(list(range(20)), 0.1)), [str(n) for n in range(6, 20)])

    def test_short_or_elsewhere(self):
        """Nothing is shown of one item or of none, nor where standard error is no terminal or is closed."""
        self.assertEqual(self.seen([1], 9.0), '')
        self.assertEqual(self.seen([], 9.0), '')
        self.assertEqual(self.seen([1, 2, 3, 4], 9.0, terminal=False), '')
        with contextlib.redirect_stderr(None):
            self.assertEqual(output.with_progress(iter([1, 2]), 2, 'rules'), [1, 2])

    def test_slow_items(self):
        """The same with the real clock."""
        screen = Screen()
        with contextlib.redirect_stderr(screen):
            output.with_progress((time.sleep(0.3) for _ in range(3)), 3, 'states of rules')
        self.assertRegex(screen.getvalue(), r'\A(\rstates of rules: 1 of 3)?\rstates of rules: 2 of 3\r\033\[K\Z')

    def test_wiped_where_it_fails(self):
        """It is wiped where an item fails too."""
        def items():
            yield 1
            raise ValueError
        screen = Screen()
        clock = iter([0.0, 1.0])
        with contextlib.redirect_stderr(screen), mock.patch.object(output.time, 'monotonic', lambda: next(clock)):
            self.assertRaises(ValueError, output.with_progress, items(), 2, 'rules')
        self.assertEqual(screen.getvalue(), '\rrules: 1 of 2\r\033[K')

    def test_short_work_at_a_terminal(self):
        """The command shows none for a file of three rules, and its output is the usual one."""
        terminal = Terminal(['show', str(INCIDENT)], piped=True)
        printed = terminal.child.stdout.read()
        self.assertEqual(terminal.end(), (0, ''))
        self.assertEqual(printed.count(b'\n'), 9)


if __name__ == '__main__':
    unittest.main()
