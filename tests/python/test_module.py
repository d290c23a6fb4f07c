"""The module's answers against the independent implementation, its errors, and its numbers against the headers."""

import os
import re
import subprocess
import sys
import threading
import unittest

from support import (HEADER, ONE_STEP, ROOT, SAMPLES, TEMPLATE_NAMES, TEXT_HEADER, Meant, MeantRule, ask_reference,
                     decision_order, float_of, random_meant, sample_files, seeded, small_meant)
import tullweth
from tullweth import (BadText, Fate, NotThere, Place, Refused, Rule, RuleFile, TullwethError, Value, Watch, answers,
                      fields, kept, library, prune, refusals, show, show_each, state, states)
from tullweth.answers import states_of

RANDOM_FILES = 400
WATCHED_FILES = 60
KEPT_FILES = 400
RUNS_A_FILE = 4


# ---- the answers as the independent implementation prints them


def counted(count, name):
    return f'1 {name}' if count == 1 else f'{count} {name}s'


def verdict_line(verdict):
    return f'{verdict.number} {int(verdict.fate)} {verdict.first_count} {verdict.second_count}'


def sequence_line(which, sequence):
    if sequence is None:
        return f'{which}: none'
    first, second = sequence.standing
    steps = ' '.join(sequence.steps) or 'the empty sequence'
    return f'{which}, {counted(len(sequence.steps), "step")}, standing 0x{first:X} 0x{second:X}: {steps}'


def shown_lines(shown):
    return [sequence_line('satisfying', shown.satisfying), sequence_line('violating', shown.violating)]


VALUE_NAMES = ('temporarily satisfied', 'temporarily violated', 'permanently satisfied', 'permanently violated')


def state_line(said):
    return f'{VALUE_NAMES[said.value]}, {counted(said.relevant, "relevant step")}'


def random_run(chance, steps, longest=40):
    """A run of some of the steps, so that rules meet what they name."""
    some = chance.sample(steps, min(len(steps), chance.randint(1, 6)))
    return [chance.choice(some) for _ in range(chance.randrange(longest))]


class AgainstTheReference(unittest.TestCase):
    """What the module says of files is what the independent implementation says."""

    def check(self, file, runs):
        """Pruning, all rules shown, and the state of each rule after each run."""
        numbers = range(1, len(file.rules) + 1)
        questions = [[], *([str(number)] for number in numbers)]
        questions += [[str(number), 'run', *run] for run in runs for number in numbers]
        said = ask_reference(file.data, questions)
        verdicts = prune(file)
        self.assertEqual([verdict_line(each) for each in verdicts], said[0])
        self.assertEqual([(each.number, each.rule) for each in verdicts], list(enumerate(file.rules, start=1)))
        self.assertEqual([shown_lines(show(file, number)) for number in numbers], said[1:len(numbers) + 1])
        backwards = [shown_lines(each) for each in show_each(file, reversed(numbers))]
        self.assertEqual(backwards[::-1], said[1:len(numbers) + 1])
        after = [each for run in runs for each in states(file, run)]
        self.assertEqual([[state_line(each)] for each in after], said[len(numbers) + 1:])
        self.assertEqual([(each.number, each.rule) for each in after], [*enumerate(file.rules, start=1)] * len(runs))
        for run in runs:
            one_by_one = [state(file, number, run) for number in numbers]
            self.assertEqual(one_by_one, states(file, run))
            self.assertEqual(list(states_of(file, reversed(numbers), run)), one_by_one[::-1])

    def test_random_files(self):
        """Files of all templates and fates, and random runs."""
        chance = seeded('answers')
        fates, values, most = set(), set(), 0
        for number in range(RANDOM_FILES):
            file = RuleFile(small_meant(chance).data)
            runs = [random_run(chance, file.steps) for _ in range(RUNS_A_FILE)]
            with self.subTest(number=number, data=file.data.hex()):
                self.check(file, runs)
            fates.update(each.fate for each in prune(file))
            after = [each for run in runs for each in states(file, run)]
            values.update(each.value for each in after)
            most = max([most, *(each.relevant for each in after)])
        self.assertEqual((fates, values), (set(Fate), set(Value)))
        self.assertGreater(most, 10)

    def test_samples(self):
        """All samples, with random runs and the empty one."""
        chance = seeded('samples')
        for path in sample_files():
            file = RuleFile.read(path)
            with self.subTest(path.name):
                self.check(file, [[], random_run(chance, file.steps), random_run(chance, file.steps)])

    def test_watch(self):
        """After each step of a watched block: all states, and those that the step changed."""
        chance = seeded('watch')
        changes = 0
        for number in range(WATCHED_FILES):
            file = RuleFile(small_meant(chance).data)
            run = random_run(chance, file.steps, longest=12)
            numbers = [str(each) for each in range(1, len(file.rules) + 1)]
            questions = [[each, 'run', *run[:length]] for length in range(len(run) + 1) for each in numbers]
            said = [line for line, in ask_reference(file.data, questions)]
            watch = Watch(file)
            for length in range(len(run) + 1):
                before, after = (said[len(numbers) * at:][:len(numbers)] for at in (max(length - 1, 0), length))
                with self.subTest(number=number, data=file.data.hex(), run=run[:length]):
                    changed = watch.step(run[length - 1]) if length else []
                    self.assertEqual([state_line(each) for each in watch.states], after)
                    differ = [place for place, pair in enumerate(zip(before, after), start=1) if len(set(pair)) > 1]
                    self.assertEqual([each.number for each in changed], differ)
                    self.assertEqual(changed, [watch.states[place - 1] for place in differ])
                    self.assertEqual(watch.run, run[:length])
                    changes += len(changed)
        self.assertGreater(changes, WATCHED_FILES)

    def test_long_random_run(self):
        """A run of 100,000 steps gives what the independent implementation gives."""
        chance = seeded('long run')
        file = RuleFile.read(SAMPLES / 'typical.rules')
        run = [chance.choice(file.steps) for _ in range(100000)]
        numbers = range(1, len(file.rules) + 1)
        said = ask_reference(file.data, [[str(number), 'run', *run] for number in numbers])
        self.assertEqual([[state_line(each)] for each in states(file, run)], said)


class ByHand(unittest.TestCase):
    """Cases that 01 and 02 work out."""

    def test_cases_of_pruning(self):
        """The cases of docs/FORMAT.md; the weights fall from rule to rule."""
        for steps, rules, lines in (
                ('p w', 'Participation p; NotChainSuccession p w; ChainResponse p w', '1 0 2 2, 2 0 3 3, 3 1 3 0'),
                ('a b', 'Participation a; Init a', '1 4 2 2, 2 0 4 4'),
                ('a d', 'Init a; End d; CoExistence a d', '1 0 3 5, 2 0 3 3, 3 2 4 0'),
                ('a b', 'ChainPrecedence a b; AlternatePrecedence a b', '1 0 3 3, 2 2 2 0'),
                ('a b c', 'Response a b; Response b c; Response a c', '1 0 2 4, 2 0 4 4, 3 2 6 0'),
                ('a b', 'Response a b; Response a b', '1 0 2 2, 2 2 2 0'),
                ('a b', 'CoExistence a b; NotCoExistence a b', '1 0 4 3, 2 0 4 4'),
                ('a', 'Participation a; Init a', '1 0 2 2, 2 2 2 0')):
            text = ''.join(f'step {name}\n' for name in steps.split())
            for place, words in enumerate(rules.split('; ')):
                text += f'rule {words} {0.9 - 0.1 * place:.1f} 0.5 0.5\n'
            with self.subTest(rules):
                self.assertEqual(', '.join(map(verdict_line, prune(RuleFile.parse(text)))), lines)

    def test_cases_of_the_monitor(self):
        """Values and counts of relevant steps; the runs of M-103 among them."""
        for steps, rule, run, value, relevant in (
                ('d e m', 'Response e m', 'd m e m m e e m', 0, 4),
                ('e m', 'Precedence e m', 'e m e m', 2, 1),
                ('a b', 'Init a', '', 1, 0),
                ('a b', 'AtMostOne a', '', 0, 0),
                ('a', 'End a', 'a', 2, 1),
                ('a b', 'End a', 'a', 0, 1),
                ('a b', 'ChainPrecedence a b', 'b', 3, 1),
                ('a b', 'AlternatePrecedence a b', 'a b', 0, 2),
                ('a b', 'AlternatePrecedence a b', 'a b a b', 0, 4),
                ('a b c', 'AlternatePrecedence a b', 'a c b c b a', 3, 3)):
            file = RuleFile.parse(''.join(f'step {name}\n' for name in steps.split()) + f'rule {rule} 1 1 1\n')
            with self.subTest(rule=rule, run=run):
                said = state(file, 1, run.split())
                self.assertEqual((said.value, said.relevant, said.number), (value, relevant, 1))
                self.assertEqual(said.value.satisfied, value in (0, 2))

    def test_long_run(self):
        """100,000 steps, a and b in turn: which of them are relevant can be said by hand."""
        rules = {
            'Response a b': (Value.TEMPORARILY_SATISFIED, 100000),
            'AlternatePrecedence a b': (Value.TEMPORARILY_SATISFIED, 100000),
            # After the first b no step changes that an a has come before.
            'Precedence a b': (Value.PERMANENTLY_SATISFIED, 1),
            'Participation b': (Value.PERMANENTLY_SATISFIED, 1),
            # The 14th a forbids another, the 15th breaks the rule.
            'AtMost a 14': (Value.PERMANENTLY_VIOLATED, 2),
            'Choice a c': (Value.PERMANENTLY_SATISFIED, 1),
            'ExclusiveChoice a b': (Value.PERMANENTLY_VIOLATED, 2),
            'Init c': (Value.PERMANENTLY_VIOLATED, 1),
        }
        text = 'step a\nstep b\nstep c\n' + ''.join(f'rule {rule} 1 1 1\n' for rule in rules)
        said = states(RuleFile.parse(text), ['a', 'b'] * 50000)
        self.assertEqual([(each.value, each.relevant) for each in said], list(rules.values()))

    def test_shown(self):
        """The sequences of samples/incident, as docs/FORMAT.md has them."""
        file = RuleFile.read(SAMPLES / 'incident.txt')
        second, third = show(file, 2), show(file, 3)
        self.assertEqual((second.satisfying.steps, second.satisfying.standing), (('expose', 'arc'), (1, 0)))
        self.assertEqual((second.violating.steps, second.violating.standing), (('expose',), (0x11, 0)))
        self.assertIsNone(third.satisfying)
        self.assertEqual((third.violating.steps, third.violating.standing), (('expose', 'arc'), (0x201, 0)))
        self.assertEqual(third.as_json(), {
            'number': 3, 'rule': 'NotSuccession(expose, arc)', 'satisfying': None,
            'violating': {'steps': ['expose', 'arc'], 'standing': ['0x201', '0x0']}})

    def test_json(self):
        """Verdicts and states for programs, of the same sample."""
        file = RuleFile.read(SAMPLES / 'incident.rules')
        self.assertEqual(prune(file)[2].as_json(), {
            'number': 3, 'rule': 'NotSuccession(expose, arc)', 'template': 'NotSuccession', 'x': 'expose', 'y': 'arc',
            'support': 0.25, 'confidence': 0.5, 'interest': 0.5, 'fate': 'conflicting', 'fate_number': 1,
            'remains': False, 'first_count': 4, 'second_count': 0})
        self.assertEqual(state(file, 2, ['expose', 'arc', 'expose']).as_json(), {
            'number': 2, 'rule': 'Response(expose, arc)', 'value': 'temporarily violated', 'value_number': 1,
            'satisfied': False, 'relevant': 3})
        counting = RuleFile.parse('step flat\nrule AtLeast flat 3 1 0.5 0\n')
        self.assertEqual(counting.as_json(), {'steps': ['flat'], 'rules': [{
            'number': 1, 'rule': 'AtLeast(flat, 3)', 'template': 'AtLeast', 'x': 'flat', 'count': 3,
            'support': 1.0, 'confidence': 0.5, 'interest': 0.0}]})

    def test_paths(self):
        """A function takes a rule file, the path of one, or that of its text."""
        file = RuleFile.read(SAMPLES / 'typical.rules')
        for path in (SAMPLES / 'typical.rules', str(SAMPLES / 'typical.rules'), str(SAMPLES / 'typical.txt')):
            with self.subTest(path):
                self.assertEqual(prune(path), prune(file))
                self.assertEqual(show(path, 2), show(file, 2))
                self.assertEqual(states(path, file.steps), states(file, file.steps))
                self.assertEqual(kept(path), kept(file))
                self.assertEqual(Watch(path).states, states(file, []))
        with self.assertRaises(FileNotFoundError):
            prune(SAMPLES / 'none.rules')

    def test_best_rule(self):
        """The best rule by rank is decided beside no other: it has the first count and the first fate that it has
        alone."""
        chance = seeded('rank')
        for _ in range(200):
            meant = small_meant(chance)
            if meant.rules:
                first = prune(RuleFile(meant.data))[decision_order(meant.rules)[0]]
                rule = meant.rules[first.number - 1]
                alone = prune(RuleFile(Meant(meant.steps, (rule,)).data))[0]
                self.assertEqual(first.first_count, alone.first_count)
                self.assertEqual(first.fate in (0, 4, 5), alone.fate is Fate.KEPT)


class KeptFiles(unittest.TestCase):
    """The file of the finally kept rules."""

    def test_rules(self):
        """Its rules are those of fates 0 and 5, in order; pruned again, no rule of it is conflicting, and where no
        rule was or is untested or set aside, all are kept."""
        chance = seeded('kept')
        settled = left = 0
        for number in range(KEPT_FILES):
            meant = small_meant(chance)
            with self.subTest(number=number, data=meant.data.hex()):
                fates = [int(line.split()[1]) for line in ask_reference(meant.data, [[]])[0]]
                remaining = tuple(rule for rule, fate in zip(meant.rules, fates) if fate in (0, 5))
                file = kept(RuleFile(meant.data))
                self.assertEqual(file.data, Meant(meant.steps, remaining).data)
                again = {int(each.fate) for each in prune(file)}
                self.assertNotIn(1, again)
                if not {3, 5} & ({*fates} | again):
                    self.assertLessEqual(again, {0})
                    self.assertEqual(kept(file), file)
                    settled += 1
                    left += len(meant.rules) - len(remaining)
        self.assertGreater(settled, KEPT_FILES / 2)
        self.assertGreater(left, KEPT_FILES / 2)

    def test_form(self):
        """A kept file remembers whether it came from a text."""
        self.assertTrue(kept(SAMPLES / 'incident.txt').is_text)
        self.assertFalse(kept(SAMPLES / 'incident.rules').is_text)
        self.assertEqual(kept(SAMPLES / 'incident.txt'), kept(SAMPLES / 'incident.rules'))


class Threads(unittest.TestCase):
    """Calls of several threads at once give what one thread gives."""

    THREADS = 8
    CALLS = 200

    def calls_on(self, chance, files):
        """Calls of all kinds on these files."""
        def one():
            file = chance.choice(files)
            rule = chance.randint(1, len(file.rules))
            run = random_run(chance, file.steps)
            return chance.choice([lambda: prune(file), lambda: show(file, rule), lambda: kept(file),
                                  lambda: state(file, rule, run), lambda: states(file, run),
                                  lambda: RuleFile.parse(file.text()).data])
        return [one() for _ in range(self.CALLS)]

    def check(self, calls):
        """Runs each list of calls in a thread of its own, all beginning at once."""
        expected = [[call() for call in each] for each in calls]
        found = [[] for _ in calls]
        barrier = threading.Barrier(len(calls))

        def work(place):
            barrier.wait()
            for call in calls[place]:
                found[place].append(call())

        threads = [threading.Thread(target=work, args=(place,)) for place in range(len(calls))]
        for thread in threads:
            thread.start()
        for thread in threads:
            thread.join()
        self.assertEqual(found, expected)

    def test_different_files(self):
        """Each thread has a file of its own."""
        chance = seeded('threads')
        names = ('incident', 'typical', 'calibration', 'mined', 'all_fates', 'subnormal', 'alternating', 'heavy')
        files = [RuleFile.read(SAMPLES / f'{name}.rules') for name in names]
        self.check([self.calls_on(chance, [file]) for file in files])

    def test_one_file(self):
        """All threads have the same two objects."""
        chance = seeded('one file')
        files = [RuleFile.read(SAMPLES / 'all_fates.rules'), RuleFile.read(SAMPLES / 'calibration.txt')]
        self.check([self.calls_on(chance, files) for _ in range(self.THREADS)])


class RefusedCalls(unittest.TestCase):
    """Rule numbers and runs that a file does not have."""

    def setUp(self):
        self.file = RuleFile.read(SAMPLES / 'incident.rules')
        self.empty = RuleFile.parse('step a\n')

    def refused(self, call):
        with self.assertRaises(Refused) as caught:
            call()
        return caught.exception

    def test_no_such_rule(self):
        """Numbers beside those of the file, and some that 32 bits would read as one of them."""
        for file, last in ((self.file, 3), (self.empty, 0)):
            for number in (0, -1, last + 1, 33, 255, 256, 2 ** 31, 2 ** 32 - 1, 2 ** 32, 2 ** 32 + 1, 2 ** 64 + 1,
                           -2 ** 32 + 1):
                for call in (lambda: show(file, number), lambda: state(file, number, []),
                             lambda: list(show_each(file, [number])), lambda: list(states_of(file, [number], []))):
                    bad = self.refused(call)
                    with self.subTest(last=last, number=number):
                        self.assertEqual((bad.number, bad.meaning), (14, 'there is no such rule'))
                        self.assertIn(str(number), bad.place.detail)
                        self.assertEqual(bad.as_json(), {
                            'message': str(bad), 'refused': 14, 'meaning': 'there is no such rule',
                            'detail': bad.place.detail})

    def test_the_edges_are_there(self):
        """The first and the last rule are no such numbers."""
        for number in (1, 3):
            self.assertEqual(show(self.file, number).number, number)
            self.assertEqual(state(self.file, number, []).number, number)

    def test_undeclared_step(self):
        """A name that the file lacks, wherever it stands in the run; the place is said and what is near."""
        for run, name, place in ((['expos'], 'expos', 1), (['arc', 'Arc', 'no'], 'Arc', 2), (['arc', ''], '', 2),
                                 (['arc'] * 300 + ['\xff'], '\xff', 301)):
            for call in (lambda: state(self.file, 2, run), lambda: states(self.file, run),
                         lambda: list(states_of(self.file, [1], run))):
                bad = self.refused(call)
                with self.subTest(run=run[-3:]):
                    self.assertEqual((bad.number, bad.meaning), (15, 'a step of the run is not declared'))
                    self.assertIn(f"'{name}'", bad.place.detail)
                    self.assertRegex(bad.place.detail, rf'\b{place}\b')
        self.assertIn('nearest is expose', str(self.refused(lambda: states(self.file, ['expos']))))

    def test_rule_before_run(self):
        """Where both are wrong, the rule is refused."""
        self.assertEqual(self.refused(lambda: state(self.file, 4, ['no'])).number, 14)
        self.assertEqual(self.refused(lambda: state(self.file, 2 ** 32 + 1, ['no'])).number, 14)

    def test_without_rules(self):
        """A file without a rule: nothing to prune or show, and a run is still checked."""
        self.assertEqual((prune(self.empty), states(self.empty, ['a', 'a']), kept(self.empty)), ([], [], self.empty))
        self.assertEqual(self.refused(lambda: states(self.empty, ['a', 'b'])).number, 15)

    def test_watch(self):
        """A step that is not declared is refused and is not part of the run."""
        for file, name in ((self.file, 'expose'), (self.empty, 'a')):
            watch = Watch(file)
            watch.step(name)
            before = watch.states
            self.assertEqual(self.refused(lambda: watch.step('no')).number, 15)
            self.assertEqual((watch.run, watch.states), ([name], before))
            watch.step(name)
            self.assertEqual((watch.run, watch.states), ([name, name], states(file, [name, name])))


class Errors(unittest.TestCase):
    """The exceptions and what they say for programs."""

    def test_types(self):
        """One type holds all that may be wrong with what was given; the library's absence is another matter."""
        for kind in (Refused, BadText, NotThere):
            self.assertTrue(issubclass(kind, TullwethError) and issubclass(kind, ValueError))
        self.assertFalse(issubclass(tullweth.LibraryMissing, TullwethError))

    def test_refused(self):
        """Refused has number, meaning and place; as JSON it has those of them that there are."""
        with self.assertRaises(Refused) as caught:
            RuleFile.parse('step a\n\nstep a\n')
        bad = caught.exception
        self.assertEqual((bad.number, bad.place.field, bad.place.line), (7, 2, 3))
        self.assertEqual(bad.as_json(), {'message': str(bad), 'refused': 7, 'meaning': 'two steps have one name',
                                         'field': 2, 'line': 3, 'detail': bad.place.detail})
        self.assertEqual(Refused(13).as_json(), {'message': 'refused 13: there is no step', 'refused': 13,
                                                 'meaning': 'there is no step'})
        self.assertEqual((Refused(99).number, Refused(99).place), (99, Place()))
        self.assertIn('99', str(Refused(99)))

    def test_bad_text(self):
        """BadText has a reason and a line, if it has one."""
        with self.assertRaises(BadText) as caught:
            RuleFile.parse('step a\nfoo\n')
        bad = caught.exception
        self.assertEqual(bad.line, 2)
        self.assertEqual(bad.as_json(), {'message': f'line 2: {bad.reason}', 'line': 2})
        self.assertEqual(BadText('why').as_json(), {'message': 'why'})

    def test_numbers_of(self):
        """Rules asked for as they are written, in any spelling; equal ones all; NotThere for others."""
        file = RuleFile.parse('step a\nstep "b,c"\nrule Response a "b,c" 1 1 1\nrule Existence3 a 1 1 1\n'
                              'rule Response a "b,c" 0 0 0\n')
        for words, numbers in (('Response(a, "b,c")', [1, 3]), ('response a "b,c"', [1, 3]),
                               (' RESPONSE [ a , "b,c" ] ', [1, 3]), ('AtLeast(a, 3)', [2]), ('Existence3 a', [2])):
            with self.subTest(words):
                self.assertEqual(file.numbers_of(words), numbers)
        for words in ('Response("b,c", a)', 'Init(a)', 'AtLeast(a, 2)', 'Respnse(a, "b,c")', 'Response(a, d)', '',
                      'Response(a, a)', 'AtLeast(a, 15)', 'Response(a', 'Response(a, b,c)', '#', 'a\0b', '\n'):
            with self.subTest(words):
                with self.assertRaises(NotThere) as caught:
                    file.numbers_of(words)
                self.assertEqual(caught.exception.as_json(), {'message': str(caught.exception)})

    def test_library_missing(self):
        """Without the library its absence is said, and not by a type for bad files."""
        code = ('import tullweth\n'
                'try:\n    tullweth.prune(tullweth.RuleFile.parse("step a"))\n'
                'except tullweth.LibraryMissing as missing:\n    print(missing)\n')
        place = str(ROOT / 'target' / 'lib' / 'none.so')
        path = {'PYTHONPATH': str(ROOT / 'python'), 'TULLWETH_LIBRARY': place}
        done = subprocess.run([sys.executable, '-c', code], env={**os.environ, **path}, capture_output=True, text=True,
                              check=True, timeout=60)
        self.assertIn(place, done.stdout)


class OfSteps(unittest.TestCase):
    """RuleFile.of with steps and rules that are no rule file."""

    def test_refused(self):
        """What a field can hold is left to the library, which refuses it by its number."""
        rule = Rule('Response', 'a', 'b')
        for number, steps, rules in (
                (13, [], []),
                (5, [f's{n}' for n in range(25)], []),
                (6, [''], []), (6, ['a b'], []), (6, ['a' * 17], []), (6, ['é'], []), (6, ['a' * 70000], []),
                (6, ['\udcff'], []), (6, ['a\0'], []),
                (7, ['a', 'a'], []),
                (8, ['a', 'b'], [rule] * 33),
                (11, ['a', 'b'], [Rule('Response', 'a', 'a')]),
                (11, ['a', 'b'], [rule, Rule('ExclusiveChoice', 'b', 'b')]),
                *((17, ['a'], [Rule('Exactly', 'a', count=count)]) for count in (0, 15, 255)),
                *((12, ['a', 'b'], [Rule('Response', 'a', 'b', None, *weights)]) for weights in (
                    (-0.0, 1, 1), (1, 1.5, 1), (1, 1, float('nan')), (float('inf'), 1, 1), (1, -1e-60, 1),
                    (1, 1, float_of(0x3F800001))))):
            with self.subTest(steps=steps[:2], rules=rules[-1:]):
                with self.assertRaises(Refused) as caught:
                    RuleFile.of(steps, rules)
                self.assertEqual(caught.exception.number, number)

    def test_bad(self):
        """What no field can hold is said as it is."""
        for rule, word in ((Rule('Respond', 'a', 'b'), 'Respond'), (Rule('response', 'a', 'b'), 'response'),
                           (Rule('Response', 'c', 'b'), "'c'"), (Rule('Response', 'a', 'c'), "'c'"),
                           (Rule('AtLeast', 'a', count=-1), 'count'), (Rule('AtLeast', 'a', count=256), 'count'),
                           (Rule('Response', 'a', 'b', None, 1e39), 'weight'),
                           (Rule('Init', 'a', None, None, 1, -1e300), 'weight')):
            with self.subTest(rule=rule):
                with self.assertRaises(BadText) as caught:
                    RuleFile.of(['a', 'b'], [rule])
                self.assertIn(word, str(caught.exception))

    def test_y_is_no_count(self):
        """A rule with a y or a count that its template does not take, or without one that it takes, is not made into
        another rule."""
        for rule in (Rule('AtLeast', 'a', 'b'), Rule('Exactly', 'a', 'b', 2), Rule('Response', 'a', count=1),
                     Rule('Response', 'a', 'b', 3), Rule('Init', 'a', count=255), Rule('Init', 'a', 'b'),
                     Rule('Response', 'a'), Rule('AtLeast', 'a')):
            with self.subTest(rule=rule):
                with self.assertRaises(TullwethError) as caught:
                    RuleFile.of(['a', 'b'], [rule])
                self.assertIn(rule.template, str(caught.exception))

    def test_lone_surrogates(self):
        """A name of a character that no text has is refused as a name."""
        for make in (lambda: RuleFile.of(['\ud800'], []), lambda: RuleFile.parse('step \ud800\n')):
            with self.assertRaises(TullwethError):
                make()

    def test_equality(self):
        """Files are equal if their bytes are, and can be kept in sets."""
        one, other = (RuleFile.of(['a', 'b'], [Rule('Response', 'a', 'b')]) for _ in range(2))
        self.assertEqual((one == other, len({one, other})), (True, 1))
        self.assertNotEqual(one, RuleFile.of(['a', 'b'], []))
        self.assertNotEqual(one, one.data)

    def test_written_as_people_do(self):
        """A rule as a word: names in quotes where they have to be."""
        for rule, written in ((Rule('Response', 'a', 'b'), 'Response(a, b)'), (Rule('Init', 'a,b'), 'Init("a,b")'),
                              (Rule('AtLeast', '#', count=3), 'AtLeast("#", 3)')):
            self.assertEqual(str(rule), written)
        chance = seeded('written')
        for _ in range(300):
            file = RuleFile(random_meant(chance).data)
            for number, rule in enumerate(file.rules, start=1):
                self.assertIn(number, file.numbers_of(str(rule)))


# ---- the headers


def defined(text):
    """The numbers that a header defines, by name."""
    numbers = re.findall(r'^#define TULLWETH_(\w+) (0x[0-9A-F]+|[0-9]+)u?$', text, re.MULTILINE)
    return {name: int(number, 0) for name, number in numbers}


def enumerated(text, name):
    """The numbers of an enum of a header, by name."""
    body = re.search(rf'enum tullweth_{name} {{(.*?)}};', text, re.DOTALL)
    return {word: int(number) for word, number in re.findall(r'TULLWETH_(\w+) = ([0-9]+)', body[1])}


def in_capitals(name):
    """AtMostOne as the header has it: AT_MOST_ONE."""
    return re.sub('(?<=[a-z])(?=[A-Z])', '_', name).upper()


class Headers(unittest.TestCase):
    """The module's numbers and words are those of the C headers."""

    @classmethod
    def setUpClass(cls):
        cls.text = HEADER.read_text()
        cls.numbers = defined(cls.text)

    def test_lengths_and_limits(self):
        """The areas that are lent, and the limits of a file."""
        ours = {
            'FOUND_NUMBERS': library.FOUND_NUMBERS, 'LINK_NUMBERS': library.LINK_NUMBERS,
            'VERDICT_BYTES': library.VERDICT_BYTES, 'SEQUENCE_BYTES': library.SEQUENCE_BYTES,
            'ANSWER_NUMBERS': library.ANSWER_NUMBERS, 'STATE_NUMBERS': library.STATE_NUMBERS,
            'MOST_STEPS': fields.MOST_STEPS, 'MOST_RULES': fields.MOST_RULES, 'LONGEST_NAME': fields.LONGEST_NAME,
            'TAG_STEP': fields.STEP_TAG, 'TAG_RULE': fields.RULE_TAG, 'RULE_BYTES': fields.RULE_BYTES,
            'WITHOUT_Y': fields.WITHOUT_Y, 'LARGEST_WEIGHT_BITS': fields.LARGEST_WEIGHT,
            'MOST_COUNT': fields.MOST_COUNT, 'MOST_STANDINGS': answers.MOST_STANDINGS,
        }
        self.assertEqual({name: self.numbers[name] for name in ours}, ours)
        self.assertEqual({name for name in self.numbers if 'VERSION' not in name} - set(ours), {'BYTES_A_RULE'})

    def test_areas_are_not_shorter(self):
        """What 01 and 02 want lent, written down here."""
        self.assertEqual((library.FOUND_NUMBERS, library.LINK_NUMBERS, library.VERDICT_BYTES), (8192, 16384, 160))
        self.assertEqual((library.SEQUENCE_BYTES, library.ANSWER_NUMBERS, library.STATE_NUMBERS), (4095, 8, 2))

    def test_version(self):
        """The version of the module is that of the library."""
        self.assertEqual(re.findall('#define TULLWETH_VERSION "(.*)"', self.text), [tullweth.__version__])

    def test_templates(self):
        """Numbers and names, and which of them take a y or a count."""
        ours = {in_capitals(template.name): template.number for template in tullweth.TEMPLATES}
        self.assertEqual(ours, enumerated(self.text, 'template'))
        self.assertEqual([template.name for template in tullweth.TEMPLATES], TEMPLATE_NAMES)
        for template in tullweth.TEMPLATES:
            one, counts = template.number in ONE_STEP, template.number in (19, 20, 21)
            self.assertEqual((template.has_y, template.counts), (not one and not counts, counts))

    def test_fates_and_values(self):
        """The enumerations have the header's names and numbers."""
        self.assertEqual({fate.name: fate.value for fate in Fate}, enumerated(self.text, 'fate'))
        self.assertEqual({value.name: value.value for value in Value}, enumerated(self.text, 'value'))
        self.assertEqual({fate for fate in Fate if fate.remains}, {Fate.KEPT, Fate.UNTESTED})

    def test_refusals(self):
        """Every number that an entry returns has a meaning here; 16 is one of 01's that no entry returns."""
        numbers = set(enumerated(self.text, 'refusal').values()) - {0}
        self.assertEqual(set(refusals.MEANINGS), numbers | {16})

    @unittest.skipUnless(TEXT_HEADER.exists(), 'include/tullweth_text.h is not there')
    def test_texts(self):
        """Names, fates, values and refusals are worded as in the header for texts."""
        numbers = {}
        for name in ('template', 'fate', 'value', 'refusal'):
            numbers.update(enumerated(self.text, name))

        def texts(function):
            body = re.search(rf'tullweth_{function}\(\w+ number\)\s*{{(.*?)\n}}', TEXT_HEADER.read_text(), re.DOTALL)
            cases = re.findall(r'case (?:TULLWETH_)?(\w+):\s*return "([^"]*)";', body[1])
            return {int(word) if word.isdigit() else numbers[word]: text for word, text in cases}

        self.assertEqual(texts('template_name'), {each.number: each.name for each in tullweth.TEMPLATES})
        self.assertEqual(texts('fate_text'), {int(fate): fate.text for fate in Fate})
        self.assertEqual(texts('value_text'), {int(value): value.text for value in Value})
        self.assertEqual(texts('refusal_text'), {0: 'accepted', **refusals.MEANINGS})

    def test_rule_bytes(self):
        """A rule field is written and read as 01 lays it out."""
        rule = MeantRule(6, 2, 3, (0x3F000000, 0x3F400000, 1))
        ours = fields.RuleField(6, 2, 3, (0x3F000000, 0x3F400000, 1))
        self.assertEqual(fields.field(fields.RULE_TAG, ours.packed()), rule.field)
        self.assertEqual(fields.RuleField.unpacked(rule.field[3:]), ours)


if __name__ == '__main__':
    unittest.main()
