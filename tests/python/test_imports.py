"""Mined models: what is made of them, what is refused, how steps are renamed and which rules are the best."""

import json
import struct
import unittest

from support import (COUNTING, ONE_STEP, SAMPLES, TEMPLATE_NAMES, MeantRule, call_command, decision_order, float_of,
                     random_rule, seeded)
from tullweth import BadText, RuleFile, TullwethError, prune
from tullweth.imports import imported, model_of


def constraint(template, *parameters, weights=(0.5, 0.25, 0.125), **more):
    """A constraint as MINERful writes it."""
    named = dict(zip(('support', 'confidence', 'interestFactor'), weights))
    return {'template': template, 'parameters': [[name] for name in parameters], **named, **more}


def in_json(*constraints, tasks=None):
    """The bytes of a model of MINERful."""
    model = {'name': 'mined', 'constraints': list(constraints)}
    return json.dumps(model if tasks is None else {**model, 'tasks': tasks}).encode()


def made(content, defaults=None, **options):
    """What a model is made into."""
    return imported(model_of(content, defaults), **options)


class Models(unittest.TestCase):
    """Whole models, with the texts that have to come of them."""

    def test_json(self):
        """A model as MINERful writes it: steps in the order of the tasks, then those that rules name besides."""
        content = b'''{
          "name": "night", "tasks": ["slew", "expose", "arc"],
          "constraints": [
            {"template": "Init", "parameters": [["slew"]], "support": 1, "confidence": 0.875, "interestFactor": 0.5},
            {"template": "Response", "parameters": [["expose"], ["arc"]],
             "support": 0.75, "confidence": 0.5, "interestFactor": 0.25, "fitness": 0.1},
            {"template": "NotChainSuccession", "parameters": ["arc", ["flat"]],
             "support": 0.0, "confidence": 1e-3, "interest": 0},
            {"template": "AtLeast3", "parameters": [["flat"]], "support": 1, "confidence": 1, "interestFactor": 1},
            {"template": "Absence2", "parameters": [["slew"]], "support": 1, "confidence": 1, "interestFactor": 1},
            {"template": "Exactly1", "parameters": [["arc"]], "support": 1, "confidence": 1, "interestFactor": 1}
          ]
        }'''
        text = ('step slew\nstep expose\nstep arc\nstep flat\n\n'
                'rule Init slew 1 0.875 0.5\n'
                'rule Response expose arc 0.75 0.5 0.25\n'
                'rule NotChainSuccession arc flat 0 0.001 0\n'
                'rule AtLeast flat 3 1 1 1\n'
                'rule AtMostOne slew 1 1 1\n'
                'rule Exactly arc 1 1 1 1\n')
        result = made(content)
        self.assertEqual((result.text(), result.renamed, result.left_out), (text, {}, ()))
        self.assertEqual(made(b'\xef\xbb\xbf\n ' + content).text(), text)

    def test_decl(self):
        """A .decl file as Declare4Py writes it: attributes are passed over, and all weights are 1."""
        content = (b'activity slew\r\nactivity arc lamp\r\nactivity  expose\r\n'
                   b'bind expose: seconds, filter\r\nseconds: integer between 1 and 3600\r\nfilter: B, V, R\r\n'
                   b'# a comment\r\n\r\n'
                   b'Init[slew] | |\r\n'
                   b'Existence[expose] | |\r\nExistence3[expose] | |\r\nAbsence2[slew] | |\r\nAbsence4[slew]||\r\n'
                   b'Exactly2[expose] | |\r\nExactly1[slew]\r\n'
                   b'Responded Existence[expose, arc lamp] | | |\r\n'
                   b'Alternate Precedence[slew, expose] |  | |  \r\n'
                   b'Not Co-Existence[arc lamp,flat] | | |\r\n'
                   b'Exclusive Choice[slew, expose] | | |\r\n')
        text = ('# arc_lamp was arc lamp\n'
                'step slew\nstep arc_lamp\nstep expose\nstep flat\n\n'
                'rule Init slew 1 1 1\n'
                'rule Participation expose 1 1 1\n'
                'rule AtLeast expose 3 1 1 1\n'
                'rule AtMostOne slew 1 1 1\n'
                'rule AtMost slew 3 1 1 1\n'
                'rule Exactly expose 2 1 1 1\n'
                'rule Exactly slew 1 1 1 1\n'
                'rule RespondedExistence expose arc_lamp 1 1 1\n'
                'rule AlternatePrecedence slew expose 1 1 1\n'
                'rule NotCoExistence arc_lamp flat 1 1 1\n'
                'rule ExclusiveChoice slew expose 1 1 1\n')
        self.assertEqual(made(content).text(), text)
        self.assertEqual(made(content.replace(b'\r\n', b'\n')).text(), text)
        self.assertEqual(made(content, (0.5, 0.25, 0)).text(), text.replace(' 1 1 1\n', ' 0.5 0.25 0\n'))

    def test_all_templates(self):
        """Each template by its own name, in both kinds of model."""
        for number, name in enumerate(TEMPLATE_NAMES, start=1):
            names = ['a'] if number in ONE_STEP else ['a', '2'] if number in COUNTING else ['a', 'b']
            steps = 'step a\nstep b\n\n'
            line = f'rule {name} {" ".join(names)}'
            with self.subTest(name):
                mined = made(in_json(constraint(name, *names), tasks=['a', 'b'])).text()
                self.assertEqual(mined, f'{steps}{line} 0.5 0.25 0.125\n')
                decl = made(f'activity a\nactivity b\n{name}[{", ".join(names)}] | |\n'.encode()).text()
                self.assertEqual(decl, f'{steps}{line} 1 1 1\n')

    def test_samples(self):
        """Each model among the samples packs to the rule file beside it, if there is one, and prunes."""
        models = sorted([*SAMPLES.glob('*.json'), *SAMPLES.glob('*.decl')])
        for path in models:
            result = made(path.read_bytes())
            with self.subTest(path.name):
                self.assertEqual(RuleFile.parse(result.text()), result.file)
                self.assertEqual(len(prune(result.file)), len(model_of(path.read_bytes()).rules))
                if path.suffix == '.json' and path.with_suffix('.rules').exists():
                    self.assertEqual(result.file, RuleFile.read(path.with_suffix('.rules')))

    def test_without_rules(self):
        """A model of steps alone is a file of steps alone."""
        self.assertEqual(made(in_json(tasks=['a', 'b', 'a'])).text(), 'step a\nstep b\n')
        self.assertEqual(made(b'activity a\nactivity b\nactivity a\n').text(), 'step a\nstep b\n')

    def test_same_as_by_hand(self):
        """Random rules: pruned as a model they have the fates that the same rules written by hand have."""
        chance = seeded('by hand')
        for _ in range(150):
            steps = ['a', 'b', 'c', 'd'][:chance.randint(2, 4)]
            rules = [random_rule(chance, len(steps), chance.randint(1, 23)) for _ in range(chance.randint(1, 12))]
            mined = made(in_json(*(mined_rule(rule, steps) for rule in rules), tasks=steps))
            text = ''.join(f'step {name}\n' for name in steps)
            for rule in rules:
                words = [steps[rule.x]] + second_word(rule, steps)
                text += ' '.join(['rule', rule.name, *words, *(f'0x{bits:08X}' for bits in rule.weights)]) + '\n'
            by_hand = RuleFile.parse(text)
            self.assertEqual(mined.file, by_hand)
            self.assertEqual(prune(mined.file), prune(by_hand))

    def test_by_the_command(self):
        """import writes the same text, and its options are those of the function."""
        content = in_json(constraint('Init', 'a', weights=()), constraint('Absence', 'b'), tasks=['a', 'b', 'c'])
        options = ['--skip', '--used', '--best', '1', '--weights', '1', '0.5', '0']
        ran = call_command('import', '-', *options, given=content)
        self.assertEqual((ran.status, ran.err), (0, ''))
        lines = ran.out.decode().splitlines()
        self.assertEqual(lines[-3:], ['step a', '', 'rule Init a 1 0.5 0'])
        self.assertRegex(lines[0], r'^# left out: constraint 2, Absence\(b\): ')
        self.assertEqual(len(lines), 4)


def second_word(rule, steps):
    """The y or the count of a rule, if it has one."""
    if rule.template in ONE_STEP:
        return []
    return [str(rule.y) if rule.template in COUNTING else steps[rule.y]]


def mined_rule(rule, steps):
    """A rule as a constraint of MINERful, with weights as Python writes them."""
    words = [steps[rule.x]] + second_word(rule, steps)
    return constraint(rule.name, *words, weights=[float_of(bits) for bits in rule.weights])


# (what is tested, the model, what the message has to contain, the line of the fault or None)
BAD_MODELS = [
    ('bad JSON', b'{\n  "constraints": [\n    {"template": "Init",}\n  ]\n}\n', ['JSON'], 3),
    ('JSON cut off', b'{\n "constraints": [\n', ['JSON'], None),
    ('JSON that goes on', b'{"constraints": []}\n{}', ['JSON'], 2),
    ('not UTF-8 in JSON', b'{\n\n"tasks": ["\xff"]}', ['UTF-8'], 3),
    ('not UTF-8 in .decl', b'activity a\nactivity \xe9\n', ['UTF-8'], 2),
    ('JSON that is too deep', b'{"constraints": ' + b'[' * 100000 + b']' * 100000 + b'}', ['JSON'], None),
    ('a number of too many digits', in_json(constraint('Init', 'a')).replace(b'0.5', b'1' * 5000), [], None),
    ('no constraints', b'{"tasks": ["a"]}', ["'constraints'"], None),
    ('constraints that are no list', b'{"constraints": {"template": "Init"}}', ["'constraints'"], None),
    ('tasks that are no list', b'{"constraints": [], "tasks": "a"}', ["'tasks'"], None),
    ('a task that is no name', b'{"constraints": [], "tasks": ["a", 3]}', ["'tasks'"], None),
    ('a constraint that is no object', b'{"constraints": ["Init"]}', ['constraint 1', "'template'"], None),
    ('no template', in_json(constraint('Init', 'a'), {'parameters': [['a']]}), ['constraint 2', "'template'"], None),
    ('no parameters', b'{"constraints": [{"template": "Init"}]}', ['constraint 1', "'parameters'"], None),
    ('a parameter that is no name', in_json(constraint('Init', 3)), ['constraint 1', 'parameter'], None),
    ('no weights', in_json(constraint('Init', 'a', weights=())), ['constraint 1', "'support'", '--weights'], None),
    ('no interest', in_json(constraint('Init', 'a'), constraint('End', 'a', weights=(1, 1))),
     ['constraint 2', "'interestFactor'", '--weights'], None),
    ('a weight in quotes', in_json(constraint('Init', 'a', weights=('1', 1, 1))), ['constraint 1', "'support'"], None),
    ('a weight that is true', in_json(constraint('Init', 'a', weights=(1, True, 1))), ["'confidence'"], None),
    ('a weight that is null', in_json(constraint('Init', 'a', weights=(1, 1, None))), ["'interestFactor'"], None),
    ('a line of .decl that is none', b'activity a\n\nInit(a)\n', ["'Init(a)'"], 3),
    ('a bracket not closed in .decl', b'activity a\r\nInit[a\r\n', ["'Init[a'"], 2),
    ('neither form', b'', ['.decl', 'MINERful'], None),
    ('comments alone', b'# a\n\n# b\n', ['.decl', 'MINERful'], None),
    ('a text form', b'step a\nrule Init a 1 1 1\n', ["'step a'"], 1),
    ('33 rules', in_json(*[constraint('Init', 'a')] * 33), ['33 rules', '32', '--best 32'], None),
    ('25 steps', in_json(tasks=[f's{n}' for n in range(25)]), ['25 steps', '24', '--used'], None),
    ('no step', in_json(), ['no step'], None),
]
# (what is tested, a constraint that cannot be expressed, what the reason has to contain)
UNFIT = [
    ('a set of steps', {**constraint('Response'), 'parameters': [['a'], ['b', 'c']]}, ['not one step', '{b,c}']),
    ('an empty set', {**constraint('Init'), 'parameters': [[]]}, ['not one step']),
    ('Absence', constraint('Absence', 'a'), ['Absence', 'never']),
    ('Absence1', constraint('Absence1', 'a'), ['Absence1', 'never']),
    ('an unknown template', constraint('Respons', 'a', 'b'), ["'Respons'", 'nearest is Response']),
    ('too few parameters', constraint('Response', 'a'), ['Response', 'parameters']),
    ('too many parameters', constraint('Init', 'a', 'b'), ['Init', 'parameters']),
    ('no parameters', constraint('Init'), ['Init', 'parameters']),
    ('the same step twice', constraint('Response', 'a', 'a'), ['same']),
    ('the count 0', constraint('AtLeast', 'a', '0'), ['count', '1 to 14']),
    ('the count 15', constraint('AtMost', 'a', '15'), ['count', '1 to 14']),
    ('a count that is a name', constraint('Exactly', 'a', 'b'), ['count', '1 to 14']),
    ('the count 15 in the name', constraint('Existence15', 'a'), ['count', '1 to 14']),
    ('the count 15 in Absence16', constraint('Absence16', 'a'), ['count', '1 to 14']),
    ('a weight over 1', constraint('Init', 'a', weights=(1.5, 1, 1)), ['support', '1.5', 'from 0 to 1']),
    ('the least weight over 1', constraint('Init', 'a', weights=(1, 1, float_of(0x3F800001))), ['interest', '0 to 1']),
    ('a weight below 0', constraint('Init', 'a', weights=(1, -0.25, 1)), ['confidence', '-0.25', 'from 0 to 1']),
    ('a weight of -0', constraint('Init', 'a', weights=(1, 1, -0.0)), ['interest', 'from 0 to 1']),
    ('a weight of NaN', constraint('Init', 'a', weights=(1, 1, float('nan'))), ['interest', 'nan']),
    ('an infinite weight', constraint('Init', 'a', weights=(float('inf'), 1, 1)), ['support', 'inf']),
    ('a weight of 400 digits', constraint('Init', 'a', weights=(10 ** 400, 1, 1)), ['support', 'from 0 to 1']),
    ('a weight that 32 bits do not hold', constraint('Init', 'a', weights=(1, 1e39, 1)), ['confidence', 'from 0 to 1']),
]


class Refusals(unittest.TestCase):
    """Models that are not imported, and rules that cannot be expressed."""

    def test_bad_models(self):
        """What is no model, with the line where there is one."""
        for what, content, words, line in BAD_MODELS:
            with self.subTest(what):
                with self.assertRaises(TullwethError) as caught:
                    made(content)
                self.assertIsInstance(caught.exception, BadText)
                if line is not None:
                    self.assertEqual(caught.exception.line, line)
                for word in words:
                    self.assertIn(word, str(caught.exception))

    def test_bad_models_by_the_command(self):
        """Each is answered by one line and status 1."""
        for what, content, words, line in BAD_MODELS:
            with self.subTest(what):
                ran = call_command('import', '-', given=content)
                self.assertEqual((ran.status, ran.out, ran.err.count('\n')), (1, b'', 1))
                place = '' if line is None else f'line {line}: '
                self.assertTrue(ran.err.startswith(f'tullweth: standard input: {place}'), ran.err)
                for word in words:
                    self.assertIn(word, ran.err)

    def test_rules_that_cannot_be_expressed(self):
        """Each is refused with its place and reason, or left out with both where that is asked for."""
        fit = constraint('End', 'b')
        for what, unfit, words in UNFIT:
            content = in_json(fit, unfit, fit, tasks=['a', 'b'])
            with self.subTest(what):
                with self.assertRaises(BadText) as caught:
                    made(content)
                for word in ['constraint 2', unfit['template'], '--skip', *words]:
                    self.assertIn(word, str(caught.exception))
                result = made(content, skip=True)
                self.assertEqual(result.file, made(in_json(fit, fit, tasks=['a', 'b'])).file)
                self.assertEqual(len(result.left_out), 1)
                for word in ['constraint 2', unfit['template'], *words]:
                    self.assertIn(word, result.left_out[0])
                self.assertEqual(result.text(), f'# left out: {result.left_out[0]}\n{result.file.text()}')

    def test_conditions(self):
        """Conditions on data or time in a .decl file."""
        for line in (b'Response[a, b] |A.x > 3 | |', b'Response[a, b] | |T.x is B |', b'Response[a, b] | | |0,5,m',
                     b'Init[a] |A.x is not C |'):
            content = b'activity a\nactivity b\nEnd[b] | |\n' + line + b'\n'
            with self.subTest(line):
                with self.assertRaises(BadText) as caught:
                    made(content)
                for word in ('line 4', 'condition', '--skip'):
                    self.assertIn(word, str(caught.exception))
                result = made(content, skip=True)
                self.assertEqual(result.file.text(), 'step a\nstep b\n\nrule End b 1 1 1\n')
                self.assertIn('line 4', result.left_out[0])

    def test_how_many_more(self):
        """The first rule that cannot be expressed is said, and how many more there are."""
        rules = [constraint('Absence', name) for name in 'abc']
        with self.assertRaises(BadText) as caught:
            made(in_json(*rules))
        self.assertRegex(str(caught.exception), r'^constraint 1: Absence\(a\): .*\b2 more\b')
        self.assertEqual(len(made(in_json(*rules, tasks=['a']), skip=True).left_out), 3)

    def test_steps_of_rules_left_out(self):
        """A rule that is left out declares no step."""
        content = in_json(constraint('Init', 'a'), constraint('Absence', 'b'), constraint('Response', 'a', 'a'))
        self.assertEqual(made(content, skip=True).file.steps, ('a',))

    def test_a_step_named_as_its_count(self):
        """A step called 3 may occur three times: a count is no second step."""
        mined = in_json(constraint('AtLeast', '3', '3', weights=(1, 1, 1)))
        for content in (b'activity 3\nAtLeast[3, 3] | |\n', mined):
            self.assertEqual(made(content).text(), 'step 3\n\nrule AtLeast 3 3 1 1 1\n')

    def test_empty_parameters(self):
        """A parameter without a name is no step."""
        for content in (b'activity a\nResponse[a, ] | | |\n', b'activity a\nInit[] | |\n',
                        b'activity a\nResponse[, a] | | |\n', in_json(constraint('Response', 'a', ''))):
            with self.subTest(content):
                with self.assertRaises(BadText) as caught:
                    made(content)
                self.assertIn('--skip', str(caught.exception))

    def test_weights_that_are_missing(self):
        """Weights given for rules without: JSON's own stay, and those that lack are filled in one by one."""
        content = in_json(constraint('Init', 'a', weights=()), constraint('End', 'a'),
                          constraint('AtMostOne', 'a', weights=(0.5,)))
        lines = made(content, (1, 0.75, 0)).file.text().splitlines()[2:]
        self.assertEqual(lines, ['rule Init a 1 0.75 0', 'rule End a 0.5 0.25 0.125', 'rule AtMostOne a 0.5 0.75 0'])


class Names(unittest.TestCase):
    """Steps whose names cannot be names of steps."""

    def check(self, tasks, names):
        result = made(in_json(tasks=tasks))
        self.assertEqual(result.file.steps, tuple(names))
        renamed = {old: new for old, new in zip(tasks, names) if old != new}
        self.assertEqual(result.renamed, renamed)
        comments = [line for line in result.text().splitlines() if line.startswith('#')]
        self.assertEqual(len(comments), len(renamed))
        for comment, new in zip(comments, renamed.values()):
            self.assertTrue(comment.startswith(f'# {new} was '), comment)
        self.assertEqual(RuleFile.parse(result.text()), result.file)

    def test_renamed(self):
        """Other characters become _, and the name is cut to 16; those that can stay do."""
        self.check(['arc lamp', 'expose', 'a' * 17, 'caf\u00e9', '\u5929', 'a\tb\nc', '"a,b"', 'x' * 16],
                   ['arc_lamp', 'expose', 'a' * 16, 'caf_', '_', 'a_b_c', '"a,b"', 'x' * 16])

    def test_collisions(self):
        """A new name is none that a step has already, and no two are alike."""
        self.check(['a b', 'a_b', 'a\tb', 'a\u00e9b'], ['a_b~2', 'a_b', 'a_b~3', 'a_b~4'])
        self.check(['a' * 17, 'a' * 18, 'a' * 16, 'a' * 14 + '~2'],
                   ['a' * 14 + '~3', 'a' * 14 + '~4', 'a' * 16, 'a' * 14 + '~2'])

    def test_many_collisions(self):
        """24 long names that begin alike get 24 names."""
        tasks = [f'a very long name of a step {number}' for number in range(24)]
        result = made(in_json(tasks=tasks))
        self.assertEqual(len(set(result.file.steps)), 24)
        self.assertEqual(list(result.renamed), tasks)

    def test_rules_follow(self):
        """Rules name the new names, and their fates are those of the rules with good names."""
        rules = [('Response', 'arc lamp', 'arc\tlamp'), ('Precedence', 'arc_lamp', 'arc lamp'), ('Init', 'arc_lamp')]
        result = made(in_json(*(constraint(*rule) for rule in rules), tasks=['arc lamp', 'arc_lamp']))
        self.assertEqual(result.file.steps, ('arc_lamp~2', 'arc_lamp', 'arc_lamp~3'))
        self.assertEqual([str(rule) for rule in result.file.rules],
                         ['Response(arc_lamp~2, arc_lamp~3)', 'Precedence(arc_lamp, arc_lamp~2)', 'Init(arc_lamp)'])
        short = RuleFile.parse('step a\nstep b\nstep c\nrule Response a c 0.5 0.25 0.125\n'
                               'rule Precedence b a 0.5 0.25 0.125\nrule Init b 0.5 0.25 0.125\n')
        self.assertEqual([(each.fate, each.first_count, each.second_count) for each in prune(result.file)],
                         [(each.fate, each.first_count, each.second_count) for each in prune(short)])

    def test_comments_are_one_line(self):
        """No name ends the comment that says it."""
        for name in ('a\nstep b', 'a\rstep b', 'a\u2028step b', 'a\x85b', 'a\x0bb', '\ud800 b'):
            result = made(in_json(tasks=[name]))
            with self.subTest(name):
                self.assertEqual(result.text().count('\n'), 2)
                self.assertEqual(RuleFile.parse(result.text()), result.file)
                self.assertTrue(result.text().replace('\n', '').isprintable())


class Best(unittest.TestCase):
    """The best rules of a model: the first of the order of decision, in the order of the model."""

    STEPS = ['a', 'b', 'c', 'd']

    def meant(self, chance, count):
        """Rules of which many tie in some of the keys of rank."""
        weights = [0, 0x3F000000, 0x3F800000]
        rules = [random_rule(chance, len(self.STEPS), chance.choice([3, 6, 17, 19, 20])) for _ in range(count)]
        return [MeantRule(rule.template, rule.x, rule.y, tuple(chance.choice(weights[1:]) for _ in range(3)))
                for rule in rules]

    def check(self, **options):
        chance = seeded('best')
        for _ in range(150):
            rules = self.meant(chance, chance.randint(1, 40))
            content = in_json(*(mined_rule(rule, self.STEPS) for rule in rules), tasks=self.STEPS)
            best = chance.randint(1, min(len(rules), 32))
            chosen = sorted(decision_order(rules)[:best])
            result = made(content, best=best, **options)
            wanted = [' '.join([rules[place].name, self.STEPS[rules[place].x], *second_word(rules[place], self.STEPS)])
                      for place in chosen]
            lines = result.file.text().splitlines()
            self.assertEqual([' '.join(line.split()[1:-3]) for line in lines if line.startswith('rule ')], wanted)
            found = [int.from_bytes(struct.pack('>f', weight), 'big') for rule in result.file.rules
                     for weight in rule.weights]
            self.assertEqual(found, [bits for place in chosen for bits in rules[place].weights])
            left = [f'constraint {place + 1},' for place in range(len(rules)) if place not in chosen]
            self.assertEqual([' '.join(reason.split()[:2]) for reason in result.left_out], left)

    def test_best(self):
        """By weights, then by the larger template, the smaller x and y, and the earlier rule."""
        self.check()

    def test_best_of_steps_used(self):
        """The same where only the steps that rules name are declared."""
        self.check(used=True)

    def test_more_than_there_are(self):
        """All rules are taken where the number is larger, and none where it is 0."""
        content = in_json(constraint('Init', 'a'), constraint('End', 'b'))
        self.assertEqual(made(content, best=32).file, made(content).file)
        self.assertEqual(made(content, best=2).left_out, ())
        self.assertEqual(made(content, best=0).file.text(), 'step a\nstep b\n')
        self.assertEqual(len(made(content, best=0).left_out), 2)

    def test_best_leaves_out_what_cannot_be_expressed(self):
        """The best are taken of the rules that can be expressed."""
        content = in_json(constraint('Absence', 'a', weights=(1, 1, 1)), constraint('Init', 'a'),
                          constraint('End', 'a', weights=(0.75, 0, 0)))
        result = made(content, best=1, skip=True)
        self.assertEqual(result.file.text(), 'step a\n\nrule End a 0.75 0 0\n')
        self.assertEqual(len(result.left_out), 2)

    def test_best_of_many(self):
        """35 rules over 30 steps: the best, with the steps that they name."""
        names = [f's{number}' for number in range(30)]
        rules = [constraint('Init', name, weights=(number / 64, 0, 0)) for number, name in enumerate(names)]
        content = in_json(*rules, *[constraint('End', 's0')] * 5, tasks=names)
        for options, words in (({}, ['35 rules', '--best 32']), ({'best': 7}, ['30 steps', '--used']),
                               ({'best': 32, 'used': True}, ['28 steps', '--best'])):
            with self.subTest(options):
                with self.assertRaises(BadText) as caught:
                    made(content, **options)
                for word in words:
                    self.assertIn(word, str(caught.exception))
        result = made(content, best=7, used=True)
        self.assertEqual(set(result.file.steps), {'s0', 's28', 's29'})
        self.assertEqual(len(result.file.rules), 7)


class Used(unittest.TestCase):
    """Only the steps that rules name."""

    def test_used(self):
        """Steps that no rule names are not declared; of rules left out neither."""
        content = in_json(constraint('Response', 'b', 'd'), constraint('AtLeast', 'b', '3'), constraint('Absence', 'e'),
                          tasks=['a', 'b', 'c', 'd', 'e'])
        self.assertEqual(made(content, skip=True, used=True).file.steps, ('b', 'd'))
        self.assertEqual(made(content, skip=True).file.steps, ('a', 'b', 'c', 'd', 'e'))

    def test_none_used(self):
        """Without a rule there is no step."""
        with self.assertRaises(BadText) as caught:
            made(in_json(tasks=['a']), used=True)
        self.assertIn('no step', str(caught.exception))

    def test_order(self):
        """Steps stay in the order of the tasks, as docs/FORMAT.md says: ties of rules are decided by it."""
        content = in_json(constraint('Init', 'b'), constraint('Init', 'a'), tasks=['c', 'a', 'b'])
        self.assertEqual(made(content, used=True).file.steps, ('a', 'b'))
        self.assertEqual([int(each.fate) for each in prune(made(content, used=True).file)],
                         [int(each.fate) for each in prune(made(content).file)])


if __name__ == '__main__':
    unittest.main()
