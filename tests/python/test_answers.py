"""What the subcommands answer, for people and for programs."""

import json
import re
import unittest

from calling import CommandTest, INCIDENT, INCIDENT_KEPT, INCIDENT_TABLE, at_terminal, lines_of, rule_field
from support import COMMAND, SAMPLES


def sample_verdicts(name):
    """Number, fate and counts of a sample's rules, from the output of the independent implementation."""
    line = re.compile(r'rule (\d+): (.+), first count (\d+), second count (\d+)')
    found = [line.fullmatch(each) for each in (SAMPLES / f'{name}.out').read_text().splitlines()]
    return [(int(each[1]), each[2], int(each[3]), int(each[4])) for each in found]


SAMPLES_WITH_OUTPUT = sorted(path.stem for path in SAMPLES.glob('*.out'))
#: Calls of every subcommand: those that print, those that fail and those that are wrong.
TYPICAL = [
    ['prune', INCIDENT], ['prune', '--kept', SAMPLES / 'incident.rules'], ['prune', '--json', INCIDENT],
    ['show', SAMPLES / 'calibration.txt', '6'], ['show', '--json', INCIDENT, 'response[expose, arc]'],
    ['state', INCIDENT, '2', '--', 'expose'], ['state', '--json', INCIDENT, '--', 'arc'], ['watch', INCIDENT],
    ['watch', '--json', INCIDENT], ['pack', INCIDENT], ['unpack', '-', '--json'], ['unpack', '-'], ['names', '-'],
    ['names', '--json', INCIDENT], ['import', SAMPLES / 'night.json'], ['import', '--json', SAMPLES / 'night.decl'],
    ['show', INCIDENT, '4'], ['show', '--json', INCIDENT, '4'], ['prune', 'missing'], ['import', '/dev/null'],
    ['state', INCIDENT, '2', '--', 'nothing'], ['pack', 'missing', '--json'], ['--help'], ['import', '-h'], [],
    ['nothing'], ['state', INCIDENT, '2', 'expose'], ['prune', INCIDENT, '--keep'], ['--version'],
]


class ProgramTest(CommandTest):
    def test_same_as_inside(self):
        """The program does what a call in this process does, of which other tests make use."""
        for words in TYPICAL:
            given = INCIDENT.read_bytes() if '-' in words else b'expose arc'
            ran = self.run_program(*words, input=given)
            self.inside = True
            called = self.call(*words, input=given)
            self.inside = False
            self.assertEqual((ran.returncode, ran.stdout), (called.returncode, called.stdout))
            self.assertEqual(ran.stderr, called.stderr)
            self.assertEqual(ran.returncode != 0, ran.stdout == b'')


class PruneTest(CommandTest):
    inside = True

    def test_samples_for_programs(self):
        """--json has the fates and counts of every sample's output, from the packed file."""
        self.assertGreaterEqual(len(SAMPLES_WITH_OUTPUT), 12)
        calls = [(['prune', SAMPLES / f'{name}.rules'], b'') for name in SAMPLES_WITH_OUTPUT]
        for name, printed in zip(SAMPLES_WITH_OUTPUT, self.each(self.json, calls)):
            keys = ('number', 'fate', 'first_count', 'second_count')
            said = [tuple(rule[key] for key in keys) for rule in printed['rules']]
            self.assertEqual(said, sample_verdicts(name), name)

    def test_samples_for_people(self):
        """The table has the same, from the text."""
        shown = {0: '-', 4097: 'over 4096'}
        calls = [(['prune', SAMPLES / f'{name}.txt'], b'') for name in SAMPLES_WITH_OUTPUT]
        for name, printed in zip(SAMPLES_WITH_OUTPUT, self.each(self.text, calls)):
            cells = [re.split(' {2,}', line.strip()) for line in printed.splitlines()[1:]]
            wanted = [[str(number), fate, *(shown.get(count, str(count)) for count in counts)]
                      for number, fate, *counts in sample_verdicts(name)]
            self.assertEqual([[each[0], *each[2:]] for each in cells[:len(wanted)]], wanted, name)

    def test_table(self):
        """The incident as it is printed, with what to do next for a file that has a name."""
        path = 'samples of a night.txt'
        self.write(path, INCIDENT.read_bytes())
        hint = f"next: tullweth show '{path}' 3, tullweth prune '{path}' --kept\n"
        self.assertEqual(self.text('prune', path), INCIDENT_TABLE + hint)
        self.assertEqual(self.text('prune', '-', input=INCIDENT.read_bytes()), INCIDENT_TABLE)

    def test_hint_is_a_command(self):
        """What is said to be next can be pasted into a shell, whatever the file is called."""
        path = "it's $HOME & more.txt"
        self.write(path, INCIDENT.read_bytes())
        hint = self.text('prune', path).splitlines()[-1][len('next: '):]
        shell = f'tullweth() {{ "$command" "$@"; }}; {hint.replace(", tullweth", "; tullweth")}'
        printed = self.text('-c', shell, command='bash', variables={'command': str(COMMAND)})
        self.assertEqual(printed, self.text('show', path, '3') + INCIDENT_KEPT)

    def test_summary(self):
        """Each fate is counted: of all_fates rules 1, 2, 4 and 7 to 15 remain."""
        said = self.text('prune', SAMPLES / 'all_fates.txt')
        self.assertIn('12 of 16 rules remain, 1 conflicting, 1 implied, 1 set aside, 1 dropped\n', said)
        remaining = self.json('prune', SAMPLES / 'all_fates.txt')['remaining']
        self.assertEqual(remaining, [1, 2, 4, *range(7, 16)])

    def test_nothing_goes(self):
        """Where all rules remain nothing is proposed."""
        said = self.text('prune', SAMPLES / 'alternating.txt').splitlines()
        self.assertEqual(said[-1], '2 of 2 rules remain')

    def test_one_rule(self):
        """One rule is no plural. Participation has two standings, alone in both passes."""
        said = self.text('prune', '-', input=b'step a\nrule Participation a 1 1 1\n').splitlines()
        self.assertEqual(re.split(' {2,}', said[1]), ['1', 'Participation(a)', 'kept', '2', '2'])
        self.assertEqual(said[2:], ['1 of 1 rule remains'])

    def test_no_rule(self):
        """A file without rules is accepted everywhere."""
        bare = self.write('bare.txt', b'step a\n')
        for words in (['prune', bare], ['show', bare], ['state', bare, '--', 'a']):
            self.assertEqual(self.text(*words), 'the file has no rule\n')
        self.assertEqual(self.json('prune', bare), {'steps': ['a'], 'rules': [], 'remaining': []})
        self.assertEqual(self.json('show', bare), {'shown': []})
        self.assertEqual(self.text('prune', '--kept', bare), 'step a\n')

    def test_rule_for_programs(self):
        """All that --json says of a rule."""
        said = self.json('prune', INCIDENT)
        self.assertEqual(list(said), ['steps', 'rules', 'remaining'])
        self.assertEqual(said['steps'], ['acquire', 'guide', 'expose', 'arc', 'readout'])
        self.assertEqual(said['rules'][2], {
            'number': 3, 'rule': 'NotSuccession(expose, arc)', 'template': 'NotSuccession', 'x': 'expose', 'y': 'arc',
            'support': 0.25, 'confidence': 0.5, 'interest': 0.5, 'fate': 'conflicting', 'fate_number': 1,
            'remains': False, 'first_count': 4, 'second_count': 0})
        self.assertEqual(said['remaining'], [1, 2])

    def test_count_for_programs(self):
        """A rule that counts has a count and no y."""
        rule = self.json('prune', SAMPLES / 'calibration.txt')['rules'][2]
        self.assertEqual((rule['rule'], rule['x'], rule['count']), ('AtLeast(flat, 3)', 'flat', 3))
        self.assertNotIn('y', rule)

    def test_kept_in_the_form_of_the_file(self):
        """--kept writes text for text, and the first two rules' bytes for the rule file."""
        self.assertEqual(self.text('prune', '--kept', INCIDENT), INCIDENT_KEPT)
        packed = (SAMPLES / 'incident.rules').read_bytes()
        self.assertEqual(self.answer('prune', SAMPLES / 'incident.rules', '--kept'), packed[:0x4F])

    def test_kept_for_programs(self):
        """--kept --json has the file in every form."""
        said = self.json('prune', '--kept', INCIDENT)
        self.assertEqual(list(said), ['steps', 'rules', 'text', 'hex'])
        self.assertEqual([each['number'] for each in said['rules']], [1, 2])
        self.assertEqual(said['text'], INCIDENT_KEPT)
        self.assertEqual(bytes.fromhex(said['hex']), (SAMPLES / 'incident.rules').read_bytes()[:0x4F])

    def test_kept_is_all_kept(self):
        """Pruning what remains of the calibration takes nothing more away: rules 2, 3, 4, 7 and 9 are needed."""
        kept = self.answer('prune', '--kept', SAMPLES / 'calibration.txt')
        said = self.json('prune', '-', input=kept)
        self.assertEqual([each['fate'] for each in said['rules']], ['kept'] * 5)

    def test_written_to_a_file(self):
        """-o takes the table, the kept rules and JSON."""
        out = self.folder / 'out'
        for words in ([], ['--kept'], ['--json'], ['--kept', '--json']):
            printed = self.answer('prune', INCIDENT, *words)
            self.assertEqual(self.answer('prune', INCIDENT, *words, '-o', out), b'')
            self.assertEqual(out.read_bytes(), printed)


class ShowTest(CommandTest):
    inside = True

    def test_all_rules(self):
        """Without a rule, those of all rules."""
        self.assertEqual(self.text('show', INCIDENT).splitlines(), [
            '1 Participation(expose): kept', '  satisfying: expose', '  violating:  the empty sequence',
            '2 Response(expose, arc): kept', '  satisfying: expose arc', '  violating:  expose',
            '3 NotSuccession(expose, arc): conflicting', '  satisfying: none', '  violating:  expose arc'])

    def test_joint_standings(self):
        """The numbers that docs/FORMAT.md works out for the incident."""
        shown = self.json('show', INCIDENT)['shown']
        pairs = [[each[which] and each[which]['standing'] for which in ('satisfying', 'violating')] for each in shown]
        self.assertEqual(pairs, [[['0x1', '0x0'], ['0x0', '0x0']], [['0x1', '0x0'], ['0x11', '0x0']],
                                 [None, ['0x201', '0x0']]])

    def test_for_programs(self):
        """All that --json says of a rule."""
        self.assertEqual(self.json('show', INCIDENT, '3'), {'shown': [{
            'number': 3, 'rule': 'NotSuccession(expose, arc)', 'satisfying': None,
            'violating': {'steps': ['expose', 'arc'], 'standing': ['0x201', '0x0']},
            'fate': 'conflicting', 'fate_number': 1}]})

    def test_numbers_of_64_bits(self):
        """Standings of later rules, and a long sequence: rule 20 of counting."""
        shown = self.json('show', SAMPLES / 'counting.rules', '20')['shown'][0]['satisfying']
        self.assertEqual(len(shown['steps']), 38)
        self.assertEqual(shown['standing'], ['0x18E1000000000000', '0xE51E'])

    def test_conflict_of_counts(self):
        """At most two flats conflicts with at least three: the shortest that satisfies the better rules has three."""
        said = self.text('show', SAMPLES / 'calibration.txt', '6').splitlines()
        self.assertEqual(said, ['6 AtMost(flat, 2): conflicting', '  satisfying: none',
                                '  violating:  flat flat flat sky'])

    def test_set_aside(self):
        """A rule that was not decided shows neither."""
        said = self.text('show', SAMPLES / 'all_fates.txt', '16').splitlines()
        self.assertEqual(said, ['16 End(park): set aside', '  satisfying: none', '  violating:  none'])

    def test_implied(self):
        """An implied rule has no violating sequence."""
        shown = self.json('show', SAMPLES / 'calibration.txt', 'Choice(sky, lamp)')['shown'][0]
        self.assertEqual((shown['number'], shown['fate'], shown['violating']), (5, 'implied', None))


#: Declared steps, rule, run, value and relevant steps: the cases of docs/FORMAT.md, of which most are proved.
STATES = [
    ('d e m', 'Response e m', 'd m e m m e e m', 'temporarily satisfied', 4),
    ('e m', 'Precedence e m', 'e m e m', 'permanently satisfied', 1),
    ('a b', 'Init a', '', 'temporarily violated', 0),
    ('a b', 'AtMostOne a', '', 'temporarily satisfied', 0),
    ('a', 'End a', 'a', 'permanently satisfied', 1),
    ('a b', 'End a', 'a', 'temporarily satisfied', 1),
    ('a b', 'ChainPrecedence a b', 'b', 'permanently violated', 1),
    ('a b', 'AlternatePrecedence a b', 'a b a b', 'temporarily satisfied', 4),
    ('a b c', 'AlternatePrecedence a b', 'a c b c b a', 'permanently violated', 3),
]


class StateTest(CommandTest):
    inside = True

    def test_cases(self):
        """Values and relevant steps of the cases."""
        values = ['temporarily satisfied', 'temporarily violated', 'permanently satisfied', 'permanently violated']
        for steps, rule, run, value, relevant in STATES:
            with self.subTest(rule=rule, run=run):
                form = lines_of(*(f'step {name}' for name in steps.split()), f'rule {rule} 1 1 1')
                said = self.json('state', '-', '1', input=form) if not run else json.loads(
                    self.answer('state', '-', '1', '--json', '--', *run.split(), input=form))
                self.assertEqual(said['run'], run.split())
                state = said['states'][0]
                self.assertEqual((state['value'], state['relevant']), (value, relevant))
                self.assertEqual(state['value_number'], values.index(value))
                self.assertEqual(state['satisfied'], value.endswith('satisfied'))

    def test_one_rule(self):
        """One line, with the words of one relevant step and of several."""
        said = self.text('state', INCIDENT, '2', '--', 'expose', 'arc', 'expose')
        self.assertEqual(said, '2  Response(expose, arc)  temporarily violated  3 relevant steps\n')
        said = self.text('state', SAMPLES / 'alternating.txt', '2', '--', 'slew', 'acquire', 'slew')
        self.assertEqual(said, '2  AtMost(slew, 2)  temporarily satisfied  1 relevant step\n')

    def test_all_rules(self):
        """Without a rule, a table of all rules."""
        self.assertEqual(self.text('state', INCIDENT, '--', 'expose', 'arc').splitlines(), [
            '1  Participation(expose)       permanently satisfied  1 relevant step',
            '2  Response(expose, arc)       temporarily satisfied  2 relevant steps',
            '3  NotSuccession(expose, arc)  permanently violated   2 relevant steps'])

    def test_empty_run(self):
        """Nothing after --, and no -- at all, are the empty run."""
        said = self.text('state', INCIDENT, '1', '--')
        self.assertEqual(said, '1  Participation(expose)  temporarily violated  0 relevant steps\n')
        self.assertEqual(self.text('state', INCIDENT, '1'), said)

    def test_for_programs(self):
        """All that --json says."""
        self.assertEqual(json.loads(self.answer('state', '--json', INCIDENT, '2', '--', 'expose')), {
            'run': ['expose'], 'states': [{
                'number': 2, 'rule': 'Response(expose, arc)', 'value': 'temporarily violated', 'value_number': 1,
                'satisfied': False, 'relevant': 1}]})

    def test_steps_like_options(self):
        """What follows -- is a step, whatever it looks like, another -- too."""
        form = b'step --json\nstep --\nrule Response --json -- 1 1 1\n'
        said = self.text('state', '-', '--', '--json', '--', '--json', input=form)
        self.assertEqual(said, '1  Response(--json, --)  temporarily violated  3 relevant steps\n')

    def test_long_run(self):
        """Ten thousand steps."""
        said = self.text('state', INCIDENT, '2', '--', *['expose', 'arc'] * 5000)
        self.assertEqual(said, '2  Response(expose, arc)  temporarily satisfied  10000 relevant steps\n')


class RuleTest(CommandTest):
    inside = True

    def test_spellings(self):
        """A rule by its number and by text, as it is printed and in other spellings."""
        spellings = {
            1: ['1', '01', 'Participation(expose)', 'existence(expose)', 'At Least One[expose]', 'existence1 expose'],
            2: ['2', 'Response(expose, arc)', 'RESPONSE[expose,arc]', ' response  expose\tarc ',
                'Response("expose",arc)'],
            3: ['3', 'not succession(expose, arc)', 'Not-Response( expose , arc )', 'NOT_PRECEDENCE expose arc'],
        }
        asked = [(number, word) for number, words in spellings.items() for word in words]
        said = self.each(self.json, [(['show', INCIDENT, word], b'') for _, word in asked])
        for (number, word), answer in zip(asked, said):
            self.assertEqual([each['number'] for each in answer['shown']], [number], word)

    def test_state_by_text(self):
        """The monitor takes the same."""
        by_text = self.text('state', INCIDENT, 'response(expose,arc)', '--', 'expose')
        self.assertEqual(by_text, self.text('state', INCIDENT, '2', '--', 'expose'))

    def test_equal_rules(self):
        """Text asks for all rules that are written so: rules 1 and 3 of mined."""
        mined = SAMPLES / 'mined.txt'
        shown = self.json('show', mined, 'Response(expose, arc)')['shown']
        self.assertEqual([(each['number'], each['fate']) for each in shown], [(1, 'kept'), (3, 'implied')])
        states = self.text('state', mined, 'Response expose arc', '--', 'expose').splitlines()
        self.assertEqual([line.split()[0] for line in states], ['1', '3'])

    def test_counts(self):
        """Rules that count, with the count in brackets, in the name, or after it."""
        for word in ('AtLeast(flat, 3)', 'Existence3(flat)', 'at least flat 3'):
            shown = self.json('show', SAMPLES / 'calibration.txt', word)['shown']
            self.assertEqual([each['number'] for each in shown], [3], word)

    def test_quoted_names(self):
        """A rule is printed so that it can be asked for as it is printed."""
        form = lines_of('step "a,b"', 'step "#c\\"d"', 'rule Response "a,b" "#c\\"d" 1 1 1')
        printed = self.json('show', '-', input=form)['shown'][0]['rule']
        self.assertEqual(printed, 'Response("a,b", "#c\\"d")')
        self.assertEqual(self.json('show', '-', printed, input=form)['shown'][0]['number'], 1)

    def test_no_such_number(self):
        """A number of no rule is refused by 14, with the last one that there is."""
        for number in ('0', '4', '4294967298', '18446744073709551618'):
            for words in (['show', INCIDENT, number], ['state', INCIDENT, number, '--', 'nothing']):
                message = self.failure(*words)
                self.assertHas(message, INCIDENT, 'refused 14: there is no such rule', f'rule {number}', '3')
        said = self.json_failure('show', '--json', INCIDENT, '4')
        self.assertEqual((said['refused'], said['meaning']), (14, 'there is no such rule'))

    def test_number_of_many_digits(self):
        """A number of any length is one of no rule."""
        for words in (['show', INCIDENT, '1' * 5000], ['state', INCIDENT, '1' * 5000, '--', 'expose']):
            self.assertIn('refused 14: there is no such rule', self.failure(*words))

    def test_no_such_rule(self):
        """A rule that the file lacks is named as it is printed."""
        for word in ('Response(arc, expose)', 'response arc expose'):
            self.assertHas(self.failure('show', INCIDENT, word), INCIDENT, 'Response(arc, expose)')
        error = self.json_failure('show', INCIDENT, 'response[arc,expose]', '--json')
        self.assertHas(error['message'], INCIDENT, 'Response(arc, expose)')

    def test_hint_has_no_weights(self):
        """A rule that is asked for has no weights, and is none of the numbers of the file."""
        said = self.failure('show', INCIDENT, 'Response')
        self.assertTrue(said.endswith("'Response' is neither the number of a rule nor a rule: write: Response X Y"))
        said = self.failure('show', INCIDENT, 'AtLeast(expose, 15)')
        self.assertTrue(said.endswith('the count of a rule is not from 1 to 14: AtLeast: count 15'), said)
        self.assertTrue(self.failure('show', INCIDENT, ' ').endswith("' ' is neither the number of a rule nor a rule"))

    def test_no_rule_at_all(self):
        """What is neither a number nor a rule is said with the word that is wrong."""
        wrong = {
            'Respons(expose, arc)': 'Response', 'Response(expose, arcs)': "'arcs'", 'Response(expose': "')'",
            'Response(expose, expose)': 'expose', 'AtMost(arc, 15)': '15', '-1': '-1', '1x': '1x', '0x1': '0x1',
            '': "''", 'Response({expose,arc}, arc)': '{', '²': '²', 'Response(expose,\narc,)': 'Response',
        }
        messages = self.each(self.failure, [(['show', INCIDENT, word], b'') for word in wrong])
        for part, message in zip(wrong.values(), messages):
            self.assertHas(message, INCIDENT, part)


class FormsTest(CommandTest):
    inside = True

    def test_samples_are_packed(self):
        """pack writes the rule file of every sample, byte by byte."""
        samples = sorted(SAMPLES.glob('*.rules'))
        self.assertGreaterEqual(len(samples), 13)
        packed = self.each(self.answer, [(['pack', path.with_suffix('.txt')], b'') for path in samples])
        self.assertEqual(packed, [path.read_bytes() for path in samples])

    def test_unpack(self):
        """unpack writes one spelling, whatever the text was; both are taken in either form."""
        form = lines_of('STEP a', '', 'Step "b" # x', 'rule not_co-existence[ b , a ] 0x3F400000 .5 1e0',
                        'rule existence3 a 0 0 0')
        wanted = 'step a\nstep b\n\nrule NotCoExistence b a 0.75 0.5 1\nrule AtLeast a 3 0 0 0\n'
        self.assertEqual(self.text('unpack', '-', input=form), wanted)
        packed = self.answer('pack', '-', input=form)
        self.assertEqual(self.answer('pack', '-', input=packed), packed)
        self.assertEqual(self.text('unpack', '-', input=packed), wanted)

    def test_packed_bytes(self):
        """The bytes of counts and of templates 19 to 23, written by hand."""
        rules = ['AtLeast a 1', 'AtMost b 14', 'Exactly a 01', 'Choice a b', 'ExclusiveChoice b a']
        form = lines_of('step a', 'step b', *(f'rule {rule} 0 0 0' for rule in rules))
        fields = [(19, 0, 1), (20, 1, 14), (21, 0, 1), (22, 0, 1), (23, 1, 0)]
        wanted = b'S\0\1aS\0\1b' + b''.join(rule_field(*field) for field in fields)
        self.assertEqual(self.answer('pack', '-', input=form), wanted)

    def test_round_trip_of_bits(self):
        """Weights that differ in their last bit stay as they are: those of subnormal and of the reversed incident."""
        for name in ('subnormal', 'incident_reversed', 'worst'):
            packed = (SAMPLES / f'{name}.rules').read_bytes()
            self.assertEqual(self.answer('pack', '-', input=self.answer('unpack', SAMPLES / f'{name}.rules')), packed)

    def test_for_programs(self):
        """pack and unpack say the same with --json: steps, rules, text and bytes."""
        said = self.json('pack', INCIDENT)
        self.assertEqual(self.json('unpack', SAMPLES / 'incident.rules'), said)
        self.assertEqual(list(said), ['steps', 'rules', 'text', 'hex'])
        self.assertEqual(bytes.fromhex(said['hex']), (SAMPLES / 'incident.rules').read_bytes())
        self.assertEqual(said['rules'][1], {
            'number': 2, 'rule': 'Response(expose, arc)', 'template': 'Response', 'x': 'expose', 'y': 'arc',
            'support': 0.5, 'confidence': 0.75, 'interest': 0.5})

    def test_names(self):
        """The steps with their numbers from 0."""
        self.assertEqual(self.text('names', INCIDENT), '0  acquire\n1  guide\n2  expose\n3  arc\n4  readout\n')
        self.assertEqual(self.json('names', INCIDENT), {'steps': ['acquire', 'guide', 'expose', 'arc', 'readout']})
        names = self.text('names', SAMPLES / 'worst.rules').splitlines()
        self.assertEqual((len(names), names[9][:4], names[10][:4]), (24, ' 9  ', '10  '))

    def test_told_by_content(self):
        """The name of a file says nothing about its form."""
        packed = self.write('packed.txt', (SAMPLES / 'incident.rules').read_bytes())
        form = self.write('form.rules', INCIDENT.read_bytes())
        for words in (['names'], ['unpack'], ['show'], ['state'], ['pack']):
            self.assertEqual(self.answer(*words, packed), self.answer(*words, form))
        self.assertEqual(self.answer('prune', '--kept', packed)[:1], b'S')
        self.assertEqual(self.answer('prune', '--kept', form)[:5], b'step ')

    def test_standard_input(self):
        """'-' is standard input, in both forms, for each that reads no steps from there."""
        calls = [['prune', '-', '--json'], ['show', '-'], ['state', '-', '2', '--', 'expose'], ['pack', '-'],
                 ['unpack', '-'], ['names', '-']]
        for words in calls:
            named = self.answer(*(INCIDENT if word == '-' else word for word in words))
            for path in (INCIDENT, SAMPLES / 'incident.rules'):
                self.assertEqual(self.answer(*words, input=path.read_bytes()), named, words)

    def test_slow_pipe(self):
        """A file that comes in parts is read whole."""
        shell = '{ head -c 50 "$1"; sleep 0.2; tail -c +51 "$1"; } | "$0" names -'
        said = self.text('-c', shell, COMMAND, SAMPLES / 'incident.rules', command='bash')
        self.assertEqual(said, self.text('names', INCIDENT))

    def test_ends_of_lines(self):
        """Lines may end as other systems end them, the last one not at all, and a byte order mark may lead."""
        for ending in (b'\r\n', b'\r', b'\n'):
            form = b'\xef\xbb\xbf' + ending.join([b'# ', b'step a', b'', b'rule Init a 1 1 1'])
            self.assertEqual(self.text('unpack', '-', input=form), 'step a\n\nrule Init a 1 1 1\n')

    def test_pack_at_a_terminal(self):
        """A rule file is not written to a terminal; a text is."""
        status, printed = at_terminal(['pack', str(INCIDENT)])
        self.assertEqual(status, 1)
        self.assertHas(printed, 'tullweth: ', '-o OUT')
        self.assertNotIn('\0', printed)
        status, printed = at_terminal(['unpack', str(SAMPLES / 'incident.rules')])
        self.assertEqual((status, printed.split('\r\n')[0]), (0, 'step acquire'))


def constraint(template, *steps, weights=(0.5, 0.25, 0.125), **more):
    """A constraint as MINERful writes it."""
    names = ('support', 'confidence', 'interestFactor')
    return {'template': template, 'parameters': [[step] for step in steps], **dict(zip(names, weights)), **more}


def model(*constraints, tasks=('expose', 'arc lamp', 'flat')):
    """A JSON model."""
    return json.dumps({'name': 'a night', 'tasks': list(tasks), 'constraints': list(constraints)}).encode()


DECL = lines_of('activity expose', 'activity arc lamp', 'bind expose: seconds', 'seconds: integer between 1 and 9',
                'Response[expose, arc lamp] | | |', 'Existence3[expose] | |')


class ImportTest(CommandTest):
    inside = True

    def test_json(self):
        """Steps in order, rules with their weights, a name that cannot stay changed and said."""
        content = model(constraint('Response', 'expose', 'arc lamp'), constraint('AtLeast2', 'flat', weights=(1, 1, 0)))
        self.assertEqual(self.text('import', '-', input=content), '''\
# arc_lamp was arc lamp
step expose
step arc_lamp
step flat

rule Response expose arc_lamp 0.5 0.25 0.125
rule AtLeast flat 2 1 1 0
''')

    def test_decl(self):
        """A .decl file, whatever it is called; its rules have the weights 1 unless others are given."""
        path = self.write('night.json', DECL)
        wanted = ('# arc_lamp was arc lamp\nstep expose\nstep arc_lamp\n\n'
                  'rule Response expose arc_lamp {0}\nrule AtLeast expose 3 {0}\n')
        self.assertEqual(self.text('import', path), wanted.format('1 1 1'))
        self.assertEqual(self.text('import', path, '--weights', '0.5', '0', '1'), wanted.format('0.5 0 1'))

    def test_is_a_text_form(self):
        """What is written is taken by the other subcommands: both rules are needed."""
        made = self.folder / 'night.txt'
        self.assertEqual(self.answer('import', '-', '-o', made, input=DECL), b'')
        self.assertEqual(self.json('prune', made)['remaining'], [1, 2])

    def test_for_programs(self):
        """All that --json says."""
        content = model(constraint('Init', 'arc lamp'), constraint('Nothing', 'flat'))
        said = self.json('import', '-', '--skip', input=content)
        self.assertEqual(list(said), ['steps', 'rules', 'renamed', 'left_out', 'text'])
        self.assertEqual((said['steps'], said['renamed']), (['expose', 'arc_lamp', 'flat'], {'arc lamp': 'arc_lamp'}))
        self.assertEqual([each['rule'] for each in said['rules']], ['Init(arc_lamp)'])
        self.assertEqual(len(said['left_out']), 1)
        self.assertHas(said['left_out'][0], 'constraint 2', 'Nothing(flat)')
        self.assertEqual(said['text'], self.text('import', '-', '--skip', input=content))

    def test_skip(self):
        """A rule that cannot be expressed is named and ends it; with --skip it is left out and said."""
        content = model(constraint('Init', 'flat'), constraint('Nothing', 'flat'), constraint('Absence', 'flat'))
        self.assertHas(self.failure('import', '-', input=content), 'constraint 2', 'Nothing(flat)', '1 more', '--skip')
        lines = self.text('import', '--skip', '-', input=content).splitlines()
        self.assertEqual([line[:10] for line in lines if 'left out' in line], ['# left out'] * 2)
        self.assertEqual([line for line in lines if line.startswith('rule')], ['rule Init flat 0.5 0.25 0.125'])

    def test_best(self):
        """--best takes the best by rank, in the order of the model, and says which stay behind."""
        rules = [constraint('Init', 'flat', weights=(0.5, 1, 1)), constraint('Init', 'expose', weights=(0.75, 0, 0)),
                 constraint('End', 'flat', weights=(0.5, 1, 1)), constraint('End', 'expose', weights=(0.5, 0.5, 1))]
        taken = {1: ['Init(expose)'], 2: ['Init(expose)', 'End(flat)'], 3: ['Init(flat)', 'Init(expose)', 'End(flat)']}
        for best, wanted in taken.items():
            said = self.json('import', '-', '--best', str(best), input=model(*rules))
            self.assertEqual([each['rule'] for each in said['rules']], wanted)
            self.assertEqual(len(said['left_out']), 4 - best)

    def test_too_large(self):
        """A model over the limits is told how to come within them."""
        many = [constraint('Participation', f'step{n}', weights=(n / 64, 1, 1)) for n in range(40)]
        content = model(*many, tasks=[])
        self.assertHas(self.failure('import', '-', input=content), '40 rules', '--best 32')
        self.assertHas(self.failure('import', '-', '--best', '20', input=content), '40 steps', '--used')
        said = self.json('import', '-', '--best', '20', '--used', input=content)
        self.assertEqual(said['steps'], [f'step{n}' for n in range(20, 40)])

    def test_weights(self):
        """A rule without weights is said, unless they are given; those that it has stay."""
        bare = {'template': 'Init', 'parameters': ['flat'], 'support': 0.5}
        self.assertHas(self.failure('import', '-', input=model(bare)), 'constraint 1', 'confidence', '--weights')
        said = self.json('import', '-', '--weights', '1', '0.75', '0.25', input=model(bare))['rules'][0]
        self.assertEqual((said['support'], said['confidence'], said['interest']), (0.5, 0.75, 0.25))

    def test_bad_models(self):
        """What is no model is said with its place."""
        bad = {
            b'': 'no activity', b'{': 'line 1', b'{\n\n]': 'line 3', b'[]': 'line 1', b'{}': 'constraints',
            b'\xff': 'line 1', b'{"constraints": [1]}': 'constraint 1', b'{"constraints": []}': 'no step',
            b'activity a\nnothing\n': 'line 2', model({'template': 'Init', 'parameters': 'flat'}): 'constraint 1',
            model(constraint('Init', 'flat', weights=(2, 0, 0))): 'support', b'{"a":' * 100000: 'deep',
            model(constraint('Init', 'flat', weights=(float('nan'), 0, 0))): 'support',
            model(constraint('Response', 'flat', 'flat')): 'constraint 1',
            (SAMPLES / 'incident.rules').read_bytes(): 'line 1',
        }
        messages = self.each(self.failure, [(['import', '-'], content) for content in bad])
        for part, message in zip(bad.values(), messages):
            self.assertHas(message, 'standard input', part)

    def test_long_number(self):
        """A JSON number of any length is read or said to be wrong."""
        content = b'{"tasks": ["a"], "constraints": [], "x": ' + b'1' * 5000 + b'}'
        done = self.call('import', '-', input=content)
        self.assertIn((done.returncode, done.stdout), [(0, b'step a\n'), (1, b'')])


if __name__ == '__main__':
    unittest.main()
