"""The text form: what is wrong with a text and on which line, and all the spellings that are taken."""

import json
import re
import time
import unittest

from support import TEMPLATE_NAMES, call_command, run_command
from tullweth import BadText, Refused, RuleFile

STEPS = 'step expose\nstep arc\nstep flat\n'
LETTERS = 'abcdefghijklmnopqrstuvwxyz'


def rule(words):
    """A text of three steps with this rule on line 4."""
    return f'{STEPS}rule {words}\n'


def refusal(number, meaning):
    """What a message says of a refusal, in the words of include/tullweth_text.h."""
    return rf'refused {number}: {meaning}'


BAD_NAME = refusal(6, 'a name is not of 1 to 16 visible characters')
BAD_COUNT = refusal(17, 'the count of a rule is not from 1 to 14')
BAD_WEIGHT = refusal(12, 'a weight is not from 0 to 1')
WEIGHTS_WANTED = 'SUPPORT CONFIDENCE INTEREST'

# (what is tested, text, line of the fault, what the message has to contain as regular expressions)
TEMPLATES = [
    ('a misspelled template', rule('Respose expose arc 1 1 1'), 4, ["'Respose'", r'nearest is Response\b']),
    ('a misspelled longer one', rule('ChainPrecedense expose arc 1 1 1'), 4, [r'nearest is ChainPrecedence\b']),
    ('misspelled before brackets', rule('Sucession(expose, arc) 1 1 1'), 4, ["'Sucession'", 'is Succession']),
    ('misspelled in two words', rule('Chain Respons(expose, arc) 1 1 1'), 4, ['Chain Respons', 'is ChainResponse']),
    ('misspelled in capitals', rule('PARTICIPATON expose 1 1 1'), 4, ["'PARTICIPATON'", 'is Participation']),
    ('a number for a template', rule('6 expose arc 1 1 1'), 4, ["'6' is no template"]),
    ('no template', rule(''), 4, ['template']),
    ('no template before brackets', rule('(expose, arc) 1 1 1'), 4, ['template']),
    ('a comment for a template', rule('# Response expose arc 1 1 1'), 4, ['template']),
    ('a template that cannot be expressed', rule('Absence flat 1 1 1'), 4, ["'Absence'", 'never', 'no template']),
    ('the same with 1', rule('Absence1(flat) 1 1 1'), 4, ["'Absence1'", 'never']),
    ('the same with 0', rule('absence 0(flat) 1 1 1'), 4, ["'absence 0'", 'never']),
    ('a count of four digits in a name', rule('Existence1000 flat 1 1 1'), 4, ["'Existence1000'"]),
]
NOT_DECLARED = [
    ('x is not declared', rule('Response expos arc 1 1 1'), 4, ["'expos'", 'not declared', r'nearest is expose\b']),
    ('y is not declared', rule('Response(expose, flatt) 1 1 1'), 4, ["'flatt'", 'not declared', r'nearest is flat\b']),
    ('case counts in names', rule('Participation Expose 1 1 1'), 4, ["'Expose'", r'nearest is expose\b']),
    ('a name like no other', rule('Participation zzzz 1 1 1'), 4, ["'zzzz' is not declared"]),
    ('a rule before its step', 'rule Init expose 1 1 1\nstep expose\n', 1, ["'expose' is not declared above"]),
    ('no step at all', 'rule Init a 1 1 1\n', 1, ["'a' is not declared above"]),
]
NUMBER_OF_WORDS = [
    ('a weight missing', rule('Response expose arc 0.5 0.5'), 4, ['rule Response X Y ' + WEIGHTS_WANTED]),
    ('y missing', rule('Response expose 0.5 0.5 0.5'), 4, ['rule Response X Y ' + WEIGHTS_WANTED]),
    ('a weight too many', rule('Init expose 1 1 1 1'), 4, ['rule Init X ' + WEIGHTS_WANTED]),
    ('a y too many', rule('Init expose arc 1 1 1'), 4, ['rule Init X ' + WEIGHTS_WANTED]),
    ('a y too many in brackets', rule('Init(expose, arc) 1 1 1'), 4, ['rule Init X ' + WEIGHTS_WANTED]),
    ('the count missing', rule('AtLeast flat 1 1 1'), 4, ['rule AtLeast X COUNT ' + WEIGHTS_WANTED]),
    ('weights in the brackets', rule('Response(expose, arc, 1, 1, 1)'), 4, ['rule Response X Y ' + WEIGHTS_WANTED]),
    ('nothing in the brackets', rule('Response() 1 1 1'), 4, ['rule Response X Y ' + WEIGHTS_WANTED]),
    ('a template alone', rule('Response'), 4, ['rule Response X Y ' + WEIGHTS_WANTED]),
    ('a step without a name', 'step a\nstep\n', 2, ['step NAME']),
    ('a step with two names', 'step a b\n', 1, ['step NAME']),
    ('a name that goes on after quotes', 'step "a"b\n', 1, ['step NAME']),
    ('neither word', STEPS + 'stage expose\n', 4, ["'step'", "'rule'", "'stage'"]),
    ('the words joined', STEPS + 'stepflat\n', 4, ["'step'", "'rule'", "'stepflat'"]),
    ('the word in quotes', '"step" a\n', 1, ["'step'", "'rule'"]),
    ('JSON', '{"constraints": []}\n', 1, ["'step'", "'rule'"]),
    ('a comma first', ', step a\n', 1, ["'step'", "'rule'", "','"]),
]


def weight_rows():
    """Each bad weight as support, confidence or interest in turn: no number, or one that is refused."""
    no_number = ['nan', 'NaN', 'inf', '-inf', 'infinity', '1_0', '75%', '""', '0x123', '0x3F80000G', '0x03F800000', '½',
                 '0b1', '1e', '.', '+', 'one', '٠.٥', '1.0.0', '--1', '1e5.5', '0.5f']
    too_large = ['1e39', '-1e39', '1e400', '1' * 400]
    refused = ['-0.1', '2', '3e38', '-0', '-0.0', '-1e-60', '0x3F800001', '0x80000000',
               '0x7FC00000', '0xFFFFFFFF', '1.0000001', *too_large]
    for place, word in enumerate(no_number + refused):
        weights = ['0.5', '0.5', '0.5']
        weights[place % 3] = word
        name = ('support', 'confidence', 'interest')[place % 3]
        if word in refused:
            words = [BAD_WEIGHT, name] if word not in too_large else ['from 0 to 1']
        else:
            words = [re.escape(f"'{word}'".replace('"', '')), 'no weight']
        yield f'the {name} {word[:20]}', rule(f'Response expose arc {" ".join(weights)}'), 4, words


def count_rows():
    """Bad counts, as a word and in the name."""
    for word in ('0', '15', '99', '255'):
        yield f'the count {word}', rule(f'AtLeast flat {word} 1 1 1'), 4, [BAD_COUNT, rf'\b{word}\b']
    for word in ('256', '-1', '1.5', 'expose', '3x', '1e1', '1000', '+1', '٣', '0x3'):
        yield f'the count {word}', rule(f'Exactly(flat, {word}) 1 1 1'), 4, [re.escape(f"'{word}'"), 'count', '1 to 14']
    for name, count in (('Existence0', 0), ('AtMost15', 15), ('Exactly 0', 0), ('Absence16', 15)):
        yield f'the count of {name}', rule(f'{name}(flat) 1 1 1'), 4, [BAD_COUNT, rf'\b{count}\b']
    yield 'a count in the name that fits no byte', rule('AtMost999 flat 1 1 1'), 4, ['999', 'count', '1 to 14']


NAMES = [
    ('a name of 17 characters', f'step a\nstep {LETTERS[:17]}\n', 2, [BAD_NAME, LETTERS[:17], '17']),
    ('a name that fits no field', f'step a\nstep {"a" * 65536}\n', 2, ['name', '16']),
    ('a comma without quotes', 'step a,b\n', 1, ["','", 'quotes']),
    ('brackets without quotes', 'step a\nstep flat(1)\n', 2, [r"'\('", 'quotes']),
    ('a set for a step', 'step {a,b}\n', 1, ["'{'", 'quotes']),
    ('quotes that do not end', 'step "abc\n', 1, ['quotes']),
    ('quotes that end after a backslash', 'step "abc\\"\n', 1, ['quotes']),
    ('a quote in a word', 'step ab"c\n', 1, ['quotes']),
    ('quotes that do not end in a rule', rule('Response "expose arc 1 1 1'), 4, ['quotes']),
    ('a letter that is not ASCII', 'step café\n', 1, [BAD_NAME, 'café']),
    ('bytes that are not UTF-8', b'step a\nstep b\xff\n', 2, [BAD_NAME]),
    ('empty quotes', 'step a\nstep ""\n', 2, [BAD_NAME]),
    ('a space in quotes', 'step "a b"\n', 1, [BAD_NAME, 'a b']),
    ('a tab in quotes', 'step "a\tb"\n', 1, [BAD_NAME]),
    ('the character 7F', 'step a\x7f\n', 1, [BAD_NAME]),
    ('a control character', 'step a\x01\n', 1, [BAD_NAME]),
    ('a line separator of Unicode', 'step "a\u2028b"\n', 1, [BAD_NAME]),
    ('a name twice', 'step a\nstep b\nstep a\n', 3, [refusal(7, 'two steps have one name'), "'a'"]),
    ('a name twice, once in quotes', 'step a\nstep "a"\n', 2, [refusal(7, 'two steps have one name'), "'a'"]),
]
LIMITS = [
    ('a 25th step', ''.join(f'step {c}\n' for c in LETTERS[:25]), 25, [refusal(5, 'there are more than 24 steps')]),
    ('a 33rd rule', 'step a\n' + 'rule Init a 1 1 1\n' * 33, 34, [refusal(8, 'there are more than 32 rules')]),
    ('a step after a rule', rule('Init flat 1 1 1') + '\nstep dark\n', 6,
     [refusal(4, 'a step comes after a rule'), "'dark'"]),
    ('x = y', rule('Response flat flat 1 1 1'), 4,
     [refusal(11, 'the steps of a rule do not fit its template'), "'flat'"]),
]
BRACKETS = [
    ('a bracket not closed', rule('Response(expose, arc 1 1 1'), 4, [r"'\('", r"'\)'"]),
    ('a square bracket not closed', rule('Response[expose, arc 1 1 1'), 4, [r"'\['", r"'\]'"]),
    ('( closed by ]', rule('Response(expose, arc] 1 1 1'), 4, [r"'\('", r"'\)'"]),
    ('[ closed by )', rule('Response[expose, arc) 1 1 1'), 4, [r"'\['", r"'\]'"]),
    ('a bracket not opened', rule('Response expose arc) 1 1 1'), 4, [r"'\)'"]),
    ('brackets twice', rule('Response((expose, arc)) 1 1 1'), 4, [r"'\('|'\)'"]),
    ('brackets about one of two', rule('Response (expose) arc 1 1 1'), 4, ['rule Response X Y ' + WEIGHTS_WANTED]),
    ('a comma without brackets', rule('Response expose, arc 1 1 1'), 4, ["','"]),
    ('a comma between weights', rule('Response(expose, arc) 1, 1, 1'), 4, ["','"]),
    ('a comma for a point', rule('Response expose arc 1,5 1 1'), 4, ["','"]),
    ('two commas', rule('Response(expose,, arc) 1 1 1'), 4, ["','"]),
    ('a comma first', rule('Response(,expose, arc) 1 1 1'), 4, ["','"]),
    ('a comma last', rule('Response(expose, arc,) 1 1 1'), 4, ["','"]),
    ('a comma for a step', rule('Response(expose, ,) 1 1 1'), 4, ["','"]),
    ('a set', rule('Response expose {arc,flat} 1 1 1'), 4, ['[Ss]et']),
    ('a set in brackets', rule('Response(expose, {arc, flat}) 1 1 1'), 4, ['[Ss]et']),
    ('a set of one', rule('Precedence({arc}, flat) 1 1 1'), 4, ['[Ss]et']),
]
WHOLE_TEXTS = [
    ('a NUL byte', 'step abc\nstep d\0e\n', 2, ['NUL']),
    ('a NUL byte in a comment', 'step abc\n\n# a\0b\n', 3, ['NUL']),
    ('UTF-16, low byte first', b'\xff\xfe' + 'step a\n'.encode('utf-16-le'), 1, ['UTF-16', 'UTF-8']),
    ('UTF-16, high byte first', b'\xfe\xff' + 'step a\n'.encode('utf-16-be'), 1, ['UTF-16', 'UTF-8']),
    ('CRLF', 'step a\r\n\r\n# b\r\nrule Foo a 1 1 1\r\n', 4, ["'Foo'"]),
    ('CRLF and a refusal', 'step a\r\n\r\nstep b\r\nstep a\r\n', 4, [refusal(7, 'two steps have one name')]),
    ('CR alone', 'step a\r\rstep b\rstep a\r', 4, [refusal(7, 'two steps have one name')]),
    ('all ends of lines', 'step a\rstep b\r\nstep c\n\rstep a\n', 5, [refusal(7, 'two steps have one name')]),
    ('no end of the last line', STEPS + 'rule Init flat 1 1', 4, [WEIGHTS_WANTED]),
    ('a mark of UTF-8 and a fault', '\ufeffstep a\nstep a\n', 2, [refusal(7, 'two steps have one name')]),
    ('a mark of UTF-8 in the midst', 'step a\n\ufeffstep b\n', 2, ["'step'", "'rule'"]),
    ('comments and blank lines before it', '# a\n\n \t\nstep a # b\n\n#\nrule Init b 1 1 1\n', 7, ["'b'"]),
    ('the first of two faults', rule('Foo flat 1 1 1') + 'rule Bar flat 1 1 1\n', 4, ["'Foo'"]),
    ('the first of two refusals', 'step a\nstep a\nstep ""\n', 2, [refusal(7, 'two steps have one name')]),
    ('a word of 100,000 letters', rule('Response ' + 'expose' * 20000 + ' arc 1 1 1'), 4, ['expose', 'not declared']),
    ('a template of 100,000 letters', rule('a' * 100000 + ' arc 1 1 1'), 4, ['no template']),
    ('characters that a terminal obeys', 'step a\n\x1b[31mstep b\n', 2, [r'\\x1b']),
]
BAD_TEXTS = [*TEMPLATES, *NOT_DECLARED, *NUMBER_OF_WORDS, *weight_rows(), *count_rows(), *NAMES, *LIMITS, *BRACKETS,
             *WHOLE_TEXTS]


def in_bytes(text):
    return text if isinstance(text, bytes) else text.encode('utf-8')


class BadTexts(unittest.TestCase):
    """Each bad text is answered by one line that says the line of the fault, and by status 1."""

    def check(self, ran, line, words):
        self.assertEqual(ran.status, 1)
        self.assertEqual(ran.out, b'')
        self.assertTrue(ran.err.startswith('tullweth: standard input: '), ran.err)
        self.assertTrue(ran.err.endswith('\n') and len(ran.err.splitlines()) == 1, ran.err)
        self.assertEqual(re.findall(r'\bline ([0-9]+)\b', ran.err)[:1], [str(line)], ran.err)
        for word in words:
            self.assertRegex(ran.err, word)

    def test_all_in_process(self):
        """All of the table, by the function that the command calls."""
        self.assertGreaterEqual(len(BAD_TEXTS), 45)
        for what, text, line, words in BAD_TEXTS:
            with self.subTest(what):
                self.check(call_command('prune', '-', given=in_bytes(text)), line, words)

    def test_some_as_a_program(self):
        """Twelve rows spread over the table, by the program."""
        for what, text, line, words in BAD_TEXTS[::len(BAD_TEXTS) // 12][:12]:
            with self.subTest(what):
                self.check(run_command('prune', '-', given=in_bytes(text)), line, words)

    def test_each_subcommand_says_the_same(self):
        """The message does not depend on what is to be done with the file."""
        text = in_bytes(rule('Respose expose arc 1 1 1'))
        for words in (['show', '-'], ['show', '-', '1'], ['state', '-', '1', '--', 'arc'], ['pack', '-'],
                      ['unpack', '-'], ['names', '-'], ['prune', '-', '--kept']):
            with self.subTest(words):
                self.assertEqual(call_command(*words, given=text), call_command('prune', '-', given=text))

    def test_exceptions(self):
        """The module raises the same: Refused with the number and line, or BadText with the line."""
        for what, text, line, words in BAD_TEXTS:
            said = re.findall('refused ([0-9]+):', ' '.join(words))
            with self.subTest(what):
                with self.assertRaises((BadText, Refused)) as caught:
                    RuleFile.from_content(in_bytes(text))
                bad = caught.exception
                self.assertEqual(bad.as_json()['line'], line)
                self.assertTrue(str(bad).isprintable() and len(str(bad)) < 500, str(bad)[:1000])
                if isinstance(bad, Refused):
                    self.assertEqual(bad.place.line, line)
                    self.assertIn(str(bad.number), said or ['12'])
                else:
                    self.assertEqual((bad.line, said), (line, []))

    def test_json(self):
        """With --json the one line is an object with the line and, for a refusal, its number and meaning."""
        for what, text, line, words in BAD_TEXTS[::7]:
            ran = call_command('prune', '-', '--json', given=in_bytes(text))
            with self.subTest(what):
                self.assertEqual((ran.status, ran.out, ran.err.count('\n')), (1, b'', 1))
                error = json.loads(ran.err)['error']
                self.assertEqual(error['line'], line)
                said = [word for word in words if word.startswith('refused ')]
                for number, meaning in (word[len('refused '):].split(': ') for word in said):
                    self.assertEqual((error['refused'], error['meaning']), (int(number), meaning))

    def test_without_a_line(self):
        """A text without a step has no line to say: refusal 13 alone."""
        for text in ('', '\n\n', '# a comment\n', '\ufeff', '   \t\r\n'):
            ran = call_command('prune', '-', given=in_bytes(text))
            with self.subTest(text):
                said = 'tullweth: standard input: refused 13: there is no step\n'
                self.assertEqual((ran.status, ran.out, ran.err), (1, b'', said))

    def test_nothing_near(self):
        """No name is proposed where none is like the one that is written."""
        with self.assertRaises(BadText) as caught:
            RuleFile.parse(rule('Participation zzzz 1 1 1'))
        self.assertNotIn('nearest', str(caught.exception))

    def test_long_lines_do_not_take_long(self):
        """A model of one long line, given by mistake, is answered in the time that reading it takes."""
        model = b'{"constraints": ' + b'["a", "b", 0.5], ' * 40000 + b'}'
        begun = time.process_time()
        self.check(call_command('prune', '-', given=model), 1, ["'step'", "'rule'"])
        self.assertLess(time.process_time() - begun, 4, 'seconds for one line of 680,000 bytes')


# ---- texts that are taken

# (rule as it is written, rule as it is unpacked), without the weights, which are 0.5 three times
SYNONYMS = [
    ('Existence flat', 'Participation flat'),
    ('Existence1 flat', 'Participation flat'),
    ('existence(flat)', 'Participation flat'),
    ('AtLeastOne flat', 'Participation flat'),
    ('At Least One[flat]', 'Participation flat'),
    ('Existence2 flat', 'AtLeast flat 2'),
    ('Existence14[flat]', 'AtLeast flat 14'),
    ('existence_3 flat', 'AtLeast flat 3'),
    ('AtLeast1 flat', 'AtLeast flat 1'),
    ('AtLeast3(flat)', 'AtLeast flat 3'),
    ('at-least-3 flat', 'AtLeast flat 3'),
    ('At Least(flat, 3)', 'AtLeast flat 3'),
    ('at least flat 3', 'AtLeast flat 3'),
    ('atleast flat 03', 'AtLeast flat 3'),
    ('AtMostOne flat', 'AtMostOne flat'),
    ('Uniqueness flat', 'AtMostOne flat'),
    ('Absence2 flat', 'AtMostOne flat'),
    ('Absence 2 flat', 'AtMostOne flat'),
    ('At Most One(flat)', 'AtMostOne flat'),
    ('at_most_one flat', 'AtMostOne flat'),
    ('Absence3 flat', 'AtMost flat 2'),
    ('absence15(flat)', 'AtMost flat 14'),
    ('AtMost1 flat', 'AtMost flat 1'),
    ('AtMost14 flat', 'AtMost flat 14'),
    ('at most flat 2', 'AtMost flat 2'),
    ('ExactlyOne flat', 'Exactly flat 1'),
    ('exactly-one flat', 'Exactly flat 1'),
    ('Exactly One[flat]', 'Exactly flat 1'),
    ('Exactly1[flat]', 'Exactly flat 1'),
    ('Exactly7 flat', 'Exactly flat 7'),
    ('NotResponse expose arc', 'NotSuccession expose arc'),
    ('Not Precedence(expose, arc)', 'NotSuccession expose arc'),
    ('not-succession expose arc', 'NotSuccession expose arc'),
    ('NotChainResponse expose arc', 'NotChainSuccession expose arc'),
    ('not chain precedence expose arc', 'NotChainSuccession expose arc'),
    ('Not Chain Succession[expose,arc]', 'NotChainSuccession expose arc'),
    ('NotRespondedExistence expose arc', 'NotCoExistence expose arc'),
    ('Not Co-Existence[expose, arc]', 'NotCoExistence expose arc'),
    ('not co existence expose arc', 'NotCoExistence expose arc'),
    ('COEXISTENCE expose arc', 'CoExistence expose arc'),
    ('Co-Existence(expose arc)', 'CoExistence expose arc'),
    ('responded existence expose arc', 'RespondedExistence expose arc'),
    ('exclusive_choice(expose,arc)', 'ExclusiveChoice expose arc'),
    ('chain response expose arc', 'ChainResponse expose arc'),
    ('Response[expose, arc]', 'Response expose arc'),
    ('Response ( expose , arc )', 'Response expose arc'),
    ('Response\t"expose"\t"arc"', 'Response expose arc'),
]
# (weight as it is written, weight as it is unpacked): the shortest decimal number with the same nearest 32-bit float
WEIGHTS = [
    ('0.5', '0.5'), ('.5', '0.5'), ('+0.50', '0.5'), ('5e-1', '0.5'), ('5E-1', '0.5'), ('0x3F000000', '0.5'),
    ('0x3f000000', '0.5'), ('0X3F000000', '0.5'), ('1', '1'), ('1.', '1'), ('1.0', '1'), ('1e0', '1'), ('10e-1', '1'),
    ('0x3F800000', '1'), ('1.00000001', '1'), ('0', '0'), ('0.0', '0'), ('0e9', '0'), ('+0', '0'), ('1e-400', '0'),
    ('0x00000000', '0'), ('0.1', '0.1'), ('0.10000000149011612', '0.1'), ('0x3DCCCCCD', '0.1'), ('000.75', '0.75'),
    ('0x3F7FFFFF', '0.99999994'), ('0.99999994', '0.99999994'), ('0.333333333333', '0.33333334'),
    ('0x00000001', '1e-45'), ('1e-45', '1e-45'), ('1.4e-45', '1e-45'), ('0x007FFFFF', '1.1754942e-38'),
]


class Spellings(unittest.TestCase):
    """Texts that are taken, and the one text that is written for each."""

    def unpacked(self, text):
        """The canonical form, by the command."""
        ran = call_command('unpack', '-', given=in_bytes(text))
        self.assertEqual((ran.status, ran.err), (0, ''))
        return ran.out.decode('ascii')

    def check(self, written, canonical):
        with self.subTest(written):
            self.assertEqual(self.unpacked(rule(written)), f'{STEPS}\nrule {canonical}\n')

    def test_synonyms(self):
        """Other names of templates, and the forms in which the steps and counts may stand."""
        for written, canonical in SYNONYMS:
            self.check(f'{written} 0.5 0.5 0.5', f'{canonical} 0.5 0.5 0.5')

    def test_names_that_begin_with_another(self):
        """Spaces between the parts of a name do not matter, also where the first parts are a template's name; but a
        declared step that follows the shorter name is that step."""
        for written, canonical in (('At Most One flat', 'AtMostOne flat'), ('exactly one flat', 'Exactly flat 1'),
                                   ('at least one flat', 'Participation flat'), ('Existence 3 flat', 'AtLeast flat 3'),
                                   ('Absence 3 flat', 'AtMost flat 2')):
            self.check(f'{written} 0.5 0.5 0.5', f'{canonical} 0.5 0.5 0.5')
        steps = 'step One\nstep flat\n'
        for written, canonical in (('Exactly One 2', 'Exactly One 2'), ('at most One 14', 'AtMost One 14'),
                                   ('at most one flat', 'AtMostOne flat'), ('Exactly One(flat)', 'Exactly flat 1'),
                                   ('AtMostOne One', 'AtMostOne One')):
            with self.subTest(written):
                self.assertEqual(self.unpacked(f'{steps}rule {written} 1 1 1\n'), f'{steps}\nrule {canonical} 1 1 1\n')

    def test_a_step_called_one(self):
        """A canonical text is read as it was meant, also where a step's name continues that of the template."""
        for form in ('step one\nstep 3\n\nrule AtMost one 3 1 1 1\nrule AtMostOne one 1 1 1\n',
                     'step one\nstep 3\n\nrule Exactly one 1 1 1 1\nrule AtLeast one 3 1 1 1\n',
                     'step response\nstep Existence\n\nrule ChainResponse response Existence 1 1 1\n',
                     'step 3\nstep 2\n\nrule Participation 3 1 1 1\nrule AtLeast 2 2 1 1 1\n'):
            with self.subTest(form):
                self.assertEqual(self.unpacked(form), form)

    def test_case_and_separators(self):
        """Each template in capitals and small letters, with spaces, hyphens, underscores or nothing between parts."""
        for name in TEMPLATE_NAMES:
            parts = re.findall('[A-Z][a-z]*', name)
            second = {'AtLeast': ['2'], 'AtMost': ['2'], 'Exactly': ['2']}.get(name, ['arc'])
            one = name in ('Participation', 'AtMostOne', 'Init', 'End')
            words = ['expose'] + ([] if one else second)
            canonical = ' '.join([name, *words, '0.5 0.5 0.5'])
            for between in ('', ' ', '-', '_', ' - ', '  '):
                for spelled in (between.join(parts), between.join(parts).lower(), between.join(parts).upper()):
                    self.check(f'{spelled}({", ".join(words)}) 0.5 0.5 0.5', canonical)
                    self.check(f'{spelled}[{",".join(words)}]0.5 0.5 0.5', canonical)
                    if between in ('', '-', '_'):
                        self.check(f'{spelled} {" ".join(words)} 0.5 0.5 0.5', canonical)

    def test_weights(self):
        """Weights in all forms, each as support, confidence and interest."""
        for written, canonical in WEIGHTS:
            self.check(f'Init arc {written} 0.25 1', f'Init arc {canonical} 0.25 1')
            self.check(f'Init arc 0.25 {written} 1', f'Init arc 0.25 {canonical} 1')
            self.check(f'Init arc 0.25 1 {written}', f'Init arc 0.25 1 {canonical}')

    def test_layout(self):
        """Comments, blank lines, quotes, tabs, ends of lines, a mark of UTF-8 and the case of the first words."""
        canonical = 'step a\nstep b\n\nrule Response a b 0.5 0.25 1\n'
        for text in (
                canonical,
                canonical.replace('\n', '\r\n'),
                canonical.replace('\n', '\r'),
                '\ufeff' + canonical,
                '\ufeff' + canonical.replace('\n', '\r\n'),
                canonical.rstrip('\n'),
                '\n\n# first\n  step   a\t# a step\n\tstep b#b\n'.replace('b#b', '"b"# b') + canonical[15:] + '\n\n#',
                'STEP a\nStep b\nRULE Response a b 0.5 0.25 1\n',
                'step "a"\nstep "\\b"\nrule Response "a" b 0.5 0.25 1\n',
                'step a\nstep b\nrule Response(a,b)0.5 0.25 1 #\n',
                'step a # café\nstep b\nrule Response a b 0.5 0.25 1 # ½\n',
        ):
            with self.subTest(text):
                self.assertEqual(self.unpacked(text), canonical)

    def test_names(self):
        """Names as they may be written, and as they are written: in quotes where something else would be read."""
        for written, canonical in (
                ('a#b', 'a#b'), ('"#a"', '"#a"'), ('"a,b"', '"a,b"'), ('"(a)"', '"(a)"'), ('"[a]"', '"[a]"'),
                ('"{a}"', '"{a}"'), (r'"a\"b\\"', r'"a\"b\\"'), (r'"\\"', '\\'), (r'a\b', r'a\b'), (r'"a\\b"', r'a\b'),
                ("'a'", "'a'"), ('"step"', 'step'), ('rule', 'rule'), ('0.5', '0.5'), ('"3"', '3'), (r'\"', None),
                ('~!@$%^&*-+=|:;<>?/', None), ('~!@$%^&*-+=|:;<', '~!@$%^&*-+=|:;<'), (LETTERS[:16], LETTERS[:16])):
            ran = call_command('unpack', '-', given=f'step {written}\nrule Init {written} 1 1 1\n'.encode())
            with self.subTest(written):
                if canonical is None:
                    self.assertEqual(ran.status, 1)
                else:
                    form = f'step {canonical}\n\nrule Init {canonical} 1 1 1\n'
                    self.assertEqual((ran.status, ran.out.decode()), (0, form))

    def test_no_rule(self):
        """A text of steps alone has no empty line at its end."""
        self.assertEqual(self.unpacked('step a\n\n\nstep b\n\n'), 'step a\nstep b\n')


if __name__ == '__main__':
    unittest.main()
