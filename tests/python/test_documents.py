"""Holds the documents to the product: what they show is what an installed copy prints.

A command of a document is an indented line that begins with `$ `. Its output are the lines under it, up to the next
command or to the next line that has text and is not indented; empty lines at its end do not count. The commands of one
document run in order, in one folder with a copy of samples/. After them doctest runs the lines that begin with `>>> `.
"""

import argparse
import functools
import json
import os
import re
import shutil
import subprocess
import sys
import tempfile
import unittest
from pathlib import Path
from typing import NamedTuple, Tuple

from support import ROOT, SAMPLES, TEMPLATE_NAMES, call_command

from tullweth import __version__
from tullweth.command import _parser

#: The documents that show commands with their outputs.
DOCUMENTS = ('README.md', 'samples/README.md', 'docs/TUTORIAL.md')
#: Documents in which there may be commands.
MORE_DOCUMENTS = ('docs/FORMAT.md',)
MAN_PAGE = ROOT / 'man' / 'tullweth.1'
#: What is not run: it is done before, takes too long, or is for the machine of the reader.
NOT_RUN = re.compile(r'make|(git clone|make check|make install|make uninstall|sudo)\b.*')
#: The most seconds that a command may take.
PATIENCE = 60


# ---- reading a document


class Command(NamedTuple):
    """A command of a document: its line, what is typed, and the lines of its output."""

    line: int
    words: str
    output: Tuple[str, ...]

    @property
    def is_run(self):
        return NOT_RUN.fullmatch(self.words) is None


def commands_of(text):
    """The commands of a document, in order."""
    found = []
    inside = False
    for number, line in enumerate(text.splitlines(), start=1):
        if line.startswith('    $ '):
            found.append((number, line[6:], []))
            inside = True
        elif line.strip() and not line.startswith('    '):
            inside = False
        elif inside:
            found[-1][2].append(line[4:])
    return [Command(number, words, without_last_blanks(lines)) for number, words, lines in found]


def without_last_blanks(lines):
    """Lines without the empty ones at their end."""
    kept = list(lines)
    while kept and not kept[-1].strip():
        kept.pop()
    return tuple(kept)


def has_python(text):
    """Whether a document has lines for Python."""
    return re.search('^    >>> ', text, flags=re.MULTILINE) is not None


# ---- an installed copy


@functools.lru_cache(maxsize=None)
def scratch():
    """A folder for the installed copy and for what documents write."""
    return tempfile.TemporaryDirectory(prefix='tullweth documents ')


def tearDownModule():
    scratch().cleanup()


def bare_environment():
    """The variables of here without those that choose a Python or a part of the product."""
    mine = ('PYTHON', 'TULLWETH', 'MAKE', 'MFLAGS', 'MANPATH', 'LD_', 'PKG_CONFIG')
    kept = {name: value for name, value in os.environ.items() if not name.startswith(mine)}
    return {**kept, 'PATH': f'{Path(sys.executable).parent}:{kept["PATH"]}'}


@functools.lru_cache(maxsize=None)
def installed():
    """The folder of the installed copy, which is made once."""
    prefix = Path(scratch().name) / 'prefix'
    done = subprocess.run(['make', '-s', 'install', f'PREFIX={prefix}'], cwd=ROOT, env=bare_environment(), check=False,
                          stdout=subprocess.PIPE, stderr=subprocess.STDOUT, text=True)
    if done.returncode != 0:
        raise RuntimeError(f'make install: {done.stdout}')
    return prefix


def environment():
    """The variables with which the installed copy is found, and nothing of the checkout."""
    lib = installed() / 'lib'
    env = bare_environment()
    return {
        **env, 'PATH': f'{installed() / "bin"}:{env["PATH"]}', 'PYTHONPATH': str(lib / 'tullweth' / 'python'),
        'PKG_CONFIG_PATH': str(lib / 'pkgconfig'), 'LD_LIBRARY_PATH': str(lib), 'PYTHONDONTWRITEBYTECODE': '1',
    }


def run(words, folder):
    """Status and output, with the messages, of a command in a shell; `make incident` is one of the checkout."""
    if words.startswith('make incident'):
        words, folder = words.replace('make', 'make -s', 1), ROOT
    done = subprocess.run(['bash', '-c', words], cwd=folder, env=environment(), check=False, timeout=PATIENCE,
                          stdin=subprocess.DEVNULL, stdout=subprocess.PIPE, stderr=subprocess.STDOUT)
    return done.returncode, done.stdout.decode('utf-8', 'backslashreplace')


def folder_with_samples():
    """A new folder with a copy of samples/."""
    folder = Path(tempfile.mkdtemp(dir=scratch().name))
    shutil.copytree(SAMPLES, folder / 'samples')
    return folder


# ---- the documents


class DocumentsTest(unittest.TestCase):
    maxDiff = None

    def check_document(self, text, name):
        """Runs a document: its commands, and then its lines for Python."""
        folder = folder_with_samples()
        for command in commands_of(text):
            if command.is_run:
                self.check_command(command, name, folder)
        if has_python(text):
            self.check_python(text, name, folder)

    def check_command(self, command, name, folder):
        """Each prints what is under it and ends with status 0: another status is shown by `echo "status $?"`."""
        with self.subTest(f'{name}, line {command.line}: {command.words}'):
            status, printed = run(command.words, folder)
            self.assertEqual(without_last_blanks(printed.splitlines()), command.output)
            self.assertEqual(status, 0)

    def check_python(self, text, name, folder):
        """doctest finds nothing wrong, in the same folder and with the installed module."""
        copy = folder / 'document.md'
        copy.write_text(text)
        done = subprocess.run(['python3', '-m', 'doctest', copy.name], cwd=folder, env=environment(), check=False,
                              timeout=PATIENCE, stdout=subprocess.PIPE, stderr=subprocess.STDOUT, text=True)
        self.assertEqual((done.returncode, done.stdout), (0, ''), name)

    def check_named(self, name):
        """A document that is named here has commands with outputs."""
        text = (ROOT / name).read_text()
        shown = [command for command in commands_of(text) if command.is_run and command.output]
        self.assertNotEqual(shown, [], f'{name} shows no command with its output')
        self.check_document(text, name)

    def test_readme(self):
        """README.md."""
        self.check_named('README.md')

    def test_samples(self):
        """samples/README.md."""
        self.check_named('samples/README.md')

    def test_tutorial(self):
        """docs/TUTORIAL.md."""
        self.check_named('docs/TUTORIAL.md')

    def test_more(self):
        """The documents in which there may be commands; every other one has none, so that none goes untried."""
        for name in MORE_DOCUMENTS:
            self.check_document((ROOT / name).read_text(), name)
        named = {ROOT / name for name in (*DOCUMENTS, *MORE_DOCUMENTS)}
        others = {*ROOT.glob('*.md'), *ROOT.glob('*/*.md')} - named
        self.assertIn(ROOT / 'CHANGELOG.md', others)
        tried = [path.name for path in others if any(command.is_run for command in commands_of(path.read_text()))]
        self.assertEqual(tried, [], 'their commands are not run')

    def test_tutorial_goes_through_all(self):
        """The tutorial uses every subcommand, and prune --kept."""
        words = '\n'.join(command.words for command in commands_of((ROOT / 'docs' / 'TUTORIAL.md').read_text()))
        for name in subcommands():
            self.assertRegex(words, rf'\btullweth {name}\b')
        self.assertRegex(words, r'\btullweth prune .*--kept\b')

    def test_python_is_shown(self):
        """README.md and the tutorial have lines for Python."""
        for name in ('README.md', 'docs/TUTORIAL.md'):
            self.assertTrue(has_python((ROOT / name).read_text()), name)

    def test_installed_copy(self):
        """The command, the module, the library and the man page are those that were installed."""
        folder = folder_with_samples()
        (folder / 'where.py').write_text(WHERE)
        status, printed = run('command -v tullweth; python3 where.py', folder)
        places = printed.splitlines()
        self.assertEqual((status, len(places)), (0, 3), printed)
        for place in places:
            self.assertTrue(place.startswith(f'{installed()}/'), place)
        self.assertEqual((installed() / 'share' / 'man' / 'man1' / 'tullweth.1').read_bytes(), MAN_PAGE.read_bytes())

    def test_links(self):
        """Files that a document names by a link are there."""
        for name in DOCUMENTS:
            for link in re.findall(r'\]\(([^)#:]+)[^):]*\)', (ROOT / name).read_text()):
                self.assertTrue((ROOT / name).parent.joinpath(link).exists(), f'{name}: {link}')
        self.assertTrue(all((ROOT / name).is_file() for name in DOCUMENTS))


#: Prints where the module and the library are that Python uses.
WHERE = '''\
import tullweth
tullweth.prune('samples/incident.txt')
print(tullweth.__file__)
with open('/proc/self/maps') as maps:
    print(*{line[line.index('/'):].strip() for line in maps if 'libtullweth' in line}, sep='\\n')
'''

EXAMPLE = '''\
Some text.

    $ first command
    a line

      an indented line

Text between; an indented block without a command is none:

    step NAME

    $ make
    $ second 'command'; echo "status $?"
    $ third
    last line
    $ sudo make install

    >>> 1 + 1
    2
- a list
    that goes on
'''


class ReadingTest(unittest.TestCase):
    """That the documents are read as said above."""

    def test_commands(self):
        """Commands with their outputs."""
        self.assertEqual(commands_of(EXAMPLE), [
            (3, 'first command', ('a line', '', '  an indented line')), (12, 'make', ()),
            (13, 'second \'command\'; echo "status $?"', ()), (14, 'third', ('last line',)),
            (16, 'sudo make install', ('', '>>> 1 + 1', '2'))])
        self.assertEqual(commands_of('text\n\n    step NAME\n'), [])
        self.assertEqual(commands_of('$ no command\n   $ nor this\n'), [])

    def test_not_run(self):
        """What is left to the reader."""
        left = ['make', 'make check', 'make install PREFIX=x', 'make uninstall', 'sudo make install', 'git clone X']
        tried = ['make incident', 'tullweth make', 'make help', 'sudoku', 'git status', 'make-something', 'makeup']
        self.assertEqual([words for words in [*left, *tried] if Command(1, words, ()).is_run], tried)

    def failures(self, text):
        """How many things are wrong with a document."""
        result = unittest.TestResult()

        class Checked(DocumentsTest):
            def runTest(self):
                self.check_document(text, 'a document')

        Checked().run(result)
        self.assertEqual(result.errors, [])
        return len(result.failures)

    def test_right_documents(self):
        """Nothing is wrong where outputs, messages and statuses are as they are, and the folder as it was left."""
        self.assertEqual(self.failures('    $ tullweth --version > v; ls\n    samples\n    v\n'
                                       f'    $ cat v\n    tullweth {__version__}\n'), 0)
        self.assertEqual(self.failures('    $ tullweth prune x; echo "status $?"\n'
                                       '    tullweth: x: cannot be read: No such file or directory\n    status 1\n'), 0)
        self.assertEqual(self.failures('    $ printf "a\\n\\n  b\\n\\n"\n    a\n\n      b\n\nText.\n'), 0)
        self.assertEqual(self.failures('    $ echo 1 > v\n\nText.\n\n    >>> open("v").read()\n    \'1\\n\'\n'), 0)

    def test_wrong_documents(self):
        """Another output, a missing one, one too many, a status that is not shown, and a wrong line for Python."""
        for text in ('    $ echo a\n    b\n', '    $ echo a\n', '    $ true\n    a\n', '    $ tullweth 2> /dev/null\n',
                     '    $ echo a; false\n    a\n', '    $ echo " a"\n    a\n', 'Text.\n\n    >>> 1 + 1\n    3\n'):
            self.assertEqual(self.failures(text), 1, text)
        self.assertEqual(self.failures('    $ echo a\n    b\n    $ echo c\n    d\n'), 2)


# ---- the man page


def subcommands():
    """The parsers of the subcommands by name."""
    return next(each for each in _parser()._actions if isinstance(each, argparse._SubParsersAction)).choices


def options_of(parser):
    """The options of a parser."""
    return {word for action in parser._actions for word in action.option_strings}


def metavars_of(parser):
    """What a parser calls its arguments and the values of its options."""
    names = [action.metavar for action in parser._actions if action.metavar is not None]
    return {word for name in names for word in ([name] if isinstance(name, str) else name)}


def plain(source):
    """The text of a man page's source without what groff reads of it."""
    lines = [re.sub(r'^\.[A-Z]+ ?', '', line) for line in source.splitlines() if not line.startswith(('.\\"', "'\\\""))]
    text = '\n'.join(lines).replace('\\-', '-').replace('\\(aq', "'").replace('\\(dq', '"').replace('\\e', '\\')
    return re.sub(r'\\f[A-Z]', '', text)


def sections_of(source, macro):
    """The parts of a man page by their titles: .SH or .SS."""
    parts = re.split(rf'^\.{macro} (.+)\n', re.sub(r'^\.SH', '.SS END\n.SH', source, flags=re.MULTILINE)
                     if macro == 'SS' else source, flags=re.MULTILINE)
    return dict(zip(parts[1::2], parts[2::2]))


def keys_in(said):
    """The keys of all objects in some JSON, but for names of steps."""
    if isinstance(said, list):
        return {key for each in said for key in keys_in(each)}
    if not isinstance(said, dict):
        return set()
    return {*said, *(key for name, value in said.items() if name != 'renamed' for key in keys_in(value))}


class ManPageTest(unittest.TestCase):
    source = MAN_PAGE.read_text()

    def words(self, source):
        """The words of a part of the page, options among them."""
        return set(re.findall(r'--?[a-z]+\b|[A-Za-z_]+', plain(source)))

    def test_subcommands(self):
        """Each subcommand has a part with its own options and arguments, and a line in the synopsis."""
        synopsis = sections_of(self.source, 'SH')['SYNOPSIS']
        parts = sections_of(self.source, 'SS')
        self.assertEqual([title for title in parts if title != 'END'], [f'tullweth {name}' for name in subcommands()])
        for name, parser in subcommands().items():
            own = options_of(parser) - {'-h', '--help', '--json'}
            self.assertLessEqual(own, self.words(parts[f'tullweth {name}']), name)
            line = synopsis.split(f'"tullweth {name}"\n')[1].split('.YS')[0]
            self.assertLessEqual(metavars_of(parser), self.words(line), name)
            shown = {word for word in self.words(line) if word.startswith('-')}
            self.assertLessEqual(shown, options_of(parser) | {'--'}, name)
            self.assertLessEqual(own - {'--output'}, shown, name)

    def test_options(self):
        """The page names every option, and none that is not there."""
        known = options_of(_parser()).union(*map(options_of, subcommands().values()))
        named = {word for word in self.words(self.source) if re.fullmatch('--[a-z]+|-[a-z]', word)}
        self.assertEqual(named, known)

    def test_arguments(self):
        """The page names every argument."""
        for parser in subcommands().values():
            self.assertLessEqual(metavars_of(parser), self.words(self.source))

    def test_fields_of_json(self):
        """The page names every key of what --json prints, and of an error."""
        incident, calibration = str(SAMPLES / 'incident.txt'), str(SAMPLES / 'calibration.txt')
        calls = [['prune', incident], ['prune', '--kept', calibration], ['show', incident], ['state', incident],
                 ['pack', incident], ['unpack', incident], ['names', incident], ['import', str(SAMPLES / 'night.json')]]
        keys = {key for words in calls for key in keys_in(json.loads(call_command(*words, '--json').out))}
        watched = call_command('watch', '--json', incident, given=b'expose').out.splitlines()
        keys |= {key for line in watched for key in keys_in(json.loads(line))}
        keys |= keys_in(json.loads(call_command('prune', '-', '--json', given=b'step a\nstep a\n').err))
        self.assertGreater(len(keys), 40)
        self.assertLessEqual(keys, self.words(sections_of(self.source, 'SH')['OUTPUT FOR PROGRAMS']))

    def test_templates(self):
        """The page names every template."""
        self.assertLessEqual(set(TEMPLATE_NAMES), self.words(sections_of(self.source, 'SH')['TEXT FORM']))

    def test_rest(self):
        """The version, the statuses and the environment."""
        sections = sections_of(self.source, 'SH')
        self.assertIn(f'"Tullweth {__version__}"', self.source)
        self.assertEqual(re.findall(r'^\.B ([0-9]+)$', sections['EXIT STATUS'], re.MULTILINE), ['0', '1', '2', '130'])
        self.assertIn('TULLWETH_LIBRARY', sections['ENVIRONMENT'])

    def test_examples(self):
        """The examples can be run, one after the other."""
        blocks = re.findall(r'^\.EX\n(.*?)^\.EE', sections_of(self.source, 'SH')['EXAMPLES'], re.MULTILINE | re.DOTALL)
        commands = [line for block in blocks for line in plain(block).splitlines()]
        self.assertGreater(len(commands), 8)
        folder = folder_with_samples()
        shutil.copy(SAMPLES / 'night.json', folder)
        for words in commands:
            status, printed = run(words, folder)
            self.assertEqual(status, 0, f'{words}: {printed}')

    def test_groff(self):
        """groff has nothing to warn of."""
        if shutil.which('groff') is None:
            self.skipTest('there is no groff')
        done = subprocess.run(['groff', '-t', '-man', '-Tutf8', '-ww', str(MAN_PAGE)], capture_output=True, check=False)
        self.assertEqual((done.returncode, done.stderr), (0, b''))
        self.assertIn(b'NAME', done.stdout)
        self.assertTrue(self.source.isascii())


if __name__ == '__main__':
    unittest.main()
