"""What the tests of the command share: calls in a scratch folder, with what holds of all of them.

That is: no traceback; status 0 with nothing on standard error; status 1 with one message; status 2 with the usage;
and nothing left in the folder for temporary files.
"""

import json
import os
import pty
import select
import shutil
import subprocess
import sys
import tempfile
import unittest
from pathlib import Path
from unittest import mock

from support import COMMAND, SAMPLES, call_command

INCIDENT = SAMPLES / 'incident.txt'
SUBCOMMANDS = ('prune', 'show', 'state', 'watch', 'pack', 'unpack', 'names', 'import')
#: The most seconds that a call may take.
PATIENCE = 60
INCIDENT_TABLE = '''\
   rule                        fate         first count  second count
1  Participation(expose)       kept                   2             3
2  Response(expose, arc)       kept                   3             3
3  NotSuccession(expose, arc)  conflicting            4             -
2 of 3 rules remain, 1 conflicting
'''
INCIDENT_KEPT = '''\
step acquire
step guide
step expose
step arc
step readout

rule Participation expose 0.75 0.875 0.5
rule Response expose arc 0.5 0.75 0.5
'''
#: A folder for what Python compiles, so that calls are fast and write nothing in the checkout.
_compiled = tempfile.TemporaryDirectory()
os.chmod(_compiled.name, 0o755)


def environment(**more):
    """The variables of a call: those of here without Python's and the product's own, and some more. The python3 is
    the one that runs the tests."""
    kept = {name: value for name, value in os.environ.items() if not name.startswith(('PYTHON', 'TULLWETH', 'LC_'))}
    path = f'{Path(sys.executable).parent}:{kept["PATH"]}'
    return {**kept, 'PATH': path, 'PYTHONPYCACHEPREFIX': _compiled.name, **more}


def as_nobody():
    """Words before a command so that it runs as a user for whom modes count."""
    if os.geteuid() != 0:
        return []
    return ['setpriv', '--reuid=65534', '--regid=65534', '--clear-groups']


def nobody_runs_python():
    """Whether that user can run python3 and read this checkout."""
    try:
        words = [*as_nobody(), 'env', 'python3', '-I', '-c', 'open(__import__("sys").argv[1])', str(COMMAND)]
        return subprocess.run(words, capture_output=True, check=False).returncode == 0
    except FileNotFoundError:
        return False


def lines_of(*lines):
    """A text of these lines."""
    return ''.join(f'{line}\n' for line in lines).encode()


def rule_field(template=1, x=0, y=0xFF, weights=bytes(12)):
    """The bytes of a rule."""
    return b'R\0\x0f' + bytes([template, x, y]) + weights


class CommandTest(unittest.TestCase):
    """Runs the command in a scratch folder of each test."""

    #: Whether calls that need no process of their own are made in this one, which is quicker.
    inside = False

    def setUp(self):
        self.folder = Path(tempfile.mkdtemp(prefix='tullweth test '))
        self.addCleanup(shutil.rmtree, self.folder, ignore_errors=True)
        os.chmod(self.folder, 0o755)
        self.temporary = self.folder / 'temporary'
        self.temporary.mkdir()
        os.chmod(self.temporary, 0o777)
        self.addCleanup(os.chdir, os.getcwd())
        os.chdir(self.folder)

    def write(self, name, content):
        """A file of the scratch folder."""
        path = self.folder / name
        path.write_bytes(content)
        return path

    def call(self, *words, input=b'', **more):
        """A finished call, whatever its status."""
        if not self.inside or more:
            return self.run_program(*words, **({} if 'stdin' in more else {'input': input}), **more)
        with mock.patch.dict(os.environ, COLUMNS='80'):
            ran = call_command(*map(str, words), given=input)
        return subprocess.CompletedProcess(words, ran.status, ran.out, ran.err.encode())

    def run_program(self, *words, command=COMMAND, before=(), variables=None, **more):
        """The same in a process of its own; words may be of bytes."""
        env = environment(TMPDIR=str(self.temporary), COLUMNS='80', **(variables or {}))
        streams = {'stdout': subprocess.PIPE, 'stderr': subprocess.PIPE, 'cwd': self.folder, 'timeout': PATIENCE}
        done = subprocess.run([*before, str(command), *words], env=env, check=False, **{**streams, **more})
        self.assertNotIn(b'Traceback', done.stderr or b'')
        self.assertEqual(os.listdir(self.temporary), [])
        return done

    def answer(self, *words, **more):
        """What a call with status 0 prints."""
        done = self.call(*words, **more)
        self.assertEqual((done.returncode, done.stderr), (0, b''), done)
        return done.stdout

    def text(self, *words, **more):
        """The same as a string."""
        return self.answer(*words, **more).decode()

    def json(self, *words, **more):
        """What a call with --json says."""
        return json.loads(self.answer(*words, '--json', **more))

    def failure(self, *words, printed=b'', **more):
        """The one message of a call with status 1, which prints nothing else."""
        done = self.call(*words, **more)
        self.assertEqual((done.returncode, done.stdout), (1, printed), done)
        message = done.stderr.decode()
        self.assertRegex(message, r'\Atullweth: [^\n]+\n\Z')
        return message[len('tullweth: '):-1]

    def json_failure(self, *words, printed=b'', **more):
        """The error of a call with --json and status 1."""
        done = self.call(*words, **more)
        self.assertEqual((done.returncode, done.stdout, done.stderr.count(b'\n')), (1, printed, 1), done)
        said = json.loads(done.stderr)
        self.assertEqual(list(said), ['error'])
        return said['error']

    def usage(self, *words, **more):
        """What a call with wrong usage says."""
        done = self.call(*words, **more)
        self.assertEqual((done.returncode, done.stdout), (2, b''), done)
        message = done.stderr.decode()
        self.assertRegex(message, r'\Atullweth[^\n]*: [^\n]+\nusage: tullweth')
        return message

    def each(self, asked, calls):
        """What `failure` or another one gives for each of some calls: the words, and the input."""
        return [asked(*words, input=content) for words, content in calls]

    def assertHas(self, text, *parts):
        """That a text has all these parts."""
        for part in parts:
            self.assertIn(str(part), text)


class Terminal:
    """A call at a terminal of its own; standard output may go to a pipe."""

    def __init__(self, words, piped=False):
        self.own, other = pty.openpty()
        self.child = subprocess.Popen([str(COMMAND), *words], env=environment(TERM='xterm'), stdin=other, stderr=other,
                                      stdout=subprocess.PIPE if piped else other, start_new_session=True)
        os.close(other)
        self.read = ''

    def type(self, text):
        """Types this."""
        os.write(self.own, text.encode())

    def _more(self):
        """Whether there was more to read."""
        ready, _, _ = select.select([self.own], [], [], PATIENCE)
        try:
            part = os.read(self.own, 4096) if ready else b''
        except OSError:
            part = b''
        self.read += part.decode()
        return part != b''

    def wait_for(self, text):
        """Reads until this is there; says what was read since the last time."""
        while text not in self.read and self._more():
            pass
        before, found, self.read = self.read.partition(text)
        return before + found

    def end(self):
        """Status and the rest of what is printed."""
        while self._more():
            pass
        os.close(self.own)
        if self.child.stdout is not None:
            self.child.stdout.close()
        return self.child.wait(PATIENCE), self.read


def at_terminal(words):
    """Status and output of a call at a terminal."""
    return Terminal(words).end()
