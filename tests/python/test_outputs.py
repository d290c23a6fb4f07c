"""Streams and files that cannot be written, odd paths, calls at once, and checkouts and libraries of all kinds."""

import json
import os
import shutil
import stat
import subprocess
import unittest
from concurrent.futures import ThreadPoolExecutor
from pathlib import Path

from calling import CommandTest, INCIDENT, INCIDENT_KEPT, INCIDENT_TABLE, as_nobody, lines_of, nobody_runs_python
from support import COMMAND, ROOT, SAMPLES

#: Calls that print something, with the incident as "$1".
PRINTING = ['prune "$1"', 'prune --kept "$1"', 'prune --json "$1"', 'show "$1" 3', 'state "$1" 2 -- expose',
            'pack "$1"', 'unpack "$1"', 'names "$1"', 'watch "$1" < <(echo expose)', 'watch --json "$1" < /dev/null',
            'import "${1%/*}/night.decl"', '--help', '--version', 'state --help']


class StreamsTest(CommandTest):
    def shell(self, words, **more):
        """Words after the command in a shell, with the incident as "$1"."""
        return self.call('-c', f'"$0" {words}', COMMAND, INCIDENT, command='bash', **more)

    def said(self, endings):
        """Status and last line on standard error of each call that prints, with this after it."""
        with ThreadPoolExecutor(2) as pool:
            done = list(pool.map(lambda words: self.shell(f'{words} {endings}'), PRINTING))
        return [(each.returncode, each.stderr.decode().splitlines()[-1]) for each in done]

    def wanted(self, message):
        """The same for calls that all fail by this message."""
        return [(1, json.dumps({'error': {'message': message}}) if '--json' in words else f'tullweth: {message}')
                for words in PRINTING]

    def test_full(self):
        """A full standard output is said, with status 1."""
        message = 'standard output: cannot be written: No space left on device'
        self.assertEqual(self.said('> /dev/full'), self.wanted(message))

    def test_closed(self):
        """So is a closed one."""
        self.assertEqual(self.said('>&-'), self.wanted('standard output: is closed'))

    def test_closed_pipe(self):
        """A reader that goes away meets no traceback, and the status is not 0."""
        for words in (['prune', INCIDENT], ['show', INCIDENT, '--json'], ['pack', INCIDENT], ['--help'],
                      ['watch', INCIDENT]):
            read, write = os.pipe()
            os.close(read)
            done = self.call(*words, stdout=write)
            os.close(write)
            self.assertEqual(done.returncode, 1)
            self.assertLessEqual(done.stderr.count(b'\n'), 1)

    def test_first_lines(self):
        """The first line of an output is there, whatever becomes of the rest."""
        done = self.shell('show "$1" | head -n 1')
        self.assertEqual((done.stdout, done.stderr), (b'1 Participation(expose): kept\n', b''))

    def test_standard_error(self):
        """The status is the same where standard error cannot be written."""
        for stream in ('2> /dev/full', '2>&-'):
            self.assertEqual(self.shell(f'prune missing.txt {stream}').returncode, 1)
            self.assertEqual(self.shell(f'prune {stream}').returncode, 2)
            done = self.shell(f'names "$1" {stream}')
            self.assertEqual((done.returncode, done.stdout[:10]), (0, b'0  acquire'))


class WrittenFilesTest(CommandTest):
    packed = (SAMPLES / 'incident.rules').read_bytes()

    def left(self):
        """The names in the scratch folder."""
        return sorted(path.name for path in self.folder.iterdir() if path != self.temporary)

    def test_new_and_existing(self):
        """A new file has the usual mode; one that is there is replaced and keeps its mode."""
        out = self.folder / 'out'
        for mode in (None, 0o600, 0o640, 0o755):
            if mode is not None:
                out.write_bytes(b'old' * 1000)
                out.chmod(mode)
            self.assertEqual(self.answer('pack', INCIDENT, '-o', out, umask=0o027), b'')
            self.assertEqual(out.read_bytes(), self.packed)
            self.assertEqual(stat.S_IMODE(out.stat().st_mode), mode or 0o640)
        self.assertEqual(self.left(), ['out'])

    def test_each_that_writes(self):
        """-o and --output write what is printed without them."""
        calls = [(['pack', INCIDENT], ['-o', 'out']), (['unpack', INCIDENT], ['--output', 'out']),
                 (['unpack', '--json', INCIDENT], ['--output=out']), (['import', SAMPLES / 'night.decl'], ['-oout'])]
        for words, option in calls:
            printed = self.answer(*words)
            self.assertEqual(self.answer(*words, *option), b'')
            self.assertEqual((self.folder / 'out').read_bytes(), printed)
            (self.folder / 'out').unlink()

    def test_refused_leaves_it(self):
        """Where the input is refused or cannot be read, the file that was there stays, and no new one comes."""
        out = self.write('out', b'as it was')
        bad = self.write('bad.txt', lines_of('step a', 'rule Init a 2 1 1'))
        for name in ('prune', 'pack', 'unpack', 'import'):
            for path in (bad, 'missing.txt'):
                self.failure(name, path, '-o', out)
                self.failure(name, path, '-o', 'new')
        self.assertEqual(out.read_bytes(), b'as it was')
        self.assertEqual(self.left(), ['bad.txt', 'out'])

    def test_onto_the_input(self):
        """A file can be replaced by what is made of it."""
        path = self.write('night.txt', INCIDENT.read_bytes())
        self.answer('prune', '--kept', path, '-o', path)
        self.assertEqual(path.read_text(), INCIDENT_KEPT)

    def test_links(self):
        """A symbolic link stays one, and its target is written, though it was not there before."""
        (self.folder / 'elsewhere').mkdir()
        target = self.folder / 'elsewhere' / 'target'
        link = self.folder / 'link'
        link.symlink_to('elsewhere/target')
        for content in (None, b'old'):
            if content is not None:
                target.write_bytes(content)
                target.chmod(0o604)
            self.answer('pack', INCIDENT, '-o', link)
            self.assertTrue(link.is_symlink())
            self.assertEqual(target.read_bytes(), self.packed)
        self.assertEqual(stat.S_IMODE(target.stat().st_mode), 0o604)
        self.assertEqual(os.listdir(target.parent), ['target'])

    def test_no_place(self):
        """A folder that is not there, a folder, a file taken for a folder, and an empty name."""
        (self.folder / 'folder').mkdir()
        self.write('file', b'kept')
        for out in ('missing/out', 'folder', 'file/out', ''):
            self.assertHas(self.failure('pack', INCIDENT, '-o', out), out, 'cannot be written')
        self.assertHas(self.json_failure('pack', '--json', INCIDENT, '-o', 'folder')['message'], 'cannot be written')
        self.assertEqual(self.left(), ['file', 'folder'])
        self.assertEqual((self.folder / 'file').read_bytes(), b'kept')

    def test_full_device(self):
        """A device that is full, by its name and by a link."""
        (self.folder / 'link').symlink_to('/dev/full')
        for out in ('/dev/full', 'link'):
            self.assertHas(self.failure('unpack', INCIDENT, '-o', out), out, 'cannot be written: No space left')
        self.assertEqual(self.left(), ['link'])

    def test_devices_and_pipes(self):
        """What is no usual file is written as it is."""
        self.answer('pack', INCIDENT, '-o', '/dev/null')
        self.assertEqual(self.answer('pack', INCIDENT, '-o', '/dev/stdout'), self.packed)
        self.assertTrue(stat.S_ISCHR(os.stat('/dev/null').st_mode))

    def test_half_written(self):
        """Where a file cannot be written to its end, there is none, or the one from before."""
        shell = 'ulimit -f 1; exec "$0" prune "$1" -o "$2"'
        self.write('old', b'as it was')
        for out in ('new', 'old'):
            words = ['-c', shell, COMMAND, SAMPLES / 'all_fates.txt', out]
            self.assertHas(self.failure(*words, command='bash'), out, 'cannot be written')
        self.assertEqual(self.left(), ['old'])
        self.assertEqual((self.folder / 'old').read_bytes(), b'as it was')

    def test_folder_that_cannot_be_written(self):
        """A folder of another user."""
        if not nobody_runs_python():
            self.skipTest('the other user cannot run python3')
        closed = self.folder / 'closed'
        closed.mkdir()
        closed.chmod(0o555)
        message = self.failure('pack', INCIDENT, '-o', closed / 'out', before=as_nobody())
        self.assertHas(message, closed / 'out', 'cannot be written: Permission denied')
        self.assertEqual(os.listdir(closed), [])

    def test_long_name(self):
        """A name as long as the system takes it."""
        out = self.folder / ('n' * 255)
        self.answer('pack', INCIDENT, '-o', out)
        self.assertEqual(out.read_bytes(), self.packed)

    def test_at_once(self):
        """Several that write one file: it is always whole."""
        with ThreadPoolExecutor(4) as pool:
            list(pool.map(lambda _: self.answer('pack', INCIDENT, '-o', 'out'), range(8)))
        self.assertEqual((self.folder / 'out').read_bytes(), self.packed)
        self.assertEqual(self.left(), ['out'])


class PathsTest(CommandTest):
    names = ['two  words.txt', './-n', './--json', './--', '-e a*.rules', 'a\nb', 'é Ω 日.txt', b'\xff\xfe.txt',
             '$HOME', '\x1b[31m']

    def test_odd_names(self):
        """Files of any name are read and written, from another folder; names that begin with a dash after a --."""
        wanted = self.answer('show', INCIDENT)
        for name in self.names:
            with self.subTest(name):
                path = Path(os.fsdecode(bytes(self.folder) + b'/' + os.fsencode(name)))
                path.write_bytes(INCIDENT.read_bytes())
                dashes = ['--'] if os.fsencode(name).startswith(b'-') else []
                self.assertEqual(self.answer('show', *dashes, name), wanted)
                self.answer('prune', '--kept', path, '-o', path)
                self.assertEqual(path.read_text(), INCIDENT_KEPT)

    def test_odd_names_in_the_hint(self):
        """The table names the file by its own bytes, quoted for a shell."""
        for name in ('a\nb', 'é', b'\xff\xfe'):
            self.write(os.fsdecode(name), INCIDENT.read_bytes())
            self.assertIn(b"prune '" + os.fsencode(name) + b"' --kept", self.answer('prune', name))

    def test_odd_names_in_messages(self):
        """A message about a file of any name is one line that can be printed."""
        for name in ('no such\nfile', 'é', b'\xff\xfe', '\x1b[31mred'):
            for words in (['prune', name], ['names', '--json', name]):
                done = self.call(*words)
                self.assertEqual((done.returncode, done.stdout, done.stderr.count(b'\n')), (1, b'', 1))
                self.assertTrue(done.stderr.decode()[:-1].isprintable())

    def test_odd_steps(self):
        """So is one about a step."""
        for step in (b'\xff', 'é', 'a\nb', '', '\ud7ff'):
            self.assertHas(self.failure('state', INCIDENT, '1', '--', step), 'refused 15')
            error = self.json_failure('state', INCIDENT, '1', '--json', '--', step)
            self.assertEqual(error['refused'], 15)

    def test_through_a_link(self):
        """The command through symbolic links, one to another, by its name on the PATH, and as a module."""
        wanted = self.answer('names', INCIDENT)
        first, second = self.folder / 'first', self.folder / 'tullweth'
        first.symlink_to(COMMAND)
        second.symlink_to('first')
        self.assertEqual(self.answer('names', INCIDENT, command=second), wanted)
        path = {'PATH': f'{self.folder}:{os.environ["PATH"]}'}
        self.assertEqual(self.answer('tullweth', 'names', INCIDENT, command='env', variables=path), wanted)
        module = {'PYTHONPATH': str(ROOT / 'python')}
        self.assertEqual(self.answer('-m', 'tullweth', 'names', INCIDENT, command='python3', variables=module), wanted)

    def test_folder_of_other_modules(self):
        """Files in the working folder that are called as Python's modules do no harm."""
        for name in ('json.py', 'argparse.py', 'tullweth.py', 'ctypes.py'):
            self.write(name, b'raise SystemExit(9)\n')
        self.assertEqual(self.text('names', INCIDENT).splitlines()[0], '0  acquire')

    def test_no_working_folder(self):
        """A working folder that is gone."""
        shell = 'mkdir gone && cd gone && rmdir ../gone && exec "$0" names "$1"'
        said = self.text('-c', shell, COMMAND, INCIDENT, command='bash')
        self.assertEqual(said, self.text('names', INCIDENT))

    def test_locales(self):
        """Any locale and encoding: the same bytes, and messages that can be written."""
        name = 'é.txt'
        self.write(name, INCIDENT.read_bytes())
        wanted = self.answer('prune', name)
        plain = {'LANG': 'C', 'LC_ALL': 'C', 'PYTHONCOERCECLOCALE': '0', 'PYTHONUTF8': '0'}
        for variables in ({'LANG': 'C'}, plain, {'PYTHONIOENCODING': 'ascii'}, {'LC_ALL': 'nowhere'},
                          {**plain, 'PYTHONIOENCODING': 'ascii:strict'}):
            with self.subTest(variables):
                self.assertEqual(self.answer('prune', name, variables=variables), wanted)
                self.assertIn('cannot be read', self.failure('prune', 'ü.txt', variables=variables))
                self.assertIn('not understood', self.usage('prune', name, 'ü', variables=variables))
        self.assertIn('FILE', self.text('prune', '--help', variables={**plain, 'PYTHONIOENCODING': 'ascii:strict'}))

    def test_nothing_is_left(self):
        """Calls that end well, are refused or fail leave no file where they run."""
        self.answer('prune', INCIDENT)
        self.answer('show', SAMPLES / 'worst.txt')
        self.failure('state', INCIDENT, '1', '--', 'nothing')
        self.failure('names', 'missing.txt')
        self.usage('names')
        self.assertEqual(list(self.folder.iterdir()), [self.temporary])


class AtOnceTest(CommandTest):
    def test_two(self):
        """Two calls at once on different files, each with its own answer, several times."""
        names = ['incident', 'incident_reversed'] * 5
        alone = {name: self.answer('prune', '--json', SAMPLES / f'{name}.txt') for name in set(names)}
        with ThreadPoolExecutor(2) as pool:
            said = list(pool.map(lambda name: self.answer('prune', '--json', SAMPLES / f'{name}.txt'), names))
        self.assertEqual(said, [alone[name] for name in names])

    def test_eight(self):
        """Eight at once, of different subcommands."""
        calls = [['prune', 'all_fates.txt'], ['prune', 'heavy.rules'], ['show', 'counting.txt', '20'],
                 ['show', 'worst.rules'], ['state', 'incident.txt', '2'], ['unpack', 'typical.rules'],
                 ['pack', 'typical.txt'], ['prune', 'worst.txt']]
        calls = [[name, SAMPLES / path, *rest] for name, path, *rest in calls]
        alone = [self.answer(*words) for words in calls]
        with ThreadPoolExecutor(8) as pool:
            self.assertEqual(list(pool.map(lambda words: self.answer(*words), calls)), alone)


class CheckoutTest(CommandTest):
    def checkout(self):
        """A copy of what the command needs, and its samples."""
        copy = self.folder / 'check out'
        for name in ('bin', 'python', 'samples', 'target/lib'):
            shutil.copytree(ROOT / name, copy / name, ignore=shutil.ignore_patterns('__pycache__'))
        return copy

    @staticmethod
    def content(folder):
        """All files of a folder with what is in them."""
        return {path: path.read_bytes() for path in folder.rglob('*') if path.is_file()}

    def test_read_only(self):
        """A checkout that cannot be written, of another user: all works, and no file comes or changes."""
        if not nobody_runs_python():
            self.skipTest('the other user cannot run python3')
        copy = self.checkout()
        before = self.content(copy)
        subprocess.run(['chmod', '-R', 'a-w', copy], check=True)
        self.addCleanup(subprocess.run, ['chmod', '-R', 'u+w', copy], check=True)
        call = {'command': copy / 'bin' / 'tullweth', 'before': as_nobody(), 'variables': {'PYTHONPYCACHEPREFIX': ''}}
        file = copy / 'samples' / 'incident.txt'
        self.assertTrue(self.text('prune', file, **call).startswith(INCIDENT_TABLE))
        self.assertEqual(self.answer('pack', file, **call), before[file.with_suffix('.rules')])
        self.assertIn('0 steps', self.text('watch', file, **call))
        self.assertIn('cannot be written', self.failure('pack', file, '-o', file, **call))
        self.assertEqual(self.content(copy), before)

    def test_library_missing(self):
        """Where the library is not built, one message says what to do."""
        copy = self.checkout()
        shutil.rmtree(copy / 'target')
        for words in (['prune', INCIDENT], ['show', INCIDENT], ['names', INCIDENT], ['watch', INCIDENT],
                      ['import', SAMPLES / 'night.decl']):
            message = self.failure(*words, command=copy / 'bin' / 'tullweth')
            self.assertHas(message, copy / 'target' / 'lib' / 'libtullweth.so', "'make'")
        error = self.json_failure('prune', '--json', INCIDENT, command=copy / 'bin' / 'tullweth')
        self.assertHas(error['message'], "'make'")

    def test_another_library(self):
        """TULLWETH_LIBRARY names the library, also by a relative path; an empty one names none."""
        copy = self.checkout()
        (copy / 'target' / 'lib' / 'libtullweth.so').rename(self.folder / 'moved.so')
        for named in (str(self.folder / 'moved.so'), 'moved.so'):
            variables = {'TULLWETH_LIBRARY': named}
            said = self.text('names', INCIDENT, command=copy / 'bin' / 'tullweth', variables=variables)
            self.assertEqual(said, self.text('names', INCIDENT))
        self.assertEqual(self.text('names', INCIDENT, variables={'TULLWETH_LIBRARY': ''}), said)

    def test_broken_libraries(self):
        """A library that is missing, empty, no library, a folder, or another library, is said with its place."""
        import _ctypes
        broken = {
            str(self.folder / 'missing.so'): 'is not at', str(self.write('empty.so', b'')): 'cannot be used',
            str(self.write('text.so', b'no library\n')): 'cannot be used', str(self.folder): 'cannot be used',
            _ctypes.__file__: 'cannot be used', 'n' * 5000: 'n' * 5000,
        }
        for place, part in broken.items():
            with self.subTest(place[:60]):
                message = self.failure('prune', INCIDENT, variables={'TULLWETH_LIBRARY': place})
                self.assertHas(message, place, part)

    def test_hidden_library(self):
        """A library in a folder that this user may not look into."""
        if not nobody_runs_python():
            self.skipTest('the other user cannot run python3')
        hidden = self.folder / 'hidden'
        hidden.mkdir(mode=0o700)
        variables = {'TULLWETH_LIBRARY': str(hidden / 'libtullweth.so')}
        if os.geteuid() != 0:
            self.addCleanup(hidden.chmod, 0o700)
            hidden.chmod(0)
        self.assertHas(self.failure('prune', INCIDENT, variables=variables, before=as_nobody()), hidden)


if __name__ == '__main__':
    unittest.main()
