"""Tries the printing program, crates/prune/out/prune, from the outside: reads and writes that fail.

It has no status; it says on standard error what failed, and prints nothing then.
"""

import subprocess
import unittest
from pathlib import Path

ROOT = Path(__file__).resolve().parent.parent.parent
PROGRAM = ROOT / 'crates' / 'prune' / 'out' / 'prune'
INCIDENT = ROOT / 'samples' / 'incident.rules'


def run(words, **streams):
    """The program, started by a shell command that ends in "$0"."""
    done = subprocess.run(['bash', '-c', words, str(PROGRAM), str(INCIDENT)], capture_output=True, text=True,
                          timeout=60, check=False, **streams)
    return done.returncode, done.stdout, done.stderr


class Reads(unittest.TestCase):
    def test_a_folder_is_no_input(self):
        self.assertEqual(run('exec "$0" < /'), (0, '', 'prune: standard input: Is a directory\n'))

    def test_a_closed_input(self):
        self.assertEqual(run('exec "$0" <&-'), (0, '', 'prune: standard input: Bad file descriptor\n'))

    def test_an_empty_input_is_a_file_without_a_step(self):
        self.assertEqual(run('exec "$0" < /dev/null'), (0, 'refused 13\n', ''))

    def test_input_that_comes_in_two_parts(self):
        status, said, failed = run('{ head -c 50; sleep 0.1; cat; } < "$1" | "$0"')
        self.assertEqual((status, said.splitlines()[-1], failed), (0, '3 1 4 0', ''))


class Writes(unittest.TestCase):
    def test_a_full_disk_is_said(self):
        status, said, failed = run('exec "$0" < "$1" > /dev/full')
        self.assertEqual((status, said, failed.count('\n')), (0, '', 1))
        self.assertIn('standard output', failed)

    def test_a_closed_output_is_said(self):
        status, _, failed = run('exec "$0" < "$1" >&-')
        self.assertEqual((status, failed.count('\n')), (0, 1))
        self.assertIn('standard output', failed)

    def test_where_nothing_can_be_said_the_status_stays(self):
        self.assertEqual(run('exec "$0" < / 2> /dev/full'), (0, '', ''))
        self.assertEqual(run('exec "$0" < "$1" > /dev/full 2> /dev/full'), (0, '', ''))


if __name__ == '__main__':
    unittest.main()
