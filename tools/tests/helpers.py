"""What the tests of the tools share: the catalogues that stand here, calls of a tool, and texts that are none.

Tests that need the program `heesch` run only where the environment has HEESCH=PATH; mark them by `needs_program`.
Those that need a program of others too are marked by `needs_outside`. So without HEESCH the tests need Python alone.
"""
import contextlib
import io
import itertools
import os
import pathlib
import runpy
import shutil
import subprocess
import sys
import tempfile
import unittest
from unittest import mock

TOOLS = pathlib.Path(__file__).resolve().parent.parent
DATA, CATALOGUES = TOOLS / 'tests' / 'data', TOOLS.parent / 'catalogues'
PROGRAM = os.environ.get('HEESCH')
REFUSED = 2
SECONDS = 300  # after which a call has failed, on a busy machine too

sys.path.insert(0, str(TOOLS))

needs_program = unittest.skipUnless(PROGRAM, 'HEESCH names no program')


def needs_outside(*names):
    """Marks tests that need one of these commands of others: they run beside HEESCH, where one is there."""
    has_one = any(shutil.which(name) for name in names)
    return unittest.skipUnless(PROGRAM and has_one, f'HEESCH names no program, or there is no {" or ".join(names)}')


def data(name):
    """The path of a text that stands here, or else of one in `catalogues`, as a word."""
    return str(next(path for path in (DATA / name, CATALOGUES / name) if path.exists()))


def read(name):
    """The text of such a file."""
    return pathlib.Path(data(name)).read_text(encoding='ascii')


def called(name, *words):
    """A finished call of a tool in this process, which costs no start of another; it reads no standard input."""
    output, faults, path = io.TextIOWrapper(io.BytesIO()), io.StringIO(), str(TOOLS / name)
    with mock.patch.object(sys, 'argv', [path, *map(str, words)]), \
            contextlib.redirect_stdout(output), contextlib.redirect_stderr(faults):
        try:
            runpy.run_path(path, run_name='__main__')
            status = None
        except SystemExit as end:
            status = end.code
    return subprocess.CompletedProcess(name, status, output.buffer.getvalue().decode(), faults.getvalue())


def tool(name, *words, text=None):
    """A finished call of a tool as a process: its status `returncode`, and `stdout` and `stderr` as words."""
    command = [sys.executable, '-S', str(TOOLS / name), *map(str, words)]  # -S: no packages, and a quicker start
    return subprocess.run(command, input=text, text=True, capture_output=True, timeout=SECONDS, check=False)


def program(*words, text=''):
    """What the program writes for these words; its status has to be 0 or 1."""
    done = subprocess.run([PROGRAM, *map(str, words)], input=text, text=True, capture_output=True,
                          timeout=SECONDS, check=False)
    if done.returncode not in (0, 1):
        raise AssertionError(f'{words}: status {done.returncode}, {done.stdout[:200]}')
    return done.stdout


class ToolTest(unittest.TestCase):
    """A test with a folder of its own for what it writes."""

    def setUp(self):
        folder = tempfile.TemporaryDirectory()
        self.addCleanup(folder.cleanup)
        self.folder = pathlib.Path(folder.name)

    def written(self, name, text):
        """The path of a file of the test's own folder that has this text, which may be bytes."""
        path = self.folder / name
        path.write_bytes(text if isinstance(text, bytes) else text.encode('ascii'))
        return str(path)

    def done(self, name, *words, text=None):
        """What a tool writes to standard output, where it ends well and is quiet."""
        result = called(name, *words) if text is None else tool(name, *words, text=text)
        self.assertEqual((result.returncode, result.stderr), (0, ''))
        return result.stdout

    def assert_same_text(self, text, expected):
        """That two texts are the same; where they aren't, it says the first line that differs, and no more."""
        for number, (line, wanted) in enumerate(itertools.zip_longest(text.splitlines(), expected.splitlines()), 1):
            self.assertEqual((number, line), (number, wanted))
        self.assertTrue(text == expected, 'the texts end differently')

    def assert_refused(self, result, *parts):
        """That a call ended with status 2 and one line on standard error, which has these parts."""
        self.assertEqual(result.returncode, REFUSED, result.stderr)
        self.assertRegex(result.stderr, r'\A[a-z]+: [^\n]+\n\Z')
        for part in parts:
            self.assertIn(part, result.stderr)

    def assert_refuses_bad_texts(self, name, *words, behind=()):
        """That a tool refuses a missing file, an empty, a truncated and a binary one, and a text of another kind.

        The words of the call are `words`, the path of the text, and those of `behind`.
        """
        missing = str(self.folder / 'missing.txt')
        self.assert_refused(called(name, *words, missing, *behind), missing)
        for path, part in self.bad_texts():
            with self.subTest(tool=name, path=path):
                self.assert_refused(called(name, *words, path, *behind), path, part)

    def bad_texts(self):
        """Paths of texts that are none, each with the place that a fault has to tell."""
        whole = read('kite-4.txt')
        return [(self.written('empty.txt', ''), 'line 1: '),
                (self.written('inside-header.txt', whole[:20]), 'line 1: '),
                (self.written('inside-line.txt', whole[:100]), 'line 3: '),
                (self.written('behind-header.txt', whole[:whole.index('\n') + 1]), 'line 2: '),
                (self.written('binary.txt', bytes(range(256)) * 64), 'line 1: '),
                (self.written('zeros.txt', bytes(100_000)), 'line 1: '),
                (self.written('shapes.txt', '0,0 1,0\n0,0\n'), 'line 1: '),
                (self.written('tally.txt', 'shapes 1\nholed 0\n'), 'line 1: ')]
