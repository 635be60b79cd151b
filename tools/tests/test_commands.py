"""What every tool has in common as a command: its help, its one line for a fault, and how it ends."""
import os
import subprocess
import sys
import unittest

import helpers

KITE = helpers.data('kite-4.txt')


def commands():
    """The names of all tools."""
    return sorted(path.name for path in helpers.TOOLS.iterdir() if path.is_file() and os.access(path, os.X_OK))


def shell(line):
    """A finished shell command in the folder of the tools, with Python as `$PYTHON` and a catalogue as `$KITE`."""
    environment = {**os.environ, 'PYTHON': f'{sys.executable} -S', 'KITE': KITE}
    return subprocess.run(['bash', '-c', line], cwd=helpers.TOOLS, env=environment, text=True, capture_output=True,
                          timeout=helpers.SECONDS, check=False)


class Commands(helpers.ToolTest):
    def test_tools(self):
        self.assertLessEqual({'draw', 'export', 'merge', 'select'}, set(commands()))
        for name in commands():
            self.assertTrue((helpers.TOOLS / name).read_text().startswith('#!/usr/bin/env python3\n"""'), name)

    def test_help(self):
        for name in commands():
            with self.subTest(name):
                words = self.done(name, '--help')
                self.assertRegex(words, r'\Ausage: ' + name)
                self.assertIn(f'tools/{name} ', words)
                self.assertIn('heesch check', words)

    def test_unknown_words(self):
        for name in commands():
            with self.subTest(name):
                self.assert_refused(helpers.called(name, '--no-such-option'), name)

    def test_a_process_ends_as_a_call_does(self):
        for words in (('select', KITE), ('select', 'missing'), ('draw', KITE, 1), ('export', '--latex', KITE)):
            process, call = helpers.tool(*words), helpers.called(*words)
            self.assertEqual((process.returncode, process.stdout, process.stderr),
                             (call.returncode or 0, call.stdout, call.stderr))

    def test_a_reader_that_goes_is_no_fault(self):
        for tool in ('select', 'export'):
            done = shell(f'$PYTHON {tool} {helpers.data("square-8-brief.txt")} | head -n 1; echo ${{PIPESTATUS[0]}}')
            self.assertEqual((done.stdout.splitlines()[1] in ('0', '141'), done.stderr), (True, ''))

    def test_streams_that_fail(self):
        for line, part in (('$PYTHON select $KITE > /dev/full', 'No space left on device'),
                           ('$PYTHON merge $KITE ' + helpers.data('kite-4-second.txt') + ' > /dev/full', 'No space'),
                           ('$PYTHON select $KITE >&-', 'standard output is closed'),
                           ('$PYTHON select - <&-', 'standard input: '), ('$PYTHON select .', 'directory')):
            self.assert_refused(shell(line), part)

    def test_names_of_files_may_be_any(self):
        path = os.path.join(os.fsencode(self.folder), b'a\xff\n"b.txt')
        with open(path, 'wb') as file:
            file.write(helpers.read('kite-4.txt').encode())
        done = subprocess.run([sys.executable, '-S', helpers.TOOLS / 'export', path], capture_output=True, check=False)
        self.assertEqual((done.returncode, done.stderr), (0, b''))
        self.assertIn(b'a\xff\n""b.txt"\n', done.stdout)
        done = helpers.tool('select', os.fsdecode(path) + 'c')
        self.assert_refused(done, 'No such file')


if __name__ == '__main__':
    unittest.main()
