"""Tests of what tools/run has judged of the outer numbers, with a double in place of the program."""
import os
import unittest

from helpers import TOOLS, ToolTest, tool

import double
from running.folder import Folder

DOUBLE = TOOLS / 'tests' / 'double.py'
WORDS = ('kite', 4, '--shares', 2, '--first', 'domain 4', '--passes', '--outer')


class OuterNumbers(ToolTest):
    """Whole runs over kite 4, whose shapes with a Heesch number are parts of one shape each."""

    def setUp(self):
        super().setUp()
        self.into = self.folder / 'into'
        outer = double.entries(double.text('outer-kite-4.txt'))
        self.shapes = [cells for cells, entry in outer.items() if '\nverdict heesch ' in entry]
        self.wanted = ''.join([*map(outer.get, self.shapes), f'end {len(self.shapes)}\n'])

    def run_tool(self, heesch=DOUBLE):
        return tool('run', *WORDS, '--into', self.into, '--program', heesch, '--jobs', 2)

    def stub(self, condition, body):
        """A double that does otherwise where a condition on its words and its input holds."""
        path = self.written('stub', f'#!/bin/sh\nif {condition}; then {body}; fi\nexec {DOUBLE} "$@"\n')
        os.chmod(path, 0o755)
        return path

    def assert_made(self):
        """That the text stands, with what was said of it."""
        self.assertEqual((self.into / 'outer.txt').read_text(), self.wanted)
        parts, readme = len(self.shapes), (self.into / 'README.md').read_text()
        self.assertRegex(readme, rf'\| outer.txt \| the outer numbers \| {len(self.wanted)} '
                                 rf'\| `[0-9a-f]{{64}}` \| `valid {parts} in {parts} parts` \|\n')
        self.assertRegex(readme, rf'\| check of outer.txt \| {parts} \| [0-9.]+ \| [0-9.]+ \| [0-9.]+ s \| [0-9]+ \|')
        self.assertIn(f'under these limits said `valid {parts} in {parts} parts`. Each part', readme)
        self.assertIn('`heesch check outer kite given --turns 20000 --levels 3 --domain 1 --size 60000000 < outer.txt`',
                      readme)
        self.assertEqual(sum(line['stage'] == 'check of outer.txt' for line in Folder(self.into).journal()), parts)

    def test_judged(self):
        result = self.run_tool()
        self.assertEqual(result.returncode, 0, result.stderr)
        self.assert_made()

    def test_invalid_part(self):
        """It ends the run, and no text of the outer numbers stands."""
        wrong = self.stub('[ "$1" = outer ]', f'{DOUBLE} "$@" | sed "s/^hh 0$/hh 1/"; exit 0')
        result = self.run_tool(wrong)
        self.assertEqual(result.returncode, 2)
        self.assertRegex(result.stderr.splitlines()[-1], 'run: [0-9]+ of the parts of the check of outer.txt failed '
                         'twice, the first of them part [0-9]+ of [0-9]+ of the outer numbers: status 1, the input is '
                         'not valid: invalid entry 1; what is done is kept')
        self.assertFalse((self.into / 'outer.txt').exists())

    def test_goes_on(self):
        """Called again it judges what wasn't judged, and no part twice."""
        flag = self.written('flag', '')
        failing = self.stub(f'[ "$1 $2" = "check outer" ] && [ -e {flag} ] && readlink /proc/$$/fd/0 | '
                            'grep -q /outer/0002.txt', 'exit 6')
        result = self.run_tool(failing)
        self.assertIn('1 of the parts of the check of outer.txt failed twice, the first of them part 2 of ',
                      result.stderr.splitlines()[-1])
        os.remove(flag)
        self.assertEqual(self.run_tool(failing).returncode, 0)
        self.assert_made()


if __name__ == '__main__':
    unittest.main()
