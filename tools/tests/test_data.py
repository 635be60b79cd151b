"""The texts that stand here, and those of `catalogues`, are what the program makes; it takes them for valid."""
import hashlib
import re
import subprocess
import unittest

import helpers

VALID = {'square-7.txt': 108, 'hex-6.txt': 82, 'iamond-7.txt': 24, 'kite-4.txt': 10, 'kite-4-second.txt': 4,
         'kite-4-domain-6.txt': 10, 'iamond-7-version-1.txt': 24, 'undecided-holes.txt': 1, 'undecided-turns.txt': 1,
         'undecided-size.txt': 1}


class Sums(unittest.TestCase):
    def test_they_are_those_of_the_runs(self):
        """Where the runs have been made anew by a later program, older texts here are found without that program."""
        runs = (helpers.TOOLS.parent / 'docs' / 'RUNS.md').read_text()
        rows = re.findall(r'`tools/run ([a-z]+) ([0-9]+).*\| catalogue\.txt \| [0-9]+ \| `([0-9a-f]{64})`', runs)
        sums = {f'{grid}-{size}.txt': total for grid, size, total in rows}
        for path in [*helpers.CATALOGUES.glob('*.txt'), helpers.DATA / 'kite-4-domain-6.txt']:
            name = path.name.replace('-domain-6', '')
            self.assertEqual((name, sums.get(name)), (name, hashlib.sha256(path.read_bytes()).hexdigest()))


@helpers.needs_program
class Data(helpers.ToolTest):
    def test_the_program_makes_them(self):
        subprocess.run([helpers.DATA / 'make', helpers.PROGRAM, self.folder], check=True, timeout=helpers.SECONDS)
        made = {path.name: path.read_text() for path in self.folder.iterdir()}
        self.assertLessEqual({path.name for path in helpers.DATA.glob('*.txt')}, made.keys())
        for name, text in made.items():
            self.assertTrue(text == helpers.read(name), name)

    def test_they_are_valid(self):
        for name, count in VALID.items():
            self.assertEqual((name, helpers.program('check', text=helpers.read(name))), (name, f'valid {count}\n'))
        for path in helpers.CATALOGUES.glob('*.txt'):
            with self.subTest(path=path):
                self.assertRegex(helpers.program('check', text=path.read_text()), '^valid ')
        shares = helpers.read('kite-4-share-1.txt') + helpers.read('kite-4-share-2.txt')
        self.assertEqual(helpers.program('join', text=shares), helpers.read('kite-4.txt'))


if __name__ == '__main__':
    unittest.main()
