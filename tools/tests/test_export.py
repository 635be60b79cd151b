"""tools/export: rows of shapes and tallies, as csv, json and LaTeX."""
import csv
import io
import json
import subprocess
import unittest

import helpers

EACH_GRID = ('square-7.txt', 'hex-6.txt', 'iamond-7.txt', 'kite-4.txt')
# as `heesch table` tells of these four: shapes, holed, translation, halfturn, periodic, isohedral, heesch 0 to 2
TABLES = {'square': (108, 1, 41, 60, 3, 102, 2, 2, 0), 'hex': (82, 1, 36, 39, 2, 76, 1, 3, 1),
          'iamond': (24, 0, 0, 21, 2, 21, 0, 1, 0), 'kite': (10, 0, 0, 0, 1, 0, 4, 1, 0)}
COUNTS = ('shapes', 'holed', 'translation', 'halfturn', 'periodic', 'one_class', 'heesch_0', 'heesch_1', 'heesch_2')


class Export(helpers.ToolTest):
    def json_rows(self, *words):
        """The rows that are written as JSON."""
        return [json.loads(line) for line in self.done('export', '--json', *words).splitlines()]

    def csv_rows(self, *words):
        """The rows that are written as csv."""
        return list(csv.DictReader(io.StringIO(self.done('export', *words))))

    def test_rows(self):
        rows = self.json_rows(*map(helpers.data, EACH_GRID))
        self.assertEqual(len(rows), 108 + 82 + 24 + 10)
        known = {'grid': 'hex', 'size': 6, 'number': 41, 'verdict': 'heesch', 'heesch': 2, 'nontiler': 3,
                 'holed': False, 'coronas': 2, 'kind': None, 'domain': None, 'classes': None, 'outer': None,
                 'undecided': None, 'version': 2, 'limit_turns': 20000, 'limit_levels': 3, 'limit_domain': 4,
                 'limit_size': 60000000, 'file': helpers.data('hex-6.txt')}
        row = rows[108 + 40]
        self.assertEqual({field: row[field] for field in known}, known)
        self.assertEqual(' '.join(f'{a},{b}' for a, b in row['cells']),
                         self.done('select', helpers.data('hex-6.txt'), '--heesch', 2).strip())

    def test_csv_and_json_say_the_same(self):
        for name in ('undecided-turns.txt', 'iamond-7-version-1.txt', 'kite-4-share-1.txt', 'square-8-brief.txt',
                     'outer-square.txt'):
            for row, other in zip(self.csv_rows(helpers.data(name)), self.json_rows(helpers.data(name)), strict=True):
                other['cells'] = ' '.join(f'{a},{b}' for a, b in other['cells'])
                words = {field: '' if value is None else str(value).lower() if isinstance(value, bool) else str(value)
                         for field, value in other.items()}
                self.assertEqual(row, words)
                self.assertEqual(list(row), list(words))

    def test_what_is_not_known_is_empty(self):
        holed, octomino, tiler = self.csv_rows(helpers.data('outer-square.txt'))
        for row in (holed, octomino, tiler):
            self.assertEqual([row[field] for field in ('grid', 'holed', 'version', 'limit_turns')], [''] * 4)
        self.assertEqual([row['outer'] for row in (holed, octomino, tiler)], ['0', '1', ''])
        self.assertEqual([row['heesch'] for row in (holed, octomino, tiler)], ['0', '0', ''])
        turns = self.csv_rows(helpers.data('undecided-turns.txt'))[0]
        self.assertEqual([turns[field] for field in ('verdict', 'heesch', 'nontiler', 'undecided', 'phase', 'goal',
                                                     'coronas')], ['undecided', '', '', 'turns', 'free', '1', '0'])

    def test_a_given_grid(self):
        rows = self.csv_rows(helpers.data('outer-square.txt'), '--grid', 'square')
        self.assertEqual([(row['grid'], row['holed']) for row in rows],
                         [('square', 'true'), ('square', 'false'), ('square', 'false')])

    def test_tallies(self):
        for row in self.json_rows('--tally', *map(helpers.data, EACH_GRID)):
            shapes, holed, *kinds, one_class, zero, one, two = TABLES[row['grid']]
            self.assertEqual(tuple(row[field] for field in COUNTS),
                             (shapes, holed, *kinds, one_class, zero - holed, one, two))
            undecided = sum(row[f'undecided_{limit}'] for limit in ('levels', 'holes', 'turns', 'size'))
            self.assertEqual(undecided, 4 if row['grid'] == 'kite' else 0)
            self.assertEqual(shapes, holed + sum(kinds) + row['heesch_0'] + one + two + undecided)

    def test_tallies_of_other_texts(self):
        outer = self.json_rows('--tally', '--grid', 'kite', helpers.data('outer-kite-4.txt'))[0]
        self.assertEqual([outer[field] for field in ('shapes', 'outer_0', 'outer_1', 'size', 'version')],
                         [10, 4, 1, None, None])
        share = self.csv_rows('--tally', helpers.data('kite-4-share-1.txt'), helpers.data('square-8-brief.txt'))
        self.assertEqual([(row['share'], row['shapes'], row['holed']) for row in share],
                         [('1 of 2', '5', '0'), ('', '369', '6')])
        given = self.csv_rows('--tally', helpers.data('undecided-holes.txt'))[0]
        self.assertEqual((given['size'], given['undecided_holes']), ('given', '1'))

    def test_latex(self):
        table = self.done('export', '--tally', '--latex', *map(helpers.data, EACH_GRID))
        self.assertIn('square & 7 & 108 & 1 & 41 & 60 & 3 & 102 & 1 & 2 & 0 & 0 \\\\\n', table)
        self.assertIn('kite & 4 & 10 & 0 & 0 & 0 & 1 & 0 & 4 & 1 & 0 & 4 \\\\\n', table)
        lines = [line for line in table.splitlines() if line.endswith('\\\\')]
        spread = [line.count('&') + (3 + 2 if 'multicolumn' in line else 0) for line in lines]
        self.assertEqual(spread, [11] * len(lines))

    @helpers.needs_outside('pdflatex')
    def test_latex_compiles(self):
        table = self.done('export', '--tally', '--latex', *map(helpers.data, EACH_GRID))
        self.written('t.tex', f'\\documentclass{{article}}\\begin{{document}}\n{table}\\end{{document}}\n')
        done = subprocess.run(['pdflatex', '-interaction=nonstopmode', '-halt-on-error', 't.tex'], cwd=self.folder,
                              capture_output=True, timeout=helpers.SECONDS, check=False)
        self.assertEqual(done.returncode, 0, done.stdout[-2000:])

    def test_refusals(self):
        kite, outer = helpers.data('kite-4.txt'), helpers.data('outer-kite-4.txt')
        for words, part in (((), 'CATALOGUE'), ((kite, '--latex'), '--latex is a form of --tally'),
                            ((kite, '--csv', '--json'), 'not allowed with'), ((kite, '--grid', 'hex'), 'grid kite'),
                            ((outer, '--tally'), f'{outer}: line 1: an outer text doesn\'t say its grid')):
            self.assert_refused(helpers.called('export', *words), part)

    def test_bad_texts(self):
        self.assert_refuses_bad_texts('export')
        self.assert_refuses_bad_texts('export', '--tally', helpers.data('kite-4.txt'))

    @helpers.needs_program
    def test_tallies_are_those_of_the_program(self):
        for name in EACH_GRID + ('square-8-brief.txt',):
            lines = helpers.program('table', text=helpers.read(name)).splitlines()
            table = {line.rpartition(' ')[0]: int(line.rpartition(' ')[2]) for line in lines}
            row = self.json_rows('--tally', helpers.data(name))[0]
            for field in ('shapes', 'holed', 'translation', 'halfturn', 'periodic'):
                self.assertEqual(row[field], table[field])
            self.assertEqual(row['one_class'], table['isohedral'])
            self.assertEqual(row['heesch_0'] + row['holed'], table.get('heesch 0', 0))
            self.assertEqual(row['heesch_1'], table.get('heesch 1', 0))


if __name__ == '__main__':
    unittest.main()
