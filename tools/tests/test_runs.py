"""Tests of bench/runs.py, which fills the documents' tables from folders of tools/run."""
import copy
import os
import re
import runpy
import types
import unittest
from unittest import mock

import helpers

RUNS = types.SimpleNamespace(**runpy.run_path(str(helpers.TOOLS.parent / 'bench' / 'runs.py'), run_name='runs'))
HEADS = ('file,grid,size,shapes,holed,translation,halfturn,periodic,one_class,heesch_0,heesch_1,outer_1,'
         'undecided_levels,undecided_holes,undecided_turns,undecided_size')
README = '''# The catalogue of hex 7

By `tools/run hex 7 --into FOLDER --shares 9 --first 'turns 20000 levels 3 domain 4 size 60000000' --most 5000000
--passes 'turns 20000 levels 4 domain 6 size 60000000'`, with the program of the sha256 `{sum}` of the commit `abc`, ..

| Heesch number | Cells |
| --- | --- |
| 2 | `0,0 1,0` |
| 2 | 3 more |

| Stage | Limits | Shapes | Decided | Undecided | Bytes of undecided shapes |
| --- | --- | --- | --- | --- | --- |
| shares | `turns 20000 levels 3 domain 4 size 60000000` | 9 | 5 | 4 |  |
| pass 1 | `turns 20000 levels 4 domain 6 size 60000000` | 4 | 2 | 2 | 77 |

| Stage | Processes | Seconds | Processor seconds | Longest | Peak MB of one | Begun (UTC) | Ended (UTC) |
| --- | --- | --- | --- | --- | --- | --- | --- |
| shares | 2 | 3.0 | 1.5 | 1.0 s | 30 | x | x |
| merge | 1 | 0.3 | 0.2 | 0.2 s | 20 | x | x |
| check of catalogue.txt | 1 | 1.2 | 0.5 | 0.5 s | 40 | x | x |
| check of outer.txt | 2 | 1.0 | 0.7 | 0.5 s | 26 | x | x |
| join of pass 1 | 1 | 0.1 |  | 0.0 s |  | x | x |

| File | Has | Bytes | sha256 | `heesch check` |
| --- | --- | --- | --- | --- |
| catalogue.txt | the catalogue | 1234 | `{sum}` | `valid 9` |
| given.txt | no entries | 6 | `{sum}` | `valid 0` |
| outer.txt | the outer numbers | 567 | `{sum}` | `valid 3 in 2 parts` |
'''


def later(run, program='1' * 64):
    """The same run by another program, of a later commit."""
    other = copy.copy(run)
    other.program, other.commit = program, 'def'
    return other


class Tables(helpers.ToolTest):
    """The tables, from a folder that is written by hand."""

    def run_of(self, grid='hex', size=7):
        self.written('README.md', README.format(sum='0' * 64))
        self.written('tally.csv', f'{HEADS}\ncatalogue.txt,{grid},{size},9,1,1,1,1,2,2,1,,1,0,0,1\n')
        self.written('undecided.csv', 'number,cells,verdict,coronas,heesch,open,refuted_domains,refuted_lattices,'
                     'spent_lattices\n5,"0,0 2,0",undecided levels 3,3,,0,"2-6,8",40,2\n'
                     '7,"0,0 3,0",undecided size 1 bare 4,1,1,3,2-8,60,0\n')
        self.written('catalogue.txt', 'heesch 2 hex 7 turns 20000 levels 4 domain 6 size 60000000\n')
        heesch = self.written('heesch', '#!/bin/sh\necho "heesch 0 3"; echo "heesch 1 1"\n')
        os.chmod(heesch, 0o755)
        environment = mock.patch.dict(os.environ, HEESCH=heesch)
        environment.start()
        self.addCleanup(environment.stop)
        return RUNS.Run(self.folder)

    def rows(self, name, run):
        return [RUNS.cells(line) for line in RUNS.TABLES[name]([run]).splitlines()[2:]]

    def test_rows(self):
        run = self.run_of()
        self.assertEqual(self.rows('verdicts', run), [
            ['hex 7', '9', '1', '1', '1', '1', '2', '0: 2, 1: 1', '0: 3, 1: 1', '', 'levels: 1, size: 1',
             'levels 4 domain 6', '0']])
        self.assertEqual(self.rows('open', run), [
            ['hex 7', '5', '0,0 2,0', 'undecided levels 3', '3', '', '0', '2-6,8', '40', '2', 'levels 4 domain 6'],
            ['hex 7', '7', '0,0 3,0', 'undecided size 1 bare 4', '1', '1', '3', '2-8', '60', '0', 'levels 4 domain 6']])
        self.assertEqual(self.rows('largest', run), [['hex 7', '2', '0,0 1,0'], ['hex 7', '2', '3 more']])
        self.assertEqual(self.rows('program', run), [['abc', '0' * 64]])
        self.assertEqual(self.rows('runs', run), [
            ["tools/run hex 7 --most 5000000 --passes 'turns 20000 levels 4 domain 6 size 60000000'",
             'levels 3 domain 4; levels 4 domain 6', '5.6', '2.7', '40', '0.5', '40', '0.2', '20',
             'catalogue.txt', '1234', '0' * 64, 'valid 9'],
            ['', '', '', '', '', '0.7', '26', '', '', 'outer.txt', '567', '0' * 64, 'valid 3 in 2 parts']])

    def test_covers_alone(self):
        """The command says up to which domain a pass looked for covers alone, and so does the column of the limits."""
        run = self.run_of()
        passes = [f"'turns 200000 levels {levels} domain 4 size 60000000'" for levels in (4, 5)]
        run.readme = re.sub('--most.*\n--passes.*`,', f'--most 200000000\n--covers 12 --passes {" ".join(passes)}`,',
                            run.readme)
        self.assertEqual(run.command(), 'tools/run hex 7 --covers 12')
        self.assertEqual(self.rows('verdicts', run)[0][11], 'levels 4 domain 6, covers to 12')

    def test_outer_numbers_that_were_not_judged(self):
        """An earlier tool had nothing said of them."""
        run = self.run_of()
        run.readme = re.sub('[|] check of outer.txt .*\n', '', run.readme).replace('`valid 3 in 2 parts`', '')
        self.assertEqual(self.rows('runs', run)[1], [''] * 9 + ['outer.txt', '567', '0' * 64, ''])

    def test_agreement(self):
        run = self.run_of()
        for figures, wanted in ((['', '4', '', '', ''], 'yes, if of 2 undecided 1 does not tile'),
                                (['1', '3', '', '', ''], 'yes, if of 2 undecided 0 do not tile'),
                                (['', '6', '', '', ''], '**no**'), (['', '2', '', '', ''], '**no**'),
                                (['2', '4', '', '', ''], '**no**')):
            self.assertEqual(RUNS.agreement(run, figures), wanted, figures)
        run.tally.update(undecided_levels='0', undecided_size='0')
        for figures, wanted in ((['', '3', '', '', ''], 'yes'), (['1', '3', '2', '1', '0'], 'yes'),
                                (['', '3', '1', '2', '0'], '**no**'), (['', '4', '', '', ''], '**no**')):
            self.assertEqual(RUNS.agreement(run, figures), wanted, figures)

    def test_published_figures_stay(self):
        """The figures of others are as they stood, and only a size that ran is compared anew."""
        documents = (RUNS.TOP / 'docs/TABLES.md').read_text(encoding='utf-8')
        before = next(match[0] for match in RUNS.MARK.finditer(documents) if match[1] == 'agreement')
        before = re.sub('(`hex [67]`.*[|]) .* [|]', r'\1 no run |', before).rstrip() + '\n'
        wanted = re.sub('(`hex 7`.*[|]) no run [|]', r'\1 **no** |', before)
        self.assertEqual((RUNS.filled(before, [self.run_of()]), wanted.count('**no**')), (wanted, 1))
        self.assertEqual(RUNS.filled(before, [self.run_of('kite')]), before)

    def test_filled(self):
        """A table behind a mark is made anew, and what stands around it stays."""
        text = 'one\n\n<!-- bench/runs.py program -->\n\n| old |\n|---|\n| row |\n\ntwo\n'
        wanted = text.replace('| old |\n|---|\n| row |', RUNS.program_of([self.run_of()]))
        self.assertEqual(RUNS.filled(text, [self.run_of()]), wanted)
        self.assertEqual(RUNS.filled(wanted, [self.run_of()]), wanted)

    def test_sizes_of_a_mark(self):
        """A mark may name the least and the greatest size of a grid; of a grid that it doesn't name it has all."""
        mark = RUNS.Mark(RUNS.MARK.fullmatch('<!-- bench/runs.py open from hex 7, kite 8 to square 12, hex 10 -->\n'))
        for name, wanted in (('hex 6', False), ('hex 7', True), ('hex 10', True), ('hex 11', False), ('kite 7', False),
                             ('kite 99', True), ('square 1', True), ('square 13', False), ('iamond 99', True)):
            self.assertEqual((name, mark.has(name)), (name, wanted))

    def test_a_table_without_a_run_stays(self):
        for sizes in ('from hex 8', 'to hex 6', 'from hex 1 to hex 6'):
            text = f'one\n<!-- bench/runs.py verdicts {sizes} -->\n\n| as it |\n\n\n| stands |\n\n\ntwo\n'
            self.assertEqual(RUNS.filled(text, [self.run_of()]), text)

    def test_rows_of_other_sizes_stay(self):
        """Those of a size that ran are made anew, whether it had none before, one or many."""
        run = self.run_of()
        for name in ('verdicts', 'published', 'open', 'largest', 'runs'):
            head, line, *rows = RUNS.TABLES[name]([run]).split('\n')
            first, second, third, last = ([row.replace('hex 7', other).replace('9', '10') for row in rows]
                                          for other in ('square 8', 'hex 6', 'hex 10', 'kite 1'))
            start = f'<!-- bench/runs.py {name} to hex 10 -->\n\n{head}\n{line}\n'
            wanted = start + '\n'.join([*first, *second, *rows, *third, *last, '', 'end\n'])
            for ours in ([], rows[:1], rows[:1] * 3):
                text = start + '\n'.join([*first, *second, *ours, *third, *last, '', 'end\n'])
                self.assertEqual(RUNS.filled(text, [run]), wanted)

    def test_rows_of_a_size_may_go(self):
        """A shape that was undecided may be decided now."""
        run = self.run_of()
        text = RUNS.filled('<!-- bench/runs.py open -->\n', [run, self.run_of(size=6)])
        run.open = []
        self.assertEqual(re.findall('hex [0-9]+', RUNS.filled(text, [run])), ['hex 6', 'hex 6'])

    def test_mixtures_are_refused(self):
        """All tables of a range are of one program, and those of another range may be of another."""
        six, seven, eight = (self.run_of(size=size) for size in (6, 7, 8))
        marks = [f'<!-- bench/runs.py {name} {sizes} -->\n\n' for sizes in ('to hex 7', 'from hex 8')
                 for name in ('program', 'verdicts', 'open')]
        text, lower = (RUNS.filled(''.join(some), [six, seven, eight]) for some in (marks, marks[:3]))
        for runs in ([six], [seven, eight], [later(eight)], [six, later(eight)], [later(six), later(seven)],
                     [later(six), later(seven), eight]):
            self.assertEqual(list(RUNS.faults([text], runs)), [])
        several = 'the runs are of several programs, and a table is of one'
        stay = 'rows of another program, or with other columns, would stay: no folder is given of hex 6'
        for words, runs, wanted in (
                (text, [later(six), seven], several), (text, [later(seven)], stay), (text, [later(seven), eight], stay),
                (text, [later(seven, seven.program)], stay), (text.replace('Holed', 'With a hole'), [seven], stay),
                (lower, [eight], 'no mark `program` has hex 8')):
            self.assertEqual(list(RUNS.faults([words], runs)), [wanted])

    def test_each_table_has_a_program(self):
        """A mark without one is told, as is a line that is nearly a mark; those of the documents have one."""
        for words, wanted in (('open', 'no mark `program` has all sizes of `<!-- bench/runs.py open -->`'),
                              ('open upto hex 7', 'a line `<!-- bench/runs.py ..` is no mark')):
            text = f'<!-- bench/runs.py program to hex 7 -->\n\n<!-- bench/runs.py {words} -->\n'
            self.assertEqual(list(RUNS.faults([text], [])), [wanted])
        documents = [(RUNS.TOP / name).read_text(encoding='utf-8') for name in RUNS.DOCUMENTS]
        self.assertEqual(list(RUNS.faults(documents, [])), [])

    def test_publish(self):
        """Small catalogues are copied, and four sizes get a page; of others nothing is made."""
        for folder in ('catalogues', 'docs/atlas'):
            (self.folder / 'top' / folder).mkdir(parents=True)
        run = self.run_of(size=7)
        RUNS.publish([run], self.folder / 'top')
        self.assertEqual([path for path in (self.folder / 'top').rglob('*') if path.is_file()], [])
        for size in (5, 6):
            run = self.run_of(size=size)
            self.written('catalogue.txt', helpers.read(f'hex-{size}.txt'))
            RUNS.publish([run], self.folder / 'top')
            self.assertEqual((self.folder / f'top/catalogues/hex-{size}.txt').read_text(),
                             helpers.read(f'hex-{size}.txt'))
        self.assertIn('polyhexes of 6 cells', (self.folder / 'top/docs/atlas/hex-6.html').read_text().lower())
        self.assertEqual(len([path for path in (self.folder / 'top').rglob('*') if path.is_file()]), 3)


if __name__ == '__main__':
    unittest.main()
