"""Tests of tools/lrat: what it writes, by a small LRAT checker, and what it refuses."""
import pathlib
import unittest

from helpers import ToolTest, data, needs_program, program, tool

from polyforms import grids
from polyforms.placements import Universe

OCTOMINO = '1,0 1,1 0,2 1,2 2,2 3,2 1,3 1,4\n'


def numbers(line):
    return [int(word) for word in line.split()]


def read_formula(path):
    """The clauses of a text `p cnf V C` by their numbers; their count has to be C, their variables up to V."""
    lines = pathlib.Path(path).read_text(encoding='ascii').splitlines()
    variables, count = numbers(lines[0][len('p cnf '):])
    clauses = {number: set(numbers(line)[:-1]) for number, line in enumerate(lines[1:], 1)}
    if len(clauses) != count or any(abs(literal) > variables for clause in clauses.values() for literal in clause):
        raise AssertionError('not the numbers of the first line')
    return clauses


def refutes(clauses, proof):
    """Whether the lines of a proof hold, each by its hints in their order, and the last is the empty clause."""
    clauses, last = dict(clauses), None
    for line in proof.splitlines():
        number, *rest = numbers(line)
        last, hints = rest[:rest.index(0)], rest[rest.index(0) + 1:-1]
        if number <= max(clauses) or not follows(last, [clauses.get(hint) for hint in hints]):
            return False
        clauses[number] = set(last)
    return last == []


def follows(clause, hints):
    """Whether unit propagation over just these clauses, in this order, ends in a conflict where the clause is false."""
    true = {-literal for literal in clause}
    for place, hint in enumerate(hints, 1):
        if hint is None or hint & true:
            return False
        rest = [literal for literal in hint if -literal not in true]
        if not rest:
            return place == len(hints)
        if len(rest) > 1:
            return False
        true.add(rest[0])
    return False


class Universes(unittest.TestCase):
    """The numbers of variables that docs/FORMAT.md has, in the two versions."""

    def test_counts(self):
        for name, cells, level, counts in (
                ('square', [(0, 0)], 2, (24, 24)), ('square', [(0, 0), (1, 0)], 1, (24, 44)),
                ('square', [(0, 0), (1, 0), (0, 1)], 2, (288, 619)), ('hex', [(0, 0), (1, 0)], 2, (144, 288)),
                ('iamond', [(1, 1), (4, 1), (2, 2)], 2, (288, 673))):
            universe = Universe(grids.named(name), cells, level)
            self.assertEqual((universe.variable_count(1), universe.variable_count(2)), counts, (name, cells))

    def test_cut(self):
        universe = Universe(grids.named('square'), [(0, 0)], 2)
        self.assertEqual(universe.cut_clause(2, [(1, 1)], [5, 7, 19, 23]), [-5, -7, 8, -19, -23])


class Refused(ToolTest):
    """Bad inputs."""

    def lrat(self, *words):
        return tool('lrat', *words, '--into', self.folder / 'f', '--program', '/bin/true')

    def test_texts(self):
        self.assert_refuses_bad_texts('lrat', behind=('1', '--into', self.folder / 'f', '--program', '/bin/true'))
        self.assert_refused(self.lrat(data('square-8-brief.txt'), 1), 'line 1', 'brief')
        self.assert_refused(self.lrat(data('outer-hex.txt'), 1), 'line 1', 'outer')

    def test_entries(self):
        for entry in (0, 11, 'x'):
            self.assert_refused(self.lrat(data('kite-4.txt'), entry))
        self.assert_refused(self.lrat(data('hex-6.txt'), 1), 'entry 1 has no refuted wall: verdict tiles')
        self.assert_refused(self.lrat(data('undecided-holes.txt'), 1, '--bare'), 'entry 1 has no refuted bare')

    def test_program(self):
        for path, part in (('no-such', 'no-such'), ('/bin/false', 'status 1'), ('/bin/true', 'no formula')):
            called = tool('lrat', data('hex-6.txt'), 38, '--into', self.folder / 'f', '--program', path)
            self.assert_refused(called, part)
        self.assertEqual(list(self.folder.iterdir()), [])


@needs_program
class Written(ToolTest):
    """Refutations, with the built program."""

    def assert_refutes(self, catalogue, entry, *further):
        """That the two files that the tool writes are a refutation, and aren't with another hint; what it says."""
        name = self.folder / 'f'
        said = self.done('lrat', catalogue, entry, '--into', name, *further)
        clauses, proof = read_formula(f'{name}.cnf'), pathlib.Path(f'{name}.lrat').read_text(encoding='ascii')
        self.assertTrue(refutes(clauses, proof))
        *before, last, end = proof.split(' ')
        self.assertFalse(refutes(clauses, ' '.join([*before, before[-1], end])), last)
        return said

    def test_without_cuts(self):
        for catalogue in map(data, ('hex-6.txt', 'iamond-7-version-1.txt')):
            entry = self.done('select', catalogue, '--heesch', '1', '--numbers').split('\t')[0]
            said = self.assert_refutes(catalogue, entry)
            self.assertFalse(said.startswith('c '))
            self.assertEqual(said, self.assert_refutes(catalogue, entry, '--bare'))

    def test_cuts(self):
        for version in (1, 2):
            words = ('classify', 'square', 'given', '--levels', 2, '--domain', 1, '--version', version)
            catalogue = self.written('c.txt', program(*words, text=OCTOMINO))
            self.assertIn('are those of cuts; that they are lawful rests on', self.assert_refutes(catalogue, 1))
            self.assertFalse(self.assert_refutes(catalogue, 1, '--bare').startswith('c '))

    def test_empty_clause(self):
        name = self.folder / 'f'
        self.assertEqual(self.done('lrat', data('hex-6.txt'), 71, '--into', name), 'clause 7 is empty\n')
        self.assertEqual([path.name for path in self.folder.iterdir()], ['f.cnf'])


if __name__ == '__main__':
    unittest.main()
