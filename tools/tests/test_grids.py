"""The grids against the tables of docs/FORMAT.md, and against the coronas and tilings that stand here."""
import itertools
import unittest

import helpers
from polyforms import grids, texts
from polyforms.faults import Fault

CATALOGUES = ('square-7.txt', 'hex-6.txt', 'iamond-7.txt', 'kite-4.txt', 'kite-4-second.txt', 'undecided-holes.txt')
FIRST_CELLS = {'square': (0, 0), 'hex': (0, 0), 'iamond': (1, 1), 'kite': (1, 1)}
HEX_ADJACENT = [(0, -1), (1, -1), (-1, 0), (1, 0), (-1, 1), (0, 1)]
ADJACENT = {'square': [(0, -1), (-1, 0), (1, 0), (0, 1)], 'hex': HEX_ADJACENT,
            'iamond': [(1, -2), (-2, 1), (1, 1)], 'kite': [(1, -2), (3, 0), (-2, 1), (0, 3)]}
TOUCHING = {'square': [(-1, -1), (0, -1), (1, -1), (-1, 0), (1, 0), (-1, 1), (0, 1), (1, 1)], 'hex': HEX_ADJACENT,
            'iamond': [(0, -3), (3, -3), (-2, -2), (1, -2), (4, -2), (-3, 0), (3, 0), (-2, 1), (1, 1), (-3, 3), (0, 3),
                       (-2, 4)],
            'kite': [(0, -3), (-2, -2), (1, -2), (4, -2), (-3, 0), (3, 0), (-2, 1), (0, 3), (-2, 4)]}
KITES = [(1, 1), (-1, 2), (-2, 1), (-1, -1), (1, -2), (2, -1)]
HOLED = {'square': '0,0 1,0 2,0 0,1 2,1 0,2 1,2', 'hex': '1,0 0,1 -1,1 -1,0 0,-1 1,-1',
         'iamond': '4,1 7,1 2,2 5,2 8,2 1,4 7,4 2,5 5,5', 'kite': '4,1 7,1 1,4 7,4 2,5 5,5'}


def entries(name):
    """The grid and all entries of a catalogue, read."""
    with texts.opened(helpers.data(name)) as text:
        return grids.named(text.grid), [entry.read() for entry in text]


def differences(cells, cell):
    """The cells as differences to one."""
    return [(a - cell[0], b - cell[1]) for a, b in cells]


class Tables(unittest.TestCase):
    def test_neighbours(self):
        for name, cell in FIRST_CELLS.items():
            grid = grids.named(name)
            self.assertEqual(differences(grid.adjacent(cell), cell), ADJACENT[name])
            self.assertEqual(differences(grid.touching(cell), cell), TOUCHING[name])

    def test_neighbours_of_images_are_images_of_neighbours(self):
        for name, cell in FIRST_CELLS.items():
            grid = grids.named(name)
            for isometry in itertools.product(range(len(grid.turns)), (-1, 2), (0, 3)):
                image = grid.image(isometry, [cell])[0]
                for neighbours in (grid.adjacent, grid.touching):
                    self.assertEqual(set(grid.image(isometry, neighbours(cell))), set(neighbours(image)))

    def test_cells(self):
        inside = {name: [cell for cell in itertools.product(range(-3, 3), repeat=2) if grid.is_cell(cell)]
                  for name, grid in grids.GRIDS.items()}
        self.assertEqual({name: len(cells) for name, cells in inside.items()},
                         {'square': 36, 'hex': 36, 'iamond': 8, 'kite': 6})
        self.assertEqual(sorted(inside['kite']), sorted(KITES))
        self.assertEqual([grid.cells_in_unit for grid in grids.GRIDS.values()], [1, 1, 2, 6])
        self.assertEqual([grid.half_turn for grid in grids.GRIDS.values()], [2, 3, 3, 3])

    def test_corners_of_a_cell_are_an_outline_of_its_area(self):
        for name, corners in (('square', 4), ('hex', 6), ('iamond', 3), ('kite', 4)):
            grid = grids.named(name)
            for turn in range(len(grid.turns)):
                cell = grid.image((turn, 1, 2), [FIRST_CELLS[name]])[0]
                outline = [grid.in_plane(corner) for corner in grid.corners(cell)]
                self.assertEqual(len(outline), corners)
                self.assertAlmostEqual(grids.area_of(outline), grid.cell_area)

    def test_turns_keep_distances_in_the_plane(self):
        for grid in grids.GRIDS.values():
            for turn in grid.turns:
                for point in ((1, 0), (0, 1), (2, 3)):
                    x, y = grid.in_plane(grids.turned(turn, point))
                    a, b = grid.in_plane(point)
                    self.assertAlmostEqual(x * x + y * y, a * a + b * b)

    def test_polyforms_alone_are_taken(self):
        square = grids.named('square')
        line = [(a, 0) for a in range(33)]
        self.assertEqual(square.checked(line[:32]), line[:32])
        for cells in (line, [(0, 0), (0, 0)], [(0, 0), (1, 1)], []):
            self.assertRaises(Fault, square.checked, cells)
        self.assertRaises(Fault, grids.named('kite').checked, [(1, 1), (3, 2)])

    def test_faults(self):
        for call in (lambda: grids.named('cube'), lambda: grids.named('iamond').checked([(0, 0)]),
                     lambda: grids.named('square').image((8, 0, 0), [(0, 0)])):
            self.assertRaises(Fault, call)


class Shapes(unittest.TestCase):
    def test_canonical_lists(self):
        for name in CATALOGUES:
            grid, found = entries(name)
            for entry in found[:40]:
                self.assertTrue(grid.is_joined(entry.cells))
                for turn in range(len(grid.turns)):
                    image = grid.image((turn, turn - 5, 3), entry.cells)[::-1]
                    self.assertEqual(grid.canonical(image), entry.cells)

    def test_holes(self):
        for name, words in HOLED.items():
            grid, cells = grids.named(name), texts.parse_cells(words)
            self.assertTrue(grid.is_joined(cells), name)
            self.assertTrue(grid.is_holed(cells), name)
            self.assertFalse(any(grid.is_holed(cells[:at] + cells[at + 1:]) for at in range(len(cells))
                                 if grid.is_joined(cells[:at] + cells[at + 1:])), name)

    def test_a_gap_at_a_corner_opens_no_hole(self):
        self.assertTrue(grids.named('square').is_holed(texts.parse_cells('1,0 0,1 2,1 1,2')))

    def test_a_kite_ring_around_a_hexagon(self):
        grid = grids.named('kite')
        self.assertTrue(grid.is_holed(grid.around(KITES)))
        self.assertFalse(grid.is_holed(grid.around(KITES) + KITES))

    def test_joined(self):
        square = grids.named('square')
        self.assertFalse(square.is_joined([(0, 0), (1, 1)]))
        self.assertFalse(square.is_joined([]))

    def test_edges(self):
        inner, outer = grids.named('square').edges([(0, 0), (1, 0)])
        self.assertEqual((len(inner), len(outer)), (1, 6))


class Evidence(unittest.TestCase):
    """What the entries that stand here say, which `heesch check` has judged, has to come out of the grids as well."""

    def test_coronas(self):
        seen = set()
        for name in CATALOGUES:
            grid, found = entries(name)
            for entry in found:
                for layers, are_hole_free in ((entry.coronas, True), (entry.open, False)):
                    inside = set(entry.cells)
                    for layer in layers:
                        seen.add((grid.name, are_hole_free))
                        wanted = set(grid.around(inside))
                        for isometry in layer:
                            image = set(grid.image(isometry, entry.cells))
                            self.assertFalse(image & inside)
                            self.assertTrue(image & set(grid.around(inside)))
                            inside |= image
                        self.assertLessEqual(wanted, inside)
                        self.assertFalse(are_hole_free and grid.is_holed(inside))
        self.assertEqual({name for name, are_hole_free in seen if are_hole_free}, set(grids.GRIDS))

    def test_tilings(self):
        seen = set()
        for name in CATALOGUES:
            grid, found = entries(name)
            for entry in (entry for entry in found if entry.lattice):
                seen.add(grid.name)
                p, q, s = entry.lattice
                reduced = set()
                for a, b in (cell for tile in entry.tiles for cell in grid.image(tile.isometry, entry.cells)):
                    rows = b // grid.unit // q
                    a, b = grids.moved((a, b), grid.vector(0, -rows, entry.lattice))
                    reduced.add((a - a // grid.unit // p * p * grid.unit, b))
                self.assertEqual(len(reduced), len(entry.tiles) * len(entry.cells))
                self.assertEqual(len(reduced), p * q * grid.cells_in_unit)
        self.assertEqual(seen, set(grids.GRIDS))


if __name__ == '__main__':
    unittest.main()
