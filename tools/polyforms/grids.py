"""The four grids of docs/FORMAT.md: cells, corners, neighbours, turns, holes, and where all of it lies in the plane.

A cell, a corner and a vector are pairs of whole numbers. An isometry is (TURN, DA, DB), with DA and DB in units.
"""
import functools
import math

from .faults import Fault

SQUARE_TURNS = ((1, 0, 0, 1), (0, -1, 1, 0), (-1, 0, 0, -1), (0, 1, -1, 0),
                (0, 1, 1, 0), (-1, 0, 0, 1), (0, -1, -1, 0), (1, 0, 0, -1))
HEX_TURNS = ((1, 0, 0, 1), (0, -1, 1, 1), (-1, -1, 1, 0), (-1, 0, 0, -1), (0, 1, -1, -1), (1, 1, -1, 0),
             (0, 1, 1, 0), (-1, 0, 1, 1), (-1, -1, 0, 1), (0, -1, -1, 0), (1, 0, -1, -1), (1, 1, 0, -1))
MOST_CELLS = 32  # of a shape
REACH = 5  # no two cells that share a corner differ by more in a coordinate, in any of the four grids


def turned(turn, point):
    """The pair under a turn, which is given by the coefficients of the new a and of the new b."""
    return (turn[0] * point[0] + turn[1] * point[1], turn[2] * point[0] + turn[3] * point[1])


def moved(point, by):
    """The sum of two pairs."""
    return (point[0] + by[0], point[1] + by[1])


def cell_order(cell):
    """The key by which cells are sorted: by b, then by a."""
    return (cell[1], cell[0])


class Grid:
    """A grid: its name, its unit, its turns, the scale of its corners, and the corners of each kind of cell.

    `kinds` has a cell of each kind with its corners, as differences from the cell times the scale.
    `slanted` tells that the second coordinate goes up at 60 degrees in the plane, and not at 90.
    """

    def __init__(self, name, unit, turns, scale, kinds, slanted):
        self.name, self.unit, self.turns, self.scale, self.slanted = name, unit, turns, scale, slanted
        self.cells_in_unit, self.half_turn = len(kinds), 2 if not slanted else 3
        self._corners_of_kind = {self._kind((a, b)): self._in_outline_order(corners)
                                 for (a, b), corners in kinds.items()}
        self._neighbours = {}

    def _kind(self, cell):
        return (cell[0] % self.unit, cell[1] % self.unit)

    def _in_outline_order(self, corners):
        """The corners, by their angle around their centre in the plane."""
        plane = {corner: self.in_plane(corner) for corner in corners}
        x, y = centre_of(plane.values())
        return tuple(sorted(corners, key=lambda corner: math.atan2(plane[corner][1] - y, plane[corner][0] - x)))

    def is_cell(self, cell):
        """Whether the pair is a cell of this grid."""
        return self._kind(cell) in self._corners_of_kind

    def corners(self, cell):
        """The corners of a cell, in the order in which its outline goes round."""
        a, b = self.scale * cell[0], self.scale * cell[1]
        return [(a + x, b + y) for x, y in self._corners_of_kind[self._kind(cell)]]

    def checked(self, cells):
        """The cells, where they are those of a polyform of this grid, each once, and at most 32; otherwise a Fault."""
        for a, b in cells:
            if not self.is_cell((a, b)):
                raise Fault(f'{a},{b} is no cell of the grid {self.name}')
        if len(cells) > MOST_CELLS:
            raise Fault(f'a shape has at most {MOST_CELLS} cells, and this has {len(cells)}')
        if len(set(cells)) < len(cells):
            raise Fault('a cell stands twice in this shape')
        if not self.is_joined(cells):
            raise Fault(f"the cells of this shape aren't joined in the grid {self.name}")
        return cells

    # ---- neighbours

    def _differences(self, cell):
        """The differences to the adjacent and to the touching cells, of this kind of cell, in cell order."""
        kind = self._kind(cell)
        if kind not in self._neighbours:
            own, shared = set(self.corners(kind)), {}
            for b in range(-REACH, REACH + 1):
                for a in range(-REACH, REACH + 1):
                    other = moved(kind, (a, b))
                    if (a, b) != (0, 0) and self.is_cell(other):
                        shared[a, b] = len(own.intersection(self.corners(other)))
            self._neighbours[kind] = ([difference for difference, count in shared.items() if count == 2],
                                      [difference for difference, count in shared.items() if count >= 1])
        return self._neighbours[kind]

    def adjacent(self, cell):
        """The cells that share an edge with a cell, so just two corners, in cell order."""
        return [moved(cell, difference) for difference in self._differences(cell)[0]]

    def touching(self, cell):
        """The cells that share at least one corner with a cell, in cell order."""
        return [moved(cell, difference) for difference in self._differences(cell)[1]]

    def around(self, cells):
        """The cells outside a set that touch a cell of it, in cell order."""
        inside = set(cells)
        return sorted({other for cell in inside for other in self.touching(cell)} - inside, key=cell_order)

    # ---- isometries

    def image(self, isometry, cells):
        """The cells under an isometry, in the order of the given cells: the turn, and then the translation."""
        turn, da, db = isometry
        if not 0 <= turn < len(self.turns):
            raise Fault(f'the grid {self.name} has no turn {turn}')
        by = (self.unit * da, self.unit * db)
        return [moved(turned(self.turns[turn], cell), by) for cell in cells]

    def vector(self, i, j, lattice):
        """The lattice vector of i times (P, 0) and j times (S, Q), as a difference of cells."""
        p, q, s = lattice
        return (self.unit * (i * p + j * s), self.unit * j * q)

    def normalised(self, cells):
        """The cell list of the set, moved by units so that its least units are 0."""
        a = min(cell[0] // self.unit for cell in cells) * self.unit
        b = min(cell[1] // self.unit for cell in cells) * self.unit
        return tuple(sorted(((cell[0] - a, cell[1] - b) for cell in cells), key=cell_order))

    def canonical(self, cells):
        """The canonical list of a shape: the least normalised cell list over all turns."""
        images = (self.normalised(self.image((turn, 0, 0), cells)) for turn in range(len(self.turns)))
        return min(images, key=lambda image: [cell_order(cell) for cell in image])

    # ---- shapes

    def flooded(self, start, is_open):
        """The cells that are reached from a cell over adjacent cells that are open, the start included."""
        reached, ends = {start}, [start]
        while ends:
            for cell in self.adjacent(ends.pop()):
                if cell not in reached and is_open(cell):
                    reached.add(cell)
                    ends.append(cell)
        return reached

    def is_joined(self, cells):
        """Whether any two cells of the set are joined by a path of adjacent cells of it."""
        inside = set(cells)
        return bool(inside) and len(self.flooded(next(iter(inside)), inside.__contains__)) == len(inside)

    def is_holed(self, cells):
        """Whether a set of cells has a hole: whether a cell beside it isn't reached from far outside."""
        inside, margin = set(cells), 2 * self.unit
        low_a, high_a = min(a for a, _ in inside) - margin, max(a for a, _ in inside) + margin
        low_b, high_b = min(b for _, b in inside) - margin, max(b for _, b in inside) + margin
        outside = self.flooded(self._far_cell(inside), lambda cell: cell not in inside
                               and low_a <= cell[0] <= high_a and low_b <= cell[1] <= high_b)
        return any(other not in inside and other not in outside
                   for cell in inside for other in self.adjacent(cell))

    def _far_cell(self, cells):
        """A cell one unit to the left of a leftmost cell, which no cell of the set shuts in."""
        a, b = min(cells)
        return (a - self.unit, b)

    # ---- the plane

    def in_plane(self, point):
        """Where a point of the corners' coordinates lies: b goes up, at 60 degrees where the grid is slanted."""
        a, b = point[0] / self.scale, point[1] / self.scale
        return (a + b / 2, b * math.sqrt(3) / 2) if self.slanted else (a, b)

    def way(self, vector):
        """Where a difference of cells leads in the plane."""
        return self.in_plane((self.scale * vector[0], self.scale * vector[1]))

    @functools.cached_property
    def cell_area(self):
        """The area of a cell in the plane; all cells of a grid have the same."""
        first = next(iter(self._corners_of_kind))
        return area_of([self.in_plane(corner) for corner in self.corners(first)])

    def edges(self, cells):
        """The edges between cells of a shape and those around it: two lists of pairs of corners."""
        counts = {}
        for cell in cells:
            corners = self.corners(cell)
            for edge in zip(corners, corners[1:] + corners[:1]):
                key = tuple(sorted(edge))
                counts[key] = counts.get(key, 0) + 1
        return ([edge for edge, count in counts.items() if count > 1],
                [edge for edge, count in counts.items() if count == 1])


def area_of(polygon):
    """The area of a polygon in the plane."""
    pairs = zip(polygon, polygon[1:] + polygon[:1])
    return abs(sum(p[0] * q[1] - p[1] * q[0] for p, q in pairs)) / 2


def centre_of(points):
    """The mean of points in the plane."""
    points = list(points)
    return (sum(p[0] for p in points) / len(points), sum(p[1] for p in points) / len(points))


def _kite_kinds():
    """The six kites of a hexagon: the images of the first one, with its corners, under the rotations."""
    first = ((-1, -1), (1, 1), (-1, 2), (2, -1))
    return {turned(turn, (1, 1)): tuple(turned(turn, corner) for corner in first) for turn in HEX_TURNS[:6]}


GRIDS = {grid.name: grid for grid in (
    Grid('square', 1, SQUARE_TURNS, 2, {(0, 0): ((1, 1), (1, -1), (-1, 1), (-1, -1))}, False),
    Grid('hex', 1, HEX_TURNS, 3, {(0, 0): ((1, 1), (-1, 2), (-2, 1), (-1, -1), (1, -2), (2, -1))}, True),
    Grid('iamond', 3, HEX_TURNS, 1,
         {(1, 1): ((-1, -1), (2, -1), (-1, 2)), (2, 2): ((1, 1), (-2, 1), (1, -2))}, True),
    Grid('kite', 6, HEX_TURNS, 1, _kite_kinds(), True))}


def named(name):
    """The grid of this name."""
    if name not in GRIDS:
        raise Fault(f'there is no grid {name}; the grids are {", ".join(GRIDS)}')
    return GRIDS[name]
