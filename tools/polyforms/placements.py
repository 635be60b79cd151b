"""The placements of a shape by levels: the variables of the corona formulas of docs/FORMAT.md, section 9, and cuts."""
import collections

from .grids import cell_order


class Universe:
    """The variables of E(S, j) that stand for placements, in their order; a variable's number is its place from 1.

    `variables` has pairs of a level and a placement, a frozen set of cells. It takes seconds for levels from 2 on.
    """

    def __init__(self, grid, shape, levels):
        self._grid, self._shape = grid, frozenset(shape)
        self._images = {grid.normalised(grid.image((turn, 0, 0), shape)) for turn in range(len(grid.turns))}
        self.variables, inner = [], [self._shape]
        for level in range(1, levels + 1):
            inner = self._level(inner, level)
            self.variables += [(level, placement) for placement in inner]
        self._holders = collections.defaultdict(list)
        for number, (_, placement) in enumerate(self.variables, 1):
            for cell in placement:
                self._holders[cell].append(number)

    def _level(self, inner, level):
        """The placements that touch a member of `inner`; from level 2 on without those that meet or touch S."""
        beside, having = collections.defaultdict(set), collections.defaultdict(set)
        for number, placement in enumerate(inner):
            for cell in self._grid.around(placement):
                beside[cell].add(number)
            for cell in placement:
                having[cell].add(number)
        near = self._shape.union(self._grid.around(self._shape)) if level > 1 else self._shape

        def touches(placement):
            touched = set().union(*(beside.get(cell, ()) for cell in placement))
            return not touched <= set().union(*(having.get(cell, ()) for cell in placement))

        found = {placement for placement in self._over(beside) if not near & placement and touches(placement)}
        return sorted(found, key=lambda placement: sorted(map(cell_order, placement)))

    def _over(self, cells):
        """All placements that have one of the cells."""
        for image in self._images:
            for cell in cells:
                for own in image:
                    a, b = cell[0] - own[0], cell[1] - own[1]
                    if a % self._grid.unit == 0 and b % self._grid.unit == 0:
                        yield frozenset((x + a, y + b) for x, y in image)

    def variable_count(self, version):
        """How many variables the formula of a version has: in version 2 each owned cell has some of its own."""
        owners = sum((len(holders) - 1).bit_length() for holders in self._holders.values())
        return len(self.variables) + (owners if version == 2 else 0)

    def cut_clause(self, level, hole, border):
        """The literals of the clause of a cut, in rising order of their variables."""
        over_hole = {number for cell in hole for number in self._holders.get(cell, ())
                     if self.variables[number - 1][0] <= level}
        return sorted([-number for number in border] + list(over_hole.difference(border)), key=abs)
