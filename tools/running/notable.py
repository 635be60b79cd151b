"""The shapes that are listed one by one: those that no pass decides, and those of the largest Heesch number."""
import collections
import csv
import io
from typing import NamedTuple, Optional

from polyforms import grids, texts

from .cluster import ranges


class Open(NamedTuple):
    """What is known of an undecided shape, by its entry.

    `coronas` is how many coronas without holes are written, `heesch` the Heesch number where a refutation shows it,
    `open` how many coronas with holes are written, `refuted_domains` the numbers of tiles, such as `2-6,8`, for which
    each lattice is refuted, and the last two count the lattices that a proof refutes and those whose search was spent.
    """
    number: int
    cells: str
    verdict: str
    coronas: int
    heesch: Optional[int]
    open: int
    refuted_domains: str
    refuted_lattices: int
    spent_lattices: int


class Notable:
    """What is found in the catalogues of a run. `left` has the cells, as words, of the shapes that no pass decides.

    `open` has these shapes, by the catalogue of the size. `heesch` is the largest Heesch number of a shape without a
    hole, or None, and `largest` has the cells of the shapes that have it.
    """

    def __init__(self, left):
        self._left, self.open, self.heesch, self.largest = left, [], None, []

    def look(self, catalogue):
        """Looks through a catalogue, or one of given shapes beside it."""
        with texts.opened(catalogue) as text:
            grid, is_whole = grids.named(text.grid), text.header.size is not None
            for entry in text:
                number = entry.verdict.heesch_number
                if number is not None and number >= (self.heesch or 0):
                    self._take(entry.cells, number, grid)
                elif is_whole and entry.verdict.word == 'undecided' and texts.cells_text(entry.cells) in self._left:
                    self.open.append(known(entry.read(), grid))

    def _take(self, cells, number, grid):
        """Keeps a shape of the largest Heesch number so far, where it has no hole."""
        if grid.is_holed(cells):
            return
        if number != self.heesch:
            self.heesch, self.largest = number, []
        self.largest.append(texts.cells_text(cells))


def known(entry, grid):
    """What an undecided entry that was read says of its shape."""
    is_walled = entry.wall is not None and entry.wall[1] == 'refuted'
    refuted, spent = collections.Counter(), collections.Counter()
    for (wide, tall, _), is_refuted in entry.triples:
        (refuted if is_refuted else spent)[wide * tall * grid.cells_in_unit // len(entry.cells)] += 1
    domains = ranges(sorted(refuted.keys() - spent.keys()))
    return Open(entry.number, texts.cells_text(entry.cells), str(entry.verdict)[len('verdict '):], len(entry.coronas),
                len(entry.coronas) if is_walled else None, len(entry.open), domains, refuted.total(), spent.total())


def table_text(shapes):
    """Undecided shapes as a table, comma separated, with a line of heads."""
    file = io.StringIO()
    writer = csv.writer(file, lineterminator='\n')
    writer.writerow(Open._fields)
    writer.writerows(shapes)
    return file.getvalue()
