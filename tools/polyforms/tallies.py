"""Counts of a text's entries by verdict, with holed shapes apart, as tables of the field have them."""
import collections

from . import grids

KINDS = ('translation', 'halfturn', 'periodic')
UNDECIDED = ('levels', 'holes', 'turns', 'size')


class Tally:
    """The counts of the entries of one text.

    `shapes` counts all of them, `holed` those that have a hole. All other counts are of shapes without a hole: `kinds`
    of tilings, `one_class` of tilings written with one class of tiles, `heesch` by Heesch number, `outer` by outer
    number, of an outer text, and `undecided` by the word behind it.
    """

    def __init__(self):
        self.shapes = self.holed = self.one_class = 0
        self.kinds, self.undecided = collections.Counter(), collections.Counter()
        self.heesch, self.outer = collections.Counter(), collections.Counter()

    def add(self, entry, is_holed):
        """Counts an entry; of an outer text it has to be read before."""
        self.shapes += 1
        verdict = entry.verdict
        if is_holed:
            self.holed += 1
            return
        if verdict.word == 'tiles':
            self.kinds[verdict.kind] += 1
            self.one_class += verdict.classes == 1
        elif verdict.word == 'heesch':
            self.heesch[verdict.heesch_number] += 1
        else:
            self.undecided[verdict.limit] += 1
        if entry.outer and entry.outer.number is not None:
            self.outer[entry.outer.number] += 1


def tally_of(text, grid_name):
    """The tally of a text, whose entries are taken by it."""
    grid, tally = grids.named(grid_name), Tally()
    for entry in text:
        if text.kind == 'outer':
            entry.read()
        tally.add(entry, grid.is_holed(entry.cells))
    return tally
