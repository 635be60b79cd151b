"""Polyform catalogues: the texts of `heesch`, line by line, and the four grids.

docs/FORMAT.md defines all that this package reads and writes. The package believes what a text says: it checks the
form of each line and which line may follow which, and leaves the truth of an entry to `heesch check`.

Reading (`polyforms.texts`):

    with texts.opened('nine.txt') as text:     # or '-' for standard input
        text.kind                              # 'full', 'brief', 'outer'; and text.share is (I, K) or None
        text.header                            # a Header, or None of an outer text
        text.header.grid                       # 'square', 'hex', 'iamond', 'kite'
        text.header.limits.domain              # also .turns .levels .size
        for entry in text:                     # streams; an entry holds its first two lines until more is asked for
            entry.number                       # its number in the text, from 1
            entry.line, entry.offset           # the number of its first line, and of the bytes before it
            entry.cells                        # ((0, 0), (1, 0), ..)
            entry.verdict                      # a Verdict: .word 'tiles', 'heesch', 'undecided', and its numbers
            for line in entry.evidence(): ..   # the raw lines behind the verdict, once, without newlines; or
            entry.read()                       # keeps what can be drawn, and passes over proofs:
            entry.lattice, entry.tiles         # (P, Q, S) or None, and a list of Tile(isometry, number, by)
            entry.coronas, entry.open          # lists of layers; a layer is a list of isometries (TURN, DA, DB)
            entry.wall, entry.bare             # (J, 'refuted'), (M, 'same') and so on, or None
            entry.outer                        # an Outer of an outer text: .word, .heesch, .number, .coronas

An entry has to be used before the next one is taken. Each line is checked as it is read, whether an entry is used or
not. What is no such text raises a `Fault`, whose words are `FILE: line N: ..`.

Grids (`polyforms.grids`): `grid = grids.named('hex')`; `grid.unit`, `grid.turns`, `grid.scale`; `grid.is_cell(cell)`,
`grid.corners(cell)` in the order of the outline, `grid.adjacent(cell)`, `grid.touching(cell)`, `grid.around(cells)`;
`grid.image(isometry, cells)`; `grid.canonical(cells)`; `grid.is_joined(cells)`, `grid.is_holed(cells)`;
`grid.in_plane(point)` of a corner, and `grid.edges(cells)`, the inner and the outer edges of a shape.

Writing: `str(header)` and `str(verdict)` are their lines; `texts.cells_text(cells)` and `texts.shape_line(cells)`;
`texts.parse_cells(words)` reads cells as lists of shapes have them.

Commands (`polyforms.commands`): `commands.Parser` is an argparse parser whose faults are one line; `commands.main`
runs a tool's body, writes a `Fault` as one line to standard error with status 2, and is quiet where a reader of the
output has gone. `raise commands.Fault('..')` is the way to refuse.

Further modules: `tallies` counts entries by verdict; `placements` has the variables of the corona formulas; `program`
finds and asks `heesch`; `whole` writes files that are whole wherever they have their name.
"""
