"""Reading and writing of catalogue, brief, outer and share texts, entry by entry, as docs/FORMAT.md has them.

Nothing but the entry at hand is kept, and of it only what is asked for.
"""
import contextlib
from typing import NamedTuple, Optional

from . import grids, lines
from .faults import Fault

STANDARD_INPUT = 0
FIRST_LINE = 4096  # characters of a first line at most: of a share, a header or a shape


# ---- headers and verdicts


class Limits(NamedTuple):
    """The limits of a header: turns of a search, levels, tiles of a period, literals of a formula."""
    turns: int
    levels: int
    domain: int
    size: int

    def __str__(self):
        return ' '.join(f'{name} {value}' for name, value in self._asdict().items())


class Header(NamedTuple):
    """A header. `size` is the number of cells, or None where the subject is `given`."""
    is_brief: bool
    version: int
    grid: str
    size: Optional[int]
    limits: Limits

    def __str__(self):
        word, subject = 'brief' if self.is_brief else 'heesch', self.size or 'given'
        return f'{word} {self.version} {self.grid} {subject} {self.limits}'


class Verdict(NamedTuple):
    """A verdict line. Numbers and words that a verdict doesn't have are None.

    `word` is 'tiles', 'heesch' or 'undecided'. Of `tiles`: `kind`, `domain`, `classes`. Of `heesch`: `levels`, the
    Heesch number, and `nontiler`. Of `undecided`: `limit`, the word that it is undecided by; `levels`, how many
    hole-free coronas were found; and of turns and size `phase`, 'free' or 'bare', and `goal`, the level sought.
    """
    word: str
    kind: Optional[str] = None
    domain: Optional[int] = None
    classes: Optional[int] = None
    levels: Optional[int] = None
    nontiler: Optional[int] = None
    limit: Optional[str] = None
    phase: Optional[str] = None
    goal: Optional[int] = None

    @property
    def heesch_number(self):
        """The Heesch number of a verdict `heesch`, otherwise None."""
        return self.levels if self.word == 'heesch' else None

    def __str__(self):
        if self.word == 'tiles':
            return f'verdict tiles {self.kind} domain {self.domain} classes {self.classes}'
        if self.word == 'heesch':
            return f'verdict heesch {self.levels} nontiler {self.nontiler}'
        end = f' {self.phase} {self.goal}' if self.phase else ''
        return f'verdict undecided {self.limit} {self.levels}{end}'


MOST = Limits(1_000_000, 6, 12, 60_000_000)
MOST_CELLS = {1: {'square': 12, 'hex': 10, 'iamond': 15}, 2: {'square': 14, 'hex': 12, 'iamond': 18, 'kite': 10}}


def parse_header(line):
    """The header of a line of its form and ranges, otherwise None."""
    found = lines.HEADER.fullmatch(line)
    if not found:
        return None
    word, grid, subject = found.group(1, 3, 4)
    version, size = int(found.group(2)), None if subject == 'given' else int(subject)
    limits = Limits(*map(int, found.group(5, 6, 7, 8)))
    most_cells = MOST_CELLS[version].get(grid, 0)
    is_in_range = most_cells and (size or 1) <= most_cells and all(map(int.__le__, limits, MOST))
    return Header(word == 'brief', version, grid, size, limits) if is_in_range else None


def parse_verdict(line):
    """The verdict of a line that has the form of one."""
    words = line.split(' ')
    if words[1] == 'tiles':
        return Verdict('tiles', kind=words[2], domain=int(words[4]), classes=int(words[6]))
    if words[1] == 'heesch':
        return Verdict('heesch', levels=int(words[2]), nontiler=int(words[4]))
    phase, goal = (words[4], int(words[5])) if len(words) > 4 else (None, None)
    return Verdict('undecided', limit=words[2], levels=int(words[3]), phase=phase, goal=goal)


# ---- cells


def cells_text(cells):
    """The cells as a line of a list has them."""
    return ' '.join(f'{a},{b}' for a, b in cells)


def shape_line(cells):
    """The `shape` line of the cells."""
    return 'shape ' + cells_text(cells)


def parse_cells(words):
    """The cells of a line of a list of shapes."""
    if not lines.SHAPE.fullmatch(words):
        raise Fault(f'{lines.quoted(words)} is no list of cells `A,B`')
    return tuple(_numbers(word.split(',')) for word in words.split(' '))


def _numbers(words):
    return tuple(int(word) for word in words)


# ---- entries


class Tile(NamedTuple):
    """A `tile` line: its isometry, the number of its class, and the symmetry behind `by`."""
    isometry: tuple
    number: int
    by: tuple


class Triple(NamedTuple):
    """A `triple` line: the numbers P, Q, S of its lattice, and whether a proof refutes it."""
    lattice: tuple
    is_refuted: bool


class Outer(NamedTuple):
    """What an outer text says of the outer number: `word` is 'tiles', 'undecided', 'spent' or 'number'.

    `heesch` is the number behind `hc`, `number` the outer number, `coronas` the outer coronas that are written.
    """
    word: str
    heesch: Optional[int]
    number: Optional[int]
    coronas: list


class Entry:
    """An entry: its number, where its first line stands, its cells, its verdict; and, once read, its parts.

    `line` is the number of its first line, and `offset` the number of bytes before it.
    """

    def __init__(self, text, number, line, offset, cells, verdict):
        self.number, self.line, self.offset, self.cells, self.verdict = number, line, offset, cells, verdict
        self.lattice, self.tiles, self.coronas, self.open, self.triples = None, [], [], [], []
        self.wall = self.bare = self.outer = None
        self._text, self._is_read, self._layers, self._heesch = text, False, [], None

    def evidence(self):
        """The lines behind the verdict, without their newlines. They are there once, and before the next entry."""
        return self._text.lines_of(self)

    def read(self):
        """Reads the lines behind the verdict, keeps all but proofs, and answers the entry."""
        if not self._is_read:
            self._is_read = True
            for line in self._text.lines_of(self, reads_proofs=False):
                if not line.startswith(lines.STEPS):
                    self._keep(line.split(' '))
        return self

    def _keep(self, words):
        word = words[0]
        if word == 'lattice':
            self.lattice = _numbers(words[1:])
        elif word == 'tile':
            self.tiles.append(Tile(_numbers(words[1:4]), int(words[5]), _numbers(words[7:])))
        elif word == 'layer':
            self._layers.append([_numbers(place.split(',')) for place in words[1:]])
        elif word in ('coronas', 'open'):
            self._layers = getattr(self, word)
        elif word == 'triple':
            self.triples.append(Triple(_numbers(words[1:4]), words[4] == 'refuted'))
        elif word in ('wall', 'bare'):
            setattr(self, word, (int(words[1]), words[2]))
        elif word == 'hc':
            self._heesch = int(words[1])
        elif word == 'hh':
            self._keep_outer(words[1])

    def _keep_outer(self, word):
        is_number = word.isdigit()
        number = int(word) if is_number else None
        self._layers = []
        self.outer = Outer('number' if is_number else word, self._heesch, number, self._layers)


# ---- texts


class Text:
    """A text that is being read: its kind, its share, its header, and by iteration, once, its entries.

    `kind` is 'full', 'brief' or 'outer'; `share` is (I, K) or None; `header` is None of an outer text; `count` is the
    number of entries taken so far. `grid` is the name of the grid; an outer text doesn't say it, so there it is None
    until it is set. Where it is known each shape has to be a polyform of it. Each fault names the file, as it was
    given, and the line.
    """

    def __init__(self, file, name):
        self.name, self.share, self.header, self.kind, self.count = name, None, None, 'outer', 0
        self._file, self._line, self._bytes, self._held = file, 0, 0, None
        self._read_start()
        self.grid = self.header.grid if self.header else None
        self._order = lines.Order(self.kind)

    @property
    def offset(self):
        """The number of bytes before the line that comes next."""
        return self._bytes - (0 if self._held is None else len(self._held) + 1)

    def fault(self, words, line=None):
        """The fault of these words at a line, or at the line that was read last."""
        return Fault(f'{self.name}: line {line or self._line}: {words}')

    @contextlib.contextmanager
    def at(self, line=None):
        """Gives each fault that is raised in the block the place of this line, or of the one that was read last."""
        try:
            yield
        except Fault as fault:
            raise self.fault(fault, line) from None

    def __iter__(self):
        while self._peek().startswith('shape '):
            offset, line = self.offset, self._line
            cells = self._take_shape()
            verdict = parse_verdict(self._take())
            self.count += 1
            entry = Entry(self, self.count, line, offset, cells, verdict)
            yield entry
            for _ in self.lines_of(entry, reads_proofs=False):
                pass
        self._take()
        self._refuse_more()

    def lines_of(self, entry, reads_proofs=True):
        """The lines behind the verdict of the entry that was taken last; steps of proofs have any form if not read."""
        if entry.number != self.count:
            raise RuntimeError('an entry has to be used before the next one is taken')
        while not self._peek().startswith(('shape ', 'end ')):
            yield self._take(reads_proofs)

    # ---- the first lines

    def _read_start(self):
        """Reads the lines before the first entry: of a share its line, and the header where there is one."""
        line = self._read(FIRST_LINE)
        if found := lines.SHARE.fullmatch(line):
            self.share = _numbers(found.groups())
            if not self.share[0] <= self.share[1]:
                raise self.fault(f'there is no {line}')
            line = self._read(FIRST_LINE)
        elif line.startswith(('shape ', 'end ')):
            self._held = line
            return
        self.header = parse_header(line)
        if self.header is None:
            raise self.fault(f'{lines.quoted(line)} is no header of a catalogue, and no share or outer text begins so')
        if self.share and (self.header.is_brief or self.header.size is None):
            raise self.fault('a share has the full header of a size')
        self.kind = 'brief' if self.header.is_brief else 'full'

    # ---- lines

    def _read(self, most=-1):
        """The next line of the file, without its newline; with `most`, where it has no more characters."""
        line = self._file.readline(most)
        self._line += 1
        self._bytes += len(line)
        if not line:
            raise self.fault('the text is empty' if self._line == 1 else 'the text ends before its `end` line')
        if not line.isascii():
            raise self.fault('a byte that is not ASCII: this is no text of `heesch`')
        if line[-1] != '\n':
            raise self.fault('the text ends inside a line' if len(line) != most
                             else f'{lines.quoted(line)} is no header of a catalogue')
        return line[:-1]

    def _peek(self):
        """The line that comes next."""
        if self._held is None:
            self._held = self._read()
        return self._held

    def _take(self, reads_proofs=True):
        """Takes the line that comes next, where it may stand there."""
        line = self._peek()
        try:
            self._order.take(line, reads_proofs)
        except Fault as fault:
            raise self.fault(fault) from None
        self._held = None
        return line

    def _take_shape(self):
        """Takes the `shape` line that comes next, and answers its cells."""
        cells = parse_cells(self._take()[len('shape '):])
        if self.grid:
            with self.at():
                grids.named(self.grid).checked(cells)
        return cells

    def _refuse_more(self):
        if self._file.readline(1):
            raise self.fault('nothing may stand behind the `end` line', self._line + 1)


@contextlib.contextmanager
def opened(path):
    """The text of a file, or of standard input where the path is `-`, while the block runs."""
    name = 'standard input' if path == '-' else str(path)
    try:
        file = open(STANDARD_INPUT if path == '-' else path, encoding='ascii', errors='surrogateescape',
                    newline='\n', closefd=path != '-')
    except OSError as error:
        raise Fault(f'{name}: {error.strerror}') from None
    with file:
        yield Text(file, name)
