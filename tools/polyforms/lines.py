"""The lines of a text: the forms of docs/FORMAT.md, section 3, and which line may stand where, sections 4 and 16.

This is about single lines and their order alone; `texts` makes entries of them.
"""
import re

from .faults import Fault

NATURAL = '(?:0|[1-9][0-9]{0,9})'
POSITIVE = '[1-9][0-9]{0,9}'
INTEGER = '(?:0|-?[1-9][0-9]{0,5})'
CELL = f'{INTEGER},{INTEGER}'
CELLS = f'{CELL}(?: {CELL})*'
TURN = '(?:[0-9]|1[01])'
PLACE = f'{TURN},{INTEGER},{INTEGER}'
ISOMETRY = f'{TURN} {INTEGER} {INTEGER}'
LITERAL = f'-?{POSITIVE}'
LIMITS = f'turns ({POSITIVE}) levels ({POSITIVE}) domain ({POSITIVE}) size ({POSITIVE})'

HEADER = re.compile(f'(heesch|brief) ([12]) (square|hex|iamond|kite) ({POSITIVE}|given) {LIMITS}')
SHARE = re.compile(f'share ({POSITIVE}) ({POSITIVE})')
SHAPE = re.compile(CELLS)

FORMS = {word: re.compile(form) for word, form in {
    'shape': f'shape {CELLS}',
    'verdict': (f'verdict (?:tiles (?:translation|halfturn|periodic) domain {POSITIVE} classes {POSITIVE}'
                f'|heesch {NATURAL} nontiler {POSITIVE}|undecided (?:levels|holes) {NATURAL}'
                f'|undecided (?:turns|size) {NATURAL} (?:free|bare) {POSITIVE})'),
    'lattice': f'lattice {POSITIVE} {POSITIVE} {NATURAL}',
    'tile': f'tile {ISOMETRY} class {POSITIVE} by {ISOMETRY}',
    'coronas': f'coronas {NATURAL}',
    'open': f'open {NATURAL}',
    'layer': f'layer {PLACE}(?: {PLACE})*',
    'wall': f'wall {POSITIVE} (?:refuted|spent|size)',
    'bare': f'bare {NATURAL} (?:same|refuted|spent|size|open)',
    'triple': f'triple {POSITIVE} {POSITIVE} {NATURAL} (?:refuted|spent)',
    'learn': f'learn {LITERAL}(?: {LITERAL})* :(?: {NATURAL})+',
    'cut': f'cut {NATURAL} : {CELLS} :(?: {NATURAL})*',
    'empty': f'empty(?: {NATURAL})+',
    'spent': 'spent',
    'hc': f'hc {NATURAL}',
    'hh': f'hh (?:tiles|undecided|spent|{NATURAL})',
    'end': f'end {NATURAL}',
}.items()}
STEPS = ('learn', 'cut')  # the lines of a proof but its last
MOST_UNITS = 4096  # P times Q of a lattice at most
SHOWN = 60  # characters of a line that a fault quotes at most


def quoted(line):
    """A beginning of a line as a fault quotes it: no control bytes, and not long."""
    return ascii(line if len(line) <= SHOWN else line[:SHOWN] + '..')


class Order:
    """Which line may come next in a text of a kind: 'full', 'brief' or 'outer'.

    `take` is given each line behind the header (of an outer text, each line), and refuses what can't stand there.
    """

    def __init__(self, kind):
        self.kind, self.shapes = kind, 0
        self._close = ('hh', 'hc') if kind == 'outer' else ('shape', 'end')  # what may stand behind an entry's lines
        self._next = ('shape', 'end')
        self._then = ()  # what may come behind the layers or the proof that stand now
        self._layers = 0  # how many more layers have to come
        self._open = None  # the one number that `open` may have, or None where it may have any
        self._goal = 0  # the last number of the verdict
        self._free = 0  # the number behind `coronas`
        self._has_heesch_number = False  # whether `hc` stands before `hh`

    def take(self, line, reads_proofs=True):
        """Takes a line, and answers its first word. Where proofs aren't read, that word is all that a step has to have.

        Proofs are most of a large text, and their form most of the time that a tool takes over it.
        """
        word = line.partition(' ')[0]
        form = FORMS.get(word)
        if form is None or not (word in STEPS and not reads_proofs or form.fullmatch(line)):
            raise Fault(f'{quoted(line)} is no line of a catalogue')
        if word not in self._next:
            raise Fault(f'`{word}` stands where {self.expected()} has to stand')
        if word not in STEPS:
            getattr(self, '_take_' + word)(line.split(' '))
        return word

    def expected(self):
        """The first words of the lines that may come next."""
        return ' or '.join(f'`{word}`' for word in self._next) or 'nothing'

    def _expect_layers(self, count, then):
        self._layers, self._then = count, then
        self._next = ('layer',) if count else then

    def _expect_proof(self, word, then):
        """A proof behind the word `refuted` or `spent`, and then these."""
        self._next = STEPS + ('empty' if word == 'refuted' else 'spent',)
        self._then = then

    def _require(self, holds, words):
        if not holds:
            raise Fault(words)

    def _take_shape(self, _):
        self.shapes += 1
        self._next = ('verdict',)

    def _take_verdict(self, words):
        is_tiling = words[1] == 'tiles'
        self._goal = int(words[-1])
        self._open = None
        self._next = self._close if self.kind == 'brief' else ('lattice',) if is_tiling else ('coronas',)

    def _require_lattice(self, p, q, s):
        self._require(int(s) < int(p) and int(p) * int(q) <= MOST_UNITS,
                      f'{p} {q} {s} is no lattice: P times Q is at most {MOST_UNITS}, and S is below P')

    def _take_lattice(self, words):
        self._require_lattice(*words[1:])
        self._next = ('tile',)

    def _take_tile(self, _):
        self._next = ('tile',) + self._close

    def _take_coronas(self, words):
        self._free = int(words[1])
        self._expect_layers(self._free, ('wall', 'triple') + self._close)

    def _take_layer(self, _):
        self._expect_layers(self._layers - 1, self._then)

    def _take_wall(self, words):
        self._require(int(words[1]) == self._free + 1, f'`coronas {self._free}` asks for `wall {self._free + 1}`')
        after = ('triple',) + self._close
        if words[2] == 'size':
            self._next = after
        else:
            self._expect_proof(words[2], ('bare',) + after if words[2] == 'refuted' else after)

    def _take_bare(self, words):
        number, word, after = int(words[1]), words[2], ('triple',) + self._close
        wanted = {'same': self._free + 1, 'open': number}.get(word, self._goal)
        self._require(number == wanted, f'here has to stand `bare {wanted} {word}`')
        if word == 'same':
            self._next = after
        elif word == 'open':
            self._open = number
            self._next = ('open',) if number else ('open',) + after
        elif word == 'size':
            self._next = ('open',) + after
        else:
            self._expect_proof(word, ('open',) + after)

    def _take_open(self, words):
        number = int(words[1])
        self._require(self._open in (None, number), f'the line before asks for `open {self._open}`')
        self._expect_layers(number, ('triple',) + self._close)

    def _take_triple(self, words):
        self._require_lattice(*words[1:4])
        self._expect_proof(words[4], ('triple',) + self._close)

    def _take_empty(self, _):
        self._next = self._then

    _take_spent = _take_empty

    def _take_hc(self, words):
        self._require(int(words[1]) == self._free, f'`coronas {self._free}` asks for `hc {self._free}`')
        self._has_heesch_number, self._next = True, ('hh',)

    def _take_hh(self, words):
        word, after = words[1], ('shape', 'end')
        needs = word not in ('tiles', 'undecided')
        self._require(needs == self._has_heesch_number, f'`hh {word}` has to stand '
                      f'{"behind" if needs else "without"} `hc`')
        self._has_heesch_number = False
        if not needs:
            self._next = after
        elif word == 'spent':
            self._expect_proof('spent', after)
        elif int(word) == self._free:
            self._expect_proof('refuted', after)
        else:
            self._require(int(word) == self._free + 1, f'`hh {word}` behind `hc {self._free}`')
            self._expect_layers(int(word), after)

    def _take_end(self, words):
        self._require(int(words[1]) == self.shapes, f'`{" ".join(words)}` behind {self.shapes} shapes')
        self._next = ()
