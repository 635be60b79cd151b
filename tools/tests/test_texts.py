"""Reading and writing of texts: what stands here is read whole and as it is, and what is altered is refused."""
import random
import unittest

import helpers
from polyforms import lines, texts
from polyforms.faults import Fault

CATALOGUES = ('square-7.txt', 'hex-6.txt', 'iamond-7.txt', 'kite-4.txt', 'kite-4-second.txt', 'kite-4-domain-6.txt',
              'iamond-7-version-1.txt', 'undecided-holes.txt', 'undecided-turns.txt', 'undecided-size.txt')
BRIEF = ('square-8-brief.txt',)
SHARES = ('kite-4-share-1.txt', 'kite-4-share-2.txt')
OUTER = ('outer-square.txt', 'outer-hex.txt', 'outer-iamond-7.txt', 'outer-kite-4.txt')
ALTERATIONS = 400


def entries(path):
    """All entries of a text, read."""
    with texts.opened(path) as text:
        return [entry.read() for entry in text]


def written_again(path):
    """The lines of a text, each made of what was read of it."""
    with texts.opened(path) as text:
        if text.share:
            yield 'share {} {}'.format(*text.share)
        if text.header:
            yield str(text.header)
        for entry in text:
            yield texts.shape_line(entry.cells)
            yield str(entry.verdict)
            yield from entry.evidence()
        yield f'end {text.count}'


class Whole(helpers.ToolTest):
    def test_texts_are_read_as_they_are(self):
        for name in CATALOGUES + BRIEF + SHARES + OUTER:
            with self.subTest(name):
                self.assert_same_text('\n'.join(written_again(helpers.data(name))) + '\n', helpers.read(name))

    def test_kinds(self):
        for kind, names in (('full', CATALOGUES + SHARES), ('brief', BRIEF), ('outer', OUTER)):
            for name in names:
                with texts.opened(helpers.data(name)) as text:
                    self.assertEqual((name, text.kind), (name, kind))
                    self.assertEqual(text.header is None, kind == 'outer')
                    self.assertEqual(text.share is not None, name in SHARES)

    def test_offsets_are_those_of_the_bytes(self):
        for name in ('kite-4.txt', 'kite-4-share-2.txt', 'outer-square.txt'):
            whole = helpers.read(name)
            with texts.opened(helpers.data(name)) as text:
                for entry in text:
                    self.assertTrue(whole[entry.offset:].startswith(texts.shape_line(entry.cells) + '\n'))
                    list(entry.evidence())
                    self.assertRegex(whole[text.offset:], r'\A(shape|end) ')
                    self.assertEqual(whole[:entry.offset].count('\n') + 1, entry.line)


class Parts(unittest.TestCase):
    def test_header(self):
        with texts.opened(helpers.data('undecided-size.txt')) as text:
            self.assertEqual(text.header, texts.Header(False, 2, 'square', None, texts.Limits(20000, 2, 1, 30000)))

    def test_ranges_of_headers(self):
        for line, is_header in (('heesch 2 kite 10 turns 1 levels 6 domain 12 size 1', True),
                                ('heesch 2 kite 11 turns 1 levels 6 domain 12 size 1', False),
                                ('heesch 1 kite 1 turns 1 levels 6 domain 12 size 1', False),
                                ('heesch 1 square 13 turns 1 levels 1 domain 1 size 1', False),
                                ('brief 1 hex given turns 1 levels 7 domain 1 size 1', False),
                                ('brief 1 hex given turns 0 levels 6 domain 1 size 1', False)):
            self.assertEqual((line, texts.parse_header(line) is not None), (line, is_header))

    def test_a_tiling(self):
        entry = entries(helpers.data('square-7.txt'))[0]
        self.assertEqual(entry.cells, tuple((a, 0) for a in range(7)))
        self.assertEqual(entry.verdict, texts.Verdict('tiles', kind='translation', domain=1, classes=1))
        self.assertEqual(entry.lattice, (7, 1, 0))
        self.assertEqual(entry.tiles, [texts.Tile((0, 0, 0), 1, (0, 0, 0))])
        self.assertEqual((entry.coronas, entry.wall, entry.outer), ([], None, None))

    def test_coronas(self):
        entry = entries(helpers.data('hex-6.txt'))[40]
        self.assertEqual(entry.verdict.heesch_number, 2)
        self.assertEqual([len(layer) for layer in entry.coronas], [7, 17])
        self.assertEqual((entry.wall[1], entry.bare[0]), ('refuted', entry.verdict.nontiler))

    def test_undecided(self):
        found = {name: entries(helpers.data(name))[0] for name in CATALOGUES if name.startswith('undecided')}
        self.assertEqual([found[f'undecided-{limit}.txt'].verdict.limit for limit in ('holes', 'turns', 'size')],
                         ['holes', 'turns', 'size'])
        self.assertEqual(found['undecided-turns.txt'].wall, (1, 'spent'))
        self.assertEqual(found['undecided-holes.txt'].bare, (1, 'open'))
        self.assertEqual(len(found['undecided-holes.txt'].open), 1)

    def test_outer_numbers(self):
        holed, octomino, tiler = entries(helpers.data('outer-square.txt'))
        self.assertEqual(holed.outer, texts.Outer('number', 0, 0, []))
        self.assertEqual((octomino.outer.heesch, octomino.outer.number, len(octomino.outer.coronas)), (0, 1, 1))
        self.assertEqual((octomino.coronas, len(octomino.open)), ([], 1))
        self.assertEqual(tiler.outer, texts.Outer('tiles', None, None, []))

    def test_an_entry_is_used_before_the_next(self):
        with texts.opened(helpers.data('kite-4.txt')) as text:
            taken = iter(text)
            first, _ = next(taken), next(taken)
            with self.assertRaises(RuntimeError):
                next(first.evidence())

    def test_cells(self):
        self.assertEqual(texts.parse_cells('0,0 -1,2'), ((0, 0), (-1, 2)))
        for words in ('', '0,0 ', '0,0  1,0', '00,0', '0,-0', '1', 'a,b', '1,1,1', '1000000,0'):
            with self.assertRaises(Fault):
                texts.parse_cells(words)


class Proofs(helpers.ToolTest):
    def test_only_a_proof_that_is_read_is_refused(self):
        """A step of a proof has to stand in its place in any case, and to have its form where someone reads it."""
        wrong = self.written('wrong', helpers.read('undecided-holes.txt').replace('\nlearn ', '\nlearn x', 1))
        self.assertEqual(entries(wrong)[0].verdict.limit, 'holes')
        with texts.opened(wrong) as text:
            with self.assertRaisesRegex(Fault, 'learn x.* is no line of a catalogue'):
                list(next(iter(text)).evidence())
        with self.assertRaisesRegex(Fault, '`learn` stands where '):
            entries(self.written('place', helpers.read('undecided-holes.txt').replace('\nend ', '\nlearn 1 : 1\nend ')))


class Refused(helpers.ToolTest):
    def fault_of(self, text):
        """The words of the fault of a text, or None where it is one."""
        path = self.written('text', text)
        try:
            entries(path)
        except Fault as fault:
            self.assertTrue(str(fault).startswith(f'{path}: line '), fault)
            return str(fault).removeprefix(f'{path}: ')
        return None

    def assert_fault(self, text, words):
        self.assertIn(words, self.fault_of(text) or 'none')

    def test_bad_texts(self):
        for path, part in self.bad_texts():
            with self.assertRaises(Fault) as caught:
                entries(path)
            self.assertIn(f'{path}: {part}', str(caught.exception))

    def test_each_beginning_is_refused(self):
        for name in ('kite-4-second.txt', 'kite-4-share-1.txt', 'outer-square.txt'):
            whole = helpers.read(name)
            for end in random.Random(name).sample(range(len(whole)), 100):
                self.assert_fault(whole[:end], f'line {whole[:end].count(chr(10)) + 1}: ')

    def test_each_line_is_missed(self):
        whole = helpers.read('undecided-holes.txt').splitlines(keepends=True)
        for at, line in enumerate(whole):
            if not line.startswith(lines.STEPS):
                self.assertIsNotNone(self.fault_of(''.join(whole[:at] + whole[at + 1:])), line)

    def test_places(self):
        square = 'heesch 2 square 2 turns 20000 levels 3 domain 4 size 60000000\n'
        tiling = ('shape 0,0 1,0\nverdict tiles translation domain 1 classes 1\nlattice 2 1 0\n'
                  'tile 0 0 0 class 1 by 0 0 0\n')
        self.assertIsNone(self.fault_of(square + tiling + 'end 1\n'))
        for text, words in ((square + tiling + 'end 2\n', 'line 6: `end 2` behind 1 shapes'),
                            (square + tiling + 'end 1\n\n', 'line 7: nothing may stand behind'),
                            (square + tiling.replace('2 1 0', '2 1 2') + 'end 1\n', 'line 4: 2 1 2 is no lattice'),
                            (square + tiling.replace('1,0', '1,0 ') + 'end 1\n', 'line 2: '),
                            (square.replace('square', 'iamond') + tiling + 'end 1\n', 'line 2: 0,0 is no cell of'),
                            (square + tiling.replace('class 1', 'class') + 'end 1\n', 'line 5: '),
                            (square.replace('\n', '\r\n') + tiling + 'end 1\n', 'line 1: '),
                            (square + tiling + 'hh tiles\nend 1\n', 'line 6: `hh` stands where'),
                            ('share 3 2\n' + square + tiling + 'end 1\n', 'line 1: there is no share 3 2'),
                            ('share 1 2\n' + tiling + 'end 1\n', 'line 2: ')):
            self.assert_fault(text, words)

    def test_altered_texts_are_read_or_refused(self):
        chance = random.Random(7)
        for name in CATALOGUES[3:6] + OUTER[:1] + SHARES[:1]:
            whole = helpers.read(name)
            for _ in range(ALTERATIONS // 5):
                at = chance.randrange(len(whole))
                new = chance.choice(('', whole[at] * 2, chr(chance.randrange(128)), '\n', ' 1', '\x80'))
                self.fault_of((whole[:at] + new + whole[at + 1:]).encode('latin-1'))


if __name__ == '__main__':
    unittest.main()
