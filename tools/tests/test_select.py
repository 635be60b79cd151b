"""tools/select: each choice, alone and together with others, over texts of all kinds and grids."""
import unittest

import helpers

SQUARE, HEX, IAMOND, KITE = 'square-7.txt', 'hex-6.txt', 'iamond-7.txt', 'kite-4.txt'
HOLED_HEPTOMINO = '0,0 1,0 2,0 0,1 2,1 0,2 1,2'
OCTOMINO = '1,0 1,1 0,2 1,2 2,2 3,2 1,3 1,4'


class Select(helpers.ToolTest):
    def chosen(self, name, *words):
        """The lines that are chosen of a text."""
        return self.done('select', helpers.data(name), *words).splitlines()

    def test_counts_are_those_that_table_tells(self):
        for name, words, count in ((SQUARE, '', 108), (SQUARE, '--holed', 1), (SQUARE, '--simply-connected', 107),
                                   (SQUARE, '--tiles', 104), (SQUARE, '--tiles translation', 41),
                                   (SQUARE, '--tiles halfturn', 60), (SQUARE, '--tiles periodic', 3),
                                   (SQUARE, '--classes 1', 102), (SQUARE, '--heesch 0', 2), (SQUARE, '--heesch 1', 2),
                                   (SQUARE, '--undecided', 0), (HEX, '--tiles any', 77), (HEX, '--heesch 2', 1),
                                   (HEX, '--heesch 3', 0), (IAMOND, '--tiles halfturn', 21), (IAMOND, '--heesch 1', 1),
                                   (KITE, '--undecided', 4), (KITE, '--undecided levels', 4),
                                   (KITE, '--undecided holes', 0), (KITE, '--heesch 0', 4),
                                   ('square-8-brief.txt', '--heesch 0', 12), ('square-8-brief.txt', '--holed', 6),
                                   ('iamond-7-version-1.txt', '--heesch 1', 1), ('kite-4-share-2.txt', '', 5)):
            self.assertEqual((name, words, len(self.chosen(name, *words.split()))), (name, words, count))

    def test_several_choices_all_hold(self):
        self.assertEqual(self.chosen(SQUARE, '--heesch', 0, '--holed'), [HOLED_HEPTOMINO])
        self.assertEqual(len(self.chosen(SQUARE, '--heesch', 0, '--simply-connected')), 1)
        self.assertEqual(self.chosen(SQUARE, '--heesch', 1, '--tiles'), [])
        self.assertEqual(self.chosen(SQUARE, '--holed', '--simply-connected'), [])
        self.assertEqual(len(self.chosen(SQUARE, '--tiles', 'periodic', '--domain', 2, '--classes', 2)), 2)
        self.assertEqual(self.chosen(SQUARE, '--tiles', 'halfturn', '--domain', 1), [])

    def test_undecided_by_each_limit(self):
        for limit in ('holes', 'turns', 'size'):
            for other in ('levels', 'holes', 'turns', 'size'):
                self.assertEqual(len(self.chosen(f'undecided-{limit}.txt', '--undecided', other)), limit == other)
            self.assertEqual(self.chosen(f'undecided-{limit}.txt', '--heesch', 0), [])

    def test_numbers(self):
        self.assertEqual(self.chosen(HEX, '--heesch', 2, '--numbers')[0].split('\t')[0], '41')
        self.assertEqual(self.chosen(HEX, '--heesch', 2, '--numbers')[0].split('\t')[1:],
                         self.chosen(HEX, '--heesch', 2))

    def test_outer_numbers(self):
        for name, numbers in (('outer-square.txt', [1, 1, 0]), ('outer-hex.txt', [0, 1, 0]),
                              ('outer-iamond-7.txt', [0, 1, 0]), ('outer-kite-4.txt', [4, 1, 0])):
            for number, count in enumerate(numbers):
                self.assertEqual((name, len(self.chosen(name, '--outer', number))), (name, count))
        self.assertEqual(self.chosen('outer-square.txt', '--outer', 1, '--heesch', 0), [OCTOMINO])
        self.assertEqual(self.chosen('outer-square.txt', '--holed', '--grid', 'square'), [HOLED_HEPTOMINO])

    def test_standard_input(self):
        self.assertEqual(self.done('select', '-', '--undecided', text=helpers.read(KITE)).splitlines(),
                         self.chosen(KITE, '--undecided'))

    def test_refusals(self):
        kite, outer = helpers.data(KITE), helpers.data('outer-kite-4.txt')
        for words, part in (((kite, '--outer', 1), f'{kite}: line 1: --outer needs an outer text'),
                            ((outer, '--holed'), f'{outer}: line 1: an outer text doesn\'t say its grid'),
                            ((kite, '--holed', '--grid', 'hex'), 'this is a text of the grid kite'),
                            ((kite, '--heesch', '-1'), "'-1' is no whole number"), ((kite, '--classes', 0), 'from 1'),
                            ((kite, '--undecided', 'domain'), 'invalid choice'), ((), 'CATALOGUE'),
                            ((kite, kite), 'unrecognized'), ((kite, '--nothing'), '--nothing')):
            self.assert_refused(helpers.called('select', *words), part)

    def test_bad_texts(self):
        self.assert_refuses_bad_texts('select')
        self.assert_refused(helpers.tool('select', '-', text=''), 'standard input: line 1: ')


if __name__ == '__main__':
    unittest.main()
