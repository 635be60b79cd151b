"""tools/draw: the pictures of the documents, tilings and coronas of each grid, and what it refuses."""
import re
import unittest
import xml.etree.ElementTree

import helpers

DOCS = helpers.TOOLS.parent / 'docs'
SVG = '{http://www.w3.org/2000/svg}'


class Draw(helpers.ToolTest):
    def drawn(self, name, *words):
        """The text of a picture, which has to be well-formed."""
        text = self.done('draw', helpers.data(name), *words)
        self.assertEqual(xml.etree.ElementTree.fromstring(text).tag, SVG + 'svg')
        return text

    def legend(self, text):
        """The words of the legend and the caption."""
        return re.findall('<text [^>]*>([^<]*)</text>', text)

    def test_pictures_of_the_documents(self):
        for name, number, picture in (('hex-6.txt', 41, 'corona.svg'), ('square-7.txt', 88, 'tiling.svg')):
            self.assert_same_text(self.drawn(name, number), (DOCS / picture).read_text(encoding='ascii'))

    def test_each_grid(self):
        for name, number, words in (('square-7.txt', 1, ['class 1: 1 of 1 tiles']),
                                    ('iamond-7.txt', 1, ['class 1: 2 of 2 tiles']),
                                    ('kite-4.txt', 1, ['the shape', 'corona 1: 6 tiles', 'corona 2: 15 tiles']),
                                    ('kite-4-second.txt', 1, ['class 1: 2 of 6 tiles', 'class 2: 2 of 6 tiles']),
                                    ('kite-4-share-2.txt', 4, ['the shape', 'corona 1: 6 tiles'])):
            legend = self.legend(self.drawn(name, number))
            self.assertEqual((name, legend[:len(words)]), (name, words))

    def test_a_shape_in_place_of_a_number(self):
        by_number = self.drawn('square-7.txt', 1)
        self.assertEqual(self.drawn('square-7.txt', '--shape', '5,2 5,3 5,4 5,5 5,6 5,0 5,1'), by_number)
        self.assertEqual(self.drawn('square-7.txt', '--shape=-5,2 -4,2 -3,2 -2,2 -1,2 0,2 1,2'), by_number)

    def test_outer_coronas(self):
        drawn = self.drawn('outer-square.txt', 2, '--grid', 'square')
        self.assertEqual(self.legend(drawn)[:2], ['the shape', 'outer corona 1: 7 tiles'])
        self.assertIn('square, 8 cells: heesch 0 nontiler 2', drawn)
        self.assertEqual(self.drawn('outer-square.txt', 2, '--grid', 'square', '--open').count('<path'),
                         drawn.count('<path'))
        self.assertEqual(self.legend(self.drawn('outer-kite-4.txt', 9, '--grid', 'kite'))[1], 'corona 1: 6 tiles')
        self.assertIn('class 1', self.drawn('outer-iamond-7.txt', 1, '--grid', 'iamond'))

    def test_open_coronas(self):
        self.assertEqual(self.legend(self.drawn('undecided-holes.txt', 1, '--open'))[:2],
                         ['the shape', 'corona 1: 7 tiles'])
        self.assertEqual(len(self.legend(self.drawn('undecided-holes.txt', 1))), 2)

    def test_radius(self):
        self.assertLess(self.drawn('square-7.txt', 1, '--radius', 1).count('<path'),
                        self.drawn('square-7.txt', 1, '--radius', 3).count('<path'))

    def test_tiles_far_away_are_drawn_near(self):
        for number, tile, far in ((1, 'tile 0 0 0 class', 'tile 0 99995 -99999 class'),
                                  (45, 'tile 2 5 0 class', 'tile 2 5 98000 class')):
            whole = helpers.read('square-7.txt')
            path = self.written('far.txt', whole.replace(f'\n{tile}', f'\n{far}', 1))
            self.assertEqual(self.done('draw', path, number).count('<path'),
                             self.drawn('square-7.txt', number).count('<path'))

    def test_refusals(self):
        kite, brief, outer = map(helpers.data, ('kite-4.txt', 'square-8-brief.txt', 'outer-kite-4.txt'))
        turn = self.written('turn.txt', helpers.read('square-7.txt').replace('tile 0 0 0', 'tile 9 0 0'))
        for words, part in (((kite, 11), f'{kite}: none of its 10 entries is 11'), ((kite,), 'or --shape'),
                            ((kite, 1, '--shape', '1,1'), 'or --shape'), ((kite, 0), 'from 1'),
                            ((kite, '--shape', '0,0'), '0,0 is no cell of the grid kite'),
                            ((kite, '--shape', '1,1 4,1'), 'none of its 10 entries is 1,1 4,1'),
                            ((kite, '--shape', 'x'), 'no list of cells'), ((kite, 1, '--open'), 'behind `open`'),
                            ((kite, 1, '--radius', 'nan'), '--radius'), ((kite, 1, '--radius', 21), '--radius'),
                            ((brief, 1), f'{brief}: line 1: a brief text has no evidence'),
                            ((outer, 1), '--grid'), ((outer, 1, '--grid', 'cube'), 'invalid choice'),
                            ((turn, 1), f'{turn}: line 2: the grid square has no turn 9')):
            self.assert_refused(helpers.called('draw', *words), part)

    def test_bad_texts(self):
        self.assert_refuses_bad_texts('draw', behind=('11',))


if __name__ == '__main__':
    unittest.main()
