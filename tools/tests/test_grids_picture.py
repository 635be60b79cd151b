"""tools/grids: the picture of the four grids, as it stands in the documents, and what it refuses."""
import re
import unittest
import xml.etree.ElementTree

import helpers

from polyforms import grids

DOCS = helpers.TOOLS.parent / 'docs'


class GridsPicture(helpers.ToolTest):
    def test_picture_of_the_documents(self):
        self.assert_same_text(self.done('grids'), (DOCS / 'grids.svg').read_text(encoding='ascii'))

    def test_pairs_are_cells(self):
        parts = self.done('grids').split('<g transform')[1:]
        self.assertEqual(len(parts), len(grids.GRIDS))
        for grid, part in zip(grids.GRIDS.values(), parts):
            pairs = [tuple(map(int, pair)) for pair in re.findall('>(-?[0-9]+),(-?[0-9]+)</text>', part)]
            self.assertTrue(all(map(grid.is_cell, pairs)), grid.name)
            self.assertEqual(len(set(pairs)), len(pairs))
            unit = [pair for pair in pairs if all(0 <= number < grid.unit for number in pair)]
            self.assertEqual((grid.name, len(unit)), (grid.name, grid.cells_in_unit))

    def test_well_formed(self):
        self.assertTrue(xml.etree.ElementTree.fromstring(self.done('grids')).tag.endswith('svg'))

    def test_refuses_words(self):
        told = helpers.tool('grids', 'square')
        self.assertEqual((told.returncode, told.stdout), (helpers.REFUSED, ''))
        self.assertEqual(told.stderr.count('\n'), 1)


if __name__ == '__main__':
    unittest.main()
