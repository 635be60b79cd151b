"""Tests of `atlas`: what its page carries, and, beside HEESCH and where there is a Chromium, what the page does."""
import functools
import json
import re
import runpy
import unittest
from unittest import mock

import chromium
import helpers
from polyforms import commands, grids, tallies, texts

# by docs/TABLES.md: shapes, tilings by kind, Heesch numbers, undecided by `levels`, and holed shapes
COUNTS = {
    'square-7': (108, {'translation': 41, 'halfturn': 60, 'periodic': 3}, {0: 2, 1: 2}, 0, 1),
    'hex-6': (82, {'translation': 36, 'halfturn': 39, 'periodic': 2}, {0: 1, 1: 3, 2: 1}, 0, 1),
    'iamond-7': (24, {'halfturn': 21, 'periodic': 2}, {1: 1}, 0, 0),
    'kite-4': (10, {'periodic': 1}, {0: 4, 1: 1}, 4, 0),
}
OUTER = {'outer-square': 'square', 'outer-hex': 'hex', 'outer-iamond-7': 'iamond', 'outer-kite-4': 'kite'}
GRIDS = {**{name: None for name in COUNTS}, 'square-8-brief': None, 'kite-4-share-1': None, **OUTER}


def grid_words(name):
    """The option that the text of this name needs."""
    return ['--grid', GRIDS[name]] if GRIDS.get(name) else []


@functools.cache
def made(name):
    """The call that makes the page of a text that stands here."""
    return helpers.tool('atlas', helpers.data(f'{name}.txt'), *grid_words(name))


def data_of(page):
    """What a page carries of its catalogue."""
    return json.loads(re.search(r'<script type="application/json" id="catalogue">\n(.*)\n</script>', page).group(1))


class AtlasTest(helpers.ToolTest):
    """A test of pages that are made from the texts of the tests."""

    def page(self, name):
        """The page of a text that stands here."""
        self.assertEqual((made(name).returncode, made(name).stderr), (0, ''))
        return made(name).stdout


class PageTest(AtlasTest):
    """What a page carries and says."""

    def test_counts_of_all_grids(self):
        for name, (count, kinds, heesch, undecided, holed) in COUNTS.items():
            with self.subTest(name):
                shapes = data_of(self.page(name))['shapes']
                self.assertEqual(len(shapes), count)
                for kind in ('translation', 'halfturn', 'periodic'):
                    self.assertEqual(sum(shape.get('tiles') == kind for shape in shapes), kinds.get(kind, 0))
                for number in range(4):
                    self.assertEqual(sum(shape.get('heesch') == number for shape in shapes), heesch.get(number, 0))
                self.assertEqual(sum(shape.get('undecided') == 'levels' for shape in shapes), undecided)
                self.assertEqual(sum('holed' in shape for shape in shapes), holed)

    def test_evidence_without_proofs(self):
        for name in ('hex-6', 'kite-4-second', 'undecided-holes', 'undecided-turns'):
            page = self.page(name)
            with self.subTest(name), texts.opened(helpers.data(f'{name}.txt')) as text:
                for shape, entry in zip(data_of(page)['shapes'], text, strict=True):
                    self.assert_same_entry(shape, entry.read())
            self.assertNotRegex(page, r'\b(learn|cut|empty|triple) [0-9]')

    def assert_same_entry(self, shape, entry):
        """That the cells, tiles and coronas that a page carries are those of the entry."""
        self.assertEqual(shape['cells'], texts.cells_text(entry.cells))
        self.assertEqual(places(shape.get('cover', '')), [(*tile.isometry, tile.number) for tile in entry.tiles])
        for part in ('coronas', 'open'):
            self.assertEqual([places(layer) for layer in shape.get(part, [])], getattr(entry, part))

    def test_one_file(self):
        for name in GRIDS:
            with self.subTest(name):
                page = self.page(name)
                self.assertEqual(set(re.findall(r'\w+://[^"\']*', page)), {'http://www.w3.org/2000/svg'})
                self.assertNotRegex(page, r'(?i)\bsrc=|@import|\burl\(|fetch\(|XMLHttpRequest')
                self.assertEqual(re.findall(r'href="([^"]*)"', page), ['data:,'])
                self.assertIn("default-src 'none'", page)

    def test_words_on_top(self):
        limits = 'Limits: turns 20,000, levels 3, domain 4, size 60,000,000.'
        words = {'square-7': f'Catalogue square 7, version 2. {limits}',
                 'kite-4-share-1': '<h1>Polykites of 4 cells, share 1 of 2</h1>',
                 'kite-4-second': '<h1>Given polykites of 4 cells</h1>',
                 'square-8-brief': '<p class="notice">This is a brief catalogue: it has verdicts and no evidence',
                 'outer-hex': '<p class="notice">This is a text of outer numbers'}
        for name, part in words.items():
            with self.subTest(name):
                self.assertIn(part, self.page(name))

    def test_standard_input(self):
        self.assertEqual(self.done('atlas', '-', text=helpers.read('kite-4.txt')), self.page('kite-4'))

    def test_no_shapes(self):
        empty = 'heesch 2 hex given turns 1 levels 1 domain 1 size 1\nend 0\n'
        self.assertEqual(data_of(self.done('atlas', '-', text=empty))['shapes'], [])

    def test_bad_texts(self):
        self.assert_refuses_bad_texts('atlas')

    def test_bad_words(self):
        outer, full = helpers.data('outer-hex.txt'), helpers.data('square-7.txt')
        self.assert_refused(helpers.tool('atlas', outer), 'grid')
        self.assert_refused(helpers.tool('atlas', outer, '--grid', 'kite'), 'line 1: ', 'no cell of the grid kite')
        self.assert_refused(helpers.tool('atlas', full, '--grid', 'hex'), 'grid')
        self.assert_refused(helpers.tool('atlas'))

    def test_turn_of_another_grid(self):
        text = helpers.read('square-7.txt').replace('tile 0 0 0 class 1 by', 'tile 9 0 0 class 1 by', 1)
        self.assert_refused(helpers.tool('atlas', '-', text=text), 'line 2: ', 'turn')

    def test_too_many_shapes(self):
        page_of = runpy.run_path(str(helpers.TOOLS / 'atlas'))['page_of']
        fault = r'iamond-7\.txt: line [0-9]+: a page shows at most 23 shapes'
        with texts.opened(helpers.data('iamond-7.txt')) as text, self.assertRaisesRegex(commands.Fault, fault):
            with mock.patch.dict(page_of.__globals__, MOST_SHAPES=23):
                page_of(text, grids.named('iamond'))


def places(words):
    """The tuples of numbers in the page's data."""
    return [tuple(map(int, word.split(','))) for word in words.split()]


@helpers.needs_outside(*chromium.NAMES)
class BrowserTest(AtlasTest):
    """What a page does in a browser."""

    @classmethod
    def setUpClass(cls):
        super().setUpClass()
        cls.browser = chromium.Browser()
        cls.browser.__enter__()
        cls.addClassCleanup(cls.browser.__exit__)

    def open(self, name, choices=''):
        """Opens the page of a text that stands here."""
        self.browser.events.clear()
        path = self.written(f'{name}.html', self.page(name).encode())
        self.browser.open(f'file://{path}#{choices}')

    def counts(self, question):
        """The counts that the page shows for a question, by answer."""
        return self.browser.value(f'''Object.fromEntries(
            [...document.querySelectorAll('fieldset[name="{question}"] label')].map(label =>
                [label.querySelector('input').value, Number(label.querySelector('.count').textContent)]))''')

    def shown(self):
        """How many shapes stand on the page."""
        return self.browser.value("document.querySelectorAll('#shapes button:not([hidden])').length")

    def click(self, question, answer):
        """Chooses an answer, or takes the choice back."""
        self.browser.value(f'document.querySelector(\'input[name="{question}"][value="{answer}"]\').click()')

    def assert_quiet(self):
        """That no script failed, and that nothing but the file itself was asked for."""
        for event in self.browser.events:
            self.assertNotEqual(event['method'], 'Runtime.exceptionThrown', event)
            if event['method'] == 'Network.requestWillBeSent':
                self.assertRegex(event['params']['request']['url'], r'\A(file|data|about):')

    def test_filters_give_the_counts_of_the_tally(self):
        for name in (*COUNTS, *OUTER):
            with self.subTest(name):
                self.open(name)
                with texts.opened(helpers.data(f'{name}.txt')) as text:
                    tally = tallies.tally_of(text, GRIDS[name] or text.grid)
                self.assertEqual(self.shown(), tally.shapes)
                if tally.holed:
                    self.click('holed', 'no')
                self.assertEqual(self.shown(), tally.shapes - tally.holed)
                for question, expected in (('tiles', tally.kinds), ('heesch', tally.heesch),
                                           ('undecided', tally.undecided), ('outer', tally.outer)):
                    self.assert_filters_give(question, {str(answer): count for answer, count in expected.items()})
                self.assert_quiet()

    def assert_filters_give(self, question, expected):
        """That the counts of a question are these, and that each of its answers shows so many shapes."""
        counts = self.counts(question)
        self.assertEqual({answer: count for answer, count in counts.items() if count and answer != 'spent'}, expected)
        for answer, count in expected.items():
            self.click(question, answer)
            self.assertEqual(self.shown(), count)
            self.click(question, answer)

    def test_several_filters_and_the_address(self):
        self.open('square-7', 'tiles=periodic&heesch=1')
        self.assertEqual(self.shown(), 5)
        self.click('classes', '2')
        self.assertEqual(self.shown(), 2)
        self.assertTrue(self.browser.value('location.href').endswith('#tiles=periodic&heesch=1&classes=2'))
        self.browser.value("document.getElementById('clear').click()")
        self.assertEqual(self.shown(), 108)
        self.assertEqual(self.browser.value('location.hash'), '')
        self.assert_quiet()

    def part(self, name):
        """The words of a part of the opened dialogue."""
        return self.browser.value(f'''document.querySelector('dialog[open] [data-part="{name}"]')?.innerText''')

    def test_keyboard(self):
        self.open('hex-6', 'heesch=1,2')
        self.browser.value("document.querySelector('#shapes button[tabindex=\"0\"]').focus()")
        for key in ('ArrowRight', 'Enter'):
            self.browser.press(key)
        self.assertEqual(self.part('title'), 'Shape 41')
        self.assertEqual(self.part('legend').split('\n'), ['the shape', 'corona 1: 7 tiles', 'corona 2: 17 tiles'])
        self.assertTrue(self.browser.value('location.hash').endswith('&shape=41'))
        for key in ('ArrowRight', 'ArrowRight', 'ArrowRight'):
            self.browser.press(key)
        self.assertEqual((self.part('title'), self.part('place')), ('Shape 80', '4 of 4 shapes'))
        self.browser.press('Escape')
        self.assertIsNone(self.part('title'))
        self.assertEqual(self.browser.value("document.activeElement.getAttribute('aria-label')"),
                         'Shape 80: Heesch number 1')
        self.assert_quiet()

    def test_every_shape_opens(self):
        for name in ('hex-6', 'iamond-7', 'kite-4', 'undecided-holes', *OUTER):
            with self.subTest(name):
                self.open(name, 'shape=1')
                opened = self.browser.value('''(() => {
                    const next = document.querySelector('[data-part="next"]');
                    let count = 1;
                    for (; !next.disabled; count++) next.click();
                    return count;
                })()''')
                self.assertEqual(opened, len(data_of(self.page(name))['shapes']))
                self.assertEqual(self.part('title'), f'Shape {opened}')
                self.assert_quiet()

    def test_pictures_are_drawn_when_they_are_seen(self):
        self.open('square-8-brief')
        drawn = "document.querySelectorAll('#shapes svg').length"
        self.browser.value('new Promise(done => setTimeout(done, 200))')
        before = self.browser.value(drawn)
        self.assertLess(before, 369)
        self.browser.value('scrollTo(0, document.body.scrollHeight)')
        self.browser.value('new Promise(done => setTimeout(done, 200))')
        self.assertGreater(self.browser.value(drawn), before)


if __name__ == '__main__':
    unittest.main()
