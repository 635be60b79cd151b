"""tools/merge: two passes in one catalogue, what it refuses, and with the program all steps for `iamond 9`."""
import re
import unittest

import helpers

FIRST, SECOND, MERGED = map(helpers.data, ('kite-4.txt', 'kite-4-second.txt', 'kite-4-domain-6.txt'))


def with_limits(text, **limits):
    """The text with other limits in its header."""
    header, newline, rest = text.partition('\n')
    for name, value in limits.items():
        header = re.sub(f'{name} [0-9]+', f'{name} {value}', header)
    return header + newline + rest


def blocks(text):
    """The header, the entries and the last line of a catalogue."""
    return re.split(r'(?m)^(?=shape |end )', text)


def without(text, numbers):
    """The catalogue without the entries of these numbers."""
    header, *entries, _ = blocks(text)
    left = [entry for number, entry in enumerate(entries, 1) if number not in numbers]
    return f'{header}{"".join(left)}end {len(left)}\n'


class Merge(helpers.ToolTest):
    def merged(self, *texts):
        """The catalogue that merge makes of these texts."""
        paths = [self.written(f'{number}.txt', text) for number, text in enumerate(texts)]
        return self.done('merge', *paths)

    def refused(self, *texts_and_part):
        """That these texts are refused, with the last word as a part of the line."""
        *texts, part = texts_and_part
        paths = [self.written(f'{number}.txt', text) for number, text in enumerate(texts)]
        result = helpers.called('merge', *paths)
        self.assert_refused(result, part)
        self.assertEqual(result.stdout, '')

    def test_it_is_the_catalogue_under_the_last_limits(self):
        self.assert_same_text(self.done('merge', FIRST, SECOND), helpers.read('kite-4-domain-6.txt'))

    def test_inputs_stay(self):
        first = helpers.read('kite-4.txt')
        second = with_limits(first, turns=20001)
        self.assert_same_text(self.merged(first, second), second)
        self.assertEqual([(self.folder / name).read_text() for name in ('0.txt', '1.txt')], [first, second])

    def test_three_passes(self):
        first, second = helpers.read('kite-4.txt'), helpers.read('kite-4-second.txt')
        decided, left = without(second, {1, 3}), without(second, {2, 4})
        self.assert_same_text(self.merged(first, decided, with_limits(left, domain=8)),
                              with_limits(helpers.read('kite-4-domain-6.txt'), domain=8))
        self.refused(first, left, with_limits(left, domain=8), 'stays undecided under smaller limits')

    def test_the_first_text_that_decides_counts(self):
        first, second = helpers.read('kite-4.txt'), helpers.read('kite-4-second.txt')
        third = with_limits(first, domain=8)
        self.assert_same_text(self.merged(first, second, third),
                              with_limits(helpers.read('kite-4-domain-6.txt'), domain=8))

    def test_the_last_text_counts_where_none_decides(self):
        first = helpers.read('kite-4.txt')
        second, third = with_limits(first, turns=30000), with_limits(first, turns=40000)
        changed = third.replace('triple 1 2 0 refuted', 'triple 1 2 0 spent')
        changed = re.sub(r'(triple 1 2 0 spent(?:\nlearn .*)*\n)empty .*', r'\1spent', changed)
        expected = ''.join(new if 'undecided' in old else old for old, new in zip(blocks(third), blocks(changed)))
        self.assertEqual(expected.count('\nspent\n'), 4)
        self.assert_same_text(self.merged(first, second, changed), expected)

    def test_given_brief_and_empty_catalogues(self):
        given = helpers.read('undecided-turns.txt')
        self.assert_same_text(self.merged(given, with_limits(given, turns=4)), with_limits(given, turns=4))
        brief = helpers.read('square-8-brief.txt')
        self.assert_same_text(self.merged(brief, with_limits(brief, domain=5)), with_limits(brief, domain=5))
        empty = blocks(given)[0] + 'end 0\n'
        self.assert_same_text(self.merged(empty, with_limits(given, turns=5)), with_limits(empty, turns=5))

    def test_refusals(self):
        first, second = helpers.read('kite-4.txt'), helpers.read('kite-4-second.txt')
        twice = ''.join((blocks(second)[0], blocks(second)[1] * 2, 'end 2\n'))
        swapped = ''.join((blocks(first)[0], blocks(first)[2], blocks(first)[1], 'end 2\n'))
        first_twice = ''.join((blocks(first)[0], blocks(first)[1] * 2, 'end 2\n'))
        brief, share, outer = map(helpers.read, ('square-8-brief.txt', 'kite-4-share-1.txt', 'outer-kite-4.txt'))
        old, new = helpers.read('iamond-7-version-1.txt'), with_limits(helpers.read('iamond-7.txt'), domain=5)
        for texts, part in (((first, first), 'are those of'), ((first, with_limits(second, levels=2)), 'levels falls'),
                            ((second, first), 'domain falls'), ((first, with_limits(second, turns=9, size=8)), 'fall'),
                            ((first, without(second, {2})), 'stays undecided under smaller limits'),
                            ((first, twice), 'line 11: this shape stands twice'),
                            ((first_twice, second), 'line 26: this shape stands twice'),
                            ((swapped, second), 'have to rise'), ((old, new), 'their versions differ'),
                            ((first, with_limits(helpers.read('hex-6.txt'), domain=5)), 'their grids differ'),
                            ((brief, with_limits(helpers.read('square-7.txt'), domain=5)), 'only one of them is'),
                            ((share, second), 'this is a share'), ((first, outer), 'this is an outer text')):
            self.refused(*texts, part)
        self.assert_refused(helpers.called('merge', FIRST), 'LATER')
        for path in ('-', self.folder, '/dev/stdin'):
            self.assert_refused(helpers.called('merge', FIRST, path), f'{path}: merge reads its texts twice')

    def test_bad_texts(self):
        self.assert_refuses_bad_texts('merge', behind=(SECOND,))
        self.assert_refuses_bad_texts('merge', FIRST)


@helpers.needs_program
class WithProgram(helpers.ToolTest):
    def passes(self, grid, size, first_words, *later_words):
        """The passes over a size, each over what the one before left, and the paths of their texts."""
        text, paths = helpers.program('classify', grid, size, *first_words), []
        for words in (*later_words, None):
            paths.append(self.written(f'{grid}-{size}-{len(paths)}.txt', text))
            if words is not None:
                shapes = self.done('select', paths[-1], '--undecided')
                text = helpers.program('classify', grid, 'given', *words, text=shapes)
        return paths

    def test_the_second_pass_of_iamond_9(self):
        first, second = self.passes('iamond', 9, ('--workers', 4), ('--domain', 8, '--workers', 4))
        self.assertEqual(len(self.done('select', first, '--undecided').splitlines()), 9)
        merged = self.done('merge', first, second)
        self.assertEqual(helpers.program('check', '--workers', 4, text=merged), 'valid 160\n')
        self.assertEqual(self.done('select', self.written('merged.txt', merged), '--undecided'), '')

    def test_what_stays_undecided_has_the_last_limits(self):
        paths = self.passes('kite', 4, ('--levels', 1), ('--levels', 2), ('--levels', 3, '--turns', 30000))
        merged = self.done('merge', *paths)
        self.assertEqual(helpers.program('check', text=merged), 'valid 10\n')
        self.assertEqual(len(self.done('select', self.written('m.txt', merged), '--undecided').splitlines()), 4)
        self.assert_same_text(merged, helpers.program('classify', 'kite', 4, '--turns', 30000))


if __name__ == '__main__':
    unittest.main()
