"""Tests of tools/run: its parts by themselves, and whole runs that are ended at any moment."""
import io
import os
import pathlib
import re
import resource
import signal
import subprocess
import sys
import time
import unittest
from unittest import mock

from helpers import PROGRAM, SECONDS, TOOLS, ToolTest, data, needs_program, program, read, tool

from polyforms import commands, grids, texts
from polyforms.whole import WholeFile
from running import cluster, joins, ladder
from running.notable import Notable, known, table_text
from running.parts import Evidence, NotWhole, PassText, ShareText
from running.progress import Progress, duration
from running.report import seconds_at_work

SHARES = [data('kite-4-share-1.txt'), data('kite-4-share-2.txt')]
MOMENTS = ['work/plan.json', 'work/shares/0002.txt', 'work/shares/0006.txt', 'work/first.txt',
           'work/pass-1/0003.decided', 'work/pass-1/0020.decided', 'work/pass-1.txt', 'work/pass-2/0011.decided',
           'work/merged.txt', 'catalogue.txt']
STEPS = ['--first', 'turns 50 levels 1 domain 2', '--passes', 'turns 100', 'turns 1000 levels 2', '--shares', '8']


def entries(name):
    """The bytes of a catalogue that stands here."""
    return pathlib.Path(data(name)).read_bytes()


class Ladders(unittest.TestCase):
    """Limits in words, and the passes by default."""

    def test_default_passes(self):
        for grid, size, wanted in (
                ('square', 9, [(8, 4), (12, 5)]), ('hex', 7, [(8, 4), (12, 5)]), ('iamond', 9, [(8, 4), (12, 5)]),
                ('kite', 5, [(6, 4), (12, 5)]), ('kite', 7, [(6, 4), (12, 5)]), ('kite', 6, [(8, 4), (12, 5)]),
                ('kite', 9, [(8, 4), (12, 5)])):
            passes = ladder.default_passes(grid, size, ladder.DEFAULT)
            self.assertEqual([(limits.domain, limits.levels) for limits in passes], wanted, (grid, size))
            self.assertEqual({limits.turns for limits in passes}, {200_000})

    def test_first_limits(self):
        """A pass of the first limits has a domain that exists, for each size of kites too."""
        for grid, most in texts.MOST_CELLS[2].items():
            first = ladder.first_limits(grid)
            self.assertEqual(first, ladder.DEFAULT._replace(domain=6 if grid == 'kite' else 4))
            for size in range(1, most + 1):
                self.assertGreater(ladder.greatest_domain(grid, size, first.domain), 0)

    def test_domains(self):
        for grid, size, most, wanted in (('kite', 7, 5, 0), ('kite', 5, 11, 6), ('kite', 8, 8, 6), ('iamond', 9, 7, 6),
                                         ('iamond', 10, 7, 7), ('square', 5, 7, 7)):
            self.assertEqual(ladder.greatest_domain(grid, size, most), wanted)

    def test_covers(self):
        """Behind a pass that looks for covers alone the passes keep the first domain."""
        first = ladder.DEFAULT
        self.assertEqual(ladder.cover_limits(first, 12), first._replace(turns=300, levels=1, domain=12))
        self.assertEqual([str(limits) for limits in ladder.default_passes('hex', 10, first, 12)],
                         [f'turns 200000 levels {levels} domain 4 size 60000000' for levels in (4, 5)])
        for domain in (4, 13):
            with self.assertRaisesRegex(commands.Fault, f'--covers {domain} has to be above the first domain, 4'):
                ladder.cover_limits(first, domain)

    def test_words(self):
        passes = ladder.parse_passes(['domain 8 levels 4', 'turns 200000'], ladder.DEFAULT)
        self.assertEqual([str(limits) for limits in passes], ['turns 20000 levels 4 domain 8 size 60000000',
                                                              'turns 200000 levels 4 domain 8 size 60000000'])
        for words in ('', 'domain', 'domain 13', 'domain 8 domain 9', 'levels x', 'depth 3', 'domain 3', 'domain 4'):
            with self.assertRaises(commands.Fault):
                ladder.parse_passes([words], ladder.DEFAULT)


class Parts(ToolTest):
    """The texts of parts, in pieces of any length."""

    def pieces(self, text):
        for length in (1, 7, 64, 1000, len(text)):
            yield [text[start:start + length] for start in range(0, len(text), length)]

    def test_share(self):
        whole, left = entries('kite-4-share-1.txt'), self.done('select', SHARES[0], '--undecided')
        for pieces in self.pieces(whole):
            share = ShareText(str(self.folder / 'share'), str(self.folder / 'left'), 5)
            for piece in pieces:
                share.take(piece)
                self.assertFalse((self.folder / 'share').exists())
            share.end()
            self.assertEqual((self.folder / 'share').read_bytes(), whole)
            self.assertEqual((self.folder / 'left').read_text(), left)
            os.remove(self.folder / 'share')

    def test_not_whole(self):
        whole = entries('kite-4-share-1.txt')
        for text, shapes in ((whole, 4), (whole[:-1], 5), (whole[:-10], 5), (b'', 5), (b'bad input 1 5\n', 5)):
            share = ShareText(str(self.folder / 'share'), str(self.folder / 'left'), shapes)
            share.take(text)
            with self.assertRaises(NotWhole):
                share.end()
            share.drop()
            self.assertEqual(list(self.folder.iterdir()), [])

    def pass_text(self, most, pieces):
        """The files of a part of a pass whose text is that of kite 4, with so much evidence at most."""
        for path in self.folder.iterdir():
            path.unlink()
        paths = {kind: str(self.folder / f'0001.{kind}') for kind in ('decided', 'undecided', 'left')}
        part = PassText(paths, Evidence(str(self.folder), most), 10)
        for piece in pieces:
            part.take(piece)
        part.end()
        return {path.name: path.read_text() for path in self.folder.iterdir()}

    def test_pass(self):
        whole, left = entries('kite-4.txt'), self.done('select', data('kite-4.txt'), '--undecided')
        cut = re.split(r'(?m)^(?=shape |end )', whole.decode())
        decided = [entry for entry in cut[1:-1] if ' undecided ' not in entry]
        undecided = [entry for entry in cut[1:-1] if ' undecided ' in entry]
        evidence = ''.join([cut[0], *undecided, 'end 4\n'])
        size = len(evidence)
        for pieces in self.pieces(whole):
            kept = {'0001.decided': ''.join([cut[0], *decided, 'end 6\n']), '0001.left': left}
            self.assertEqual(self.pass_text(size, pieces), {**kept, '0001.undecided': evidence})
            for most in (1, size // 2, size - 1):
                self.assertEqual(self.pass_text(most, pieces), {**kept, 'over': ''}, most)

    def test_evidence_of_earlier_calls(self):
        self.written('0001.undecided', 'x' * 10)
        self.assertFalse(Evidence(str(self.folder), 10).is_over)
        self.assertTrue(Evidence(str(self.folder), 9).is_over)
        self.assertEqual([path.name for path in self.folder.iterdir()], ['over'])

    def test_full_disk(self):
        """A limit on the size of files stands for a disk that is full."""
        share = ShareText(str(self.folder / 'share'), str(self.folder / 'left'), 5)
        before = resource.getrlimit(resource.RLIMIT_FSIZE)
        resource.setrlimit(resource.RLIMIT_FSIZE, (1000, before[1]))
        try:
            with self.assertRaisesRegex(commands.Fault, f'{self.folder}/share: File too large'):
                share.take(b'share 1 1\n' * 100_000)
        finally:
            resource.setrlimit(resource.RLIMIT_FSIZE, before)
        self.assertEqual(list(self.folder.iterdir()), [])

    def test_two_writers(self):
        with WholeFile(str(self.folder / 'file')):
            with self.assertRaisesRegex(commands.Fault, 'another process'):
                WholeFile(str(self.folder / 'file'))
        self.assertTrue((self.folder / 'file').exists())


class Joins(ToolTest):
    """Parts put together."""

    def test_by_line(self):
        joins.join_shares('/no/program', SHARES, str(self.folder / 'joined'), most=0)
        self.assertEqual((self.folder / 'joined').read_bytes(), entries('kite-4.txt'))

    def test_refused(self):
        part = read('kite-4-share-2.txt')
        for text in ('', part[:-1], part.replace('end 5', 'end 4'), part.replace('levels 3', 'levels 4', 1)):
            self.assert_not_joined([SHARES[0], self.written('two', text)])
        self.assert_not_joined(SHARES[::-1])

    def assert_not_joined(self, shares):
        with self.assertRaises(commands.Fault):
            joins.join_shares('/no/program', shares, str(self.folder / 'joined'), most=0)
        self.assertFalse((self.folder / 'joined').exists())

    def test_many_given(self):
        header = 'brief 2 square given turns 20000 levels 3 domain 4 size 60000000\n'
        entry = 'shape 0,0\nverdict tiles translation domain 1 classes 1\n'
        text = self.written('text', f'{header}{entry * 15000}end 15000\n')
        joins.join_given([text], str(self.folder / 'given.txt'), header.encode())
        counts = []
        for name in ('given.txt', 'given-2.txt'):
            with texts.opened(str(self.folder / name)) as joined:
                counts.append(sum(1 for _ in joined))
        self.assertEqual(counts, [10000, 5000])

    @needs_program
    def test_by_program(self):
        joins.join_shares(PROGRAM, SHARES, str(self.folder / 'joined'))
        self.assertEqual((self.folder / 'joined').read_bytes(), entries('kite-4.txt'))
        with self.assertRaisesRegex(commands.Fault, 'bad input 1 9'):
            joins.join_shares(PROGRAM, SHARES[::-1], str(self.folder / 'joined'))


    @needs_program
    def test_both_ways(self):
        """`heesch join`, and a line at a time where the shares are large, give the same bytes, which are valid."""
        shares = [self.written(f'share-{number}', program('share', 'square', 7, number, 3)) for number in (1, 2, 3)]
        texts_of = {}
        for name, most in (('whole', joins.MOST_JOINED), ('lines', 0)):
            joins.join_shares(PROGRAM, shares, str(self.folder / name), most=most)
            texts_of[name] = (self.folder / name).read_text()
        self.assertEqual(texts_of['whole'], texts_of['lines'])
        self.assertEqual(program('check', text=texts_of['lines']), 'valid 108\n')


class Listed(ToolTest):
    """The shapes that are listed one by one."""

    def known_of(self, name):
        """What is known of the one shape of a catalogue that stands here."""
        with texts.opened(data(name)) as text:
            return [known(entry.read(), grids.named(text.grid)) for entry in text][0]

    def test_known(self):
        holes = self.known_of('undecided-holes.txt')
        self.assertEqual(holes[2:], ('undecided holes 0', 0, 0, 1, '', 0, 0))
        turns = self.known_of('undecided-turns.txt')
        self.assertEqual((turns.verdict, turns.coronas, turns.heesch), ('undecided turns 0 free 1', 0, None))
        self.assertEqual(turns.refuted_lattices + turns.spent_lattices, read('undecided-turns.txt').count('\ntriple '))
        size = self.known_of('undecided-size.txt')
        self.assertEqual((size.verdict, size.coronas, size.heesch), ('undecided size 0 bare 2', 0, 0))

    def test_domains_refuted(self):
        """A domain is refuted where each of its lattices is."""
        wanted = 'kite given turns 9 levels 1 domain 6 size 9\nshape 1,1 -1,2\nverdict undecided levels 1\ncoronas 1\n'
        triples = ''.join(f'triple {p} {q} {s} refuted\nempty 1\n' for p, q in ((1, 1), (1, 2), (2, 1))
                          for s in range(p))
        for old, domains, spent in (('', '3,6', 0), ('triple 2 1 1 refuted\nempty 1\n', '3', 1)):
            spoilt = triples.replace(old, old.replace('refuted\nempty 1', 'spent\nspent')) if old else triples
            path = self.written('text', f'heesch 2 {wanted}layer 0,1,0\n{spoilt}end 1\n')
            with texts.opened(path) as text:
                text.grid = None
                shape = [known(entry.read(), grids.named('kite')) for entry in text][0]
            self.assertEqual((shape.refuted_domains, shape.refuted_lattices, shape.spent_lattices),
                             (domains, 4 - spent, spent))

    def test_notable(self):
        left = self.done('select', data('kite-4.txt'), '--undecided').splitlines()
        notable = Notable(set(left[:2]))
        notable.look(data('kite-4.txt'))
        self.assertEqual([shape.cells for shape in notable.open], left[:2])
        self.assertEqual((notable.heesch, notable.largest),
                         (1, self.done('select', data('kite-4.txt'), '--heesch', 1).splitlines()))
        notable.look(data('kite-4-second.txt'))
        self.assertEqual(len(notable.open), 2)
        table = table_text(notable.open).splitlines()
        self.assertTrue(table[0].startswith('number,cells,verdict,coronas,heesch,'))
        self.assertEqual(len(table), 3)

    def test_holed_shapes_are_not_the_largest(self):
        notable = Notable(set())
        notable.look(data('square-7.txt'))
        self.assertEqual((notable.heesch, len(notable.largest)), (1, 2))


class Words(ToolTest):
    """What is refused, and small texts."""

    def assert_run_refused(self, part, *words, into='into', heesch='/bin/true'):
        with self.subTest(words=words, heesch=heesch):
            self.assert_refused(tool('run', *words, '--into', self.folder / into, '--program', heesch), part)

    def test_refused(self):
        self.assert_run_refused('N is 1 to 14', 'square', 15)
        self.assert_run_refused('no whole number from 1', 'square', 0)
        self.assert_run_refused("invalid choice: 'cube'", 'cube', 3)
        self.assert_run_refused('required: N', 'square')
        self.assert_run_refused('--shares', 'square', 3, '--shares', 'x')
        self.assert_run_refused('--most', 'square', 3, '--most', '2X')
        self.assert_run_refused('not allowed with', 'square', 3, '--slurm', '--parallel')
        self.assert_run_refused('are no limits', 'square', 3, '--passes', 'domain')
        self.assert_run_refused('is not begun', 'square', 3, '--share', 1)
        self.written('file', '')
        self.assert_run_refused('file', 'square', 3, into='file')
        self.assert_run_refused('has files, and no run was begun in it', 'square', 3, into='.')
        self.assert_run_refused('no-such', 'square', 3, heesch='no-such')
        self.assert_run_refused('status 1', 'square', 3, heesch='/bin/false')
        (self.folder / 'into/work/plan.json').write_text('{}')
        self.assert_run_refused('not the plan of a run', 'square', 3)

    def test_ranges(self):
        self.assertEqual(cluster.ranges([1, 2, 3, 5, 7, 8]), '1-3,5,7-8')

    def progress(self, is_live, moments):
        """What is written at moments in seconds, each with the number of shapes that are done then, and at the end."""
        stream = io.StringIO()
        stream.isatty = lambda: is_live
        with mock.patch('running.progress.time.monotonic', side_effect=[0, *(second for second, _ in moments), 200]):
            progress = Progress('shares', 100, 500, stream)
            for _, shapes in moments:
                progress(shapes)
            progress.end()
        return stream.getvalue()

    def test_progress(self):
        moments = [(0.5, 1), (59, 30), (61, 100), (62, 101), (130, 390)]
        self.assertEqual(self.progress(False, moments),
                         'shares: 200 of 500 shapes, 1.64 per second, 3 min 3 s left\n'
                         'shares: 490 of 500 shapes, 3 per second, 3.3 s left\n'
                         'shares: 490 of 500 shapes in 3 min 20 s\n')
        live = self.progress(True, moments)
        self.assertEqual((live.count('\r\x1b[K'), live.count('\n')), (5, 1))

    def test_seconds_at_work(self):
        """Processes side by side count once, and the time between two calls of the tool not at all."""
        lines = [{'begun': begun, 'seconds': seconds} for begun, seconds in ((100, 8), (5, 3), (6, 5), (6, 1))]
        self.assertEqual(seconds_at_work(lines), 14)

    def test_durations(self):
        self.assertEqual([duration(seconds) for seconds in (1.26, 59.4, 61, 3600, 90000)],
                         ['1.3 s', '59 s', '1 min 1 s', '1 h 0 min', '25 h 0 min'])


def files_of(folder):
    """The texts of what a run made, but for the one that has the times."""
    return {path.name: path.read_bytes() for path in pathlib.Path(folder).iterdir()
            if path.is_file() and path.name != 'README.md'}


@needs_program
class Runs(ToolTest):
    """Whole runs, with the built program."""

    def run_tool(self, folder, *words, heesch=PROGRAM):
        return tool('run', *words, '--into', self.folder / folder, '--program', heesch, '--jobs', 4)

    def assert_made(self, folder, *words, heesch=PROGRAM):
        result = self.run_tool(folder, *words, heesch=heesch)
        self.assertEqual(result.returncode, 0, result.stderr)
        return files_of(self.folder / folder)

    def stub(self, condition, body):
        """A program that does otherwise where a condition on its words holds."""
        path = self.written('stub', f'#!/bin/sh\nif {condition}; then {body}; fi\nexec {PROGRAM} "$@"\n')
        os.chmod(path, 0o755)
        return path

    def started(self, folder, *words, heesch=PROGRAM):
        command = [sys.executable, str(TOOLS / 'run'), *words, '--into', str(self.folder / folder), '--program', heesch]
        return subprocess.Popen(command, stdout=subprocess.DEVNULL, stderr=subprocess.DEVNULL)

    def test_whole(self):
        files = self.assert_made('whole', 'kite', 4, '--outer', '--first', 'domain 4', '--commit', 'abc123')
        self.assertEqual(files['catalogue.txt'], self.merged_kites())
        nontilers = ''.join(self.done('select', data('kite-4.txt'), '--heesch', number) for number in (0, 1))
        outer = program('outer', 'kite', 'given', '--domain', 1, '--levels', 4, text=nontilers)
        self.assertEqual(sorted(files['outer.txt'].decode().splitlines()), sorted(outer.splitlines()))
        self.assertEqual(program('check', text=files['catalogue.txt'].decode()), 'valid 10\n')
        self.assertNotIn('undecided.txt', files)
        readme = (self.folder / 'whole' / 'README.md').read_text()
        for part in ('`valid 10`', '## Undecided\n\nNone.', '| pass 1 |', 'The owner of this folder states a licence',
                     ' of the commit `abc123`, by up to 4 processes at once, on a machine', '| catalogue.txt | the catalogue |'):
            self.assertIn(part, readme)
        judging = re.search('`heesch (check outer kite given [^`]*) < outer.txt`', readme)[1].split()
        said, count = program(*judging, text=files['outer.txt'].decode()), len(nontilers.splitlines())
        self.assertEqual(said, f'valid {count}\n')
        self.assertIn(f'`valid {count} in {count} parts`', readme)
        told = subprocess.run(['sha256sum', '--quiet', '-c', 'SHA256SUMS'], cwd=self.folder / 'whole', check=False)
        self.assertEqual(told.returncode, 0)

    def merged_kites(self):
        """The catalogue of kite 4 under the limits of the first pass, which decides all."""
        left = self.done('select', data('kite-4.txt'), '--undecided')
        limits = ('--domain', 6, '--levels', 4, '--turns', ladder.PASS_TURNS)
        second = self.written('second', program('classify', 'kite', 'given', *limits, text=left))
        return self.done('merge', data('kite-4.txt'), second).encode()

    def test_given_beside(self):
        words = ['iamond', 7, '--first', 'domain 1 levels 1', '--passes', 'domain 2', '--most', '1k']
        files = self.assert_made('given', *words)
        first, whole = (program('classify', 'iamond', 7, '--domain', domain, '--levels', 1) for domain in (1, 2))
        self.assertEqual(files['catalogue.txt'].decode(), first)
        left = self.left_of(whole)
        self.assertEqual(files['undecided.txt'].decode(), left)
        self.assertEqual(len(files['undecided.csv'].splitlines()), 1 + len(left.splitlines()))
        decided = len(self.left_of(first).splitlines()) - len(left.splitlines())
        self.assertEqual(program('check', text=files['given.txt'].decode()), f'valid {decided}\n')
        self.assertTrue(files['given.txt'].startswith(b'heesch 2 iamond given turns 20000 levels 1 domain 2 '))
        self.assertIn(b'given.txt', files['tally.csv'])

    def test_covers_first(self):
        """A pass for covers alone decides what tiles, and leaves the rest to the passes behind it."""
        words = ['iamond', 9, '--first', 'domain 2 levels 1', '--covers', '6', '--passes', 'levels 3']
        files = self.assert_made('covers', *words)
        first, whole = (program('classify', 'iamond', 9, '--domain', domain, '--levels', levels)
                        for domain, levels in ((2, 1), (6, 3)))
        self.assertEqual(files['catalogue.txt'].decode(), first)
        given = files['given.txt'].decode()
        self.assertTrue(given.startswith('heesch 2 iamond given turns 20000 levels 3 domain 6 '))
        left = self.left_of(first).splitlines()
        decided = [cells for cells in left if cells not in self.left_of(whole).splitlines()]
        self.assertEqual(program('check', text=given), f'valid {len(decided)}\n')
        self.assertEqual(self.verdicts(given), {cells: self.verdicts(whole)[cells] for cells in decided})
        self.assertEqual(files.get('undecided.txt', b'').decode(), self.left_of(whole))
        self.assertEqual({verdict.split()[1] for verdict in self.verdicts(given).values()}, {'tiles', 'heesch'})
        readme = (self.folder / 'covers' / 'README.md').read_text()
        for part in ("--covers 6 --passes 'turns 20000 levels 3 domain 2 size 60000000'`",
                     '| pass 1 | `turns 300 levels 1 domain 6 size 60000000` |', 'decided in the catalogue of given',
                     'Pass 1 looked for covers alone, of up to 6 tiles in a period, and found none for these shapes.'):
            self.assertIn(part, readme)
        self.assert_refused(self.run_tool('covers', 'iamond', 9, '--covers', 5), 'was begun with --covers 6, and not 5')

    def verdicts(self, catalogue):
        """The verdict lines of a catalogue by the cells."""
        return dict(re.findall('^shape (.*)\n(verdict .*)$', catalogue, re.MULTILINE))

    def left_of(self, catalogue):
        """The undecided shapes of a catalogue."""
        return self.done('select', self.written('catalogue', catalogue), '--undecided')

    def test_killed_at_ten_moments(self):
        """A run of eight shares and two passes is killed as soon as certain files stand, and has others half then."""
        wanted = self.assert_made('undisturbed', 'square', 8, *STEPS)
        for moment in MOMENTS:
            process = self.started('killed', 'square', '8', *STEPS)
            self.wait_for((self.folder / 'killed' / moment).exists)
            self.assertIsNone(process.poll(), moment)
            process.send_signal(signal.SIGKILL)
            process.wait()
        self.assertEqual(self.assert_made('killed', 'square', 8, *STEPS), wanted)

    def test_second_run(self):
        slow = self.stub('[ "$1 $4" = "share 1" ]', 'exec sleep 60')
        first = self.started('held', 'square', '5', '--shares', '2', heesch=slow)
        self.wait_for((self.folder / 'held/work/shares/0001.txt.part').exists)
        self.assert_refused(self.run_tool('held', 'square', 5, heesch=slow), 'another run is at work')
        first.send_signal(signal.SIGKILL)
        first.wait()
        self.assert_refused(self.run_tool('held', 'square', 5), 'was begun with the program')
        self.assert_refused(self.run_tool('held', 'square', 6, heesch=slow), 'was begun with the size square 5')
        self.assert_refused(self.run_tool('held', 'square', 5, '--shares', 3, heesch=slow), 'was begun with --shares 2')

    def wait_for(self, condition):
        end = time.monotonic() + SECONDS
        while not condition():
            self.assertLess(time.monotonic(), end, 'it takes too long')
            time.sleep(0.005)

    def test_failing_share(self):
        flag = self.folder / 'flag'
        once = self.stub(f'[ "$1 $4" = "share 2" ] && [ ! -e {flag} ]', f'touch {flag}; echo share 2 3; exit 6')
        result = self.run_tool('once', 'square', 5, '--shares', 3, heesch=once)
        self.assertEqual(result.returncode, 0, result.stderr)
        self.assertIn('share 2 of 3: status 6, memory was refused: heesch share square 5 2 3 ', result.stderr)
        self.assertIn('; it is tried once more\n', result.stderr)
        self.assertEqual(files_of(self.folder / 'once')['catalogue.txt'].decode(), program('classify', 'square', 5))

    def test_share_that_fails_twice(self):
        always = self.stub('[ "$1 $4" = "share 2" ]', 'echo share 2 3; exit 6')
        result = self.run_tool('always', 'square', 5, '--shares', 3, heesch=always)
        self.assert_refused_at_end(result, '1 of the shares failed twice, the first of them share 2 of 3: status 6, ')
        self.assertEqual(sorted(path.name for path in (self.folder / 'always/work/shares').glob('*.txt')),
                         ['0001.txt', '0003.txt'])

    def test_pass_that_fails_twice(self):
        """Its shape is left undecided where that is asked for, and then there is no evidence of the last limits."""
        left = self.done('select', data('kite-4.txt'), '--undecided').splitlines()
        always = self.stub('readlink /proc/$$/fd/0 | grep -q /pass-1/0002.cells', 'exit 6')
        words = ['kite', 4, '--first', 'domain 4', '--passes', 'domain 6']
        self.assert_refused_at_end(self.run_tool('f', *words, heesch=always), '1 of the parts of pass 1 failed twice, ')
        files = self.assert_made('f', *words, '--leave', heesch=always)
        self.assertEqual(files['catalogue.txt'], entries('kite-4.txt'))
        self.assertEqual(files['undecided.txt'].decode(), f'{left[1]}\n')
        self.assertEqual(program('check', text=files['given.txt'].decode()), 'valid 3\n')
        self.assertIn('since a process failed twice on them: 1.', (self.folder / 'f/README.md').read_text())

    def test_invalid_catalogue(self):
        wrong = self.stub('[ "$1" = share ]', f'{PROGRAM} "$@" | sed "s/classes 1/classes 2/"; exit 0')
        self.assert_refused_at_end(self.run_tool('wrong', 'square', 4, '--shares', 1, heesch=wrong), 'invalid entry 1')
        self.assertEqual(files_of(self.folder / 'wrong'), {})

    def assert_refused_at_end(self, result, part):
        self.assertEqual(result.returncode, 2)
        self.assertIn(part, result.stderr.splitlines()[-1])

    def test_tasks_of_a_cluster(self):
        commands_of = self.run_tool('tasks', 'square', 6, '--shares', 3, '--parallel').stdout.splitlines()
        self.assertEqual([command.split()[-2:] for command in commands_of], [['--share', str(i)] for i in (1, 2, 3)])
        for command in commands_of[::2]:
            subprocess.run(command, shell=True, check=True, capture_output=True)
        submitted = self.run_tool('tasks', 'square', 6, '--slurm').stdout
        self.assertIn('sbatch --dependency=afterok:$shares ', submitted)
        script = (self.folder / 'tasks/work/shares.sbatch').read_text()
        self.assertIn('#SBATCH --array=2\n', script)
        task = {**os.environ, 'SLURM_ARRAY_TASK_ID': '2'}
        subprocess.run(['sh', str(self.folder / 'tasks/work/shares.sbatch')], env=task, check=True, capture_output=True)
        self.assertEqual(self.run_tool('tasks', 'square', 6, '--parallel').stdout.strip(), '')
        files = self.assert_made('tasks', 'square', 6)
        self.assertEqual(files['catalogue.txt'].decode(), program('classify', 'square', 6))
        self.assertEqual(self.run_tool('tasks', 'square', 6, '--share', 1).stderr, '')


if __name__ == '__main__':
    unittest.main()
