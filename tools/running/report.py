"""The tables, the sums, and the README that says how a folder was made."""
import csv
import os
import shutil
import sys
import time
from concurrent import futures

from polyforms import program
from polyforms.whole import WholeFile, write_whole

from . import joins
from .notable import Notable, table_text
from .progress import duration
from .stages import CATALOGUE, GIVEN, OUTER, tool

README, SUMS, TALLY, CITATION = 'README.md', 'SHA256SUMS', 'tally.csv', 'CITATION.cff'
UNDECIDED, KNOWN = 'undecided.txt', 'undecided.csv'
LISTED, MOST_LARGEST = 200, 12  # shapes that the README lists one by one: undecided ones, those of the largest number
CONTENTS = {
    CATALOGUE: 'the catalogue', GIVEN: 'entries that only passes decide whose evidence is not kept in the catalogue',
    OUTER: 'the outer numbers', UNDECIDED: 'the cells of what no pass decides', KNOWN: 'what is known of these',
    TALLY: 'the counts', 'tally.tex': 'the counts, for LaTeX', CITATION: 'how to cite the program', SUMS: 'the sums'}


class Report:
    """What is written of a run once its catalogue stands."""

    def __init__(self, run):
        self._run, self._folder, self._plan = run, run.folder, run.plan
        self._texts = run.catalogues() + ([OUTER] if run.plan.outer else [])
        self._merged = self._folder.recorded('merge')
        self._passes = [self._folder.recorded(f'pass-{number}') for number in range(1, self._merged['passes'] + 1)]
        with open(self._folder.left(self._merged['passes']), encoding='ascii') as file:
            self._notable = Notable(set(file.read().splitlines()))
        self._left, self._sums = self._notable.open, {}

    def write(self):
        """Writes the tables, the sums and the README."""
        for name in self._run.catalogues():
            self._run.timed('notable shapes', self._notable.look, self._folder.file(name))
        self._write_undecided()
        with futures.ThreadPoolExecutor() as pool:  # two processes, since each of them reads all texts
            for told in [pool.submit(self._run.timed, 'tally', self._write_tally, name, form)
                         for name, form in ((TALLY, '--csv'), ('tally.tex', '--latex'))]:
                told.result()
        shutil.copyfile(os.path.join(program.repository(), CITATION), self._folder.file(CITATION))
        self._run.timed('sums', self._write_sums)
        write_whole(self._folder.file(README), self._readme())

    def _write_sums(self):
        """Writes the sums of all that is made but the README, which has them too."""
        summed = [name for name in self._folder.made() if name not in (README, SUMS)]
        self._sums = {name: program.sum_of(self._folder.file(name)) for name in summed}
        write_whole(self._folder.file(SUMS), ''.join(f'{total}  {name}\n' for name, total in self._sums.items()))
        self._sums[SUMS] = program.sum_of(self._folder.file(SUMS))

    def _write_tally(self, name, form):
        """Writes a table of the counts; answers what that took."""
        words = [sys.executable, tool('export'), '--tally', '--grid', self._plan.grid, form, *self._texts]
        with WholeFile(self._folder.file(name)) as file:
            return program.pour(words, None, file.write, self._folder.path)

    def _write_undecided(self):
        """Lists the shapes that no pass decides, with what the catalogue says of each."""
        if self._left:
            write_whole(self._folder.file(UNDECIDED), ''.join(f'{shape.cells}\n' for shape in self._left))
            write_whole(self._folder.file(KNOWN), table_text(self._left))

    # ---- the README

    def _readme(self):
        parts = [f'# The catalogue of {self._plan.name}', self._about(),
                 '## Counts', self._counts(),
                 '## Largest Heesch number', self._largest(),
                 '## Undecided', self._undecided(),
                 '## How it was made', self._making(), self._passes_table(), self._times_table(),
                 '## Files', self._files_table(), f'To check them: {self._checking()}.',
                 '## To cite', f'{CITATION} has how to cite the program and the two publications. Cite this folder by '
                 f'the sha256 of {CATALOGUE}.',
                 '## Licence', 'The owner of this folder states a licence here.']
        return '\n\n'.join(parts) + '\n'

    def _about(self):
        checked = self._folder.recorded('check')
        return (f'Each of the {self._plan.shapes} free polyforms of the size, with its tiling, its Heesch number, or '
                f'the limit that was reached, and with the evidence. `heesch check < {CATALOGUE}` said '
                f'`{checked[CATALOGUE]}`. docs/FORMAT.md of `heesch` has the format.')

    def _counts(self):
        with open(self._folder.file(TALLY), encoding='ascii', newline='') as file:
            rows = list(csv.reader(file))
        return f'By `tools/export --tally`. {self._beside()}{self._outer()}\n\n' + _table(rows[0], rows[1:])

    def _beside(self):
        if not self._merged['later']:
            return 'All that is decided stands in the catalogue.'
        return (f'Of the shapes that are undecided in {CATALOGUE}, {self._merged["later"]} are decided in the '
                'catalogue of given shapes beside it, under the limits of later passes.')

    def _outer(self):
        if not self._plan.outer:
            return ''
        limits = self._plan.outer_limits(self._merged['passes'])
        said = self._folder.recorded('check').get(OUTER)
        judged = (f' `heesch check outer` under these limits said `{said}`. Each part was judged by itself, before the '
                  'parts were joined.') if said else ''
        return (f' {OUTER} has the outer numbers of the shapes with a Heesch number, by `heesch outer` under '
                f'`{limits}`.{judged}')

    def _checking(self):
        """How the files are checked by others."""
        words = f'`sha256sum -c {SUMS}`, and of each catalogue `heesch check < {CATALOGUE}`'
        if self._plan.outer:
            words += (f', and of {OUTER} `heesch check {" ".join(self._plan.outer_words(self._merged["passes"]))} < '
                      f'{OUTER}`, which takes at most {joins.MOST_GIVEN} entries at once')
        return words

    def _largest(self):
        if self._notable.heesch is None:
            return 'No shape without a hole has a known Heesch number.'
        shapes = self._notable.largest
        rows = [[self._notable.heesch, f'`{cells}`'] for cells in shapes[:MOST_LARGEST]]
        if len(shapes) > MOST_LARGEST:
            rows.append([self._notable.heesch, f'{len(shapes) - MOST_LARGEST} more'])
        return ('Of the shapes without a hole that are known not to tile, these have the largest.\n\n'
                + _table(['Heesch number', 'Cells'], rows))

    def _undecided(self):
        if not self._left:
            return 'None.'
        limits = self._plan.limits(self._merged['passes'])
        words = (f'Undecided under `{limits}`: {len(self._left)}. The cells stand in {UNDECIDED}, as `heesch classify` '
                 f'reads given shapes. {KNOWN} has what the catalogue says of each: the coronas without holes that are '
                 'written, the Heesch number where a proof shows it, the coronas with holes, the numbers of tiles in a '
                 'period for which each lattice is refuted, and how many lattices are refuted, and how many searches '
                 f'were spent. The evidence is that under `{self._plan.limits(self._merged["last"])}`.')
        if self._plan.covers:
            words += (f' Pass 1 looked for covers alone, of up to {self._plan.covers} tiles in a period, and found none '
                      'for these shapes.')
        if failed := sum(facts['failed'] for facts in self._passes):
            words += f' Shapes of passes that were left, since a process failed twice on them: {failed}.'
        rows = [[shape.number, f'`{shape.verdict}`', f'`{shape.cells}`'] for shape in self._left[:LISTED]]
        return f'{words}\n\n' + _table(['Number', 'Verdict', 'Cells'], rows)

    def _making(self):
        return (f'By `{self._plan.command}`, which goes on where it was ended, with the program of the sha256 '
                f'`{self._plan.program}`{self._of_commit()}, by up to {self._run.jobs} processes at once, on a machine '
                f'with {os.cpu_count()} processors. The texts are the same in any number of shares, and by any number '
                'of processes. "Seconds" are those by the clock in which a process of the stage was at work.')

    def _of_commit(self):
        return f' of the commit `{self._plan.commit}`' if self._plan.commit else ''

    def _passes_table(self):
        """The limits of the first classification and of each pass, what each decided, and its evidence."""
        shapes = self._plan.shapes
        left = self._passes[0]['shapes'] if self._passes else len(self._left)
        rows = [['shares', f'`{self._plan.first}`', shapes, shapes - left, left, '']]
        for number, facts in enumerate(self._passes, 1):
            evidence = 'not kept' if facts['evidence'] is None else facts['evidence']
            rows.append([f'pass {number}', f'`{self._plan.limits(number)}`', facts['shapes'], facts['decided'],
                         facts['shapes'] - facts['decided'], evidence])
        return _table(['Stage', 'Limits', 'Shapes', 'Decided', 'Undecided', 'Bytes of undecided shapes'], rows)

    def _times_table(self):
        """What the stages took: their processes, seconds by the clock while one was at work and of the processors, the
        longest process, peak memory, begin and end."""
        stages = {}
        for line in self._folder.journal():
            stages.setdefault(line['stage'], []).append(line)
        rows = []
        for stage, lines in stages.items():
            begun, ended = (line['begun'] for line in lines), (line['begun'] + line['seconds'] for line in lines)
            peaks = [line['peak'] for line in lines if 'peak' in line]
            seconds = sum(line.get('processor', 0) for line in lines)
            rows.append([stage, len(lines), f'{seconds_at_work(lines):.1f}', f'{seconds:.1f}' if peaks else '',
                         duration(max(line['seconds'] for line in lines)),
                         f'{max(peaks) / 1e6:.0f}' if peaks else '', _clock(min(begun)), _clock(max(ended))])
        return _table(['Stage', 'Processes', 'Seconds', 'Processor seconds', 'Longest', 'Peak MB of one', 'Begun (UTC)',
                       'Ended (UTC)'], rows)

    def _files_table(self):
        checked = self._folder.recorded('check')
        rows = [[name, _contents(name), os.path.getsize(self._folder.file(name)), f'`{total}`',
                 f'`{checked[name]}`' if name in checked else ''] for name, total in self._sums.items()]
        return _table(['File', 'Has', 'Bytes', 'sha256', '`heesch check`'], rows)


def seconds_at_work(lines):
    """The seconds by the clock in which a process of these lines of the journal was at work."""
    total = end = 0.0
    for begun, ended in sorted((line['begun'], line['begun'] + line['seconds']) for line in lines):
        total += max(0.0, ended - max(begun, end))
        end = max(end, ended)
    return total


def _contents(name):
    """What a file of the folder has, in words."""
    return CONTENTS.get(GIVEN if joins.is_numbered(name, GIVEN) else name, '')


def _table(head, rows):
    """A table of Markdown."""
    lines = [head, ['---'] * len(head), *rows]
    return '\n'.join('| ' + ' | '.join(map(str, cells)) + ' |' for cells in lines)


def _clock(seconds):
    return time.strftime('%Y-%m-%d %H:%M:%S', time.gmtime(seconds))
