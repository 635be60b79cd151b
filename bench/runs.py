#!/usr/bin/env python3
"""Fills the tables of README.md, docs/TABLES.md and docs/RUNS.md from folders that tools/run made: `runs.py FOLDER..`.
Of small sizes it copies the catalogues into catalogues/, and of four it makes the pages of docs/atlas/.

A table stands behind a line `<!-- bench/runs.py NAME -->`. With `from GRID N, GRID N` behind the name it has the sizes
from N on alone, and with `to GRID N, GRID N` those up to N; with both it has those between. Rows of the sizes whose
folders are given are made anew, and the others stay as they are. Every figure of a new row stands in a folder
(tally.csv, undecided.csv, README.md), or is printed by `heesch table` over its catalogue, or is a published one of
docs/TABLES.md. HEESCH names the program.

A table is of one program: that of the mark `program` in docs/TABLES.md that has all of its sizes. So runs of several
programs are refused there, and runs of another program while rows stay. `agreement` alone has sizes of all programs.
"""
import collections
import csv
import functools
import math
import os
import pathlib
import re
import shlex
import shutil
import subprocess
import sys

OF_TOOLS = ('merge', 'tally')  # stages that a tool does and not the program
LEAST_LISTED = 2  # the least Heesch number whose shapes are listed
GRIDS = ('square', 'hex', 'iamond', 'kite')
SMALL = {'square': 7, 'hex': 6, 'iamond': 8, 'kite': 4}  # sizes up to which catalogues/ has the catalogue
PAGES = ('square 8', 'hex 6', 'iamond 9', 'kite 6')  # sizes of which docs/atlas has a page
DOCUMENTS = ('README.md', 'docs/TABLES.md', 'docs/RUNS.md')
TOP = pathlib.Path(__file__).resolve().parent.parent

sys.path.insert(0, str(TOP / 'tools'))
from running import ladder, plan  # noqa: E402, tools/ has the options of tools/run by default


class Run:
    """What stands in a folder."""

    def __init__(self, folder):
        self.folder = pathlib.Path(folder)
        self.readme = (self.folder / 'README.md').read_text(encoding='ascii')
        self.tallies = self.read('tally.csv')
        self.tally = self.tallies[0]
        self.given = [tally for tally in self.tallies if tally['file'].startswith('given')]
        self.open = self.read('undecided.csv')
        self.program = re.search('sha256\\s+`([0-9a-f]{64})`', self.readme)[1]
        self.commit = (re.search('of the commit `([^`]+)`', self.readme) or ['', ''])[1]
        self.grid, self.size = self.tally['grid'], int(self.tally['size'])
        self.name = f'{self.grid} {self.size}'

    def read(self, name):
        """The rows of a table of the folder; none where the run made none."""
        path = self.folder / name
        if not path.exists():
            return []
        with open(path, encoding='ascii', newline='') as file:
            return list(csv.DictReader(file))

    def count(self, column):
        """What the catalogue counts, and beside it the entries of given shapes that only later passes decide."""
        return sum(int(tally[column] or 0) for tally in [self.tally, *self.given])

    def counts(self, word, tally=None):
        """The counts by number, of the columns `WORD_H`."""
        columns = [column for column in self.tally if re.fullmatch(f'{word}_[0-9]+', column)]
        counts = {column.split('_')[1]: int(tally[column] or 0) if tally else self.count(column) for column in columns}
        return {number: count for number, count in sorted(counts.items()) if count}

    def left(self):
        """How many shapes no pass decides, by the word behind `undecided`."""
        words = collections.Counter(shape['verdict'].split()[1] for shape in self.open)
        return ', '.join(f'{word}: {count}' for word, count in sorted(words.items())) or '0'

    def left_without_hole(self):
        """How many shapes without a hole no pass decides."""
        words = [column for column in self.tally if column.startswith('undecided_')]
        decided = sum(self.tally_of_decided(tally) for tally in self.given)
        return sum(int(self.tally[word]) for word in words) - decided

    def tally_of_decided(self, tally):
        """How many shapes without a hole a tally has that are decided."""
        kinds = sum(int(tally[kind]) for kind in ('translation', 'halfturn', 'periodic'))
        return kinds + sum(self.counts('heesch', tally).values())

    def limits(self):
        return [without_defaults(row['Limits']) for row in self.rows('Stage') if 'Limits' in row]

    def kept_limits(self):
        """The limits of the catalogue, as its header has them."""
        with open(self.folder / 'catalogue.txt', encoding='ascii') as text:
            return without_defaults(' '.join(text.readline().split()[4:]))

    def rows(self, heading):
        """The rows of each of the README's tables that has this first heading, each as its cells by heading."""
        lines = iter(self.readme.splitlines())
        for line in lines:
            heads = cells(line)
            if heads[:1] == [heading]:
                next(lines)
                for row in lines:
                    if not row.startswith('|'):
                        break
                    yield dict(zip(heads, cells(row)))

    def outer(self):
        """The tally of outer.txt, or None."""
        return next((tally for tally in self.tallies if tally['file'] == 'outer.txt'), None)

    def command(self):
        """The words that make the folder again, without those that say what is so by default."""
        given, defaults = self.options(), self.defaults()
        words = ['tools/run', self.grid, str(self.size)]
        for name in defaults:
            if given.get(name) != defaults[name]:
                words += [name, *given.get(name, [])]
        return shlex.join(words)

    def options(self):
        """The values behind each option of the command that made the folder."""
        return options(shlex.split(re.search('`tools/run ([^`]*)`', self.readme)[1]))

    def covers(self):
        """How many tiles the covers may have that a pass looked for alone; 0 where there was none."""
        return int(self.options().get('--covers', ['0'])[0])

    def defaults(self):
        """The values of each option that a row shows, as they are by default."""
        first = ladder.first_limits(self.grid)
        passes = ladder.default_passes(self.grid, self.size, first, self.covers())
        return {'--first': [str(first)], '--most': [str(plan.MOST_BYTES)], '--covers': None, '--outer': None,
                '--passes': [str(limits) for limits in passes]}

    def last_limits(self):
        """The limits of the last pass, and of the one that looked for covers alone."""
        return self.limits()[-1] + (f', covers to {self.covers()}' if self.covers() else '')

    def seconds(self):
        """The time of all stages by the clock."""
        return f'{sum(float(row["Seconds"]) for row in self.rows("Stage") if "Seconds" in row):.1f}'

    def took(self):
        """What each stage took: processor seconds, and MB of the process that had most."""
        return {row['Stage']: (float(row['Processor seconds']), int(row['Peak MB of one']))
                for row in self.rows('Stage') if row.get('Processor seconds')}

    @functools.cached_property
    def with_holed(self):
        """The Heesch numbers of all shapes, as `heesch table` counts them."""
        counts = {}
        for tally in [self.tally, *self.given]:
            with open(self.folder / tally['file'], 'rb') as text:
                done = subprocess.run([os.environ['HEESCH'], 'table'], stdin=text, capture_output=True, check=True)
            for number, count in re.findall('^heesch ([0-9]+) ([0-9]+)$', done.stdout.decode(), re.MULTILINE):
                counts[number] = counts.get(number, 0) + int(count)
        return in_words(counts)


def order(name):
    """Where a size stands among all: first by its grid, then by its number of cells."""
    grid, size = name.split()
    return GRIDS.index(grid), int(size)


def options(words):
    """The values behind each option of a command."""
    found, values = {}, []
    for word in words:
        if word.startswith('--'):
            found[word] = values = []
        else:
            values.append(word)
    return found


def in_words(counts):
    return ', '.join(f'{number}: {count}' for number, count in sorted(counts.items()) if count) or 'none'


def without_defaults(limits):
    return limits.replace('turns 20000 ', '').replace(' size 60000000', '')


def cells(line):
    """The cells of a row of a table, without the marks of code."""
    return [cell.strip().strip('`') for cell in line.strip().strip('|').split('|')] if line.startswith('|') else []


def table(head, rows):
    return '\n'.join('| ' + ' | '.join(map(str, row)) + ' |' for row in [head, ['---'] * len(head), *rows])


def published():
    """The published figures by size, of docs/TABLES.md: holed, don't tile, and by Heesch number."""
    figures, is_there = {}, False
    for line in (TOP / 'docs/TABLES.md').read_text(encoding='utf-8').splitlines():
        is_there = line == '## Published figures' if line.startswith('## ') else is_there
        row = cells(line)
        if is_there and row and re.fullmatch('[a-z]+ [0-9]+', row[0]):
            figures[row[0]] = row[1:6]
    return figures


def agreement(run, figures):
    """Whether the counts of a run are the published ones, in words; where shapes are left, whether they can be."""
    holed, nontilers, *numbers = figures
    ours, left = run.counts('heesch'), run.left_without_hole()
    told = {str(number): int(count) for number, count in enumerate(numbers) if count not in ('', '0')}
    more = int(nontilers) - sum(ours.values()) if nontilers else 0
    is_same = (holed in ('', run.tally['holed'])) and 0 <= more <= left and (left > 0 or told in ({}, ours))
    if not is_same:
        return '**no**'
    return f'yes, if of {left} undecided {more} {"does" if more == 1 else "do"} not tile' if left else 'yes'


def beside_published(runs):
    """The published figures as they stand, and behind them whether ours agree."""
    known = published()
    rows = [[f'`{run.name}`', *known[run.name], agreement(run, known[run.name])] for run in runs if run.name in known]
    return table(['Size', 'Myers: with a hole', "Myers: don't tile, without a hole", 'Kaplan: Hc 0', 'Hc 1', 'Hc 2',
                  'Ours agree'], rows)


def with_published(runs):
    known = published()
    rows = []
    for run in runs:
        tally, figures = run.tally, known.get(run.name, [])
        numbers = {str(number): int(count) for number, count in enumerate(figures[2:]) if count not in ('', '0')}
        rows.append([f'`{run.name}`', tally['shapes'], tally['holed'], run.count('translation'), run.count('halfturn'),
                     run.count('periodic'), in_words(run.counts('heesch')), run.with_holed, len(run.open),
                     figures[1] if figures else '', in_words(numbers) if numbers else '',
                     agreement(run, figures) if any(figures) else ''])
    return table(['Size', 'Shapes', 'Holed', 'Tile by translations', 'By half-turns', 'Otherwise', 'Heesch numbers',
                  'With holed shapes', 'Undecided', "Myers: don't tile", 'Kaplan: Heesch numbers', 'Ours agree'], rows)


def verdicts(runs):
    rows = []
    for run in runs:
        tally, outer = run.tally, run.outer()
        rows.append([f'`{run.name}`', tally['shapes'], tally['holed'], run.count('translation'), run.count('halfturn'),
                     run.count('periodic'), run.count('one_class'), in_words(run.counts('heesch')), run.with_holed,
                     in_words(run.counts('outer', outer)) if outer else '', run.left(), run.last_limits(),
                     sum(int(given['shapes']) for given in run.given)])
    return table(['Size', 'Shapes', 'Holed', 'Translation', 'Half-turn', 'Periodic', 'Written with one class',
                  'Heesch numbers', 'With holed shapes', 'Outer numbers', 'Undecided by', 'Last limits',
                  'In given.txt'], rows)


def left_open(runs):
    rows = []
    for run in runs:
        rows += [[f'`{run.name}`', shape['number'], f'`{shape["cells"]}`', f'`{shape["verdict"]}`', shape['coronas'],
                  shape['heesch'], shape['open'], shape['refuted_domains'], shape['refuted_lattices'],
                  shape['spent_lattices'], run.kept_limits()] for shape in run.open]
    return table(['Size', 'Number', 'Cells', 'Verdict', 'Coronas', 'Heesch number', 'Coronas with holes',
                  'Refuted: numbers of tiles', 'Lattices refuted', 'Lattices spent', 'Limits'], rows)


def largest(runs):
    rows = []
    for run in runs:
        for row in run.rows('Heesch number'):
            if int(row['Heesch number']) >= LEAST_LISTED:
                is_shape = not row['Cells'].endswith('more')
                rows.append([f'`{run.name}`', row['Heesch number'], f'`{row["Cells"]}`' if is_shape else row['Cells']])
    return table(['Size', 'Heesch number', 'Cells'], rows)


def program_of(runs):
    return table(['Commit', 'sha256'], [[f'`{run.commit}`', f'`{run.program}`'] for run in runs[:1]])


def together(costs):
    """The cells of what stages took: all their processor seconds, and the most MB; empty where there is no stage."""
    costs = list(costs)
    return [f'{sum(seconds for seconds, _ in costs):.1f}', max(peak for _, peak in costs)] if costs else ['', '']


def stages(runs):
    rows = []
    for run in runs:
        took = run.took()
        tools = together(took.pop(stage) for stage in OF_TOOLS if stage in took)
        ours = [f'`{run.command()}`', '; '.join(run.limits()), run.seconds(), *together(took.values())]
        for file in run.rows('File'):
            is_empty = int(file['Bytes']) <= len('end 0\n')
            if file['File'].split('.')[0].split('-')[0] in ('catalogue', 'given', 'outer') and not is_empty:
                said = f'`{file["heesch check"]}`' if file['heesch check'] else ''
                check = together(cost for stage, cost in took.items() if stage == f'check of {file["File"]}')
                rows.append([*ours, *check, *tools, file['File'], file['Bytes'], f'`{file["sha256"]}`', said])
                ours, tools = [''] * len(ours), [''] * len(tools)
    return table(['Command', 'Limits of the shares and of each pass', 'Seconds', 'Processor seconds', 'MB',
                  '`check`: seconds', 'MB', 'Tools: seconds', 'MB', 'File', 'Bytes', 'sha256', '`heesch check`'], rows)


TABLES = {'published': with_published, 'agreement': beside_published, 'verdicts': verdicts, 'open': left_open,
          'largest': largest, 'runs': stages, 'program': program_of}
SIZE = f'(?:{"|".join(GRIDS)}) [0-9]+'
BOUNDS = f'({SIZE}(?:, {SIZE})*)'
MARK = re.compile(f'^<!-- bench/runs.py ({"|".join(TABLES)})(?: from {BOUNDS})?(?: to {BOUNDS})? -->\n'
                  '(?:(?:[|].*)?\n)*', re.MULTILINE)


class Mark:
    """A line before a table, the sizes that the table has, and its own lines as they stand."""

    def __init__(self, match):
        self.line, *lines = match[0].split('\n')
        self.name, self.lines = match[1], [line for line in lines if line]
        self.least, self.most = bounds(match[2], 1), bounds(match[3], math.inf)

    def has(self, name):
        """Whether the table has rows of a size."""
        grid, size = name.split()
        return self.least[grid] <= int(size) <= self.most[grid]

    def is_within(self, other):
        """Whether another mark has each size that this one has."""
        return all(other.least[grid] <= self.least[grid] and self.most[grid] <= other.most[grid] for grid in GRIDS)

    def rows(self):
        """The rows that stand, by size."""
        return by_size(self.lines[2:])

    def anew(self, runs):
        """The table with the rows of these runs, while those of other sizes stay."""
        new = TABLES[self.name](runs)
        if self.name == 'program':
            return new
        head, line, *lines = new.split('\n')
        names = {run.name for run in runs}
        rows = {name: old for name, old in self.rows().items() if name not in names} | by_size(lines)
        return '\n'.join([head, line, *(row for name in sorted(rows, key=order) for row in rows[name])])


def bounds(words, other):
    """The sizes that a mark names, by grid, and another number for the grids that it doesn't name."""
    named = re.findall('([a-z]+) ([0-9]+)', words or '')
    return dict.fromkeys(GRIDS, other) | {grid: int(size) for grid, size in named}


def by_size(rows):
    """The lines of rows by the size that the first cell names; one whose first cell is empty goes with that above."""
    found, name = {}, None
    for row in rows:
        first = cells(row)[0]
        name = re.search(SIZE, first)[0] if first else name
        found.setdefault(name, []).append(row)
    return found


def faults(texts, runs):
    """Yields why the runs can't fill the tables of these texts, each of which has to stay of one program."""
    marks = [Mark(match) for text in texts for match in MARK.finditer(text)]
    if len(marks) != sum(text.count('<!-- bench/runs.py ') for text in texts):
        yield 'a line `<!-- bench/runs.py ..` is no mark'
    programs = [mark for mark in marks if mark.name == 'program']
    marks = [mark for mark in marks if mark.name not in ('program', 'agreement')]
    for mark in marks:
        if not any(map(mark.is_within, programs)):
            yield f'no mark `program` has all sizes of `{mark.line}`'
    for run in runs:
        if not any(program.has(run.name) for program in programs):
            yield f'no mark `program` has {run.name}'
    for program in programs:
        own = [run for run in runs if program.has(run.name)]
        made, before = {(run.commit, run.program) for run in own}, {tuple(cells(line)) for line in program.lines[2:]}
        stay = {name for mark in marks if mark.is_within(program) for name in mark.rows()
                if made != before or mark.lines[0] != TABLES[mark.name]([]).split('\n')[0]}
        missing = ', '.join(sorted(stay - {run.name for run in own}, key=order))
        if len(made) > 1:
            yield 'the runs are of several programs, and a table is of one'
        elif made and missing:
            yield f'rows of another program, or with other columns, would stay: no folder is given of {missing}'


def filled(text, runs):
    """The text, with the rows of the runs in the table behind each mark; a table that has no size of a run stays."""
    def anew(match):
        mark = Mark(match)
        chosen = [run for run in runs if mark.has(run.name)]
        end = '\n\n' if match.end() < len(text) else '\n'
        return f'{mark.line}\n\n{mark.anew(chosen)}{end}' if chosen else match[0]
    return MARK.sub(anew, text)


def publish(runs, top):
    """Copies the small catalogues, and makes the pages."""
    for run in runs:
        catalogue, name = run.folder / 'catalogue.txt', run.name.replace(' ', '-')
        if run.size <= SMALL[run.grid]:
            shutil.copyfile(catalogue, top / 'catalogues' / f'{name}.txt')
        if run.name in PAGES:
            with open(top / 'docs' / 'atlas' / f'{name}.html', 'wb') as page:
                subprocess.run([TOP / 'tools' / 'atlas', catalogue], stdout=page, check=True)


if __name__ == '__main__':
    if len(sys.argv) < 2:
        sys.exit(__doc__)
    made = sorted(map(Run, sys.argv[1:]), key=lambda run: order(run.name))
    texts = {TOP / name: (TOP / name).read_text(encoding='utf-8') for name in DOCUMENTS}
    if said := '\n'.join(faults(texts.values(), made)):
        sys.exit(said)
    texts = {path: filled(text, made) for path, text in texts.items()}
    for path, text in texts.items():
        path.write_text(text, encoding='utf-8')
    publish(made, TOP)
