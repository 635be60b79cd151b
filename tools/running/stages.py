"""The stages of a run. Each makes what isn't there yet, and what it makes stands in the folder."""
import functools
import math
import os
import shutil
import sys
import time

from polyforms import commands, program, texts
from polyforms.whole import WholeFile, write_whole

from . import joins
from .crew import Crew, Task
from .parts import Evidence, GivenText, Judgement, KeptText, PassText, ShareText
from .progress import Progress

VERSION = 2  # of the corona formulas, by default
PASS_PARTS = 256  # of a pass at most, where its shapes are no more than these can be given
FIRST, MERGED, NONTILERS = 'first.txt', 'merged.txt', 'nontilers.txt'  # in `work`
CATALOGUE, GIVEN, OUTER = 'catalogue.txt', 'given.txt', 'outer.txt'
PART_FILES = ('decided', 'undecided', 'left', 'failed')  # of a part of a pass, some only where they say something


class Run:
    """A run in its folder: its plan, its program, and the number of its processes.

    `leaves` tells to leave shapes undecided where a process fails twice on them in a pass.
    """

    def __init__(self, folder, plan, heesch, jobs, leaves=False):
        self.folder, self.plan, self.heesch, self.jobs, self.leaves = folder, plan, heesch, jobs, leaves

    def make_catalogue(self):
        """Makes the checked catalogue of the size, and beside it what only the last passes decide."""
        if not os.path.exists(self.folder.file(CATALOGUE)):
            self.make_first()
            passes = self.make_passes()
            self.merge(passes)
            self.check()

    def catalogues(self):
        """The names of the catalogues that are made."""
        return [name for name in self.folder.made() if name == CATALOGUE or joins.is_numbered(name, GIVEN)]

    # ---- shares

    def missing_shares(self):
        """The numbers of the shares that are still to be made."""
        if os.path.exists(self.folder.work(FIRST)) or os.path.exists(self.folder.file(CATALOGUE)):
            return []
        self.folder.make_folder('shares')
        return [number for number in range(1, self.plan.shares + 1) if not os.path.exists(self.folder.share(number))]

    def make_share(self, number):
        """Makes one share alone, where it isn't made."""
        if not 1 <= number <= self.plan.shares:
            raise commands.Fault(f'there are {self.plan.shares} shares')
        if number in self.missing_shares():
            self._make_shares(f'share {number}', [number], self.plan.share_size(number))

    def _make_shares(self, stage, numbers, total):
        tasks = [self._share_task(number) for number in numbers]
        self._refuse_failed(stage, self._work(stage, tasks, total - sum(map(self.plan.share_size, numbers)), total))

    def _share_task(self, number):
        path, left, size = self.folder.share(number), self.folder.left_of_share(number), self.plan.share_size(number)
        return Task(number, f'share {number} of {self.plan.shares}', self.plan.share_words(number), None,
                    lambda: ShareText(path, left, size))

    def make_first(self):
        """Makes the catalogue under the first limits of all shares, and the list of its undecided shapes."""
        target = self.folder.work(FIRST)
        if not os.path.exists(target):
            self._make_shares('shares', self.missing_shares(), self.plan.shapes)
            numbers = range(1, self.plan.shares + 1)
            self._join_lists(map(self.folder.left_of_share, numbers), 0)
            self.timed('join', joins.join_shares, self.heesch, list(map(self.folder.share, numbers)), target)
        self.folder.remove('shares')

    # ---- passes

    def make_passes(self):
        """Makes the passes of the plan, as long as shapes are undecided; answers what each did."""
        done = []
        for number in range(1, len(self.plan.passes) + 1):
            if not os.path.getsize(self.folder.left(number - 1)):
                break
            done.append(self.folder.recorded(f'pass-{number}') or self._make_pass(number))
            self.folder.remove(f'pass-{number}')
        return done

    def _make_pass(self, number):
        """Makes a pass over what the one before leaves, and joins its parts."""
        sizes = self._cut_list(self.folder.left(number - 1), f'pass-{number}')
        evidence = Evidence(self.folder.work(f'pass-{number}'), self.plan.most)
        if self.plan.covers:
            evidence.give_up()
        tasks = [self._pass_task(number, part, sizes, evidence)
                 for part in self._missing(f'pass-{number}', sizes, 'decided')]
        shapes = sum(sizes.values())
        failed = self._work(f'pass {number}', tasks, shapes - sum(sizes[task.number] for task in tasks), shapes)
        if not self.leaves:
            self._refuse_failed(f'parts of pass {number}', failed, ', and --leave leaves these shapes undecided')
        for task, fault in failed:
            self._leave(number, task.number, fault, evidence)
        return self._join_pass(number, sizes, evidence)

    def _leave(self, number, part, fault, evidence):
        """Leaves the shapes of a part undecided, and with them all evidence of undecided shapes of the pass."""
        evidence.give_up()
        header = texts.Header(False, VERSION, self.plan.grid, None, self.plan.limits(number))
        paths = self._pass_paths(number, part)
        shutil.copyfile(self.folder.part(f'pass-{number}', part, 'cells'), paths['left'])
        write_whole(paths['failed'], fault + '\n')
        GivenText(paths['decided'], f'{header}\n'.encode()).close()

    def _pass_paths(self, number, part):
        return {kind: self.folder.part(f'pass-{number}', part, kind) for kind in PART_FILES}

    def _missing(self, stage, sizes, kind):
        """The parts of a stage that have no file of a kind."""
        return [part for part in sizes if not os.path.exists(self.folder.part(stage, part, kind))]

    def _cut_list(self, path, stage):
        """Cuts a list of shapes into the lists of the parts of a stage; answers how many shapes each part has."""
        self.folder.make_folder(stage)
        with open(path, encoding='ascii') as file:
            shapes = file.readlines()
        parts = max(min(len(shapes), PASS_PARTS), math.ceil(len(shapes) / joins.MOST_GIVEN))
        sizes = {}
        for part in range(1, parts + 1):
            own = shapes[len(shapes) * (part - 1) // parts:len(shapes) * part // parts]
            write_whole(self.folder.part(stage, part, 'cells'), ''.join(own))
            sizes[part] = len(own)
        return sizes

    def _pass_task(self, number, part, sizes, evidence):
        paths = self._pass_paths(number, part)
        return Task(part, f'part {part} of {len(sizes)} of pass {number}', self.plan.pass_words(number),
                    self.folder.part(f'pass-{number}', part, 'cells'), lambda: PassText(paths, evidence, sizes[part]))

    def _join_pass(self, number, sizes, evidence):
        """Makes one text of the parts, without undecided shapes where their evidence isn't kept; answers the facts."""
        files = {kind: [self._pass_paths(number, part)[kind] for part in sizes] for kind in PART_FILES}
        kept = [] if evidence.is_over else [path for path in files['undecided'] if os.path.exists(path)]
        self.timed(f'join of pass {number}', joins.join_given, files['decided'] + kept, self.folder.pass_text(number))
        left = self._join_lists(files['left'], number)
        shapes = sum(sizes.values())
        facts = {'shapes': shapes, 'decided': shapes - left, 'evidence': None if evidence.is_over else evidence.bytes,
                 'failed': sum(sizes[part] for part, path in zip(sizes, files['failed']) if os.path.exists(path))}
        self.folder.record(f'pass-{number}', facts)
        return facts

    def _join_lists(self, paths, number):
        """Makes the list of what a pass leaves, or the first classification by the number 0; answers its length."""
        count = 0
        with WholeFile(self.folder.left(number)) as target:
            for path in paths:
                with open(path, 'rb') as file:
                    for line in file:
                        target.write(line)
                        count += 1
        return count

    # ---- one catalogue, and its check

    def merge(self, passes):
        """Merges the passes up to the last one whose evidence is kept, and puts what later ones decide beside that."""
        last = max((number for number, facts in enumerate(passes, 1) if facts['evidence'] is not None), default=0)
        merged = self.folder.work(MERGED)
        if not os.path.exists(merged):
            found = [self.folder.pass_text(number) for number in range(1, last + 1)]
            self.timed('merge', self._merge_texts, found, merged)
        later = [self.folder.pass_text(number) for number in range(last + 1, len(passes) + 1)]
        decided = sum(facts['decided'] for facts in passes[last:])
        if decided:
            limits = self.plan.greatest_limits(len(passes))
            header = texts.Header(False, VERSION, self.plan.grid, None, limits)
            joins.join_given(later, self.folder.work(GIVEN), f'{header}\n'.encode())
        self.folder.record('merge', {'last': last, 'passes': len(passes), 'later': decided})

    def _merge_texts(self, passes, target):
        first = self.folder.work(FIRST)
        if not passes:
            return _same_file(first, target)
        with WholeFile(target) as file:
            return program.pour([sys.executable, tool('merge'), first, *passes], None, file.write)

    def check(self):
        """Has `heesch check` judge what was made, and only then gives it its name."""
        given = [name for name in sorted(os.listdir(self.folder.work())) if joins.is_numbered(name, GIVEN)]
        for name, target in [*((name, name) for name in given), (MERGED, CATALOGUE)]:
            self.timed(f'check of {target}', self._check_text, name, target)

    def _check_text(self, name, target):
        """Has it judge a text of `work`, which then gets its name in the folder."""
        told = []
        with open(self.folder.work(name), 'rb') as source:
            cost = program.pour([self.heesch, 'check', '--workers', str(min(self.jobs, 64))], source, told.append)
        said = b''.join(told).decode('ascii').strip()
        checked = self.folder.recorded('check') or {}
        self.folder.record('check', {**checked, target: said})
        os.replace(self.folder.work(name), self.folder.file(target))
        return cost

    # ---- outer numbers

    def make_outer(self):
        """Makes the text of the outer numbers, of all shapes that have a Heesch number, where each part is valid."""
        if os.path.exists(self.folder.file(OUTER)):
            return
        if not os.path.exists(self.folder.work(NONTILERS)):
            self.timed('shapes for the outer numbers', self._list_nontilers)
        sizes = self._cut_list(self.folder.work(NONTILERS), 'outer')
        words = self.plan.outer_words(self.folder.recorded('merge')['passes'])
        self._work_outer('outer numbers', words, sizes, ('cells', 'txt', KeptText))
        self._work_outer(f'check of {OUTER}', ['check', *words], sizes, ('txt', 'said', Judgement))
        self._record_outer(sizes)
        paths = [self.folder.part('outer', part, 'txt') for part in sizes]
        self.timed('join of the outer numbers', joins.join_outer, paths, self.folder.file(OUTER))
        self.folder.remove('outer')

    def _work_outer(self, stage, words, sizes, kinds):
        """Makes a file of each part of the outer numbers; `kinds` are that of its input, its own, and what takes it."""
        source, target, text = kinds
        tasks = [Task(part, f'part {part} of {len(sizes)} of the outer numbers', words,
                      self.folder.part('outer', part, source),
                      functools.partial(text, self.folder.part('outer', part, target), sizes[part]))
                 for part in self._missing('outer', sizes, target)]
        shapes = sum(sizes.values())
        done = shapes - sum(sizes[task.number] for task in tasks)
        self._refuse_failed(f'parts of the {stage}', self._work(stage, tasks, done, shapes))

    def _record_outer(self, sizes):
        """Keeps what was said of the parts of the outer numbers; of no parts nothing was said."""
        if sizes:
            parts = f' in {len(sizes)} parts' if len(sizes) > 1 else ''
            said = f'valid {sum(sizes.values())}{parts}'
            self.folder.record('check', {**self.folder.recorded('check'), OUTER: said})

    def _list_nontilers(self):
        """Lists the shapes that have a Heesch number in a catalogue."""
        with WholeFile(self.folder.work(NONTILERS)) as file:
            for name in self.catalogues():
                with texts.opened(self.folder.file(name)) as text:
                    for entry in text:
                        if entry.verdict.heesch_number is not None:
                            file.write(f'{texts.cells_text(entry.cells)}\n'.encode())

    # ---- processes

    def _work(self, stage, tasks, done, total):
        """Makes parts by processes side by side; answers the tasks that failed twice, with what was wrong."""
        if not tasks:
            return []
        progress = Progress(stage, done, total)
        failed = Crew(self.heesch, self.jobs, progress.warn, lambda **facts: self.folder.note(stage=stage, **facts),
                      progress).run(tasks)
        progress.end()
        return failed

    def _refuse_failed(self, stage, failed, further=''):
        """Refuses to go on where parts failed twice."""
        if failed:
            task, fault = failed[0]
            raise commands.Fault(f'{len(failed)} of the {stage} failed twice, the first of them {task.name}: {fault}; '
                                 f'what is done is kept{further}')

    def timed(self, stage, body, *arguments):
        """Calls a body, which may answer what a process took, and notes its time."""
        begun = time.time()
        cost = body(*arguments) or {}
        self.folder.note(stage=stage, begun=begun, seconds=time.time() - begun, **cost)


def tool(name):
    """The path of a tool beside this one."""
    return os.path.join(program.repository(), 'tools', name)


def _same_file(path, target):
    """Gives a file a second name, or where the disk has no such names a copy."""
    try:
        os.link(path, target)
    except OSError:
        with open(path, 'rb') as source, WholeFile(target) as file:
            shutil.copyfileobj(source, file)
