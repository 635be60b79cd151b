"""What a run was begun with. It is written once, when a folder is begun, and later calls have to agree with it."""
import dataclasses
import json
import math
import shlex
import time

from polyforms import commands, program, texts
from polyforms.whole import write_whole

from . import ladder

MOST_SHARES = 1000  # of the program
FEW_SHAPES = 1000  # up to so many no time is taken
SAMPLED = 50  # shapes whose time tells how long a share takes
SHARE_SECONDS = 180  # that a share should take
SHARES_OF_JOB = 4  # at least, so that the jobs end at about one time
MOST_BYTES = 200_000_000  # of the evidence of undecided shapes that is kept of a pass


@dataclasses.dataclass(frozen=True)
class Plan:
    """The size, its number of shapes, the number of shares, the limits of the first classification and of the passes
    over what it leaves, the most bytes of the evidence of undecided shapes, whether outer numbers are wanted, the sum
    of the program, its commit, or nothing where that isn't known, and the greatest domain of the pass that looks for
    covers alone, which is the first one, or 0 where there is none."""
    grid: str
    size: int
    shapes: int
    shares: int
    first: texts.Limits
    passes: tuple
    most: int
    outer: bool
    program: str
    commit: str = ''
    covers: int = 0

    @property
    def command(self):
        """The words that make the same in another folder."""
        words = ['tools/run', self.grid, str(self.size), '--into', 'FOLDER', '--shares', str(self.shares),
                 '--first', str(self.first), '--most', str(self.most)]
        words += ['--covers', str(self.covers)] if self.covers else []
        words += ['--passes', *map(str, self.passes[1:] if self.covers else self.passes)]
        return shlex.join(words + ['--outer'] * self.outer)

    @property
    def name(self):
        """The size, as the program's words have it."""
        return f'{self.grid} {self.size}'

    def limits(self, number):
        """The limits of a pass, counted from 1; those of 0 are the first ones."""
        return self.passes[number - 1] if number else self.first

    def greatest_limits(self, passes):
        """The greatest of each limit, of the first ones and of so many passes."""
        return ladder.greatest(map(self.limits, range(passes + 1)))

    def share_words(self, number):
        """The program's words for a share."""
        return ['share', self.grid, str(self.size), str(number), str(self.shares), *ladder.options(self.first)]

    def share_size(self, number):
        """How many shapes a share has."""
        return self.shapes * number // self.shares - self.shapes * (number - 1) // self.shares

    def pass_words(self, number):
        """The program's words for shapes of a pass."""
        return ['classify', self.grid, 'given', *ladder.options(self.limits(number))]

    def outer_limits(self, passes):
        """The limits for outer numbers, behind so many passes: no domain need be searched where no shape tiles."""
        return self.greatest_limits(passes)._replace(domain=1)

    def outer_words(self, passes):
        """The program's words for the outer numbers of given shapes; behind `check` they are those that judge them."""
        return ['outer', self.grid, 'given', *ladder.options(self.outer_limits(passes))]


def made(request, heesch):
    """A new plan by the words of a call. It counts the shapes, and where no number of shares is given it times some."""
    first = _first(request) or ladder.first_limits(request.grid)
    passes = _passes(request, first, request.covers)
    shapes = _count(request, heesch)
    shares = request.shares or _shares(request, heesch, first, shapes)
    if not 1 <= shares <= min(MOST_SHARES, shapes):
        raise commands.Fault(f'{request.grid} {request.size} has 1 to {min(MOST_SHARES, shapes)} shares')
    return Plan(request.grid, request.size, shapes, shares, first, passes, request.most or MOST_BYTES, request.outer,
                program.sum_of(heesch), request.commit or program.commit_of(heesch), request.covers)


def _first(request):
    """The first limits that a call asks for; what its words don't name is that of the grid. None where it has none."""
    return ladder.parse(request.first, ladder.first_limits(request.grid)) if request.first else None


def _passes(request, first, covers):
    """The limits of the passes that a call asks for, the one that looks for covers alone before the others."""
    rungs = (ladder.default_passes(request.grid, request.size, first, covers) if request.passes is None
             else ladder.parse_passes(request.passes, first))
    return (*([ladder.cover_limits(first, covers)] if covers else []), *rungs)


def _count(request, heesch):
    """How many free polyforms the size has."""
    words = ['list', request.grid, str(request.size), '--workers', str(min(request.jobs, 64))]
    return sum(1 for _ in program.lines_of(heesch, words, ''))


def _shares(request, heesch, first, shapes):
    """So many shares that each takes some minutes, by the time of a sample, and that each job has some."""
    least = min(shapes, SHARES_OF_JOB * request.jobs, MOST_SHARES)
    if shapes <= FEW_SHAPES:
        return least
    begun = time.monotonic()
    words = ['sample', request.grid, str(request.size), str(SAMPLED), '1', *ladder.options(first)]
    for _ in program.lines_of(heesch, words, ''):
        pass
    seconds = (time.monotonic() - begun) * shapes / SAMPLED
    return max(least, min(math.ceil(seconds / SHARE_SECONDS), MOST_SHARES))


def save(plan, path):
    """Writes a plan."""
    record = dataclasses.asdict(plan)
    record.update(first=plan.first._asdict(), passes=[limits._asdict() for limits in plan.passes])
    write_whole(path, json.dumps(record, indent=1) + '\n')


def loaded(path):
    """Reads a plan."""
    try:
        with open(path, encoding='ascii') as file:
            record = json.load(file)
        record.update(first=texts.Limits(**record['first']),
                      passes=tuple(texts.Limits(**limits) for limits in record['passes']))
        return Plan(**record)
    except (ValueError, TypeError, KeyError, AttributeError):
        raise commands.Fault(f'{path}: not the plan of a run') from None


def check_agrees(plan, request, heesch, folder):
    """Refuses the words of a call, or a program, that aren't those with which the folder was begun."""
    first = _first(request) or plan.first
    passes = plan.passes if request.passes is None else _passes(request, first, plan.covers)
    for name, asked, begun in (
            ('the size', f'{request.grid} {request.size}', plan.name), ('--first', first, plan.first),
            ('--shares', request.shares or plan.shares, plan.shares), ('--most', request.most or plan.most, plan.most),
            ('--covers', request.covers or plan.covers, plan.covers),
            ('--passes', [str(limits) for limits in passes], [str(limits) for limits in plan.passes]),
            ('--outer', request.outer or plan.outer, plan.outer),
            ('--commit', request.commit or plan.commit, plan.commit),
            ('the program with the sha256', program.sum_of(heesch), plan.program)):
        if asked != begun:
            raise commands.Fault(f'{folder} was begun with {name} {begun}, and not {asked}')
