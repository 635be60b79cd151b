"""Limits, and the ladder of passes over what stays undecided."""
import math

from polyforms import commands, grids, texts

DEFAULT = texts.Limits(turns=20_000, levels=3, domain=4, size=60_000_000)  # of the program
FIRST = {'kite': DEFAULT._replace(domain=6)}  # of 5 or 7 kites no smaller domain exists
RUNGS = ((8, 4), (12, 5))  # domain and levels of the passes by default, where such domains exist
PASS_TURNS = 200_000  # of these passes: a polyhex of 7 cells needs 22,340 at level 4
COVER_TURNS = 300  # of a pass that looks for covers: with one turn it found half of those of domain 8 of polyhexes of 10


def parse(words, before):
    """The limits that words such as `domain 8 levels 4` say; what they don't name is as before."""
    parts = words.split()
    named = dict(zip(parts[::2], parts[1::2]))
    is_of_form = parts and len(parts) == 2 * len(named) and set(named) <= set(before._fields)
    if not is_of_form or not all(map(str.isdigit, named.values())):
        names = ', '.join(before._fields)
        raise commands.Fault(f'`{words}` are no limits; write some as `domain 8 levels 4`, of {names}')
    limits = before._replace(**{name: int(value) for name, value in named.items()})
    for name, value, most in zip(limits._fields, limits, texts.MOST):
        if not 1 <= value <= most:
            raise commands.Fault(f'`{words}`: {name} is 1 to {most}')
    return limits


def parse_passes(passes, first):
    """The limits of passes, given one by one in words; each has to raise some of the one before and to lower none."""
    ladder = []
    for words in passes:
        before = ladder[-1] if ladder else first
        limits = parse(words, before)
        if limits == before or any(map(int.__lt__, limits, before)):
            raise commands.Fault(f'the pass `{words}` has to raise limits, and to lower none, of `{before}`')
        ladder.append(limits)
    return ladder


def first_limits(grid):
    """The first limits of a grid, where none are given."""
    return FIRST.get(grid, DEFAULT)


def default_passes(grid, size, first, covers=0):
    """The rungs above the first limits, each with the greatest domain up to its own that exists for the size; with the
    first domain, where a pass before them looks for covers alone."""
    ladder = []
    for rung, levels in RUNGS:
        before = ladder[-1] if ladder else first
        domain = 0 if covers else greatest_domain(grid, size, rung)
        limits = before._replace(domain=max(before.domain, domain), levels=max(before.levels, levels),
                                 turns=max(before.turns, PASS_TURNS))
        if limits != before:
            ladder.append(limits)
    return ladder


def cover_limits(first, domain):
    """The limits of a pass that looks for covers of up to so many tiles alone: few turns and one level end all else."""
    if not first.domain < domain <= texts.MOST.domain:
        raise commands.Fault(f'--covers {domain} has to be above the first domain, {first.domain}, and at most '
                             f'{texts.MOST.domain}')
    return first._replace(turns=min(first.turns, COVER_TURNS), levels=1, domain=domain)


def greatest(limits):
    """The greatest of each limit."""
    return texts.Limits(*map(max, zip(*limits)))


def greatest_domain(grid, size, most):
    """The greatest number of tiles, up to `most`, whose cells fill whole units; 0 where there is none."""
    unit = grids.named(grid).cells_in_unit
    step = unit // math.gcd(unit, size)
    return most // step * step


def options(limits):
    """The limits as options of the program."""
    return [word for name, value in limits._asdict().items() for word in (f'--{name}', str(value))]
