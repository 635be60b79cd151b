#!/usr/bin/env python3
"""Checks, apart from the program, the first corona of each polyomino that has one: `coronas.py CATALOGUE`.

It reads a catalogue of squares, and uses nothing but the table of turns of docs/FORMAT.md. Of each entry with a Heesch
number from 1 it asks whether the tiles of the first layer are apart from the shape and from each other, cover every
cell around the shape, each touch it, and leave no hole with it. It prints how many coronas are so and how many aren't,
and how many shapes with a hole and without one have each Heesch number. Ends with 1 where a corona isn't so.
"""
import collections
import sys

TURNS = (lambda a, b: (a, b), lambda a, b: (-b, a), lambda a, b: (-a, -b), lambda a, b: (b, -a),
         lambda a, b: (b, a), lambda a, b: (-a, b), lambda a, b: (-b, -a), lambda a, b: (a, -b))
BY_EDGE = ((1, 0), (-1, 0), (0, 1), (0, -1))
BY_POINT = BY_EDGE + ((1, 1), (1, -1), (-1, 1), (-1, -1))


def neighbours(cells, steps):
    """The cells at these steps from some cells."""
    return {(a + da, b + db) for a, b in cells for da, db in steps}


def has_hole(cells):
    """Whether a flood from outside, over edges, leaves out a cell that isn't one of these."""
    left, right = min(a for a, _ in cells) - 1, max(a for a, _ in cells) + 1
    low, high = min(b for _, b in cells) - 1, max(b for _, b in cells) + 1
    reached, new = set(), {(left, low)}
    while new:
        reached |= new
        new = {(a, b) for a, b in neighbours(new, BY_EDGE) - reached - cells if left <= a <= right and low <= b <= high}
    return len(reached) + len(cells) != (right - left + 1) * (high - low + 1)


def is_corona(shape, places):
    """Whether the images of a shape are a corona of it without a hole."""
    covered, around = set(shape), neighbours(shape, BY_POINT) - shape
    for turn, right, up in places:
        tile = {(a + right, b + up) for a, b in (TURNS[turn](*cell) for cell in shape)}
        if tile & covered or not tile & around:
            return False
        covered |= tile
    return around <= covered and not has_hole(covered)


def numbers(words):
    """Pairs or triples of numbers, with commas inside."""
    return [tuple(map(int, word.split(','))) for word in words]


def main():
    """Goes through the catalogue, and tells what is so."""
    judged, counts, shape, looks = collections.Counter(), collections.Counter(), set(), False
    with open(sys.argv[1], encoding='ascii') as text:
        for line in text:
            word, *words = line.split()
            if word == 'shape':
                shape = set(numbers(words))
            elif word == 'verdict' and words[0] == 'heesch':
                looks = words[1] != '0'
                counts[f'heesch {words[1]}' + ', with a hole' * has_hole(shape)] += 1
            elif word == 'layer' and looks:
                judged[is_corona(shape, numbers(words))] += 1
                looks = False
    print(f'{judged[True]} coronas hold, and {judged[False]} do not')
    print('\n'.join(f'{kind}: {count}' for kind, count in sorted(counts.items())))
    return 1 if judged[False] else 0


if __name__ == '__main__':
    if len(sys.argv) != 2:
        sys.exit(__doc__)
    sys.exit(main())
