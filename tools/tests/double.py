#!/usr/bin/env python3
"""Stands for the program in tests of tools/run: it answers what a run over kite 4 asks of it, by texts that stand here.

An outer text is valid where the bytes of each entry stand in outer-kite-4.txt too.
"""
import pathlib
import re
import sys

DATA = pathlib.Path(__file__).resolve().parent / 'data'
CATALOGUES = DATA.parent.parent.parent / 'catalogues'


def text(name):
    """A text that stands in one of the two folders."""
    return next(path for path in (DATA / name, CATALOGUES / name) if path.exists()).read_text(encoding='ascii')


def entries(whole):
    """The entries of a text by their cells."""
    return {entry.split('\n')[0][len('shape '):]: entry for entry in re.split('^(?=shape |end )', whole, flags=re.M)
            if entry.startswith('shape ')}


def outer():
    """The outer text of the shapes on standard input."""
    known = entries(text('outer-kite-4.txt'))
    shapes = sys.stdin.read().splitlines()
    return ''.join([*map(known.get, shapes), f'end {len(shapes)}\n']), 0


def check_outer():
    """What is said of the outer text on standard input."""
    known, told = entries(text('outer-kite-4.txt')), entries(sys.stdin.read())
    for number, (cells, entry) in enumerate(told.items(), 1):
        if known[cells] != entry:
            return f'invalid entry {number}\n', 1
    return f'valid {len(told)}\n', 0


def check():
    """What is said of the catalogue on standard input."""
    return ('valid 10\n', 0) if sys.stdin.read() == text('kite-4.txt') else ('invalid header\n', 1)


def answer(words):
    """What the words ask for, and the status."""
    if words[:2] == ['check', 'outer']:
        return check_outer()
    return {'list': lambda: ('\n'.join(entries(text('kite-4.txt'))) + '\n', 0),
            'share': lambda: (text(f'kite-4-share-{words[3]}.txt'), 0),
            'join': lambda: (text('kite-4.txt'), 0), 'check': check, 'outer': outer}[words[0]]()


if __name__ == '__main__':
    said, status = answer(sys.argv[1:])
    sys.stdout.write(said)
    sys.exit(status)
