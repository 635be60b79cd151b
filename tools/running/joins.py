"""Parts put together to one text, a line at a time."""
import itertools
import os
import re
import subprocess

from polyforms import commands, program
from polyforms.whole import WholeFile

from .parts import GivenText

MOST_JOINED = 1_000_000_000  # bytes of shares that `heesch join` is given: it takes 2.6 times as much memory
MOST_GIVEN = 10_000  # shapes of a catalogue of given shapes


def entry_lines(path, first_lines):
    """The lines of the entries of a text, which begins with these lines and ends with the line that counts them."""
    with open(path, 'rb') as file:
        for wanted in first_lines:
            if file.readline() != wanted:
                raise commands.Fault(f'{path}: it doesn\'t begin with `{wanted.decode().strip()}`')
        count = 0
        for line in file:
            if line.startswith(b'end '):
                if line != b'end %d\n' % count:
                    raise commands.Fault(f'{path}: it ends with `{line.decode().strip()}` behind {count} shapes')
                return
            count += line.startswith(b'shape ')
            yield line
    raise commands.Fault(f'{path}: it has no `end` line')


def header_of(path, skipped=0):
    """The header line of a text, behind so many lines."""
    with open(path, 'rb') as file:
        for _ in range(skipped):
            file.readline()
        return file.readline()


def join_shares(heesch, paths, target, most=MOST_JOINED):
    """Makes a catalogue of all shares of a size: by `heesch join`, or where they are large a line at a time.

    It answers what `heesch join` took.
    """
    if sum(map(os.path.getsize, paths)) <= most:
        return _join_by_program(heesch, paths, target)
    return _join_by_line(paths, target)


def _join_by_program(heesch, paths, target):
    with subprocess.Popen(['cat', *paths], stdout=subprocess.PIPE) as shares, WholeFile(target) as file:
        return program.pour([heesch, 'join'], shares.stdout, file.write)


def _join_by_line(paths, target):
    header = header_of(paths[0], 1)
    with WholeFile(target) as file:
        file.write(header)
        _write_entries(file, [(path, [b'share %d %d\n' % (number, len(paths)), header])
                              for number, path in enumerate(paths, 1)])


def join_outer(paths, target):
    """Makes one text of outer texts, which have no header."""
    with WholeFile(target) as file:
        _write_entries(file, [(path, []) for path in paths])


def _write_entries(file, parts):
    """Writes the entries of texts, each given with its first lines, and the `end` line."""
    count = 0
    for path, first_lines in parts:
        for line in entry_lines(path, first_lines):
            count += line.startswith(b'shape ')
            file.write(line)
    file.write(b'end %d\n' % count)


def join_given(paths, target, header=None):
    """Makes a catalogue of the given shapes of texts, under a header or that of the first.

    Where they are more than a catalogue of given shapes may have, the others stand in files with -2, -3 and so on
    behind the name.
    """
    header = header or header_of(paths[0])
    total, text = 0, GivenText(target, header)
    try:
        for line in itertools.chain.from_iterable(entry_lines(path, [header_of(path)]) for path in paths):
            if line.startswith(b'shape '):
                if text.count == MOST_GIVEN:
                    text.close()
                    text = GivenText(numbered(target, total // MOST_GIVEN + 1), header)
                text.count += 1
                total += 1
            text.write(line)
        text.close()
    except BaseException:
        text.drop()
        raise


def numbered(path, number):
    """The name of a further file, such as `given-2.txt`."""
    name, kind = os.path.splitext(path)
    return f'{name}-{number}{kind}'


def is_numbered(name, first):
    """Whether it is the name of the first file or of a further one."""
    stem, kind = os.path.splitext(first)
    return re.fullmatch(re.escape(stem) + '(?:-[0-9]+)?' + re.escape(kind), name) is not None
