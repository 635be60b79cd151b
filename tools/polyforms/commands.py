"""What the tools share as commands: options whose faults are one line, and the one way in which a tool ends."""
import argparse
import contextlib
import os
import sys

from .faults import Fault

REFUSED = 2  # the status of every fault
CLOSED = 141  # the status where the reader of the output has gone, as a shell tells it of other programs
STOPPED = 130  # the status after an interrupt from the keyboard


class Parser(argparse.ArgumentParser):
    """A parser of the words of a tool. Its help is the text as written, and its faults are one line."""

    def __init__(self, description, **options):
        super().__init__(description=description, formatter_class=argparse.RawDescriptionHelpFormatter,
                         allow_abbrev=False, **options)

    def error(self, message):
        raise Fault(f'{message}; {self.prog} --help tells more')


def positive(word):
    """The type of an option that is a whole number from 1."""
    if not word.isascii() or not word.isdigit() or int(word) < 1:
        raise argparse.ArgumentTypeError(f'{word!r} is no whole number from 1')
    return int(word)


def natural(word):
    """The type of an option that is a whole number from 0."""
    if not word.isascii() or not word.isdigit():
        raise argparse.ArgumentTypeError(f'{word!r} is no whole number from 0')
    return int(word)


def grid_of(text, given):
    """The name of the grid of a text; `given` is what an option says, which an outer text needs and takes."""
    if text.grid and given not in (None, text.grid):
        raise text.fault(f'this is a text of the grid {text.grid}, and --grid says {given}')
    if not text.grid and not given:
        raise text.fault("an outer text doesn't say its grid; --grid has to tell it")
    text.grid = text.grid or given
    return text.grid


def program_name():
    """The name by which the tool was called, without its folder."""
    return os.path.basename(sys.argv[0])


def main(body):
    """Runs the body of a tool and ends the process: with its status or 0, or with one line of a fault and status 2."""
    try:
        _prepare_output()
        status = _status_of(body)
        sys.stdout.flush()
    except BrokenPipeError:
        status = CLOSED
    except KeyboardInterrupt:
        status = STOPPED
    except Fault as fault:
        status = _told(str(fault))
    except OSError as error:
        status = _told(': '.join(str(part) for part in (error.filename, error.strerror or error) if part))
    _end(status)


def _status_of(body):
    """The status with which a body ends, be it by `--help`."""
    try:
        return body() or 0
    except SystemExit as end:
        return end.code or 0


def _prepare_output():
    """Makes standard output take the names of any files."""
    if sys.stdout is None:
        raise Fault('standard output is closed')
    sys.stdout.reconfigure(encoding='utf-8', errors='surrogateescape')


def _told(words):
    """Writes a fault as one line, behind what was written before it, and answers its status."""
    with contextlib.suppress(OSError, AttributeError):
        sys.stdout.flush()
    with contextlib.suppress(OSError, AttributeError):
        sys.stderr.write(f'{program_name()}: {" ".join(words.split())}\n')
    return REFUSED


def _end(status):
    """Ends the process. What couldn't be written to standard output is dropped, so that nothing is told of it."""
    try:
        sys.stdout.flush()
    except OSError:
        os.dup2(os.open(os.devnull, os.O_WRONLY), sys.stdout.fileno())
    except AttributeError:  # there is no standard output
        pass
    sys.exit(status)
