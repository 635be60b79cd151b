"""The program `heesch`: where it is, what its statuses mean, and how a tool asks it for a text."""
import contextlib
import hashlib
import os
import shutil
import subprocess

from .faults import Fault

BUILT = os.path.join('crates', 'heesch', 'out', 'heesch')  # where `rt run` leaves it in this repository
STATUSES = {1: 'the input is not valid', 2: 'the words have no form', 3: 'the input has a fault',
            4: 'standard input failed', 5: 'standard output failed', 6: 'memory was refused'}
PIECE = 1 << 20  # bytes of a text that are taken at once


def repository():
    """The folder of this repository."""
    return os.path.dirname(os.path.dirname(os.path.dirname(os.path.abspath(__file__))))


def found(path=None):
    """The path of the program: the given one, or that of HEESCH, or the built one here, or `heesch` of PATH."""
    wanted = path or os.environ.get('HEESCH')
    built = os.path.join(repository(), BUILT)
    program = wanted or (built if os.path.exists(built) else 'heesch')
    whole = shutil.which(program)
    if whole is None:
        raise Fault(f'{program}: no such program; name one by --program PATH or by HEESCH=PATH')
    return os.path.abspath(whole)


def sum_of(path):
    """The sha256 of a file, in hexadecimal digits."""
    total = hashlib.sha256()
    with open(path, 'rb') as file:
        while piece := file.read(PIECE):
            total.update(piece)
    return total.hexdigest()


def commit_of(path):
    """The commit of the repository in which a file stands; nothing where it stands in none."""
    try:
        told = subprocess.run(['git', '-C', os.path.dirname(path), 'describe', '--always', '--abbrev=12', '--dirty'],
                              capture_output=True, check=False)
    except OSError:
        return ''
    return told.stdout.decode().strip() if told.returncode == 0 else ''


def ending(status):
    """How a process ended, in words."""
    if status < 0:
        return f'killed by signal {-status}'
    return f'status {status}' + (f', {STATUSES[status]}' if status in STATUSES else '')


def lines_of(program, words, text):
    """The lines that the program writes over a small input, as they come, without their newlines.

    A Fault with the words where it ends with another status than 0.
    """
    command = [program, *words]
    with subprocess.Popen(command, stdin=subprocess.PIPE, stdout=subprocess.PIPE, encoding='ascii') as process:
        with contextlib.suppress(BrokenPipeError):  # where it ends without reading, its status tells why
            process.stdin.write(text)
            process.stdin.close()
        told = ''
        for line in process.stdout:
            told = line.rstrip('\n')
            yield told
    if process.returncode:
        raise Fault(f'{" ".join(["heesch", *words])}: {ending(process.returncode)}: {told}')


def waited(process):
    """Waits for the end of a process; answers its status, and what it took: processor seconds, and bytes at most."""
    _, status, usage = os.wait4(process.pid, 0)
    process.returncode = os.waitstatus_to_exitcode(status)
    return process.returncode, {'processor': usage.ru_utime + usage.ru_stime, 'peak': usage.ru_maxrss * 1024}


def pour(command, source, take, folder=None):
    """Runs a command over an open file, or none, and hands what it writes to `take`, piece by piece.

    It runs in `folder` where one is given. It answers what the process took; a Fault with what that wrote last where it
    ends with another status than 0.
    """
    last = b''
    with subprocess.Popen(command, stdin=source or subprocess.DEVNULL, stdout=subprocess.PIPE, bufsize=0,
                          cwd=folder) as process:
        while piece := process.stdout.read(PIECE):
            take(piece)
            last = piece
        status, cost = waited(process)
    if status:
        name = ' '.join([os.path.basename(command[0]), *command[1:]])
        raise Fault(f'{name}: {ending(status)}: {last[-80:].decode("ascii", "replace").strip()}')
    return cost
