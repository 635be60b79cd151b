"""Files that are whole wherever they have their name: they get it when they are closed, and have another before."""
import contextlib
import fcntl
import os

from .faults import Fault

UNFINISHED = '.part'  # behind the name of a file that is being written


class WholeFile:
    """A file of bytes that gets its name by `close`; before that it stands at `path` and `.part`.

    A file that another process is writing is refused; one that a dead process left is begun anew. `drop` leaves
    nothing of it. As a context it is closed where the block ends well, and dropped otherwise. What the disk refuses
    is a Fault that names the file, and leaves nothing of it either.
    """

    def __init__(self, path):
        self.path, self.size, self._file = path, 0, None
        try:
            self._file = open(path + UNFINISHED, 'ab')
            fcntl.flock(self._file, fcntl.LOCK_EX | fcntl.LOCK_NB)
            self._file.truncate(0)
        except BlockingIOError:
            self._file.close()
            raise Fault(f'{path}: another process is writing it') from None
        except OSError as error:
            self._refuse(error)

    def write(self, data):
        """Writes bytes."""
        try:
            self._file.write(data)
        except OSError as error:
            self._refuse(error)
        self.size += len(data)

    def close(self):
        """Has the disk keep the bytes, and then gives the file its name."""
        try:
            self._file.flush()
            os.fsync(self._file.fileno())
            os.replace(self.path + UNFINISHED, self.path)
            self._file.close()
            keep_names(os.path.dirname(self.path) or '.')
        except OSError as error:
            self._refuse(error)

    def drop(self):
        """Leaves nothing of the file."""
        with contextlib.suppress(OSError):
            os.remove(self.path + UNFINISHED)
        if self._file:
            with contextlib.suppress(OSError):
                self._file.close()

    def __enter__(self):
        return self

    def __exit__(self, kind, *_):
        if kind is None:
            self.close()
        else:
            self.drop()

    def _refuse(self, error):
        self.drop()
        raise Fault(f'{self.path}: {error.strerror or error}') from None


def write_whole(path, text):
    """Writes a small text as a whole file."""
    with WholeFile(path) as file:
        file.write(text.encode())


def keep_names(folder):
    """Has the disk keep the names of the files of a folder."""
    handle = os.open(folder, os.O_RDONLY)
    try:
        os.fsync(handle)
    finally:
        os.close(handle)
