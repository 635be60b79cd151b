"""Processes of the program, side by side: each writes one part, and one that fails is tried once more."""
import collections
import ctypes
import os
import selectors
import signal
import subprocess
import sys
import time
from typing import Callable, NamedTuple, Optional

from polyforms import program

from .parts import NotWhole

DIE_WITH_PARENT = 1  # of prctl: a signal for a process whose parent has ended
LIBRARY = ctypes.CDLL(None)
TICK = 1.0  # seconds after which progress is told though nothing was written


class Task(NamedTuple):
    """A part that is to be made: its number, its name, the program's words, the file of its input, and what takes it.

    `begin` is called once for each try, and answers a `parts.PartText` or a `parts.Judgement`.
    """
    number: int
    name: str
    words: list
    source: Optional[str]
    begin: Callable


class Process:
    """A process at work on a task."""

    def __init__(self, heesch, task):
        self.task, self.text, self.begun = task, task.begin(), time.time()
        with open(task.source or os.devnull, 'rb') as source:
            self._process = subprocess.Popen([heesch, *task.words], stdin=source, stdout=subprocess.PIPE, bufsize=0,
                                             preexec_fn=_end_with_parent)

    @property
    def output(self):
        """The open file of what it writes."""
        return self._process.stdout

    def take(self):
        """Takes what it has written; answers whether it may write more."""
        piece = os.read(self.output.fileno(), program.PIECE)
        self.text.take(piece)
        return bool(piece)

    def wait(self):
        """Waits for its end. Answers what is wrong with the part, or None, and what the process took."""
        self.output.close()
        status, cost = program.waited(self._process)
        cost.update(begun=self.begun, seconds=time.time() - self.begun)
        try:
            if status:
                raise NotWhole(': '.join(filter(None, [program.ending(status), self.text.said.strip()])))
            self.text.end()
        except NotWhole as fault:
            self.text.drop()
            return str(fault), cost
        return None, cost

    def stop(self):
        """Ends it, and leaves nothing of its part."""
        self._process.kill()
        self._process.wait()
        self.output.close()
        self.text.drop()


def _end_with_parent():
    """Has a new process, on Linux, end when this one does, however that ends. Elsewhere it ends when it next writes."""
    if sys.platform == 'linux':
        LIBRARY.prctl(DIE_WITH_PARENT, signal.SIGKILL)


class Crew:
    """Runs tasks by so many processes at once.

    `warn` is called with words on a try that failed, `note` with what each process took, `progress` with the number of
    shapes that are done.
    """

    def __init__(self, heesch, jobs, warn, note, progress):
        self._heesch, self._jobs, self._warn, self._note, self._progress = heesch, jobs, warn, note, progress
        self._shapes = 0

    def run(self, tasks):
        """Makes all parts that can be made; answers the tasks of the others, each with what was wrong.

        What fails is tried once more when the rest is done, and alone, since others may have taken the memory.
        """
        failed = self._round(tasks, self._jobs, '; it is tried once more')
        return self._round([task for task, _ in failed], 1, '')

    def _round(self, tasks, jobs, warning):
        waiting, running, failed = collections.deque(tasks), set(), []
        with selectors.DefaultSelector() as selector:
            try:
                while waiting or running:
                    while waiting and len(running) < jobs:
                        process = Process(self._heesch, waiting.popleft())
                        running.add(process)
                        selector.register(process.output, selectors.EVENT_READ, process)
                    for key, _ in selector.select(TICK):
                        if not key.data.take():
                            selector.unregister(key.fileobj)
                            running.remove(key.data)
                            failed += self._ended(key.data, warning)
                    self._progress(self._shapes + sum(process.text.shapes for process in running))
            finally:
                for process in running:
                    process.stop()
        return failed

    def _ended(self, process, warning):
        """Notes how a process ended; answers its task with what was wrong, where something was."""
        task = process.task
        fault, cost = process.wait()
        if fault is None:
            self._shapes += process.text.shapes
            self._note(part=task.name, **cost)
            return []
        self._warn(f'{task.name}: {fault}: heesch {" ".join(task.words)}{warning}')
        return [(task, fault)]
