"""The line that tells how far a stage is."""
import sys
import time

MINUTE = 60


class Progress:
    """Tells how many shapes are done, of how many, how many a second, and the time left.

    On a terminal it is one line that renews itself, elsewhere a line a minute. `done` are those of earlier calls.
    """

    def __init__(self, stage, done, total, stream=sys.stderr):
        self._stage, self._before, self._total, self._stream = stage, done, total, stream
        self._begun = self._told = time.monotonic()
        self._shapes = 0
        self._is_live = stream.isatty()

    def __call__(self, shapes):
        """Tells that so many shapes are done in this call, where it is time for it."""
        self._shapes, now = shapes, time.monotonic()
        if now - self._told >= (1 if self._is_live else MINUTE):
            self._told = now
            self._write(self._words(now), '' if self._is_live else '\n')

    def end(self):
        """Tells how it ended."""
        seconds = time.monotonic() - self._begun
        self._write(f'{self._done()} in {duration(seconds)}', '\n')

    def warn(self, words):
        """Writes a line of its own."""
        self._write(words, '\n')

    def _words(self, now):
        rate = self._shapes / (now - self._begun)
        left = self._total - self._before - self._shapes
        rest = f', {duration(left / rate)} left' if rate else ''
        return f'{self._done()}, {rate:.3g} per second{rest}'

    def _done(self):
        return f'{self._stage}: {self._before + self._shapes} of {self._total} shapes'

    def _write(self, words, end):
        self._stream.write(('\r\x1b[K' if self._is_live else '') + words + end)
        self._stream.flush()


def duration(seconds):
    """A time in words of at most two units."""
    if seconds < 10:
        return f'{seconds:.1f} s'
    minutes, seconds = divmod(round(seconds), MINUTE)
    if not minutes:
        return f'{seconds} s'
    if minutes < MINUTE:
        return f'{minutes} min {seconds} s'
    hours, minutes = divmod(minutes, MINUTE)
    return f'{hours} h {minutes} min'
