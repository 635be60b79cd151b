"""The texts of parts, as they come from the program: what is kept of them, and whether they are whole."""
import os
import re

from polyforms.whole import WholeFile, write_whole

ENTRY = re.compile(rb'^shape (.*)\nverdict (\w+).*\n', re.MULTILINE)
END = re.compile(rb'end ([0-9]+)\n')


class NotWhole(Exception):
    """A text that isn't all of its part; the words say why."""


class PartText:
    """The text of a part, taken piece by piece and cut where entries begin.

    It counts the shapes, and keeps the cells of the undecided ones. What becomes of the text is up to the three calls
    `_start`, `_begin` and `_add`, and to `_close`, which is called once the text is known to be whole.
    """
    said = ''  # what a fault tells beside the status: nothing of a text

    def __init__(self, expected):
        self.shapes, self._expected, self._held, self.left = 0, expected, b'', []

    def take(self, piece):
        """Takes a piece. Its last line, and a `shape` line before that, are held until more comes."""
        text = self._held + piece
        last = _line_before(text, text.rfind(b'\n') + 1)
        before = _line_before(text, last)
        cut = before if text.startswith(b'shape ', before) else last
        self._held = text[cut:]
        self._pass_on(text[:cut])

    def end(self):
        """Closes the part. NotWhole where the text doesn't end as a text of so many shapes does."""
        found = END.fullmatch(self._held)
        if not found:
            raise NotWhole('the text has no `end` line')
        if not int(found.group(1)) == self.shapes == self._expected:
            raise NotWhole(f'{self.shapes} shapes in place of {self._expected}')
        self._close(self._held)

    def _pass_on(self, text):
        start = 0
        for found in ENTRY.finditer(text):
            self._pass_between(text[start:found.start()])
            start = found.start()
            is_undecided = found.group(2) == b'undecided'
            self.shapes += 1
            if is_undecided:
                self.left.append(found.group(1))
            self._begin(is_undecided)
        self._pass_between(text[start:])

    def _pass_between(self, text):
        """Passes on lines before the first entry, or of the entry at hand."""
        if self.shapes:
            self._add(text)
        elif text:
            self._start(text)

    def _left_text(self):
        return b''.join(cells + b'\n' for cells in self.left).decode()


def _line_before(text, end):
    """Where the line begins that ends before a place; 0 where there is none."""
    return text.rfind(b'\n', 0, max(end - 1, 0)) + 1


class KeptText(PartText):
    """The text of a part, which is kept as it is."""

    def __init__(self, path, expected):
        super().__init__(expected)
        self._file = WholeFile(path)
        self._start = self._add = self._file.write

    def _begin(self, is_undecided):
        pass

    def _close(self, end):
        self._file.write(end)
        self._file.close()

    def drop(self):
        """Leaves nothing of it."""
        self._file.drop()


class ShareText(KeptText):
    """The text of a share, and beside it the cells of its undecided shapes."""

    def __init__(self, path, left, expected):
        super().__init__(path, expected)
        self._left_path = left

    def _close(self, end):
        write_whole(self._left_path, self._left_text())
        super()._close(end)


class Judgement:
    """What `heesch check` says of a part. It is kept in a file where it is that all entries of the part are valid."""

    def __init__(self, path, expected):
        self.shapes, self.said, self._path, self._expected = 0, '', path, expected

    def take(self, piece):
        """Takes a piece."""
        self.said += piece.decode('ascii', 'replace')

    def end(self):
        """Keeps it. NotWhole where it isn't that so many entries are valid."""
        if self.said != f'valid {self._expected}\n':
            raise NotWhole(f'`{self.said.strip()}` in place of `valid {self._expected}`')
        self.shapes = self._expected
        write_whole(self._path, self.said)

    def drop(self):
        """Leaves nothing of it, as there is no file before its end."""


class GivenText:
    """A catalogue of given shapes that is being written."""

    def __init__(self, path, header):
        self.count, self._file = 0, WholeFile(path)
        self._file.write(header)
        self.write, self.drop = self._file.write, self._file.drop

    @property
    def end_line(self):
        """The line that ends it now."""
        return b'end %d\n' % self.count

    def close(self):
        """Writes the `end` line, and closes the file."""
        self._file.write(self.end_line)
        self._file.close()


class Evidence:
    """The bytes of evidence that a pass has for undecided shapes, over all its parts, and the most that are kept.

    Where there are more, `is_over` is true from then on, and none of it is kept. Whether it comes to that doesn't
    depend on the order in which the parts are made.
    """

    def __init__(self, folder, most):
        self._folder, self._marker, self._most = folder, os.path.join(folder, 'over'), most
        self.is_over, self.bytes = False, 0
        self.add(sum(os.path.getsize(path) for path in self._files()))
        if os.path.exists(self._marker):
            self.give_up()

    def _files(self):
        return [entry.path for entry in os.scandir(self._folder) if entry.name.endswith('.undecided')]

    def add(self, count):
        """Counts bytes; fewer than none where a part is dropped."""
        self.bytes += count
        if self.bytes > self._most and not self.is_over:
            self.give_up()

    def give_up(self):
        """Keeps none of it from now on."""
        write_whole(self._marker, '')
        self.is_over = True
        for path in self._files():
            os.remove(path)


class PassText(PartText):
    """The text of a part of a pass: its decided shapes and its undecided ones, as two catalogues of given shapes.

    The second is left away where there are none, or where the pass has too much evidence of such shapes. `paths` has
    the files by the words `decided`, `undecided` and `left`; once the first of them has its name, all have.
    """

    def __init__(self, paths, evidence, expected):
        super().__init__(expected)
        self._paths, self._evidence, self._bytes, self._is_undecided = paths, evidence, 0, False
        self._header, self._decided, self._undecided = b'', None, None

    def _start(self, text):
        self._header, self._decided = text, GivenText(self._paths['decided'], text)

    def _begin(self, is_undecided):
        self._is_undecided = is_undecided
        if not is_undecided:
            self._decided.count += 1
        elif not self._evidence.is_over:
            if not self._undecided:
                self._undecided = GivenText(self._paths['undecided'], self._header)
                self._weigh(self._header)
            self._undecided.count += 1

    def _add(self, text):
        if not self._is_undecided:
            self._decided.write(text)
        elif not self._evidence.is_over:
            self._undecided.write(text)
            self._weigh(text)

    def _weigh(self, text):
        """Counts evidence, and drops it where there is too much."""
        self._bytes += len(text)
        self._evidence.add(len(text))
        if self._evidence.is_over:
            self._undecided.drop()

    def _close(self, _):
        write_whole(self._paths['left'], self._left_text())
        if self._undecided:
            self._weigh(self._undecided.end_line)
            if not self._evidence.is_over:
                self._undecided.close()
        self._decided.close()

    def drop(self):
        """Leaves nothing of it."""
        for text in (self._decided, self._undecided):
            if text:
                text.drop()
        self._evidence.add(-self._bytes)
