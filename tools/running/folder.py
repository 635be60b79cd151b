"""The files of a run. Each is whole wherever it has its name, so what a killed run leaves is what it had ended."""
import fcntl
import glob
import json
import os
import shutil

from polyforms import commands
from polyforms.whole import write_whole


class Folder:
    """The folder of a run: what it makes stands in it, and what it needs for making that, in its folder `work`.

    The lock is the system's, on an open file: it ends with the process that has it, however that ends.
    """

    def __init__(self, path):
        self.path = os.path.abspath(path)
        if os.path.exists(self.path) and not os.path.isdir(self.path):
            raise commands.Fault(f'{path}: not a folder')
        os.makedirs(self.work(), exist_ok=True)
        self._lock = None

    def file(self, name):
        """The path of what the run makes."""
        return os.path.join(self.path, name)

    def work(self, *names):
        """The path of what it needs meanwhile."""
        return os.path.join(self.path, 'work', *names)

    def hold(self, is_shared=False):
        """Takes the lock: for itself, or with others that write single shares. Refused where another run has it."""
        self._lock = open(self.work('lock'), 'ab')
        try:
            fcntl.flock(self._lock, (fcntl.LOCK_SH if is_shared else fcntl.LOCK_EX) | fcntl.LOCK_NB)
        except BlockingIOError:
            raise commands.Fault(f'{self.path}: another run is at work in this folder') from None

    def share(self, number):
        """The path of a share."""
        return self.work('shares', f'{number:04}.txt')

    def left_of_share(self, number):
        """The path of the list of the undecided shapes of a share."""
        return self.work('shares', f'{number:04}.left')

    def left(self, number):
        """The path of the list of the shapes that a pass leaves undecided; 0 is the first classification."""
        return self.work(f'left-{number}.txt')

    def pass_text(self, number):
        """The path of the text of a pass."""
        return self.work(f'pass-{number}.txt')

    def part(self, stage, part, kind):
        """The path of a file of a part of a stage, such as its `cells`."""
        return self.work(stage, f'{part:04}.{kind}')

    def make_folder(self, name):
        """Makes a folder in `work`."""
        os.makedirs(self.work(name), exist_ok=True)

    def remove(self, *names):
        """Removes files or folders of `work` that aren't needed any more."""
        for name in names:
            path = self.work(name)
            if os.path.isdir(path):
                shutil.rmtree(path)
            elif os.path.exists(path):
                os.remove(path)

    def made(self):
        """The names of the files that stand in the folder, in order."""
        return sorted(os.path.basename(path) for path in glob.glob(self.file('*')) if os.path.isfile(path))

    # ---- small records

    def record(self, name, facts):
        """Keeps facts under a name."""
        write_whole(self.work(f'{name}.json'), json.dumps(facts, indent=1) + '\n')

    def recorded(self, name):
        """The facts of a name, or None where there are none."""
        path = self.work(f'{name}.json')
        if not os.path.exists(path):
            return None
        with open(path, encoding='ascii') as file:
            return json.load(file)

    def note(self, **facts):
        """Adds a line to the journal: what a process did, and what it took."""
        with open(self.work('journal'), 'a', encoding='ascii') as file:
            file.write('\n' + json.dumps(facts))

    def journal(self):
        """The lines of the journal. One that a killed run left half is passed over."""
        lines = []
        if os.path.exists(self.work('journal')):
            with open(self.work('journal'), encoding='ascii', errors='replace') as file:
                for line in file:
                    try:
                        lines.append(json.loads(line))
                    except ValueError:
                        continue
        return lines
