#!/usr/bin/env python3
"""Alters small true catalogues of every grid and kind of verdict, and judges `heesch check` over each altered text.

    alterations.py PROGRAM SEED COUNT [--against OTHER] [--over CATALOGUE ..]

PROGRAM makes the catalogues, where --over names none, and checks COUNT altered texts. It has to end with status 0 or 1,
within a second of the processor. What it accepts is listed by the kind of the alteration, with examples: a reader has
to see that these texts are true too.

With --against, OTHER checks the same texts, and has to end with the same status and the same line. OTHER is the program
of an earlier commit, so that nothing is answered otherwise than before; or the independent checker of check.rs:

    rustc -O --edition 2021 -o plain check.rs && python3 alterations.py heesch 1 20000 --against ./plain

The last lines have checksums of the altered texts and of the answers. Two programs that write the same catalogues have
the same texts for a seed, and then the same answers exactly where the checksums agree. Ends with 1 where something
isn't as it has to be.
"""
import argparse
import collections
import hashlib
import pathlib
import random
import re
import resource
import subprocess
import sys

HOLED = '0,0 1,0 2,0 0,1 2,1 0,2 1,2\n'
CATALOGUES = [
    ('classify square 4', ''),
    ('classify square 5', ''),
    ('classify hex 3', ''),
    ('classify iamond 3 --version 1', ''),
    ('classify kite 1 --domain 6', ''),
    ('classify kite 2', ''),
    ('classify square given', HOLED),
    ('classify square given --version 1', HOLED),
    ('classify iamond 1 --domain 1 --levels 1', ''),
    ('classify iamond 1 --domain 1 --levels 1 --size 11', ''),
]
# Of these sizes, the shapes that have no plain tiling are classified each by itself, under each of the limits.
HARD = ['square 7', 'iamond 7', 'hex 5']
LIMITS = [
    '',
    '--turns 1',
    '--turns 5 --domain 2 --levels 2',
    '--levels 1 --domain 2',
    '--levels 2 --version 1 --size 20000',
]
MOST_BYTES = 20_000  # of a catalogue
SECONDS = 1  # of the processor that PROGRAM may take for a text
PATIENCE = 600  # seconds by the clock after which a call has failed, on a busy machine too
EXAMPLES = 40  # of a kind that are printed


def called(program, words, text):
    """A finished call of a program over a text."""
    return subprocess.run([program, *words.split()], input=text.encode(), capture_output=True, timeout=PATIENCE,
                          check=False)


def seconds_of_calls():
    """The processor's seconds of all calls so far."""
    usage = resource.getrusage(resource.RUSAGE_CHILDREN)
    return usage.ru_utime + usage.ru_stime


def written(program, words, text=''):
    """What the program writes for these words, over a text."""
    return called(program, words, text).stdout.decode()


def catalogues(program):
    """Texts of true catalogues."""
    for words, text in CATALOGUES:
        yield written(program, words, text)
    for size in HARD:
        grid = size.split()[0]
        lines = written(program, f'plain {size}').splitlines()
        for shape in [line.removesuffix(' none') for line in lines if line.endswith(' none')]:
            for limits in LIMITS:
                text = written(program, f'classify {grid} given {limits}', f'{shape}\n')
                if len(text) <= MOST_BYTES:
                    yield text


def replaced(chance, text, pattern, new):
    """The text with one match of the pattern replaced, or None where there is none."""
    found = list(re.finditer(pattern, text, re.MULTILINE))
    if not found:
        return None
    match = chance.choice(found)
    return text[:match.start()] + new(match.group(0)) + text[match.end():]


def alter(chance, text):
    """A kind of alteration, and the text with one such alteration, or None where it can't have one."""
    lines = text.splitlines(keepends=True)
    at = chance.randrange(len(text) - 1)
    line = chance.randrange(len(lines))
    other = chance.randrange(len(lines))
    moved = lines[:line] + lines[line + 1:]
    moved.insert(other, lines[line])

    def near(word):
        return str(max(0, int(word) + chance.choice([-1, 1])))

    def number(_):
        return str(chance.randrange(1, 60))

    def place(_):
        return f'{chance.randrange(8)},{chance.randrange(-3, 4)},{chance.randrange(-3, 4)}'

    def cell(_):
        return f'{chance.randrange(-3, 6)},{chance.randrange(-3, 6)}'

    alterations = {
        'byte changed': lambda: text[:at] + chr(chance.randrange(32, 127)) + text[at + 1:],
        'byte dropped': lambda: text[:at] + text[at + 1:],
        'byte doubled': lambda: text[:at] + text[at] + text[at:],
        'bytes swapped': lambda: text[:at] + text[at + 1] + text[at] + text[at + 2:],
        'line dropped': lambda: ''.join(lines[:line] + lines[line + 1:]),
        'line doubled': lambda: ''.join(lines[:line + 1] + lines[line:]),
        'line moved': lambda: ''.join(moved),
        'number changed by one': lambda: replaced(chance, text, r'(?<![\w-])\d+', near),
        'hint replaced': lambda: replaced(chance, text, r'(?<=: )\d+$|(?<=: )\d+(?= )', number),
        'literal replaced': lambda: replaced(chance, text, r'(?<=learn )-?\d+', number),
        'place replaced': lambda: replaced(chance, text, r'-?\d+,-?\d+,-?\d+', place),
        'cell replaced': lambda: replaced(chance, text, r'(?<![\d,-])-?\d+,-?\d+(?!,)', cell),
    }
    kind = chance.choice(sorted(alterations))
    return kind, alterations[kind]()


def altered_texts(chance, texts, count):
    """So many altered texts: the kind of each, the text before, and the altered one."""
    while count:
        text = chance.choice(texts)
        kind, altered = alter(chance, text)
        if altered is not None and altered != text:
            yield kind, text, altered
            count -= 1


def first_difference(before, after):
    """The first lines in which two texts differ, of each text one, or none at its end."""
    before, after = before.splitlines(), after.splitlines()
    pairs = enumerate(zip(before, after))
    first = next((i for i, (old, new) in pairs if old != new), min(len(before), len(after)))
    return before[first:first + 1], after[first:first + 1]


class Judge:
    """What the programs answer over altered texts."""

    def __init__(self, program, other):
        self.program, self.other = program, other
        self.texts, self.answers = hashlib.sha256(), hashlib.sha256()
        self.refused, self.faults = 0, 0
        self.accepted = collections.defaultdict(list)

    def take(self, kind, text, altered):
        """Has the programs check the next altered text."""
        self.texts.update(altered.encode() + b'\0')
        before = seconds_of_calls()
        done = called(self.program, 'check', altered)
        if seconds_of_calls() - before > SECONDS:
            self.fault('NOT IN TIME', kind, altered)
        answer = done.returncode, done.stdout
        self.answers.update(b'%d %b\0' % answer)
        if done.returncode == 0:
            self.accepted[kind].append(first_difference(text, altered))
        elif done.returncode == 1:
            self.refused += 1
        else:
            self.fault(f'STATUS {done.returncode}', kind, altered)
        if self.other:
            beside = called(self.other, 'check', altered)
            if (beside.returncode, beside.stdout) != answer:
                self.fault(f'OTHERWISE {answer} and {beside.returncode, beside.stdout}', kind, altered)

    def fault(self, what, kind, altered):
        """Prints what isn't as it has to be."""
        self.faults += 1
        print(what, kind, repr(altered))

    def report(self):
        """Prints the counts and the checksums."""
        accepted = sum(map(len, self.accepted.values()))
        print(f'{self.refused} refused, {accepted} accepted, {self.faults} not as they have to be')
        for kind, examples in sorted(self.accepted.items()):
            print(f'accepted, {kind}: {len(examples)}')
            for before, after in examples[:EXAMPLES]:
                print('   ', before, '->', after)
        print('sha256 of the texts  ', self.texts.hexdigest())
        print('sha256 of the answers', self.answers.hexdigest())


def parse_words():
    """The words of the command."""
    parser = argparse.ArgumentParser(description=__doc__, formatter_class=argparse.RawDescriptionHelpFormatter)
    parser.add_argument('program', metavar='PROGRAM')
    parser.add_argument('seed', metavar='SEED', type=int)
    parser.add_argument('count', metavar='COUNT', type=int)
    parser.add_argument('--against', metavar='OTHER', help='another program, which has to answer the same')
    parser.add_argument('--over', metavar='CATALOGUE', nargs='+', type=pathlib.Path, help='files of true catalogues')
    return parser.parse_args()


def main():
    """Judges the programs that the words name."""
    words = parse_words()
    given = [path.read_text(encoding='ascii') for path in words.over or []]
    texts = list(dict.fromkeys(given or catalogues(words.program)))
    kinds = collections.Counter()
    for text in texts:
        if called(words.program, 'check', text).returncode != 0:
            sys.exit(f'refused, but not altered: {text!r}')
        kinds.update(re.findall(r'^verdict \S+ ?[a-z]*', text, re.MULTILINE))
    print(f'{len(texts)} catalogues:', ', '.join(f'{kinds[kind]} {kind}' for kind in sorted(kinds)))
    judge = Judge(words.program, words.against)
    for kind, text, altered in altered_texts(random.Random(words.seed), texts, words.count):
        judge.take(kind, text, altered)
    judge.report()
    return 1 if judge.faults else 0


if __name__ == '__main__':
    sys.exit(main())
