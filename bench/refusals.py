"""refusals.py PROGRAM SHIM: runs small commands once for each growth of memory, which SHIM (built from refuse.rs) refuses.

Each run has to end with status 6 and a prefix of what the command writes with ample memory, or just as it does then. Any
other end is printed, and the script ends with status 1."""
import collections
import os
import subprocess
import sys

TRIANGLE = '''heesch 1 iamond 1 turns 20000 levels 3 domain 4 size 60000000
shape 1,1
verdict tiles halfturn domain 2 classes 1
lattice 1 1 0
tile 0 0 0 class 1 by 0 0 0
tile 3 0 0 class 1 by 1 0 -1
end 1
'''
HOLED = '0,0 1,0 2,0 0,1 2,1 0,2 1,2\n'
COMMANDS = [
    ('list square 4', ''),
    ('plain square 4', ''),
    ('plain square 3', ''),
    ('classify iamond 1 --version 1', ''),
    ('classify iamond 1', ''),
    ('check', TRIANGLE),
    ('classify square given --version 1', HOLED),
    ('classify square given', HOLED),
]
SECONDS = 60


def run(program, words, text, more):
    return subprocess.run([program] + words.split(), input=text.encode(), capture_output=True, timeout=SECONDS, env=more)


def end_of(done, ample):
    """How a run ended, in words, or None where it may not end so."""
    if (done.returncode, done.stdout) == (ample.returncode, ample.stdout):
        return 'as with ample memory'
    if done.returncode == 6 and ample.stdout.startswith(done.stdout):
        return '6 with a prefix' if done.stdout else '6 with nothing written'
    return None


def main():
    program, shim = os.path.abspath(sys.argv[1]), os.path.abspath(sys.argv[2])
    runs, bad = 0, 0
    for words, text in COMMANDS:
        ample = run(program, words, text, {})
        ends = collections.Counter()
        number = 1
        while True:
            done = run(program, words, text, {'LD_PRELOAD': shim, 'REFUSE': str(number)})
            if b'refused' not in done.stderr:
                break
            end = end_of(done, ample)
            if end is None:
                bad += 1
                print(f'{words}: growth {number} refused: status {done.returncode}, {done.stdout[:200]!r}')
            ends[end] += 1
            number += 1
        runs += number - 1
        print(f'{words}: ' + ', '.join(f'{count} {end}' for end, count in sorted(ends.items(), key=str)), flush=True)
    print(f'{runs} runs, {bad} of them ended otherwise')
    sys.exit(1 if bad else 0)


main()
