"""A run over several machines that share a disk: the same folder and the same parts, one share a task."""
import shlex
import sys

from polyforms.whole import write_whole

from .stages import tool


def call(run, *further):
    """The command, as a shell reads it, that goes on with a run."""
    return shlex.join([sys.executable, tool('run'), run.plan.grid, str(run.plan.size), '--into', run.folder.path,
                       '--program', run.heesch, *further])


def ranges(numbers):
    """Rising numbers as an array job has them: `1-3,7`."""
    spans = []
    for number in numbers:
        if spans and spans[-1][1] == number - 1:
            spans[-1][1] = number
        else:
            spans.append([number, number])
    return ','.join(str(first) if first == last else f'{first}-{last}' for first, last in spans)


def write_slurm(run):
    """Writes the two scripts for `sbatch`, and answers the commands that submit them."""
    name = f'{run.plan.grid}-{run.plan.size}'
    shares, rest = run.folder.work('shares.sbatch'), run.folder.work('rest.sbatch')
    write_whole(rest, _script({'job-name': name, 'cpus-per-task': run.jobs, 'output': run.folder.work('slurm-%j.out')},
                              call(run, '--jobs', str(run.jobs), *['--leave'] * run.leaves)))
    missing = run.missing_shares()
    if not missing:
        return [f'sbatch {shlex.quote(rest)}']
    write_whole(shares, _script({'job-name': f'{name}-shares', 'array': ranges(missing), 'cpus-per-task': 1,
                                 'output': run.folder.work('slurm-%A-%a.out')},
                                call(run, '--share') + ' "$SLURM_ARRAY_TASK_ID"'))
    return [f'shares=$(sbatch --parsable {shlex.quote(shares)})',
            f'sbatch --dependency=afterok:$shares {shlex.quote(rest)}']


def _script(options, command):
    lines = [f'#SBATCH --{name}={value}' for name, value in options.items()]
    return '\n'.join(['#!/bin/sh', *lines, f'exec {command}', ''])


def parallel_commands(run):
    """The commands that make the missing shares, one each, for GNU parallel."""
    return [call(run, '--share', str(number)) for number in run.missing_shares()]
