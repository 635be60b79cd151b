"""What `tools/run` is made of: it makes the catalogue of a size whole, and can be killed and called again at any time.

| Module | Has |
|---|---|
| `ladder` | limits, and the passes of a ladder |
| `plan` | what a run was begun with, kept in its folder |
| `folder` | the files of a run, and its lock |
| `crew` | processes of the program, side by side, each writing one part |
| `parts` | what becomes of the text of a part: shares, the two halves of a pass, and what is said of outer numbers |
| `progress` | the line that tells how far it is |
| `joins` | parts put together |
| `stages` | shares, passes, merge, check, tables: each makes what isn't there yet |
| `notable` | the shapes that are listed one by one |
| `report` | the README and the sums |
| `cluster` | scripts for Slurm, commands for GNU parallel |
"""
