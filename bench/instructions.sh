#!/usr/bin/env bash
# Counts the instructions of commands, in millions: `instructions.sh [PROGRAM]`, by default the program built in this
# repository, by one worker and the default limits. It prints the rows of the tables in docs/BENCH.md: of a size
# `classify` and `check` of its catalogue, and `list`. It needs valgrind, and takes some minutes.
set -eu
program=$(readlink -f "${1:-$(dirname "$0")/../crates/heesch/out/heesch}")
[ -x "$program" ] || { sed -n 2,4p "$0" >&2; exit 2; }
work=$(mktemp -d)
trap 'rm -r "$work"' EXIT

millions() { # COMMAND WORD..: reads $work/input, writes $work/output
  valgrind --tool=callgrind --callgrind-out-file="$work/counts" "$program" "$@" \
    < "$work/input" > "$work/output" 2> "$work/errors"
  awk '$1 == "summary:" { printf "%.1f", $2 / 1e6 }' "$work/counts"
}

: > "$work/input"
for size in 'square 7' 'square 8' 'hex 5' 'hex 6' 'iamond 8' 'iamond 9'; do
  classify=$(millions classify $size)
  mv "$work/output" "$work/text"
  cp "$work/text" "$work/input"
  check=$(millions check)
  : > "$work/input"
  echo "| \`$size\` | $classify | $check |"
done
for size in 'hex 8' 'iamond 11' 'square 10'; do
  echo "| \`list $size\` | $(millions list $size) |"
done
