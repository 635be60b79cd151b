#!/usr/bin/env bash
# Makes a catalogue in shares, side by side, joins and checks it: `shares.sh GRID N SHARES [OPTIONS..]`, as
# `shares.sh square 8 4`. It prints what `check` says, and whether the text is the one that `classify` writes.
# Build the program first: (cd crates/heesch && rt run -- list square 4).
set -eu
[ $# -ge 3 ] || { sed -n 2,4p "$0" >&2; exit 2; }
program=${PROGRAM:-$(cd "$(dirname "$0")" && pwd)/../crates/heesch/out/heesch}
grid=$1 size=$2 shares=$3
shift 3
work=$(mktemp -d)
trap 'rm -r "$work"' EXIT
share() { "$program" share "$grid" "$size" "$1" "$shares" "${@:2}" > "$work/$1.txt"; }
for i in $(seq "$shares"); do
  share "$i" "$@" &
  [ $((i % $(nproc))) -ne 0 ] || wait
done
wait
for i in $(seq "$shares"); do cat "$work/$i.txt"; done | "$program" join > "$work/joined.txt"
"$program" check < "$work/joined.txt"
"$program" classify "$grid" "$size" "$@" > "$work/whole.txt"
if cmp -s "$work/joined.txt" "$work/whole.txt"; then echo "the text of classify"; else echo "another text"; fi
