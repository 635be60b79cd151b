#!/usr/bin/env bash
# Tries `tools/run --parallel` with GNU parallel: `parallel.sh [GRID N SHARES [HOSTS]]`, by default square 8 in 8 shares
# on this machine (HOSTS is `:`). It compares the catalogue with that of `classify`. Other hosts need ssh, and TMPDIR on
# a disk that they share. Debian's package: parallel. HEESCH names the program, by default the one built here.
set -eu
here=$(cd "$(dirname "$0")" && pwd)
export HEESCH=${HEESCH:-$here/../crates/heesch/out/heesch}
grid=${1:-square} size=${2:-8} shares=${3:-8} hosts=${4:-:}
work=$(mktemp -d)
trap 'rm -r "$work"' EXIT
run() { "$here/../tools/run" "$grid" "$size" --into "$work/run" "$@"; }
run --shares "$shares" --parallel > "$work/commands"
parallel --will-cite -S "$hosts" < "$work/commands" 2> "$work/progress"
echo "$(find "$work/run/work/shares" -name '*.txt' | wc -l) of $(wc -l < "$work/commands") shares by parallel"
run 2> "$work/progress" | sed "s:$work:FOLDER:g"
"$HEESCH" classify "$grid" "$size" > "$work/whole"
cmp "$work/whole" "$work/run/catalogue.txt"
echo 'the text of classify'
