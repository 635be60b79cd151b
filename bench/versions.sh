#!/usr/bin/env bash
# Compares the two corona formulas: `versions.sh [N]`. First the formulas of level 2 of the octominoes without a plain tiling,
# or of the first N of them: clauses, literals, and the lines and literals that the solver learns. Then whole catalogues: the
# lines of their logs, bytes, seconds, and with VALGRIND=1 the instructions of smaller ones.
# Build the program first: (cd crates/heesch && rt run -- list square 4).
set -eu
cd "$(dirname "$0")"
work=$(mktemp -d)
heesch=../crates/heesch/out/heesch
solver=$(./throwaway.sh solver.rattle)
"$heesch" plain square 8 | sed -n 's/ none$//p' | head -n "${1:-200}" > "$work/shapes"
for version in 1 2; do
  while read -r shape; do
    echo "$shape" | "$heesch" formula square 2 --version $version > "$work/formula"
    awk 'NR == 1 { clauses += $4 } NR > 1 { literals += NF - 1 } END { print clauses, literals }' "$work/formula" >> "$work/sizes.$version"
    sed -e 's/^p cnf \([0-9]*\) .*/vars \1/' -e 's/ *0$//' "$work/formula" >> "$work/formulas.$version"
    echo solve >> "$work/formulas.$version"
  done < "$work/shapes"
  echo "version $version: formulas, clauses, literals:" \
    $(awk '{ c += $1; l += $2 } END { print NR, c, l }' "$work/sizes.$version")
  "$solver" < "$work/formulas.$version" > "$work/learnt.$version"
  awk '{ c += $4; l += $6; h += $8; ms += $9 } END { print "  conflicts", c, "literals", l, "hints", h, "milliseconds", ms }' \
    "$work/learnt.$version"
done
for words in 'square 8' 'hex 6' 'iamond 9'; do
  for version in 1 2; do
    /usr/bin/time -f '%U' -o "$work/seconds" "$heesch" classify $words --version $version > "$work/text"
    echo "classify $words --version $version: $(cat "$work/seconds") s, $(wc -c < "$work/text") bytes," \
      "$(grep -c '^learn ' "$work/text" || true) lines learnt, $(grep -c '^verdict undecided' "$work/text" || true) undecided"
  done
done
if [ -n "${VALGRIND:-}" ]; then
  for words in 'square 7' 'hex 5' 'iamond 8'; do
    for version in 1 2; do
      instructions=$(valgrind --tool=callgrind --callgrind-out-file=/dev/null "$heesch" classify $words --version $version 2>&1 > /dev/null | sed -n 's/.*Collected : //p')
      echo "classify $words --version $version: $instructions instructions"
    done
  done
fi
