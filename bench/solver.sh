#!/usr/bin/env bash
# Compares the solver with a plain Rust solver of the same kind (solver.rs) on corona formulas of level 2 of the
# octominoes without a plain tiling, or of the first N of them: `solver.sh [N]`. A line for each formula, of both.
# Build the program first: (cd crates/heesch && rt run -- list square 4).
set -eu
cd "$(dirname "$0")"
work=$(mktemp -d)
rustc -O --edition 2021 -o "$work/solver" solver.rs
solver=$(./throwaway.sh solver.rattle)
../crates/heesch/out/heesch plain square 8 | sed -n 's/ none$//p' | head -n "${1:-4}" > "$work/shapes"
echo "Rattle:"; "$work/solver" 2 emit < "$work/shapes" | "$solver"
echo "plain Rust:"; "$work/solver" 2 < "$work/shapes"
