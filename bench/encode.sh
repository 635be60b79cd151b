#!/usr/bin/env bash
# Compares `encode` with a plain Rust program of the same method (encode.rs, coronas.rs), on a heptomino at level 3: the
# variables, clauses and literals of each, and the milliseconds that the variables and the whole took. The Rattle
# program (encode.rattle) is built over a copy of the crates in a folder of its own, since one that stands outside the
# workspace is refused by the gate; the first time, proving takes some minutes.
set -eu
cd "$(dirname "$0")"
work=$(mktemp -d)
rustc -O --edition 2021 -o "$work/encode" encode.rs
needed='io grid index shape place lattice cnf cert encode'
for crate in $needed; do
  mkdir -p "$work/crates/heesch_$crate"
  cp -r ../crates/heesch_$crate/src ../crates/heesch_$crate/specs ../crates/heesch_$crate/proofs "$work/crates/heesch_$crate"
  grep "^heesch_$crate:" ../crates.txt >> "$work/crates.txt"
done
bench=$work/crates/bench
mkdir -p "$bench/src" "$bench/proofs/canonical_of"
cp ../HANDLES "$work"
cp encode.rattle "$bench/src/main.rt"
sed 's/heesch_encode.proofs.tests/bench.proofs/' ../crates/heesch_encode/proofs/tests/canonical_of/Answers.antt > "$bench/proofs/canonical_of/Answers.antt"
echo 'bench: heesch_encode heesch_place heesch_cnf heesch_shape heesch_grid anyhow' >> "$work/crates.txt"
(cd "$bench" && rt run < /dev/null > "$work/log" 2>&1) || { tail -n 20 "$work/log" >&2; exit 1; }
echo "Rattle:"; "$bench/out/bench"
echo "plain Rust:"; "$work/encode" 3 0,0 1,0 2,0 0,1 1,1 2,1 0,2
