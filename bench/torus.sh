#!/usr/bin/env bash
# Compares torus_formula with a plain Rust program of the same method (torus.rs) on all triples of domain 4 of two
# shapes of nine squares: a line for each shape, with the variables, clauses and literals of all its formulas.
set -eu
cd "$(dirname "$0")"
work=$(mktemp -d)
rustc -O -o "$work/torus" torus.rs
torus=$(./throwaway.sh torus.rattle)
echo "Rattle:"; "$torus"
echo "plain Rust:"
printf '%s\n' '0,0 1,0 2,0 0,1 1,1 2,1 3,1 0,2 1,2' '0,0 1,0 2,0 3,0 4,0 5,0 6,0 0,1 0,2' | "$work/torus"
