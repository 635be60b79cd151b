#!/usr/bin/env bash
# Builds a Rattle program that stands outside the workspace, over a copy of the crates up to heesch_torus in a folder of
# its own: `throwaway.sh SOURCE` prints the path of the program that it built. It proves what it builds, in some minutes.
set -eu
cd "$(dirname "$0")"
work=$(mktemp -d)
mkdir -p "$work/crates/bench/src"
cp ../HANDLES "$work"
cp "$1" "$work/crates/bench/src/main.rt"
for crate in heesch_io heesch_cnf heesch_rup heesch_trail heesch_cdcl heesch_grid heesch_shape heesch_lattice \
  heesch_cert heesch_tiling heesch_exact heesch_torus; do
  mkdir "$work/crates/$crate"
  cp -r ../crates/$crate/src ../crates/$crate/specs ../crates/$crate/proofs "$work/crates/$crate"
done
grep -E '^heesch_(io|cnf|rup|trail|cdcl|grid|shape|lattice|cert|tiling|exact|torus)[: ]' ../crates.txt > "$work/crates.txt"
uses='heesch_torus heesch_lattice heesch_shape heesch_grid heesch_rup heesch_cdcl heesch_trail heesch_cnf heesch_io'
echo "bench: $uses anyhow" >> "$work/crates.txt"
(cd "$work/crates/bench" && rt run < /dev/null > "$work/log" 2>&1) || { tail -n 20 "$work/log" >&2; exit 1; }
echo "$work/crates/bench/out/bench"
