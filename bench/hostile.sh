#!/usr/bin/env bash
# Hostile use: `hostile.sh [SEED [COUNT]]`. Each growth of memory is refused in turn, one a run (refusals.py), and COUNT
# alterations (20,000 by default) of small true catalogues are checked (alterations.py).
# Build the program first: (cd crates/heesch && rt run -- list square 4). It needs rustc, for refuse.rs alone.
set -eu
cd "$(dirname "$0")"
program=../crates/heesch/out/heesch
work=$(mktemp -d)
trap 'rm -rf "$work"' EXIT
rustc -O --edition 2021 -C panic=abort --crate-type cdylib -o "$work/refuse.so" refuse.rs
python3 refusals.py "$program" "$work/refuse.so"
python3 alterations.py "$program" "${1:-1}" "${2:-20000}"
