#!/usr/bin/env bash
# Compares `heesch classify` with a plain Rust program of the same methods (classify.rs), which makes no formula:
# `classify.sh [PROGRAM [GRID N ..]]`, by default the program built in this repository, over square 8, 9 and 10, hex 6
# and 7, and iamond 9 and 10. Both run by one worker and with the default limits.
# Both write a catalogue in turn, RUNS times (5): the bytes of both texts, what PROGRAM's `check` says of them, the
# least user seconds of each, and their greatest peaks in MB.
# A line for each bound says whether it holds. Ends with 1 where one doesn't, where a text isn't valid, or where
# verdicts differ, the number of classes aside. It needs rustc and GNU time.
set -eu
declare -A most_megabytes=([square 8]=12 [square 9]=30 [square 10]=110 [hex 6]=12 [hex 7]=100 [iamond 9]=40
  [iamond 10]=40)

program=$(readlink -f "${1:-$(dirname "$0")/../crates/heesch/out/heesch}")
[ -x "$program" ] || { sed -n 2,8p "$0" >&2; exit 2; }
[ $# -le 1 ] && set -- "$program" square 8 square 9 square 10 hex 6 hex 7 iamond 9 iamond 10
shift
cd "$(dirname "$0")"
runs=${RUNS:-5}
work=$(mktemp -d)
trap 'rm -r "$work"' EXIT
rustc -O --edition 2021 -o "$work/classify" classify.rs
. ./bounds.bash

# The number of classes is left out: it belongs to the cover that was found, and a shape may have several.
verdicts() { grep '^verdict ' "$work/$1.answer" | sed 's/ classes .*//'; }

compare() { # GRID N
  local name="$1 $2" text one plain differ
  local -A said
  rm -f "$work"/{one,plain}
  for _ in $(seq "$runs"); do
    measure one "$program" classify "$1" "$2" --workers 1 < /dev/null
    measure plain "$work/classify" "$1" "$2" < /dev/null
  done
  one=$(least one 1) plain=$(least plain 1)
  for text in one plain; do
    said[$text]=$("$program" check < "$work/$text.answer") || true
  done
  echo "$name: heesch $(wc -c < "$work/one.answer") bytes, ${said[one]}, $one s, $(megabytes one) MB;" \
    "plain Rust $(wc -c < "$work/plain.answer") bytes, ${said[plain]}, $plain s, $(megabytes plain) MB"
  [[ ${said[one]} == valid* && ${said[one]} == "${said[plain]}" ]] || fail "not both texts are valid"
  differ=$(diff <(verdicts one) <(verdicts plain) | grep -c '^[<>]') || true
  [ "$differ" -eq 0 ] || fail "the verdicts differ: $differ lines"
  bound "ratio to plain Rust" "$(ratio "$one" "$plain")" "${most_megabytes[$name]:+1.3}" ""
  bound "memory" "$(megabytes one)" "${most_megabytes[$name]:-}" " MB"
}

while [ $# -ge 2 ]; do
  compare "$1" "$2"
  shift 2
done
tell_bounds
