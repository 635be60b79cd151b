#!/usr/bin/env bash
# Compares `heesch check` with a plain Rust program of the same method (check.rs), which has clauses by their numbers:
# `check.sh [PROGRAM [GRID N ..]]`, by default the program built in this repository, over square 9, hex 7, iamond 10 and
# square 10. A catalogue is FOLDER/GRID-N.txt where the environment has TEXTS=FOLDER and it has that file; else PROGRAM
# makes it, with OPTIONS (none by default; as `--version 1`).
# Both check it in turn, RUNS times (5): the least user seconds of each by one worker, their greatest peaks in MB, and
# the ratio of the seconds. In the same turns PROGRAM checks it by four workers: the median of its seconds by the clock,
# as a part of the median by one. (Single runs by one worker took a third less than most, where four took as long.)
# Between the turns a loop of additions is timed in four processes at once and in one: the least ratio, which is 1 on
# four quiet processors.
# A line for each bound says whether it holds. Ends with 1 where one doesn't, or where the answers differ. It needs
# rustc and GNU time.
set -eu
declare -A most_seconds=([square 9]=1.5 [hex 7]=2.2 [iamond 10]=0.9 [square 10]=11)
declare -A most_megabytes=([square 10]=150 [square 11]=400)
declare -A most_part=([iamond 10]=0.35 [square 9]=0.35)

program=$(readlink -f "${1:-$(dirname "$0")/../crates/heesch/out/heesch}")
[ -x "$program" ] || { sed -n 2,13p "$0" >&2; exit 2; }
[ $# -le 1 ] && set -- "$program" square 9 hex 7 iamond 10 square 10
shift
texts=${TEXTS:+$(readlink -f "$TEXTS")}
cd "$(dirname "$0")"
runs=${RUNS:-5}
work=$(mktemp -d)
trap 'rm -r "$work"' EXIT
rustc -O --edition 2021 -o "$work/checker" check.rs
. ./bounds.bash

text_of() { # GRID N: the path of its catalogue
  if [ -n "$texts" ] && [ -f "$texts/$1-$2.txt" ]; then
    echo "$texts/$1-$2.txt"
  else
    "$program" classify "$1" "$2" --workers "$(nproc)" ${OPTIONS:-} > "$work/text"
    echo "$work/text"
  fi
}

add() { awk 'BEGIN { for (i = 0; i < 1e7; i++) sum += i }'; }

additions() { # adds to `loop` how many times as long four loops at once take as one
  local TIMEFORMAT=%3R one four
  one=$( { time add; } 2>&1)
  four=$( { time { add & add & add & add & wait; }; } 2>&1)
  ratio "$four" "$one" >> "$work/loop"
}

compare() { # GRID N
  local name="$1 $2" one plain
  text=$(text_of "$1" "$2")
  rm -f "$work"/{one,plain,four,loop}
  for _ in $(seq "$runs"); do
    measure one "$program" check --workers 1 < "$text"
    measure plain "$work/checker" < "$text"
    measure four "$program" check --workers 4 < "$text"
    additions
  done
  one=$(least one 1) plain=$(least plain 1)
  echo "$name, $(wc -c < "$text") bytes:" \
    "heesch $(cat "$work/one.answer"), $one s, $(megabytes one) MB;" \
    "plain Rust $(cat "$work/plain.answer"), $plain s, $(megabytes plain) MB;" \
    "4 workers $(cat "$work/four.answer"), $(megabytes four) MB, where the loop took $(least loop 1) of one"
  cmp -s "$work/one.answer" "$work/plain.answer" && cmp -s "$work/one.answer" "$work/four.answer" ||
    fail "the answers differ"
  [ -z "${OPTIONS:-}" ] || return 0
  bound "ratio to plain Rust" "$(ratio "$one" "$plain")" "${most_seconds[$name]:+1.4}" ""
  bound "one worker" "$one" "${most_seconds[$name]:-}" " s"
  bound "memory of one worker" "$(megabytes one)" "${most_megabytes[$name]:-}" " MB"
  bound "four workers, as a part of one" "$(ratio "$(median four 2)" "$(median one 2)")" "${most_part[$name]:-}" ""
}

while [ $# -ge 2 ]; do
  compare "$1" "$2"
  shift 2
done
tell_bounds
