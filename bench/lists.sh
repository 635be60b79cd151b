#!/usr/bin/env bash
# Compares `heesch list` and `heesch plain` with a plain Rust program of the same methods (polyforms.rs): prints both
# times in seconds, the best of seven runs each, and their ratio, and the ratio of 4 workers to 1. Then the larger
# sizes, one run each by 1 and by 4 workers: seconds and peak memory in GiB (/usr/bin/time), and the ratio of the times.
# Build the program first: (cd crates/heesch && rt run -- list square 4). It needs rustc, for polyforms.rs alone.
set -eu
cd "$(dirname "$0")"
program=../crates/heesch/out/heesch
plain=$(mktemp -d)/polyforms
rustc -O --edition 2021 -o "$plain" polyforms.rs
best() {
  local least=
  for _ in 1 2 3 4 5 6 7; do
    local start end
    start=$(date +%s.%N); "$@" > /dev/null; end=$(date +%s.%N)
    least=$(awk -v a="$start" -v b="$end" -v l="$least" 'BEGIN { t = b - a; print (l == "" || t < l) ? t : l }')
  done
  echo "$least"
}
for form in "list square 10" "list hex 8" "list iamond 12" "list square 12" "plain square 10"; do
  cmp <($program $form) <("$plain" $form)
  one=$(best $program $form)
  four=$(best $program $form --workers 4)
  other=$(best "$plain" $form)
  awk -v f="$form" -v a="$one" -v b="$other" -v c="$four" \
    'BEGIN { printf "%-15s heesch %.3f  plain Rust %.3f  ratio %.2f  4 workers %.3f  of one %.2f\n", f, a, b, a / b, c, c / a }'
done
large() {
  local report
  report=$(mktemp)
  /usr/bin/time -v -o "$report" "$@" > /dev/null
  awk '/Elapsed/ { n = split($NF, p, ":"); t = p[n] + 60 * p[n - 1] + (n > 2 ? 3600 * p[1] : 0) }
    /Maximum resident/ { m = $NF / 1048576 } END { print t, m }' "$report"
  rm "$report"
}
for form in "list square 13" "list square 14" "list iamond 17" "list iamond 18" "list hex 12"; do
  read -r one memory < <(large $program $form --workers 1)
  read -r four other < <(large $program $form --workers 4)
  awk -v f="$form" -v a="$one" -v m="$memory" -v b="$four" -v n="$other" \
    'BEGIN { printf "%-15s 1 worker %.2f, %.2f GiB  4 workers %.2f, %.2f GiB  of one %.2f\n", f, a, m, b, n, b / a }'
done
