#!/usr/bin/env bash
# Runs the examples of the documents and compares what they print with what stands there: `readme.sh PROGRAM
# [DOCUMENT]..`, by default README.md, docs/USAGE.md, docs/READING.md and docs/TABLES.md. An example is an indented block
# with lines `$ COMMAND`; its commands run in their order, all of a document in one new folder that has tools/, with
# PROGRAM as `heesch`. A block without such lines that writes a file docs/NAME.svg is run too, and the picture is
# compared with that of docs/. Other blocks need rt, a cluster or another solver: they are named, and not run.
# Prints each command that differs, and how many are as they stand; ends with 1 where one differs.
set -u
[ $# -ge 1 ] && [ -x "$1" ] || { sed -n 2,7p "$0"; exit 2; }
top=$(cd "$(dirname "$0")/.." && pwd)
HEESCH=$(readlink -f "$1")
export HEESCH
shift
work=$(mktemp -d)
trap 'rm -r "$work"' EXIT
mkdir "$work/bin"
ln -s "$HEESCH" "$work/bin/heesch"
export PATH="$work/bin:$PATH"
same=0 differ=0 passed=0

judge() { # WORDS EXPECTED PRINTED
  if cmp -s "$2" "$3"; then
    same=$((same + 1))
  else
    differ=$((differ + 1))
    echo "differs: $1"
    diff "$2" "$3" | cut -c 1-200 | head -n 20
    head -n 3 "$work/errors"
  fi
}

run() { # COMMAND: runs it in the document's folder
  (cd "$folder" && timeout 600 bash -c "$1" > "$work/printed" 2> "$work/errors")
}

run_example() { # the lines of $work/block: commands, each with what it has to print
  local command='' line
  while IFS= read -r line; do
    if [[ $line == '$ '* ]]; then
      [ -z "$command" ] || { run "$command"; judge "$command" "$work/expected" "$work/printed"; }
      command=${line#'$ '}
      : > "$work/expected"
    else
      printf '%s\n' "$line" >> "$work/expected"
    fi
  done < "$work/block"
  run "$command"
  judge "$command" "$work/expected" "$work/printed"
}

run_pictures() { # the lines of $work/block: commands that write pictures
  local picture
  run "$(cat "$work/block")"
  grep -o "docs/[a-z-]*\.svg" "$work/block" > "$work/pictures"
  while read -r picture; do judge "$picture" "$top/$picture" "$folder/$picture"; done < "$work/pictures"
}

run_block() {
  if grep -q '^\$ ' "$work/block"; then
    run_example
  elif grep -q '> docs/[a-z-]*\.svg' "$work/block"; then
    run_pictures
  else
    passed=$((passed + 1))
    echo "not run: $(head -n 1 "$work/block")"
  fi
}

run_document() { # NAME
  folder=$work/$(basename "$1" .md)
  mkdir "$folder" "$folder/docs"
  ln -s "$top/tools" "$folder/tools"
  : > "$work/block"
  while IFS= read -r line || [ -n "$line" ]; do
    if [[ $line == '    '* ]]; then
      printf '%s\n' "${line#'    '}" >> "$work/block"
    elif [ -s "$work/block" ]; then
      run_block
      : > "$work/block"
    fi
  done < "$top/$1"
  [ ! -s "$work/block" ] || run_block
}

[ $# -gt 0 ] || set -- README.md docs/USAGE.md docs/READING.md docs/TABLES.md
for document in "$@"; do run_document "$document"; done
echo "$same as they stand, differ $differ, not run $passed"
[ "$differ" -eq 0 ]
