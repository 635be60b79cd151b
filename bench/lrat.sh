#!/usr/bin/env bash
# Takes every refutation of catalogues to another LRAT checker: `lrat.sh [--checker COMMAND] [GRID N]..`, by default of
# `square 8` and `hex 6`, to ACL2's verified one (Debian: acl2, acl2-books, acl2-books-certs, acl2-books-source).
# COMMAND is called with the names of the formula and of the proof, and says VERIFIED of a good one. Of each proof a
# second one is made, whose last hint is the hint before it: that has to be refused. Status 1 where any is otherwise.
# HEESCH names the program, by default the one built here: (cd crates/heesch && rt run -- list square 4).
set -eu
here=$(cd "$(dirname "$0")" && pwd)
export HEESCH=${HEESCH:-$here/../crates/heesch/out/heesch}
checker=acl2_checker
if [ "${1:-}" = --checker ]; then checker=$2; shift 2; fi
[ $# -gt 0 ] || set -- square 8 hex 6
[ $(($# % 2)) -eq 0 ] || { sed -n 2,6p "$0" >&2; exit 2; }
work=$(mktemp -d)
trap 'rm -r "$work"' EXIT

acl2_checker() { # CNF LRAT
  acl2 <<< "(include-book \"projects/sat/lrat/list-based/run\" :dir :system) (lrat::lrat-check \"$1\" \"$2\")"
}

verified() { # CNF LRAT: whether the checker takes the proof
  $checker "$1" "$2" > "$work/told" 2>&1 || true
  grep -qw VERIFIED "$work/told" && ! grep -qw 'NOT VERIFIED' "$work/told"
}

alter() { # LRAT: the proof with the last hint of its last line replaced by the hint before it
  awk '{ line[NR] = $0 } END {
    for (i = 1; i < NR; i++) print line[i]
    count = split(line[NR], word, " ")
    word[count - 1] = word[count - 2]
    for (i = 1; i <= count; i++) printf "%s%s", word[i], i < count ? " " : "\n"
  }' "$1"
}

refuted() { # CATALOGUE WORD: the entries whose line WORD (wall or bare) says refuted
  awk -v word="$2" '$1 == "shape" { entry++ } $1 == word && $3 == "refuted" { print entry }' "$1"
}

try() { # NAME CATALOGUE ENTRY [--bare]: one refutation
  local kind=plain told
  told=$("$here/../tools/lrat" "${@:2}" --into "$work/f")
  if grep -q '^clause .* is empty$' <<< "$told"; then
    empty=$((empty + 1))
    return
  fi
  if grep -q '^c ' <<< "$told"; then kind=cuts; fi
  total[$kind]=$((total[$kind] + 1))
  if verified "$work/f.cnf" "$work/f.lrat"; then
    taken[$kind]=$((taken[$kind] + 1))
  else
    echo "$1, entry ${*:3}: not verified: $(tail -n 1 "$work/told")"
  fi
  alter "$work/f.lrat" > "$work/altered.lrat"
  if verified "$work/f.cnf" "$work/altered.lrat"; then
    echo "$1, entry ${*:3}: verified with an altered hint"
  else
    refused=$((refused + 1))
  fi
}

differs=0
while [ $# -gt 0 ]; do
  declare -A total=([plain]=0 [cuts]=0) taken=([plain]=0 [cuts]=0)
  empty=0 refused=0
  "$HEESCH" classify "$1" "$2" > "$work/catalogue"
  for entry in $(refuted "$work/catalogue" wall); do try "$1 $2" "$work/catalogue" "$entry"; done
  for entry in $(refuted "$work/catalogue" bare); do try "$1 $2" "$work/catalogue" "$entry" --bare; done
  echo "$1 $2: ${taken[plain]} of ${total[plain]} without cuts verified, ${taken[cuts]} of ${total[cuts]} with cuts," \
    "$empty by an empty clause; $refused of $((total[plain] + total[cuts])) altered ones refused"
  if [ "${taken[*]}" != "${total[*]}" ] || [ "$refused" -ne $((total[plain] + total[cuts])) ]; then differs=1; fi
  shift 2
done
exit $differs
