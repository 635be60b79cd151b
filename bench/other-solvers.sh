#!/usr/bin/env bash
# Takes corona formulas to other solvers and their models back: for every heptomino and octomino without a plain tiling, and
# each level up to the one given (2 by default), cadical and minisat, as far as they are installed, decide the formula, and
# `heesch answer` reads each model. Compares satisfiable or not with the verdicts of `heesch classify`; none may differ.
# Build the program first: (cd crates/heesch && rt run -- list square 4).
set -eu
cd "$(dirname "$0")"
program=../crates/heesch/out/heesch
levels=${1:-2}
work=$(mktemp -d)
trap 'rm -rf "$work"' EXIT

solvers=()
for solver in cadical minisat; do
  if command -v "$solver" > /dev/null; then solvers+=("$solver"); fi
done
if [ ${#solvers[@]} -eq 0 ]; then
  echo "neither cadical nor minisat is installed"
  exit 1
fi

# What a verdict says of so many coronas, holes allowed: sat, unsat or open.
expected() {
  local kind=$1 level=$2 last=${1##* } third
  third=$(echo "$kind" | cut -d ' ' -f 3)
  case $kind in
    tiles* | "undecided levels"* | "undecided holes"*) echo sat ;;
    heesch*) if [ "$level" -lt "$last" ]; then echo sat; else echo unsat; fi ;;
    *" free "*) if [ "$level" -le "$third" ]; then echo sat; else echo open; fi ;;
    *" bare "*) if [ "$level" -lt "$last" ]; then echo sat; else echo open; fi ;;
  esac
}

# What a solver says of $work/formula: sat or unsat. A model stands in $work/model then.
decided() {
  local code=0
  case $1 in
    cadical) cadical -q "$work/formula" > "$work/model" || code=$? ;;
    minisat)
      minisat -verb=0 "$work/formula" "$work/values" > /dev/null 2>&1 || code=$?
      sed -e 's/^SAT$/s SATISFIABLE/' -e '2s/^/v /' "$work/values" > "$work/model"
      ;;
  esac
  case $code in
    10) echo sat ;;
    20) echo unsat ;;
    *) echo "exit $code" ;;
  esac
}

asked=0
differ=0
for cells in 7 8; do
  "$program" plain square "$cells" | sed -n 's/ none$//p' > "$work/shapes"
  "$program" classify square given --brief --levels "$levels" < "$work/shapes" | sed -n 's/^verdict //p' > "$work/verdicts"
  while read -r shape <&3 && read -r verdict <&4; do
    for level in $(seq 1 "$levels"); do
      echo "$shape" | "$program" formula square "$level" > "$work/formula"
      wanted=$(expected "$verdict" "$level")
      for solver in "${solvers[@]}"; do
        asked=$((asked + 1))
        found=$(decided "$solver")
        told=
        if [ "$found" = sat ]; then
          told=$({ echo "$shape"; cat "$work/model"; } | "$program" answer square "$level" | head -1)
        fi
        if { [ "$found" != "$wanted" ] && [ "$wanted" != open ]; } ||
          { [ "$found" = sat ] && [ "$told" != "coronas $level" ]; }; then
          differ=$((differ + 1))
          echo "$shape: $verdict; level $level: $solver says $found, answer says '$told'"
        fi
      done
    done
  done 3< "$work/shapes" 4< "$work/verdicts"
done
echo "$asked formulas decided by ${solvers[*]}, $differ differ"
[ "$differ" -eq 0 ]
