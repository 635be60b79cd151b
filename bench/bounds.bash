# What check.sh and classify.sh share: runs of programs in turn, their least figures, and bounds on these. The script
# that reads it names a folder `work`, in which each name has a file of figures.
holding=0 failing=0

measure() { # NAME COMMAND..: its output is NAME.answer; adds user seconds, seconds and kB at peak to NAME
  local name=$1 TIMEFORMAT='%3U %3R' seconds
  shift
  seconds=$( {
    time /usr/bin/time -o "$work/peak" -f %M "$@" > "$work/$name.answer"
  } 2>&1) || true
  echo "$seconds $(tail -n 1 "$work/peak")" >> "$work/$name"
}

least() { # NAME COLUMN
  awk -v column="$2" '{ print $column }' "$work/$1" | sort -n | head -n 1
}

median() { # NAME COLUMN: of an even number of figures, the lower of the two in the middle
  awk -v column="$2" '{ print $column }' "$work/$1" | sort -n | awk '{ at[NR] = $1 } END { print at[int((NR + 1) / 2)] }'
}

megabytes() { # NAME: the greatest peak
  awk '$3 > most { most = $3 } END { printf "%.0f", most / 1024 }' "$work/$1"
}

ratio() { awk -v a="$1" -v b="$2" 'BEGIN { if (b > 0) printf "%.2f\n", a / b; else print "-" }'; }

bound() { # WHAT FIGURE MOST UNIT: a line, where there is a bound
  [ -n "$3" ] || return 0
  if awk -v figure="$2" -v most="$3" 'BEGIN { exit !(figure ~ /^[0-9]/ && figure + 0 <= most + 0) }'; then
    holding=$((holding + 1))
    echo "  $1: $2$4, at most $3: holds"
  else
    failing=$((failing + 1))
    echo "  $1: $2$4, at most $3: doesn't hold"
  fi
}

fail() { # WHAT: a line on what isn't a bound, and doesn't hold
  failing=$((failing + 1))
  echo "  $1"
}

tell_bounds() { # the last line, and whether all hold
  echo "bounds: $holding hold, $failing fail"
  [ "$failing" -eq 0 ]
}
