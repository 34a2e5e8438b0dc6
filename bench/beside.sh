#!/usr/bin/env bash
# How long `irl DIR seen` takes beside an earlier build of it.
#   bench/beside.sh EARLIER LINES [RUNS [FOLDER [COUNTED]]]
# EARLIER is the built program of another state of this repository; the other one is what `rt ci` or the launcher built here.
# The same lines go through both, on the disk of FOLDER (that of /tmp), turn by turn: RUNS times (9) each makes a store of them
# and then runs over them again, and who goes first changes with the turn. Where valgrind is installed each does so once more
# over COUNTED lines (as many), with its instructions counted, which no other work on the machine changes; RUNS or COUNTED of 0
# leaves that part out. Prints for the first and the second run the least of each measure, and this build's as a multiple of the earlier
# one's. Fails only where one prints other lines than the other.
set -euo pipefail
earlier=${1:?usage: bench/beside.sh EARLIER LINES [RUNS [FOLDER [COUNTED]]]}
lines=${2:?usage: bench/beside.sh EARLIER LINES [RUNS [FOLDER [COUNTED]]]}
runs=${3:-9}
counted=${5:-$lines}
here=$(cd "$(dirname "$0")" && pwd)
now=$here/../crates/irl/out/irl
for program in "$earlier" "$now"; do
  [ -x "$program" ] || { echo "there is no program $program" >&2; exit 1; }
done
work=$(mktemp -d -p "${4:-/tmp}")
trap 'rm -rf "$work"' EXIT
cc -O2 -o "$work/measure" "$here/measure.c"
cp "$earlier" "$work/earlier"
cp "$now" "$work/now"

run() { # build, run (first or second), lines, and the words before the program
  local build=$1 which=$2 from=$3
  shift 3
  "$@" "$work/$build" "$work/$build-store" seen <"$from" >"$work/$build-$which.lines"
}

both() { # a build, lines, and a call for each of its two runs, which is told the build and the run
  rm -rf "$work/$1-store"
  sync "$work"
  "$3" "$1" first "$2"
  "$3" "$1" second "$2"
}

timed() {
  run "$@" "$work/measure" "$work/took"
  echo "$1 $2 $(cat "$work/took")" >>"$work/times"
}

count() {
  run "$@" valgrind --tool=callgrind --callgrind-out-file="$work/callgrind" 2>"$work/valgrind"
  echo "$1 $2 $(awk '/^(summary|totals):/ { print $2; exit }' "$work/callgrind")" >>"$work/counts"
}

same() {
  cmp "$work/earlier-first.lines" "$work/now-first.lines"
  cmp "$work/earlier-second.lines" "$work/now-second.lines"
}

: >"$work/times"
: >"$work/counts"
"$here/lines.sh" "$lines" >"$work/lines"
for turn in $(seq "$runs"); do
  order=(earlier now)
  ((turn % 2)) || order=(now earlier)
  for build in "${order[@]}"; do
    both "$build" "$work/lines" timed
  done
  same
done
if ((counted > 0)) && command -v valgrind >/dev/null; then
  "$here/lines.sh" "$counted" >"$work/counted"
  both earlier "$work/counted" count
  both now "$work/counted" count
  same
fi

awk -v lines="$lines" -v counted="$counted" -v runs="$runs" '
  FILENAME ~ /times$/ {
    at = $2 " " $1
    for (i = 3; i <= 5; i++) if (!((at, i) in least) || $i < least[at, i]) least[at, i] = $i
    next
  }
  { count[$2 " " $1] = $3 / 1e6 }
  function row(which, what, unit, before, after) {
    printf "%-7s %-28s %12.2f %12.2f %-4s %8.3f\n", which, what, before, after, unit, after / before
  }
  END {
    printf "%d lines, the least of %d turns\n%-7s %-28s %12s %12s %-4s %8s\n", lines, runs, "run", "", "earlier", "now", "", "times"
    n = split("first second", order, " ")
    for (i = 1; i <= n; i++) {
      w = order[i]
      if (runs > 0) {
        row(w, "elapsed", "s", least[w " earlier", 3], least[w " now", 3])
        row(w, "processor", "s", least[w " earlier", 4], least[w " now", 4])
        row(w, "peak memory", "MiB", least[w " earlier", 5], least[w " now", 5])
      }
      if ((w " now") in count) row(w, "instructions, " counted " lines", "10^6", count[w " earlier"], count[w " now"])
    }
  }' "$work/times" "$work/counts"
