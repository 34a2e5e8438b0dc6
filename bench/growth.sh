#!/usr/bin/env bash
# How the time of the crawler's parts grows with their work: the benches of crates/irl_bench at a size, at twice and at four
# times that.
#   bench/growth.sh [RUNS [BENCH]]
# The program is proved and built first, as the gate does it, which takes some minutes where nothing is kept. A row is one
# stage of a bench: the program is run RUNS times (9) up to that stage and up to the one before it, the least of each
# processor time counts, and what came before is taken off. Where a bench repeats its stage the time is that of one repetition.
# Prints a table in milliseconds of the processor, with what each doubling multiplies; where a BENCH is named, its rows alone.
# The word FOLDER stands for a folder in memory that is made anew for each run; for such a bench the last columns have by how
# many bytes a URL the least peak of its memory passes that of the stage before, at each size.
# Fails where an answer is wrong, and where a doubling multiplies by more than 2.5, or 2.3 for a yard, or 4.5 for a head, of which
# each read looks at all bytes again; less than a tenth of a millisecond counts as a tenth.
set -euo pipefail
runs=${1:-9}
only=${2:-}
top=$(git -C "$(dirname "$0")" rev-parse --show-toplevel)
program=$top/crates/irl_bench/out/irl_bench
work=$(mktemp -d)
store=$(mktemp -d -p /dev/shm)
trap 'rm -rf "$work" "$store"' EXIT
cc -O2 -o "$work/measure" "$top/bench/measure.c"
(cd "$top/crates/irl_bench" && rt run -- fates 3 >"$work/log" 2>&1) || { tail -20 "$work/log" >&2; exit 1; }

# The bench, its least size, the stage before, the stage, how often it is repeated, and the words behind the stage.
awk -v only="$only" 'only == "" || $1 == only' >"$work/rows" <<'ROWS'
fates 100000 made done 1
front 10000 made loaded 1
front 10000 loaded done 1
reply 262144 made done 200 plain 16384 200
reply 262144 made done 200 plain 1024 200
reply 262144 made done 10 plain 1 10
reply 262144 made done 200 chunked 16384 200
reply 262144 made done 200 chunked 1024 200
reply 262144 made done 10 chunked 1 10
reply 4096 made done 10 head 1 10
reply 4096 made done 10 interim 1 10
robots 2500 made loaded 10 ordinary 10
robots 2500 loaded done 10 ordinary 10
robots 125 made loaded 10 one-run 10
robots 125 loaded done 10 one-run 10
robots 125 made loaded 10 many-stars 10
robots 125 loaded done 10 many-stars 10
robots 10000 made loaded 10 short 10
robots 10000 loaded done 10 short 10
yard 50000 made done 1 FOLDER 1000 10 10000
yard 50000 made done 1 FOLDER 1000 1 4
ROWS
[ -s "$work/rows" ] || { echo "no bench $only" >&2; exit 1; }

while read -r bench size before stage _ words; do
  for size in "$size" $((2 * size)) $((4 * size)); do
    echo "$bench $size $before${words:+ $words}"
    echo "$bench $size $stage${words:+ $words}"
  done
done <"$work/rows" | sort -u >"$work/commands"

for _ in $(seq "$runs"); do
  while read -r -a command; do
    rm -rf "$store/yard"
    "$work/measure" "$work/took" "$program" "${command[@]/#FOLDER/$store/yard}" >"$work/told" </dev/null || { cat "$work/told" >&2; exit 1; }
    read -r _ processor memory <"$work/took"
    echo "$processor $memory ${command[*]}" >>"$work/times"
  done <"$work/commands"
done

awk '
  function counted(ms) { return ms < 0.1 ? 0.1 : ms }
  FNR == NR {
    took = $1
    memory = $2
    sub(/^[^ ]* [^ ]* /, "")
    if (!($0 in least) || took < least[$0]) least[$0] = took
    if (!($0 in peak) || memory < peak[$0]) peak[$0] = memory
    next
  }
  FNR == 1 { printf "%-7s %-9s %-20s %8s %10s %10s %10s %7s %7s\n", "bench", "stage", "of", "size", "ms", "twice", "4 times", "times", "times" }
  {
    words = bytes = ""
    for (i = 6; i <= NF; i++) words = words " " $i
    bound = $1 == "yard" ? 2.3 : words ~ /^ head/ ? 4.5 : 2.5
    for (k = 0; k < 3; k++) {
      size = $2 * 2 ^ k
      late = $1 " " size " " $4 words
      early = $1 " " size " " $3 words
      ms[k] = 1000 * (least[late] - least[early]) / $5
      if (words ~ /FOLDER/) bytes = bytes sprintf(" %7.0f", (peak[late] - peak[early]) * 2 ^ 20 / size)
      if (k > 0 && counted(ms[k]) > bound * counted(ms[k - 1])) slow = 1
    }
    printf "%-7s %-9s %-20s %8d %10.2f %10.2f %10.2f %7.2f %7.2f%s\n", $1, $4, substr(words, 2), $2, ms[0], ms[1], ms[2], counted(ms[1]) / counted(ms[0]), counted(ms[2]) / counted(ms[1]), bytes
  }
  END { exit slow }' "$work/times" "$work/rows"
