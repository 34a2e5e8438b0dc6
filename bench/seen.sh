#!/usr/bin/env bash
# How long `irl DIR seen` takes beside `sort -u` and beside the disk alone.
#   bench/seen.sh LINES [FOLDER [OPTION VALUE | OPTION=VALUE]..]
# The lines are made by a seed: URLs of some hosts, of which about a fifth stand there before. In one run, on the disk of
# FOLDER (that of /tmp), it measures `LC_ALL=C sort -u --parallel=1` of them; the writes, cuts and syncs of the store's layout
# alone, by floor.c beside this script; and `seen` over them twice, with these options where any are named. Where LMDB is
# installed it measures too how long that takes to store the same keys, by lmdb.c. The program is the one that `rt ci` or the
# launcher built. Prints a table with the seconds that went by, those of the processor and the peak memory, and what `seen` took
# above the floor and of the processor, as multiples of sort's processor time. Fails only where the output is wrong.
set -euo pipefail
lines=${1:?usage: bench/seen.sh LINES [FOLDER [OPTION VALUE | OPTION=VALUE]..]}
here=$(cd "$(dirname "$0")" && pwd)
program=$here/../crates/irl/out/irl
[ -x "$program" ] || { echo "build the program first: ./irl --help" >&2; exit 1; }
work=$(mktemp -d -p "${2:-/tmp}")
options=("${@:3}")
buckets=16 array=1024 trigger=16384
set -- "${options[@]}"
while (($# > 0)); do
  case $1 in
    *=*) set -- "${1%%=*}" "${1#*=}" "${@:2}" ;;
  esac
  case $1 in
    --buckets) buckets=${2-} ;;
    --array) array=${2-} ;;
    --trigger) trigger=${2-} ;;
  esac
  shift $(($# > 1 ? 2 : 1))
done
trap 'rm -rf "$work"' EXIT
cc -O2 -o "$work/floor" "$here/floor.c"
cc -O2 -o "$work/measure" "$here/measure.c"
cc -O2 -o "$work/lmdb" "$here/lmdb.c" -llmdb 2>/dev/null || true

"$here/lines.sh" "$lines" >"$work/lines"
sync "$work/lines"

measure() { # runs the command behind $1, and keeps what it took under that name
  "$work/measure" "$work/$1.took" "${@:2}"
}

LC_ALL=C measure sort sort -u --parallel=1 -T "$work" -o "$work/sorted" "$work/lines"
"$work/floor" "$work/floor-store" "$work/lines" "$buckets" "$array" "$trigger" >"$work/floor.took"
rm -r "$work/floor-store"
sync "$work"
measure first "$program" "$work/store" seen "${options[@]}" <"$work/lines" >"$work/first.lines"
measure second "$program" "$work/store" seen <"$work/lines" >"$work/second.lines"

awk '!seen[$0]++' "$work/lines" | LC_ALL=C sort >"$work/expected"
LC_ALL=C sort "$work/first.lines" | cmp - "$work/expected" || { echo "the first run printed other lines" >&2; exit 1; }
[ ! -s "$work/second.lines" ] || { echo "the second run printed lines" >&2; exit 1; }

if [ -x "$work/lmdb" ]; then
  sync "$work"
  "$work/lmdb" "$work/lmdb-store" "$work/lines" >"$work/lmdb.took"
fi

awk -v lines="$lines" '
  FILENAME ~ /floor.took/ { floor["first"] = $1; floor["second"] = $2; next }
  FILENAME ~ /lmdb.took/ { lmdb = sprintf("LMDB, keys alone: first run %.2f s, second run %.2f s", $1, $2); next }
  { split(FILENAME, parts, "/"); name = parts[length(parts)]; elapsed[name] = $1; cpu[name] = $2; peak[name] = $3 }
  END {
    printf "%d lines\n", lines
    printf "%-8s %10s %10s %10s %10s %10s %28s\n", "", "elapsed s", "floor s", "cpu s", "/ sort", "peak MiB", "(elapsed - floor) / sort cpu"
    n = split("sort.took first.took second.took", order, " ")
    for (i = 1; i <= n; i++) {
      name = order[i]; label = name; sub(/.took/, "", label)
      least = ""; above = ""
      if (label in floor) {
        least = sprintf("%.2f", floor[label])
        above = sprintf("%.2f", (elapsed[name] - floor[label]) / cpu["sort.took"])
      }
      printf "%-8s %10.2f %10s %10.2f %10.2f %10.1f %28s\n", label, elapsed[name], least, cpu[name], cpu[name] / cpu["sort.took"], peak[name], above
    }
    if (lmdb) print lmdb
  }' "$work"/{floor,sort,first,second}.took $([ -f "$work/lmdb.took" ] && echo "$work/lmdb.took")
