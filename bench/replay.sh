#!/bin/sh
# How long `replay` takes beside the disk alone and beside reading the tape and its links alone: a made-up site on 64 hosts, half
# of them with a robots file, ten links a page.
#   replay.sh PROGRAM BENCH FOLDER [PAGES [RUNS]]
# PROGRAM is the built `irl`, BENCH the built `irl_bench`. In one run, over a tape of PAGES pages, 50,000 where none are named, and
# then over one of twice as many, it measures RUNS times (3), turn by turn and in new folders under FOLDER: the program at its
# defaults with `--delay 0`; the floor, the writes, cuts and syncs of that crawl's store alone, by floor.c; and the parsing,
# `Tape::read`, `links`, `text`, `canonical` and `key_of` over the same tape, by `irl_bench parse`. The least of each counts.
# Prints a table: seconds that went by and those of the processor, pages a second, the floor with its writes and syncs, the
# parsing's processor time, and that of `Tape::read` in it, what the program took above the floor as a multiple of the parsing,
# the peak memory and what it may be (64 MiB, the tape, and 300 bytes a URL) in MiB; and how many times as long twice the pages
# took. Fails only where a program didn't go through all pages.
set -eu
[ $# -ge 3 ] || {
    echo "usage: replay.sh PROGRAM BENCH FOLDER [PAGES [RUNS]]" >&2
    exit 2
}
program=$1
bench=$2
here=$(cd "$(dirname "$0")" && pwd)
. "$here/site.sh"
room=$(mktemp -d "$3/replay.XXXXXX")
trap 'rm -rf "$room"' EXIT
trap 'exit 1' HUP INT TERM
pages=${4-50000}
runs=${5-3}
cc -O2 -o "$room/floor" "$here/floor.c"
cc -O2 -o "$room/measure" "$here/measure.c"

crawl() {
    rm -rf "$room/store"
    sync "$room"
    "$room/measure" "$room/took" "$program" "$room/store" replay --delay 0 <"$room/tape" >"$room/report" || {
        echo "replay of $1 pages ended with $?" >&2
        exit 1
    }
    grep -qx "done $1" "$room/report" || {
        echo "replay of $1 pages: $(grep '^done' "$room/report")" >&2
        exit 1
    }
    echo "crawl $(cat "$room/took")" >>"$room/times"
}

disk() {
    rm -rf "$room/floor-store"
    sync "$room"
    echo "floor $("$room/floor" "$room/floor-store" "$room/store")" >>"$room/times"
}

parse() {
    "$room/measure" "$room/took" "$bench" parse "$1" "$2" <"$room/tape" >"$room/told" || {
        cat "$room/told" >&2
        exit 1
    }
    echo "$2 $(cat "$room/took")" >>"$room/times"
}

printf '%-7s %8s %8s %7s %7s %7s %7s %7s %7s %6s %8s %8s\n' \
    pages seconds cpu pages/s floor writes syncs parse tape above peak may
before=
for n in "$pages" $((2 * pages)); do
    tape "$n" >"$room/tape"
    : >"$room/times"
    for _ in $(seq "$runs"); do
        crawl "$n"
        disk
        for stage in made loaded "done"; do parse "$n" "$stage"; done
    done
    awk -v n="$n" -v tape="$(wc -c <"$room/tape")" '
        # The column that counts, by what was measured.
        { at = $1 == "crawl" || $1 == "floor" ? 2 : 3 }
        !($1 in least) || $at < least[$1] { least[$1] = $at }
        $1 == "crawl" && (!cpu || $3 < cpu) { cpu = $3 }
        $1 == "crawl" && (!peak || $4 < peak) { peak = $4 }
        $1 == "floor" { writes = $3; syncs = $4 }
        END {
            parse = least["done"] - least["made"]
            printf "%-7d %8.2f %8.2f %7.0f %7.2f %7d %7d %7.2f %7.2f %6.2f %8.1f %8.1f\n", n, least["crawl"], cpu,
                n / least["crawl"], least["floor"], writes, syncs, parse, least["loaded"] - least["made"],
                (least["crawl"] - least["floor"]) / parse, peak, 64 + (tape + 300 * n) / 1048576
        }' "$room/times" >"$room/row"
    cat "$room/row"
    now=$(awk '{ print $2 }' "$room/row")
    [ -z "$before" ] || awk -v a="$before" -v b="$now" 'BEGIN { printf "twice the pages: %.2f times as long\n", b / a }'
    before=$now
done
