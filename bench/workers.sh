#!/bin/sh
# How much faster `replay` goes by several workers than by one, and where its time goes: the made-up site of site.sh, as a tape.
#   workers.sh PROGRAM FOLDER [PAGES [RUNS [WORKERS]]]
# PROGRAM is the built `irl`. In one run, over a tape of PAGES pages (100,000), it runs the program RUNS times (3) at its defaults
# with `--delay 0`, by one worker and by WORKERS (4), turn by turn and in new folders under FOLDER. The least of each measure
# counts. Prints the seconds that went by, those of the processor, and MiB of memory at most, and how many times what several
# workers take one takes.
# Where perf may be used and probes may be set, as root may, each then runs as often again in three ways. With probes at the
# functions that hand out the pages of a turn and that settle what came of them: prints how many turns there were, and the seconds
# from the one to the other, from a turn's start till behind its last fetch. With a count of the calls in which a thread waits for
# a lock or wakes who waits, nearly all for taking and giving back memory, and of those in which it gives its processor away as
# another has the part of the store that it wants. And with 997 samples a second of processor time: prints what share is in
# other threads than the main one, and in functions of which kind; callers aren't known, and what the compiler put into a
# function counts as its own.
# Fails only where a run didn't go through all pages.
set -eu
[ $# -ge 2 ] || {
    echo "usage: workers.sh PROGRAM FOLDER [PAGES [RUNS [WORKERS]]]" >&2
    exit 2
}
program=$1
here=$(cd "$(dirname "$0")" && pwd)
. "$here/site.sh"
room=$(mktemp -d "$2/workers.XXXXXX")
trap 'rm -rf "$room"' EXIT
trap 'exit 1' HUP INT TERM
pages=${3-100000}
runs=${4-3}
most=${5-4}
cc -O2 -o "$room/measure" "$here/measure.c"
tape "$pages" >"$room/tape"

# A crawl by so many workers in a new folder, with the words before the program.
crawl() {
    workers=$1
    shift
    rm -rf "$room/store"
    sync -f "$room"
    "$@" "$program" "$room/store" replay --delay 0 --workers "$workers" <"$room/tape" >"$room/report" || {
        echo "replay by $workers workers ended with $?" >&2
        exit 1
    }
    grep -qx "done $pages" "$room/report" || {
        echo "replay by $workers workers: $(grep '^done' "$room/report")" >&2
        exit 1
    }
}

: >"$room/times"
for _ in $(seq "$runs"); do
    for workers in 1 "$most"; do
        crawl "$workers" "$room/measure" "$room/took"
        echo "$workers $(cat "$room/took")" >>"$room/times"
    done
done
awk -v pages="$pages" -v most="$most" '
    { for (i = 2; i <= 4; i++) if (!(($1, i) in least) || $i < least[$1, i]) least[$1, i] = $i }
    function row(name, i) { printf "%-28s %10.2f %10.2f %8.2f\n", name, least[1, i], least[most, i], least[1, i] / least[most, i] }
    END {
        printf "%-28s %10s %10s %8s\n", pages " pages by workers", 1, most, "times"
        row("seconds", 2)
        row("cpu", 3)
        row("peak MiB", 4)
    }' "$room/times"

# The moments at which the main thread comes to functions of the crawl, and the calls that wait.
probes=/sys/kernel/tracing/uprobe_events
waits="-e syscalls:sys_enter_futex -e syscalls:sys_enter_sched_yield"
: >>"$probes" 2>/dev/null && perf stat -x, -o "$room/counts" $waits true 2>/dev/null || {
    echo "skip: perf isn't installed, or probes may not be set"
    exit 0
}
trap 'echo "-:irl_bench/" >>"$probes" 2>/dev/null; rm -rf "$room"' EXIT

# Where a function stands in the file of the program: each that has this name, as it may be compiled several times.
places() {
    nm "$program" | awk -v name="$1" 'index($0, name) { print $1 }' | while read -r address; do
        readelf -lW "$program" | awk -v address="$address" '
            function number(hex,   n, i) {
                for (i = 1; i <= length(hex); i++) n = 16 * n + index("0123456789abcdef", substr(hex, i, 1)) - 1
                return n
            }
            $1 == "LOAD" {
                place = number(address) - number(substr($3, 3))
                if (place >= 0 && place < number(substr($5, 3))) print place + number(substr($2, 3))
            }'
    done
}

events=
for name in hand=irl_crawl::dealing::hand_out settle=irl_crawl::turn::settle::; do
    count=0
    for place in $(places "${name#*=}"); do
        printf 'p:irl_bench/%s%d %s:0x%x\n' "${name%=*}" "$count" "$(realpath "$program")" "$place" >>"$probes"
        events="$events -e irl_bench:${name%=*}$count"
        count=$((count + 1))
    done
done
[ "$events" ] || {
    echo "skip: the program names none of its functions"
    exit 0
}
: >"$room/turns"
: >"$room/samples"
for _ in $(seq "$runs"); do
    for workers in 1 "$most"; do
        # shellcheck disable=SC2086
        crawl "$workers" perf record -q -N $events -o "$room/perf"
        perf script -i "$room/perf" -F pid,tid,time,event 2>/dev/null | sort -k 2,2n | awk -v workers="$workers" '
            / irl_bench:hand/ && !start { start = $2 + 0 }
            / irl_bench:settle/ && start { turns++; took += $2 - start; start = 0 }
            END { printf "%d %d %.4f", workers, turns, took }' >>"$room/turns"
        # shellcheck disable=SC2086
        crawl "$workers" perf stat -x, -o "$room/counts" $waits
        awk -F, '/sys_enter/ { printf " %d", $1 } END { print "" }' "$room/counts" >>"$room/turns"
        crawl "$workers" perf record -q -N -e cpu-clock -F 997 -o "$room/perf"
        perf script -i "$room/perf" -F pid,tid,ip,sym 2>/dev/null | awk -v workers="$workers" '
            {
                split($1, ids, "/")
                sub(/^[ 0-9\/]+[0-9a-f]+ /, "")
                print workers, ids[1] == ids[2], $0
            }' >>"$room/samples"
    done
done
awk -v most="$most" '
    { for (i = 3; i <= 5; i++) if (!(($1, i) in least) || $i < least[$1, i]) least[$1, i] = $i; turns[$1] = $2 }
    END {
        printf "%-28s %10.2f %10.2f %8.2f\n", turns[1] " turns, to their settling", least[1, 3], least[most, 3], least[1, 3] / least[most, 3]
        printf "%-28s %10d %10d\n", "waits and wakes for locks", least[1, 4], least[most, 4]
        printf "%-28s %10d %10d\n\n", "yields", least[1, 5], least[most, 5]
    }' "$room/turns"
awk -v most="$most" '
    {
        all[$1]++
        if (!$2) others[$1]++
        kind = "else"
        if (/malloc|cfree|realloc|calloc|_int_free|unlink_chunk|systrim|page_fault|clear_page|memcg|lll_lock/) kind = "memory"
        else if (/sha1::/) kind = "hashing"
        else if (/ url::|irl_key::|idna|percent/) kind = "URLs"
        else if (/irl_scan::|irl_answer::|memchr/) kind = "pages"
        else if (/irl_record::|irl_io::/) kind = "the tape"
        else if (/btree_map|irl_pld::|irl_ledger::|irl_frontier::|irl_fate::|irl_beast::|irl_star::/) kind = "tables of the crawl"
        else if (/irl_bay::|irl_merge::|irl_layout::|irl_journal::|irl_cache::|irl_log::|irl_yard::|irl_intake::|irl_array::/) kind = "the store"
        else if (/irl_fetch::|irl_polite::|irl_crawl::|irl_workers::|irl_lock::|atomic/) kind = "turns and fronts"
        else if (/memmove|memset|memcpy|memcmp/) kind = "copies"
        else if (/ irl_files::|_read|_write|_sync|vfs_|shmem|folio|copy_|rep_movs|do_syscall|entry_SYSCALL|spin_|sched|futex/) kind = "the system"
        of[$1, kind]++
        kinds[kind] += 1
    }
    END {
        printf "%-28s %10d %10d\n", "samples", all[1], all[most]
        printf "%-28s %9.1f%% %9.1f%%\n", "in other threads", 100 * others[1] / all[1], 100 * others[most] / all[most]
        for (kind in kinds) printf "%-28s %9.1f%% %9.1f%%\n", kind, 100 * of[1, kind] / all[1], 100 * of[most, kind] / all[most] | "sort -t% -k 1.30nr"
    }' "$room/samples"
