#!/bin/sh
# Crawls by several workers: what they come to is what one comes to, whatever the order of their fetches, also where runs are cut
# off by their page limit or killed.

. "$(dirname -- "$0")/common.sh"

# In memory where there is such a folder: a crawl syncs often.
if [ -w /dev/shm ]; then
    quick=$(mktemp -d -p /dev/shm) || exit 1
    trap 'rm -rf "$quick"; chmod -R u+rwx "$room"; rm -rf "$room"' EXIT
    cd "$quick" || exit 1
    tapes=200
else
    tapes=20
fi

# Writes a tape by chance: up to 7 hosts of up to 5 domains, some with robots files of each kind, and some pages on each host: with
# links, redirects, other statuses and lost ones.
chance_tape() {
    awk -v seed="$1" '
    function some(n) { return int(rand() * n) }
    function url() { return "http://h" some(hosts) ".d" some(domains) ".test/p" some(pages) }
    BEGIN {
        srand(seed)
        hosts = 1 + some(7); domains = 1 + some(5); pages = 3 + some(10)
        split("301 302 303 307 308", moves, " ")
        split("404 410 500 204 200", others, " ")
        print "suffix test"
        print "seed http://h0.d0.test/p0"
        for (i = 3 + some(9); i > 0; i--) print "seed " url()
        for (h = 0; h < hosts; h++) for (d = 0; d < domains; d++) {
            host = "http://h" h ".d" d ".test"
            kind = some(8)
            if (kind == 0) print "lost " host "/robots.txt"
            if (kind == 1) print "page 503 other " host "/robots.txt\nend"
            if (kind == 2) print "page 200 other " host "/robots.txt\n|User-agent: *\n|Disallow: /p1\nend"
            for (p = 0; p < pages; p++) {
                at = host "/p" p
                kind = some(10)
                if (kind == 0) print "lost " at
                else if (kind == 1) print "page " moves[1 + some(5)] " other " at "\nto " url() "\nend"
                else if (kind == 2) print "page " others[1 + some(5)] " html " at "\n|<a href=/p0>\nend"
                else if (kind < 9) {
                    print "page 200 html " at
                    for (k = some(8); k > 0; k--) print "|<a href=\"" url() "\">x</a>"
                    print "|end of page\nend"
                }
            }
        }
    }'
}

# Writes to a file what a store has come to: its report but for how often URLs were offered, and its URLs with what became of
# them, in order.
comes_to() {
    "$program" "$1" show >shown 2>err || fail "show ended with $?: $(cat err)"
    "$program" "$1" list >listed 2>err || fail "list ended with $?: $(cat err)"
    { grep -v -e '^offers' -e '^judged' shown && unnumbered <listed; } >"$2"
}

# How far the shell counts until the run that was just started prints its report or an error, at most so far.
count_to() {
    count=0
    until [ -s out ] || [ -s err ] || [ "$count" -ge "$1" ]; do
        count=$((count + 1))
    done
}

settings='--buckets 4 --array 3 --trigger 20 --base 2 --most 9 --batch 11 --delay 0'

# By several workers a tape is crawled whole, and in another folder by two runs that end by their page limit, one that is killed
# and one to the end. The kill comes at two to nine tenths of the time that the whole crawl took, as the shell counts it, so that
# most come while the run is under way, however fast the machine is. At a tenth of them at least it must have settled a turn.
try 'as one worker does' ''
seed=0
killed=0
amid=0
while [ "$seed" -lt "$tapes" ]; do
    seed=$((seed + 1))
    workers=$((2 + seed % 15))
    name="a tape by chance, number $seed, by $workers workers"
    chance_tape "$seed" >in
    rm -rf one several cut
    "$program" one replay $settings <in >out 2>err || fail "status $? of one worker: $(cat err)"
    comes_to one wanted
    : >out
    "$program" several replay $settings --workers "$workers" <in >out 2>err &
    count_to 100000000
    wait $! || fail "status $?: $(cat err)"
    comes_to several found
    same wanted found
    whole=$count
    for pages in 5 1; do
        "$program" cut replay $settings --workers "$workers" --pages $pages <in >out 2>err || fail "status $?: $(cat err)"
    done
    done=$(sed -n 's/^done //p' out)
    : >out
    "$program" cut replay $settings --workers "$workers" <in >out 2>err &
    run=$!
    count_to $((whole * (2 + seed % 8) / 10))
    kill -KILL "$run" 2>/dev/null
    wait "$run" 2>/dev/null
    status=$?
    "$program" cut list >cut-listed 2>err || fail "status $? of the list behind the kill: $(cat err)"
    if [ "$status" -eq 137 ]; then
        killed=$((killed + 1))
        [ "$(settled cut-listed | wc -l)" -le "$done" ] || amid=$((amid + 1))
    fi
    "$program" cut replay $settings --workers 3 <in >out 2>err || fail "status $?: $(cat err)"
    has err ''
    comes_to cut found
    same wanted found
    stays cut-listed listed
done
name='as one worker does'
[ $((10 * amid)) -ge "$tapes" ] || fail "of $tapes runs $killed were killed, and $amid of them amid their pages"
right

try 'a tape by 1, 2, 4 and 16 workers' ''
tape
text "$tape_listing" | unnumbered >wanted
for workers in 1 2 4 16; do
    "$program" "taped-$workers" replay --workers $workers <in >out 2>err
    gives 0 "$tape_report" ''
    "$program" "taped-$workers" list 2>err | unnumbered >found
    same wanted found
done
right

try 'one page and then all by 1, 2, 4 and 16 workers' ''
tape
for workers in 1 2 4 16; do
    "$program" "paged-$workers" replay --pages 1 --workers $workers <in >out 2>err
    gives 0 "$(report '5 5 4 1 3 0 0 0 1 1 0 0 0 0 0 0 0 0')" ''
    "$program" "paged-$workers" replay --workers $workers <in >out 2>err
    gives 0 "$(report '11 11 6 5 0 0 0 0 6 3 1 1 1 0 0 0 0 0')" ''
    "$program" "paged-$workers" list 2>err | unnumbered >found
    same wanted found
done
right

# As many workers as there may be, and more than there are hosts.
try 'a made-up site by 1, 2, 4, 16 and 64 workers' ''
awk 'BEGIN { for (i = 0; i < 2000; i++) print "page http://s" i % 16 ".test/p" i }' | LC_ALL=C sort >wanted
for workers in 1 2 4 16 64; do
    "$program" "made-$workers" gen 2000 --workers $workers --delay 0 <in >out 2>err
    gives 0 "$(report '4000 4000 2000 44 0 0 0 0 2000 2000 0 0 0 0 0 0 0 0')" ''
    "$program" "made-$workers" list 2>err | unnumbered >found
    same wanted found
done
right

# What the system refuses

# A made-up site by 16 workers gave what it should.
is_made() {
    gives 0 "$(report '4000 4000 2000 44 0 0 0 0 2000 2000 0 0 0 0 0 0 0 0')" ''
    "$program" "$1" list 2>err | unnumbered >found
    same wanted found
}

# The stack of a thread is as large as the system lets one grow, and more than there is room for: each worker works in the thread
# that is there.
try 'a system that makes no thread' ''
if (ulimit -s 1048576 && ulimit -v 524288) 2>/dev/null; then
    (ulimit -s 1048576 && ulimit -v 524288 && exec "$program" threadless gen 2000 --workers 16 --delay 0) <in >out 2>err
    is_made threadless
    right
else
    pass_over 'the limits can not be set'
fi

try 'a system with few open files' ''
(ulimit -n 12 && exec "$program" fewer gen 2000 --workers 16 --delay 0) <in >out 2>err
is_made fewer
right

# Some of the threads may find room for their stacks, and then none is left for what they fetch. A run does all or ends by that, and
# the next one goes on.
try 'a system with little memory' ''
for most in 14000 16000 25000 40000 60000 100000; do
    rm -rf little
    (ulimit -v "$most" && exec "$program" little gen 2000 --workers 16 --delay 0) <in >out 2>err
    status=$?
    case $status in
    0) is_made little ;;
    4 | 6 | 7)
        has out ''
        head -n 1 err | grep -Eqx 'disk fault|output fault|no memory' || fail "it told '$(tr '\n' '|' <err)' with $most KiB"
        "$program" little list >cut-listed 2>err || fail "status $? of the list behind $most KiB: $(cat err)"
        "$program" little gen 2000 --workers 16 --delay 0 <in >out 2>err || fail "status $? behind $most KiB: $(cat err)"
        comes_to little found
        { report '0 0 2000 44 0 0 0 0 2000 2000 0 0 0 0 0 0 0 0' | tr '|' '\n' | sed 1,2d && cat wanted; } >wanted-whole
        same wanted-whole found
        stays cut-listed listed
        ;;
    *) fail "status $status with $most KiB: $(cat err)" ;;
    esac
done
right

finish
