#!/bin/sh
# Memory that is refused: whichever call for it is, the run ends by that, and a later one goes on. The second word says how many calls
# lie between two that are tried, 13 where it isn't there; with 1 each call is tried.

. "$(dirname -- "$0")/common.sh"

between=${2-13}
name='memory that is refused'
if ! cc -O2 -shared -fPIC -o refuse.so "$top/tests/refuse.c" -ldl 2>cc-err; then
    pass_over "$name" 'no cc builds a library here'
    finish
    exit
fi

# In memory where there is such a folder: a crawl syncs often.
if [ -w /dev/shm ]; then
    quick=$(mktemp -d -p /dev/shm) || exit 1
    trap 'rm -rf "$quick"; chmod -R u+rwx "$room"; rm -rf "$room"' EXIT
    mv refuse.so "$quick/refuse.so"
    cd "$quick" || exit 1
fi

settings='--buckets 4 --array 3 --trigger 20 --base 2 --most 9 --batch 11 --delay 0'

# Of a run that lacks memory the status is 7, or that of the folder or the output, whose own lack is a fault of theirs; or the run
# did without.
ends_so() {
    case $status in
    0) has err '' ;;
    4) head -n 1 err >line && has line 'disk fault|' ;;
    6) has err 'output fault|' ;;
    7) has err 'no memory|' ;;
    *) fail "call $call refused: status $status: $(cat err)" ;;
    esac
}

for workers in 1 4; do
    try "memory refused to a crawl by $workers workers, at every call number $between" ''
    call=1
    while :; do
        rm -rf made mark
        REFUSE=$call REFUSED=mark LD_PRELOAD=./refuse.so "$program" made gen 40 $settings --workers $workers >out 2>err <in
        status=$?
        [ -e mark ] || break
        ends_so
        "$program" made gen 40 $settings >out 2>err <in || fail "after call $call: status $?: $(cat err)"
        grep -e '^unique ' -e '^fresh ' -e '^queued ' -e '^last ' -e '^front ' -e '^done ' -e '^page ' out >line
        has line 'unique 40|fresh 0|queued 0|last 0|front 0|done 40|page 40|'
        call=$((call + between))
    done
    [ "$call" -gt 2000 ] || fail "only $call calls for memory were seen"
    right
done

# Lines, of which a first run printed some, and the next prints each of the others once.
try "memory refused to seen, at every call number $between" ''
awk 'BEGIN { for (i = 0; i < 300; i++) print "line " i % 200 }' >in
LC_ALL=C sort -u in >wanted
call=1
while :; do
    rm -rf lines mark
    REFUSE=$call REFUSED=mark LD_PRELOAD=./refuse.so "$program" lines seen --buckets 4 --array 3 --trigger 20 <in >out 2>err
    status=$?
    [ -e mark ] || break
    ends_so
    "$program" lines seen <in >more 2>err || fail "after call $call: status $?: $(cat err)"
    cat out more | LC_ALL=C sort | uniq -d >line
    has line ''
    cat out more | LC_ALL=C sort | comm -13 wanted - >line
    has line ''
    "$program" lines list >listed 2>err || fail "after call $call: status $? of list: $(cat err)"
    cut -d ' ' -f 3- listed | LC_ALL=C sort | cmp -s - wanted || fail "after call $call: list has $(wc -l <listed) lines"
    call=$((call + between))
done
[ "$call" -gt 300 ] || fail "only $call calls for memory were seen"
right

finish
