#!/bin/sh
# Two programs on one folder, and a disk that is full or may only be read: what status 4 tells.

. "$(dirname -- "$0")/common.sh"
trap 'umount disk 2>/dev/null; chmod -R u+rwx "$room"; rm -rf "$room"' EXIT

# The files of a store.
list() {
    ls -l "$1"/[0-9]* 2>&1
}

# Waits until a store has other files than those that were listed; ends the case where it never has.
waits_for() {
    tries=0
    while [ "$(list "$1")" = "$listed" ]; do
        tries=$((tries + 1))
        [ "$tries" -lt 600 ] || fail "the first program changed nothing in $1"
        sleep 0.1
    done
}

# A program takes lines from a pipe into this folder and holds it; a second one is told so. The first one's new lines are these.
holds() {
    mkfifo feed
    listed=$(list "$1")
    "$program" "$1" seen --buckets 1 --array 1 <feed >first-out 2>first-err &
    first=$!
    exec 3>feed
    text "$2" >&3
    waits_for "$1"
    text 'other|' >in
    "$program" "$1" seen <in >out 2>err
    gives 4 '' "disk fault|irl: $1 is in use by another program|"
    exec 3>&-
    wait "$first"
    status=$?
    [ "$status" -eq 0 ] || fail "the first program ended with status $status: $(cat first-err)"
    sort first-out >sorted
    has sorted "$3"
    has first-err ''
    rm feed
}

try 'a folder that another program has' ''
holds new 'a|b|' 'a|b|'
reads_again new 'a|b|other|' 'other|'
holds new 'b|c|d|' 'c|d|'
reads_again new 'a|b|c|d|e|' 'e|'
right

# Of two programs that begin at once on a folder that isn't there one is told, or they run one behind the other. What was
# printed is remembered.
try 'pairs of programs on new folders' ''
pair=0
while [ "$pair" -lt 40 ]; do
    folder=pair-$pair
    text 'a|b|' | "$program" "$folder" seen >left-out 2>left-err &
    left=$!
    text 'b|c|' | "$program" "$folder" seen >right-out 2>right-err
    ends=$?
    wait "$left"
    ends="$? $ends"
    case $ends in
    '0 0') told= ;;
    '0 4' | '4 0') told="disk fault|irl: $folder is in use by another program|" ;;
    *) fail "pair $pair ended with $ends" ;;
    esac
    cat left-err right-err >err
    has err "$told"
    sort left-out right-out >out
    sort -u left-out right-out | cmp -s - out || fail "pair $pair printed a line twice"
    "$program" "$folder" seen <out >again 2>err || fail "status $? where pair $pair is read again: $(cat err)"
    has again ''
    pair=$((pair + 1))
done
right

# The lines of a run that found it full, and those of a run where it has room, are different, and then all are remembered.
goes_on() {
    mv out full-out
    "$program" "$1" seen <in >out 2>err || fail "status $? where there is room again: $(cat err)"
    has err ''
    sort full-out out | uniq -d >twice
    has twice ''
    "$program" "$1" seen <in >out 2>err
    gives 0 '' ''
}

long=$(head -c 2000 /dev/zero | tr '\0' x)
i=0
while [ "$i" -lt 200 ]; do
    printf '%s%s\n' "$i" "$long"
    i=$((i + 1))
done >many

try 'a file that may not grow' ''
cp many in
{
    (
        trap '' XFSZ
        ulimit -f 16
        exec "$program" bounded seen --buckets 1 --array 8 --trigger 16 <in 2>err
    )
    printf '%s\n' "$?" >status
} | cat >out
status=$(cat status)
tells_fault bounded 27
goes_on bounded
right

try 'a full disk' ''
cp many in
mkdir disk
if mount -t tmpfs -o size=128k tmpfs disk 2>/dev/null; then
    "$program" disk/store seen --buckets 1 --array 8 --trigger 16 <in >out 2>err
    status=$?
    mount -o remount,size=16m disk || fail 'the disk did not get room'
    tells_fault disk/store 28
    goes_on disk/store
    umount disk
    right
else
    pass_over 'no small disk can be mounted here'
fi

# A store on a disk that may only be read, a backup say, is opened, and says what is missing once a line is to be kept.
try 'a disk that may only be read' 'a|'
if mount -t tmpfs -o size=16m tmpfs disk 2>/dev/null; then
    "$program" disk/store seen <in >out 2>err
    gives 0 'a|' ''
    mount -o remount,ro disk || fail 'the disk may still be written'
    "$program" disk/store seen </dev/null >out 2>err
    gives 0 '' ''
    "$program" disk/store seen <in >out 2>err
    status=$?
    has out ''
    tells_fault disk/store 30
    mount -o remount,rw disk || fail 'the disk may not be written again'
    reads_again disk/store 'a|b|' 'b|'
    umount disk
    right
else
    pass_over 'no disk can be mounted here'
fi

finish
