#!/bin/sh
# The launcher, where it is the built program that is run; and how it has the program proved, with a stand-in for `rt`.

. "$(dirname -- "$0")/common.sh"

if [ "$program" = "$top/crates/irl/out/irl" ]; then
    try 'the launcher through links' 'a|b|a|'
    mkdir bin
    ln -s "$top/irl" bin/whole
    ln -s ./whole bin/part
    "$top/irl" launched seen <in >out 2>err
    gives 0 'a|b|' ''
    bin/whole launched seen <in >out 2>err
    gives 0 '' ''
    PATH=$room/bin:$PATH part launched seen <in >out 2>err
    gives 0 '' ''
    reads_again launched 'a|b|c|' 'c|'
    right

    try 'the launcher with closed streams' 'a|'
    "$top/irl" launched-closed seen <in >&- 2>err
    gives 6 '' 'output fault|'
    : >err
    "$top/irl" launched-closed seen <&- >out 2>&-
    gives 0 '' ''
    reads_again launched-closed 'a|b|' 'b|'
    right
fi

# A tree of six crates, and an `rt` that notes its calls, and is right where the libraries below stand there.
tree() {
    rm -rf tree calls calls.nice bin
    mkdir -p tree bin
    cp "$top/irl" "$top/prove" tree/
    echo 'Handles allowed: none.' >tree/HANDLES
    cat >tree/crates.txt <<'CRATES'
# The lowest
low:
left: low
right: low memchr

high: left right # the highest library
irl: high low
other: right
CRATES
    for crate in low left right high irl other; do
        mkdir -p "tree/crates/$crate/src"
        echo '// A line.' >"tree/crates/$crate/src/lib.rt"
    done
    cat >bin/rt <<'RT'
#!/bin/sh
[ "$1" = lib ] || [ "$1" = run ] || exit 9
crate=$(basename "$PWD")
echo "$1 $crate" >>"$CALLS"
echo "$crate $(nice)" >>"$CALLS.nice"
for below in $(sed -n "s/#.*//; s/^$crate://p" ../../crates.txt); do
    [ ! -d "../$below" ] || [ -e "../$below/out/rlib/stamp" ] || exit 8
done
case $crate in
"$BROKEN")
    echo "error: $crate"
    exit 1
    ;;
"$SLOW")
    sleep 3
    mkdir -p out/rlib
    echo "$crate" >out/rlib/stamp
    ;;
"$ENDLESS")
    sleep 1000 &
    echo $! >"$CALLS.process"
    wait
    ;;
irl)
    mkdir -p out
    printf '#!/bin/sh\necho "it runs: $*"\n' >out/irl
    chmod +x out/irl
    ;;
*)
    mkdir -p out/rlib
    echo "$crate" >out/rlib/stamp
    ;;
esac
RT
    chmod +x bin/rt
}

# The launcher of that tree, by that `rt`; its copies of the tree lie in a folder of their own, which is empty in the end.
launched() {
    mkdir -p rooms
    CALLS=$room/calls BROKEN=${1-} ENDLESS=${2-} SLOW=${3-} TMPDIR=$room/rooms PATH=$room/bin:$PATH tree/irl one two <in >out 2>err
}

# The call before has run the program.
runs() {
    status=$?
    [ "$status" -eq 0 ] || fail "status $status, and not 0: $(tr '\n' '|' <err)"
    has out 'it runs: one two|'
}

try 'the program is proved from its lowest library up' ''
tree
launched
runs
[ "$(grep -c '^irl: [1-5] of 5: ' err)" -eq 5 ] || fail "it told '$(tr '\n' '|' <err)'"
[ "$(sort calls | tr '\n' '|')" = 'lib high|lib left|lib low|lib right|run irl|' ] || fail "it called '$(tr '\n' '|' <calls)'"
[ -z "$(ls rooms)" ] || fail 'copies of the tree are left'
: >calls
launched
gives 0 'it runs: one two|' ''
has calls ''
right

try 'a library gives way to those of the longest chain' ''
if [ "$(getconf _NPROCESSORS_ONLN)" -gt 1 ] && awk '/^MemAvailable:/ { exit $2 < 6000000 }' /proc/meminfo; then
    tree
    yes '// A line.' | head -n 17501 >tree/crates/left/src/lib.rt
    launched '' '' left
    runs
    nice=$(nice)
    has calls.nice "low $nice|left $nice|right 19|high $nice|irl $nice|"
    right
else
    pass_over 'there is one processor, or little memory'
fi

try 'a library that is not proved' ''
tree
launched high
status=$?
[ "$status" -eq 127 ] || fail "status $status, and not 127"
[ "$(tail -n 2 err | tr '\n' '|')" = 'error: high|irl: high was not proved|' ] || fail "it told '$(tr '\n' '|' <err)'"
for crate in low left right; do
    [ -e "tree/crates/$crate/out/rlib/stamp" ] || fail "what was proved of $crate is lost"
done
[ -z "$(ls rooms)" ] || fail 'copies of the tree are left'
launched
runs
right

try 'a proof that is interrupted' ''
tree
launched '' right &
call=$!
for _ in $(seq 100); do
    [ ! -s calls.process ] || break
    sleep 0.1
done
pkill -TERM -f "^/bin/sh $room/tree/prove"
wait "$call"
status=$?
[ "$status" -eq 127 ] || fail "status $status, and not 127"
for _ in $(seq 50); do
    kill -0 "$(cat calls.process)" 2>/dev/null || break
    sleep 0.1
done
! kill -0 "$(cat calls.process)" 2>/dev/null || fail 'a check still runs'
[ -z "$(ls rooms)" ] || fail 'copies of the tree are left'
right

finish
