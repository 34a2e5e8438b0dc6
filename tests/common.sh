# What each file of cases begins with. A file is a script that runs the built program, or the one that its first word names, in
# a folder of its own. A line says how each case went; the first wrong one ends the file, with status 1.

exec </dev/null
top=$(CDPATH='' cd -- "$(dirname -- "$0")/.." && pwd -P) || exit 1
program=${1-$top/crates/irl/out/irl}
case $program in
/*) ;;
*) program=$PWD/$program ;;
esac
room=$(mktemp -d) || exit 1
trap 'chmod -R u+rwx "$room"; rm -rf "$room"' EXIT
trap 'exit 1' HUP INT TERM
cd "$room" || exit 1
passed=0

# Ends with the first wrong case: says what differs.
fail() {
    printf 'FAIL %s: %s\n' "$name" "$1"
    printf '%s passed, 1 failed\n' "$passed"
    exit 1
}

# The lines of a text that has `|` for each LF.
text() {
    printf '%s' "$1" | tr '|' '\n'
}

# Whether a file has these lines.
has() {
    text "$2" | cmp -s - "$1" || fail "file $1 has '$(head -c 300 "$1" | tr '\n' '|')', and not '$2'"
}

# Begins a case: its name, and its standard input.
try() {
    name=$1
    text "$2" >in
    : >out
    : >err
}

# What the call before has given: its status, its output and its error lines.
gives() {
    status=$?
    [ "$status" -eq "$1" ] || fail "status $status, and not $1"
    has out "$2"
    has err "$3"
}

# The store reads again: of these lines it prints those that it should not have yet.
reads_again() {
    text "$2" >again-in
    "$program" "$1" seen <again-in >again-out 2>again-err || fail "status $? where it is read again: $(cat again-err)"
    has again-out "$3"
    has again-err ''
}

# The call before, whose status is kept, ended with status 4, and tells of a file of this folder and this error of the system.
tells_fault() {
    [ "$status" -eq 4 ] || fail "status $status, and not 4"
    sed -n 2p err | grep -Eq "^irl: [a-z]+ of $1/[0-9]{4}: .* \\(os error $2\\)\$" || fail "it told '$(tr '\n' '|' <err)'"
    [ "$(head -n 1 err) $(wc -l <err)" = 'disk fault 2' ] || fail "it told '$(tr '\n' '|' <err)'"
}

# A report, of the numbers of its 18 lines.
report() {
    set -- $1
    for line in offers judged unique pairs fresh queued last front done page moved status denied shut lost bad large coded; do
        printf '%s %s|' "$line" "$1"
        shift
    done
}

# A tape of six URLs, one that a robots file denies and one that leads elsewhere among them; its report, and its list in a store of
# one bucket.
tape() {
    cat >in <<'TAPE'
suffix test
seed http://www.a.test/
page 200 other http://www.a.test/robots.txt
|User-agent: *
|Disallow: /private
end
page 200 html http://www.a.test/
|<a href="/one">1</a>
|<a href="/private/x">2</a>
|<a href="http://b.test/">3</a>
|<a href="/one#top">4</a>
end
page 301 other http://www.a.test/one
to http://c.test/new
end
page 200 html http://b.test/
|<a href="http://www.a.test/">a</a>
|<a href="http://c.test/new">c</a>
|<a href="https://c.test/secure">s</a>
|<a href="/gone">g</a>
end
page 200 html http://c.test/new
|<a href="http://b.test/">b</a>
end
# these are not linked
page 200 other http://c.test/old
|old
end
lost http://c.test/lost
page 204 other http://c.test/none
end
TAPE
}
tape_report=$(report '10 10 6 5 0 0 0 0 6 3 1 1 1 0 0 0 0 0')
tape_listing='0 page http://www.a.test/|1 moved http://www.a.test/one|2 denied:2 http://www.a.test/private/x|3 page http://b.test/|5 page http://c.test/new|8 status:404 http://b.test/gone|'

# The lines of a list without their numbers, sorted.
unnumbered() {
    cut -d ' ' -f 2- | LC_ALL=C sort
}

# The lines of a list with what is done: its number, what came of it, and its URL.
settled() {
    grep -Ev '^[0-9]+ (fresh|front|last|queue:[0-9]+) ' "$1" | LC_ALL=C sort
}

# What stood in an earlier list stands in a later one: what was done, and each URL under its number.
stays() {
    settled "$2" >later
    settled "$1" | LC_ALL=C comm -23 - later >left-out
    has left-out ''
    cut -d ' ' -f 1,3 "$2" | LC_ALL=C sort >later
    cut -d ' ' -f 1,3 "$1" | LC_ALL=C sort | LC_ALL=C comm -23 - later >left-out
    has left-out ''
}

# Whether two files have the same lines.
same() {
    cmp -s "$1" "$2" || fail "$1 and $2 differ: $(diff "$1" "$2" | head -n 20 | tr '\n' '|')"
}

# Ends a case that is right.
right() {
    passed=$((passed + 1))
    printf 'ok %s\n' "$name"
}

# Passes a case over, and says why.
pass_over() {
    printf 'skip %s: %s\n' "$name" "$1"
}

# Ends a file of which all cases are right.
finish() {
    printf '%s passed, 0 failed\n' "$passed"
}

# Nothing of this name was made.
is_absent() {
    [ ! -e "$1" ] || fail "$1 was made"
}

[ -x "$program" ] || {
    name=program
    fail "there is no program $program: rt ci or a first call of ./irl builds it"
}
