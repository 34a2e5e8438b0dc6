#!/bin/sh
# Words of the command line.

. "$(dirname -- "$0")/common.sh"

# The words behind the first one are refused with that one.
refuses() {
    refused=$1
    shift
    "$program" unmade "$@" <in >out 2>err
    gives 1 '' "words refused: $refused|"
}

# Each line is refused that has a word, and behind it the words that are refused with it.
refuse() {
    while read -r refused words; do
        refuses "$refused" $words
    done
}

# These words make a new store, with these settings in its head: its kind, its rule, and the numbers in the order of their options.
settles() {
    settings=$1
    shift
    rm -rf made
    "$program" made "$@" </dev/null >out 2>err || fail "status $? of $*"
    od -An -v -tu1 -j 17 -N 88 made/0000 | awk '
        { for (i = 1; i <= NF; i++) byte[count++] = $i }
        END {
            for (at = 0; at < count; at += 8) {
                number = 0
                for (i = 7; i >= 0; i--) number = number * 256 + byte[at + i]
                printf "%s%.0f", (at ? " " : ""), number
            }
            print ""
        }' >settings
    has settings "$settings|"
}

try 'the help' ''
"$program" --help >out 2>err
[ "$(head -n 1 out)" = 'Usage: irl DIR COMMAND [OPTIONS]' ] || fail 'the first line is another'
mv out help
"$program" -h >out 2>err
gives 0 "$(tr '\n' '|' <help)" ''
"$program" --help >&- 2>err
status=$?
[ "$status" -eq 6 ] || fail "status $status over a closed output, and not 6"
has err 'output fault|'
right

try 'the help of a command' ''
"$program" unmade seen --help >out 2>err
grep -qF 'irl DIR seen [OPTIONS]' out || fail 'the help has no usage'
mv out help
"$program" unmade seen -h >out 2>err
gives 0 "$(tr '\n' '|' <help)" ''
for command in show list; do
    "$program" unmade "$command" --help >out 2>err
    grep -qxF "Usage: irl DIR $command" out || fail "the help of $command has no usage"
    [ "$(grep -c '^ *\$ ' out)" -ge 2 ] || fail "the help of $command has no examples"
    if awk 'length > 100' out | grep -q .; then fail "the help of $command has long lines"; fi
done
"$program" unmade crawl --help >out 2>err
grep -qxF 'Usage: irl DIR crawl --port N [OPTIONS]' out || fail 'the help of crawl has no usage'
grep -qF '127.0.0.1' out || fail 'the help of crawl does not say where it looks'
"$program" unmade gen -h >out 2>err
grep -qxF 'Usage: irl DIR gen N [OPTIONS]' out || fail 'the help of gen has no usage'
is_absent unmade
right

# What the help of a command has, and what it hasn't: a text a line.
helps() {
    "$program" unmade "$1" "$2" >out 2>err
    status=$?
    [ "$status" -eq 0 ] || fail "status $status of $1 $2"
    while read -r part; do
        grep -qF -e "$part" out || fail "the help of $1 has no '$part'"
    done
    if grep -qF -e "$3" out; then fail "the help of $1 has '$3'"; fi
}

try 'what the help of each command has' ''
helps seen --help --rule <<'PARTS'
irl DIR seen [OPTIONS]
--cap <N>
Exit status: 0 done
PARTS
helps drum -h 'DIR seen' <<'PARTS'
irl DIR drum [OPTIONS]
--cap <N>
--rule <RULE>
b 1f 7 first
PARTS
helps replay --help --rule <<'PARTS'
irl DIR replay [OPTIONS]
--cap <N>
--ranks <N>
--batch <N>
--agent <NAME>
|<a href="/x">x</a>
2 a line refused
PARTS
helps crawl --help --rule <<'PARTS'
irl DIR crawl --port N [OPTIONS]
at 127.0.0.1 on the
--port <N>
--agent <NAME>
2 a line refused
PARTS
helps gen -h '2 a line refused' <<'PARTS'
irl DIR gen N [OPTIONS]
<N>
--cap <N>
pairs 44
PARTS
helps show --help '2 a line refused' <<'PARTS'
irl DIR show
fresh 2
Exit status: 0 done
PARTS
helps list -h 'a new store gets' <<'PARTS'
irl DIR list
2 fresh b
Exit status: 0 done
PARTS
"$program" unmade drum -h x >out 2>err
grep -qF 'irl DIR drum [OPTIONS]' out || fail 'there is no help where a word stands behind -h'
is_absent unmade
right

# Each line has the word with which the words behind it are refused. No store is made by any.
try 'words that are refused' 'a|'
refuse <<'ROWS'
-
Seen Seen
show show --buckets 4
show show list
list list --port 80
list list list
list list list --help
List List
--buckets --buckets 4 seen
--help --help
seen seen x
seen seen -- x
seen seen seen
seen seen --version
seen seen --buckets
seen seen --buckets --array 1
seen seen --bucket 4
seen seen --buckets 4 5
seen seen --buckets 4 --buckets 4
seen seen --rule add
seen seen --agent x
seen seen --array -1
seen seen --array=-1
seen seen --array=
seen seen --array ++1
seen seen --array 0x1
seen seen --array 18446744073709551617
seen seen --buckets 3 x
--buckets seen --buckets 3
--buckets drum --buckets 63 --rule add
drum drum --rule
drum drum --rule Keep
drum drum --rule subtract --buckets 3
drum drum --rule add --rule add
drum drum seen
drum drum --rule=
seen seen --array 1 --help
seen seen --array 1 -h
seen seen --array=1 --array 2
seen seen -- --array 1
seen seen -a 1
seen seen --ARRAY 1
seen seen --buckets 3 --array 0
seen seen --array +
seen seen --array 1_000
seen seen --most 5
ROWS
refuses '' ''
refuses show show ''
refuses seen seen ''
refuses seen seen --array ''
refuses seen seen --array '1 '
refuses drum drum --rule ''
is_absent unmade
right

# A name of 65 letters, which is no agent's, and one of 64.
long=abcdefghijklmnopqrstuvwxyzabcdefghijklmnopqrstuvwxyz-_abcdefghijk
longest=abcdefghijklmnopqrstuvwxyzABCDEFGHIJKLMNOPQRSTUVWXYZ-_abcdefghij

try 'words of a crawl that are refused' 'seed http://a.test/|'
refuse <<ROWS
Replay Replay
replay replay x
replay replay --port 80
replay replay --rule add
replay replay --agent
replay replay --agent a --agent a
replay replay --workers 2 --workers 2
--agent replay --agent=
--agent replay --agent irl2
--agent replay --agent $(printf 'irlb\303\266t')
--agent replay --agent $long
replay replay --workers 0
replay replay --workers=65
replay replay --workers 2 --agent 1 --most 1 --base 2 --buckets 3 --pages 0
--buckets replay --workers 2 --agent 1 --most 1 --base 2 --buckets 3
--most replay --workers 2 --agent 1 --most 1 --base 2
--agent replay --workers 2 --agent 1
--most replay --base 1000000 --most 999999
Crawl Crawl
crawl crawl --port 80 --help
crawl crawl --port 80 --rule add
crawl crawl --port 80 --workers 65
crawl crawl --buckets 3
--buckets crawl --port 80 --buckets 3
--most crawl --base 2 --most 1 --port 80
--agent crawl --agent 1 --workers 2 --port 80
crawl crawl --port 80 --workers 0
Gen Gen 5
gen gen 5 --help
gen gen 100001 --workers 2
gen gen --workers 2
--agent gen --agent= 5
gen gen 5 --workers 65
ROWS
refuses --agent replay --agent ''
refuses --agent replay --agent 'irl bot'
is_absent unmade
right

# A crawl of this machine has to have a port, and one of a made-up site its number of pages. What is taken is refused with the word of
# --buckets, since that comes behind the numbers.
try 'ports and numbers of pages' ''
refuse <<'ROWS'
crawl crawl
crawl crawl 80
crawl crawl --port
crawl crawl --port 0
--buckets crawl --port 1 --buckets 3
--buckets crawl --port 65535 --buckets 3
crawl crawl --port 65536
crawl crawl --port -80
crawl crawl --port=-80
--buckets crawl --port=+80 --buckets 3
--buckets crawl --port 0080 --buckets 3
--buckets crawl --delay 0 --port 80 --buckets 3
crawl crawl --port 80 --port 80
crawl crawl --port 80 x
--buckets crawl --port 80 --buckets 3 --
crawl crawl -- --port 80
gen gen
gen gen 0
--buckets gen 1 --buckets 3
--buckets gen 100000 --buckets 3
gen gen 100001
--buckets gen +5 --buckets 3
--buckets gen 005 --buckets 3
gen gen -5
gen gen x
gen gen 5 6
gen gen --size 5
gen gen 5 --port 80
gen gen --pages 5
--buckets gen --pages 7 5 --buckets 3
--buckets gen 5 --pages 7 --buckets 3
--buckets gen --buckets 3 -- 5
--buckets gen 5 --buckets 3 --
ROWS
refuses crawl crawl --port ''
refuses gen gen ''
is_absent unmade
for words in +5 005 '--pages 7 5' '5 --pages 7' '-- 5' '5 --'; do
    rm -rf made
    "$program" made gen $words >out 2>err || fail "status $? of $words"
    grep -qx 'unique 5' out || fail "gen $words has another number of pages"
done
right

# Each option of a number, the commands that have it, one number below the least that it takes, the least, the greatest, and one
# above it. What is taken is refused with a later word.
try 'the ranges of numbers' ''
while read -r option commands below least greatest above; do
    for command in seen drum replay; do
        refuses "$command" "$command" "$option" "$below"
        refuses "$command" "$command" "$option" "$above"
        for number in "$least" "$greatest"; do
            case $commands-$command in
            crawls-seen | crawls-drum) refuses "$command" "$command" "$option" "$number" ;;
            *) refuses --buckets "$command" "$option" "$number" --buckets 3 ;;
            esac
        done
    done
done <<'ROWS'
--array all 0 1 8192 8193
--trigger all 0 1 1048576 1048577
--block all 0 1 65536 65537
--cap all 0 1 1099511627776 1099511627777
--queues crawls 0 1 64 65
--base crawls 0 1 1000000 1000001
--most crawls 0 1 1000000 1000001
--ranks crawls 0 1 1000000 1000001
--workers crawls 0 1 64 65
--delay crawls -1 0 86399999 86400000
--pages crawls 0 1 4294967295 4294967296
--batch crawls 0 1 16384 16385
ROWS
for command in seen drum replay; do
    refuses "$command" "$command" --buckets 0
    refuses "$command" "$command" --buckets 65
done
is_absent unmade
right

try 'a thousand words' ''
set --
while [ "$#" -lt 1000 ]; do
    set -- "$@" --array=1
done
refuses seen seen "$@"
is_absent unmade
right

# Of an option that isn't named a new store has the default.
try 'settings that are asked' ''
rest='1024 16384 4096 1099511627776 2 10 10000 10000'
settles "1 0 16 $rest" seen
settles "1 0 16 $rest" seen --
settles "2 0 16 $rest" drum
for command in seen drum replay; do
    for buckets in 1 64; do
        rm -rf made
        "$program" made "$command" --buckets "$buckets" <in >out 2>err || fail "status $? of $command"
        kept=$(od -An -tu1 -j 33 -N 1 made/0000)
        [ $kept = "$buckets" ] || fail "$command kept $kept buckets, and not $buckets"
    done
done
settles "2 0 1 $rest" drum --buckets=1
settles "1 0 64 $rest" seen --buckets 64
settles "2 0 16 $rest" drum --rule keep
settles "2 1 16 $rest" drum --rule=replace
settles "2 2 16 $rest" drum --rule add
rest='16384 4096 1099511627776 2 10 10000 10000'
settles "1 0 16 5 $rest" seen --array +5
settles "1 0 16 5 $rest" seen --array 005
settles "1 0 16 5 $rest" seen --array=+005 --
settles '1 0 4 6 7 8 9 2 10 10000 10000' seen --cap 9 --block 8 --trigger 7 --array 6 --buckets 4
settles '2 2 2 8192 1048576 65536 1099511627776 2 10 10000 10000' \
    drum --rule=add --buckets=2 --array=8192 --trigger=1048576 --block=65536 --cap=1099511627776
for words in replay 'crawl --port 80' 'gen 1'; do
    settles '3 0 16 1024 16384 4096 1099511627776 2 10 10000 10000' $words
    settles '3 0 16 1024 16384 4096 1099511627776 2 7 7 10000' $words --most 7 --base 7 --agent -
    settles '3 0 16 1024 16384 4096 1099511627776 2 10 10000 10000' $words --agent "$longest" --batch=16384 --pages=4294967295 \
        --delay=86399999 --workers=+64
    settles '3 0 1 2 3 4 5 6 7 8 9' $words --buckets=1 --array=2 --trigger=3 --block=4 --cap=5 --queues=6 --base=7 --most=8 \
        --ranks=9 --workers=2 --delay=10 --pages=11 --batch=12 --agent=Foo-bot
    refuses --most $words --base 10001 --workers 1
    refuses --most $words --most=9 --delay=0 --agent=_
done
is_absent unmade
right

# There may be 1 to 64 of them, said once, and what doesn't crawl has none.
try 'numbers of workers that are refused' ''
for command in 'crawl --port 80' replay 'gen 5'; do
    for words in '--workers 0' '--workers 65' '--workers=-1' '--workers x' '--workers=' '--workers' '--workers 2 --workers 2' \
        '--workers=2 --workers=3' '--workers 18446744073709551617' '--worker 2'; do
        "$program" unmade $command $words <in >out 2>err
        gives 1 '' "words refused: ${command%% *}|"
    done
done
for command in seen drum show list; do
    "$program" unmade "$command" --workers 2 <in >out 2>err
    gives 1 '' "words refused: $command|"
done
is_absent unmade
right

try 'options that a crawl refuses' 'seed http://a.test/|'
for command in 'crawl --port 80' 'gen 5'; do
    "$program" unmade $command --workers 2 --agent 1 --most 1 --base 2 --buckets 3 <in >out 2>err
    gives 1 '' 'words refused: --buckets|'
    "$program" unmade $command --workers 2 --agent 1 --most 1 --base 2 <in >out 2>err
    gives 1 '' 'words refused: --most|'
    "$program" unmade $command --workers 2 --agent 1 <in >out 2>err
    gives 1 '' 'words refused: --agent|'
done
is_absent unmade
right

# What looks at a store has no options, and is refused where one is given.
try 'words that a look does not take' ''
for command in show list; do
    for word in --buckets=4 --rule x "$command" --help; do
        "$program" unmade "$command" -- "$word" >out 2>err
        gives 1 '' "words refused: $command|"
    done
    "$program" unmade "$command" --buckets 4 >out 2>err
    gives 1 '' "words refused: $command|"
    "$program" unmade "$command" -- >out 2>err
    status=$?
    [ "$status" -eq 0 ] || fail "status $status, and not 0"
done
is_absent unmade
right

try 'no word' ''
"$program" >out 2>err
gives 1 '' 'words refused: -|'
right

try 'an empty folder word' 'a|'
mkdir inside
(cd inside && exec "$program" '' seen <../in >../out 2>../err)
gives 1 '' 'words refused: -|'
rmdir inside || fail 'a file was made in the current folder'
right

try 'a folder word that begins with -' 'a|'
"$program" -x seen <in >out 2>err
gives 1 '' 'words refused: -x|'
is_absent -x
"$program" -- plain seen <in >out 2>err
gives 1 '' 'words refused: --|'
"$program" ./-x seen <in >out 2>err
gives 0 'a|' ''
[ -f ./-x/0000 ] || fail 'the folder ./-x was not made'
reads_again ./-x 'a|b|' 'b|'
right

# What is tried first: the words the other way round, the input as a word, as other filters take it, and a command's help without
# the command. No store is made by any of them.
try 'words in other places' 'a|'
"$program" seen unmade <in >out 2>err
gives 1 '' 'words refused: unmade|'
is_absent seen
"$program" unmade <in >out 2>err
gives 1 '' 'words refused: -|'
"$program" unmade seen in <in >out 2>err
gives 1 '' 'words refused: seen|'
"$program" unmade --buckets 1 seen <in >out 2>err
gives 1 '' 'words refused: --buckets|'
for word in SEEN --help help ''; do
    "$program" unmade "$word" <in >out 2>err
    gives 1 '' "words refused: $word|"
done
is_absent unmade
"$program" --version <in >out 2>err
gives 0 'irl 0.1.0|' ''
right

try 'a word that is no command' 'a|'
"$program" unmade sene <in >out 2>err
gives 1 '' 'words refused: sene|'
is_absent unmade
right

try 'a word that is not UTF-8' 'a|'
"$program" "$(printf 'un\377made')" seen <in >out 2>err
gives 1 '' 'words refused: -|'
is_absent "$(printf 'un\377made')"
right

finish
