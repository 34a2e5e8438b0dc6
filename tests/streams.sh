#!/bin/sh
# The standard streams: closed, full, broken, and a folder.

. "$(dirname -- "$0")/common.sh"

try 'the new lines of an input' 'a|b|a|'
"$program" plain seen <in >out 2>err
gives 0 'a|b|' ''
reads_again plain 'b|a|c|' 'c|'
right

# Files of other systems and other programs: lines are kept byte by byte, so one with a CR is another line, one behind the last
# LF counts, and a line may have any bytes and 2,048 of them.
try 'lines of any bytes' ''
long=$(head -c 2048 /dev/zero | tr '\0' x)
printf 'a\r\na\n\n \n\0b\n\377\n%s\na\nz' "$long" >in
printf 'a\r\na\n \n\0b\n\377\n%s\nz\n' "$long" >expected
"$program" bytes seen --buckets 1 <in >out 2>err
status=$?
[ "$status" -eq 0 ] || fail "status $status, and not 0"
cmp -s expected out || fail 'the output has other bytes'
has err ''
"$program" bytes seen <expected >out 2>err
gives 0 '' ''
printf 'z\n%sx\ny\n' "$long" >in
"$program" bytes seen <in >out 2>err
gives 2 '' 'line 2 refused|'
right

try 'the longest line' ''
head -c 2048 /dev/zero | tr '\0' x >in
{ cat in && echo; } >expected
"$program" longest seen <in >out 2>err || fail "status $?, and not 0"
same expected out
has err ''
printf x >>in
: >out
"$program" too-long seen <in >out 2>err
gives 2 '' 'line 1 refused|'
right

# Twenty lines, and the first ten of them again: sixteen flushes and six merges, by the rules of the schedule. A store of one bucket
# judges in the order of the input.
try 'merges in the order of the schedule' ''
awk 'BEGIN { for (i = 0; i < 30; i++) print "l" i % 20 }' >in
"$program" two-buckets seen --buckets=2 --array=2 --trigger=3 <in >out 2>err
gives 0 'l1|l5|l0|l2|l3|l4|l7|l8|l9|l10|l11|l12|l14|l15|l6|l13|l17|l19|l16|l18|' ''
"$program" two-buckets seen --buckets=2 --array=2 --trigger=3 <in >out 2>err
gives 0 '' ''
"$program" one-bucket seen --buckets=1 --array=2 --trigger=3 <in >out 2>err
gives 0 'l0|l1|l2|l3|l4|l5|l6|l7|l8|l9|l10|l11|l12|l13|l14|l15|l16|l17|l18|l19|' ''
"$program" one-bucket seen --buckets=1 --array=2 --trigger=3 <in >out 2>err
gives 0 '' ''
right

try 'a closed input' ''
"$program" plain seen <&- >out 2>err
gives 0 '' ''
reads_again plain 'a|b|c|d|' 'd|'
right

try 'a closed output' 'a|b|'
"$program" closed-output seen <in >&- 2>err
gives 6 '' 'output fault|'
reads_again closed-output 'a|b|c|' 'c|'
right

try 'what a closed output did not get' 'a|b|a|'
"$program" unprinted seen --buckets 1 <in >&- 2>err
gives 6 '' 'output fault|'
"$program" unprinted list >out 2>err
gives 0 '0 fresh a|1 fresh b|' ''
right

try 'a closed error stream' 'a|b|a|'
"$program" closed-errors seen <in >out 2>&-
gives 0 'a|b|' ''
reads_again closed-errors 'a|b|c|' 'c|'
right

try 'an error line for a closed error stream' ''
{ text 'a|b|' && head -c 2049 /dev/zero | tr '\0' x; } >in
"$program" closed-errors seen <in >out 2>&-
gives 2 '' ''
reads_again closed-errors 'a|b|c|d|' 'd|'
right

try 'a closed output and error stream' 'a|'
"$program" closed-both seen <in >&- 2>&-
gives 6 '' ''
reads_again closed-both 'a|b|' 'b|'
right

try 'all streams closed' ''
"$program" closed-both seen <&- >&- 2>&-
gives 0 '' ''
reads_again closed-both 'a|b|c|' 'c|'
right

try 'an input that is a folder' ''
"$program" plain seen <. >out 2>err
gives 5 '' 'input fault|'
reads_again plain 'a|e|' 'e|'
right

try 'a full device' 'a|b|'
if [ -c /dev/full ]; then
    "$program" full seen <in >/dev/full 2>err
    gives 6 '' 'output fault|'
    reads_again full 'b|c|a|' 'c|'
    right
else
    pass_over 'there is no /dev/full'
fi

try 'an output that is read no further' ''
long=$(head -c 2000 /dev/zero | tr '\0' x)
i=0
while [ "$i" -lt 120 ]; do
    printf '%s%s\n' "$i" "$long"
    i=$((i + 1))
done >in
{
    "$program" broken seen <in 2>err
    printf '%s\n' "$?" >status
} | head -n 1 >out
has status '6|'
has err 'output fault|'
grep -qxF -- "$(cat out)" in || fail 'the first line is none of the input'
reads_again broken "a|" 'a|'
"$program" broken seen <in >out 2>err
gives 0 '' ''
right

# What is kept is shown, and stays: a look reads no input, and a failed one of many leaves all to the next.
try 'a look at what is kept' 'a|b|a|'
"$program" looked seen --buckets 1 <in >out 2>err
gives 0 'a|b|' ''
"$program" looked show <in >out 2>err
gives 0 'offers 3|judged 3|unique 2|pairs 0|fresh 2|queued 0|last 0|front 0|done 0|page 0|moved 0|status 0|denied 0|shut 0|lost 0|bad 0|large 0|coded 0|' ''
"$program" looked list <&- >out 2>err
gives 0 '0 fresh a|1 fresh b|' ''
: >out
"$program" looked show >&- 2>err
gives 6 '' 'output fault|'
if [ -c /dev/full ]; then
    for command in show list; do
        "$program" looked "$command" >/dev/full 2>err
        gives 6 '' 'output fault|'
    done
fi
reads_again looked 'a|b|c|' 'c|'
right

# More judged lines than are read at once, of which each other one is the first.
try 'a list by the numbers' ''
awk 'BEGIN { for (i = 0; i < 3000; i++) print i % 2 ? i : "x" }' >in
awk 'BEGIN { print "0 fresh x"; for (i = 1; i < 3000; i += 2) print i " fresh " i }' >expected
"$program" numbered seen --buckets 1 <in >out 2>err || fail "status $?, and not 0"
"$program" numbered list >out 2>err || fail "status $?, and not 0"
same expected out
has err ''
right

try 'a list that is read no further' ''
i=0
while [ "$i" -lt 4000 ]; do
    printf 'http://%s.test/a/page/of/which/the/name/is/long\n' "$i"
    i=$((i + 1))
done >in
"$program" long seen --buckets 1 <in >out 2>err
status=$?
[ "$status" -eq 0 ] || fail "status $status, and not 0"
{
    "$program" long list 2>err
    printf '%s\n' "$?" >status
} | head -n 1 >out
has out '0 fresh http://0.test/a/page/of/which/the/name/is/long|'
has status '6|'
has err 'output fault|'
"$program" long list >out 2>err
status=$?
[ "$status" -eq 0 ] || fail "status $status, and not 0"
cut -d ' ' -f 3 out | cmp -s - in || fail 'the list has other lines'
right

# The promise that the program is used for: it is killed while it waits for more, so that it can do nothing at its end. What it
# has printed by then is remembered, and what it had only read is new again.
try 'a program that is killed' ''
mkfifo feed
"$program" killed seen --buckets 1 --array 1 --trigger 1 <feed >out 2>err &
killed=$!
exec 3>feed
text 'a|b|a|c|' >&3
tries=0
while [ "$(wc -l <out)" -lt 2 ]; do
    tries=$((tries + 1))
    [ "$tries" -lt 600 ] || fail "it printed '$(tr '\n' '|' <out)'"
    sleep 0.1
done
kill -KILL "$killed"
wait "$killed" 2>/dev/null
gives 137 'a|b|' ''
exec 3>&-
rm feed
reads_again killed 'a|b|c|d|' 'c|d|'
right

finish
