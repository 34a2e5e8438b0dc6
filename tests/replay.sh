#!/bin/sh
# The command replay.

. "$(dirname -- "$0")/common.sh"

# Whole crawls

try 'a tape' ''
tape
"$program" taped replay --buckets 1 <in >out 2>err
gives 0 "$tape_report" ''
"$program" taped show >out 2>err
gives 0 "$tape_report" ''
"$program" taped list >out 2>err
gives 0 "$tape_listing" ''
right

# To which domains those of other domains lead, as the texts of the pairs say that were judged unique: b.test and c.test have two,
# and a.test one. An entry of the judged file has 48 bytes: its third is 1 where it is unique, the length of its text begins at
# the fifth and the place at the 41st.
try 'the domains that others lead to' ''
od -An -v -tu1 taped/0303 | awk '
    { for (i = 1; i <= NF; i++) byte[count++] = $i }
    END { for (at = 0; at < count; at += 48) if (byte[at + 2] == 1) print byte[at + 40] + 256 * byte[at + 41], byte[at + 4] }
' | while read -r place length; do
    printf '%s\n' "$(head -c "$((place + length))" taped/0304 | tail -c "$length")"
done | sort | uniq -c | awk '{ print $2, $1 }' >out
has out 'a.test 1|b.test 2|c.test 2|'
right

try 'a link that lies across two pieces' ''
printf '%s\n' 'suffix test' 'seed http://a.test/' 'page 200 html http://a.test/' '+<a hr' '|ef="/x">' 'end' >in
"$program" pieces replay <in >out 2>err
gives 0 "$(report '2 2 2 0 0 0 0 0 2 1 0 1 0 0 0 0 0 0')" ''
right

try 'a tape at the defaults' ''
tape
"$program" defaults replay <in >out 2>err
gives 0 "$tape_report" ''
right

try 'a crawl that goes on' ''
tape
"$program" taped replay <in >out 2>err
gives 0 "$(report '11 11 6 5 0 0 0 0 6 3 1 1 1 0 0 0 0 0')" ''
"$program" taped list >out 2>err
gives 0 "$tape_listing" ''
right

try 'one page a run' ''
tape
"$program" paged replay --buckets 1 --pages 1 <in >out 2>err
gives 0 "$(report '5 5 4 1 3 0 0 0 1 1 0 0 0 0 0 0 0 0')" ''
"$program" paged show >out 2>err
gives 0 "$(report '5 5 4 1 3 0 0 0 1 1 0 0 0 0 0 0 0 0')" ''
for run in 2 3 4 5 6; do
    "$program" paged replay --pages 1 <in >out 2>err || fail "status $? of run $run"
done
"$program" paged replay --pages 1 <in >out 2>err
gives 0 "$(report '16 16 6 5 0 0 0 0 6 3 1 1 1 0 0 0 0 0')" ''
"$program" paged list 2>err | unnumbered >out
text "$tape_listing" | unnumbered | cmp -s - out || fail "it lists '$(tr '\n' '|' <out)'"
right

try 'a page limit and then all' ''
tape
"$program" limited replay --buckets 1 --pages 1 --batch 1 <in >out 2>err
gives 0 "$(report '5 5 4 1 3 0 0 0 1 1 0 0 0 0 0 0 0 0')" ''
"$program" limited replay --batch 1 <in >out 2>err
gives 0 "$(report '11 11 6 5 0 0 0 0 6 3 1 1 1 0 0 0 0 0')" ''
right

try 'an empty tape' ''
"$program" empty replay <in >out 2>err
gives 0 "$(report '0 0 0 0 0 0 0 0 0 0 0 0 0 0 0 0 0 0')" ''
right

try 'a page that is lost and one that leads to itself' 'seed http://a.test/|page 301 other http://a.test/|to /|end|lost http://a.test/robots.txt|'
"$program" lost replay <in >out 2>err
gives 0 "$(report '1 1 1 0 0 0 0 0 1 0 0 0 0 1 0 0 0 0')" ''
right

# What is refused

try 'a tape without its last line' ''
tape
sed '$d' in >shorter
"$program" cut replay <shorter >out 2>err
gives 2 '' 'line 31 refused|'
right

# A page of this machine's sites is no line of `crawl`, and a URL that is lost has no `end`. A refused tape leaves a store without
# lines.
try 'lines that a tape does not have' ''
tape
"$program" lineless crawl --port 8080 <in >out 2>err
gives 2 '' 'line 3 refused|'
text 'seed http://a.test/|lost http://a.test/|end|' >in
"$program" lineless replay <in >out 2>err
gives 2 '' 'line 3 refused|'
"$program" lineless list >out 2>err
gives 0 '' ''
right

# Of another system, and of which a line is too long: nothing of it is crawled.
try 'a tape with other lines' ''
tape
sed "s/\$/$(printf '\r')/" in >other
"$program" lined replay <other >out 2>err
gives 2 '' 'line 1 refused|'
{ cat in && head -c 2049 /dev/zero | tr '\0' '#'; } >other
"$program" lined replay <other >out 2>err
gives 2 '' 'line 32 refused|'
"$program" lined show >out 2>err
gives 0 "$(report '0 0 0 0 0 0 0 0 0 0 0 0 0 0 0 0 0 0')" ''
right

try 'another text of suffixes' ''
tape
"$program" suffixed replay <in >/dev/null 2>err || fail "status $?"
sed 's/^suffix test/suffix c.test/' in >other
"$program" suffixed replay <other >out 2>err
status=$?
[ "$status" -eq 3 ] || fail "status $status, and not 3"
has out ''
grep -Eq '^other setting 12: kept [0-9]+, asked [0-9]+$' err || fail "it told '$(cat err)'"
sed '/^suffix/d' in >none
"$program" suffixed replay <none >out 2>err
gives 0 "$(report '11 11 6 5 0 0 0 0 6 3 1 1 1 0 0 0 0 0')" ''
right

try 'a store of lines' 'http://a.test/|'
"$program" lines seen <in >out 2>err
gives 0 'http://a.test/|' ''
tape
"$program" lines replay <in >out 2>err
gives 3 '' 'other setting 1: kept 1, asked 3|'
"$program" taped seen <in >out 2>err
gives 3 '' 'other setting 1: kept 3, asked 1|'
right

try 'a bucket that is full' ''
tape
"$program" full replay --buckets 1 --array 1 --cap 2 <in >out 2>err
gives 8 '' 'bucket 0 full|'
"$program" full replay <in >out 2>err
gives 8 '' 'bucket 0 full|'
for run in 1 2; do
    "$program" four replay --buckets=1 --array=2 --trigger=4 --cap=4 <in >out 2>err
    gives 8 '' 'bucket 0 full|'
done
"$program" four seen <in >out 2>err
gives 3 '' 'other setting 1: kept 3, asked 1|'
right

try 'options of a run that are refused' ''
tape
"$program" unmade replay --agent 'a b' <in >out 2>err
gives 1 '' 'words refused: --agent|'
"$program" unmade replay --most 5 --base 6 <in >out 2>err
gives 1 '' 'words refused: --most|'
is_absent unmade
right

# Streams

try 'output that is closed' ''
tape
"$program" closed replay <in >&- 2>err
status=$?
[ "$status" -eq 6 ] || fail "status $status, and not 6"
"$program" closed show >out 2>err
gives 0 "$tape_report" ''
right

try 'output that is full or read by nobody' ''
tape
if [ -c /dev/full ]; then
    "$program" brim replay <in >/dev/full 2>err
    gives 6 '' 'output fault|'
    "$program" brim show >out 2>err
    gives 0 "$tape_report" ''
    : >out
fi
mkfifo gone
{
    cat gone
    "$program" unheard replay <in 2>err
    printf '%s\n' "$?" >status
} | {
    exec <&-
    : >gone
}
rm gone
has status '6|'
has err 'output fault|'
"$program" unheard show >out 2>err
gives 0 "$tape_report" ''
right

try 'other streams that are closed' ''
tape
"$program" closed-errors replay <in >out 2>&-
gives 0 "$tape_report" ''
: >out
sed '$d' in >shorter
"$program" closed-errors replay <shorter >out 2>&-
gives 2 '' ''
"$program" closed-both replay <in >&- 2>&-
gives 6 '' ''
"$program" closed-both show >out 2>err
gives 0 "$tape_report" ''
"$program" closed-input replay <&- >out 2>err
gives 0 "$(report '0 0 0 0 0 0 0 0 0 0 0 0 0 0 0 0 0 0')" ''
right

# A pipe gives a tape in pieces, here byte by byte, and its last line may end without a line feed.
try 'a tape from a pipe' ''
tape
dd if=in bs=1 2>/dev/null | "$program" piped replay >out 2>err
gives 0 "$tape_report" ''
printf '%s' "$(cat in)" | "$program" piped-on replay >out 2>err
gives 0 "$tape_report" ''
right

try 'input that is a folder' ''
mkdir folder
"$program" unread replay <folder >out 2>err
gives 5 '' 'input fault|'
right

finish
