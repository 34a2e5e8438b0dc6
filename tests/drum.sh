#!/bin/sh
# The command drum.

. "$(dirname -- "$0")/common.sh"

# Tuple lines

try 'tuples of two buckets' 'b 8000000000000001 0 x|b 0000000000000001 0 y|b 8000000000000001 0 z|'
"$program" tuples drum --buckets 2 --array 2 --trigger 4 <in >out 2>err
gives 0 'unique 0000000000000001 y|unique 8000000000000001 x|known 8000000000000001 0 z|' ''
text 'c 1|c 8000000000000001|c 2|' >in
"$program" tuples drum <in >out 2>err
gives 0 'known 0000000000000001 0|absent 0000000000000002|known 8000000000000001 0|' ''
right

try 'checks before and behind an update' 'b 02 0 q|c 01|b 01 7 p|c 01|'
"$program" checks drum <in >out 2>err
gives 0 'unique 0000000000000002 q|absent 0000000000000001|unique 0000000000000001 p|known 0000000000000001 7|' ''
right

try 'a merge while an array waits' 'b 8000000000000001 0 x|b 0000000000000001 0 y|b 8000000000000001 0 z|b 8000000000000002 0 w|'
"$program" merged drum --buckets 2 --array 2 --trigger 2 <in >out 2>err
gives 0 'unique 8000000000000001 x|known 8000000000000001 0 z|unique 0000000000000001 y|unique 8000000000000002 w|' ''
right

try 'values that are added' 'u 01 18446744073709551615|u 01 5|c 01|'
"$program" added drum --rule add <in >out 2>err
gives 0 'known 0000000000000001 18446744073709551615|' ''
text 'u 2 3|u 2 4|c 2|' >in
"$program" added drum <in >out 2>err
gives 0 'known 0000000000000002 7|' ''
right

try 'values that are replaced, and kept' 'u 1 5|u 1 3|c 1|'
"$program" replaced drum --rule=replace <in >out 2>err
gives 0 'known 0000000000000001 3|' ''
"$program" kept drum --rule keep <in >out 2>err
gives 0 'known 0000000000000001 5|' ''
"$program" kept-too drum <in >out 2>err
gives 0 'known 0000000000000001 5|' ''
right

try 'texts of any bytes' ''
printf 'b 1 0 a  \377 \r\nb ffffffffffffffff 0 \001\nb 2 0  ' >in
"$program" bytes drum --buckets 1 <in >out 2>err
status=$?
printf 'unique 0000000000000001 a  \377 \r\nunique ffffffffffffffff \001\nunique 0000000000000002  \n' >expected
[ "$status" -eq 0 ] || fail "status $status, and not 0"
cmp -s expected out || fail 'the output has other bytes'
has err ''
right

# What a line asks, alone in a new store: what is told of it, and of a check of its key behind it.
asks() {
    rm -rf asked
    printf "$1\\nc $2" >in
    printf "$3\\n" >expected
    "$program" asked drum <in >out 2>err || fail "status $? of $1"
    cmp -s expected out || fail "of $1 it told '$(tr '\n' '|' <out)'"
    has err ''
}

try 'what a line asks' ''
asks 'b 02 0 q' 2 'unique 0000000000000002 q\nknown 0000000000000002 0'
asks 'c 01' 1 'absent 0000000000000001\nabsent 0000000000000001'
asks 'b 01 7 p' 1 'unique 0000000000000001 p\nknown 0000000000000001 7'
asks 'u 01 18446744073709551615' 1 'known 0000000000000001 18446744073709551615'
asks 'u 01 5' 1 'known 0000000000000001 5'
asks 'b 8000000000000001 0 x' 8000000000000001 'unique 8000000000000001 x\nknown 8000000000000001 0'
asks 'b 1 0' 1 'unique 0000000000000001\nknown 0000000000000001 0'
asks 'c 0' 0 'absent 0000000000000000\nabsent 0000000000000000'
asks 'c 0000000000000000' 0 'absent 0000000000000000\nabsent 0000000000000000'
asks 'c ffffffffffffffff' ffffffffffffffff 'absent ffffffffffffffff\nabsent ffffffffffffffff'
asks 'c 0123456789abcdef' 0123456789abcdef 'absent 0123456789abcdef\nabsent 0123456789abcdef'
asks 'b 0123456789abcdef 0' 0123456789abcdef 'unique 0123456789abcdef\nknown 0123456789abcdef 0'
asks 'u a 10' a 'known 000000000000000a 10'
asks 'b f 0  ' f 'unique 000000000000000f  \nknown 000000000000000f 0'
asks 'b f 0 a  b\t\r ' f 'unique 000000000000000f a  b\t\r \nknown 000000000000000f 0'
asks 'b f 12 \000\377\200' f 'unique 000000000000000f \000\377\200\nknown 000000000000000f 12'
asks 'b ffffffffffffffff 0  \377 ' ffffffffffffffff 'unique ffffffffffffffff  \377 \nknown ffffffffffffffff 0'
right

try 'a merge behind each line' 'b 1 7|u 1 9|b 1 3 two words|c 1'
"$program" single drum --buckets=1 --array=1 --trigger=1 --rule=replace <in >out 2>err
gives 0 'unique 0000000000000001|known 0000000000000001 9 two words|known 0000000000000001 3|' ''
right

# A key that was judged unique is listed with its text, and with a final space where that is empty.
try 'a list of tuples' 'b 8000000000000001 0 x|b 01 0 y|u 8000000000000001 7|b 02 0|'
"$program" listed drum --buckets 2 <in >out 2>err
gives 0 'unique 0000000000000001 y|unique 0000000000000002|unique 8000000000000001 x|' ''
"$program" listed list >out 2>err
gives 0 '0 fresh y|1 fresh |2 fresh x|' ''
right

# Refused lines

try 'lines that are no tuples' ''
tab=$(printf '\t')
return=$(printf '\r')
for line in '' ' ' 'c' 'c ' 'u' 'b ' 'x 01' 'C 01' 'c01' ' c 01' 'c  01' "c${tab}01" 'c 01 ' "c 01$return" "c 01$tab" 'c 01 0' 'c 0A' \
    'c 0g' 'c aF' 'c 0x1' 'c +1' 'c -1' 'c 00000000000000001' "c $(printf '\377')" 'u 01' 'u 01 ' 'u  5' 'u 01  5' 'u 01 5 ' 'u 01 5 x' \
    'u 01 +5' 'u 01 -0' 'u 01 a' 'u 01 00' 'u 01 05' 'u 01 18446744073709551616' 'u 00000000000000001 5' 'u 0x1 5' \
    'b 01 18446744073709551616' 'b 01 +7' "b 01${tab}7" 'u 01 100000000000000000000' 'b 01' 'b 01 07' 'b 01 7 ' 'b 01  x' \
    'b 00000000000000001 7' 'b  01 7'; do
    printf '%s\n' "$line" >in
    "$program" refused drum <in >out 2>err
    gives 2 '' 'line 1 refused|'
done
text 'c 01||c 02|' >in
"$program" refused drum <in >out 2>err
gives 2 '' 'line 2 refused|'
right

try 'a refused line behind two good ones' 'b 1 0 p|b 2 0 q|b 3 00 r|b 4 0 s|'
"$program" behind drum --buckets 1 --array 1 <in >out 2>err
gives 2 '' 'line 3 refused|'
: >in
"$program" behind drum <in >out 2>err
gives 0 'unique 0000000000000001 p|' ''
text 'c 1|c 2|c 4|' >in
"$program" behind drum <in >out 2>err
gives 0 'known 0000000000000001 0|absent 0000000000000002|absent 0000000000000004|' ''
right

try 'the longest line' ''
long=$(head -c 2042 /dev/zero | tr '\0' x)
printf 'b 1 0 %s\n' "$long" >in
"$program" long drum <in >out 2>err
gives 0 "unique 0000000000000001 $long|" ''
printf 'c 1\nb 2 0 x%s\n' "$long" >in
"$program" long drum <in >out 2>err
gives 2 '' 'line 2 refused|'
right

# Stores of another kind, and made otherwise

try 'the store of the other command' 'a|'
"$program" of-lines seen --buckets 2 <in >out 2>err
gives 0 'a|' ''
text 'c 1|' >in
"$program" of-lines drum --buckets 2 <in >out 2>err
gives 3 '' 'other setting 1: kept 1, asked 2|'
"$program" tuples seen <in >out 2>err
gives 3 '' 'other setting 1: kept 2, asked 1|'
reads_again of-lines 'a|b|' 'b|'
right

try 'a damaged store of the other command' 'a|'
"$program" damaged-lines seen --buckets 1 <in >out 2>err
gives 0 'a|' ''
printf '\245\377\0\0\0\0' >damaged-lines/0600
"$program" damaged-lines drum <in >out 2>err
gives 3 '' 'other setting 1: kept 1, asked 2|'
"$program" damaged-lines seen <in >out 2>err
gives 3 '' 'damaged: byte 0 of file 0600|'
right

try 'a store that is made otherwise' 'c 1|'
"$program" added drum --rule keep <in >out 2>err
gives 3 '' 'other setting 2: kept 2, asked 0|'
"$program" added drum --rule replace --array 7 <in >out 2>err
gives 3 '' 'other setting 2: kept 2, asked 1|'
"$program" added drum --array 7 <in >out 2>err
gives 3 '' 'other setting 4: kept 1024, asked 7|'
"$program" added drum --rule add --array 1024 --buckets 16 <in >out 2>err
gives 0 'known 0000000000000001 18446744073709551615|' ''
right

# Words of its own

try 'options' 'c 1|'
for words in '--rule' '--rule max' '--rule=' '--rule Keep' '--rule add --rule add' '--rules add' '--array 0' '--array 8193' '--array x' \
    '--buckets 65' '--trigger 0' '--block 65537' '--cap 1099511627777' '--workers 1' 'x' '-- x' 'seen'; do
    "$program" unmade drum $words <in >out 2>err
    gives 1 '' 'words refused: drum|'
done
for words in '--buckets 3' '--buckets=63 --rule add'; do
    "$program" unmade drum $words <in >out 2>err
    gives 1 '' 'words refused: --buckets|'
done
"$program" unmade seen --rule add <in >out 2>err
gives 1 '' 'words refused: seen|'
is_absent unmade
"$program" optioned drum --buckets=+04 --array 005 --trigger=10 --block 1 --cap 7 --rule=add -- <in >out 2>err
gives 0 'absent 0000000000000001|' ''
"$program" optioned drum --buckets 4 --array 5 --trigger 10 --block 1 --cap 7 --rule add <in >out 2>err
gives 0 'absent 0000000000000001|' ''
right

# The one example of `drum` that a text has: an indented line behind `$`, which prints the lines below it up to an empty
# one. It is run over a store of this name. That of the guide is run by pages.sh.
shows() {
    sed -n '/^    \$ .*irl [^ ]* drum/,/^$/s/^    //p' "$1" >example
    call=$(sed -n '1s/^\$ \(.*\) | [^ ]*irl [^ ]* drum/\1 | "$program" '"$2"' drum/p' example)
    [ -n "$call" ] || fail "$1 has no example"
    told=$(sed 1d example | tr '\n' '|')
    [ -n "$told" ] || fail "the example of $1 prints nothing"
    eval "$call" >out 2>err
    gives 0 "$told" ''
}

try 'the printed example of drum' ''
"$program" unmade drum --help >help 2>err
shows help shown-by-help
is_absent unmade
right

try 'the help of drum' ''
"$program" unmade drum --help >out 2>err
grep -qF 'irl DIR drum [OPTIONS]' out || fail 'the help has no usage'
mv out help
"$program" unmade drum -h >out 2>err || fail "status $?, and not 0"
cmp -s help out || fail 'the short option shows another text'
has err ''
is_absent unmade
right

# Pipes

try 'a full bucket' 'u 1 0|u 2 0|u 3 0|'
"$program" capped drum --buckets 1 --array 1 --cap 2 <in >out 2>err
gives 8 '' 'bucket 0 full|'
text '' >in
"$program" capped drum <in >out 2>err
gives 0 '' ''
right

try 'a closed output of verdicts' 'b 1 5 a|u 2 6|'
"$program" closed-verdicts drum <in >&- 2>err
gives 6 '' 'output fault|'
text 'c 1|c 2|' >in
"$program" closed-verdicts drum <in >out 2>err
gives 0 'known 0000000000000001 5|known 0000000000000002 6|' ''
right

# Ten thousand keys, which lie in all buckets, past many flushes and merges: each value is added to twice. Of each line the first word,
# the key and the rest are given, and what is told of it.
tuples() {
    awk -v word="$1" -v rest="$2" 'BEGIN {
        for (i = 0; i < 10000; i++) printf "%s %x%x%x%x000000000000%s\n", word, i % 16, i / 16 % 16, i / 256 % 16, i / 4096 % 16, rest
    }'
}
tells() {
    tuples "$1" "$2" | "$program" ten-thousand drum --array=64 --trigger=256 --rule=add 2>err | LC_ALL=C sort >out
    has err ''
    tuples "$3" "$4" | LC_ALL=C sort | cmp -s - out || fail "it told other lines of '$1'"
}

try 'ten thousand keys three times' ''
tells b ' 1' unique ''
tells b ' 1 text' known ' 1 text'
tells c '' known ' 2'
right

# Twenty thousand tuples of ten thousand keys, over all buckets, past some merges: each key is new once, and then it has the
# value that its first tuple gave. The new ones are handed on to a second store.
try 'a pipe of two stores' ''
awk 'BEGIN {
    for (i = 0; i < 20000; i++) {
        key = i * 7919 % 10007
        printf "b %x%015x %d t%d\n", key % 16, key, i, key
    }
}' >many
awk '{
    if ($2 in first) print "known " $2 " " first[$2] " " $4
    else { first[$2] = $3; print "unique " $2 " " $4 }
}' many | LC_ALL=C sort >expected
"$program" first drum --trigger 1000 <many 2>err | tee told |
    awk '$1 == "unique" { print "b " $2 " 1 " $3 }' | "$program" second drum >out 2>err-second
LC_ALL=C sort told | cmp -s - expected || fail 'the first store told other verdicts'
grep '^unique' expected >new
LC_ALL=C sort out | cmp -s - new || fail 'the second store told other verdicts'
has err ''
has err-second ''
right

finish
