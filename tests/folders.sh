#!/bin/sh
# Folders that have no store, or that may not be used.

. "$(dirname -- "$0")/common.sh"

try 'a folder of another kind of store' 'a|'
mkdir other
printf 'ab' >other/0999
"$program" other seen <in >out 2>err
gives 3 '' 'not a store: byte 0 of file 0000|'
[ "$(ls other)" = 0999 ] || fail 'the folder has other files'
right

# A folder may be named in any way that the system takes, and each way of naming it is the same store.
try 'names of folders' 'a|'
"$program" "new/with space/$(printf '\303\244')" seen <in >out 2>err
gives 0 'a|' ''
"$program" "./new//with space/$(printf '\303\244')/" seen <in >out 2>err
gives 0 '' ''
ln -s "new/with space/$(printf '\303\244')" link
reads_again link 'a|b|' 'b|'
(cd link && exec "$program" . seen <"$room/in" >"$room/out" 2>"$room/err")
gives 0 '' ''
right

# Who removes a file, or brings back a part of a folder, is told so, and nothing of what is left changes.
try 'files that were removed' 'a|b|'
"$program" whole seen --buckets 1 <in >out 2>err
gives 0 'a|b|' ''
cp -R whole removed
for file in 0103 0104; do
    mv "removed/$file" kept
    "$program" removed seen <in >out 2>err
    gives 3 '' "damaged: byte 0 of file $file|"
    mv kept "removed/$file"
done
mv removed/0000 kept
"$program" removed seen <in >out 2>err
gives 3 '' 'not a store: byte 0 of file 0000|'
mv kept removed/0000
diff -r whole removed >told 2>&1 || fail "another file: $(head -n 1 told)"
reads_again removed 'a|b|c|' 'c|'
right

try 'a damaged journal' 'a|'
"$program" damaged seen <in >out 2>err
gives 0 'a|' ''
printf '\245\377\0\0\0\0' >damaged/0600
for command in seen show list; do
    "$program" damaged "$command" <in >out 2>err
    gives 3 '' 'damaged: byte 0 of file 0600|'
done
"$program" damaged drum <in >out 2>err
gives 3 '' 'other setting 1: kept 1, asked 2|'
"$program" damaged replay <in >out 2>err
gives 3 '' 'other setting 1: kept 1, asked 3|'
printf '\245' >damaged/0600
reads_again damaged 'a|b|' 'b|'
right

try 'a folder that is a file' 'a|'
cp in file
"$program" file seen <in >out 2>err
status=$?
has out ''
tells_fault file 20
has file 'a|'
"$program" file/below seen <in >out 2>err
status=$?
has out ''
tells_fault file/below 20
right

# A look makes no folder, and leaves one without a store as it is.
try 'a look at no store' ''
nothing=$("$program" unmade show 2>err | tr '\n' '|')
[ "$nothing" = "$(printf '%s 0|' offers judged unique pairs fresh queued last front done page moved status denied shut lost bad large coded)" ] || fail "it printed '$nothing'"
"$program" unmade list >out 2>err
gives 0 '' ''
is_absent unmade
mkdir empty
"$program" empty list >out 2>err
gives 0 '' ''
[ -z "$(ls -A empty)" ] || fail 'the folder has files'
"$program" other show >out 2>err
gives 3 '' 'not a store: byte 0 of file 0000|'
"$program" damaged list >out 2>err
gives 0 '0 fresh a|2 fresh b|' ''
right

try 'a folder that may not be read' 'a|'
if [ "$(id -u)" -ne 0 ]; then
    mkdir shut && chmod 0 shut
    for command in seen replay show list; do
        "$program" shut "$command" <in >out 2>err
        status=$?
        has out ''
        tells_fault shut 13
    done
    chmod 700 shut
    rmdir shut || fail 'a file was made in it'
    right
else
    pass_over 'root may read it'
fi

finish
