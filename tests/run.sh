#!/bin/sh
# Runs all cases over the built program, or over the one that the first word names. The last line says how many were right and
# how many wrong, and with a wrong one the status is 1.

here=$(CDPATH='' cd -- "$(dirname -- "$0")" && pwd -P) || exit 1
log=$(mktemp) || exit 1
trap 'rm -f "$log"' EXIT
trap 'exit 1' HUP INT TERM
passed=0
failed=0
for file in streams words folders drum replay crawls workers memory hostile gateway launcher locks pages; do
    printf '%s:\n' "$file"
    "$here/$file.sh" "$@" >"$log"
    last=$(tail -n 1 "$log")
    case $last in
    *' passed, '*' failed')
        sed '$d' "$log"
        passed=$((passed + ${last%% *}))
        last=${last#*, }
        failed=$((failed + ${last%% *}))
        ;;
    *)
        cat "$log"
        printf 'FAIL %s.sh: it ended before its last line\n' "$file"
        failed=$((failed + 1))
        ;;
    esac
done
printf '%s passed, %s failed\n' "$passed" "$failed"
[ "$failed" -eq 0 ]
