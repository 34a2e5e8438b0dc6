#!/bin/sh
# What README.md and docs/GUIDE.md show: each line behind `$ ` is run, and has to print the lines that stand below it. A block is
# one of three back quotes or of four spaces; the blocks of a page are run from the top to the bottom, in one folder that has `irl`
# and the examples, as the top of the repository has them. One that follows a comment `not run` is passed over. The port 8080 of a
# page is here one that is free. Last the options of the guide, the links of all pages, and how long the first ones are.

# In memory where there is such a folder: a crawl syncs often.
if [ -w /dev/shm ]; then
    TMPDIR=/dev/shm
    export TMPDIR
fi
. "$(dirname -- "$0")/common.sh"

mkdir parts
PATH=$room/page:$PATH
export PATH
port=8080
if command -v python3 >/dev/null 2>&1; then
    port=$(python3 -c 'import socket; s = socket.socket(); s.bind(("127.0.0.1", 0)); print(s.getsockname()[1])')
fi

# Takes the blocks of a page apart, into files of parts/: command C of block B has its text in B.C.command, and what it has to print
# in B.C.wanted. B.title has the heading above it, and B.skip is there where B is not run. A line behind `> ` belongs to the command
# above it. Prints how many blocks there are, and how many commands.
take_apart() {
    rm -f parts/*
    sed "s/8080/$port/g" "$1" | awk '
        function begin() {
            block++
            command = 0
            print title >("parts/" block ".title")
            if (skips) print "" >("parts/" block ".skip")
            skips = 0
        }
        function take(line) {
            if (line ~ /^\$ /) {
                command++
                commands++
                opens = 1
                name = "parts/" block "." command
                printf "" >(name ".wanted")
                print substr(line, 3) >(name ".command")
            } else if (command && opens && line ~ /^> /) {
                print substr(line, 3) >(name ".command")
            } else if (command) {
                opens = 0
                print line >(name ".wanted")
            }
        }
        /^```/ {
            if (!fenced) begin()
            fenced = !fenced
            next
        }
        fenced { take($0); next }
        /^    / && (blank || indented) {
            if (!indented) begin()
            indented = 1
            take(substr($0, 5))
            next
        }
        { indented = 0; blank = $0 == "" }
        /^<!-- not run -->$/ { skips = 1 }
        /^#/ { title = substr($0, index($0, " ") + 1) }
        END { print block + 0, commands + 0 }'
}

# Waits until a server answers at the port.
await_server() {
    python3 - "$port" <<'PYTHON'
import socket, sys, time
for _ in range(300):
    try:
        socket.create_connection(('127.0.0.1', int(sys.argv[1])), 1).close()
        sys.exit(0)
    except OSError:
        time.sleep(0.1)
sys.exit('nothing answers')
PYTHON
}

# Runs the commands of a block one after the other in one shell, in the page's folder. Ends at the first that prints otherwise. What
# a command starts behind an `&` is a server, which is ended with the block.
run_block() {
    cd "$room/page" || exit 1
    server=
    trap '[ -z "$server" ] || kill "$server" 2>/dev/null' EXIT
    trap 'exit 1' HUP INT TERM
    status=0
    command=1
    while [ -e "$room/parts/$1.$command.command" ]; do
        text=$(cat "$room/parts/$1.$command.command")
        (exit "$status")
        eval "$text" >"$room/parts/got" 2>&1
        status=$?
        case $text in
        *' & '*)
            server=$!
            await_server 2>>"$room/parts/got"
            ;;
        esac
        cmp -s "$room/parts/$1.$command.wanted" "$room/parts/got" || {
            diff "$room/parts/$1.$command.wanted" "$room/parts/got" | head -n 20 >"$room/parts/difference"
            printf "by '%s': %s" "$text" "$(tr '\n' '|' <"$room/parts/difference")" >"$room/parts/wrong"
            exit 1
        }
        command=$((command + 1))
    done
}

for page in README.md docs/GUIDE.md; do
    name=$page
    counts=$(take_apart "$top/$page")
    blocks=${counts% *}
    commands=${counts#* }
    [ "$commands" -gt 0 ] || fail 'it shows no command'
    [ "$(grep -Ec '^ *\$ ' "$top/$page")" -eq "$commands" ] || fail "it has lines behind a \$ that stand in no block"
    rm -rf page
    mkdir -p page/examples
    ln -s "$top"/examples/* page/examples/
    ln -s "$program" page/irl
    block=0
    while [ "$block" -lt "$blocks" ]; do
        block=$((block + 1))
        [ -e "parts/$block.1.command" ] || continue
        try "$page, $(cat "parts/$block.title")" ''
        if [ -e "parts/$block.skip" ]; then
            pass_over 'the page says so'
        elif grep -q python3 "parts/$block".*.command && ! command -v python3 >/dev/null 2>&1; then
            pass_over 'python3 is not installed'
        else
            (run_block "$block") || fail "it prints otherwise $(cat parts/wrong)"
            right
        fi
    done
done

# Of each line, which has an option's name and then what it may be: the name, the last number of its range, and in brackets its
# default, where that is a number.
ranges() {
    awk '{
        name = $1
        usual = match($0, /\([0-9]+\)$/) ? substr($0, RSTART) : ""
        sub(/ *\(.*$/, "")
        most = ""
        count = split($0, word, /[ ;]/)
        for (n = 2; n <= count; n++) if (word[n] ~ /^[0-9]+$/) most = word[n]
        print name, most, usual
    }' | LC_ALL=C sort -u
}

try 'the options of the guide' ''
for command in drum crawl; do
    "$program" unmade "$command" --help || fail "status $? of the help of $command"
done >help
sed -n 's/^ *--\([a-z]*\) <[^>]*> */\1 /p' help | ranges >wanted
sed -n 's/^| `--\([a-z]*\)`[^|]*| \([^|]*\) |.*/\1 \2/p' "$top/docs/GUIDE.md" | tr -d , | ranges >told
[ "$(wc -l <wanted)" -ge 16 ] || fail "the help has $(wc -l <wanted) options"
same wanted told
right

# The links of a page that lead to no web server.
links() {
    awk '{
        while (match($0, /\]\([^)]*\)/)) {
            print substr($0, RSTART + 2, RLENGTH - 3)
            $0 = substr($0, RSTART + RLENGTH)
        }
    }' "$1" | grep -v '^[a-z]*:'
}

# What a link to each heading of a page has behind `#`.
headings() {
    sed -n 's/^##* //p' "$1" | tr 'A-Z ' 'a-z-' | tr -cd 'a-z0-9_\n-'
}

try 'the links of all pages lead somewhere' ''
checked=0
for page in "$top"/*.md "$top"/docs/*.md "$top"/crates/*/README.md; do
    links "$page" >linked
    while read -r link; do
        target=${link%%#*}
        target=${page%/*}/${target:-${page##*/}}
        [ -e "$target" ] || fail "${page#"$top"/} links to $link, which isn't there"
        case $link in
        *'#'*) headings "$target" | grep -qx -- "${link#*#}" || fail "${page#"$top"/} links to $link, which has no such heading" ;;
        esac
        checked=$((checked + 1))
    done <linked
done
[ "$checked" -gt 100 ] || fail "only $checked links were found"
right

try 'the first pages are short' ''
for most in 'README.md 1200' 'docs/GUIDE.md 3000' 'CONTRIBUTING.md 600'; do
    words=$(wc -w <"$top/${most% *}")
    [ "$words" -le "${most#* }" ] || fail "${most% *} has $words words, and not at most ${most#* }"
done
right

finish
