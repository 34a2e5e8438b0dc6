#!/bin/sh
# Robots files and pages that are made to mislead a reader or to cost it time. What is expected is worked out by hand.

. "$(dirname -- "$0")/common.sh"

# A record of a tape, whose text has no line end but those of `|`. A long text stands in pieces, since a line of a tape has at most
# 2,048 bytes.
record() {
    printf 'page %s %s %s\n' "$1" "$2" "$3"
    printf '%s' "$4" | tr '|' '\n' | awk '
    # Each line of the text but the last ends its line.
    { lines[NR] = $0 }
    END {
        for (i = 1; i <= NR; i++) {
            line = lines[i]
            for (; length(line) > 2000; line = substr(line, 2001)) print "+" substr(line, 1, 2000)
            print (i < NR ? "|" : "+") line
        }
    }'
    printf 'end\n'
}

# So many times a text.
repeat() {
    awk -v n="$1" -v text="$2" 'BEGIN { for (i = 0; i < n; i++) printf "%s", text }'
}

# Crawls the tape, and writes down its list without numbers.
crawl() {
    "$program" "$1" replay --buckets 1 <in >out 2>err
    status=$?
    [ "$status" -eq 0 ] || fail "status $status: $(cat err)"
    "$program" "$1" list >out 2>err || fail "it can not be listed: $(cat err)"
    cut -d ' ' -f 2- out >listed
}

# The seed's page names one URL, which a rule of this robots file may deny.
robots_tape() {
    printf 'suffix test\nseed http://a.test/\n'
    record 200 other http://a.test/robots.txt "$1"
    record 200 html http://a.test/ "<a href=$2>"
    record 200 other "http://a.test$2" ''
}

# Robots files

try 'a rule past byte 512,000 of a robots file' ''
robots_tape "User-agent: *|$(repeat 511985 '#')|Disallow: /x" /x >in
crawl past
has listed 'page http://a.test/|page http://a.test/x|'
right

# It ends with byte 512,000: of the rule `Disallow: /x` that is the last one.
try 'a rule up to byte 512,000' ''
robots_tape "User-agent: *|$(repeat 511973 '#')|Disallow: /x" /x >in
crawl upto
has listed 'page http://a.test/|denied:3 http://a.test/x|'
right

try 'a robots file that is moved to itself' ''
{
    printf 'suffix test\nseed http://a.test/\n'
    printf 'page 301 other http://a.test/robots.txt\nto /robots.txt\nend\n'
    record 200 other http://a.test/ ''
} >in
"$program" itself replay --buckets 1 <in >out 2>err
gives 0 "$(report '1 1 1 0 0 0 0 0 1 1 0 0 0 0 0 0 0 0')" ''
right

# A matcher that tries each `*` at each place would not end.
try 'a pattern with a thousand stars' ''
robots_tape "User-agent: *|Disallow: /$(repeat 1000 '*a')b" "/$(repeat 2000 a)" >in
crawl stars
has listed "page http://a.test/|page http://a.test/$(repeat 2000 a)|"
right

# Pages

# The seed's page with this text gives just these links.
gives_links() {
    rm -rf scanned
    {
        printf 'suffix test\nseed http://a.test/\n'
        record 200 html http://a.test/ "$1"
    } >in
    crawl scanned
    has listed "page http://a.test/|$2"
}

try 'attributes that are written strangely' ''
gives_links '<a =href=x>' ''
gives_links '<a href=x href=y>' 'status:404 http://a.test/x|'
gives_links '<a/href=z>' 'status:404 http://a.test/z|'
gives_links "<a href = 'p' >" 'status:404 http://a.test/p|'
gives_links '<a href="x' ''
gives_links '<script><a href="x"></script><a href=y>' 'status:404 http://a.test/y|'
right

try 'a tag that never ends, 300,000 times' ''
gives_links "$(repeat 300000 '<a ')" ''
right

finish
