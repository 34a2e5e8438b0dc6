#!/bin/sh
# Crawls of larger tapes, whole, page by page and cut off. What is expected is worked out from the tapes by hand.

. "$(dirname -- "$0")/common.sh"
trap 'umount disk 2>/dev/null; chmod -R u+rwx "$room"; rm -rf "$room"' EXIT

# Writes a tape with answers of every kind, whose hosts are those below; each is of a domain of its own but for the ports of
# port.test. A first seed is named once more at the end.
#
# many.test      a page with links to leaf.test, as many as are asked for and before the first 50 of them one that is none of http
# base.test      three `base` elements, of which the second is the first with an href
# hub.test       a page with 300 links to hop.test, where each URL leads to the next one, and the last to the first
# ring.test      a ring of five redirects, of which each is only known by the one before it
# rules.test     a robots file with a group for irlbot and one for another
# free.test      none, and a page that is not HTML
# shut.test      a robots file with status 500
# gone.test      a robots file that is lost
# five.test      a robots file behind five redirects
# six.test       one behind six
# states.test    links to hosts with robots files of other states, each of which would deny all if it gave rules
# kinds.test     links to answers of other kinds
# lost.test      a lost page
# long.test      links to URLs of 2,048 and 2,049 bytes
wide_tape() {
    awk -v many="$1" '
    # A record, of which no text may be empty but that of the location.
    function record(status, kind, url, to, body) {
        print "page " status " " kind " " url
        if (to != "") print "to " to
        if (body != "") print "|" body
        print "end"
    }
    # A robots file that denies all, if it gives rules.
    function denying(status, host, to) {
        record(status, "other", "http://" host "/robots.txt", to, "User-agent: *\n|Disallow: /")
    }
    # Redirects of a robots file, from the file itself by r1 to the last one, which has the rules.
    function chain(host, count, body, i) {
        for (i = 0; i < count; i++)
            record(redirect[i % 5], "other", "http://" host "/" (i ? "r" i : "robots.txt"), "/r" (i + 1), "")
        record(200, "other", "http://" host "/r" count, "", body)
    }
    function links(words, list, i, n, text) {
        n = split(words, list, " ")
        for (i = 1; i <= n; i++) text = text "<a href=\"" list[i] "\">" i "</a>\n|"
        return text "end of links"
    }
    BEGIN {
        split("302 303 307 308", redirect, " ")
        redirect[0] = 301
        print "suffix test"
        n = split("many.test/ base.test/d/p hub.test/ ring.test/0 rules.test/ free.test/x shut.test/ gone.test/ five.test/" \
            " six.test/ states.test/ kinds.test/ lost.test/ long.test/ many.test/", seeds, " ")
        for (i = 1; i <= n; i++) print "seed http://" seeds[i]

        print "page 200 html http://many.test/"
        split("https://leaf.test/ mailto:leaf@leaf.test ftp://leaf.test/ http://user@leaf.test/ javascript:leaf()", other, " ")
        for (i = 1; i <= many; i++) {
            if (i <= 50) print "|<a href=\"" other[i % 5 + 1] "\">x</a>"
            print "|<a href=\"http://leaf.test/" i "\">" i "</a>"
        }
        print "end"
        record(200, "other", "http://leaf.test/10000", "", "")
        record(200, "other", "http://leaf.test/10001", "", "")

        record(200, "html", "http://base.test/d/p", "", "<a href=q>1</a><base><base href=/e/><base href=/f/><a href=r>2</a>")
        record(200, "other", "http://base.test/e/q", "", "")
        record(200, "other", "http://base.test/f/q", "", "")
        record(200, "other", "http://base.test/d/q", "", "")

        print "page 200 html http://hub.test/"
        for (i = 0; i < 300; i++) print "|<a href=//hop.test/" i ">"
        print "end"
        for (i = 0; i < 300; i++) record(redirect[i % 5], "html", "http://hop.test/" i, (i + 1) % 300, "<a href=/no>")

        for (i = 0; i < 5; i++) record(301, "other", "http://ring.test/" i, "/" (i + 1) % 5, "")

        record(200, "other", "http://rules.test/robots.txt", "", "User-agent: other\n|Disallow: /\n|User-agent: irlbot\n" \
            "|Disallow: /no\n|Allow: /no/but\n|Disallow: /*.gif$\n|Disallow: /robots")
        record(200, "html", "http://rules.test/", "", links("/no/x /no/but /a.gif /a.gifs /robots.txt"))
        record(200, "other", "http://rules.test/no/x", "", "")
        record(200, "other", "http://rules.test/no/but", "", "")

        record(200, "other", "http://free.test/x", "", "<a href=/no>")
        denying(500, "shut.test", "")
        record(200, "other", "http://shut.test/", "", "")
        print "lost http://gone.test/robots.txt"
        record(200, "other", "http://gone.test/", "", "")

        chain("five.test", 5, "User-agent: *\n|Disallow: /no")
        record(200, "html", "http://five.test/", "", links("/no /yes"))
        record(200, "other", "http://five.test/no", "", "")
        record(200, "other", "http://five.test/yes", "", "")
        chain("six.test", 6, "User-agent: *\n|Disallow: /")
        record(200, "html", "http://six.test/", "", links("/no"))
        record(200, "other", "http://six.test/no", "", "")

        n = split("s204.test s300.test s401.test s429.test s499.test s503.test s599.test s600.test s101.test nowhere.test" \
            " secure.test self.test other.test late.test port.test port.test:8080", hosts, " ")
        for (i = 1; i <= n; i++) {
            named = named " http://" hosts[i] "/no"
            record(200, "other", "http://" hosts[i] "/no", "", "")
        }
        record(200, "html", "http://states.test/", "", links(named))
        for (i = 1; i <= 9; i++) denying(substr(hosts[i], 2, 3), hosts[i], i == 2 ? "/to" : "")
        denying(301, "nowhere.test", "")
        denying(302, "secure.test", "https://secure.test/robots.txt")
        denying(303, "self.test", "/robots.txt")
        denying(307, "other.test", "http://five.test/r5")
        denying(500, "port.test:8080", "")
        # Before the rule stand the 512,000 bytes of which a robots file is read, as 8,000 lines of 64.
        print "page 200 other http://late.test/robots.txt"
        print "|User-agent: *"
        while (length(x) < 63) x = x "#"
        for (i = 0; i < 8000; i++) print "|" x
        print "|Disallow: /"
        print "end"

        record(200, "html", "http://kinds.test/", "", links("/204 /299 /300 /301 /302 /303 /307 /308 /304 /404 /500 /999 /100" \
            " /lost /204#again http://shut.test/a http://shut.test/robots.txt"))
        record(204, "html", "http://kinds.test/204", "/no", "<a href=in>")
        record(299, "other", "http://kinds.test/299", "", "")
        record(300, "other", "http://kinds.test/300", "/no", "")
        record(301, "html", "http://kinds.test/301", "", "<a href=/no>")
        record(302, "other", "http://kinds.test/302", "https://kinds.test/no", "")
        record(303, "other", "http://kinds.test/303", "mailto:kinds@kinds.test", "")
        record(307, "other", "http://kinds.test/307", "end#x", "")
        record(304, "html", "http://kinds.test/304", "/no", "<a href=/no>")
        record(404, "html", "http://kinds.test/404", "/no", "<a href=/no>")
        record(500, "html", "http://kinds.test/500", "", "<a href=/no>")
        record(999, "other", "http://kinds.test/999", "", "")
        record(100, "other", "http://kinds.test/100", "", "")
        record(200, "other", "http://kinds.test/end", "", "")
        print "page 308 other http://kinds.test/308"
        print "to "
        print "end"
        print "lost http://kinds.test/lost"

        print "lost http://lost.test/"

        x = ""
        while (length(x) < 1000) x = x "x"
        print "page 200 html http://long.test/"
        print "+<a href=/"
        print "+" x
        print "+" x
        print "+" substr(x, 1, 32)
        print "|>"
        print "+<a href=/"
        print "+" x
        print "+" x
        print "+" substr(x, 1, 31)
        print "|>"
        print "end"
    }' >in
}

# What is listed of that tape, in the order in which a single bucket has the offers of the seeds and of their pages: each host
# gets its robots file at the same moment and its page a second later, and of those that are due the one whose URL came first. So
# the 15 offers of seeds are numbers 0 to 14, and the pages' links come page by page in the order of the seeds. Number 14 and the
# second link to /204 are known.
wide_listing() {
    awk '
    function line(fate, url) {
        print number++ " " fate " " url
    }
    # Lines of which each has a fate and a URL.
    function several(words, list, i, n) {
        n = split(words, list, " ")
        for (i = 1; i < n; i += 2) line(list[i], "http://" list[i + 1])
    }
    BEGIN {
        several("page many.test/ page base.test/d/p page hub.test/ moved ring.test/0 page rules.test/ page free.test/x" \
            " shut shut.test/ shut gone.test/ page five.test/ page six.test/ page states.test/ page kinds.test/" \
            " lost lost.test/ page long.test/")
        number++
        for (i = 1; i <= 10000; i++) line(i < 10000 ? "status:404" : "page", "http://leaf.test/" i)
        several("page base.test/e/q status:404 base.test/e/r")
        for (i = 0; i < 300; i++) line("moved", "http://hop.test/" i)
        several("moved ring.test/1 denied:4 rules.test/no/x page rules.test/no/but denied:6 rules.test/a.gif" \
            " status:404 rules.test/a.gifs page rules.test/robots.txt denied:2 five.test/no page five.test/yes page six.test/no")
        several("denied:2 s204.test/no page s300.test/no page s401.test/no page s429.test/no page s499.test/no" \
            " shut s503.test/no shut s599.test/no page s600.test/no page s101.test/no page nowhere.test/no" \
            " page secure.test/no page self.test/no denied:2 other.test/no page late.test/no page port.test/no" \
            " shut port.test:8080/no")
        several("page kinds.test/204 page kinds.test/299 status:300 kinds.test/300 status:301 kinds.test/301" \
            " status:302 kinds.test/302 status:303 kinds.test/303 moved kinds.test/307 moved kinds.test/308" \
            " status:304 kinds.test/304 status:404 kinds.test/404 status:500 kinds.test/500 status:999 kinds.test/999" \
            " status:100 kinds.test/100 lost kinds.test/lost")
        number++
        several("shut shut.test/a shut shut.test/robots.txt")
        while (length(x) < 2031) x = x "x"
        line("status:404", "http://long.test/" x)
    }'
}

# What the pages behind these name, in no order that is told.
wide_rest='moved http://ring.test/2|moved http://ring.test/3|moved http://ring.test/4|page http://kinds.test/end|status:404 http://kinds.test/in|'

# Its report.
#
# offers   15 of seeds, 10,000 of many.test, 2 of base.test, 300 of hub.test and 300 of hop.test, 5 of ring.test, 5 of rules.test,
#          2 of five.test, 1 of six.test, 16 of states.test, 17 of kinds.test with 1 of its /204, 1 of /307 and 1 of /308, 1 of
#          long.test: 10,667
# unique   14 seeds, and 10,000, 2, 300, 4, 5, 2, 1, 16, 18 and 1 of these: 10,363
# pairs    many to leaf, hub to hop, kinds to shut, and states to the domains of its 16 links, port.test being one: 18
# page     10 seeds, /10000 of leaf.test, 1 of base.test, 2 of rules.test, 1 of five.test, 1 of six.test, 11 of states.test, 3 of
#          kinds.test: 30
# moved    5 of ring.test, 300 of hop.test, 2 of kinds.test: 307
# status   9,999 of leaf.test, 1 of base.test, 1 of rules.test, 10 of kinds.test, 1 of long.test: 10,012
# denied   2 of rules.test, 1 of five.test, 2 of states.test: 5
# shut     2 seeds, 3 of states.test, 2 of shut.test: 7
# lost     1 seed, 1 of kinds.test: 2
wide_report=$(report '10667 10667 10363 18 0 0 0 0 10363 30 307 10012 5 7 2 0 0 0')

wide_listing >wide
{ cut -d ' ' -f 2- wide && text "$wide_rest"; } | LC_ALL=C sort >wide-set

# Of 10,100 links, 50 of which are none of http, the first 10,000 others are offered.
try 'answers of every kind' ''
wide_tape 10050
"$program" wide-store replay --buckets 1 <in >out 2>err
gives 0 "$wide_report" ''
"$program" wide-store list >listed 2>err || fail "status $?"
has err ''
awk '$1 < 10360' listed | cmp wide - >told 2>&1 || fail "the list has other lines: $(cat told)"
awk '$1 >= 10360' listed | unnumbered >rest
has rest "$wide_rest"
right

try 'a list of a crawl that is read no further' ''
{
    "$program" wide-store list 2>err
    printf '%s\n' "$?" >status
} | head -n 1 >out
has out '0 page http://many.test/|'
has status '6|'
has err 'output fault|'
"$program" wide-store list >out 2>err
status=$?
[ "$status" -eq 0 ] || fail "status $status, and not 0"
cmp out listed >told 2>&1 || fail "the list has other lines: $(cat told)"
right

# The settings say when what is flushed, merged and postponed, and neither what is offered nor what comes of it. With 300 links
# of many.test there are 9,700 offers and URLs less, of which one is a page.
try 'answers of every kind by other settings' ''
wide_tape 300
awk '/\/leaf\.test\// { split($2, part, "/"); if (part[4] > 300) next } 1' wide-set >narrow-set
for settings in '--queues 5 --batch 70 --delay 0' '--buckets 2 --array 7 --trigger 40 --base 2 --most 30 --ranks 3'; do
    rm -rf wide-other
    "$program" wide-other replay $settings <in >out 2>err
    gives 0 "$(report '967 967 663 18 0 0 0 0 663 29 307 313 5 7 2 0 0 0')" ''
    "$program" wide-other list 2>err | unnumbered >rest
    cmp rest narrow-set >told 2>&1 || fail "the list has other lines: $(cat told)"
done
right

# Page by page

# Writes the tape of a site of 60 URLs on 40 hosts: p0 to p59, of which pI is on host I mod 40. The first 30 are pages. Of the
# others, by I mod 6, five lead elsewhere, five are lost, five are not on the tape and five are denied; and the ten of the
# two that are left are pages, but p34, whose host is shut. A page has links to 2I + 1, 2I + 2 and 2I + 5, all mod 60, so that
# the first one leads to all, and what leads elsewhere leads to the last of these.
hosts_tape() {
    awk '
    function url(i) {
        return "http://h" i % 60 % 40 ".test/p" i % 60
    }
    function robots(status, i) {
        print "page " status " other http://h" i % 40 ".test/robots.txt"
        print "|User-agent: *"
        print "|Disallow: /p" i
        print "end"
    }
    BEGIN {
        print "suffix test"
        print "seed " url(0)
        for (i = 0; i < 60; i++) {
            kind = i < 30 ? "page" : i == 34 ? "shut" : i % 6
            if (kind == "shut") robots(500, i)
            else if (kind == 3) robots(200, i)
            else if (kind == 1) print "lost " url(i)
            else if (kind == 0) print "page 301 other " url(i) "\nto " url(2 * i + 5) "\nend"
            else if (kind != 2) {
                print "page 200 html " url(i)
                print "|<a href=" url(2 * i + 1) "><a href=" url(2 * i + 2) "><a href=" url(2 * i + 5) ">"
                print "end"
            }
        }
    }' >in
}

# What is listed of it, without numbers.
hosts_listing() {
    awk 'BEGIN {
        split("lost status:404 denied:2 page page", fates, " ")
        fates[0] = "moved"
        for (i = 0; i < 60; i++) {
            fate = i < 30 ? "page" : i == 34 ? "shut" : fates[i % 6]
            print fate " http://h" i % 40 ".test/p" i
        }
    }' | LC_ALL=C sort
}

# Its report behind this many runs. Each offers the seed; the 39 pages have three links each and the 5 that lead elsewhere one
# location: 123 offers with one seed. Of these 122 links two lead to their own page, p58 and p59, and three from a host whose
# other page leads to the same one: p58 to h1, p59 to h0 and to h3. So there are 117 pairs of domains.
hosts_report() {
    report "$((122 + $1)) $((122 + $1)) 60 117 0 0 0 0 60 39 5 5 5 1 5 0 0 0"
}

small='--buckets 4 --array 2 --trigger 3 --queues 1 --base 1'
hosts_listing >hosts-set

# The store of the case has this list.
lists() {
    "$program" "$1" list 2>err | unnumbered >rest
    cmp rest "$2" >told 2>&1 || fail "the list has other lines: $(cat told)"
}

try 'many hosts' ''
hosts_tape
for settings in '' "$small --batch 3"; do
    rm -rf hosts
    "$program" hosts replay $settings <in >out 2>err
    gives 0 "$(hosts_report 1)" ''
    lists hosts hosts-set
done
right

# The 61st run finds nothing to do.
try 'many hosts, a page a run' ''
hosts_tape
for settings in '' "$small"; do
    rm -rf paged
    "$program" paged replay --pages 1 $settings <in >out 2>err || fail "status $? of run 1: $(cat err)"
    run=1
    while [ "$run" -le 60 ]; do
        grep -qx "done $run" out || fail "run $run has told '$(grep done out)'"
        run=$((run + 1))
        "$program" paged replay --pages 1 <in >out 2>err || fail "status $? of run $run: $(cat err)"
    done
    gives 0 "$(hosts_report 61)" ''
    lists paged hosts-set
done
right

# Cut off

# Writes the tape of a site of so many pages on 16 hosts, of which each leads to two below it and to another.
site() {
    awk -v pages="$1" '
    function link(i) {
        if (i < pages) print "|<a href=\"http://s" i % 16 ".test/p" i "\">x</a>"
    }
    BEGIN {
        print "suffix test"
        print "seed http://s0.test/p0"
        for (i = 0; i < pages; i++) {
            print "page 200 html http://s" i % 16 ".test/p" i
            link(2 * i + 1)
            link(2 * i + 2)
            link((7 * i + 3) % pages)
            print "end"
        }
    }' >in
}

# What is listed of it, without numbers.
site_listing() {
    awk -v pages="$1" 'BEGIN { for (i = 0; i < pages; i++) print "page http://s" i % 16 ".test/p" i }' | LC_ALL=C sort
}

# All but the first page have one link from above, and all have the other: with the seed twice as many offers as pages. From a
# host i the links go to 2i + 1, 2i + 2 and 7i + 3, mod 16. Of the 48 two lead to their own host, of i = 14 and i = 15, and of
# 3 and 6 two lead to one: 44 pairs.
try 'a site' ''
site 2000
"$program" site replay --buckets 4 --array 64 --trigger 256 --batch 100 <in >out 2>err
gives 0 "$(report '4000 4000 2000 44 0 0 0 0 2000 2000 0 0 0 0 0 0 0 0')" ''
site_listing 2000 >site-set
lists site site-set
right

# Killed once its journal is so many elevenths as long as that of the whole crawl, and shown then: what is settled stays, under
# its number. It may have ended before it is killed, but not each time.
try 'a crawl that is killed' ''
site 2000
whole=$(wc -c <site/0001)
killed=0
for moment in 1 2 3 4 5 6 7 8 9 10; do
    "$program" "cut-$moment" replay --buckets 4 --array 64 --trigger 256 --batch 100 <in >out 2>err &
    crawl=$!
    while kill -0 "$crawl" 2>/dev/null; do
        [ ! -e "cut-$moment/0001" ] || [ $(($(wc -c <"cut-$moment/0001") * 11)) -lt $((whole * moment)) ] || break
    done
    kill -KILL "$crawl" 2>/dev/null
    wait "$crawl" 2>/dev/null
    [ "$?" -ne 137 ] || killed=$((killed + 1))
    "$program" "cut-$moment" list >cut-listed 2>err || fail "status $? where it was killed at moment $moment: $(cat err)"
    "$program" "cut-$moment" replay --batch 100 <in >out 2>err || fail "status $? where it goes on: $(cat err)"
    sed -e '1s/^offers [0-9]*$/offers 0/' -e '2s/^judged [0-9]*$/judged 0/' out >rest
    has rest "$(report '0 0 2000 44 0 0 0 0 2000 2000 0 0 0 0 0 0 0 0')"
    lists "cut-$moment" site-set
    "$program" "cut-$moment" list >listed 2>err || fail "status $?"
    stays cut-listed listed
    rm -rf "cut-$moment"
done
[ "$killed" -ge 5 ] || fail "of ten crawls $killed were killed"
right

# Disks and folders

# Of a crawl that found no room all that was settled stays, and where there is room again the rest is crawled.
goes_on() {
    "$program" "$1" list >cut-listed 2>err || fail "status $? where there was no room: $(cat err)"
    "$program" "$1" replay --batch 50 <in >out 2>err || fail "status $? where there is room again: $(cat err)"
    grep -qx 'unique 500' out && grep -qx 'done 500' out || fail "it printed '$(tr '\n' '|' <out)'"
    lists "$1" few-set
    "$program" "$1" list >listed 2>err || fail "status $? of the list"
    stays cut-listed listed
}

site_listing 500 >few-set
few='--buckets 1 --array 16 --trigger 64 --batch 50'

try 'a crawl into a file that may not grow' ''
site 500
for workers in 1 16; do
    {
        (
            trap '' XFSZ
            ulimit -f 32
            exec "$program" "bounded-$workers" replay $few --workers $workers <in 2>err
        )
        printf '%s\n' "$?" >status
    } | cat >out
    status=$(cat status)
    tells_fault "bounded-$workers" 27
    has out ''
    goes_on "bounded-$workers"
done
right

try 'a crawl onto a full disk' ''
site 500
mkdir disk
if mount -t tmpfs -o size=96k tmpfs disk 2>/dev/null; then
    umount disk
    for workers in 1 16; do
        mount -t tmpfs -o size=96k tmpfs disk || fail 'a small disk can be mounted once only'
        "$program" disk/store replay $few --workers $workers <in >out 2>err
        status=$?
        mount -o remount,size=16m disk || fail 'the disk did not get room'
        tells_fault disk/store 28
        has out ''
        goes_on disk/store
        mount -o remount,ro disk || fail 'the disk may still be written'
        "$program" disk/store replay --workers $workers <in >out 2>err
        status=$?
        mount -o remount,rw disk || fail 'the disk may not be written again'
        tells_fault disk/store 30
        has out ''
        lists disk/store few-set
        umount disk
    done
    right
else
    pass_over 'no small disk can be mounted here'
fi

# It has the folder from before it reads its tape until it ends.
try 'a folder that a crawl has' ''
site 20
mkfifo feed
"$program" held replay <feed >first-out 2>first-err &
first=$!
exec 3>feed
tries=0
while [ ! -s held/0000 ]; do
    tries=$((tries + 1))
    [ "$tries" -lt 600 ] || fail 'the first program never had the folder'
    sleep 0.1
done
for command in replay show list seen; do
    "$program" held "$command" <in >out 2>err
    gives 4 '' 'disk fault|irl: held is in use by another program|'
done
cat in >&3
exec 3>&-
wait "$first"
status=$?
[ "$status" -eq 0 ] || fail "the first program ended with status $status: $(cat first-err)"
grep -qx 'done 20' first-out || fail "it printed '$(tr '\n' '|' <first-out)'"
has first-err ''
rm feed
right

# A made-up site, with pages on 16 hosts; a second run offers the seed once more.
try 'a made-up site' ''
"$program" made gen 2000 --delay 0 <in >out 2>err
gives 0 "$(report '4000 4000 2000 44 0 0 0 0 2000 2000 0 0 0 0 0 0 0 0')" ''
"$program" made show >out 2>err
gives 0 "$(report '4000 4000 2000 44 0 0 0 0 2000 2000 0 0 0 0 0 0 0 0')" ''
"$program" made gen 2000 <in >out 2>err
gives 0 "$(report '4001 4001 2000 44 0 0 0 0 2000 2000 0 0 0 0 0 0 0 0')" ''
"$program" made-alone gen 1 <in >out 2>err
gives 0 "$(report '2 2 1 0 0 0 0 0 1 1 0 0 0 0 0 0 0 0')" ''
"$program" made-alone list >out 2>err
gives 0 '0 page http://s0.test/p0|' ''
right

finish
