#!/bin/sh
# How long `crawl` takes by several workers, beside other crawlers and beside curl, over one server: a made-up site on 64 hosts of
# 16 domains, half of the hosts with a robots file, ten links a page, that nginx serves on loopback by two workers.
#   crawl.sh [-r ROW[,ROW..]] PROGRAM FOLDER [PAGES [RUNS [PORT]]]
# PROGRAM is the built `irl`. In one run, over a site of PAGES pages (10,000), each row does its work RUNS times (3), turn by turn
# and in new folders under FOLDER. These are the rows, all of them where -r names none:
#   irl 1, irl 4, irl 16     the program as `crawl --delay 0`, by so many workers
#   irl 2 on 2, irl 16 on 2  the same, kept on two processors by taskset
#   wget                     `wget -r -l inf -H`; it waits between retries and not between pages
#   httrack                  16 connections, to all hosts, and by the robots files (`-s2`). `-%c0 -A0` take off its limits of
#                            connections and bytes a second: with limits, even high ones, it waits for most of each second.
#                            `-C0 -I0` leave out its cache and its index
#   linkchecker              16 threads; it asks a host more than ten times a second only where that sends a header with its name,
#                            and so waits once for each
#   scrapy                   16 requests at a time, and a spider that follows each link
#   curl                     one that is told all URLs and makes a connection for each
#   4 curls                  four of them side by side, a quarter of the URLs for each: what the server gives at most
# The other crawlers find the server by http_proxy, or by an option of theirs. Prints a line for each row: pages a second, the
# seconds that went by and those of the processor, the share of all this machine's processors that were in use meanwhile, by
# the server and whatever else runs too, and MiB of memory at most, of `4 curls` that of the largest. The least of each measure
# counts. How many pages were fetched is what the server answered with 200, each URL once; a line whose program fetched others
# than all pages says so. Where a program isn't installed its line is `skip`. Then follows how the rows compare.
set -eu
usage() {
    echo "usage: crawl.sh [-r ROW[,ROW..]] PROGRAM FOLDER [PAGES [RUNS [PORT]]]" >&2
    exit 2
}
all='irl 1,irl 4,irl 16,irl 2 on 2,irl 16 on 2,wget,httrack,linkchecker,scrapy,curl,4 curls'
rows=$all
while getopts r: option; do
    [ "$option" = r ] || usage
    rows=$OPTARG
done
shift $((OPTIND - 1))
[ $# -ge 2 ] || usage
echo "$rows" | tr ',' '\n' | while read -r row; do
    case ,$all, in
    *,"$row",*) ;;
    *)
        echo "there is no row '$row': the rows are $all" >&2
        exit 1
        ;;
    esac
done || exit 2
program=$1
here=$(cd "$(dirname "$0")" && pwd)
pages=${3-10000}
runs=${4-3}
port=${5-8099}
command -v nginx >/dev/null || {
    echo "skip: nginx isn't installed"
    exit 0
}
. "$here/site.sh"
room=$(mktemp -d "$2/crawl.XXXXXX")
server=
leave() {
    [ -z "$server" ] || kill "$server" 2>/dev/null || :
    [ -z "$server" ] || wait "$server" 2>/dev/null || :
    rm -rf "$room"
}
trap leave EXIT
trap 'exit 1' HUP INT TERM
cc -O2 -o "$room/measure" "$here/measure.c"

# The site, the tape that a crawl of it begins with, and its URLs, for one curl and dealt out to four.
tape "$pages" >"$room/pages"
unpack "$room/site" <"$room/pages"
grep -e '^suffix' -e '^seed' "$room/pages" >"$room/tape"
sed -n 's/^page 200 html //p' "$room/pages" | awk -v name="$room/urls" '{
    told = sprintf("url = \"%s\"\noutput = \"/dev/null\"", $0)
    print told >name
    print told >(name NR % 4)
}'

mkdir "$room/temp"
cat >"$room/nginx.conf" <<CONFIG
$([ "$(id -u)" -ne 0 ] || echo "user root;")
daemon off;
worker_processes 2;
error_log $room/error.log;
pid $room/nginx.pid;
events { worker_connections 256; }
http {
    log_format told '\$status \$host\$request_uri';
    access_log $room/told told;
    client_body_temp_path $room/temp/body;
    proxy_temp_path $room/temp/proxy;
    fastcgi_temp_path $room/temp/fastcgi;
    uwsgi_temp_path $room/temp/uwsgi;
    scgi_temp_path $room/temp/scgi;
    default_type text/html;
    types { text/plain txt; }
    add_header LinkChecker yes always;
    server {
        listen 127.0.0.1:$port;
        root $room/site/\$host;
    }
}
CONFIG

# What linkchecker and scrapy are told.
cat >"$room/linkchecker.conf" <<CONFIG
[checking]
threads=16
maxrequestspersecond=1000000
[filtering]
internlinks=^http://h[0-9]+\.d[0-9]+\.test/
CONFIG
cat >"$room/spider.py" <<SPIDER
import scrapy


class Pages(scrapy.Spider):
    name = "pages"
    start_urls = ["http://h0.d0.test/p0"]

    def parse(self, response):
        for link in response.css("a::attr(href)").getall():
            yield response.follow(link)
SPIDER

nginx -p "$room" -c "$room/nginx.conf" >"$room/nginx.out" 2>&1 &
server=$!
for _ in $(seq 50); do
    [ ! -s "$room/nginx.pid" ] || break
    sleep 0.1
done
kill -0 "$server" 2>/dev/null || {
    cat "$room/nginx.out" "$room/error.log" >&2
    exit 1
}

# How long all processors have been in use, and at all, in ticks.
ticks() {
    awk '$1 == "cpu" { printf "%.0f %.0f\n", $2 + $3 + $4 + $7 + $8, $2 + $3 + $4 + $5 + $6 + $7 + $8 + $9 }' /proc/stat
}

# Whether the row is wanted and the program, the second word, is there.
wants() {
    case ,$rows, in
    *,"$1",*) command -v "$2" >/dev/null ;;
    *) false ;;
    esac
}

# Runs the command behind the name in a new folder, and keeps what it took and how many pages the server gave meanwhile. The
# server writes its log once a page is sent, so that its last lines may come behind the command's end.
measure() {
    name=$1
    shift
    rm -rf "$room/work"
    mkdir "$room/work"
    sync -f "$room"
    : >"$room/told"
    status=0
    before=$(ticks)
    "$room/measure" "$room/took" "$@" >"$room/out" 2>"$room/errors" <"$room/tape" || status=$?
    after=$(ticks)
    sleep 0.2
    used=$(echo "$before $after" | awk '{ print 100 * ($3 - $1) / ($4 > $2 ? $4 - $2 : 1) }')
    fetched=$(awk '$1 == 200 && $2 ~ /\/p[0-9]+$/ && !seen[$2]++ { count++ } END { print count + 0 }' "$room/told")
    echo "$(cat "$room/took") $used $fetched $status $name" >>"$room/times"
}

# A crawl by so many workers, with the words before the program.
irl() {
    name=$1
    workers=$2
    shift 2
    ! wants "$name" "$program" || ! command -v "${1-$program}" >/dev/null ||
        measure "$name" "$@" "$program" "$room/work/store" crawl --port "$port" --delay 0 --workers "$workers"
}

: >"$room/times"
export HOME="$room/work" XDG_CONFIG_HOME="$room/work" XDG_DATA_HOME="$room/work"
first=http://h0.d0.test/p0
for _ in $(seq "$runs"); do
    irl 'irl 1' 1
    irl 'irl 4' 4
    irl 'irl 16' 16
    irl 'irl 2 on 2' 2 taskset -c 0,1
    irl 'irl 16 on 2' 16 taskset -c 0,1
    export http_proxy="http://127.0.0.1:$port"
    ! wants wget wget ||
        measure wget wget -q -r -l inf -H -P "$room/work/wget" "$first"
    ! wants httrack httrack ||
        measure httrack httrack "$first" -O "$room/work/httrack" -P "127.0.0.1:$port" -e -c16 -%c0 -A0 \
            --disable-security-limits -C0 -I0 -s2 -q -Q
    ! wants linkchecker linkchecker ||
        measure linkchecker linkchecker -f "$room/linkchecker.conf" -o none --no-status --no-warnings "$first"
    ! wants scrapy scrapy ||
        measure scrapy scrapy runspider --nolog -s ROBOTSTXT_OBEY=1 -s CONCURRENT_REQUESTS=16 \
            -s CONCURRENT_REQUESTS_PER_DOMAIN=16 "$room/spider.py"
    unset http_proxy
    ! wants curl curl ||
        measure curl curl -s -K "$room/urls" -H 'Connection: close' --connect-to "::127.0.0.1:$port"
    ! wants '4 curls' curl ||
        measure '4 curls' sh -c '
            for part in 0 1 2 3; do
                curl -s -K "$1$part" -H "Connection: close" --connect-to "::127.0.0.1:$2" &
                all="${all-} $!"
            done
            status=0
            for one in $all; do wait "$one" || status=$?; done
            exit $status' sh "$room/urls" "$port"
done

echo "$rows" | tr ',' '\n' | awk -v pages="$pages" '
    FNR == NR {
        name = $7
        for (i = 8; i <= NF; i++) name = name " " $i
        for (i = 1; i <= 5; i++) if (!((name, i) in least) || $i < least[name, i]) least[name, i] = $i
        if ($6 != 0) status[name] = $6
        runs[name]++
        next
    }
    # How many pages a second these rows fetched, or 0 where one is missing.
    function rate(name) { return name in runs ? least[name, 5] / least[name, 1] : 0 }
    function compare(name, other, text) {
        if (rate(name) && rate(other)) printf "%s: %.2f %s\n", name, rate(name) / rate(other), text
    }
    FNR == 1 { printf "%-12s %9s %9s %9s %9s %9s\n", "", "pages/s", "seconds", "cpu", "in use", "peak MiB" }
    {
        if (!($0 in runs)) { printf "%-12s skip\n", $0; next }
        note = least[$0, 5] == pages ? "" : sprintf("  fetched %d pages, not %d", least[$0, 5], pages)
        if ($0 in status) note = note sprintf("  status %d", status[$0])
        printf "%-12s %9.0f %9.2f %9.2f %8.0f%% %9.1f%s\n", $0, rate($0), least[$0, 1], least[$0, 2], least[$0, 4],
            least[$0, 3], note
    }
    END {
        compare("irl 4", "irl 1", "times one worker")
        compare("irl 16", "4 curls", "of what four curls fetch")
        n = split("wget httrack linkchecker scrapy", crawlers, " ")
        for (i = 1; i <= n; i++) if (rate(crawlers[i]) > rate(fastest)) fastest = crawlers[i]
        if (fastest != "") for (w = 1; w <= 16; w *= 4) compare("irl " w, fastest, "times the fastest other crawler, " fastest)
        if (rate("irl 2 on 2") && rate("irl 16 on 2"))
            printf "irl 16 on 2: %.2f times as long as irl 2 on 2\n", least["irl 16 on 2", 1] / least["irl 2 on 2", 1]
    }' "$room/times" -
