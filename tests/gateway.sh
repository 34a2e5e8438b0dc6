#!/bin/sh
# The command crawl, over servers on this machine: nginx, and small ones that answer with the bytes that they are told.

. "$(dirname -- "$0")/common.sh"

# The server that runs just now.
server=
leave() {
    [ -z "$server" ] || kill "$server" 2>/dev/null
    [ -z "$server" ] || wait "$server" 2>/dev/null
    chmod -R u+rwx "$room"
    rm -rf "$room"
}
trap leave EXIT

# Ends the server once it has written all that it tells.
stop() {
    kill "-$1" "$server" 2>/dev/null
    wait "$server" 2>/dev/null
    server=
}

# Writes the lines of `list` of a folder without their numbers, in one order, into a file.
fates() {
    "$program" "$1" list >listed 2>err || fail "status $? of the list of $1: $(tr '\n' '|' <err)"
    has err ''
    unnumbered <listed >"$2"
}

# Without a server

# Nothing listens at this port of any system that is used; where something does, the case is another one.
try 'a port where nobody answers' 'suffix test|seed http://www.a.test/|'
"$program" refused crawl --port 1 --delay 0 <in >out 2>err
gives 0 "$(report '1 1 1 0 0 0 0 0 1 0 0 0 0 1 0 0 0 0')" ''
"$program" refused list >out 2>err
gives 0 '0 shut http://www.a.test/|' ''
right

try 'a tape that has pages' 'seed http://a.test/|page 200 html http://a.test/|end|'
"$program" paged crawl --port 1 --delay 0 <in >out 2>err
gives 2 '' 'line 2 refused|'
text 'lost http://a.test/|' >in
"$program" paged crawl --port 1 --delay 0 <in >out 2>err
gives 2 '' 'line 1 refused|'
right

try 'no seed' ''
"$program" unseeded crawl --port 1 <in >out 2>err
gives 0 "$(report '0 0 0 0 0 0 0 0 0 0 0 0 0 0 0 0 0 0')" ''
right

# By a server that answers with files

# For each connection it reads a request, keeps it, sends the file of the request's host and target as it is, and closes; where
# there is none it answers 404. The file `port` tells its port. It ends by itself after so many connections, and else is stopped.
# It answers nobody before so many connections stand at once, of which the file `standing` has the number.
cat >server.py <<'PYTHON'
import os, socket, sys
folder, most, together = sys.argv[1], int(sys.argv[2]), int(sys.argv[3])
listener = socket.socket()
listener.bind(('127.0.0.1', 0))
listener.listen(64)
with open(folder + '/port.new', 'w') as file:
    file.write(str(listener.getsockname()[1]))
os.rename(folder + '/port.new', folder + '/port')
count = 0
waiting = []
while most == 0 or count < most:
    while len(waiting) < together:
        waiting.append(listener.accept()[0])
        with open(folder + '/standing', 'w') as file:
            file.write(str(len(waiting)))
    together = 0
    peer = waiting.pop(0) if waiting else listener.accept()[0]
    count += 1
    request = b''
    while not request.endswith(b'\r\n\r\n'):
        piece = peer.recv(4096)
        if not piece:
            break
        request += piece
    with open(folder + '/requests', 'ab') as file:
        file.write(request)
    words = request.split()
    name = (words[4] + words[1]).decode().replace('/', '!') if len(words) > 4 else 'none'
    try:
        with open(folder + '/' + name, 'rb') as file:
            reply = file.read()
    except OSError:
        reply = b'HTTP/1.1 404 Not Found\r\nContent-Length: 0\r\n\r\n'
    try:
        peer.sendall(reply)
    except OSError:
        pass
    peer.close()
PYTHON

# Starts the server over a folder, for so many connections, or without end; where it is told, answering once so many stand.
serve() {
    python3 server.py "$1" "$2" "${3-0}" 2>"$1/log" &
    server=$!
    for _ in $(seq 100); do
        [ ! -s "$1/port" ] || break
        sleep 0.1
    done
    [ -s "$1/port" ] || fail "the server did not start: $(tail -n 1 "$1/log")"
    port=$(cat "$1/port")
}

# Waits until so many connections stand that the server over a folder doesn't answer yet.
await_standing() {
    for _ in $(seq 100); do
        [ "$(cat "$1/standing" 2>/dev/null)" != "$2" ] || return 0
        sleep 0.1
    done
    fail "there stand $(cat "$1/standing" 2>/dev/null) connections, and not $2"
}

# Puts the answer to a URL, of a host and a target, into a folder: the head's lines, each ended by CR LF, and then the body.
reply() {
    at="$1/$(printf '%s' "$2" | tr / '!')"
    printf '%s' "$3|" | sed 's/|/\r\n/g' >"$at"
    printf '\r\n' >>"$at"
    text "$4" >>"$at"
}

# The same of a page with its length.
page() {
    reply "$1" "$2" "HTTP/1.1 200 OK|Content-Type: $3|Content-Length: $(printf '%s' "$4" | wc -c)" "$4"
}

# The request of a host and a target, by an agent.
asks() {
    printf 'GET %s HTTP/1.1\r\nHost: %s\r\nUser-Agent: %s\r\nAccept-Encoding: identity\r\nConnection: close\r\n\r\n' "$2" "$1" "$3"
}

# The pages of a small tape, as answers in a folder: all but the robots files of two hosts, and a page that is gone.
small_site() {
    mkdir "$1"
    page "$1" www.a.test/robots.txt text/plain 'User-agent: *|Disallow: /private|'
    page "$1" www.a.test/ text/html \
        '<a href="/one">1</a>|<a href="/private/x">2</a>|<a href="http://b.test/">3</a>|<a href="/one#top">4</a>|'
    reply "$1" www.a.test/one 'HTTP/1.1 301 Moved Permanently|Location: http://c.test/new|Content-Length: 0' ''
    page "$1" b.test/ text/html \
        '<a href="http://www.a.test/">a</a>|<a href="http://c.test/new">c</a>|<a href="https://c.test/secure">s</a>|<a href="/gone">g</a>|'
    page "$1" c.test/new text/html '<a href="http://b.test/">b</a>|'
}

if command -v python3 >/dev/null 2>&1; then
    # Eight connections, three of them for robots files. A further one would be refused, and change the report.
    try 'a small site' 'suffix test|seed http://www.a.test/|'
    small_site small
    serve small 8
    "$program" crawled crawl --buckets 1 --port "$port" --delay 0 <in >out 2>err
    gives 0 "$tape_report" ''
    "$program" crawled list >out 2>err
    gives 0 "$tape_listing" ''
    wait "$server" || fail "the server ended with status $?: $(tail -n 1 small/log)"
    server=
    {
        asks www.a.test /robots.txt irlbot
        asks www.a.test / irlbot
        asks www.a.test /one irlbot
        asks b.test /robots.txt irlbot
        asks b.test / irlbot
        asks c.test /robots.txt irlbot
        asks c.test /new irlbot
        asks b.test /gone irlbot
    } | LC_ALL=C sort >requests-wanted
    LC_ALL=C sort small/requests >asked
    same requests-wanted asked
    right

    # What was done is not asked for again: there is no server any more.
    try 'a crawl that has nothing left' 'suffix test|seed http://www.a.test/|'
    "$program" crawled crawl --port "$port" --delay 0 <in >out 2>err
    gives 0 "$(report '11 11 6 5 0 0 0 0 6 3 1 1 1 0 0 0 0 0')" ''
    right

    try 'a small site at the defaults' 'suffix test|seed http://www.a.test/|'
    small_site defaults
    serve defaults 8
    "$program" defaulted crawl --port "$port" --delay 0 <in >out 2>err
    gives 0 "$tape_report" ''
    stop TERM
    right

    # A robots file is kept for a day: the second run asks for pages of the host, and not for that file again.
    try 'a robots file that an earlier run was given' 'suffix test|seed http://www.a.test/|'
    small_site noted
    serve noted 0
    for pages in 1 100; do
        "$program" noting crawl --port "$port" --delay 0 --pages $pages <in >out 2>err
        status=$?
        [ "$status" -eq 0 ] || fail "status $status of the run up to $pages pages: $(tr '\n' '|' <err)"
    done
    stop TERM
    tr -d '\r' <noted/requests | grep -B 1 '^Host: www.a.test$' | grep -o 'GET [^ ]*' >paths
    has paths 'GET /robots.txt|GET /|GET /one|'
    right

    # By however many workers it is asked for the same, and the same comes of it.
    try 'a small site by 4 and 16 workers' 'suffix test|seed http://www.a.test/|'
    text "$tape_listing" | unnumbered >fates-wanted
    for workers in 4 16; do
        small_site "small-$workers"
        serve "small-$workers" 8
        "$program" "crawled-$workers" crawl --port "$port" --delay 0 --workers $workers <in >out 2>err
        gives 0 "$tape_report" ''
        stop TERM
        fates "crawled-$workers" fates-found
        same fates-wanted fates-found
        LC_ALL=C sort "small-$workers/requests" >asked
        same requests-wanted asked
    done
    right

    # Each of sixteen hosts has a worker, and the server answers none of them before all have asked. One that waits for another
    # gives up after 30 seconds.
    try 'sixteen fetches at the same time' ''
    for host in 1 2 3 4 5 6 7 8 9 10 11 12 13 14 15 16; do
        printf 'seed http://h%s.test/\n' "$host"
    done >in
    mkdir together
    serve together 0 16
    "$program" together-store crawl --port "$port" --delay 0 --workers 16 <in >out 2>err
    gives 0 "$(report '16 16 16 0 0 0 0 0 16 0 0 16 0 0 0 0 0 0')" ''
    stop TERM
    right

    # What sixteen workers wait for is not lost: the next run asks for it.
    try 'a crawl that is ended while it waits' ''
    for host in 1 2 3 4 5 6 7 8 9 10 11 12 13 14 15 16; do
        printf 'seed http://h%s.test/\n' "$host"
    done >in
    mkdir waiting
    serve waiting 0 17
    "$program" waiting-store crawl --port "$port" --delay 0 --workers 16 <in >out 2>err &
    crawler=$!
    await_standing waiting 16
    kill -TERM "$crawler"
    wait "$crawler" 2>/dev/null
    gives 143 '' ''
    stop TERM
    rm waiting/port
    serve waiting 0
    "$program" waiting-store crawl --port "$port" --delay 0 --workers 16 <in >out 2>err
    gives 0 "$(report '32 32 16 0 0 0 0 0 16 0 0 16 0 0 0 0 0 0')" ''
    stop TERM
    right

    # Its reads end without a byte where a shell stops it and lets it go on, and are made again. The server answers once another
    # crawl asks it too.
    try 'a crawl that is stopped for a moment' 'seed http://a.test/|'
    mkdir stopped
    serve stopped 0 2
    "$program" stopped-store crawl --port "$port" --delay 0 <in >out 2>err &
    crawler=$!
    await_standing stopped 1
    sleep 0.5
    kill -STOP "$crawler"
    sleep 0.1
    kill -CONT "$crawler"
    "$program" stopped-other crawl --port "$port" --delay 0 <in >other-out 2>other-err
    wait "$crawler"
    gives 0 "$(report '1 1 1 0 0 0 0 0 1 0 0 1 0 0 0 0 0 0')" ''
    stop TERM
    right

    # No connection takes the place of a stream.
    try 'a small site with closed streams' 'suffix test|seed http://www.a.test/|'
    small_site streams
    serve streams 0
    "$program" streams-store crawl --port "$port" --delay 0 --workers 16 <in >&- 2>&-
    gives 6 '' ''
    "$program" streams-store show >out 2>err
    gives 0 "$tape_report" ''
    "$program" streams-errors crawl --port "$port" --delay 0 --workers 16 <in >out 2>&-
    gives 0 "$tape_report" ''
    stop TERM
    right

    # The request for the robots file starts first, and those for two pages a second later each: no run of them is shorter.
    try 'a second between two fetches of a host' 'seed http://a.test/1|seed http://a.test/2|'
    mkdir paused
    serve paused 3
    since=$(date +%s)
    "$program" paused-store crawl --buckets 1 --port "$port" <in >out 2>err
    gives 0 "$(report '2 2 2 0 0 0 0 0 2 0 0 2 0 0 0 0 0 0')" ''
    [ $(($(date +%s) - since)) -ge 2 ] || fail "three fetches of a host took less than two seconds"
    stop TERM
    right

    # On a terminal, here one that `script` makes, standard error has a line of progress, which is written at most twice a second
    # and taken away before the report. A crawl of eight pages by the server's own time takes more than two seconds.
    try 'a line of progress on a terminal' ''
    if command -v script >/dev/null 2>&1 && script --version 2>/dev/null | grep -q util-linux; then
        for page in 1 2 3 4 5 6 7 8; do
            printf 'seed http://a.test/%s\n' "$page"
        done >in
        mkdir watched
        serve watched 0
        export program port
        SHELL=/bin/sh script -qec '"$program" watched-store crawl --buckets 1 --port "$port" --delay 300 <in >out' /dev/null >shown
        gives 0 "$(report '8 8 8 0 0 0 0 0 8 0 0 8 0 0 0 0 0 0')" ''
        tr '\r' '\n' <shown | sed 's/\x1b\[K/<clear>/' >lines
        grep -c ' fetched, ' lines >count
        [ "$(cat count)" -ge 2 ] || fail "it showed '$(tr '\n' '|' <lines)'"
        sed -e 1d -e '$d' lines | grep -Evx '[0-9]+ fetched, [0-9]+ a second, [0-9]+\.[0-9] MiB, [0-9]+:[0-9]{2}<clear>' >strange
        has strange ''
        [ "$(tail -n 1 lines)" = '<clear>' ] || fail "it ends with '$(tail -n 1 lines)'"
        seconds=$(tail -n 2 lines | awk -F '[ :<]' 'NR == 1 { print 60 * $(NF - 2) + $(NF - 1) }')
        [ "$(cat count)" -le $((2 * seconds + 2)) ] || fail "it showed $(cat count) lines in $seconds seconds"
        # The report on the same terminal begins once the line is away.
        SHELL=/bin/sh script -qec '"$program" watched-too crawl --buckets 1 --port "$port" --delay 300 <in' /dev/null >shown
        tr -d '\r' <shown | sed -e 's/.*\x1b\[K//' >lines
        has lines "$(report '8 8 8 0 0 0 0 0 8 0 0 8 0 0 0 0 0 0')"
        # A file sees nothing of it.
        "$program" watched-not crawl --buckets 1 --port "$port" --delay 300 <in >out 2>err
        gives 0 "$(report '8 8 8 0 0 0 0 0 8 0 0 8 0 0 0 0 0 0')" ''
        stop TERM
        right
    else
        pass_over 'script of util-linux is not installed'
    fi

    # Another agent has rules of its own, and tells its name.
    try 'another agent' 'seed http://a.test/|'
    mkdir agents
    page agents a.test/robots.txt text/plain 'User-agent: irlbot|Disallow: /|User-agent: Other-Bot|Disallow: /x|'
    page agents a.test/ text/html '<a href="/x">x</a>|'
    serve agents 0
    "$program" other crawl --buckets 1 --port "$port" --delay 0 --agent other-bot <in >out 2>err
    gives 0 "$(report '2 2 2 0 0 0 0 0 2 1 0 0 1 0 0 0 0 0')" ''
    { asks a.test /robots.txt other-bot && asks a.test / other-bot; } >wanted
    same wanted agents/requests
    "$program" own crawl --buckets 1 --port "$port" --delay 0 <in >out 2>err
    gives 0 "$(report '1 1 1 0 0 0 0 0 1 0 0 0 1 0 0 0 0 0')" ''
    stop TERM
    right

    # A robots file that closes early shuts its host; a page that does is lost; and so is one of which nothing came.
    try 'servers that close early' 'seed http://a.test/|seed http://b.test/|seed http://b.test/nothing|seed http://b.test/head|'
    mkdir closing
    reply closing a.test/robots.txt 'HTTP/1.1 200 OK|Content-Length: 100' 'User-agent: *|'
    reply closing b.test/ 'HTTP/1.1 200 OK|Content-Type: text/html|Content-Length: 100' '<a href="/x">x</a>|'
    : >'closing/b.test!nothing'
    printf 'HTTP/1.1 200 OK\r\nContent-' >'closing/b.test!head'
    serve closing 0
    "$program" early crawl --buckets 1 --port "$port" --delay 0 <in >out 2>err
    gives 0 "$(report '4 4 4 0 0 0 0 0 4 0 0 0 0 1 3 0 0 0')" ''
    fates early out
    has out 'lost http://b.test/|lost http://b.test/head|lost http://b.test/nothing|shut http://a.test/|'
    stop TERM
    right

    # The end of a connection is the end of a page without a length, and chunks end with the one of no bytes.
    try 'answers of every kind' 'seed http://a.test/plain|seed http://a.test/chunks|seed http://a.test/bad|seed http://a.test/packed|seed http://a.test/secure|'
    mkdir kinds
    reply kinds a.test/plain 'HTTP/1.0 200 OK|Content-Type: text/html' '<a href="/from-plain">1</a>|'
    reply kinds a.test/chunks 'HTTP/1.1 200 OK|Content-Type: text/html|Transfer-Encoding: chunked' ''
    printf '%s\r\n' '9' '<a href="' '13' '/from-chunks">2</a>' '0' '' >>'kinds/a.test!chunks'
    printf 'SSH-2.0-OpenSSH_9.2\r\n\r\n' >'kinds/a.test!bad'
    reply kinds a.test/packed 'HTTP/1.1 200 OK|Transfer-Encoding: gzip' '<a href="/none">3</a>|'
    reply kinds a.test/secure 'HTTP/1.1 301 Moved|Location: https://a.test/secure|Content-Length: 0' ''
    serve kinds 0
    "$program" kinds-store crawl --buckets 1 --port "$port" --delay 0 <in >out 2>err
    gives 0 "$(report '7 7 7 0 0 0 0 0 7 2 0 3 0 0 0 1 0 1')" ''
    fates kinds-store out
    has out 'bad http://a.test/bad|coded http://a.test/packed|page http://a.test/chunks|page http://a.test/plain|status:301 http://a.test/secure|status:404 http://a.test/from-chunks|status:404 http://a.test/from-plain|'
    stop TERM
    right

    # A host is its name with a port, where that isn't the one of http, and both are reached at the same place.
    try 'hosts with ports' 'seed http://a.test:80/|seed http://a.test:8081/x|'
    mkdir ports
    page ports a.test:8081/robots.txt text/plain 'User-agent: *|Disallow: /|'
    page ports a.test/ text/plain 'a|'
    serve ports 3
    "$program" ports-store crawl --buckets 1 --port "$port" --delay 0 <in >out 2>err
    gives 0 "$(report '2 2 2 0 0 0 0 0 2 1 0 0 1 0 0 0 0 0')" ''
    { asks a.test /robots.txt irlbot && asks a.test / irlbot && asks a.test:8081 /robots.txt irlbot; } | LC_ALL=C sort >wanted
    LC_ALL=C sort ports/requests >asked
    same wanted asked
    stop TERM
    right
else
    try 'small servers' ''
    pass_over 'python3 is not installed'
fi

# By nginx

# Makes three sites of 60 pages each that lead to one another, a folder for each, and the tape of all of them. Page I leads to the
# pages 2 * I + 1 and 2 * I + 2 of its site, and to the page (7 * I + 3) mod 60 of the next one. Some pages lead to one that a
# robots file denies, to one that has moved to another host, to one that is gone, to one that is packed, and to one that is too
# long; the last two stand on the tape as pages without a text.
sites() {
    mkdir -p site/one.test site/two.test site/three.test
    printf 'User-agent: *\nDisallow: /private\n' >site/one.test/robots.txt
    awk '
        function link(file, url) {
            line = "<a href=\"" url "\">x</a>"
            print line >file
            print "|" line >"tape"
        }
        BEGIN {
            n = split("one.test two.test three.test", host, " ")
            print "suffix test\nseed http://one.test/p0" >"tape"
            for (h = 1; h <= n; h++) for (i = 0; i < 60; i++) {
                file = "site/" host[h] "/p" i
                print "page 200 html http://" host[h] "/p" i >"tape"
                if (2 * i + 1 < 60) link(file, "p" 2 * i + 1)
                if (2 * i + 2 < 60) link(file, "/p" 2 * i + 2 "#top")
                link(file, "http://" host[h % n + 1] "/p" (7 * i + 3) % 60)
                if (h == 1 && i == 5) link(file, "/private/x")
                if (h == 1 && i == 6) link(file, "/old")
                if (h == 1 && i == 7) link(file, "/gone")
                if (h == 2 && i == 8) link(file, "/packed")
                if (h == 2 && i == 9) link(file, "/long")
                print "end" >"tape"
                close(file)
            }
        }'
    cat >>tape <<'TAPE'
page 200 other http://one.test/robots.txt
|User-agent: *
|Disallow: /private
end
page 500 html http://three.test/robots.txt
end
page 301 html http://one.test/old
to http://two.test/new
end
page 200 html http://two.test/new
|<a href="/newer">x</a>
end
page 200 other http://two.test/packed
end
page 200 other http://two.test/long
end
TAPE
    echo '<a href="/newer">x</a>' >site/two.test/new
    echo '<a href="/packed-in">x</a>' >site/two.test/packed
    { echo '<a href="/far">x</a>' && head -c 1048576 /dev/zero | tr '\0' x; } >site/two.test/long
    # What nobody may read.
    mkdir site/one.test/private
    echo '<a href="/secret">x</a>' >site/one.test/private/x
}

# Writes what nginx is told: the lines that stand in `http`, for a port.
configure() {
    mkdir -p temp
    {
        [ "$(id -u)" -ne 0 ] || echo 'user root;'
        printf '%s\n' 'daemon off;' 'worker_processes 1;' 'pid nginx.pid;' 'error_log error.log;' 'events {}' 'http {'
        printf '%s temp;\n' client_body_temp_path proxy_temp_path fastcgi_temp_path uwsgi_temp_path scgi_temp_path
        sed "s/PORT/$1/"
        echo '}'
    } >nginx.conf
}

# Whether nginx listens, by the file nginx.conf.
start() {
    rm -f nginx.pid error.log
    nginx -p "$room" -c nginx.conf >nginx.log 2>&1 &
    server=$!
    for _ in $(seq 100); do
        [ ! -s nginx.pid ] || return 0
        kill -0 "$server" 2>/dev/null || break
        sleep 0.1
    done
    wait "$server" 2>/dev/null
    server=
    return 1
}

# Starts nginx at a port that is free, with the lines of the file http.conf in `http`, where PORT stands for the port.
start_nginx() {
    for turn in 1 2 3 4 5; do
        port=$((20000 + ($$ * 7 + turn * 997) % 12000))
        configure "$port" <http.conf
        ! start || return 0
    done
    fail "nginx did not start: $(tail -n 1 nginx.log error.log 2>/dev/null | tr '\n' ' ')"
}

# What nginx is told of the three sites.
three_sites() {
    cat <<'HTTP'
    log_format fetched '$host$request_uri $http_user_agent';
    access_log fetched fetched;
    default_type text/html;
    types { text/plain txt; }
    server {
        listen 127.0.0.1:PORT;
        root site/$host;
        location = /old { return 301 http://two.test/new; }
        location = /packed { add_header Content-Encoding gzip; }
    }
    server {
        listen 127.0.0.1:PORT;
        server_name three.test;
        root site/three.test;
        location = /robots.txt { return 500; }
    }
HTTP
}

if command -v nginx >/dev/null 2>&1; then
    try 'three sites of nginx' ''
    sites
    head -n 2 tape >in
    three_sites >http.conf
    start_nginx
    "$program" sites-crawled crawl --port "$port" --delay 0 <in >crawled-report 2>err || fail "status $?: $(tr '\n' '|' <err)"
    has err ''
    "$program" sites-taped replay --buckets 1 <tape >taped-report 2>err || fail "status $? of the tape: $(tr '\n' '|' <err)"
    has err ''
    for line in 'unique 187' 'done 187' 'page 121' 'moved 1' 'status 2' 'denied 1' 'shut 60' 'lost 0' 'bad 0' 'large 1' 'coded 1'; do
        grep -qx "$line" crawled-report || fail "it has no '$line' but '$(tr '\n' '|' <crawled-report)'"
    done
    # Packed and too long, where the tape has pages.
    sed -e 's/^page 123$/page 121/' -e 's/^large 0$/large 1/' -e 's/^coded 0$/coded 1/' taped-report >wanted
    same wanted crawled-report
    fates sites-crawled crawled-fates
    fates sites-taped taped-fates
    sed -e 's|^page http://two.test/packed$|coded http://two.test/packed|' \
        -e 's|^page http://two.test/long$|large http://two.test/long|' taped-fates | LC_ALL=C sort >wanted
    same wanted crawled-fates
    right

    try 'a crawl of three sites that goes on' ''
    head -n 2 tape >in
    "$program" sites-crawled crawl --port "$port" --delay 0 <in >again 2>err || fail "status $?: $(tr '\n' '|' <err)"
    has err ''
    # Of the seed there is one offer more.
    awk '$1 == "offers" || $1 == "judged" { $2++ } { print }' crawled-report >wanted
    same wanted again
    right

    # Each page that a robots file allows, and each robots file, once in both runs: no page of the host that is shut, nor what is
    # denied.
    try 'what nginx was asked for' ''
    stop QUIT
    {
        printf '%s/robots.txt\n' one.test two.test three.test
        sed -n -e '/^denied/d' -e '/^shut/d' -e 's|^[^ ]* http://||p' crawled-fates
    } | sed 's/$/ irlbot/' | LC_ALL=C sort >asked-for
    LC_ALL=C sort fetched >told
    same asked-for told
    right

    # Several workers fetch the same, and the same comes of it.
    try 'three sites of nginx by 4 and 16 workers' ''
    head -n 2 tape >in
    three_sites >http.conf
    for workers in 4 16; do
        rm -f fetched
        start_nginx
        "$program" "sites-$workers" crawl --buckets 1 --port "$port" --delay 0 --workers $workers <in >out 2>err ||
            fail "status $?: $(tr '\n' '|' <err)"
        has err ''
        stop QUIT
        same crawled-report out
        fates "sites-$workers" fates-found
        same crawled-fates fates-found
        LC_ALL=C sort fetched >told
        same asked-for told
    done
    right

    # Wherever it is stopped, the next run goes on, by however many workers, and what comes of each page is the same. Each run is
    # killed once nginx has told of so many fetches in all, which is long before its end: the fetches of a host are apart.
    try 'a crawl of three sites that is killed' ''
    head -n 2 tape >in
    rm -f fetched
    start_nginx
    most=0
    killed=0
    for workers in 16 1 4; do
        most=$((most + 25))
        "$program" sites-killed crawl --buckets 1 --port "$port" --delay 30 --batch 16 --workers $workers <in >out 2>err &
        crawler=$!
        while kill -0 "$crawler" 2>/dev/null && [ "$(wc -l <fetched)" -lt "$most" ]; do
            sleep 0.01
        done
        kill -KILL "$crawler" 2>/dev/null
        wait "$crawler" 2>/dev/null
        [ "$?" -ne 137 ] || killed=$((killed + 1))
    done
    [ "$killed" -ge 1 ] || fail 'no crawl was killed before its end'
    "$program" sites-killed crawl --port "$port" --delay 0 <in >out 2>err || fail "status $?: $(tr '\n' '|' <err)"
    has err ''
    fates sites-killed killed-fates
    same crawled-fates killed-fates
    stop QUIT
    right

    # The file that docs/GATEWAY.md gives, at another port: a folder is a site, and no folder shuts a host.
    try 'the sites of the page on gateways' 'seed http://www.a.test/|'
    mkdir -p pages/www.a.test/folder pages/b.test
    echo '<a href="/one">1</a> <a href="folder">2</a> <a href="http://b.test/">3</a> <a href="http://c.test/">4</a>' \
        >pages/www.a.test/index.html
    echo one >pages/www.a.test/one
    echo folder >pages/www.a.test/folder/index.html
    echo b >pages/b.test/index.html
    awk '/^```/ { block++; next } block == 1' "$top/docs/GATEWAY.md" |
        sed -e '1,/^http {/d' -e '/_temp_path /d' -e '$d' -e 's/127.0.0.1:8080/127.0.0.1:PORT/' >http.conf
    start_nginx
    "$program" gateway crawl --buckets 1 --port "$port" --delay 0 <in >out 2>err
    gives 0 "$(report '6 6 6 2 0 0 0 0 6 4 1 0 0 1 0 0 0 0')" ''
    fates gateway out
    has out 'moved http://www.a.test/folder|page http://b.test/|page http://www.a.test/|page http://www.a.test/folder/|page http://www.a.test/one|shut http://c.test/|'
    stop QUIT
    right
else
    try 'three sites of nginx' ''
    pass_over 'nginx is not installed'
fi

finish
