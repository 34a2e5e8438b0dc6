# What the benches of a crawl begin with: a made-up site on 64 hosts of 16 domains, half of the hosts with a robots file, ten links
# a page. It is read by scripts, and runs nothing.

# The tape of so many pages: page i links to 2i + 1, 2i + 2 and eight others.
tape() {
    awk -v n="$1" 'BEGIN {
        print "suffix test"
        print "seed http://h0.d0.test/p0"
        for (h = 0; h < 64; h += 2)
            printf "page 200 other http://h%d.d%d.test/robots.txt\n|User-agent: *\n|Disallow: /none\nend\n", h, h % 16
        for (i = 0; i < n; i++) {
            printf "page 200 html http://h%d.d%d.test/p%d\n", i % 64, i % 16, i
            for (k = 0; k < 10; k++) {
                t = k == 0 ? 2 * i + 1 : k == 1 ? 2 * i + 2 : (7 * i + 31 * k) % n
                if (t < n) printf "|<a href=\"http://h%d.d%d.test/p%d\">x</a>\n", t % 64, t % 16, t
            }
            print "end"
        }
    }'
}

# The pages of such a tape as files, in a folder for each host under the one that is named.
unpack() {
    for host in $(seq 0 63); do
        mkdir -p "$1/h$host.d$((host % 16)).test"
    done
    awk -v site="$1" '
        $1 == "page" { file = site substr($4, length("http:/") + 1); printf "" >file }
        /^\|/ { print substr($0, 2) >file }
        $1 == "end" { close(file) }'
}
