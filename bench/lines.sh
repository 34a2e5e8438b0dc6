#!/bin/sh
# Lines for `irl DIR seen`, by a seed: so many URLs of 997 hosts, of which about a fifth stand there before.
#   bench/lines.sh LINES
exec awk -v lines="${1:?usage: bench/lines.sh LINES}" 'BEGIN {
  state = 20080421
  for (i = 0; i < lines; i++) {
    state = (state * 16807) % 2147483647
    page = state % (2 * lines)
    printf "http://www%d.example/path/%d/index.html\n", page % 997, page
  }
}'
