#!/usr/bin/env bash
# Two passes over web traffic (10,000 visits, 100,000 packets), for the queries and requests that have a response: seconds of the processor
# and peak memory of bin/shark with -2 and without it, and of tshark with -2 where it is installed, with the ratios of processor seconds.
# Then 50,000, 100,000 and 200,000 queries of one id in one stream, whose times should double with their number.
set -eu
cd "$(dirname "$0")/.."
[ -x bin/shark ] || ./build
. bench/measure.sh
mkdir -p bench/out
capture=bench/out/web10000.pcap
[ -f "$capture" ] || python3 bench/make_web.py "$capture" 10000
filter='dns.response_in or http.response_in'
columns=(-T fields -e frame.number -e dns.response_in -e http.response_in)

measure() { # PROGRAM WORDS..
  local row
  last=
  measure_row "$1" 1 "$@" || return 0
  set -- $row
  last=$1
  peak=$4
}

times() { # SECONDS BY
  python3 -c "print(f'{$1 / $2:.2f}')"
}

measure bin/shark -r "$capture" -Y "$filter" "${columns[@]}"
once=$last
printf '%-16s shark     cpu %7s s  peak %6s MB\n' web "$last" "$peak"
measure bin/shark -r "$capture" -2 -Y "$filter" "${columns[@]}"
twice=$last
printf '%-16s shark -2  cpu %7s s  peak %6s MB, %s times the processor seconds of one pass\n' web "$last" "$peak" "$(times "$twice" "$once")"
measure tshark -n -r "$capture" -2 -Y "$filter" "${columns[@]}"
[ -z "$last" ] || printf '%-16s tshark -2 cpu %7s s  peak %6s MB, %s times the processor seconds of shark -2\n' web "$last" "$peak" "$(times "$last" "$twice")"

before=
for count in 50000 100000 200000; do
  capture=bench/out/queries$count.pcap
  [ -f "$capture" ] || python3 bench/make_queries.py "$capture" "$count"
  measure bin/shark -r "$capture" -2 -Y dns.response_in "${columns[@]}"
  printf '%-16s shark -2  cpu %7s s  peak %6s MB' "$count queries" "$last" "$peak"
  [ -z "$before" ] && echo || echo ", $(times "$last" "$before") times the processor seconds of half as many"
  before=$last
done
