#!/usr/bin/env bash
# Filters over small packets (Ethernet, IPv4, TCP with options), a million or as many as the first word says: frames per second of
# bin/shark, and of tshark where it is installed, with the ratio of processor seconds.
set -eu
cd "$(dirname "$0")/.."
[ -x bin/shark ] || ./build
. bench/measure.sh
mkdir -p bench/out
count=${1:-1000000}
capture=bench/out/packets-$count.pcap
[ -f "$capture" ] || python3 bench/make_packets.py "$capture" "$count"

measure() { # NAME WORDS..
  local name=$1 row
  shift
  measure_row "$name" 1 "$@" || return 0
  set -- $row
  printf '%-8s cpu %7s s  wall %7s s  %9s frames/s  peak %5s MB\n' "$name" "$1" "$2" "$(python3 -c "print(round($count / $1))")" "$4"
  last=$1
}

for filter in \
  'eth.type == 2054' \
  'ip.addr == 10.0.0.0/8 and tcp.port in {80, 443, 8000..8100}' \
  'tcp.flags.syn == 1 or not ip' \
  'eth.src[0:3] == 02:00:00' \
  'frame matches "get /[a-z]+"'; do
  echo "$filter"
  measure shark bin/shark -r "$capture" -Y "$filter" -T fields -e frame.number
  ours=$last
  last=
  measure tshark tshark -n -r "$capture" -Y "$filter" -T fields -e frame.number
  [ -z "$last" ] || echo "tshark takes $(python3 -c "print(f'{$last / $ours:.1f}')") times the processor seconds"
done
