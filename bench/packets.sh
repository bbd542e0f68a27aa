#!/usr/bin/env bash
# Columns of a million small packets (Ethernet, IPv4, TCP with options): frames per second of bin/shark, and of tshark where
# it is installed, with the ratio of processor seconds; and the same frames as pcapng.
set -eu
cd "$(dirname "$0")/.."
[ -x bin/shark ] || ./build
. bench/measure.sh
mkdir -p bench/out
for form in pcap pcapng; do
  [ -f "bench/out/packets.$form" ] || python3 bench/make_packets.py "bench/out/packets.$form" 1000000
done

measure() { # NAME WORDS..
  local name=$1 row
  shift
  measure_row "$name" 1 "$@" || return 0
  set -- $row
  printf '%-28s cpu %7s s  wall %7s s  %9s frames/s  peak %5s MB\n' "$name" "$1" "$2" "$(python3 -c "print(round(1000000 / $1))")" "$4"
  last=$1
}

pair() { # NAME FILE COLUMNS..
  local name=$1 file=$2 ours
  shift 2
  measure "shark  $name" bin/shark -r "$file" -T fields "$@"
  ours=$last
  last=
  measure "tshark $name" tshark -n -r "$file" -T fields "$@"
  [ -z "$last" ] || echo "tshark takes $(python3 -c "print(f'{$last / $ours:.1f}')") times the processor seconds"
}

pair 'eth.src' bench/out/packets.pcap -e eth.src
pair 'ip.src tcp.dstport' bench/out/packets.pcap -e ip.src -e tcp.dstport
measure 'shark  eth.src, pcapng' bin/shark -r bench/out/packets.pcapng -T fields -e eth.src
