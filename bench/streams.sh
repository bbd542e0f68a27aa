#!/usr/bin/env bash
# Streams of TCP: seconds of the processor, seconds by the clock and peak memory of bin/shark for two numbers of segments of each
# kind, so that a cost which grows faster than the file is seen; and the streams of web traffic (30,000 visits, 300,000 packets),
# beside tshark where it is installed, with the ratio of processor seconds.
set -eu
cd "$(dirname "$0")/.."
[ -x bin/shark ] || ./build
. bench/measure.sh
mkdir -p bench/out
columns=(-T fields -e tcp.stream -e tcp.seq -e tcp.len)

measure() { # KIND SEGMENTS
  local kind=$1 segments=$2 row capture
  capture=bench/out/streams.$kind.$segments.pcap
  [ -f "$capture" ] || python3 bench/make_streams.py "$capture" "$kind" "$segments"
  measure_row "$kind" "$(($(stat -c %s "$capture") / 1000000 + 1))" bin/shark -r "$capture" "${columns[@]}" || return 0
  set -- $row
  printf '%-8s %8s segments  cpu %7s s  wall %7s s  peak %5s MB\n' "$kind" "$segments" "$1" "$2" "$4"
}

compare() { # NAME PROGRAM..
  local name=$1 row
  shift
  measure_row "$name" 1 "$@" -r "$web" "${columns[@]}" || return 0
  set -- $row
  printf '%-8s web traffic  cpu %7s s  wall %7s s  peak %5s MB\n' "$name" "$1" "$2" "$4"
  last=$1
}

for kind in one late twice; do
  measure "$kind" 8929
  measure "$kind" 71432
done
measure many 50000
measure many 400000
measure falling 125000
measure falling 1000000

web=bench/out/web.pcap
[ -f "$web" ] || python3 bench/make_web.py "$web" 30000
compare shark bin/shark
ours=$last
last=
compare tshark tshark -n
[ -z "$last" ] || echo "tshark takes $(python3 -c "print(f'{$last / $ours:.1f}')") times the processor seconds"
