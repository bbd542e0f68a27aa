#!/usr/bin/env bash
# IPv4 fragments that cost the most: seconds of the processor, seconds by the clock and peak memory of bin/shark for two
# numbers of frames of each kind, so that a cost which grows faster than the file is seen.
set -eu
cd "$(dirname "$0")/.."
[ -x bin/shark ] || ./build
. bench/measure.sh
mkdir -p bench/out

measure() { # KIND FRAMES
  local kind=$1 frames=$2 row capture
  capture=bench/out/fragments.$kind.$frames.pcap
  [ -f "$capture" ] || python3 bench/make_fragments.py "$capture" "$kind" "$frames"
  measure_row "$kind" "$(($(stat -c %s "$capture") / 1000000 + 1))" bin/shark -r "$capture" -T fields -e ip.fragment.error || return 0
  set -- $row
  printf '%-8s %8s frames  cpu %7s s  wall %7s s  peak %5s MB\n' "$kind" "$frames" "$1" "$2" "$4"
}

for kind in last falling pieces; do
  measure "$kind" 131024
  measure "$kind" 1048192
done
measure lone 170000
