#!/usr/bin/env bash
# One filter over a capture of 100 MB: seconds of the processor, seconds by the clock, MB/s and peak memory of
# bin/shark, and of tshark and tcpdump where they are installed, with the ratio of processor seconds.
set -eu
cd "$(dirname "$0")/.."
[ -x bin/shark ] || ./build
. bench/measure.sh
mkdir -p bench/out
capture=bench/out/first.pcap
[ -f "$capture" ] || python3 bench/make_capture.py "$capture" 100

measure() { # NAME WORDS..
  local name=$1 row
  shift
  measure_row "$name" 100 "$@" || return 0
  set -- $row
  [ -n "${base:-}" ] || base=$1
  printf '%-8s cpu %7s s  wall %7s s  %6s MB/s  peak %5s MB  cpu ratio %s\n' "$name" "$1" "$2" "$3" "$4" \
    "$(python3 -c "print(f'{$1 / $base:.1f}')")"
}

measure shark bin/shark -r "$capture" -Y 'eth.type == 2054' -T fields -e frame.number -e eth.type
measure tshark tshark -n -r "$capture" -Y 'eth.type == 2054' -T fields -e frame.number -e eth.type
measure tcpdump tcpdump -n -r "$capture" arp
