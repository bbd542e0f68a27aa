#!/usr/bin/env bash
# What it costs to begin: four frames of examples/first.pcap, by bin/shark, and by tshark and tcpdump where they are installed.
set -eu
cd "$(dirname "$0")/.."
[ -x bin/shark ] || ./build
. bench/measure.sh

measure() { # NAME WORDS..
  local name=$1 row
  shift
  measure_row "$name" 1 "$@" || return 0
  set -- $row
  printf '%-8s cpu %7s s  wall %7s s  peak %5s MB\n' "$name" "$1" "$2" "$4"
}

measure shark bin/shark -r examples/first.pcap -T fields -e frame.number
measure tshark tshark -n -r examples/first.pcap -T fields -e frame.number
measure tcpdump tcpdump -n -r examples/first.pcap
