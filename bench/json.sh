#!/usr/bin/env bash
# All of 30,000 frames of web traffic as JSON: frames per second of bin/shark, and of tshark where it is installed, with the ratio of
# processor seconds. Beside it stand ten columns of the same frames.
set -eu
cd "$(dirname "$0")/.."
[ -x bin/shark ] || ./build
. bench/measure.sh
mkdir -p bench/out
capture=bench/out/web3000.pcap
[ -f "$capture" ] || python3 bench/make_web.py "$capture" 3000

measure() { # NAME WORDS..
  local name=$1 row
  shift
  measure_row "$name" 1 "$@" || return 0
  set -- $row
  printf '%-18s cpu %7s s  wall %7s s  %9s frames/s  peak %5s MB\n' "$name" "$1" "$2" "$(python3 -c "print(round(30000 / $1))")" "$4"
  last=$1
}

columns=(-e frame.number -e frame.time_relative -e frame.len -e eth.src -e eth.dst -e ip.src -e ip.dst -e ip.proto -e tcp.srcport -e tcp.dstport)
measure 'shark ten columns' bin/shark -r "$capture" -T fields "${columns[@]}"
columns_last=$last
measure 'shark json' bin/shark -r "$capture" -T json
ours=$last
echo "JSON takes $(python3 -c "print(f'{$ours / $columns_last:.1f}')") times the processor seconds of ten columns"
last=
measure 'tshark json' tshark -n -r "$capture" -T json
[ -z "$last" ] || echo "tshark takes $(python3 -c "print(f'{$last / $ours:.1f}')") times the processor seconds"
