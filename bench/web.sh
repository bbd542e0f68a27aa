#!/usr/bin/env bash
# The names and addresses of DNS in a capture of web traffic (30,000 visits, 300,000 packets): frames per second of bin/shark, and
# of tshark where it is installed, with the ratio of processor seconds.
set -eu
cd "$(dirname "$0")/.."
[ -x bin/shark ] || ./build
. bench/measure.sh
mkdir -p bench/out
capture=bench/out/web.pcap
[ -f "$capture" ] || python3 bench/make_web.py "$capture" 30000

measure() { # NAME WORDS..
  local name=$1 row
  shift
  measure_row "$name" 1 "$@" || return 0
  set -- $row
  printf '%-8s cpu %7s s  wall %7s s  %9s frames/s  peak %5s MB\n' "$name" "$1" "$2" "$(python3 -c "print(round(300000 / $1))")" "$4"
  last=$1
}

measure shark bin/shark -r "$capture" -Y dns -T fields -e dns.qry.name -e dns.a
ours=$last
last=
measure tshark tshark -n -r "$capture" -Y dns -T fields -e dns.qry.name -e dns.a
[ -z "$last" ] || echo "tshark takes $(python3 -c "print(f'{$last / $ours:.1f}')") times the processor seconds"
