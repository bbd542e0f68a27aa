#!/usr/bin/env bash
# Reports over web traffic (10,000 visits, 100,000 packets): seconds of the processor and peak memory of bin/shark for each table of
# statistics and for one followed stream, and of tshark where it is installed, with the ratio of processor seconds.
set -eu
cd "$(dirname "$0")/.."
[ -x bin/shark ] || ./build
. bench/measure.sh
mkdir -p bench/out
capture=bench/out/web10000.pcap
[ -f "$capture" ] || python3 bench/make_web.py "$capture" 10000

measure() { # PROGRAM WORDS..
  local row
  measure_row "$1" 1 "$@" || return 0
  set -- $row
  last=$1
  peak=$4
}

for report in conv,tcp conv,ip io,phs follow,tcp,raw,5000; do
  last=
  measure bin/shark -r "$capture" -q -z "$report"
  ours=$last
  printf '%-20s shark  cpu %7s s  peak %6s MB\n' "$report" "$last" "$peak"
  last=
  measure tshark -n -r "$capture" -q -z "$report"
  [ -z "$last" ] || printf '%-20s tshark cpu %7s s  peak %6s MB, %s times the processor seconds\n' "$report" "$last" "$peak" "$(python3 -c "print(f'{$last / $ours:.1f}')")"
done
