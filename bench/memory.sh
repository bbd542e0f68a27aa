#!/usr/bin/env bash
# Peak memory of bin/shark over web traffic of 1, 10, 50 and 250 MB: where of streams their numbers alone are shown, and where the frames
# that brought their messages are, for which their bytes are kept.
set -eu
cd "$(dirname "$0")/.."
[ -x bin/shark ] || ./build
. bench/measure.sh
mkdir -p bench/out
for visits in 200 2000 10000 50000; do
  capture=bench/out/web$visits.pcap
  [ -f "$capture" ] || python3 bench/make_web.py "$capture" "$visits"
  for field in tcp.stream tcp.segment; do
    measure_row shark 1 bin/shark -r "$capture" -T fields -e $field
    set -- $row
    printf '%-11s %4d MB, %6d frames: cpu %7s s  peak %6s MB\n' $field "$((($(stat -c %s "$capture") + 500000) / 1000000))" $((visits * 10)) "$1" "$4"
  done
done
