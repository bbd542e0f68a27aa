#!/usr/bin/env bash
# Two halves of a capture of web traffic (300,000 packets), frame by frame in turn, merged again: frames per second of bin/shark_merge in
# both formats, and of mergecap where it is installed, with the ratio of processor seconds.
set -eu
cd "$(dirname "$0")/.."
[ -x bin/shark_merge ] || ./build
. bench/measure.sh
mkdir -p bench/out
capture=bench/out/web.pcap
halves=(bench/out/web.odd.pcap bench/out/web.even.pcap)
[ -f "$capture" ] || python3 bench/make_web.py "$capture" 30000
[ -f "${halves[1]}" ] || python3 - "$capture" "${halves[@]}" <<'P'
import struct
import sys

file = open(sys.argv[1], "rb").read()
parts = [[file[:24]], [file[:24]]]
at, number = 24, 0
while at < len(file):
    end = at + 16 + struct.unpack_from("<I", file, at + 8)[0]
    parts[number % 2].append(file[at:end])
    at, number = end, number + 1
for name, part in zip(sys.argv[2:], parts):
    open(name, "wb").write(b"".join(part))
P

measure() { # NAME WORDS..
  local name=$1 row
  shift
  measure_row "$name" 1 "$@" || return 0
  set -- $row
  printf '%-20s cpu %7s s  wall %7s s  %9s frames/s  peak %5s MB\n' "$name" "$1" "$2" "$(python3 -c "print(round(300000 / $1))")" "$4"
  last=$1
}

for form in pcapng pcap; do
  measure "shark_merge $form" bin/shark_merge -F "$form" "${halves[@]}"
  ours=$last
  last=
  theirs=$form
  [ "$form" = pcap ] && theirs=nsecpcap
  measure "mergecap $form" mergecap -F "$theirs" -w - "${halves[@]}"
  [ -z "$last" ] || echo "mergecap takes $(python3 -c "print(f'{$last / $ours:.2f}')") times the processor seconds"
done
