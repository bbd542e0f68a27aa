#!/usr/bin/env bash
# All fields and protocols of a packet at once, as many as tshark knows too, of 200,000 small packets (Ethernet, IPv4, TCP with options):
# frames per second of bin/shark, thrown away, into a file and into a pipe (with the seconds of the program that reads it), and of
# tshark where it is installed, with the ratio of processor seconds.
set -eu
cd "$(dirname "$0")/.."
[ -x bin/shark ] || ./build
. bench/measure.sh
mkdir -p bench/out
count=200000
capture=bench/out/packets-$count.pcap
[ -f "$capture" ] || python3 bench/make_packets.py "$capture" "$count"

names=$(bin/shark -r "$capture" -c 1 -T json | python3 -c '
import json, sys
layers = json.load(sys.stdin)["layers"]
names = [layer["proto"] for layer in layers] + [item["name"] for layer in layers for item in layer["items"]]
print(*dict.fromkeys(names), sep="\n")')
if command -v tshark >/dev/null 2>&1; then
  names=$({ tshark -G fields; tshark -G protocols; } 2>/dev/null | NAMES="$names" python3 -c '
import os, sys
known = {word for line in sys.stdin for word in line.rstrip("\n").split("\t")}
print(*[name for name in os.environ["NAMES"].split() if name in known], sep="\n")')
fi
columns=()
for name in $names; do
  columns+=(-e "$name")
done
echo "$(wc -w <<<"$names") fields and protocols"

measure() { # NAME WORDS..
  local name=$1 row
  shift
  measure_row "$name" 1 "$@" || return 0
  set -- $row
  printf '%-22s cpu %7s s  wall %7s s  %9s frames/s  peak %5s MB\n' "$name" "$1" "$2" "$(python3 -c "print(round($count / $1))")" "$4"
  last=$1
}

measure 'shark' bin/shark -r "$capture" -T fields "${columns[@]}"
ours=$last
measure 'shark, into a file' bash -c '"$@" > bench/out/fields.txt' bash bin/shark -r "$capture" -T fields "${columns[@]}"
measure 'shark, into a pipe' bash -c '"$@" | cat > /dev/null' bash bin/shark -r "$capture" -T fields "${columns[@]}"
last=
measure 'tshark' tshark -n -r "$capture" -T fields "${columns[@]}"
[ -z "$last" ] || echo "tshark takes $(python3 -c "print(f'{$last / $ours:.1f}')") times the processor seconds"
