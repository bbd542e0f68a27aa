#!/usr/bin/env bash
# Captures that are made to cost much (bench/make_worst.py --list), one for each loop that a file's bytes decide: instructions for
# each byte of the capture (valgrind's, or microseconds where it isn't installed), how these grow for a capture of twice the size
# (1 is linear), and peak memory for that one.
#
#   bench/worst.sh [WORD]    the kinds alone that WORD names
#   SHARK=PROGRAM            in place of bin/shark
#   BYTES=NUMBER             of the smaller capture, 500000
#
# A row ends in MUCH where a byte of the capture costs more than 150 instructions, and in GROWS where twice the size costs more than
# 2.2 times as much.
set -eu
cd "$(dirname "$0")/.."
program=${SHARK:-bin/shark}
[ -x "$program" ] || ./build
. bench/measure.sh
bytes=${BYTES:-500000}
folder=$(mktemp -d)
trap 'rm -rf "$folder"' EXIT
unit=instructions
command -v valgrind >/dev/null || unit=microseconds

cost() { # CAPTURE WORDS..
  local capture=$1 row cpu
  shift
  if [ $unit = instructions ]; then
    valgrind --tool=callgrind --callgrind-out-file=/dev/null "$program" -r "$capture" "$@" 2>&1 >/dev/null | sed -n 's/.*Collected : //p'
  else
    measure_row shark 1 "$program" -r "$capture" "$@"
    read -r cpu _ <<<"$row"
    python3 -c "print(round($cpu * 1e6))"
  fi
}

# What the start costs, which is taken off.
python3 bench/make_worst.py "$folder/none" tiny 0
start=$(cost "$folder/none" -T fields -e frame.number)

printf '%-12s %7s %6s %6s %8s  %s\n' kind "per B" grows writes memory "loop; command"
python3 bench/make_worst.py --list | while IFS=$'\t' read -r -a cells; do
  kind=${cells[0]} loop=${cells[1]}
  words=("${cells[@]:2}")
  [ "$kind" = "${1:-$kind}" ] || continue
  python3 bench/make_worst.py "$folder/one" "$kind" "$bytes"
  python3 bench/make_worst.py "$folder/two" "$kind" $((2 * bytes))
  one=$(cost "$folder/one" "${words[@]}")
  two=$(cost "$folder/two" "${words[@]}")
  measure_row shark 1 "$program" -r "$folder/two" "${words[@]}"
  read -r _ _ _ memory <<<"$row"
  written=$("$program" -r "$folder/two" "${words[@]}" 2>/dev/null | wc -c)
  command="${words[*]}"
  python3 - "$kind" "$one" "$two" "$start" "$(stat -c %s "$folder/one")" "$(stat -c %s "$folder/two")" "$memory" "$written" "$loop; ${command:0:60}" <<'END'
import sys
kind, one, two, start, small, large, memory, written, text = sys.argv[1:]
each, other = ((int(cost) - int(start)) / int(size) for cost, size in ((one, small), (two, large)))
marks = (" MUCH" if max(each, other) > 150 else "") + (" GROWS" if other > 1.1 * each else "")
print(f"{kind:12} {other:7.1f} {other / each:6.2f} {int(written) / int(large):6.1f} {memory:>5} MB  {text}{marks}", flush=True)
END
done
