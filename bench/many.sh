#!/usr/bin/env bash
# Eight captures of web traffic (10,000 visits, 49 MB each) on all processors, a file each, by xargs: seconds by the clock of bin/shark, and of tshark where it is
# installed, with the ratio.
#
#     bench/many.sh [PROCESSORS [VISITS]]
set -eu
cd "$(dirname "$0")/.."
lanes=${1:-$(nproc)} visits=${2:-10000}
work=$(mktemp -d)
trap 'rm -rf "$work"' EXIT
python3 bench/make_web.py "$work/0.pcap" "$visits"
for number in 1 2 3 4 5 6 7; do
  cp "$work/0.pcap" "$work/$number.pcap"
done
seconds() { # PROGRAM WORD..
  local begun
  begun=$(date +%s.%N)
  printf '%s\0' "$work"/*.pcap | xargs -0 -P "$lanes" -I{} "$@" -r {} -Y dns -T fields -e frame.time_epoch -e dns.qry.name >"$work/lines"
  echo "$(date +%s.%N) $begun" | awk '{printf "%.2f", $1 - $2}'
}
ours=$(seconds bin/shark)
echo "bin/shark, $lanes side by side: $ours s by the clock, $(wc -l <"$work/lines") lines"
if command -v tshark >/dev/null; then
  theirs=$(seconds tshark -n 2>/dev/null)
  echo "tshark -n, $lanes side by side: $theirs s by the clock, $(wc -l <"$work/lines") lines, $(echo "$theirs $ours" | awk '{printf "%.1f", $1 / $2}') times as long"
fi
