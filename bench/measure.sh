# Sourced by the benchmarks: measures a command, and sets `row` to its CPU seconds, seconds by the clock, MB/s and peak memory.
# Fails where the command isn't installed, after saying so.
measure_row() { # NAME MEGABYTES WORDS..
  local name=$1 megabytes=$2
  shift 2
  if ! command -v "$1" >/dev/null 2>&1; then
    echo "$name: not installed"
    return 1
  fi
  row=$(python3 bench/measure.py "$megabytes" "$@")
}
