#!/usr/bin/env bash
# What the proofs take from nothing, in processor seconds: of each crate its library, its tests and its must-fail edits, then the
# sums and the longest chain of libraries. With no word it runs the whole gate, `rt ci` from nothing, and ends with its status; with names
# it proves these crates alone, in a copy (what is below them is built first, and not counted). What earlier runs keep serves neither.
#
#     bench/gate.sh [CRATE ..]              taskset -c 0,1 bench/gate.sh    the same on two processors
#     bench/gate.sh >tools/proof_seconds.txt     the table from which ./build tells the minutes that are left
exec python3 "$(dirname "$0")/gate.py" "$@"
