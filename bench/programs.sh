#!/usr/bin/env bash
# Prints how long the built program takes, as ratios to an empty dynamically linked C program, with the
# greatest memory of each and the size of the program. Medians of 50 runs, all in one run of this script.
# The program has to be built (make, or rt ci). Needs gcc and python3.
set -eu
cd "$(dirname "$0")/.."
program=$PWD/crates/rkt/out/rkt
[ -x "$program" ] || { echo "bench/programs.sh: build the program first (make)" >&2; exit 1; }
work=$(mktemp -d)
trap 'rm -rf "$work"' EXIT
gcc -O2 -o "$work/floor" bench/floor.c
gcc -O2 -o "$work/launch" bench/launch.c
cp "$program" "$work/rkt"
exec python3 bench/programs.py "$work"
