#!/usr/bin/env bash
# Times `rkt prepare` among images that the pod doesn't use, and of pods of many layers, with its greatest memory: the
# program that rt ci or make leaves built, and beside it each that is given (an older one), by turns. Prints the least and
# the middle time of five and the greatest memory. The folder for it is TMPDIR or /tmp; it takes 1 GB there. Needs gcc and
# python3.
set -eu
cd "$(dirname "$0")/.."
program=$PWD/crates/rkt/out/rkt
[ -x "$program" ] || { echo "bench/listings.sh: build the program first (make)" >&2; exit 1; }
work=$(mktemp -d -p "${TMPDIR:-/tmp}")
trap 'rm -rf "$work"' EXIT
gcc -O2 -o "$work/launch" bench/launch.c
python3 bench/listings.py "$work" "$program" "$@"
