#!/usr/bin/env bash
# Times the program's commands on images and pods, in one run, each beside the machine's own limit (an empty program, cp
# with sync, rm -r) and beside those peers that are installed and work here (bwrap, crun, runc, podman, umoci, skopeo);
# tells which aren't; and how times grow with the number of images and pods. Prints medians of 15 runs with the least, and
# the greatest memory. The folder for it may be given: its file system is what is measured. The program has to be built
# (make, or rt ci). Needs gcc and python3.
set -eu
cd "$(dirname "$0")/.."
program=$PWD/crates/rkt/out/rkt
[ -x "$program" ] || { echo "bench/pods.sh: build the program first (make)" >&2; exit 1; }
work=$(mktemp -d -p "${1:-${TMPDIR:-/tmp}}")
trap 'chmod -R u+rwx "$work"; rm -rf "$work"' EXIT
gcc -O2 -o "$work/floor" bench/floor.c
gcc -O2 -static -o "$work/still" bench/floor.c
gcc -O2 -o "$work/launch" bench/launch.c
cp "$program" "$work/rkt"
python3 bench/pods.py "$work"
