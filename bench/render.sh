#!/bin/sh
# Times the rendering of large images in several shapes. It takes the built program
# `host_tools`, which `rt run` in crates/host_tools leaves.
program=${1:-crates/host_tools/out/host_tools}
for words in "flat 256 1023" "flat 64 4095" "chain 32 8191" "chain 4 65535" "late 32 65535" "late 32 262000" "halves 255 2047" "uneven 255 1856" "deep 4 1600" "deep 4 6400"; do
    echo "== $words"
    # shellcheck disable=SC2086
    /usr/bin/time -f '%U s of processor, %M KiB' "$program" measure $words
done
