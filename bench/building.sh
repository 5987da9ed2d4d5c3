#!/usr/bin/env bash
# Times `host_tools build`, as rt ci or rt run leaves it built, against a C program that makes, writes and syncs
# the same 10,000 files, and against cp, sync and sha512sum on a file of 64 MB. Each in turn, five times; the
# least and the middle time. The folder for it may be given: its file system is what is measured.
# Needs gcc and GNU time.
set -eu
cd "$(dirname "$0")/.."
program=$PWD/crates/host_tools/out/host_tools
[ -x "$program" ] || { echo "bench/building.sh: build the program first (rt ci host_tools)" >&2; exit 1; }
work=$(mktemp -d -p "${1:-${TMPDIR:-/tmp}}")
trap 'rm -rf "$work"' EXIT
gcc -O2 -o "$work/floor" bench/building.c
export RKT_DIR=$work/data
key=sha512-$(printf 'a%.0s' {1..64})
text=$(printf 'x%.0s' {1..100})

for d in {00..99}; do
    echo "d d$d"
    for f in {00..99}; do echo "g d$d/f$f $text"; done
done >"$work/small"
head -c 67108864 /dev/urandom >"$work/big"
echo "c big 67108864 $(sha512sum <"$work/big" | cut -d' ' -f1) big" >"$work/copy"

# The least and the middle of five numbers.
shown() { sort -n | paste -sd' ' | awk -v name="$1" '{ print name ": least " $1 " ms, middle " $3 " ms" }'; }

build() { "$program" build $key "$work" time <"$1" | head -n 1; }
now() { date +%s%N; }
by_cp() {
    local start
    start=$(now)
    cp "$work/big" "$work/copied"
    sync "$work/copied"
    sha512sum "$work/copied" >/dev/null
    echo $((($(now) - start) / 1000000))
}

for _ in 1 2 3 4 5; do
    rm -rf "$RKT_DIR" "$work/made"
    build "$work/small" >>"$work/ours"
    "$work/floor" "$work/made" >>"$work/theirs"
    rm -rf "$RKT_DIR" "$work/made" "$work/copied"
    build "$work/copy" >>"$work/our_copy"
    by_cp >>"$work/their_copy"
done
shown '10,000 files, host_tools build' <"$work/ours"
shown '10,000 files, C' <"$work/theirs"
shown '64 MB, host_tools build' <"$work/our_copy"
shown '64 MB, cp, sync and sha512sum' <"$work/their_copy"
for plan in small copy; do
    rm -rf "$RKT_DIR"
    /usr/bin/time -f "greatest memory, $plan: %M KiB" "$program" build $key "$work" <"$work/$plan" >/dev/null
done
head -c 1048576 "$work/big" >"$work/big1"
echo "c big 1048576 $(sha512sum <"$work/big1" | cut -d' ' -f1) big1" >"$work/copy1"
rm -rf "$RKT_DIR"
/usr/bin/time -f 'greatest memory, a copy of 1 MB: %M KiB' "$program" build $key "$work" <"$work/copy1" >/dev/null
