#!/usr/bin/env bash
# Times `rkt image import` of an image of 2 MB in twenty entries, and of one of 64 MB in one file, as rt ci or
# rt run leaves the program built, against cp, sync and sha512sum on the same files. Each in turn, five times;
# the least and the middle time. The folder for it may be given: its file system is what is measured.
# Needs GNU time.
set -eu
cd "$(dirname "$0")/.."
program=$PWD/crates/rkt/out/rkt
[ -x "$program" ] || { echo "bench/import.sh: build the program first (rt ci rkt)" >&2; exit 1; }
work=$(mktemp -d -p "${1:-${TMPDIR:-/tmp}}")
trap 'rm -rf "$work"' EXIT
export RKT_DIR=$work/data

# bundle NAME LETTER
bundle() {
    mkdir -p "$work/$1/rootfs"
    echo "{\"acKind\":\"ImageManifest\",\"acVersion\":\"0.8.11\",\"name\":\"example.com/$1\"}" >"$work/$1/manifest"
    echo "sha512-$(printf "$2%.0s" {1..128})" >"$work/$1/id"
}
bundle small a
mkdir "$work/small/rootfs/bin" "$work/small/rootfs/etc"
for n in {1..9}; do
    head -c 116508 /dev/urandom >"$work/small/rootfs/bin/f$n"
    head -c 116508 /dev/urandom >"$work/small/rootfs/etc/f$n"
done
bundle big b
head -c 67108864 /dev/urandom >"$work/big/rootfs/big"

# The least and the middle of five numbers.
shown() { sort -n | paste -sd' ' | awk -v name="$1" '{ print name ": least " $1 " ms, middle " $3 " ms" }'; }

now() { date +%s%N; }
timed() {
    local start
    start=$(now)
    "$@" >/dev/null
    echo $((($(now) - start) / 1000000))
}
by_cp() {
    find "$work/$1/rootfs" -type f -exec sha512sum {} + >/dev/null
    cp -a "$work/$1/rootfs" "$work/copied"
    find "$work/copied" -exec sync {} +
    find "$work/copied" -type f -exec sha512sum {} + >/dev/null
}

for image in small big; do
    for _ in 1 2 3 4 5; do
        rm -rf "$RKT_DIR" "$work/copied"
        timed "$program" image import "$work/$image" >>"$work/$image.ours"
        timed by_cp "$image" >>"$work/$image.theirs"
    done
    shown "$image: image import" <"$work/$image.ours"
    shown "$image: sha512sum, cp, sync and sha512sum" <"$work/$image.theirs"
    rm -rf "$RKT_DIR"
    /usr/bin/time -f "$image: greatest memory %M KiB" "$program" image import "$work/$image" >/dev/null
done

# Among many images.
for count in 100 1000; do
    rm -rf "$RKT_DIR"
    "$program" image list
    "$program" image import "$work/small" >/dev/null
    for n in $(seq "$count"); do
        cp -r "$RKT_DIR/store/images/sha512-$(printf 'a%.0s' {1..64})" "$RKT_DIR/store/images/sha512-$(printf '%064x' "$n")"
    done
    timed "$program" image import "$work/big" | awk -v n="$count" '{ print "big, among " n " images: " $1 " ms" }'
done
