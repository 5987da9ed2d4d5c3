#!/usr/bin/env bash
# Times `rkt prepare` of a pod of one image of 2 MB in twenty entries, as rt ci or rt run leaves the program built,
# against cp, sync and sha512sum on the same files; among no other pods, 100 and 1000; and of 64 apps. Each in turn, five
# times; the least and the middle time. The folder for it may be given: its file system is what is measured. Needs GNU time.
set -eu
cd "$(dirname "$0")/.."
program=$PWD/crates/rkt/out/rkt
[ -x "$program" ] || { echo "bench/prepare.sh: build the program first (rt ci rkt)" >&2; exit 1; }
work=$(mktemp -d -p "${1:-${TMPDIR:-/tmp}}")
trap 'rm -rf "$work"' EXIT
export RKT_DIR=$work/data

# bundle NAME ID: an image with an app.
bundle() {
    mkdir -p "$work/$1/rootfs"
    echo "{\"acKind\":\"ImageManifest\",\"acVersion\":\"0.8.11\",\"name\":\"example.com/$1\",\"app\":{\"exec\":[\"/bin/f1\"],\"user\":\"0\",\"group\":\"0\"}}" >"$work/$1/manifest"
    echo "sha512-$2" >"$work/$1/id"
}
bundle small "$(printf 'a%.0s' {1..128})"
mkdir "$work/small/rootfs/bin" "$work/small/rootfs/etc"
for n in {1..9}; do
    head -c 116508 /dev/urandom >"$work/small/rootfs/bin/f$n"
    head -c 116508 /dev/urandom >"$work/small/rootfs/etc/f$n"
done

# The least and the middle of five numbers.
shown() { sort -n | paste -sd' ' | awk -v name="$1" '{ print name ": least " $1 " ms, middle " $3 " ms" }'; }

now() { date +%s%N; }
timed() {
    local start
    start=$(now)
    "$@" >/dev/null
    echo $((($(now) - start) / 1000000))
}
by_cp() {
    cp -a "$work/small/rootfs" "$work/copied"
    find "$work/copied" -exec sync {} +
    find "$work/copied" -type f -exec sha512sum {} + >/dev/null
}

"$program" image import "$work/small" >/dev/null
for count in 0 100 1000; do
    # Other pods, which no prepare looks at.
    for n in $(seq "$count"); do
        mkdir -p "$RKT_DIR/pods/prepared/$(printf '%08x-0000-4000-8000-000000000000' "$n")"
    done
    for _ in 1 2 3 4 5; do
        rm -rf "$work/copied"
        timed "$program" prepare example.com/small >>"$work/ours.$count"
        timed by_cp >>"$work/theirs.$count"
    done
    shown "prepare, beside $count pods" <"$work/ours.$count"
    shown "cp, sync and sha512sum" <"$work/theirs.$count"
done
/usr/bin/time -f 'greatest memory %M KiB' "$program" prepare example.com/small >/dev/null

# 64 apps of one file each.
words=()
for n in {1..64}; do
    bundle "w$n" "$(printf '%02x' "$n")$(printf 'b%.0s' {1..126})"
    mkdir -p "$work/w$n/rootfs/bin"
    echo "$n" >"$work/w$n/rootfs/bin/f1"
    "$program" image import "$work/w$n" >/dev/null
    words+=("example.com/w$n")
done
for _ in 1 2 3 4 5; do
    timed "$program" prepare "${words[@]}" >>"$work/many"
done
shown '64 apps' <"$work/many"
