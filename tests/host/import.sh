#!/usr/bin/env bash
# The built program on bundles of this host: images that are new, that are there and that conflict, faulty
# bundles, many imports at once, and imports that are killed.
set -u
unset RKT_DIR
cd "$(dirname "$0")/../.." || exit 1
. tests/host/checks.bash

# A tracer names paths without links.
tmp=$(cd "$tmp" && pwd -P)

for tool in sha512sum python3 mkfifo; do
    if ! command -v $tool >/dev/null; then
        skip "all: there is no $tool"
        exit 0
    fi
done

repeat() {
    printf "$1%.0s" $(seq "$2")
}

# id LETTER, key LETTER
id() {
    echo "sha512-$(repeat "$1" 128)"
}

key() {
    echo "sha512-$(repeat "$1" 64)"
}

# bundle NAME LETTER IMAGE: a bundle with an empty root.
bundle() {
    mkdir -p "$tmp/$1/rootfs"
    echo "{\"acKind\":\"ImageManifest\",\"acVersion\":\"0.8.11\",\"name\":\"$3\"}" >"$tmp/$1/manifest"
    id "$2" >"$tmp/$1/id"
}

# All that stands below a folder, with modes, sizes and sums, but for the clock.
standing() {
    (cd "$1" && find . -type d -printf '%p/\n' -o -type f -printf '%p ' -exec sh -c 'sha512sum <"$1"' _ {} \; | sort)
}

images() {
    echo "$RKT_DIR/store/images"
}

# Row by row: a new image, one with a listing, the first again, another tree with its ID.
export RKT_DIR=$tmp/data
bundle base a example.com/base
mkdir -p "$tmp/base/rootfs/bin" "$tmp/base/rootfs/etc"
printf abc >"$tmp/base/rootfs/bin/abc"
: >"$tmp/base/rootfs/etc/motd"
ln -s motd "$tmp/base/rootfs/etc/issue"
bundle lib b example.com/lib
mkdir -p "$tmp/lib/rootfs/etc"
printf abc >"$tmp/lib/rootfs/etc/motd"
abc=$(printf abc | sha512sum | cut -d' ' -f1)
nil=$(printf '' | sha512sum | cut -d' ' -f1)
printf 'd 0755 0 0 /etc\nf 0644 0 0 3 %s /etc/motd\n' "$abc" >"$tmp/lib/tree"
expect 'a new image' 0 "$(key a)" '' "$rkt" image import "$tmp/base"
expect 'one with a listing' 0 "$(key b)" '' "$rkt" image import "$tmp/lib"
before=$(find "$RKT_DIR" -printf '%p %y %m %s %i %T@ %C@\n' | sort)
expect 'it is there' 0 "$(key b)" '' "$rkt" image import "$tmp/lib"
same 'nothing changes where it is there' "$before" "$(find "$RKT_DIR" -printf '%p %y %m %s %i %T@ %C@\n' | sort)"
same 'nothing is left in incoming' '' "$(ls "$RKT_DIR/store/incoming")"
folder=$(images)/$(key a)
same 'its manifest' "$(cat "$tmp/base/manifest")" "$(cat "$folder/manifest")"
same 'its ID' "$(id a)" "$(cat "$folder/id")"
same 'its listing' "d 0755 0 0 /bin
f 0755 0 0 3 $abc /bin/abc
d 0755 0 0 /etc
l 0777 0 0 motd /etc/issue
f 0755 0 0 0 $nil /etc/motd" "$(cat "$folder/tree")"
same 'its files' './
./bin/
./bin/abc '"$abc"'  -
./etc/
./etc/motd '"$nil"'  -' "$(standing "$folder/rootfs")"
mark=$(basename "$folder"/imported-*)
now=$(date +%s)
[ "$((10#${mark#imported-}))" -le "$now" ] && [ "$((10#${mark#imported-} + 60))" -ge "$now" ]
same 'its mark has the moment' 0 $?
same 'the mark has twenty digits' 29 ${#mark}
expect 'it is listed' 0 "$(key a) example.com/base $((10#${mark#imported-}))
$(key b) example.com/lib $((10#$(basename "$(images)/$(key b)"/imported-* | cut -d- -f2)))" '' "$rkt" image list

# Another tree with the ID of an image: both digests are named.
digest() {
    { cat "$1/id"; sha512sum <"$1/manifest" | cut -d' ' -f1; cat "$2"; } | sha512sum | cut -d' ' -f1
}
bundle other b example.com/lib
printf 'd 0755 0 0 /etc\n' >"$tmp/other/tree"
expect 'another tree' 15 '' "rkt: conflict: $(key b) $(digest "$tmp/lib" "$tmp/lib/tree") $(digest "$tmp/other" "$tmp/other/tree")" \
    "$rkt" image import "$tmp/other"

# Faulty bundles, each in a data folder of its own.
faulty() {
    local name=$1 status=$2 err=$3 made=$4
    shift 4
    RKT_DIR=$tmp/faulty
    expect "$name" "$status" '' "rkt: $err" timeout 20 "$rkt" image import "${1:-$tmp/f}"
    same "$name: nothing in images" '' "$(ls "$tmp/faulty/store/images")"
    same "$name: folders in incoming" "$made" "$(ls "$tmp/faulty/store/incoming" | wc -l)"
    rm -rf "$tmp/faulty" "$tmp/f"
    RKT_DIR=$tmp/data
}
faulty 'no bundle' 15 'no file: manifest' 0 "$tmp/none"
bundle f f f
rm "$tmp/f/id"
faulty 'no ID' 15 'no file: id' 0
bundle f f f
echo '{' >"$tmp/f/manifest"
faulty 'no manifest' 6 'bad manifest at $: refusal 20' 0
bundle f f f
mkfifo "$tmp/f/rootfs/pipe"
faulty 'a pipe' 15 'bad kind: rootfs/pipe' 0
bundle f f f
python3 -c 'import socket, sys; socket.socket(socket.AF_UNIX).bind(sys.argv[1])' "$tmp/f/rootfs/s" 2>/dev/null &&
    faulty 'a socket' 15 'bad kind: rootfs/s' 0
rm -rf "$tmp/f"
if [ "$(id -u 2>/dev/null)" ] && mknod "$tmp/probe" c 1 3 2>/dev/null; then
    bundle f f f
    mknod "$tmp/f/rootfs/null" c 1 3
    faulty 'a device' 15 'bad kind: rootfs/null' 0
else
    skip 'a device: it can not be made here'
fi
bundle f f f
printf 'd 0755 0 0 /etc\nf 0644 0 0 3 %s /etc/motd\n' "$abc" >"$tmp/f/tree"
faulty 'a file of the listing is missing' 15 'damaged: rootfs/etc/motd' 1
bundle f f f
mkdir "$tmp/f/rootfs/etc"
printf abd >"$tmp/f/rootfs/etc/motd"
printf 'd 0755 0 0 /etc\nf 0644 0 0 3 %s /etc/motd\n' "$abc" >"$tmp/f/tree"
faulty 'a file differs from the listing' 15 'damaged: rootfs/etc/motd' 1
bundle f f f
mkdir "$tmp/f/rootfs/etc" "$tmp/outside"
printf abc >"$tmp/outside/motd"
ln -s "$tmp/outside/motd" "$tmp/f/rootfs/etc/motd"
printf 'd 0755 0 0 /etc\nf 0644 0 0 3 %s /etc/motd\n' "$abc" >"$tmp/f/tree"
faulty 'a link in place of a file is not followed' 15 'damaged: rootfs/etc/motd' 1
bundle f f f
ln -s "$tmp/outside" "$tmp/f/rootfs/etc"
printf 'd 0755 0 0 /etc\nf 0644 0 0 3 %s /etc/motd\n' "$abc" >"$tmp/f/tree"
faulty 'a link in place of a folder is not followed' 15 'damaged: rootfs/etc/motd' 1
bundle f f f
mv "$tmp/f/manifest" "$tmp/outside/manifest"
ln -s "$tmp/outside/manifest" "$tmp/f/manifest"
faulty 'a link in place of the manifest is not followed' 15 'no file: manifest' 0
bundle f f f
mv "$tmp/f/id" "$tmp/outside/id"
ln -s "$tmp/outside/id" "$tmp/f/id"
faulty 'a link in place of the ID is not followed' 15 'no file: id' 0
bundle f f f
printf 'd 0755 0 0 /a\n' >"$tmp/f/rootfs/a"
if chmod 000 "$tmp/f/rootfs/a" && ! cat "$tmp/f/rootfs/a" >/dev/null 2>&1; then
    faulty 'a file that can not be read' 10 'bundle fault' 0
else
    skip 'a file that can not be read: this user reads it'
    rm -rf "$tmp/f"
fi
bundle loop e example.com/loop
ln -s loop "$tmp/loop/rootfs/loop"
ln -s / "$tmp/loop/rootfs/root"
expect 'links are kept as they are' 0 "$(key e)" '' timeout 20 "$rkt" image import "$tmp/loop"
same 'they stand in the listing alone' 'l 0777 0 0 loop /loop
l 0777 0 0 / /root' "$(cat "$(images)/$(key e)/tree")"

bundle listed 9 example.com/listed
printf 'd 0755 0 0 /etc\n' >"$tmp/outside/tree"
ln -s "$tmp/outside/tree" "$tmp/listed/tree"
expect 'a link in place of a listing is none' 0 "$(key 9)" '' "$rkt" image import "$tmp/listed"
same 'the folder is listed' '' "$(cat "$(images)/$(key 9)/tree")"
ln -s listed "$tmp/named"
expect 'a link that is named is followed' 0 "$(key 9)" '' "$rkt" image import "$tmp/named"
expect 'one with a slash behind it, too' 0 "$(key 9)" '' "$rkt" image import "$tmp/named/"

# What is exchanged while it is imported: the system lets the program wait five seconds behind its first call of that kind
# about a place, which it holds open by then.
# holds PLACE: whether the import of the bundle f has the place open.
holds() {
    local pid
    for pid in $(pgrep -f "^$rkt image import $tmp/f\$"); do
        ! readlink "/proc/$pid/fd/"* 2>/dev/null | grep -qxF "$1" || return 0
    done
    return 1
}
# exchanged NAME ERR CALL PLACE COMMAND..: the command makes the exchange.
exchanged() {
    local name=$1 err=$2 call=$3 place=$4 import
    shift 4
    RKT_DIR=$tmp/faulty timeout 60 strace -qq -o "$tmp/trace" -P "$place" -e "trace=$call" \
        -e "inject=$call:delay_exit=5000000:when=1" "$rkt" image import "$tmp/f" >"$tmp/said" 2>&1 </dev/null &
    import=$!
    for _ in {1..500}; do
        ! holds "$place" || break
        sleep 0.01
    done
    sleep 0.3
    "$@"
    wait $import
    same "$name" "15|rkt: $err" "$?|$(cat "$tmp/said")"
    same "$name: nothing in images" '' "$(ls "$tmp/faulty/store/images")"
    rm -rf "$tmp/faulty" "$tmp/f"
}
if command -v strace >/dev/null && strace -qq -o /dev/null true 2>/dev/null; then
    bundle f f f
    echo old >"$tmp/f/rootfs/file"
    echo new >"$tmp/next"
    exchanged 'a file that was replaced is read from its start' 'damaged: rootfs/file' openat "$tmp/f/rootfs/file" \
        mv "$tmp/next" "$tmp/f/rootfs/file"
else
    skip 'what is exchanged while it is imported: there is no strace, or it may not trace'
fi

# 20,000 files.
bundle many d example.com/many
python3 - "$tmp/many/rootfs" <<'PY'
import os, sys
for d in range(100):
    folder = "%s/d%02d" % (sys.argv[1], d)
    os.mkdir(folder)
    for f in range(200):
        with open("%s/f%03d" % (folder, f), "w") as out:
            out.write("%d %d\n" % (d, f))
PY
expect '20,000 files' 0 "$(key d)" '' "$rkt" image import "$tmp/many"
same 'all of them' 0 "$(diff -r "$tmp/many/rootfs" "$(images)/$(key d)/rootfs" >/dev/null; echo $?)"
same 'lines of the listing' 20100 "$(wc -l <"$(images)/$(key d)/tree")"

# Eight imports of different images at once, and eight of the same one.
RKT_DIR=$tmp/crowd
"$rkt" image list
for letter in 1 2 3 4 5 6 7 8; do
    bundle "c$letter" "$letter" "example.com/c$letter"
    head -c 100000 /dev/urandom >"$tmp/c$letter/rootfs/data"
done
for letter in 1 2 3 4 5 6 7 8; do
    "$rkt" image import "$tmp/c$letter" >"$tmp/out$letter" 2>&1 &
done
wait
for letter in 1 2 3 4 5 6 7 8; do
    same "image $letter of eight at once" "$(key $letter)" "$(cat "$tmp/out$letter")"
    same "its data" 0 "$(cmp -s "$tmp/c$letter/rootfs/data" "$(images)/$(key $letter)/rootfs/data"; echo $?)"
done
for n in 1 2 3 4 5 6 7 8; do
    "$rkt" image import "$tmp/base" >"$tmp/out$n" 2>&1 &
done
wait
for n in 1 2 3 4 5 6 7 8; do
    same "import $n of one image by eight" "$(key a)" "$(cat "$tmp/out$n")"
done
same 'one mark, of one import' 1 "$(ls "$(images)/$(key a)" | grep -c imported-)"
same 'nine images' 9 "$("$rkt" image list | wc -l)"

# An import that is killed leaves images as they were, or the whole image.
RKT_DIR=$tmp/killed
bundle big a example.com/big
for n in $(seq 40); do
    head -c 20000 /dev/urandom >"$tmp/big/rootfs/f$n"
done
expect 'the other image' 0 "$(key b)" '' "$rkt" image import "$tmp/lib"
whole=0
for n in $(seq 50); do
    "$rkt" image import "$tmp/big" >/dev/null 2>&1 &
    import=$!
    sleep "0.0$(printf '%02d' $((RANDOM % 30)))"
    kill -9 $import 2>/dev/null
    wait $import 2>/dev/null
    listed=$("$rkt" image list | cut -d' ' -f1 | tr '\n' ' ')
    case $listed in
        "$(key b) ") ;;
        "$(key a) $(key b) ")
            whole=$((whole + 1))
            same "kill $n: the whole image" 0 "$(diff -r "$tmp/big/rootfs" "$(images)/$(key a)/rootfs" >/dev/null; echo $?)"
            rm -rf "$(images)/$(key a)"
            ;;
        *) fail "kill $n: '$listed'" ;;
    esac
done
expect 'an import afterwards' 0 "$(key a)" '' "$rkt" image import "$tmp/big"
same 'it is whole' 0 "$(diff -r "$tmp/big/rootfs" "$(images)/$(key a)/rootfs" >/dev/null; echo $?)"
echo "import.sh: of 50 imports that were killed $whole had brought the image"
finish
