#!/usr/bin/env bash
# Folders that are filled by a plan on a host, by the tool `build` of host_tools: what stands in them, what
# is refused, and that everything is synced before the folder is moved. The plan is its standard input:
#   d PATH                   a directory
#   g PATH [TEXT]            a file with that text
#   c PATH SIZE SHA FROM     a file that is copied from a path below the folder that the second word names
set -u
cd "$(dirname "$0")/../.." || exit 1
program=host_tools
. tests/host/checks.bash

# A tracer names paths without links.
tmp=$(cd "$tmp" && pwd -P)

export RKT_DIR=$tmp/data
check=$tmp/rkt-program
bundle=$tmp/bundle
key=sha512-$(printf 'a%.0s' {1..64})
images=$RKT_DIR/store/images
incoming=$RKT_DIR/store/incoming

# The plan that copies all of a folder.
copies_of() {
    (
        cd "$1" || exit
        find . -mindepth 1 -type d | sort | sed 's,^\./,d ,'
        find . -type f | sort | while read -r file; do
            file=${file#./}
            echo "c $file $(stat -c %s "$file") $(sha512sum <"$file" | cut -d' ' -f1) $file"
        done
    )
}

# filled NAME WANTED KEY PLAN: WANTED are the lines that are printed, parted by `|`.
filled() {
    same "$1" "$2" "$(timeout 60 "$check" build "$3" "$bundle" <"$4" 2>&1 | paste -sd'|')"
}

count() {
    find "$1" -mindepth 1 -maxdepth 1 | wc -l
}

mkdir -p "$bundle/rootfs/etc/deep/er" "$bundle/rootfs/empty"
for size in 0 1 65535 65536 65537 131072 200000; do
    seq 1 100000 | head -c "$size" >"$bundle/rootfs/etc/f$size"
done
printf 'hello\n' >"$bundle/rootfs/etc/deep/er/motd"
printf 'x' >"$bundle/rootfs/é"

# A folder that is filled has the bytes of the originals, and what the plan gives.
copies_of "$bundle" >"$tmp/copies"
{
    echo 'g id sha512-0'
    echo 'g none'
    cat "$tmp/copies"
} >"$tmp/plan"
filled 'a folder is filled' ok "$key" "$tmp/plan"
same 'files that are given' 'sha512-0|' "$(cat "$images/$key/id")|$(cat "$images/$key/none")"
rm -f "$images/$key/id" "$images/$key/none"
same 'it has the bytes of the originals, and nothing else' '' "$(diff -r "$bundle" "$images/$key" 2>&1)"
same 'nothing is left in incoming' 0 "$(count "$incoming")"
filled 'another of that key stands already' 'Error: not moved' "$key" "$tmp/plan"
same 'the folder is left in incoming' 1 "$(count "$incoming")"

# Files that aren't what the plan asks for. Entries are counted from 0. Before what is no plan no folder is made.
refuse() {
    local name=$1 wanted=$2 plan=$3 left=${4:-1}
    rm -rf "$incoming" "$images"
    filled "$name" "$wanted" "$key" "$plan"
    same "$name: nothing in images" 0 "$(count "$images")"
    same "$name: its folder is left" "$left" "$(count "$incoming")"
}
place=$(($(grep -n ' rootfs/etc/f65537 ' "$tmp/copies" | cut -d: -f1) - 1))
other=$bundle/rootfs/etc/f65537
cp "$other" "$tmp/kept"
head -c 65536 "$tmp/kept" >"$other"
refuse 'a short file' "Error: unlike: entry $place" "$tmp/copies"
{ cat "$tmp/kept"; echo; } >"$other"
refuse 'a long file' "Error: unlike: entry $place" "$tmp/copies"
{ head -c 65536 "$tmp/kept"; printf '!'; } >"$other"
refuse 'a byte that differs' "Error: unlike: entry $place" "$tmp/copies"
rm "$other"
refuse 'a missing file' "Error: unlike: entry $place" "$tmp/copies"
mkdir "$other"
refuse 'a directory in its place' "Error: unlike: entry $place" "$tmp/copies"
rmdir "$other"
cp "$tmp/kept" "$other"
printf 'd a\nd a\n' >"$tmp/twice"
refuse 'a path that comes twice' 'Error: no plan' "$tmp/twice" 0
printf 'g a/b x\nd a\n' >"$tmp/early"
refuse 'a file before its directory' 'Error: no plan' "$tmp/early" 0

# unsynced TRACE: what was made in incoming and not synced after its last change and before the move, and
# then how many things were made.
unsynced() {
    awk -v below="$incoming/" '
        function quoted() { split($0, parts, "\""); return parts[2] }
        function named() { match($0, /<[^>]*>/); return substr($0, RSTART + 1, RLENGTH - 2) }
        function parent(path) { sub(/\/[^\/]*$/, "", path); return path }
        function make(path) { made[path] = 1; changed[path] = NR; changed[parent(path)] = NR }
        / = -1 / { next }
        /^mkdir/ { make(quoted()) }
        /^open.*O_CREAT/ { make(quoted()) }
        /^(write|pwrite64)\(/ { changed[named()] = NR }
        /^(fsync|fdatasync)\(/ { synced[named()] = NR }
        /^rename/ { moved = NR }
        END {
            for (path in made) {
                if (index(path, below) != 1) continue
                count++
                if (!(synced[path] > changed[path] && synced[path] < moved)) print substr(path, length(below) + 37)
            }
            print count + 0
        }' "$1" | sort
}
trace() {
    timeout 60 strace -qq -y -s 8 -o "$tmp/trace" "$@" "$check" build "$key" "$bundle" <"$tmp/plan" 2>&1 | paste -sd'|'
}
calls='trace=mkdir,mkdirat,open,openat,write,pwrite64,fsync,fdatasync,rename,renameat,renameat2'
trace_host() {
    rm -rf "$incoming" "$images"
    "$check" build "$key" "$bundle" <"$tmp/twice" >/dev/null 2>&1
    rm -rf "${incoming:?}"/*
    same 'a folder is filled under a tracer' ok "$(trace -e "$calls")"
    same 'all is synced after its last change and before the move' "$(($(wc -l <"$tmp/plan") + 1))" "$(unsynced "$tmp/trace")"
    local what
    for what in '/rootfs/etc/f200000' '/rootfs/etc' '/rootfs/empty'; do
        grep -v "^fsync(.*$what>" "$tmp/trace" >"$tmp/less"
        same "a sync that lacks is seen: $what" "$what" "$(unsynced "$tmp/less" | grep -v '^[0-9]*$')"
    done
    local last
    last=$(grep -c '^mkdir(' "$tmp/trace")
    for what in write:error=ENOSPC:when=3 fsync:error=EIO:when=1 fsync:error=EIO:when=9 "mkdir:error=EIO:when=$last"; do
        rm -rf "$incoming"/* "$images"/*
        same "$what" 'Error: directory fault' "$(trace -e "trace=${what%%:*}" -e "inject=$what")"
        same "$what: nothing in images" 0 "$(count "$images")"
    done
    for what in write:signal=KILL:when=2 fsync:signal=KILL:when=5; do
        rm -rf "$incoming"/* "$images"/*
        trace -e "trace=${what%%:*}" -e "inject=$what" >/dev/null
        same "$what: nothing in images" 0 "$(count "$images")"
        same "$what: its folder is left" 1 "$(count "$incoming")"
        filled "$what: then another is filled" ok "$key" "$tmp/plan"
    done
}
if command -v strace >/dev/null && strace -qq -o /dev/null true 2>/dev/null; then
    trace_host
else
    skip 'that all is synced, and what fails or is killed midway: there is no strace, or it may not trace'
fi

finish
