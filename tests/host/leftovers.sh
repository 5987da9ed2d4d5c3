#!/usr/bin/env bash
# The built program on pods of this host whose apps left in their roots what can't be named or reached: names that aren't
# UTF-8, names with every byte, paths past the system's limit, deep trees. Such a pod is removed by `rm`, also where a
# deletion of it was cut short before, and by a sweep, which goes on to the pods beside it. Elsewhere nothing is removed
# that no listing shows.
set -u
unset RKT_DIR
cd "$(dirname "$0")/../.." || exit 1
. tests/host/checks.bash

if ! command -v python3 >/dev/null; then
    skip 'all: there is no python3'
    exit 0
fi

tmp=$(cd "$tmp" && pwd -P)
rkt=$tmp/rkt-program
export RKT_DIR=$tmp/data
pods=$RKT_DIR/pods

mkdir -p "$tmp/app/rootfs/bin" "$tmp/outside"
echo '{"acKind":"ImageManifest","acVersion":"0.8.0","name":"example.com/app","app":{"exec":["/bin/run"],"user":"0","group":"0"}}' >"$tmp/app/manifest"
printf 'sha512-%064x%064d\n' 1 0 >"$tmp/app/id"
printf '#!/bin/sh\nexec sh %s/leave\n' "$tmp" >"$tmp/app/rootfs/bin/run"
chmod 755 "$tmp/app/rootfs/bin/run"
"$rkt" image import "$tmp/app" >/dev/null || fail 'the image'
echo kept >"$tmp/outside/file"

root() {
    echo "$pods/$1/$2/stage1/rootfs/opt/stage2/app/rootfs"
}

standing() {
    find "$pods" -mindepth 2 -maxdepth 2 | wc -l
}

# exited SCRIPT: the pod of an app that ran this in its root.
exited() {
    printf '%s\n' "$1" >"$tmp/leave"
    "$rkt" run example.com/app | head -n 1
}

# aged POD: its mark in exited-garbage is old.
aged() {
    local mark
    for mark in "$pods/exited-garbage/$1"/marked-*; do
        mv "$mark" "${mark%-*}-00000000000000000001"
    done
}

# cut POD: a deletion of it has begun, and was cut short before it came to the app's root.
cut() {
    rm -f "$pods/exited-garbage/$1"/{token,started-app}
}

# leaves NAME SCRIPT: an app that runs the script is removed by `rm`, also after a deletion that was cut short, and by a sweep
# that goes on to the pods beside it.
leaves() {
    local name=$1 pod others=() lines
    pod=$(exited "$2")
    same "$name: the app has run" state=exited "$(first_line "$rkt" status "$pod")"
    expect "$name: rm" 0 "removed $pod" '' timeout 60 "$rkt" rm "$pod"
    pod=$(exited "$2")
    "$rkt" gc >/dev/null
    cut "$pod"
    expect "$name: rm of what a cut deletion left" 0 "removed $pod" '' timeout 60 "$rkt" rm "$pod"
    for turn in 1 2 3; do others+=("$(exited true)"); done
    others+=("$(exited "$2")")
    for turn in 1 2 3; do others+=("$(exited true)"); done
    "$rkt" gc >/dev/null
    for pod in "${others[@]}"; do aged "$pod"; done
    cut "${others[3]}"
    lines=$(printf '%s deleted\n' "${others[@]}" | sort)
    expect "$name: gc beside other pods" 0 "$lines" '' timeout 60 "$rkt" gc
    same "$name: nothing is left" 0 "$(standing)"
    same "$name: what is outside stands" kept "$(cat "$tmp/outside/file")"
}

leaves 'a name that is not UTF-8' 'printf x >"$(printf "bad\377name")"'
leaves 'a directory whose name is not UTF-8' 'mkdir -p "a/$(printf "bad\377name")/b"; echo text >"a/$(printf "bad\377name")/b/file"'
leaves 'forty directories of 200 bytes' 'python3 -c "
import os
for _ in range(40):
    os.mkdir(\"d\" * 200)
    os.chdir(\"d\" * 200)
    open(\"file\", \"w\").close()
"'
leaves 'names with every byte' 'python3 -c "
import os
for byte in range(1, 256):
    if byte not in b\"./\":
        open(bytes([byte]), \"w\").close()
        os.mkdir(b\"d\" + bytes([byte]))
        os.symlink(b\"/\", b\"l\" + bytes([byte]))
os.mkdir(bytes(byte for byte in range(1, 256) if byte != 47)[:254])
"'
leaves 'three hundred directories, one in another' 'python3 -c "
import os
for _ in range(300):
    os.mkdir(\"d\")
    os.chdir(\"d\")
"'
leaves 'links out of the root and a pipe' "ln -s '$tmp/outside' link; ln -s '$tmp/outside/file' other; ln -s . here; mkdir d; ln -s '$tmp/outside' d/link; mkfifo pipe"
leaves 'a root without its own directories' 'rm -r bin; mkdir -p a/b/c'

# The root itself is gone, or is a link: no more than that is removed.
leaves 'the root is gone' 'mv "$PWD" "$PWD.moved"; rm -r "$PWD.moved"'
leaves 'the root is a link' "mv \"\$PWD\" \"\$PWD.moved\"; rm -r \"\$PWD.moved\"; ln -s '$tmp/outside' \"\$PWD\""

# Elsewhere nothing goes that a listing doesn't show: beside the app's root, and in a pod that never ran.
pod=$(exited true)
"$rkt" gc >/dev/null
odd=$pods/exited-garbage/$pod/stage1/rootfs/opt/stage2/app/$'bad\xffname'
: >"$odd"
expect 'a name that is not UTF-8 beside the root' 20 '' 'rkt: stray reply' "$rkt" rm "$pod"
same 'it stands' 1 "$(find "$pods/exited-garbage/$pod" -name 'bad*' | wc -l)"
rm "$odd"
expect 'once it has gone' 0 "removed $pod" '' "$rkt" rm "$pod"
pod=$("$rkt" prepare example.com/app)
odd=$(root prepared "$pod")/$'bad\xffname'
: >"$odd"
expect 'a name that is not UTF-8 in a pod that never ran' 20 '' 'rkt: stray reply' "$rkt" rm "$pod"
same 'it is still there' 1 "$(find "$pods/garbage/$pod" -name 'bad*' | wc -l)"
rm -f "$(root garbage "$pod")/"$'bad\xffname'
expect 'once it has gone there too' 0 "removed $pod" '' "$rkt" rm "$pod"
same 'no pod is left' 0 "$(standing)"

finish
