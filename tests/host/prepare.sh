#!/usr/bin/env bash
# The built program on a store and pods of this host: a pod that is prepared of imported images, file by file against
# what another program makes of the bundles; refusals; prepares that are killed; eight at once; prepares while their
# image is removed; and a full disk.
set -u
unset RKT_DIR
cd "$(dirname "$0")/../.." || exit 1
. tests/host/checks.bash

for tool in python3 flock sha512sum; do
    if ! command -v $tool >/dev/null; then
        skip "all: there is no $tool"
        exit 0
    fi
done

repeat() {
    printf "$1%.0s" $(seq "$2")
}

key() {
    echo "sha512-$(repeat "$1" 64)"
}

# bundle NAME LETTER MANIFEST: a bundle with an empty root, whose manifest has these members besides.
bundle() {
    mkdir -p "$tmp/$1/rootfs"
    echo "{\"acKind\":\"ImageManifest\",\"acVersion\":\"0.8.0\",\"name\":\"example.com/$1\"${3:+,$3}}" >"$tmp/$1/manifest"
    echo "sha512-$(repeat "$2" 128)" >"$tmp/$1/id"
}

area() {
    echo "$RKT_DIR/pods/$1"
}

pods() {
    ls "$(area "$1")" | wc -l
}

# The folder's directories, and its files with their sums.
standing() {
    (cd "$1" && find . -type d -printf '%p/\n' -o -printf '%p ' -exec sh -c 'sha512sum <"$1"' _ {} \; | sort)
}

app='"app":{"exec":["/bin/run","-q"],"user":"0","group":"0"}'

# Row by row: two images that a worker stands on, and the worker.
export RKT_DIR=$tmp/data
bundle base a '"labels":[{"name":"version","value":"1.0.0"},{"name":"os","value":"linux"},{"name":"arch","value":"amd64"}]'
mkdir -p "$tmp/base/rootfs/bin" "$tmp/base/rootfs/etc/deep"
printf abc >"$tmp/base/rootfs/bin/abc"
: >"$tmp/base/rootfs/etc/motd"
printf 'a name' >"$tmp/base/rootfs/etc/deep/a b"
ln -s motd "$tmp/base/rootfs/etc/issue"
bundle lib b ''
mkdir -p "$tmp/lib/rootfs/etc"
printf abc >"$tmp/lib/rootfs/etc/motd"
abc=$(printf abc | sha512sum | cut -d' ' -f1)
printf 'd 0755 0 0 /etc\nf 0644 0 0 3 %s /etc/motd\n' "$abc" >"$tmp/lib/tree"
bundle reduce-worker c '"labels":[{"name":"version","value":"1.0.0"}],'"$app"',"dependencies":[{"imageName":"example.com/base","labels":[{"name":"version","value":"1.0.0"}]},{"imageName":"example.com/lib"}]'
mkdir -p "$tmp/reduce-worker/rootfs/bin"
head -c 200000 /dev/urandom >"$tmp/reduce-worker/rootfs/bin/run"
expect 'no image' 7 '' 'rkt: no image: example.com/base' "$rkt" prepare example.com/base
expect 'base' 0 "$(key a)" '' "$rkt" image import "$tmp/base"
expect 'the worker' 0 "$(key c)" '' "$rkt" image import "$tmp/reduce-worker"
expect 'without lib' 7 '' 'rkt: no dependency: example.com/lib' "$rkt" prepare example.com/reduce-worker
expect 'lib' 0 "$(key b)" '' "$rkt" image import "$tmp/lib"
store=$(find "$RKT_DIR/store" -printf '%p %y %m %s %i %T@ %C@\n' | sort)
before=$(date +%s)
uuid=$("$rkt" prepare example.com/reduce-worker:1.0.0 2>"$tmp/err")
same 'it is prepared' '0|' "$?|$(cat "$tmp/err")"
[[ $uuid =~ ^[0-9a-f]{8}-[0-9a-f]{4}-4[0-9a-f]{3}-[89ab][0-9a-f]{3}-[0-9a-f]{12}$ ]]
same 'it prints a uuid' 0 $?
expect 'its state' 0 'state=prepared' '' first_line "$rkt" status "$uuid"
same 'the store is as it was' "$store" "$(find "$RKT_DIR/store" -printf '%p %y %m %s %i %T@ %C@\n' | sort)"
same 'one pod in prepared' "$uuid" "$(ls "$(area prepared)")"
same 'none elsewhere' '0 0 0 0 0' "$(pods embryo) $(pods prepare) $(pods run) $(pods exited-garbage) $(pods garbage)"
pod=$(area prepared)/$uuid
mark=$(basename "$pod"/created-*)
now=$(date +%s)
[ "$((10#${mark#created-}))" -ge "$before" ] && [ "$((10#${mark#created-}))" -le "$now" ]
same 'its mark has the moment' 0 $?
same 'the mark has twenty digits' 28 ${#mark}
same 'its token is 32 digits' 1 "$(grep -cE '^[0-9a-f]{32}$' "$pod/token")"
same 'without a line feed' 32 "$(wc -c <"$pod/token")"
python3 tests/host/rendering.py "$tmp/wanted" "$(cat "$pod/token")" "${mark#created-}" "$tmp/reduce-worker" "$tmp/base" "$tmp/lib"
same 'the pod, file by file' "$(standing "$tmp/wanted")" "$(standing "$pod")"
same 'its listing' "$(cat "$tmp/wanted/stage1/rootfs/opt/stage2/reduce-worker/tree")" "$(cat "$pod/stage1/rootfs/opt/stage2/reduce-worker/tree")"
same 'the later dependency gives the file' "f 0644 0 0 3 $abc /etc/motd" "$(grep ' /etc/motd' "$pod/stage1/rootfs/opt/stage2/reduce-worker/tree")"
expect 'the manifest is one' 0 'valid PodManifest 1' '' "$rkt" validate "$pod/pod"

# Words, and pods that can't be made.
expect 'no word' 1 '' 'rkt: usage' "$rkt" prepare
expect 'no reference' 1 '' 'rkt: usage' "$rkt" prepare example.com/base:
expect 'the second is none' 1 '' 'rkt: usage' "$rkt" prepare example.com/reduce-worker -x
expect 'a label' 7 '' 'rkt: no image: example.com/reduce-worker,os=linux' "$rkt" prepare example.com/reduce-worker example.com/reduce-worker,os=linux
expect 'an image without an app' 6 '' 'rkt: bad manifest at example.com/base: refusal 92' "$rkt" prepare example.com/base
expect 'an app twice' 6 '' 'rkt: bad manifest at reduce-worker: refusal 90' "$rkt" prepare example.com/reduce-worker "$(key c)"
bundle loop d "$app"',"dependencies":[{"imageName":"example.com/loop"}]'
expect 'an image that depends on itself' 0 "$(key d)" '' "$rkt" image import "$tmp/loop"
expect 'is refused' 7 '' "rkt: cycle: $(key d)" "$rkt" prepare example.com/loop
same 'still one pod' 1 "$(pods prepared)"
same 'and nothing on the way' '0 0' "$(pods embryo) $(pods prepare)"

# A volume and a mount of the command line stand in the pod's manifest, the mount in each app.
whole=$RKT_DIR
export RKT_DIR=$tmp/wishes
bundle first e "$app"
bundle second f "$app"
expect 'a first app' 0 "$(key e)" '' "$rkt" image import "$tmp/first"
expect 'a second one' 0 "$(key f)" '' "$rkt" image import "$tmp/second"
wished() {
    local uuid
    uuid=$("$rkt" prepare "$@") || return
    tr -d '\n' <"$(area prepared)/$uuid/pod" | grep -oE '"(mounts|volumes)":\[[^]]*\]' | tr '\n' ' '
}
mounts='"mounts":[{"path":"/data","volume":"data"}]'
same 'a folder of the host' "$mounts \"volumes\":[{\"kind\":\"host\",\"name\":\"data\",\"source\":\"/srv/data\"}] " \
    "$(wished --volume=data,kind=host,source=/srv//./data/ --mount=volume=data,target=/data example.com/first)"
same 'one that is read only, in two apps' "$mounts $mounts \"volumes\":[{\"kind\":\"host\",\"name\":\"data\",\"readOnly\":true,\"source\":\"/srv\"}] " \
    "$(wished example.com/first --volume data,kind=host,source=/srv,readOnly=true --mount volume=data,target=/data example.com/second)"
same 'an empty one' '"volumes":[{"gid":0,"kind":"empty","mode":"0755","name":"data","uid":0}] ' \
    "$(wished --volume=data,kind=empty -- example.com/first)"
expect 'a mount without its volume' 6 '' 'rkt: bad manifest at other: refusal 94' \
    "$rkt" prepare --volume=data,kind=empty --mount=volume=other,target=/data example.com/first
for volume in data data,kind=host data,kind=host,source=srv data,kind=host,source=/a/../b data,kind=host,source=/a,readOnly=false kind=empty,data Data,kind=empty; do
    expect "no volume: $volume" 1 '' 'rkt: usage' "$rkt" prepare "--volume=$volume" example.com/first
done
expect 'two volumes' 1 '' 'rkt: usage' "$rkt" prepare --volume=a,kind=empty --volume=b,kind=empty example.com/first
expect 'an option of run' 1 '' 'rkt: usage' "$rkt" prepare --metadata=h:1 example.com/first
same 'three pods' 3 "$(pods prepared)"
export RKT_DIR=$whole

# Locks of others, which this script holds.
hold() {
    exec 9<"$1"
    flock "$2" 9
}
hold "$RKT_DIR/store/images" -x
expect 'images are locked' 5 '' 'rkt: busy: gate images' "$rkt" prepare example.com/reduce-worker
exec 9<&-
hold "$(area embryo)" -x
expect 'embryo is locked' 5 '' 'rkt: busy: gate embryo' "$rkt" prepare example.com/reduce-worker
exec 9<&-
hold "$RKT_DIR/store/images" -s
uuid=$("$rkt" prepare example.com/reduce-worker 9<&-)
same 'beside a reader' 0 $?
expect 'it is prepared too' 0 'state=prepared' '' first_line "$rkt" status "$uuid"
exec 9<&-
same 'two pods' 2 "$(pods prepared)"

# A file of the store that was changed, and one that is gone.
file=$RKT_DIR/store/images/$(key a)/rootfs/bin/abc
printf abd >"$file"
expect 'a file that differs' 15 '' "rkt: damaged: $(key a)/rootfs/bin/abc" "$rkt" prepare example.com/reduce-worker
same 'an aborted prepare is left' 1 "$(pods prepare)"
left=$(ls "$(area prepare)")
expect 'it reads as one' 0 'state=aborted prepare' '' first_line "$rkt" status "$left"
printf abc >"$file"
mv "$RKT_DIR/store/images/$(key b)/tree" "$tmp/away"
expect 'a listing that is gone' 15 '' "rkt: damaged: $(key b)/tree" "$rkt" prepare example.com/reduce-worker
mv "$tmp/away" "$RKT_DIR/store/images/$(key b)/tree"

# Eight at once.
RKT_DIR=$tmp/crowd
for image in base lib reduce-worker; do
    "$rkt" image import "$tmp/$image" >/dev/null
done
for n in 1 2 3 4 5 6 7 8; do
    "$rkt" prepare example.com/reduce-worker >"$tmp/out$n" 2>&1 &
done
wait
for n in 1 2 3 4 5 6 7 8; do
    expect "pod $n of eight" 0 'state=prepared' '' first_line "$rkt" status "$(cat "$tmp/out$n")"
    same "its root" 0 "$(diff -r "$tmp/wanted/stage1/rootfs/opt" "$(area prepared)/$(cat "$tmp/out$n")/stage1/rootfs/opt" >/dev/null; echo $?)"
done
same 'eight pods' 8 "$(pods prepared)"
same 'eight tokens' 8 "$(for token in "$(area prepared)"/*/token; do cat "$token" && echo; done | sort -u | wc -l)"

# Killed at any time: the pod stands whole in prepared, or isn't prepared, and no reader is misled.
RKT_DIR=$tmp/killed
for image in base lib reduce-worker; do
    "$rkt" image import "$tmp/$image" >/dev/null
done
whole=0
for n in $(seq 50); do
    # What is killed before it has opened the file leaves what stands there.
    : >"$tmp/line"
    "$rkt" prepare example.com/reduce-worker >"$tmp/line" 2>&1 &
    prepare=$!
    sleep "0.0$(printf '%02d' $((RANDOM % 90)))"
    kill -9 $prepare 2>/dev/null
    wait $prepare 2>/dev/null
    for uuid in $(ls "$(area embryo)"); do
        expect "kill $n: an embryo" 0 'state=embryo' '' first_line "$rkt" status "$uuid"
    done
    for uuid in $(ls "$(area prepare)"); do
        expect "kill $n: an aborted prepare" 0 'state=aborted prepare' '' first_line "$rkt" status "$uuid"
    done
    for uuid in $(ls "$(area prepared)"); do
        whole=$((whole + 1))
        expect "kill $n: a pod" 0 'state=prepared' '' first_line "$rkt" status "$uuid"
        same "kill $n: it is whole" 0 "$(diff -r "$tmp/wanted/stage1/rootfs/opt" "$(area prepared)/$uuid/stage1/rootfs/opt" >/dev/null; echo $?)"
    done
    printed=$(cat "$tmp/line")
    [ -z "$printed" ] || same "kill $n: what was printed is prepared" "$printed" "$(ls "$(area prepared)")"
    rm -rf "$(area embryo)"/* "$(area prepare)"/* "$(area prepared)"/*
done
uuid=$("$rkt" prepare example.com/reduce-worker)
expect 'a prepare afterwards' 0 'state=prepared' '' first_line "$rkt" status "$uuid"
echo "prepare.sh: of 50 prepares that were killed $whole had prepared the pod"

# While its image is removed and imported again: a whole pod, or no image, or a lock that is held.
RKT_DIR=$tmp/beside
for image in base lib reduce-worker; do
    "$rkt" image import "$tmp/$image" >/dev/null
done
(
    for _ in $(seq 20); do
        "$rkt" image rm "$(key b)" >/dev/null 2>&1
        "$rkt" image import "$tmp/lib" >/dev/null 2>&1
    done
) &
remover=$!
while kill -0 $remover 2>/dev/null; do
    out=$("$rkt" prepare example.com/reduce-worker 2>"$tmp/err")
    case $?$(cat "$tmp/err") in
        0)
            expect 'beside a removal' 0 'state=prepared' '' first_line "$rkt" status "$out"
            same 'its root is whole' 0 "$(diff -r "$tmp/wanted/stage1/rootfs/opt" "$(area prepared)/$out/stage1/rootfs/opt" >/dev/null; echo $?)"
            ;;
        '5rkt: busy: gate images' | '7rkt: no dependency: example.com/lib') ;;
        *) fail "beside a removal: $(cat "$tmp/err")" ;;
    esac
done
wait $remover
same 'nothing is left on the way' '0 0' "$(pods embryo) $(pods prepare)"

# A disk that is full.
mkdir "$tmp/small"
if mount -t tmpfs -o size=600k none "$tmp/small" 2>/dev/null; then
    RKT_DIR=$tmp/small/data
    for image in base lib reduce-worker; do
        "$rkt" image import "$tmp/$image" >/dev/null
    done
    "$rkt" prepare example.com/reduce-worker >/dev/null
    expect 'the disk is full' 9 '' 'rkt: directory fault' "$rkt" prepare example.com/reduce-worker
    for uuid in $(ls "$(area prepared)"); do
        same 'what is prepared is whole' 0 "$(diff -r "$tmp/wanted/stage1/rootfs/opt" "$(area prepared)/$uuid/stage1/rootfs/opt" >/dev/null; echo $?)"
    done
    umount "$tmp/small"
else
    skip 'a full disk: no small file system can be mounted here'
fi
finish
