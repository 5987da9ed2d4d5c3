#!/usr/bin/env bash
# The built program on a store of this host: images that are removed, by one process and by two at once, beside
# readers; and sweeps of what killed processes left, while imports run.
set -u
unset RKT_DIR
cd "$(dirname "$0")/../.." || exit 1
. tests/host/checks.bash

if ! command -v flock >/dev/null; then
    skip "all: there is no flock"
    exit 0
fi

# id NUMBER, key NUMBER
id() {
    printf 'sha512-%064x%064d\n' "$1" 0
}

key() {
    printf 'sha512-%064x\n' "$1"
}

# bundle NAME NUMBER: a bundle with an empty root.
bundle() {
    mkdir -p "$tmp/$1/rootfs"
    echo "{\"acKind\":\"ImageManifest\",\"acVersion\":\"0.8.11\",\"name\":\"example.com/$1\"}" >"$tmp/$1/manifest"
    id "$2" >"$tmp/$1/id"
}

area() {
    echo "$RKT_DIR/store/$1"
}

count() {
    ls "$(area "$1")" | wc -l
}

# whole NAME NUMBER: whether the stored image holds the files of the bundle.
whole() {
    diff -r "$tmp/$1/rootfs" "$(area images)/$(key "$2")/rootfs" >/dev/null
    echo $?
}

# hold AREA: this script holds the lock of the area shared, until `release`. The programs don't inherit it.
hold() {
    exec 9<"$(area "$1")"
    flock -s 9
}

release() {
    exec 9<&-
}

# Row by row: an image is removed, is gone, and is imported again.
export RKT_DIR=$tmp/data
bundle base 10
bundle lib 11
mkdir -p "$tmp/lib/rootfs/etc/deep"
printf abc >"$tmp/lib/rootfs/etc/motd"
printf abd >"$tmp/lib/rootfs/etc/deep/motd"
expect 'nothing to sweep' 0 '' '' "$rkt" image gc
expect 'an image' 0 "$(key 10)" '' "$rkt" image import "$tmp/base"
expect 'another' 0 "$(key 11)" '' "$rkt" image import "$tmp/lib"
before=$(find "$(area images)/$(key 10)" -printf '%p %y %m %s %i %T@ %C@\n' | sort)
expect 'a removal' 0 "removed $(key 11)" '' "$rkt" image rm "$(key 11)"
same 'the other image is as it was' "$before" "$(find "$(area images)/$(key 10)" -printf '%p %y %m %s %i %T@ %C@\n' | sort)"
same 'one image is left' "$(key 10)" "$(ls "$(area images)")"
same 'nothing is left in removed' 0 "$(count removed)"
expect 'it is gone' 7 '' "rkt: no image: $(key 11)" "$rkt" image rm "$(key 11)"
expect 'nothing to sweep' 0 '' '' "$rkt" image gc
expect 'it is imported again' 0 "$(key 11)" '' "$rkt" image import "$tmp/lib"
same 'it is whole' 0 "$(whole lib 11)"
expect 'by its image ID' 0 "removed $(key 11)" '' "$rkt" image rm "$(id 11)"
expect 'a digit too few' 1 '' 'rkt: usage' "$rkt" image rm "$(key 11 | cut -c1-70)"
expect 'upper case' 1 '' 'rkt: usage' "$rkt" image rm "$(printf 'sha512-%064X' 10)"
expect 'a word too many' 1 '' 'rkt: usage' "$rkt" image gc now

# Beside a reader the image stays; beside who holds the lock of removed it is put away.
hold images
expect 'beside a reader' 5 '' 'rkt: busy: gate images' "$rkt" image rm "$(key 10)"
same 'the image stays' "$before" "$(find "$(area images)/$(key 10)" -printf '%p %y %m %s %i %T@ %C@\n' | sort)"
expect 'a sweep takes no lock of images' 0 '' '' "$rkt" image gc
release
hold removed
expect 'it is put away' 0 "removed $(key 10)" '' "$rkt" image rm "$(key 10)"
same 'it stands in removed' 1 "$(count removed)"
away=$(ls "$(area removed)")
expect 'removed is busy' 0 'removed busy gate' '' "$rkt" image gc
release
expect 'it is swept' 0 "$away deleted" '' "$rkt" image gc
same 'nothing is left in removed' 0 "$(count removed)"

# A sweep passes over folders whose names are no uuids.
mkdir "$(area incoming)/other" "$(area removed)/other"
expect 'other folders' 0 '' '' "$rkt" image gc
same 'they stay' 2 "$(ls -d "$(area incoming)/other" "$(area removed)/other" | wc -l)"
rmdir "$(area incoming)/other" "$(area removed)/other"

# Two removals of one image at once: one removes it, the other finds none. Whoever meets the other's lock asks
# again.
remove_until_told() {
    local status
    while :; do
        "$rkt" image rm "$(key 11)" >"$tmp/told$1" 2>&1
        status=$?
        [ $status -eq 5 ] || break
    done
    echo "$status $(cat "$tmp/told$1")" >"$tmp/told$1.end"
}
for n in $(seq 20); do
    expect "round $n: the image" 0 "$(key 11)" '' "$rkt" image import "$tmp/lib"
    remove_until_told 1 &
    remove_until_told 2 &
    wait
    same "round $n: one removes it, one finds none" "0 removed $(key 11)
7 rkt: no image: $(key 11)" "$(sort "$tmp/told1.end" "$tmp/told2.end")"
    same "round $n: nothing is left in images" 0 "$(count images)"
done
"$rkt" image gc >/dev/null
same 'nothing is left in removed' 0 "$(count removed)"

# Killed imports leave folders in incoming; a sweep tells each twice, and nothing is left.
RKT_DIR=$tmp/killed
"$rkt" image list
bundle big 12
for n in $(seq 200); do
    head -c 20000 /dev/urandom >"$tmp/big/rootfs/f$n"
done
swept=0
for n in $(seq 20); do
    "$rkt" image import "$tmp/big" >/dev/null 2>&1 &
    import=$!
    sleep "0.0$(printf '%02d' $((RANDOM % 50)))"
    kill -9 $import 2>/dev/null
    wait $import 2>/dev/null
    left=$(ls "$(area incoming)")
    wanted=$(for name in $left; do echo "$name moved removed"; done
        for name in $left; do echo "$name deleted"; done)
    [ -z "$left" ] || swept=$((swept + 1))
    expect "kill $n: the sweep" 0 "$wanted" '' "$rkt" image gc
    same "kill $n: nothing is left" '0 0' "$(count incoming) $(count removed)"
    case $(ls "$(area images)") in
        '') ;;
        "$(key 12)")
            same "kill $n: the whole image" 0 "$(whole big 12)"
            expect "kill $n: it is removed" 0 "removed $(key 12)" '' "$rkt" image rm "$(key 12)"
            ;;
        *) fail "kill $n: '$(ls "$(area images)")'" ;;
    esac
done

# Killed removals leave the image whole, or what the next sweep deletes.
gone=0
for n in $(seq 20); do
    "$rkt" image import "$tmp/big" >/dev/null
    "$rkt" image rm "$(key 12)" >/dev/null 2>&1 &
    removal=$!
    sleep "0.00$((RANDOM % 10))"
    kill -9 $removal 2>/dev/null
    wait $removal 2>/dev/null
    if [ -d "$(area images)/$(key 12)" ]; then
        same "killed removal $n: the whole image" 0 "$(whole big 12)"
        same "killed removal $n: nothing put away" 0 "$(count removed)"
    else
        gone=$((gone + 1))
        wanted=$(for name in $(ls "$(area removed)"); do echo "$name deleted"; done)
        expect "killed removal $n: the sweep" 0 "$wanted" '' "$rkt" image gc
    fi
    same "killed removal $n: nothing is left" '0 0' "$(count incoming) $(count removed)"
done

# A sweep while an import is at work, which is stopped meanwhile.
RKT_DIR=$tmp/live
"$rkt" image list
"$rkt" image import "$tmp/big" >"$tmp/out1" 2>&1 &
import=$!
while kill -0 $import 2>/dev/null && [ "$(count incoming)" -eq 0 ]; do :; done
kill -STOP $import 2>/dev/null
if [ "$(count incoming)" -eq 1 ]; then
    expect 'a sweep beside an import' 0 'incoming busy gate' '' "$rkt" image gc
    same 'its folder stays' 1 "$(count incoming)"
else
    skip 'a sweep beside an import: it was too fast'
fi
kill -CONT $import 2>/dev/null
wait $import
same 'the import is done' "$(key 12)" "$(cat "$tmp/out1")"
same 'the image is whole' 0 "$(whole big 12)"
expect 'nothing is left to sweep' 0 '' '' "$rkt" image gc

# 200 images by eight processes at once, some of which are killed first, beside a process that sweeps all the
# time. Whoever meets a lock asks again.
RKT_DIR=$tmp/many
"$rkt" image list
for n in $(seq 200); do
    bundle "i$n" $((1000 + n))
    head -c 3000 /dev/urandom >"$tmp/i$n/rootfs/data"
done
import_until_told() {
    local status
    while :; do
        "$rkt" image import "$tmp/i$1" >"$tmp/imported$1" 2>&1
        status=$?
        [ $status -eq 5 ] || break
    done
}
imports() {
    local n other
    for n in $(seq "$1" 8 200); do
        if [ $((n % 5)) -eq 0 ]; then
            "$rkt" image import "$tmp/i$n" >/dev/null 2>&1 &
            other=$!
            sleep "0.00$((RANDOM % 10))"
            kill -9 $other 2>/dev/null
            wait $other 2>/dev/null
        fi
        import_until_told "$n"
    done
}
sweeps() {
    local out status
    while [ ! -e "$tmp/over" ]; do
        out=$("$rkt" image gc 2>&1)
        status=$?
        [ $status -eq 0 ] || echo "status $status: $out"
        [ -z "$out" ] || echo "$out"
    done
}
sweeps >"$tmp/swept" &
sweeper=$!
workers=
for worker in 1 2 3 4 5 6 7 8; do
    imports $worker &
    workers="$workers $!"
done
# The sweeper ends when they have.
wait $workers
: >"$tmp/over"
wait $sweeper
other=$(grep -cvE '^(incoming busy gate|removed busy gate|[0-9a-f]{8}(-[0-9a-f]{4}){3}-[0-9a-f]{12} (moved removed|deleted))$' "$tmp/swept")
same 'each sweep was done' 0 "$other"
for n in $(seq 200); do
    same "import $n of 200" "$(key $((1000 + n)))" "$(cat "$tmp/imported$n")"
    same "its image" 0 "$(whole "i$n" $((1000 + n)))"
done
same '200 images' 200 "$("$rkt" image list | wc -l)"
"$rkt" image gc >"$tmp/last" 2>&1
same 'the last sweep' 0 $?
same 'nothing dead is left' '0 0' "$(count incoming) $(count removed)"
expect 'nothing is left to sweep' 0 '' '' "$rkt" image gc

# And all of them are removed by eight processes at once, beside it.
rm "$tmp/over"
sweeps >"$tmp/swept" &
sweeper=$!
removals() {
    local n status
    for n in $(seq "$1" 8 200); do
        while :; do
            "$rkt" image rm "$(key $((1000 + n)))" >"$tmp/removed$n" 2>&1
            status=$?
            [ $status -eq 5 ] || break
        done
    done
}
workers=
for worker in 1 2 3 4 5 6 7 8; do
    removals $worker &
    workers="$workers $!"
done
wait $workers
: >"$tmp/over"
wait $sweeper
for n in $(seq 200); do
    same "removal $n of 200" "removed $(key $((1000 + n)))" "$(cat "$tmp/removed$n")"
done
expect 'no image is left' 0 '' '' "$rkt" image list
"$rkt" image gc >/dev/null
same 'nothing is left' '0 0' "$(count incoming) $(count removed)"
echo "removal.sh: of 20 killed imports $swept left a folder; of 20 killed removals $gone had moved the image"
finish
