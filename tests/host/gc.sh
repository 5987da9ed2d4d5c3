#!/usr/bin/env bash
# The built program on pods of this host that are removed: one by one and by sweeps, with links, deep paths and
# read-only directories in their roots; a large one within twice the time of `rm -r`; and a life of pods by eight
# processes with kills, in which no running pod loses a file and after which one sweep leaves nothing.
set -u
unset RKT_DIR
cd "$(dirname "$0")/../.." || exit 1
. tests/host/checks.bash

for tool in flock timeout; do
    if ! command -v $tool >/dev/null; then
        skip "all: there is no $tool"
        exit 0
    fi
done

tmp=$(cd "$tmp" && pwd -P)
rkt=$tmp/rkt-program
export RKT_DIR=$tmp/data
number=0

# image NAME SCRIPT: stores an image of that name with the program /bin/run.
image() {
    number=$((number + 1))
    mkdir -p "$tmp/$1/rootfs/bin"
    echo "{\"acKind\":\"ImageManifest\",\"acVersion\":\"0.8.0\",\"name\":\"example.com/$1\",\"app\":{\"exec\":[\"/bin/run\"],\"user\":\"0\",\"group\":\"0\"}}" >"$tmp/$1/manifest"
    printf 'sha512-%064x%064d\n' $number 0 >"$tmp/$1/id"
    printf '%s\n' "$2" >"$tmp/$1/rootfs/bin/run"
    chmod 755 "$tmp/$1/rootfs/bin/run"
    expect "the image $1" 0 "$(printf 'sha512-%064x' $number)" '' "$rkt" image import "$tmp/$1"
}

area() {
    echo "$RKT_DIR/pods/$1"
}

root() {
    echo "$(area "$1")/$2/stage1/rootfs/opt/stage2/$3/rootfs"
}

# aged POD SECONDS: the pod's mark in exited-garbage, or the mark of its making, is so much older.
aged() {
    local old now
    for old in "$(area exited-garbage)/$1"/marked-* "$(area prepared)/$1"/created-*; do
        [ -e "$old" ] || continue
        now=$((10#${old##*-}))
        mv "$old" "$(printf '%s-%020d' "${old%-*}" $((now - $2)))"
    done
}

standing() {
    local a
    for a in embryo prepare prepared run exited-garbage garbage; do
        ls "$(area $a)"
    done | wc -l
}

image app '#!/bin/sh
echo text >made'

# A prepared pod, an exited one, and one that was never there.
pod=$("$rkt" prepare example.com/app)
expect 'a prepared pod' 0 "removed $pod" '' "$rkt" rm "$pod"
expect 'it is gone' 2 '' 'rkt: no such pod' "$rkt" rm "$pod"
pod=$("$rkt" run example.com/app | head -n 1)
expect 'an exited pod' 0 "removed $pod" '' "$rkt" rm "$pod"
same 'nothing stands' 0 "$(standing)"
expect 'a uuid that was never drawn' 2 '' 'rkt: no such pod' "$rkt" rm 00000000-0000-4000-8000-000000000001
expect 'nothing to sweep' 0 '' '' "$rkt" gc

# An exited pod rests for half an hour, a prepared one for a day.
pod=$("$rkt" run example.com/app | head -n 1)
expect 'it is put aside' 0 "$pod moved exited-garbage
$pod kept exited garbage" '' "$rkt" gc
expect 'it rests' 0 "$pod kept exited garbage" '' "$rkt" gc
aged "$pod" 1790
expect 'still' 0 "$pod kept exited garbage" '' "$rkt" gc
aged "$pod" 20
expect 'its time is over' 0 "$pod deleted" '' "$rkt" gc
pod=$("$rkt" prepare example.com/app)
aged "$pod" 86390
expect 'it waits' 0 "$pod kept prepared" '' "$rkt" gc
aged "$pod" 20
expect 'it expires' 0 "$pod moved garbage
$pod deleted" '' "$rkt" gc
same 'nothing stands' 0 "$(standing)"

# Other times, by the options.
pod=$("$rkt" run example.com/app | head -n 1)
expect 'without a grace period it goes at once' 0 "$pod moved exited-garbage
$pod deleted" '' "$rkt" gc --grace-period=0
pod=$("$rkt" run example.com/app | head -n 1)
"$rkt" gc >/dev/null
aged "$pod" 3000
expect 'fifty minutes are no hour' 0 "$pod kept exited garbage" '' "$rkt" gc --grace-period=1h
expect 'the time of prepared pods is another' 0 "$pod kept exited garbage" '' "$rkt" gc --expire-prepared=0 --grace-period 51m
expect 'they are more than forty-nine and a half' 0 "$pod deleted" '' "$rkt" gc --grace-period 49m30s
pod=$("$rkt" prepare example.com/app)
expect 'a prepared pod rests without a grace period' 0 "$pod kept prepared" '' "$rkt" gc --grace-period=0
aged "$pod" 3000
expect 'and for an hour' 0 "$pod kept prepared" '' "$rkt" gc --expire-prepared=1h
expect 'and no longer than it may' 0 "$pod moved garbage
$pod deleted" '' "$rkt" gc --expire-prepared=2400
for time in '' 1h30 30m1h 01 -1 1d 1.5h 4294967296; do
    expect "no time: '$time'" 1 '' 'rkt: usage' "$rkt" gc "--grace-period=$time"
done
same 'nothing stands' 0 "$(standing)"

# What makings left that were killed, beside who holds the lock of embryo.
dead=00000000-0000-4000-8000-000000000002
mkdir "$(area embryo)/$dead"
exec 9<"$(area embryo)"
flock -s 9
expect 'beside a maker' 0 'embryo busy gate' '' "$rkt" gc
exec 9<&-
expect 'alone' 0 "$dead moved garbage
$dead deleted" '' "$rkt" gc

# Links out of the root, deep paths, and directories that can't be written: nothing outside is touched.
mkdir "$tmp/outside"
echo kept >"$tmp/outside/file"
pod=$("$rkt" run example.com/app | head -n 1)
inside=$(root run "$pod" app)
ln -s "$tmp/outside" "$inside/link"
ln -s "$tmp/outside/file" "$inside/other"
mkdir -p "$inside/$(printf 'd/%.0s' $(seq 300))"
mkdir -p "$inside/closed/below"
echo text >"$inside/closed/below/file"
chmod 555 "$inside/closed/below" "$inside/closed"
expect 'a hard root' 0 "removed $pod" '' "$rkt" rm "$pod"
same 'nothing stands' 0 "$(standing)"
same 'what is outside stands' kept "$(cat "$tmp/outside/file")"

# Another user than root empties a directory that isn't to be written or read once its mode is changed, which the removal does
# by itself where the name can be told. Else it is refused, the pod stays in exited-garbage, and goes once its directories
# can be written.
as_user=()
if [ "$(id -u)" = 0 ]; then
    as_user=(setpriv --reuid=65534 --regid=65534 --clear-groups)
fi
if [ ${#as_user[@]} -eq 0 ] || "${as_user[@]}" "$rkt" --version >/dev/null 2>&1; then
    whole=$RKT_DIR
    export RKT_DIR=$tmp/others
    mkdir "$RKT_DIR"
    [ ${#as_user[@]} -eq 0 ] || chown 65534:65534 "$RKT_DIR"
    "${as_user[@]}" "$rkt" image import "$tmp/app" >/dev/null
    pod=$("${as_user[@]}" "$rkt" run example.com/app | head -n 1)
    close() {
        "${as_user[@]}" mkdir -p "$1/below/d"
        "${as_user[@]}" touch "$1/below/file"
        "${as_user[@]}" chmod 555 "$1/below"
        "${as_user[@]}" chmod 000 "$1/below/d"
        "${as_user[@]}" chmod "$2" "$1"
    }
    close "$(root run "$pod" app)/closed" 555
    close "$(root run "$pod" app)/sealed" 000
    expect 'a closed root' 0 "removed $pod" '' "${as_user[@]}" "$rkt" rm "$pod"
    pod=$("${as_user[@]}" "$rkt" run example.com/app | head -n 1)
    "${as_user[@]}" "$rkt" gc >/dev/null
    close "$(root exited-garbage "$pod" app)/closed" 111
    rm "$(area exited-garbage)/$pod/"{token,started-app}
    expect 'a closed root, after a deletion that was cut short' 0 "removed $pod" '' "${as_user[@]}" "$rkt" rm "$pod"
    pod=$("${as_user[@]}" "$rkt" run example.com/app | head -n 1)
    close "$(root run "$pod" app)/"$'closed\xff' 555
    expect 'a closed root whose name is not UTF-8' 9 '' 'rkt: directory fault' "${as_user[@]}" "$rkt" rm "$pod"
    expect 'it rests' 0 'state=exited garbage' '' first_line "${as_user[@]}" "$rkt" status "$pod"
    "${as_user[@]}" chmod -R u+rwx "$(root exited-garbage "$pod" app)"
    expect 'an opened root' 0 "removed $pod" '' "${as_user[@]}" "$rkt" rm "$pod"
    same 'nothing of it stands' 0 "$(standing)"
    export RKT_DIR=$whole
else
    skip 'read-only directories of another user: root may write all, and there is no setpriv'
fi

# Three sweeps at once over pods that have just exited: each of them ends well, whichever comes first to a pod.
for round in {1..60}; do
    for turn in {1..4}; do "$rkt" run example.com/app >/dev/null; done
    sweepers=()
    for turn in {1..3}; do
        "$rkt" gc >/dev/null 2>>"$tmp/swept" &
        sweepers+=($!)
    done
    for sweeper in "${sweepers[@]}"; do
        wait "$sweeper"
        same "three sweeps at once, round $round" 0 $?
    done
done
same 'they said nothing' '' "$(sort "$tmp/swept" | uniq -c)"
for pod in "$(area exited-garbage)"/*; do aged "${pod##*/}" 2000; done
"$rkt" gc >/dev/null
same 'nothing stands' 0 "$(standing)"

# A root of 50,000 files in 500 directories goes within twice the time of `rm -r` of as many: in one of up to fifteen
# turns, since times beside other work on the host differ more than that.
large() {
    mkdir -p "$1" && (cd "$1" && mkdir d{1..500} && printf '%s\n' d{1..500}/f{1..100} | xargs touch)
}

# milliseconds COMMAND..: what it took.
milliseconds() {
    local from
    from=$(date +%s%N)
    "$@" >/dev/null
    echo $((($(date +%s%N) - from) / 1000000))
}

times=
for turn in {1..15}; do
    pod=$("$rkt" run example.com/app | head -n 1)
    large "$(root run "$pod" app)/large"
    large "$tmp/large"
    ours=$(milliseconds "$rkt" rm "$pod")
    theirs=$(milliseconds rm -r "$tmp/large")
    same "a large root has gone in turn $turn" 0 "$(standing)"
    [ "$ours" -gt $((2 * theirs)) ] || break
    times="$times $ours:$theirs"
done
[ "$ours" -le $((2 * theirs)) ] || fail "a large root takes more than twice as long as rm -r:$times"

# A life of at least 200 pods, for a minute: eight processes prepare, run, remove and sweep, and each command is killed
# now and then. Each app writes a file, waits, and looks for it: it says if a running pod lost a file.
image lives "#!/bin/sh
echo here >sentinel
sleep 0.1
[ \"\$(cat sentinel 2>/dev/null)\" = here ] || echo lost >>$tmp/lost"
: >"$tmp/lost"
until=$((SECONDS + 60))
live() {
    local pod cut made=0
    while [ $SECONDS -lt $until ] || { [ $made -lt 25 ] && [ $SECONDS -lt $((until + 240)) ]; }; do
        cut=()
        [ $((RANDOM % 4)) -ne 0 ] || cut=(timeout -s KILL 0.0$((RANDOM % 9 + 1)))
        case $((RANDOM % 5)) in
            0) "${cut[@]}" "$rkt" prepare example.com/lives && made=$((made + 1)) ;;
            1 | 2) "${cut[@]}" "$rkt" run example.com/lives && made=$((made + 1)) ;;
            3) pod=$(ls "$(area prepared)" "$(area run)" | grep -v : | sort -R | head -n 1)
                [ -z "$pod" ] || "${cut[@]}" "$rkt" rm "$pod" ;;
            4) "${cut[@]}" "$rkt" gc ;;
        esac >/dev/null 2>>"$tmp/said"
    done
    echo $made >>"$tmp/made"
}
for i in $(seq 8); do
    live &
done
wait
sleep 0.5
same 'each process made its pods' 8 "$(awk '$1 >= 25' "$tmp/made" | wc -l)"
same 'no running pod lost a file' '' "$(cat "$tmp/lost")"
same 'nothing but what may be was said' '' "$(sort -u "$tmp/said" | grep -v '^rkt: no such pod$\|^rkt: wrong phase: \|^rkt: busy: \|^rkt: no manifest: \|[Kk]illed')"
"$rkt" gc >/dev/null
for area_of in prepared exited-garbage; do
    for left in "$(area $area_of)"/*; do
        [ -e "$left" ] && aged "${left##*/}" 100000
    done
done
"$rkt" gc >/dev/null
same 'one sweep leaves nothing' 0 "$(standing)"

finish
