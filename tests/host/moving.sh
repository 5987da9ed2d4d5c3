#!/usr/bin/env bash
# Pods that move through their places, under locks as their builders, runners and collectors hold
# them, while readers ask for their phase without a pause. No reader may get an answer that the pod
# can't have had during the call, miss a pod that stands somewhere, or see one go back.
set -u
export LC_ALL=C
cd "$(dirname "$0")/../.." || exit 1

rkt=$PWD/crates/rkt/out/rkt
rounds=${ROUNDS:-8}
readers=3

if [ ! -x "$rkt" ]; then
    echo "moving.sh: $rkt is missing: build the program first" >&2
    exit 1
fi
for tool in flock mktemp; do
    if ! command -v $tool >/dev/null; then
        echo "moving.sh: skipped: all: there is no $tool" | tee -a "${RKT_SKIPPED:-/dev/null}"
        exit 0
    fi
done
tmp=$(mktemp -d) || exit 1
trap 'rm -rf "$tmp"' EXIT
export RKT_DIR=$tmp/data
"$rkt" status 00000000-0000-4000-8000-000000000000 2>/dev/null

# A life is a list of stages, each the only answer between its step and the next. A stage that may
# have begun has a file `begun.N`, one whose step is over a file `over.N`.
gone='no such pod'
run_life=("$gone" 'embryo' 'preparing' 'prepared' 'running' 'exited' 'exited garbage' 'deleting' "$gone")
dropped_life=("$gone" 'embryo' 'preparing' 'prepared' 'garbage' 'deleting' "$gone")
aborted_life=("$gone" 'embryo' 'preparing' 'aborted prepare' 'garbage' 'deleting' "$gone")
dead_life=("$gone" 'embryo' 'garbage' 'deleting' "$gone")

newest() {
    local n=$((${#life[@]} - 1))
    while [ $n -gt 0 ] && [ ! -e "$stages/$1.$n" ]; do
        n=$((n - 1))
    done
    echo $n
}

# The answer of one call of the program: the phase, or that there is no such pod.
ask() {
    local out status
    out=$("$rkt" status "$pod" 2>"$stages/err.$1")
    status=$?
    case "$status|$out|$(cat "$stages/err.$1")" in
        '0|state='*'|') echo "${out#state=}" ;;
        '2||rkt: no such pod') echo "$gone" ;;
        *) echo "status $status, '$out', '$(cat "$stages/err.$1")'" ;;
    esac
}

# Reads until the life is over, and writes down what can't be.
reader() {
    local last=0 from to answer n ended=no
    while [ $ended = no ]; do
        [ ! -e "$stages/ended" ] || ended=yes
        from=$(newest over)
        answer=$(ask "$1")
        to=$(newest begun)
        [ "$last" -gt "$from" ] && from=$last
        n=$from
        while [ "$n" -le "$to" ] && [ "${life[$n]}" != "$answer" ]; do
            n=$((n + 1))
        done
        echo "$answer" >>"$tmp/answers"
        if [ "$n" -gt "$to" ]; then
            echo "moving.sh: FAILED: pod $pod was '$answer' between '${life[$from]}' and '${life[$to]}'" >&2
            : >"$tmp/failed"
            return
        fi
        last=$n
    done
}

step() {
    local n=$1
    shift
    : >"$stages/begun.$n"
    "$@" || {
        echo "moving.sh: FAILED: pod $pod: no step '$*'" >&2
        : >"$tmp/failed"
    }
    : >"$stages/over.$n"
    [ "$pause" = 0 ] || sleep "$pause"
}

at() {
    echo "$RKT_DIR/pods/$1/$pod"
}
move() {
    mv "$(at "$1")" "$(at "$2")"
}
# The pod's lock is descriptor 9.
open_lock() {
    exec 9<"$(at "$1")"
}
lock() {
    flock -x 9
}
close_lock() {
    exec 9<&-
}
lock_new() {
    open_lock "$1" && lock
}
look_and_move() {
    exec 8<"$(at "$1")" && flock -s 8 && move "$1" "$2"
    local status=$?
    exec 8<&-
    return $status
}
remove_locked() {
    rmdir "$(at "$1")"
    local status=$?
    close_lock
    return $status
}

build() {
    step 1 mkdir "$(at embryo)"
    lock_new embryo
    step 2 move embryo prepare
}

run_steps() {
    build
    step 3 move prepare prepared
    close_lock
    lock_new prepared
    step 4 move prepared run
    step 5 close_lock
    step 6 look_and_move run exited-garbage
    step 7 lock_new exited-garbage
    step 8 remove_locked exited-garbage
}
dropped_steps() {
    build
    step 3 move prepare prepared
    close_lock
    step 4 look_and_move prepared garbage
    step 5 lock_new garbage
    step 6 remove_locked garbage
}
aborted_steps() {
    build
    step 3 close_lock
    step 4 look_and_move prepare garbage
    step 5 lock_new garbage
    step 6 remove_locked garbage
}
dead_steps() {
    step 1 mkdir "$(at embryo)"
    step 2 move embryo garbage
    step 3 lock_new garbage
    step 4 remove_locked garbage
}

count=0
for round in $(seq "$rounds"); do
    for kind in run dropped aborted dead; do
        count=$((count + 1))
        pod=$(printf '00000000-0000-4000-8000-%012d' $count)
        stages=$tmp/stages.$count
        mkdir "$stages"
        declare -n life=${kind}_life
        # Odd rounds rest between the steps, even ones don't.
        pause=0
        [ $((round % 2)) -eq 0 ] || pause=0.02
        for number in $(seq $readers); do
            reader "$number" 9<&- &
        done
        [ "$pause" = 0 ] || sleep "$pause"
        ${kind}_steps
        : >"$stages/ended"
        wait
        unset -n life
        [ ! -e "$tmp/failed" ] || break 2
    done
done

echo "moving.sh: $count pods, $(wc -l <"$tmp/answers") answers: $(sort "$tmp/answers" | uniq -c | awk '{n=$1; $1=""; print substr($0, 2) " " n}' | paste -sd, -)"
for phase in embryo preparing 'aborted prepare' prepared running exited 'exited garbage' garbage deleting; do
    grep -qx "$phase" "$tmp/answers" || echo "moving.sh: no reader met '$phase'"
done
[ ! -e "$tmp/failed" ]
