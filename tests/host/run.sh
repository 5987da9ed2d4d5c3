#!/usr/bin/env bash
# The built program on a store and pods of this host: pods whose apps are run, from the import of their images to
# their exit: what they see, how they end, what fails, who may run them, and what is left when rkt is killed.
set -u
unset RKT_DIR
cd "$(dirname "$0")/../.." || exit 1
. tests/host/checks.bash

for tool in flock sha512sum; do
    if ! command -v $tool >/dev/null; then
        skip "all: there is no $tool"
        exit 0
    fi
done

tmp=$(cd "$tmp" && pwd -P)
rkt=$tmp/rkt-program
export RKT_DIR=$tmp/data
number=0

# image NAME APP SCRIPT: stores an image of that name with these members of its app, and with the program /bin/run.
image() {
    number=$((number + 1))
    mkdir -p "$tmp/$1/rootfs/bin"
    echo "{\"acKind\":\"ImageManifest\",\"acVersion\":\"0.8.0\",\"name\":\"example.com/$1\",\"app\":{$2,\"user\":\"0\",\"group\":\"0\"}}" >"$tmp/$1/manifest"
    printf 'sha512-%064x%064d\n' $number 0 >"$tmp/$1/id"
    printf '%s\n' "$3" >"$tmp/$1/rootfs/bin/run"
    chmod 755 "$tmp/$1/rootfs/bin/run"
    expect "the image $1" 0 "$(printf 'sha512-%064x' $number)" '' "$rkt" image import "$tmp/$1"
}

plain='"exec":["/bin/run"]'
told='"environment":[{"name":"RKT","value":"'$rkt'"},{"name":"RKT_DIR","value":"'$RKT_DIR'"}]'

area() {
    echo "$RKT_DIR/pods/$1"
}

root() {
    echo "$(area run)/$1/stage1/rootfs/opt/stage2/$2/rootfs"
}

phase() {
    "$rkt" status "$1" | head -n 1
}

# until NAME COMMAND..: the command holds within ten seconds.
until_so() {
    local name=$1
    shift
    for _ in $(seq 200); do
        "$@" && return
        sleep 0.05
    done
    fail "$name: not within ten seconds"
}

# ran NAME STATUS LINE SAID: a pod of the image is made and run, and ends so. Its name is left in $pod.
ran() {
    local status
    "$rkt" run "example.com/$1" >"$tmp/ran" 2>"$tmp/said"
    status=$?
    pod=$(ls -t "$(area run)" | head -n 1)
    same "$1 ends so" "$2|$3|$4" "$status|$(tail -n +2 "$tmp/ran")|$(cat "$tmp/said")"
    same "$1 is exited" state=exited "$(phase "$pod")"
}

# From the import to the exit: the pod reads as running from within, and as exited afterwards.
image asks "$plain,$told" '#!/bin/sh
here=$(pwd -P)
pod=${here#*/pods/run/}
"$RKT" status "${pod%%/*}" >phase
env | sort >seen
echo "$here" >>seen'
pod=$("$rkt" prepare example.com/asks)
same 'it waits' state=prepared "$(phase "$pod")"
expect 'it is run' 0 app-asks=0 '' "$rkt" run-prepared "$pod"
same 'it was running' state=running "$(head -n 1 "$(root "$pod" asks)/phase")"
same 'it is exited' state=exited "$(phase "$pod")"
same 'what it sees' "AC_APP_NAME=asks|AC_METADATA_URL=http://127.0.0.1:18112/$(cat "$(area run)/$pod/token")|$(root "$pod" asks)" \
    "$(grep -v '^PATH=\|^RKT\|^PWD=\|^OLDPWD=\|^SHLVL=\|^_=' "$(root "$pod" asks)/seen" | paste -sd'|')"
same 'its mark' 1 "$(ls "$(area run)/$pod" | grep -c '^started-asks$')"
same 'its status' 0 "$(cat "$(area run)/$pod/stage1/rootfs/rkt/status/asks")"
expect 'it is run once' 4 '' 'rkt: wrong phase: exited' "$rkt" run-prepared "$pod"
expect 'it is removed' 0 "removed $pod" '' "$rkt" rm "$pod"

# The same of a pod whose bytes are chosen in the place of the random source: its uuid and its token are those.
{ head -c 15 /dev/zero && printf '\001' && printf '\021%.0s' {1..16} && head -c 64 /dev/zero; } >"$tmp/drawn"
chosen() {
    unshare -m sh -c 'mount --bind "$0" /dev/urandom && exec "$@"' "$tmp/drawn" "$@"
}
if chosen true 2>/dev/null; then
    pod=00000000-0000-4000-8000-000000000001
    token=11111111111111111111111111111111
    expect 'a pod of chosen bytes' 0 $pod '' chosen "$rkt" prepare example.com/asks
    expect 'it is run too' 0 app-asks=0 '' "$rkt" run-prepared $pod
    same 'it was running too' state=running "$(head -n 1 "$(root $pod asks)/phase")"
    same 'it is exited too' state=exited "$(phase $pod)"
    same 'it sees its token' "AC_METADATA_URL=http://127.0.0.1:18112/$token" "$(grep '^AC_METADATA_URL=' "$(root $pod asks)/seen")"
    expect 'it is removed too' 0 "removed $pod" '' "$rkt" rm $pod
else
    skip 'a pod of chosen bytes: no file may be mounted over another here'
fi
expect 'and is gone' 2 '' 'rkt: no such pod' "$rkt" run-prepared "$pod"
pod=$("$rkt" prepare example.com/asks)
expect 'another is run by the beginning of its uuid' 0 app-asks=0 '' "$rkt" run-prepared --metadata=10.0.0.1:80 "${pod:0:13}"
same 'and sees the address that was given' "AC_METADATA_URL=http://10.0.0.1:80/$(cat "$(area run)/$pod/token")" \
    "$(grep '^AC_METADATA_URL' "$(root "$pod" asks)/seen")"
expect 'it is removed, in capitals' 0 "removed $pod" '' "$rkt" rm "${pod^^}"

# How apps end.
image fails "$plain" '#!/bin/sh
exit 3'
ran fails 16 app-fails=3 ''
image dies "$plain" '#!/bin/sh
kill -KILL $$'
ran dies 16 app-dies=255 ''
image writes "$plain" '#!/bin/sh
echo text >made'
ran writes 0 app-writes=0 ''
same 'what it wrote stands in its root' text "$(cat "$(root "$pod" writes)/made")"
image bare "$plain" '#!/bin/sh'
printf 'd 0755 0 0 /bin\nf 0644 0 0 %d %s /bin/run\n' "$(wc -c <"$tmp/bare/rootfs/bin/run")" "$(sha512sum <"$tmp/bare/rootfs/bin/run" | cut -d' ' -f1)" >"$tmp/bare/tree"
expect 'it goes' 0 "removed $(printf 'sha512-%064x' $number)" '' "$rkt" image rm "$(printf 'sha512-%064x' $number)"
expect 'it comes without its mode' 0 "$(printf 'sha512-%064x' $number)" '' "$rkt" image import "$tmp/bare"
ran bare 11 '' 'rkt: spawner fault'
image lost '"exec":["nowhere"]' '#!/bin/sh'
"$rkt" run example.com/lost >"$tmp/out" 2>"$tmp/err"
same 'a program that is missing' '19||rkt: no program: lost nowhere' "$?|$(cat "$tmp/out")|$(cat "$tmp/err")"
image away "$plain,\"workingDirectory\":\"/not/there\"" '#!/bin/sh'
ran away 11 '' 'rkt: spawner fault'
image outlives "$plain" '#!/bin/sh
(sleep 3; echo late >late) >/dev/null 2>&1 &
exit 0'
ran outlives 0 app-outlives=0 ''

# Handlers: one before that fails keeps the program from starting, one after runs when it has ended.
image handled '"exec":["/bin/run","main"],"eventHandlers":[{"name":"pre-start","exec":["/bin/run","before"]},{"name":"post-stop","exec":["/bin/run","after"]}]' '#!/bin/sh
echo $1 >>order'
ran handled 0 app-handled=0 ''
same 'in this order' 'before|main|after' "$(paste -sd'|' "$(root "$pod" handled)/order")"
image barred '"exec":["/bin/run","main"],"eventHandlers":[{"name":"pre-start","exec":["/bin/run","before"]}]' '#!/bin/sh
echo $1 >>order
exit 3'
ran barred 16 app-barred=3 ''
same 'the program never started' before "$(cat "$(root "$pod" barred)/order")"

# Two apps of one pod; and one that can't start while the other is waited for.
expect 'two images' 16 '' '' bash -c '"$0" run example.com/writes example.com/fails >"$1"; exit $?' "$rkt" "$tmp/two"
same 'a line of each, in order' 'app-writes=0|app-fails=3' "$(tail -n +2 "$tmp/two" | paste -sd'|')"

# Two processes and one prepared pod: one runs it, the other meets its lock or its phase.
image rests "$plain" '#!/bin/sh
echo up >up
while [ ! -e go ]; do sleep 0.05; done'
pod=$("$rkt" prepare example.com/rests)
"$rkt" run-prepared "$pod" >"$tmp/first" 2>&1 &
first=$!
until_so 'it is up' test -e "$(root "$pod" rests)/up"
expect 'it runs already' 4 '' 'rkt: wrong phase: running' "$rkt" run-prepared "$pod"
expect 'it stays' 4 '' 'rkt: wrong phase: running' "$rkt" rm "$pod"
same 'a sweep lets it be' "$pod kept running" "$("$rkt" gc | grep "^$pod ")"
touch "$(root "$pod" rests)/go"
wait $first
same 'the first went on' '0|app-rests=0' "$?|$(cat "$tmp/first")"

# Eight at once.
for i in $(seq 8); do
    "$rkt" run example.com/writes >"$tmp/run-$i" 2>&1 &
    runs[i]=$!
done
for i in $(seq 8); do
    wait "${runs[i]}"
    same "run $i of eight" '0|app-writes=0' "$?|$(tail -n +2 "$tmp/run-$i")"
done
same 'eight names' 8 "$(head -qn 1 "$tmp"/run-[1-8] | sort -u | wc -l)"

# Two that want one prepared pod at the same time: exactly one runs it.
for i in $(seq 10); do
    pod=$("$rkt" prepare example.com/writes)
    "$rkt" run-prepared "$pod" >"$tmp/a" 2>&1 &
    one=$!
    "$rkt" run-prepared "$pod" >"$tmp/b" 2>&1 &
    other=$!
    wait $one
    a=$?
    wait $other
    b=$?
    case "$a $b" in '0 4' | '0 5' | '4 0' | '5 0') won=1 ;; *) won="$a $b" ;; esac
    same "one of two runs it ($i)" 1 "$won"
done

# rkt is killed while the app runs: the pod is exited, and can be removed when the program has ended.
pod=$("$rkt" prepare example.com/rests)
"$rkt" run-prepared "$pod" >/dev/null 2>&1 &
run=$!
until_so 'it is up' test -e "$(root "$pod" rests)/up"
kill -KILL $run
wait $run 2>/dev/null
same 'killed, it is exited' state=exited "$(phase "$pod")"
touch "$(root "$pod" rests)/go"
sleep 0.3
expect 'then it is removed' 0 "removed $pod" '' "$rkt" rm "$pod"

# A part of a pod that is missing or has no reading is told by its path behind the pod's uuid, and nothing is started.
image parts "$plain" '#!/bin/sh'
pod=$("$rkt" prepare example.com/parts)
echo 11 >"$(area prepared)/$pod/token"
expect 'a token that is none' 15 '' "rkt: damaged: $pod/token" "$rkt" run-prepared "$pod"
pod=$("$rkt" prepare example.com/parts)
rm "$(area prepared)/$pod/stage1/rootfs/opt/stage2/parts/tree"
expect 'a listing that is missing' 15 '' "rkt: damaged: $pod/stage1/rootfs/opt/stage2/parts/tree" "$rkt" run-prepared "$pod"

finish
