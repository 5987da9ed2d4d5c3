#!/usr/bin/env bash
# The built program on data folders of this host: the lists of pods and the manifests that it prints, what it refuses,
# and its lists while eight others make, run and remove pods.
set -u
unset RKT_DIR
cd "$(dirname "$0")/../.." || exit 1
. tests/host/checks.bash

lists=${LISTS:-500}
makers=8
tmp=$(cd "$tmp" && pwd -P)
rkt=$tmp/rkt-program
export RKT_DIR=$tmp/data
pod=00000000-0000-4000-8000-000000000001
tab=$'\t'
number=0

# line UUID PHASE APPS
line() {
    printf '%s\t%s\t%s' "$1" "$2" "$3"
}

# image NAME: stores an image of that name whose program ends at once.
image() {
    number=$((number + 1))
    mkdir -p "$tmp/$1/rootfs/bin"
    echo "{\"acKind\":\"ImageManifest\",\"acVersion\":\"0.8.0\",\"name\":\"example.com/$1\",\"app\":{\"exec\":[\"/bin/run\"],\"user\":\"0\",\"group\":\"0\"}}" >"$tmp/$1/manifest"
    printf 'sha512-%064x%064d\n' $number 0 >"$tmp/$1/id"
    printf '#!/bin/sh\n' >"$tmp/$1/rootfs/bin/run"
    chmod 755 "$tmp/$1/rootfs/bin/run"
    expect "the image $1" 0 "$(printf 'sha512-%064x' $number)" '' "$rkt" image import "$tmp/$1"
}

# app NAME NUMBER: an app of a pod manifest.
app() {
    printf '{"app":{"exec":["/bin/run"],"group":"0","user":"0"},"image":{"id":"sha512-%064x%064d","name":"example.com/%s"},"name":"%s"}' "$2" 0 "$1" "$1"
}

usage() {
    expect "usage: rkt $*" 1 '' 'rkt: usage' "$rkt" "$@"
}

area() {
    echo "$RKT_DIR/pods/$1"
}

# An empty folder has no pods.
expect 'no pods' 0 '' '' "$rkt" list
expect 'no pod' 2 '' 'rkt: no such pod' "$rkt" cat-manifest $pod
expect 'no pod that begins so' 2 '' 'rkt: no such pod' "$rkt" cat-manifest 0

# The phase by the area and the lock, in a list.
places=(embryo prepare prepared run exited-garbage garbage)
free=('embryo' 'aborted prepare' 'prepared' 'exited' 'exited garbage' 'garbage')
held=('embryo' 'preparing' 'prepared' 'running' 'deleting' 'deleting')
for i in "${!places[@]}"; do
    folder=$(area "${places[$i]}")/$pod
    mkdir "$folder"
    expect "a list of ${places[$i]}, not locked" 0 "$(line $pod "${free[$i]}" -)" '' "$rkt" list
    expect "no manifest in ${places[$i]}" 18 '' "rkt: no manifest: $pod" "$rkt" cat-manifest $pod
    if command -v flock >/dev/null; then
        exec 9<"$folder"
        flock -n -x 9 || fail "${places[$i]}: no exclusive lock"
        expect "a list of ${places[$i]}, locked" 0 "$(line $pod "${held[$i]}" -)" '' "$rkt" list
        flock -n -x 9 || fail "${places[$i]}: a lock of the list is left"
        exec 9<&-
    else
        skip "a list of ${places[$i]}, locked: there is no flock"
    fi
    rmdir "$folder"
done

# What is no pod has no line.
mkdir "$(area run)/x" "$(area run)/${pod%1}" "$(area run)/${pod}0" "$(area prepared)/${pod^^}x" "$(area garbage)/ABCDEF00-0000-4000-8000-000000000001"
: >"$(area embryo)/$pod"
ln -s ../embryo "$(area run)/$pod"
expect 'folders of other names, a file and a link' 0 '' '' "$rkt" list
rm "$(area embryo)/$pod" "$(area run)/$pod"
if command -v mkfifo >/dev/null; then
    mkfifo "$(area garbage)/$pod"
    expect 'a pipe' 0 '' '' timeout 20 "$rkt" list
    rm "$(area garbage)/$pod"
else
    skip 'a list with a pipe: there is no mkfifo'
fi

# Manifests: of one app, of two, of none, without a reading, too long.
image one
image two
first=$("$rkt" prepare example.com/one)
manifest="{\"acKind\":\"PodManifest\",\"acVersion\":\"0.8.0\",\"apps\":[$(app one 1)]}"
expect 'a prepared pod' 0 "$(line "$first" prepared one)" '' "$rkt" list
expect 'its manifest' 0 "$manifest" '' "$rkt" cat-manifest "$first"
expect 'its manifest, by a beginning' 0 "$manifest" '' "$rkt" cat-manifest "${first:0:9}"
expect 'its manifest, in capitals' 0 "$manifest" '' "$rkt" cat-manifest "${first^^}"
same 'its manifest is the file' "$manifest" "$(cat "$(area prepared)/$first/pod")"
expect 'it runs' 0 app-one=0 '' "$rkt" run-prepared "$first"
expect 'it has ended' 0 "$(line "$first" exited one)" '' "$rkt" list
second=$("$rkt" prepare example.com/two example.com/one)
expect 'a manifest of two apps' 0 "{\"acKind\":\"PodManifest\",\"acVersion\":\"0.8.0\",\"apps\":[$(app two 2),$(app one 1)]}" '' "$rkt" cat-manifest "$second"
expect 'two pods' 0 "$( (line "$first" exited one; echo; line "$second" prepared two,one; echo) | sort)" '' "$rkt" list
expect 'the first goes' 0 "removed $first" '' "$rkt" rm "$first"
expect 'the first is gone' 2 '' 'rkt: no such pod' "$rkt" cat-manifest "$first"
expect 'the second is left' 0 "$(line "$second" prepared two,one)" '' "$rkt" list
expect 'the second goes' 0 "removed $second" '' "$rkt" rm "$second"

# written TEXT: a pod with this manifest.
written() {
    mkdir -p "$(area prepared)/$pod"
    printf '%s' "$1" >"$(area prepared)/$pod/pod"
}
none='{"acKind":"PodManifest","acVersion":"0.8.0","apps":[]}'
written "$none"
expect 'a list of a pod without apps' 0 "$(line $pod prepared -)" '' "$rkt" list
expect 'a manifest without apps' 0 "$none" '' "$rkt" cat-manifest $pod
written $' {\n  "apps" : [ ],\t"acVersion" : "0.8.0", "more" : [ 1 ], "acKind" : "PodManifest" }\n'
expect 'a manifest is written anew' 0 "$none" '' "$rkt" cat-manifest $pod
written "$none$(printf '%*s' $((1048576 - ${#none})) '')"
expect 'a manifest of 1048576 bytes' 0 "$none" '' "$rkt" cat-manifest $pod
for text in "$none$(printf '%*s' $((1048577 - ${#none})) '')" '' '{' "$(cat "$tmp/one/manifest")"; do
    written "$text"
    expect "no manifest: $(head -c 20 <<<"$text")" 18 '' "rkt: no manifest: $pod" "$rkt" cat-manifest $pod
    expect "a list without manifest: $(head -c 20 <<<"$text")" 0 "$(line $pod prepared -)" '' "$rkt" list
done

# What is no file is no manifest.
printf '%s' "$none" >"$tmp/none"
rm "$(area prepared)/$pod/pod"
mkdir "$(area prepared)/$pod/pod"
expect 'a folder is no manifest' 18 '' "rkt: no manifest: $pod" "$rkt" cat-manifest $pod
expect 'a list with a folder' 0 "$(line $pod prepared -)" '' "$rkt" list
rmdir "$(area prepared)/$pod/pod"
ln -s "$tmp/none" "$(area prepared)/$pod/pod"
expect 'a link is no manifest' 18 '' "rkt: no manifest: $pod" "$rkt" cat-manifest $pod
rm "$(area prepared)/$pod/pod"
written "$none"

# The lines rise by uuid, whatever the areas.
other=00000000-0000-4000-8000-00000000000a
least=00000000-0000-4000-8000-000000000000
great=ffffffff-ffff-4fff-bfff-ffffffffffff
mkdir "$(area garbage)/$least" "$(area run)/$other" "$(area embryo)/$great"
expect 'four pods' 0 "$(line $least garbage -)
$(line $pod prepared -)
$(line $other exited -)
$(line $great embryo -)" '' "$rkt" list
expect 'a beginning of three' 3 '' "rkt: ambiguous: $least $pod" "$rkt" cat-manifest 0
expect 'a whole uuid' 0 "$none" '' "$rkt" cat-manifest $pod
expect 'a beginning of one' 18 '' "rkt: no manifest: $great" "$rkt" cat-manifest F

# They change nothing.
listing() {
    (cd "$RKT_DIR" && find . -printf '%p %y %m %u %s %i %T@ %C@\n' | sort)
}
if listing >/dev/null 2>&1; then
    before=$(listing)
    "$rkt" list >/dev/null
    "$rkt" cat-manifest $pod >/dev/null
    same 'they change nothing' "$before" "$(listing)"
else
    skip 'that nothing changes: find has no -printf'
fi

usage list $pod
usage list ''
usage list --full
usage cat-manifest
usage cat-manifest ''
usage cat-manifest $pod $other
usage cat-manifest g
usage cat-manifest --pod=$pod

# Streams and folders that can't be used.
to_full() { "$@" >/dev/full; }
if [ -c /dev/full ]; then
    expect 'a list to a full output' 12 '' 'rkt: output fault' to_full "$rkt" list
    expect 'a manifest to a full output' 12 '' 'rkt: output fault' to_full "$rkt" cat-manifest $pod
else
    skip 'a full output: there is no /dev/full'
fi
: >"$tmp/file"
RKT_DIR=$tmp/file expect 'a data folder that is a file' 9 '' 'rkt: directory fault' "$rkt" list
as_user=()
[ "$(id -u)" -ne 0 ] || as_user=(setpriv --reuid=65534 --regid=65534 --clear-groups)
if [ ${#as_user[@]} -eq 0 ] || "${as_user[@]}" "$rkt" --version >/dev/null 2>&1; then
    chmod 755 "$RKT_DIR"
    chmod 000 "$(area prepared)/$pod/pod"
    expect 'a list of a manifest that may not be read' 9 '' 'rkt: directory fault' "${as_user[@]}" "$rkt" list
    expect 'a manifest that may not be read' 9 '' 'rkt: directory fault' "${as_user[@]}" "$rkt" cat-manifest $pod
    chmod 644 "$(area prepared)/$pod/pod"
    chmod 000 "$(area garbage)"
    expect 'an area that may not be listed' 9 '' 'rkt: directory fault' "${as_user[@]}" "$rkt" list
    chmod 755 "$(area garbage)"
else
    skip 'unreadable folders: root may read all, and there is no setpriv'
fi

# Eight others make, run and remove pods, one after the other, while lists are made. Each notes the pods that it has
# made, those that it has begun to remove, and those that are gone; the notes of 0 are of the pods that stay.
export RKT_DIR=$tmp/crowd
notes=$tmp/notes
mkdir "$notes"
for maker in $(seq 0 $makers); do
    for kind in made going gone; do
        : >"$notes/$kind.$maker"
    done
done
"$rkt" image import "$tmp/one" >/dev/null

# removed POD MAKER: a list that looks at the pod's lock, or a sweep that deletes it, may turn a removal away.
removed() {
    local status
    for _ in $(seq 500); do
        "$rkt" rm "$1" >/dev/null 2>"$notes/said.$2"
        status=$?
        case $status in
            0 | 2) return ;;
            4 | 5) ;;
            *) break ;;
        esac
    done
    echo "rm $1: $status $(cat "$notes/said.$2")" >>"$notes/failed"
}

# Of the makers two make pods that are removed before they run, and two sweep before they remove.
maker() {
    local pod
    while [ ! -e "$notes/over" ]; do
        pod=$("$rkt" prepare example.com/one 2>"$notes/said.$1") || {
            # A sweep of another maker has the lock of embryo for a moment.
            [ "$(cat "$notes/said.$1")" != 'rkt: busy: gate embryo' ] || continue
            echo "prepare: $(cat "$notes/said.$1")" >>"$notes/failed"
            return
        }
        echo "$pod" >>"$notes/made.$1"
        [ $(($1 % 4)) -eq 0 ] || "$rkt" run-prepared "$pod" >/dev/null 2>>"$notes/failed"
        [ $(($1 % 4)) -ne 1 ] || "$rkt" gc >/dev/null 2>>"$notes/failed"
        echo "$pod" >>"$notes/going.$1"
        removed "$pod" "$1"
        echo "$pod" >>"$notes/gone.$1"
    done
}

# Pods that stay: after some lists one of them is run, so that it moves on while the next is made.
stays=()
for _ in $(seq 10); do
    stays+=("$("$rkt" prepare example.com/one)")
done
printf '%s\n' "${stays[@]}" >"$notes/made.0"
for maker in $(seq $makers); do
    maker "$maker" &
done
for n in $(seq "$lists"); do
    (cd "$notes" && echo "before $n" && wc -l gone.* made.*) >>"$notes/all"
    if [ $((n % 25)) -eq 0 ] && [ ${#stays[@]} -gt 0 ]; then
        "$rkt" run-prepared "${stays[0]}" >/dev/null 2>>"$notes/failed" &
        stays=("${stays[@]:1}")
    fi
    echo "list $n" >>"$notes/all"
    "$rkt" list >>"$notes/all" 2>"$notes/said" || echo "list $n: $? $(cat "$notes/said")" >>"$notes/failed"
    (cd "$notes" && echo "after $n" && wc -l going.*) >>"$notes/all"
done
: >"$notes/over"
wait

# Each list is judged: a pod stands throughout if it was made before, and nobody had begun to remove it afterwards.
cat >"$tmp/judge.awk" <<'JUDGE'
function wrong(text) { print "list " n ": " text }
function judged(maker, place) {
    for (maker in made) for (place = going[maker] + 1; place <= made[maker]; place++)
        if (!(pods[maker, place] in listed)) wrong("no line of " pods[maker, place] ", which stood throughout")
    split("", listed); last = ""
}
function line(pod, phase, apps, fields) {
    lines++; phases[phase]++
    if (fields != 3) wrong("not three fields: " $0)
    if (!(pod in places)) wrong("nobody made " pod)
    else if (places[pod] <= gone[makers[pod]]) wrong(pod " was gone before")
    if (last >= pod) wrong(pod " behind " last)
    if (apps != "one" && apps != "-") wrong("other apps: " $0)
    if (apps == "-" && phase ~ /^(prepared|running|exited)$/) wrong("no apps: " $0)
    last = pod; listed[pod]; seen[pod]
}
FILENAME ~ /^made/ { maker = substr(FILENAME, 6); pods[maker, FNR] = $1; places[$1] = FNR; makers[$1] = maker; next }
$1 == "before" || $1 == "list" || $1 == "after" { if ($1 == "before" && n) judged(); part = $1; n = $2; next }
part == "list" { fields = split($0, field, "\t"); line(field[1], field[2], field[3], fields); next }
$2 ~ /^made/ { made[substr($2, 6)] = $1 }
$2 ~ /^gone/ { gone[substr($2, 6)] = $1 }
$2 ~ /^going/ { going[substr($2, 7)] = $1 }
END {
    judged()
    for (pod in seen) count++
    text = n " lists, " lines " lines of " count " pods"
    for (phase in phases) text = text ", " phases[phase] " " phase
    print text >"/dev/stderr"
}
JUDGE
(cd "$notes" && awk -f "$tmp/judge.awk" made.* all) >"$tmp/wrong" 2>"$tmp/told"
echo "list.sh: $(cat "$tmp/told")"
for phase in preparing prepared running exited 'exited garbage' garbage deleting; do
    grep -q "$tab$phase$tab" "$notes/all" || echo "list.sh: no list met '$phase'"
done
checks=$((checks + lists))
same 'what the makers were told' '' "$(head -n 5 "$notes/failed" 2>/dev/null)"
same 'what the lists say' '' "$(head -n 5 "$tmp/wrong")"
same 'how many were judged' "$lists" "$(sed 's/ lists.*//' "$tmp/told")"
finish
