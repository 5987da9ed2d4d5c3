#!/usr/bin/env bash
# The built program on data folders of this host: the texts of a pod's phases, with and without
# locks of another process, and what bad words, bad folders and bad streams get.
set -u
unset RKT_DIR
cd "$(dirname "$0")/../.." || exit 1
. tests/host/checks.bash

pod=00000000-0000-4000-8000-000000000001

in_folder() {
    local folder=$1
    shift
    (cd "$folder" && "$@")
}

usage() {
    local name=$1
    shift
    RKT_DIR=$tmp/usage expect "usage: $name" 1 '' 'rkt: usage' "$rkt" "$@"
}

dir_fault() {
    RKT_DIR=$2 expect "directory fault: $1" 9 '' 'rkt: directory fault' "$rkt" status $pod
}

areas() {
    (cd "$1" && find . -mindepth 2 -type d | sort | tr '\n' ' ')
}

all_areas='./pods/embryo ./pods/exited-garbage ./pods/garbage ./pods/prepare ./pods/prepared ./pods/run ./store/images ./store/incoming ./store/removed ./store/trees '

# The phases, by the pod's place and by who holds its lock.
places=(embryo prepare prepared run exited-garbage garbage)
free=('embryo' 'aborted prepare' 'prepared' 'exited' 'exited garbage' 'garbage')
held=('embryo' 'preparing' 'prepared' 'running' 'deleting' 'deleting')

export RKT_DIR=$tmp/data
expect 'an empty folder' 2 '' 'rkt: no such pod' "$rkt" status $pod
for i in "${!places[@]}"; do
    folder=$RKT_DIR/pods/${places[$i]}/$pod
    mkdir -p "$folder"
    expect "${places[$i]}, not locked" 0 "state=${free[$i]}" '' "$rkt" status $pod
    if command -v flock >/dev/null; then
        exec 9<"$folder"
        flock -n -x 9 || fail "${places[$i]}: no exclusive lock"
        expect "${places[$i]}, locked exclusively" 0 "state=${held[$i]}" '' "$rkt" status $pod
        flock -n -s 9 || fail "${places[$i]}: no shared lock"
        expect "${places[$i]}, locked shared" 0 "state=${free[$i]}" '' "$rkt" status $pod
        flock -n -x 9 || fail "${places[$i]}: a lock of the program is left"
        exec 9<&-
        expect "${places[$i]}, unlocked again" 0 "state=${free[$i]}" '' "$rkt" status $pod
    else
        skip "locks at ${places[$i]}: there is no flock"
    fi
    rmdir "$folder"
done
expect 'the folder is gone' 2 '' 'rkt: no such pod' "$rkt" status $pod

# Something else at a pod's place is no pod.
: >"$RKT_DIR/pods/embryo/$pod"
expect 'a file at a pod'"'"'s place' 2 '' 'rkt: no such pod' "$rkt" status $pod
rm "$RKT_DIR/pods/embryo/$pod"
ln -s ../embryo "$RKT_DIR/pods/run/$pod"
expect 'a link at a pod'"'"'s place' 2 '' 'rkt: no such pod' "$rkt" status $pod
rm "$RKT_DIR/pods/run/$pod"
if command -v mkfifo >/dev/null; then
    mkfifo "$RKT_DIR/pods/garbage/$pod"
    expect 'a pipe at a pod'"'"'s place' 2 '' 'rkt: no such pod' timeout 20 "$rkt" status $pod
    rm "$RKT_DIR/pods/garbage/$pod"
else
    skip 'a pipe at a pod'"'"'s place: there is no mkfifo'
fi

# A beginning of a uuid, in either case, means the one pod whose uuid begins so, wherever it stands.
one=0a000000-0000-4000-8000-00000000000b
two=0a000000-0000-4000-8000-00000000000c
three=0b000000-0000-4000-8000-00000000000a
ambiguous() {
    expect "$1" 3 '' "rkt: ambiguous: $2 $3" "$rkt" status "$4"
}
expect 'a beginning of none' 2 '' 'rkt: no such pod' "$rkt" status 0
mkdir "$RKT_DIR/pods/run/$one"
expect 'a beginning' 0 'state=exited' '' "$rkt" status 0
expect 'a beginning in capitals' 0 'state=exited' '' "$rkt" status 0A
expect 'the uuid in capitals' 0 'state=exited' '' "$rkt" status ${one^^}
expect 'all of it but a digit' 0 'state=exited' '' "$rkt" status ${one%b}
expect 'behind --' 0 'state=exited' '' "$rkt" status -- 0a
expect 'another beginning' 2 '' 'rkt: no such pod' "$rkt" status 0b
mkdir "$RKT_DIR/pods/run/0a" "$RKT_DIR/pods/run/0a000000-0000-4000-8000-00000000000" "$RKT_DIR/pods/run/x"
expect 'beside names that are no uuids' 0 'state=exited' '' "$rkt" status 0a
rmdir "$RKT_DIR/pods/run/0a" "$RKT_DIR/pods/run/0a000000-0000-4000-8000-00000000000" "$RKT_DIR/pods/run/x"
mkdir "$RKT_DIR/pods/garbage/$three"
ambiguous 'two pods' $one $three 0
expect 'one of them' 0 'state=garbage' '' "$rkt" status 0b
mkdir "$RKT_DIR/pods/embryo/$two"
ambiguous 'the least two of three pods' $one $two 0
ambiguous 'two that differ at the end' $one $two ${one%b}
expect 'the whole uuid is never ambiguous' 0 'state=embryo' '' "$rkt" status $two
expect 'a removal of two' 3 '' "rkt: ambiguous: $one $two" "$rkt" rm 0a
expect 'a run of two' 3 '' "rkt: ambiguous: $one $two" "$rkt" run-prepared 0a
expect 'the first stands' 0 'state=exited' '' "$rkt" status $one
expect 'so does the second' 0 'state=embryo' '' "$rkt" status $two
rmdir "$RKT_DIR/pods/run/$one" "$RKT_DIR/pods/embryo/$two" "$RKT_DIR/pods/garbage/$three"

# When it was made, by its latest created- mark, and how its apps ended, by name: what isn't whole is passed over.
folder=$RKT_DIR/pods/run/$pod
statuses=$folder/stage1/rootfs/rkt/status
mkdir -p "$statuses/folder"
touch "$folder/created-00000000000000000100" "$folder/created-00000000000000000007" "$folder/created-200" "$folder/marked-00000000000000000300"
expect 'its latest mark' 0 $'state=exited\ncreated=100' '' "$rkt" status $pod
printf '0\n' >"$statuses/web"
printf '137\n' >"$statuses/db"
: >"$statuses/begun"
printf 1 >"$statuses/half"
printf '256\n' >"$statuses/large"
printf '007\n' >"$statuses/long"
printf ' 7\n' >"$statuses/space"
printf '7\n\n' >"$statuses/two"
expect 'marks and ends' 0 $'state=exited\ncreated=100\napp-db=137\napp-web=0' '' "$rkt" status $pod
rm -r "$folder"
# It changes nothing.
mkdir -p "$RKT_DIR/pods/prepared/$pod/stage1" "$RKT_DIR/pods/run/00000000-0000-4000-8000-000000000002"
echo text >"$RKT_DIR/pods/prepared/$pod/pod"
listing() {
    (cd "$RKT_DIR" && find . -printf '%p %y %m %u %s %i %T@ %C@\n' | sort)
}
if listing >/dev/null 2>&1; then
    before=$(listing)
    expect 'a pod with files' 0 'state=prepared' '' "$rkt" status $pod
    expect 'no other pod' 2 '' 'rkt: no such pod' "$rkt" status 00000000-0000-4000-8000-000000000003
    same 'status changes nothing' "$before" "$(listing)"
else
    skip 'that nothing changes: find has no -printf'
fi
rm -r "$RKT_DIR/pods/prepared/$pod"
unset RKT_DIR

# The words. Even a faulty command line makes the areas.
usage 'no words'
usage 'an unknown word' frob
usage 'an empty word' ''
usage 'status alone' status
usage 'too many words' status $pod $pod
usage 'an option' status --pod=$pod
usage 'an option that rkt has elsewhere' status --metadata=h:1 $pod
usage 'a long uuid' status ${pod}0
usage 'a hyphen at a wrong place' status 0000-
usage 'no hexadecimal digit' status 0g
usage 'a uuid without hyphens' status 00000000000040008000000000000001
usage 'a uuid in braces' status "{$pod}"
usage 'a word that is not UTF-8' $'\xff'
usage 'a second word that is not UTF-8' status $'00000000-0000-4000-8000-00000000000\xff'
same 'faulty words make the areas' "$all_areas" "$(areas "$tmp/usage")"
rm -r "$tmp/usage"
RKT_DIR=$tmp/usage "$rkt" $'\xff' 2>/dev/null
same 'a word that is not UTF-8 makes the areas' "$all_areas" "$(areas "$tmp/usage")"

# Help and version ask the host for nothing.
for word in --help --version; do
    RKT_DIR=$tmp/file/none "$rkt" $word >"$tmp/out" 2>"$tmp/err"
    same "$word: status" 0 $?
    same "$word: errors" '' "$(cat "$tmp/err")"
    cp "$tmp/out" "$tmp/out$word"
    mkdir -p "$tmp/alone"
    in_folder "$tmp/alone" "$rkt" $word >/dev/null
    same "$word makes nothing" '' "$(ls -A "$tmp/alone")"
done
same '--version: the text' 'rkt 0.2.0' "$(cat "$tmp/out--version")"

# Where the data folder is.
mkdir "$tmp/here"
where() {
    in_folder "$tmp/here" "$rkt" status $pod 2>/dev/null
    same "$1" "$all_areas" "$(areas "$tmp/here/$2")"
    rm -rf "$tmp/here"
    mkdir "$tmp/here"
}
where 'RKT_DIR unset' rkt
RKT_DIR='' where 'RKT_DIR empty' rkt
RKT_DIR=own where 'RKT_DIR relative' own
RKT_DIR=../here/./own where 'RKT_DIR relative, with dots' own
RKT_DIR=a/b/c where 'RKT_DIR with missing parents' a/b/c
RKT_DIR=$tmp/here/deep/er/ where 'RKT_DIR absolute, with missing parents' deep/er
mkdir -p "$tmp/here/rkt/pods/run/$pod"
expect 'a pod below the current folder' 0 'state=exited' '' in_folder "$tmp/here" "$rkt" status $pod

# Data folders that can't be used.
: >"$tmp/file"
dir_fault 'the data folder is a file' "$tmp/file"
dir_fault 'the data folder is below a file' "$tmp/file/data"
dir_fault 'the data folder is not UTF-8' "$tmp/"$'\xff'
dir_fault 'the path is too long' "$tmp/$(printf 'x%.0s' {1..5000})"
ln -s nowhere "$tmp/link"
dir_fault 'the data folder is a link to nothing' "$tmp/link"
for area in pods store pods/embryo pods/prepare pods/prepared pods/run pods/exited-garbage pods/garbage \
    store/incoming store/images store/trees store/removed; do
    rm -rf "$tmp/bad"
    mkdir -p "$tmp/bad/$(dirname $area)"
    : >"$tmp/bad/$area"
    dir_fault "$area is a file" "$tmp/bad"
done
RKT_DIR=$tmp/bad expect 'a faulty word on a bad folder' 9 '' 'rkt: directory fault' "$rkt" frob
mkdir "$tmp/gone"
expect 'the current folder is gone' 9 '' 'rkt: directory fault' in_folder "$tmp/gone" sh -c 'rmdir "$0" && exec "$@"' "$tmp/gone" "$rkt" status $pod

# Folders that another user may not use.
as_user=()
if [ "$(id -u)" -eq 0 ]; then
    as_user=(setpriv --reuid=65534 --regid=65534 --clear-groups)
fi
if [ ${#as_user[@]} -eq 0 ] || "${as_user[@]}" "$rkt" --version >/dev/null 2>&1; then
    mkdir -p "$tmp/others/pods"
    RKT_DIR=$tmp/others "$rkt" status $pod 2>/dev/null
    mkdir "$tmp/others/pods/run/$pod"
    RKT_DIR=$tmp/others expect 'a folder of another user' 0 'state=exited' '' "${as_user[@]}" "$rkt" status $pod
    chmod 000 "$tmp/others/pods/run/$pod"
    RKT_DIR=$tmp/others expect 'an unreadable pod' 9 '' 'rkt: directory fault' "${as_user[@]}" "$rkt" status $pod
    chmod 755 "$tmp/others/pods/run/$pod"
    chmod 000 "$tmp/others/pods/prepare"
    RKT_DIR=$tmp/others expect 'an unreadable area' 9 '' 'rkt: directory fault' "${as_user[@]}" "$rkt" status $pod
    chmod 755 "$tmp/others/pods/prepare"
    chmod 555 "$tmp/others"
    rmdir "$tmp/others/store/trees"
    chmod 555 "$tmp/others/store"
    RKT_DIR=$tmp/others expect 'an area that may not be made' 9 '' 'rkt: directory fault' "${as_user[@]}" "$rkt" status $pod
else
    skip 'unreadable folders: root may read all, and there is no setpriv'
fi

# Streams that can't be written.
export RKT_DIR=$tmp/streams
mkdir -p "$RKT_DIR/pods/run/$pod"
to_full() { "$@" >/dev/full; }
to_closed() { "$@" >&-; }
# A pipe whose one reader has closed it.
to_nobody() {
    mkfifo "$tmp/pipe"
    exec 8<>"$tmp/pipe" 7>"$tmp/pipe" 8<&-
    "$@" >&7 7>&-
    local status=$?
    exec 7>&-
    return $status
}
err_closed() { "$@" 2>&-; }
err_full() { "$@" 2>/dev/full; }
streamed() {
    local name=$1 wanted=$2 text=$3 status
    shift 3
    "$@" >"$tmp/out" 2>"$tmp/err"
    status=$?
    same "$name" "$wanted|$text" "$status|$(cat "$tmp/out" "$tmp/err")"
}
if [ -c /dev/full ]; then
    streamed 'a full output' 12 'rkt: output fault' to_full "$rkt" status $pod
    streamed 'a full output for the help' 12 'rkt: output fault' to_full "$rkt" --help
    streamed 'a full output for the version' 12 'rkt: output fault' to_full "$rkt" --version
    streamed 'a full output that nothing is written to' 1 'rkt: usage' to_full "$rkt" frob
    streamed 'full errors' 1 '' err_full "$rkt" frob
    streamed 'full errors that nothing is written to' 0 'state=exited' err_full "$rkt" status $pod
    streamed 'a full output for an empty text' 0 '' to_full "$rkt" image list
else
    skip 'full streams: there is no /dev/full'
fi
streamed 'a closed output' 12 'rkt: output fault' to_closed "$rkt" status $pod
streamed 'a closed output for the help' 12 'rkt: output fault' to_closed "$rkt" --help
if command -v mkfifo >/dev/null; then
    streamed 'an output that nobody reads' 12 'rkt: output fault' to_nobody "$rkt" status $pod
else
    skip 'an output that nobody reads: there is no mkfifo'
fi
# A file that may have 1,024 bytes takes the beginning of a text, and then no more.
to_limited() { (trap '' XFSZ; ulimit -f 1; "$@" >"$tmp/limited"); }
if (ulimit -f 1) 2>/dev/null; then
    streamed 'an output that is full in mid-text' 12 'rkt: output fault' to_limited "$rkt" --help
    same 'its beginning was written' '' "$(head -c 1024 "$tmp/out--help" | cmp - "$tmp/limited" 2>&1)"
else
    skip 'an output that is full in mid-text: there is no limit on files'
fi
# What the system is made to answer to the first write.
answered() {
    local answer=$1
    shift
    strace -qq -o "$tmp/trace" -e trace=write -e "inject=write:$answer:when=1" "$@"
}
if command -v strace >/dev/null && strace -qq -o /dev/null true 2>/dev/null; then
    streamed 'a write that a signal cut short is asked again' 0 'state=exited' answered error=EINTR "$rkt" status $pod
    streamed 'a write of two bytes goes on behind them' 0 'ate=exited' answered retval=2 "$rkt" status $pod
    streamed 'a write that takes nothing is a fault' 12 'rkt: output fault' answered retval=0 "$rkt" status $pod
else
    skip 'what the system is made to answer: there is no strace, or it may not trace'
fi
streamed 'closed errors' 2 '' err_closed "$rkt" status 00000000-0000-4000-8000-000000000009

finish
