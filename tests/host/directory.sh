#!/usr/bin/env bash
# The directory of a host, by the tool `dir` of host_tools: locks among processes, listings among makers and
# removers, files that are appended to and read in pieces, removals, and what isn't reached.
set -u
cd "$(dirname "$0")/../.." || exit 1
program=host_tools
. tests/host/checks.bash

# A tracer names paths without links.
tmp=$(cd "$tmp" && pwd -P)

export RKT_DIR=$tmp/data
check=$tmp/rkt-program
pod=00000000-0000-4000-8000-000000000001
other=00000000-0000-4000-8000-000000000002

# calls NAME LINES CALL..: LINES are the answers, parted by `|`.
calls() {
    local name=$1 wanted=$2
    shift 2
    same "$name" "$wanted" "$(timeout 60 "$check" dir "$@" 2>&1 </dev/null | paste -sd'|')"
}

# A process that makes its calls and holds what it locked until `let_go`. Its answers are in `held`.
take() {
    coproc holder { exec "$check" dir "$@" hold 2>&1; }
    holder_id=$holder_PID
    held=''
    local line
    for _ in "$@"; do
        read -r line <&"${holder[0]}"
        held=$held${held:+|}$line
    done
}
let_go() {
    eval "exec ${holder[1]}>&-"
    wait "$holder_id"
}

calls 'folders are made' 'ok|ok|ok|ok' "make run $pod" "make run $other" "make-file run $pod pod" "make-file run $other pod"

# Each lock in each mode against each, among two processes. Then each lock beside another lock.
for lock in "own run $pod" "claim run $pod" 'area run' 'area images'; do
    for first in shared exclusive; do
        for second in shared exclusive; do
            wanted=locked
            [ $first$second != sharedshared ] || wanted=ok
            take "lock $first $lock"
            same "$lock, $first: taken" ok "$held"
            calls "$lock, $second beside $first" $wanted "try $second $lock"
            let_go
            calls "$lock, $second after $first" ok "try $second $lock"
            calls "$lock, $second beside $first of one process" "ok|$wanted" "lock $first $lock" "lock $second $lock"
            calls "$lock, $second after $first was closed" 'ok|ok' "try $first $lock" "lock $second $lock"
        done
    done
done
take "lock exclusive own run $pod"
calls 'other locks beside an exclusive one' 'ok|ok|ok|ok|locked' "lock exclusive claim run $pod" "lock exclusive area run" \
    "lock exclusive own run $other" 'lock exclusive area prepared' "lock shared own run $pod"
let_go

# Of two handles the older is locked, not the newer.
take "lock exclusive own run $pod" "lock shared own run $other"
same 'two folders of one process' 'ok|ok' "$held"
calls 'each has its own lock' 'locked|ok|locked' "try shared own run $pod" "try shared own run $other" "try exclusive own run $other"
let_go

# A lock that is closed is free while its process goes on.
take "try exclusive own run $pod" "try exclusive claim run $pod" 'try exclusive area run'
same 'locks that are given up' 'ok|ok|ok' "$held"
calls 'they are free' 'ok|ok|ok' "try exclusive own run $pod" "try exclusive claim run $pod" 'try exclusive area run'
let_go

# A lock follows its folder, and falls with its process.
take "lock exclusive own run $pod" "move run $pod exited-garbage $pod"
same 'a locked folder moves' 'ok|ok' "$held"
calls 'its lock moves with it' 'missing|locked' "try shared own run $pod" "try shared own exited-garbage $pod"
kill -KILL "$holder_id"
wait "$holder_id" 2>/dev/null
calls 'a lock falls with its process' 'ok|ok' "try exclusive own exited-garbage $pod" "move exited-garbage $pod run $pod"

# What can be locked.
calls 'no folder, no lock' 'missing|missing' "lock shared own embryo $pod" "lock shared claim embryo $pod"
calls 'no file pod, no activation lock' 'ok|missing|ok' "make embryo $pod" "lock shared claim embryo $pod" "remove embryo $pod"
calls 'a directory pod is no file' 'ok|ok|missing|ok|ok' "make embryo $pod" "make-dir embryo $pod pod" \
    "lock shared claim embryo $pod" "remove-dir embryo $pod pod" "remove embryo $pod"

# Folders that stand, and that don't.
calls 'folders are made and moved once' 'exists|exists|missing|missing' "make run $pod" "move run $pod run $other" \
    "move embryo $pod prepare $pod" "remove embryo $pod"
calls 'an empty folder is not replaced' 'ok|ok|exists|ok|ok' 'make removed a' 'make removed b' 'move removed a removed b' \
    'remove removed a' 'remove removed b'
calls 'an image is moved away' 'ok|ok|ok|missing|ok|ok' 'make images key' 'make-file images key id' 'move images key removed a' \
    'list images key ' 'remove-file removed a id' 'remove removed a'
calls 'areas and folders are synced' 'ok|ok|ok|ok|missing|missing' 'sync run' 'sync images' "sync run $pod " "sync run $pod pod" \
    "sync run $pod x" "sync embryo $pod "

# What is in folders.
inside=$RKT_DIR/pods/run/$pod
calls 'directories and files' 'ok|ok|exists|exists|exists|missing|missing|missing|exists|exists' "make-dir run $pod d" "make-file run $pod d/f" \
    "make-dir run $pod d/f" "make-file run $pod d" "make-file run $pod d/f" "make-dir run $pod x/y" \
    "make-file run $pod d/f/g" "make-dir embryo $pod d" "make-dir run $pod " "make-file run $pod "
calls 'a listing by name' 'dir d|file pod|ok|file f|ok|missing|missing|missing' "list run $pod " "list run $pod d" \
    "list run $pod d/f" "list run $pod x" "list embryo $pod "
calls 'what is not empty stays' 'not empty|not empty' "remove-dir run $pod d" "remove run $pod"
same 'it is still there' f "$(ls "$inside/d")"
calls 'of another kind' 'missing|missing|missing|missing' "remove-file run $pod d" "remove-dir run $pod d/f" \
    "append run $pod d x" "copy run $pod d 4"
calls 'the folder itself is neither file nor directory in it' 'missing|missing|missing|missing' "remove-dir run $pod " \
    "remove-file run $pod " "append run $pod  x" "copy run $pod  4"
calls 'removed' 'ok|missing|ok|missing' "remove-file run $pod d/f" "remove-file run $pod d/f" "remove-dir run $pod d" "remove-dir run $pod d"
calls 'dots are no names' 'missing|missing|missing|missing|missing|missing|missing|missing' "list run $pod ." "list run $pod .." \
    "make-dir run $pod ../x" "make-file run $pod ./x" "append run $pod ../$other/pod x" "remove-file run $pod ../$other/pod" \
    "remove-dir run $pod .." "sync run $pod ../$other"
same 'no dots were followed' 'pod' "$(ls "$RKT_DIR/pods/run/$other")"

# Links, pipes and names that are left out.
mkdir "$tmp/outside" "$inside/d"
echo secret >"$tmp/outside/f"
ln -s "$tmp/outside" "$inside/link"
ln -s "$tmp/outside/f" "$inside/flink"
calls 'no link is followed' 'missing|missing|missing|missing|missing|missing|missing|exists|exists' "list run $pod link" "copy run $pod link/f 9" \
    "copy run $pod flink 9" "append run $pod flink x" "make-file run $pod link/g" "remove-file run $pod link/f" "sync run $pod flink" \
    "make-file run $pod flink" "make-dir run $pod link"

# Nor one that comes in the way of a directory between two calls at it: what stands behind it is another.
mkdir -p "$tmp/elsewhere/deep"
coproc holder { exec "$check" dir "make-dir run $pod way" "make-dir run $pod way/deep" "make-file run $pod way/deep/f" hold \
    "make-file run $pod way/deep/g" "remove-file run $pod way/deep/f" 2>&1; }
holder_id=$holder_PID
exec 7<&"${holder[0]}"
answers=''
for call in 1 2 3; do
    read -r answer <&7
    answers=$answers$answer\|
done
mv "$inside/way" "$inside/moved"
ln -s "$tmp/elsewhere" "$inside/way"
touch "$tmp/elsewhere/deep/f"
eval "exec ${holder[1]}>&-"
for call in 4 5; do
    read -r answer <&7
    answers=$answers$answer\|
done
exec 7<&-
wait "$holder_id"
same 'a link that comes between two calls' 'ok|ok|ok|missing|missing|' "$answers"
same 'what stands behind it' 'f' "$(ls "$tmp/elsewhere/deep")"
rm "$inside/way"
rm -r "$inside/moved" "$tmp/elsewhere"
if command -v mkfifo >/dev/null; then
    mkfifo "$inside/pipe"
else
    ln -s nowhere "$inside/pipe"
    skip 'a pipe in a folder: there is no mkfifo'
fi
calls 'a pipe is not waited for' 'missing|missing|missing|exists' "copy run $pod pipe 9" "append run $pod pipe x" "sync run $pod pipe" \
    "make-file run $pod pipe"
: >"$inside/"$'\xff'
: >"$inside/a b"
calls 'kinds, and names that are left out' 'file a b|dir d|other flink|other link|other pipe|file pod|ok' "list run $pod "
calls 'links and pipes are removed' 'missing|ok|ok|ok' "remove-dir run $pod link" "remove-file run $pod link" "remove-file run $pod flink" \
    "remove-file run $pod pipe"
same 'what they led to stays' secret "$(cat "$tmp/outside/f")"
: >"$RKT_DIR/pods/run/file"
mkdir "$RKT_DIR/pods/run/"{UPPER,a_b,"$(printf 'x%.0s' {1..71})","$(printf 'x%.0s' {1..72})"}
calls 'the folders of an area' "$pod|$other|$(printf 'x%.0s' {1..71})|ok|ok" 'list run' 'list trees'
rm -r "$RKT_DIR/pods/run/"{file,UPPER,a_b,x*}

# What an app left in its root: in exited-garbage it goes with the root, whether its mark is still there or not. Nowhere else.
root=stage1/rootfs/opt/stage2/app/rootfs
left() {
    mkdir -p "$RKT_DIR/pods/$1/$pod/$root/d/e" "$RKT_DIR/pods/$1/$pod/${root}2"
    : >"$RKT_DIR/pods/$1/$pod/$root/d/f"
    : >"$RKT_DIR/pods/$1/$pod/$root/d/e/"$'\xff'
    : >"$RKT_DIR/pods/$1/$pod/${root}2/f"
}
away=exited-garbage
left $away
: >"$RKT_DIR/pods/$away/$pod/started-app"
calls 'what an app left, by its mark' 'dir stage1|file started-app|ok|ok|ok|ok|dir rootfs2|ok|missing' "list $away $pod " \
    "remove-file $away $pod started-app" "list $away $pod $root" "remove-dir $away $pod $root" "list $away $pod ${root%/*}" \
    "list $away $pod $root"
left $away
calls 'what an app left, without its mark' 'dir stage1|ok|dir d|ok|dir e|file f|ok|ok|ok|missing|ok' "list $away $pod " \
    "list $away $pod $root" "list $away $pod $root/d" "list $away $pod $root/d/e" "remove-dir $away $pod $root/d/e" \
    "remove-dir $away $pod $root/d/f" "remove-dir $away $pod $root"
calls 'what stands beside the root' 'not empty|not empty|missing' "remove-dir $away $pod ${root%/*}" "remove-dir $away $pod ${root}2" \
    "remove-dir $away $pod $root"
rm -r "$RKT_DIR/pods/$away/$pod"
for area in garbage prepared; do
    left $area
    : >"$RKT_DIR/pods/$area/$pod/started-app"
    calls "the same in $area" 'dir d|ok|not empty|not empty|not empty' "list $area $pod $root" "remove-dir $area $pod $root" \
        "remove-dir $area $pod $root/d" "remove-dir $area $pod $root/d/e"
    rm -r "$RKT_DIR/pods/$area/$pod"
done

# Files that are appended to, and read in pieces of each length about 65,536.
calls 'pieces come at the end' 'ok|ok|ok|onetwo' "make-file run $pod f" "append run $pod f one" "append run $pod f two" "copy run $pod f 100"
seq 1 40000 >"$tmp/wanted"
cp "$tmp/wanted" "$inside/f"
for size in 1 2 3 4095 4096 4097 $(seq 65526 65546) 131072 300000; do
    if [ "$size" -lt 4 ]; then
        head -c 5000 "$tmp/wanted" >"$inside/f"
    else
        cp "$tmp/wanted" "$inside/f"
    fi
    "$check" dir "copy run $pod f $size" </dev/null >"$tmp/read" 2>&1
    same "pieces of $size" '' "$(cmp "$inside/f" "$tmp/read" 2>&1)"
done
for size in 65535 65536 65537; do
    head -c "$size" "$tmp/wanted" >"$inside/f"
    for piece in 65535 65536 65537; do
        "$check" dir "copy run $pod f $piece" </dev/null >"$tmp/read" 2>&1
        same "$size bytes in pieces of $piece" '' "$(cmp "$inside/f" "$tmp/read" 2>&1)"
    done
done
: >"$inside/f"
text=$(head -c 60000 "$tmp/wanted" | tr '\n' ,)
calls 'long pieces' 'ok|ok' "append run $pod f $text" "append run $pod f $text"
same 'they are whole' "$text$text" "$(cat "$inside/f")"

# What the system refuses is a fault: a path past its limit, what this user may not use, an entry that
# can't be looked at.
segment=$(printf 'x%.0s' {1..250})
(cd "$inside" && for _ in {1..17}; do mkdir "$segment" && cd "$segment" || exit; done)
long=$segment
for _ in {2..15}; do long=$long/$segment; done
calls 'a long path' "dir $segment|ok" "list run $pod $long"
calls 'a path past the limit of the system' 'failed|failed|failed' "list run $pod $long/$segment/$segment" \
    "make-dir run $pod $long/$segment/$segment/d" "remove-dir run $pod $long/$segment/$segment"
(cd "$inside" && rm -r "$segment")
# The data folder is its owner's alone: here the other user may enter it.
chmod 755 "$RKT_DIR"
as_user=()
if [ "$(id -u)" -eq 0 ]; then
    as_user=(setpriv --reuid=65534 --regid=65534 --clear-groups)
fi
as_other() {
    local name=$1 wanted=$2
    shift 2
    same "$name" "$wanted" "$("${as_user[@]}" "$check" dir "$@" 2>&1 </dev/null | paste -sd'|')"
}
if [ ${#as_user[@]} -eq 0 ] || "${as_user[@]}" "$check" dir >/dev/null 2>&1; then
    mkdir "$inside/sealed"
    : >"$inside/sealed/f"
    chmod 744 "$inside/sealed"
    as_other 'an entry that can not be looked at' failed "list run $pod sealed"
    chmod 700 "$inside/sealed"
    as_other 'a directory that may not be read' 'failed|failed|failed' "list run $pod sealed" "copy run $pod sealed/f 9" \
        "make-file run $pod sealed/g"
    chmod 755 "$inside/sealed" "$inside"
    chmod 000 "$inside/sealed/f"
    [ "$(id -u)" -ne 0 ] || as_other 'a file that may not be used' 'failed|failed|failed' "copy run $pod sealed/f 9" \
        "append run $pod sealed/f x" "remove-file run $pod sealed/f"
    rm -rf "$inside/sealed"
else
    skip 'what another user may not use: root may use all, and there is no setpriv'
fi

# Where the data folder is, and such as can't be made.
all_areas='./pods/embryo ./pods/exited-garbage ./pods/garbage ./pods/prepare ./pods/prepared ./pods/run ./store/images ./store/incoming ./store/removed ./store/trees '
where() {
    local name=$1 folder=$2
    shift 2
    rm -rf "$tmp/here"
    mkdir "$tmp/here"
    same "$name" ok "$(cd "$tmp/here" && env "$@" "$check" dir 'sync run' 2>&1 </dev/null)"
    same "$name: its areas" "$all_areas" "$(cd "$tmp/here/$folder" && find . -mindepth 2 -type d | sort | tr '\n' ' ')"
}
where 'RKT_DIR unset' rkt -u RKT_DIR
where 'RKT_DIR empty' rkt RKT_DIR=
where 'RKT_DIR relative' own/er RKT_DIR=own/er
where 'RKT_DIR absolute' deep/er "RKT_DIR=$tmp/here/deep/er"
: >"$tmp/file"
mkdir -p "$tmp/half/store"
: >"$tmp/half/store/removed"
RKT_DIR=$tmp/file calls 'the data folder is a file' 'Error: no data folder' 'sync run'
RKT_DIR=$tmp/half calls 'an area is a file' 'Error: no data folder' 'sync run'
RKT_DIR=$tmp/$'\xff' calls 'RKT_DIR is not UTF-8' 'Error: no data folder' 'sync run'

# A file or a link in a folder's place is none.
: >"$RKT_DIR/pods/prepare/$pod"
calls 'a file is no folder' 'missing|exists|ok|exists|missing|ok|0' "try shared own prepare $pod" "make prepare $pod" "make embryo $pod" \
    "move embryo $pod prepare $pod" "move prepare $pod embryo $pod" "remove embryo $pod" faults
rm "$RKT_DIR/pods/prepare/$pod"
ln -s ../embryo "$RKT_DIR/pods/prepare/$pod"
calls 'a link is no folder' 'missing|0' "try shared own prepare $pod" faults
rm "$RKT_DIR/pods/prepare/$pod"

# broken NAME LINES CHANGE CALL..: the answers in a data folder that the command CHANGE breaks once its areas are made.
broken() {
    local name=$1 wanted=$2 change=$3 line
    shift 3
    rm -rf "$tmp/broken"
    coproc holder { RKT_DIR=$tmp/broken exec "$check" dir 'sync run' hold "$@" 2>&1; }
    holder_id=$holder_PID
    exec 7<&"${holder[0]}"
    read -r line <&7
    $change
    eval "exec ${holder[1]}>&-"
    same "$name" "ok|$wanted" "$line|$(paste -sd'|' <&7)"
    exec 7<&-
    wait "$holder_id"
}
area_goes() {
    rmdir "$tmp/broken/pods/run"
}
file_comes() {
    area_goes
    : >"$tmp/broken/pods/run"
}
broken 'an area that is missing' 'failed|1' area_goes "try shared own run $pod" faults
broken 'an area that is a file' 'failed|failed|ok|failed|3' file_comes "try shared own run $pod" "make run $pod" "make embryo $pod" \
    "move embryo $pod run $pod" faults

# Each call that fails is one fault, and what is refused otherwise is none.
asked=()
ask_all() {
    local area=$1 call
    for call in "make $area $pod" "move $area $pod prepare $pod" "try shared claim $area $pod" "remove $area $pod" \
        "try shared area $area" "list $area" "sync $area" \
        "make-dir $area $pod " "make-file $area $pod " "remove-file $area $pod " "remove-dir $area $pod " \
        "append $area $pod  x" "read $area $pod  2" "list $area $pod " "sync $area $pod "; do
        asked+=("$call" faults)
    done
}
ask_all run
ask_all embryo
missing=(missing missing missing missing missing missing missing missing)
wanted=$(printf 'failed|%d|' {1..15}; printf '%s|15|' ok ok missing missing ok ok ok "${missing[@]}")
broken 'each call that fails is one fault' "${wanted%|}" area_goes "${asked[@]}"

# What the system is made to answer, and what it is asked.
# made NAME WANTED PATH ANSWER CALL..: the system answers so where the call is about the path, or about any for ''.
made() {
    local name=$1 wanted=$2 answer=$4 about=()
    [ -z "$3" ] || about=(-P "$3")
    shift 4
    same "$name" "$wanted" "$(timeout 60 strace -qq -y -o "$tmp/trace" "${about[@]}" -e "trace=${answer%%:*}" -e "inject=$answer" \
        "$check" dir "$@" 2>&1 </dev/null | paste -sd'|')"
}
trace_host() {
    mkdir "$inside/s"
    printf 'some text' >"$inside/f"
    : >"$inside/s/f"
    made 'a read that a signal cut short is asked again' 'some text' "$inside/f" pread64:error=EINTR:when=1 "copy run $pod f 99"
    made 'a read that fails midway gives nothing' failed "$inside/f" pread64:error=EIO:when=2 "copy run $pod f 99"
    made 'an append that a signal cut short is asked again' ok "$inside/f" write:error=EINTR:when=1 "append run $pod f +"
    same 'and comes once' 'some text+' "$(cat "$inside/f")"
    made 'an append to a full disk' failed "$inside/f" write:error=ENOSPC "append run $pod f x"
    made 'a listing that breaks off midway' 'failed|failed' '' getdents64:error=EIO:when=2+2 "list run $pod " 'list run'
    made 'a lock that can not be had' 'failed|failed' '' flock:error=ENOLCK "lock shared own run $pod" 'lock exclusive area run'
    made 'a folder that has gone before its move' missing '' rename:error=ENOENT "move run $pod garbage $pod"
    made 'a folder that came before the move' exists '' rename:error=ENOTEMPTY "move run $pod garbage $pod"
    timeout 60 strace -qq -o "$tmp/trace" -P "$RKT_DIR/pods/garbage/$pod" -e trace=newfstatat,statx,lstat \
        -e inject=newfstatat,statx,lstat:delay_enter=2000000 "$check" dir "move run $pod garbage $pod" >"$tmp/out" 2>&1 </dev/null &
    sleep 0.5
    mv "$RKT_DIR/pods/run/$pod" "$RKT_DIR/pods/garbage/$pod"
    wait $!
    same 'a folder that another moved there meanwhile' missing "$(cat "$tmp/out")"
    mv "$RKT_DIR/pods/garbage/$pod" "$RKT_DIR/pods/run/$pod"
    made 'a move to another disk' failed '' rename:error=EXDEV "move run $pod garbage $pod"
    made 'a sync that fails' 'failed|failed|failed' '' fsync:error=EIO "sync run $pod f" "sync run $pod s" 'sync run'
    made 'what is synced' 'ok|ok|ok|ok' '' fsync:delay_enter=1 "sync run $pod f" "sync run $pod s" "sync run $pod " 'sync run'
    same 'is what was named' "$inside/f|$inside/s|$inside|$RKT_DIR/pods/run" "$(sed 's/.*<//; s/>.*//' "$tmp/trace" | paste -sd'|')"
    timeout 60 strace -qq -o "$tmp/trace" -P "$inside/f" -e trace=openat -e inject=openat:delay_enter=2000000 \
        "$check" dir "copy run $pod f 99" >"$tmp/out" 2>&1 </dev/null &
    sleep 0.5
    mv "$inside/f" "$inside/g"
    mkdir "$inside/f"
    wait $!
    same 'what was opened is looked at' missing "$(cat "$tmp/out")"
    rmdir "$inside/f"
    rm -r "$inside/s" "$inside/g"
}
if command -v strace >/dev/null && strace -qq -o /dev/null true 2>/dev/null; then
    trace_host
else
    skip 'what the system is made to answer: there is no strace, or it may not trace'
fi

# A listing is about the folder that it began with, wherever that moves.
mkdir "$inside/many"
(cd "$inside/many" && touch {1000..1999})
move_about() {
    local turn
    for turn in $(seq 300); do
        mv "$RKT_DIR/pods/run/$pod" "$RKT_DIR/pods/exited-garbage/$pod"
        mv "$RKT_DIR/pods/exited-garbage/$pod" "$RKT_DIR/pods/run/$pod"
    done
    : >"$tmp/moved"
}
rm -f "$tmp/moved"
move_about &
whole=0
while [ ! -e "$tmp/moved" ]; do
    answer=$("$check" dir "list run $pod many" </dev/null | sed 's/ .*//' | uniq -c | tr -s ' \n' ' ')
    case $answer in
        ' 1000 file 1 ok ') whole=$((whole + 1)) ;;
        ' 1 missing ') ;;
        *) fail "a listing of a folder that moves: $answer" ;;
    esac
done
wait
checks=$((checks + whole))
[ $whole -ge 1 ] || echo "directory.sh: no listing met the folder while it moved"
rm -r "$inside/many"

# A listing among makers and removers. Half of the thousand names come and go; the others stand.
crowd=$RKT_DIR/store/images
mkdir "$crowd/key" "$crowd/key/d"
for n in $(seq 1000 1999); do
    mkdir "$crowd/k$n"
    : >"$crowd/key/d/k$n"
done
churn() {
    local turn
    for turn in $(seq 20); do
        (cd "$crowd" && rmdir k1?[13579]? && mkdir k1{0..9}{1,3,5,7,9}{0..9})
        (cd "$crowd/key/d" && rm k1?[13579]? && touch k1{0..9}{1,3,5,7,9}{0..9})
    done
    : >"$tmp/churned"
}
rm -f "$tmp/churned"
churn &
seq 1000 1999 | sed -n 's/^1.[02468].$/k&/p' >"$tmp/stood"
listings=0
listed() {
    sed 's/^file //' "$tmp/list" | grep -v '^key$' | head -n -1 >"$tmp/names"
    [ "$(tail -n 1 "$tmp/list")" = ok ] || fail "$1: $(tail -n 1 "$tmp/list")"
    [ -z "$(comm -13 "$tmp/names" "$tmp/stood" 2>&1)" ] || fail "$1: what stood is missing"
    [ -z "$(sort "$tmp/names" | uniq -d)" ] || fail "$1: a name comes twice"
    sort -C "$tmp/names" || fail "$1: not in order"
    [ -z "$(grep -vx 'k1[0-9][0-9][0-9]' "$tmp/names")" ] || fail "$1: a name that never stood"
    listings=$((listings + 1))
}
while [ ! -e "$tmp/churned" ]; do
    "$check" dir 'list images' </dev/null >"$tmp/list"
    listed 'an area'
    "$check" dir 'list images key d' </dev/null >"$tmp/list"
    listed 'a directory'
done
wait
checks=$((checks + listings))
[ $listings -ge 2 ] || fail 'no listing among makers and removers'
same "all of them" 1001 "$("$check" dir "list images key d" </dev/null | wc -l)"

finish
