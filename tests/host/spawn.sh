#!/usr/bin/env bash
# Programs that are started in the root of an app on a host, by the tool `spawn` of host_tools: what a program
# sees, how it ends, and what the making ready of a root changes. The lines of its standard input:
#   l FILE          makes the links and sets the modes of a listing
#   w WORD          adds a word of the program
#   e NAME=VALUE    adds a variable
#   c PATH          the working directory
#   s               starts the program
#   x N             waits for a child
set -u
cd "$(dirname "$0")/../.." || exit 1
program=host_tools
. tests/host/checks.bash

tmp=$(cd "$tmp" && pwd -P)
export RKT_DIR=$tmp/data
check=$tmp/rkt-program
pod=6ba7b810-9dad-11d1-80b4-00c04fd430c8
root=$RKT_DIR/pods/run/$pod/stage1/rootfs/opt/stage2/web/rootfs
sha=$(printf 'a%.0s' {1..128})

# By what the program is run as another user.
user=()

# says NAME WANTED LINES..: the answers are printed a line each, parted by `|` here.
says() {
    local name=$1 wanted=$2
    shift 2
    same "$name" "$wanted" "$(printf '%s\n' "$@" | timeout 60 "${user[@]}" "$check" spawn "$pod" web 2>&1 | paste -sd'|')"
}

# A root with a program, as prepare leaves it: no links, and modes as they come.
fresh() {
    [ ! -d "$RKT_DIR" ] || chmod -R u+rwx "$RKT_DIR"
    rm -rf "$RKT_DIR"
    mkdir -p "$root/bin" "$root/var/deep"
    cat >"$root/bin/show" <<'EOF'
#!/bin/sh
exec >"$OUT"
echo "$#|$1|$2"
/bin/pwd -P
exec /usr/bin/env
EOF
    printf '#!/bin/sh\nexit "$1"\n' >"$root/bin/end"
    printf '#!/bin/sh\nkill -KILL $$\n' >"$root/bin/die"
    printf 'text\n' >"$root/var/deep/text"
    chmod 644 "$root"/bin/*
    cat >"$tmp/listing" <<EOF
d 0755 0 0 /bin
f 0755 0 0 27 $sha /bin/die
f 0755 0 0 20 $sha /bin/end
f 0755 0 0 70 $sha /bin/show
l 0777 0 0 bin/end /link
d 0555 0 0 /var
d 0750 0 0 /var/deep
l 0777 0 0 ../../nowhere%20at%20all /var/deep/gone
f 0640 0 0 5 $sha /var/deep/text
EOF
}

modes() {
    (cd "$root" && find . -mindepth 1 -printf '%P %y %m %l\n' | sort)
}

fresh
says 'a program that is not executable is a fault' 'failed|faults 1' 'w /bin/end' s
wanted='bin d 755 
bin/die f 755 
bin/end f 755 
bin/show f 755 
link l 777 bin/end
var d 555 
var/deep d 750 
var/deep/gone l 777 ../../nowhere at all
var/deep/text f 640 '
says 'a root is made ready' 'ready|faults 0' "l $tmp/listing"
same 'links and modes are those of the listing' "$wanted" "$(modes)"
says 'a second time' 'ready|ready|faults 0' "l $tmp/listing" "l $tmp/listing"
same 'links and modes are the same' "$wanted" "$(modes)"

# What a program sees.
export HERE=not-there
says 'a program is started and ends' 'started 0|ended 0|faults 0' \
    'w /bin/show' 'w one word' 'w *' "e OUT=$tmp/seen" 'e A=b=c' 'e EMPTY=' 'c /var/deep' s 'x 0'
same 'its words and its working directory' "2|one word|*
$root/var/deep" "$(head -2 "$tmp/seen")"
same 'its environment alone' "A=b=c|EMPTY=|OUT=$tmp/seen" "$(tail -n +3 "$tmp/seen" | grep -v '^PWD=\|^_=\|^SHLVL=\|^OLDPWD=' | sort | paste -sd'|')"
says 'a link of the root is started' 'started 0|ended 9|faults 0' 'w /link' 'w 9' s 'x 0'

# How programs end.
says 'the status of each child' 'started 0|started 1|ended 3|ended 3|ended 3|faults 0' \
    'w /bin/end' 'w 3' s s 'x 1' 'x 0' 'x 0'
says 'a child that a signal ends' 'started 0|ended 255|faults 0' 'w /bin/die' s 'x 0'
says 'no such program' 'failed|faults 1' 'w /bin/none' s
says 'no words' 'failed|faults 1' s
says 'a program that is no absolute path' 'failed|faults 1' 'w bin/end' s
says 'no such working directory' 'failed|faults 1' 'w /bin/end' 'c /none' s
says 'a working directory outside' 'failed|faults 1' 'w /bin/end' 'c x' s
says 'a variable without a value' 'failed|faults 1' 'w /bin/end' 'e A' s
says 'a child that was never started' 'failed|faults 1' 'x 0'

# Nothing behind a link is changed.
outside=$tmp/outside
swap() {
    fresh
    rm -rf "$outside"
    mkdir -p "$outside/deep" "$outside/bin" "$outside/var/deep"
    printf 'kept\n' >"$outside/deep/text"
    printf 'kept\n' >"$outside/var/deep/text"
    chmod 700 "$outside" "$outside/deep" "$outside/bin" "$outside/var" "$outside/var/deep"
    chmod 600 "$outside/deep/text" "$outside/var/deep/text"
}
refused() {
    local before after
    before=$(cd "$outside" && find . -printf '%P %y %m %l\n' | sort)
    says "$1" 'failed|faults 1' "l $tmp/listing"
    after=$(cd "$outside" && find . -printf '%P %y %m %l\n' | sort)
    same "$1: nothing is changed outside" "$before" "$after"
}
swap
rm -rf "$root/var"
ln -s "$outside" "$root/var"
refused 'a directory swapped for a link'
swap
rm -rf "$root/var/deep"
ln -s "$outside/deep" "$root/var/deep"
refused 'a directory below swapped for a link'
swap
rm "$root/var/deep/text"
ln -s "$outside/deep/text" "$root/var/deep/text"
refused 'a file swapped for a link'
swap
rm -rf "$root"
ln -s "$outside" "$root"
refused 'the root swapped for a link'
swap
rm -rf "$RKT_DIR/pods/run/$pod/stage1"
mkdir -p "$outside/rootfs/opt/stage2/web/rootfs/bin"
ln -s "$outside" "$RKT_DIR/pods/run/$pod/stage1"
refused 'a directory above the root swapped for a link'
swap
ln -s elsewhere "$root/link"
refused 'another link in the place of a link'
swap
printf 'x' >"$root/link"
refused 'a file in the place of a link'
swap
rm "$root/bin/end"
refused 'a file that is missing'
swap
printf 'd 0755 0 0 /bin' >"$tmp/listing"
refused 'a text that is no listing'

# A directory that is closed to its owner gets its mode after what stands in it. Root is barred by no mode.
fresh
mkdir -p "$root/closed/inner"
printf 'text\n' >"$root/closed/inner/text"
cat >"$tmp/listing" <<EOF
d 0000 0 0 /closed
d 0750 0 0 /closed/inner
f 0640 0 0 5 $sha /closed/inner/text
l 0777 0 0 text /closed/link
EOF
if [ "$(id -u)" = 0 ]; then
    chown -R 65534:65534 "$RKT_DIR"
    user=(setpriv --reuid=65534 --regid=65534 --clear-groups)
fi
if "${user[@]}" true 2>/dev/null; then
    says 'a directory that is closed to its owner' 'ready|ready|faults 0' "l $tmp/listing" "l $tmp/listing"
    same 'it is closed' 0 "$(stat -c %a "$root/closed")"
    chmod 700 "$root/closed"
    same 'what stands in it has the modes of the listing' 'inner d 750|inner/text f 640|link l 777' \
        "$(cd "$root/closed" && find . -mindepth 1 -printf '%P %y %m\n' | sort | paste -sd'|')"
else
    skip 'a directory that is closed to its owner: no other user to run as'
fi

finish
