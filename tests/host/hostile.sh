#!/usr/bin/env bash
# The built program on bundles that are made to do harm: links out of the root, directories that are swapped for links
# while they are walked, names that look like marks, deep paths, too many files, sparse files, holes, files that are none,
# names with line feeds. Each is answered in time and as docs/formats.md says; nothing outside the data folder changes,
# the stored images stay as they were, and one sweep takes away what is left.
set -u
unset RKT_DIR
cd "$(dirname "$0")/../.." || exit 1
. tests/host/checks.bash

for tool in sha512sum python3 mkfifo truncate timeout; do
    if ! command -v $tool >/dev/null; then
        skip "all: there is no $tool"
        exit 0
    fi
done

tmp=$(cd "$tmp" && pwd -P)
rkt=$tmp/rkt-program
export RKT_DIR=$tmp/data
outside=$tmp/outside
root=$tmp/f/rootfs
key=$(printf 'sha512-%064x' 15)
stored=$RKT_DIR/store/images/$key
mkdir "$outside"
echo secret >"$outside/file"
secret=$(sha512sum <"$outside/file" | cut -d' ' -f1)
nothing=$(printf '' | sha512sum | cut -d' ' -f1)

# bundle: a new bundle at f, with an app and an empty root.
bundle() {
    rm -rf "$tmp/f"
    mkdir -p "$root"
    echo '{"acKind":"ImageManifest","acVersion":"0.8.0","name":"example.com/f","app":{"exec":["/bin/run"],"user":"0","group":"0"}}' >"$tmp/f/manifest"
    printf 'sha512-%064x%064d\n' 15 0 >"$tmp/f/id"
}

# All that stands below these folders, with kinds, modes, sizes, targets and times.
standing() {
    find "$@" -mindepth 1 -printf '%p %y %m %s %l %T@\n' 2>/dev/null | sort | sha512sum
}

# attack NAME STATUS ANSWER [LISTING]: the bundle is imported and answered so, and no harm was done. ANSWER is the line on
# standard error, or the key's line where the status is 0; then LISTING is the stored listing, if it is given.
attack() {
    local name=$1 status=$2 answer=$3 images others
    images=$(standing "$RKT_DIR/store/images")
    others=$(standing "$outside" "$tmp/f")
    if [ "$status" -eq 0 ]; then
        expect "$name" 0 "$key" '' timeout 60 "$rkt" image import "$tmp/f"
        [ $# -lt 4 ] || same "$name: the listing" "$4" "$(cat "$stored/tree")"
        same "$name: whole" whole "$(python3 tests/host/wholeness.py "$RKT_DIR")"
        expect "$name: goes" 0 "removed $key" '' timeout 60 "$rkt" image rm "$key"
    else
        expect "$name" "$status" '' "$answer" timeout 60 "$rkt" image import "$tmp/f"
    fi
    same "$name: the images" "$images" "$(standing "$RKT_DIR/store/images")"
    same "$name: nothing outside changed" "$others" "$(standing "$outside" "$tmp/f")"
    timeout 60 "$rkt" image gc >/dev/null
    same "$name: one sweep leaves nothing" '' "$(find "$RKT_DIR/store/incoming" "$RKT_DIR/store/removed" -mindepth 1 -maxdepth 1)"
}

# The store has an image before, which no attack may change.
bundle
printf 'sha512-%064x%064d\n' 14 0 >"$tmp/f/id"
sed -i 's,example.com/f,example.com/there,' "$tmp/f/manifest"
mkdir "$root/etc"
echo text >"$root/etc/file"
expect 'the image that is there' 0 "$(printf 'sha512-%064x' 14)" '' "$rkt" image import "$tmp/f"

# Links out of the root, at each level, and in place of the bundle's own parts.
bundle
mkdir -p "$root/a/b/c"
for level in . a a/b a/b/c; do ln -s "$outside" "$root/$level/out"; done
attack 'links out at each level' 0 "$key" "d 0755 0 0 /a
d 0755 0 0 /a/b
d 0755 0 0 /a/b/c
l 0777 0 0 $outside /a/b/c/out
l 0777 0 0 $outside /a/b/out
l 0777 0 0 $outside /a/out
l 0777 0 0 $outside /out"
bundle
rmdir "$root"
ln -s "$outside" "$root"
attack 'the root is a link' 0 "$key" ''
for level in etc etc/a etc/a/b; do
    bundle
    mkdir -p "$root/$level"
    rmdir "$root/$level"
    ln -s "$outside" "$root/$level"
    { [ $level = etc ] || echo 'd 0755 0 0 /etc'
        [ $level != etc/a/b ] || echo 'd 0755 0 0 /etc/a'
        printf 'd 0755 0 0 /%s\nf 0644 0 0 7 %s /%s/file\n' $level "$secret" $level; } >"$tmp/f/tree"
    attack "a listed file behind a link at $level" 15 "rkt: damaged: rootfs/$level/file"
done
bundle
ln -s "$outside/file" "$root/file"
printf 'f 0644 0 0 7 %s /file\n' "$secret" >"$tmp/f/tree"
attack 'a listed file is a link' 15 'rkt: damaged: rootfs/file'
bundle
printf 'l 0777 0 0 %s /etc\nf 0644 0 0 7 %s /etc/file\n' "$outside" "$secret" >"$tmp/f/tree"
attack 'a listed file below a listed link' 6 'rkt: bad manifest at tree: refusal 42'
for part in manifest id; do
    bundle
    mv "$tmp/f/$part" "$tmp/$part"
    ln -s "$tmp/$part" "$tmp/f/$part"
    attack "the $part is a link" 15 "rkt: no file: $part"
done
for path in x /../x //x /./x / /x/; do
    bundle
    printf 'd 0755 0 0 %s\n' "$path" >"$tmp/f/tree"
    attack "a listed path that is none: $path" 6 'rkt: bad manifest at tree: refusal 40'
done

# Holes, and what is neither file, directory nor link.
bundle
printf 'd 0755 0 0 /etc\nf 0644 0 0 7 %s /etc/file\n' "$secret" >"$tmp/f/tree"
attack 'a listed file that is not there' 15 'rkt: damaged: rootfs/etc/file'
bundle
mkdir -p "$root/etc/file"
printf 'd 0755 0 0 /etc\nf 0644 0 0 7 %s /etc/file\n' "$secret" >"$tmp/f/tree"
attack 'a directory in place of a listed file' 15 'rkt: damaged: rootfs/etc/file'
bundle
mkfifo "$root/pipe"
attack 'a pipe' 15 'rkt: bad kind: rootfs/pipe'
bundle
mkfifo "$root/pipe"
printf 'f 0644 0 0 0 %s /pipe\n' "$nothing" >"$tmp/f/tree"
attack 'a pipe in place of a listed file' 15 'rkt: damaged: rootfs/pipe'
bundle
(cd "$root" && python3 -c 'import socket; socket.socket(socket.AF_UNIX).bind("s")')
attack 'a socket' 15 'rkt: bad kind: rootfs/s'
bundle
rmdir "$root"
mkfifo "$root"
attack 'the root is a pipe' 0 "$key" ''
for part in manifest id; do
    bundle
    rm "$tmp/f/$part"
    mkfifo "$tmp/f/$part"
    attack "the $part is a pipe" 15 "rkt: no file: $part"
done
bundle
mkfifo "$tmp/f/tree"
attack 'the listing is a pipe' 0 "$key" ''
if mknod "$tmp/zero" c 1 5 2>/dev/null && head -c 1 "$tmp/zero" >/dev/null 2>&1; then
    bundle
    mknod "$root/zero" c 1 5
    mknod "$root/disk" b 7 0
    attack 'devices' 15 'rkt: bad kind: rootfs/disk'
    bundle
    rm "$tmp/f/id"
    mknod "$tmp/f/id" c 1 5
    attack 'the id is a device without an end' 15 'rkt: no file: id'
else
    skip 'devices: they can not be made or read here'
fi

# Names.
bundle
: >"$root/"$'a\nd 0755 0 0 b'
: >"$root/100%"
: >"$root/"$'\e[2J'
: >"$root/$(printf 'x%.0s' {1..255})"
ln -s $'a\nb' "$root/link"
attack 'names with line feeds, escapes and percent, and of 255 bytes' 0 "$key" "f 0755 0 0 0 $nothing /%1B[2J
f 0755 0 0 0 $nothing /100%25
f 0755 0 0 0 $nothing /a%0Ad%200755%200%200%20b
l 0777 0 0 a%0Ab /link
f 0755 0 0 0 $nothing /$(printf 'x%.0s' {1..255})"
bundle
ln -s $'\xff' "$root/link"
attack 'a target that is no UTF-8' 10 'rkt: bundle fault'
bundle
for name in created imported marked; do : >"$root/$name-00000000000000000000"; done
for name in started-f pod token manifest id tree; do : >"$root/$name"; done
cp -a "$root" "$tmp/f/deep"
mv "$tmp/f/deep" "$root/deep"
: >"$tmp/f/imported-00000000000000000001"
attack 'names that look like marks' 0 "$key"

# A name must not bring a second line into the message.
bundle
mkfifo "$root/"$'x\nrkt: second line'
timeout 60 "$rkt" image import "$tmp/f" >/dev/null 2>"$tmp/said"
same 'a pipe whose name has a line feed' '15 1' "$? $(wc -l <"$tmp/said")"

# A name that isn't UTF-8, of a file, a directory or a link, at the top or deep: an image would be without it, so the bundle
# is refused. Where a listing is given, what it doesn't name is passed over.
for level in '' etc/a/b/; do
    for kind in 'touch' 'mkdir' 'ln -s file'; do
        bundle
        mkdir -p "$root/etc/a/b"
        echo text >"$root/etc/file"
        $kind "$root/$level"$'bad\xffname'
        attack "a name that is no UTF-8, by $kind, in rootfs/$level" 10 'rkt: bundle fault'
    done
done
bundle
mkdir "$root/etc"
: >"$root/etc/"$'\xff'
printf 'd 0755 0 0 /etc\n' >"$tmp/f/tree"
attack 'a name that is no UTF-8 beside a listing' 0 "$key" 'd 0755 0 0 /etc'

# Paths at the limit of 4,095 bytes, in the store and in the bundle. A directory is opened with a slash behind its path.
deep() {
    bundle
    python3 -c 'import os, sys
os.chdir(sys.argv[1])
left = int(sys.argv[2])
while left > 252:
    os.mkdir("d" * 250)
    os.chdir("d" * 250)
    left -= 251
os.mkdir("e" * (left - 1))' "$root" "$1"
}
images=$((4094 - ${#stored} - 7))
incoming=$((4094 - ${#RKT_DIR} - 16 - 36 - 7))
deep $images
attack 'a path of 4,094 bytes in images' 0 "$key"
deep $((incoming + 1))
attack 'a path of 4,095 bytes in incoming' 9 'rkt: directory fault'
deep $((4096 - ${#root}))
attack 'a path of 4,096 bytes in the bundle' 10 'rkt: bundle fault'
deep $((4096 * 2))
attack 'a path of 8,192 bytes in the bundle' 10 'rkt: bundle fault'
deep $incoming
expect 'a path of 4,094 bytes in incoming' 0 "$key" '' "$rkt" image import "$tmp/f"
expect 'no pod is made of it' 9 '' 'rkt: directory fault' "$rkt" prepare example.com/f
expect 'it goes' 0 "removed $key" '' "$rkt" image rm "$key"
"$rkt" gc >/dev/null
same 'and so does what was begun' '' "$(find "$RKT_DIR/pods" -mindepth 2 | head -n 1)"

# Too many, and too much: refused in time.
bundle
python3 -c 'import os, sys
for d in range(70):
    os.mkdir(f"{sys.argv[1]}/{d}")
    for f in range(1000):
        os.close(os.open(f"{sys.argv[1]}/{d}/{f}", os.O_CREAT))' "$root"
attack '70,070 entries' 8 'rkt: limit: 65536'
bundle
seq 10001 75537 | sed 's,^,d 0755 0 0 /,' >"$tmp/f/tree"
attack '65,537 lines' 8 'rkt: limit: 65536'
for size in 33554433 1T; do
    bundle
    truncate -s $size "$tmp/f/tree"
    attack "a sparse listing of $size" 8 'rkt: limit: 33554432'
done
for size in 1073741825 1T; do
    bundle
    truncate -s $size "$root/sparse"
    attack "a sparse file of $size" 8 'rkt: limit: 1073741824'
done
bundle
truncate -s 1T "$tmp/f/manifest"
attack 'a sparse manifest' 6 'rkt: bad manifest at $: refusal 25'
bundle
truncate -s 1T "$tmp/f/id"
attack 'a sparse ID' 6 'rkt: bad manifest at id: refusal 3'
bundle
printf '{"acKind":"ImageManifest","acVersion":"0.8.0","name":"f","annotations":%s' "$(printf '[%.0s' {1..200000})" >"$tmp/f/manifest"
attack 'a manifest of 200,000 brackets' 6 'rkt: bad manifest at $: refusal 20'

# A directory of the bundle that is swapped for a link while it is walked: whatever comes, nothing outside changes.
swap() {
    python3 -c 'import os, sys
place, target = sys.argv[1:]
print(flush=True)
while True:
    os.rename(place, place + "-away")
    os.symlink(target, place)
    os.unlink(place)
    os.rename(place + "-away", place)' "$1" "$2" >"$tmp/swapping" 2>/dev/null &
    swapper=$!
    until [ -s "$tmp/swapping" ]; do sleep 0.01; done
}
unswap() {
    kill $swapper 2>/dev/null
    wait $swapper 2>/dev/null
    [ ! -L "$1" ] || rm "$1"
    [ ! -d "$1-away" ] || mv "$1-away" "$1"
}
bundle
mkdir "$root/d"
for n in {1..50}; do
    echo own >"$root/d/$n"
    echo secret >"$outside/$n"
done
before=$(standing "$outside")
swap "$root/d" "$outside"
followed=0
for n in {1..30}; do
    timeout 60 "$rkt" image import "$tmp/f" >/dev/null 2>"$tmp/said"
    case "$? $(cat "$tmp/said")" in
        '0 ') checks=$((checks + 1)) ;;
        '10 rkt: bundle fault' | '15 rkt: '*': rootfs/d'*) checks=$((checks + 1)) ;;
        *) fail "a directory that is swapped for a link: $(cat "$tmp/said")" ;;
    esac
    ! grep -q "$secret" "$stored/tree" 2>/dev/null || followed=$((followed + 1))
    "$rkt" image rm "$key" >/dev/null 2>&1
done
unswap "$root/d"
same 'a swapped directory: nothing outside changed' "$before" "$(standing "$outside")"
echo "hostile.sh: of 30 imports beside a directory that was swapped for a link $followed had read through it"

# The same in a pod's root while the pod is removed, by a program that outlived it.
bundle
mkdir "$root/bin"
printf '#!/bin/sh\nmkdir d; for n in $(seq 50); do echo own >d/$n; done\n' >"$root/bin/run"
expect 'the image' 0 "$key" '' "$rkt" image import "$tmp/f"
for n in {1..20}; do
    pod=$("$rkt" run example.com/f | head -n 1)
    inside=$RKT_DIR/pods/run/$pod/stage1/rootfs/opt/stage2/f/rootfs
    exec 8<"$inside"
    swap "/proc/$$/fd/8/d" "$outside"
    timeout 60 "$rkt" rm "$pod" >/dev/null 2>"$tmp/said"
    case "$? $(cat "$tmp/said")" in
        '0 ' | '9 rkt: directory fault' | '20 rkt: stray reply') checks=$((checks + 1)) ;;
        *) fail "a removal beside a program that swaps: $(cat "$tmp/said")" ;;
    esac
    kill $swapper 2>/dev/null
    wait $swapper 2>/dev/null
    exec 8<&-
    "$rkt" rm "$pod" >/dev/null 2>&1
done
same 'a removal beside a program that swaps: nothing outside changed' "$before" "$(standing "$outside")"
same 'no pod is left' '' "$(find "$RKT_DIR/pods" -mindepth 2 -maxdepth 2)"

# Another user of the machine neither reads the data folder nor locks anything in it, whatever the umask that it was made
# under; one that stands keeps its mode.
as_user=(setpriv --reuid=65534 --regid=65534 --clear-groups)
for mask in 000 022 077 777; do
    private=$tmp/private$mask
    (umask $mask && RKT_DIR=$private exec "$rkt" status 00000000-0000-4000-8000-000000000001) >/dev/null 2>&1
    same "made under the umask $mask" 700 "$(stat -c %a "$private")"
done
mkdir -m 751 "$tmp/stands"
RKT_DIR=$tmp/stands "$rkt" status 00000000-0000-4000-8000-000000000001 2>/dev/null
same 'one that stands keeps its mode' 751 "$(stat -c %a "$tmp/stands")"
mkdir "$tmp/here"
(cd "$tmp/here" && umask 000 && env -u RKT_DIR "$rkt" status 00000000-0000-4000-8000-000000000001) 2>/dev/null
same 'the folder rkt in the current one' 700 "$(stat -c %a "$tmp/here/rkt")"
(umask 000 && RKT_DIR=$tmp/here/on/the/way/ exec "$rkt" status 00000000-0000-4000-8000-000000000001) 2>/dev/null
same 'one whose parents are missing' 700 "$(stat -c %a "$tmp/here/on/the/way")"
if [ "$(id -u)" -eq 0 ] && command -v flock >/dev/null && "${as_user[@]}" true 2>/dev/null; then
    private=$tmp/private000
    pod=$(RKT_DIR=$private "$rkt" image import "$tmp/f" >/dev/null && RKT_DIR=$private "$rkt" prepare example.com/f)
    for what in "pods/prepared/$pod/token" "pods/prepared/$pod/pod" "store/images/$key/manifest"; do
        same "it is there: $what" 0 "$(cat "$private/$what" >/dev/null 2>&1; echo $?)"
        same "another user doesn't read $what" 1 "$("${as_user[@]}" cat "$private/$what" >/dev/null 2>&1; echo $?)"
    done
    for what in pods/embryo pods/prepared store/images "pods/prepared/$pod" "pods/prepared/$pod/pod"; do
        same "it can be locked: $what" 0 "$(flock -n -s "$private/$what" true 2>/dev/null; echo $?)"
        "${as_user[@]}" flock -n -s "$private/$what" true 2>/dev/null
        same "another user doesn't lock $what" 66 $?
    done
    RKT_DIR=$private "$rkt" rm "$pod" >/dev/null
else
    skip 'what another user may do with the data folder: this is not root, or there is no setpriv or no flock'
fi

# Names that look like marks, in a pod: they are the app's, and its pod keeps its own time.
expect 'it goes' 0 "removed $key" '' "$rkt" image rm "$key"
bundle
mkdir "$root/bin"
printf '#!/bin/sh\n:>created-00000000000000000001; :>marked-00000000000000000001\n' >"$root/bin/run"
: >"$root/created-00000000000000000001"
: >"$root/marked-00000000000000000001"
expect 'an image with marks' 0 "$key" '' "$rkt" image import "$tmp/f"
pod=$("$rkt" prepare example.com/f)
expect 'a young pod stays' 0 "$pod kept prepared" '' "$rkt" gc
expect 'it runs' 0 'app-f=0' '' "$rkt" run-prepared "$pod"
expect 'it rests' 0 "$pod moved exited-garbage
$pod kept exited garbage" '' "$rkt" gc
expect 'it is removed' 0 "removed $pod" '' "$rkt" rm "$pod"

finish
