#!/usr/bin/env bash
# What a stranger meets first. Each command that stands in a block of README.md or of docs/CONTRIBUTING.md, and each example
# of the man page, is run as it stands there, and the whole of what it writes is looked at: on a copy of the repository in
# which the program is built already; those of `rt` in the repository itself. Then: that a bundle has App Container's ID,
# and the same twice; that what is installed works, and that all of it is taken away again; that systemd and mandoc read what
# is theirs; and that the documents' links lead somewhere.
#
# README's section on the identity of apps is left to tests/host/metadata.sh.
set -u
unset RKT_DIR DESTDIR PREFIX WORDS MAKEFLAGS MAKELEVEL
cd "$(dirname "$0")/../.." || exit 1
. tests/host/checks.bash

top=$PWD
for tool in make tar sha512sum; do
    if ! command -v $tool >/dev/null; then
        skip "all: there is no $tool"
        finish
        exit
    fi
done

tmp=$(cd "$tmp" && pwd -P)
rkt=$tmp/rkt-program
version=$(sed -n 's/^version //p' docs/words.table)
uuid='[0-9a-f]{8}-[0-9a-f]{4}-4[0-9a-f]{3}-[89ab][0-9a-f]{3}-[0-9a-f]{12}'
key='sha512-[0-9a-f]{64}'

# A copy of the repository in which all is built: what is built is younger than its sources.
mkdir -p "$tmp/copy/build" "$tmp/bin"
tar --exclude=./build --exclude=./.git --exclude=out -cf - . | tar -C "$tmp/copy" -xf -
cp "$rkt" "$tmp/copy/build/rkt"
cp "$rkt" "$tmp/bin/rkt"
[ ! -x crates/scenarios/out/scenarios ] || cp crates/scenarios/out/scenarios "$tmp/copy/build/scenarios"
touch "$tmp"/copy/build/*

# In the copy nothing is proved: a command that would is one that fails.
mkdir "$tmp/none"
printf '#!/bin/sh\necho "rt was called: $*"\nexit 1\n' >"$tmp/none/rt"
chmod 755 "$tmp/none/rt"
path=$PATH

# matches NAME WANTED GIVEN: the second, a pattern, is all of the third.
matches() {
    checks=$((checks + 1))
    [[ $3 =~ ^$2$ ]] || fail "$1: wanted '$2', got '$3'"
}

# ran NAME WANTED COMMAND: the command is done, and writes lines that match, one behind the other. It runs in this shell, so
# that those behind it have its variables.
ran() {
    local status written
    eval "$3" >"$tmp/out" 2>&1 </dev/null
    status=$?
    written=$(tr '\n' ' ' <"$tmp/out")
    same "$1: its status" 0 $status
    matches "$1" "$2" "${written% }"
}

# What the kit does with the crates that the gate has proved.
if ! command -v rt >/dev/null; then
    skip 'the commands of rt: there is no rt'
    with_rt=no
elif [ ! -d crates/phase_read/out ] || [ ! -d crates/dir_laws/out ]; then
    skip 'the commands of rt: the crates are not proved here'
    with_rt=no
else
    with_rt=yes
fi
refused=$(for edit in crates/phase_read/must-fail/*.edit; do echo "rt: must-fail phase_read/${edit##*/}: refused, as it must be"; done)
folder=$top
tried=

# in_repository COMMAND: a command of rt, or one that goes to a folder for the next.
in_repository() {
    case $1 in
        cd*) folder=$(cd "$folder" && eval "$1" && pwd) || fail "$1: no such folder" ;;
        *)
            # Once each, since what proves takes its time.
            [ $with_rt = yes ] && [[ $tried != *"|$1|"* ]] || return 0
            tried+="|$1|"
            (PATH=$path && cd "$folder" && eval "$1") >"$tmp/out" 2>&1 </dev/null
            same "$1: its status" 0 $?
            case $1 in
                'rt must-fail phase_read') same "$1" "$refused" "$(grep '^rt: must-fail' "$tmp/out" | sed 's/\(as it must be\).*/\1/' | sort)" ;;
                'rt doc') same "$1: the page is there" yes "$([ -f "$(cat "$tmp/out")" ] && echo yes)" ;;
            esac
            ;;
    esac
}

first_steps='\$ contrib/bundle hello example.com/hello root /bin/hello'
first_steps+=" \\\$ rkt image import hello $key"
first_steps+=" \\\$ rkt image list $key example.com/hello [0-9]+"
first_steps+=' \$ pod=\$\(rkt prepare example.com/hello\)'
first_steps+=' \$ rkt status "\$pod" state=prepared created=[0-9]+'
first_steps+=' \$ rkt run-prepared "\$pod" hello from hello app-hello=0'
first_steps+=' \$ rkt status "\$pod" state=exited created=[0-9]+ app-hello=0'
first_steps+=" \\\$ rkt list $uuid"$'\texited\thello'
first_steps+=" \\\$ rkt rm \"\\\$pod\" removed $uuid"

# What each command of a document writes, by its words.
answer() {
    case $1 in
        make) echo "make: Nothing to be done for 'all'\\." ;;
        'make run') echo "$first_steps" ;;
        'make run WORDS="image list"') echo "$key example.com/hello [0-9]+ status 0" ;;
        'make words') echo 'python3 docs/words\.py' ;;
        'make scenario') echo 'all came as the script says' ;;
        'build/rkt image import hello') echo "$key" ;;
        'build/rkt run example.com/hello') echo "hello $uuid app-hello=0" ;;
        'make install '* | 'make uninstall '*) echo '.*' ;;
        'make deb') echo ".*dpkg-deb: building package 'rkt' in 'build/rkt_${version}_amd64\\.deb'\\." ;;
        mkdir* | contrib/bundle* | cp*) ;;
        *) echo 'none is known' ;;
    esac
}

# play NAME COMMANDS: each line is run so.
play() {
    local command
    while IFS= read -r command <&3; do
        case $command in
            rt\ * | cd\ *) in_repository "$command" ;;
            # The gate itself, of which this script is a part.
            'make test') same "$command" 'bash .ci/run' "$(make -n test)" ;;
            *busybox*) ! command -v busybox >/dev/null || ran "$1: $command" "$(answer "$command")" "$command" ;;
            'build/rkt '*) ! command -v busybox >/dev/null || ran "$1: $command" "$(answer "$command")" "$command" ;;
            'make words') ! command -v python3 >/dev/null || ran "$1: $command" "$(answer "$command")" "$command" ;;
            'make scenario') [ ! -x build/scenarios ] || ran "$1: $command" "$(answer "$command")" "$command" ;;
            'make deb') ! command -v dpkg-deb >/dev/null || ran "$1: $command" "$(answer "$command")" "$command" ;;
            *) ran "$1: $command" "$(answer "$command")" "$command" ;;
        esac
        # What is built stays younger than what `make words` wrote.
        touch build/*
    done 3<<<"$2"
}

# commands FILE: those of its blocks, without what is said of them.
commands() {
    sed -n 's/^    *\([a-z]\)/\1/p' "$1" | grep -v '^requires \|^ensures ' | sed 's/  *# .*//'
}

command -v busybox >/dev/null || skip 'first steps with a real program: there is no busybox'
command -v python3 >/dev/null || skip 'make words: there is no python3'
command -v dpkg-deb >/dev/null || skip 'make deb: there is no dpkg-deb'
[ -x "$tmp/copy/build/scenarios" ] || skip 'make scenario: the program is not built'

cd "$tmp/copy" || exit 1
export DESTDIR=$tmp/installed PATH=$tmp/none:$PATH
readme=$(sed '/^<!-- commands/,/^<!-- end/d; /^## Identity for apps/,/^## See/d' README.md >"$tmp/readme" && commands "$tmp/readme")
[ "$(wc -l <<<"$readme")" -ge 10 ] || fail 'README has hardly a command'
play README "$readme"
same 'install and uninstall leave no file' '' "$(find "$DESTDIR" ! -type d 2>/dev/null)"
contributing=$(commands docs/CONTRIBUTING.md)
[ "$(wc -l <<<"$contributing")" -ge 10 ] || fail 'CONTRIBUTING has hardly a command'
play CONTRIBUTING "$contributing"
same 'CONTRIBUTING leaves the folder that it began in' "$top" "$folder"
if command -v python3 >/dev/null; then
    for file in crates/rkt/src/texts.rt docs/rkt.1 README.md; do
        same "make words leaves $file" yes "$(cmp -s "$file" "$top/$file" && echo yes)"
    done
fi

# The examples of the man page.
mkdir -p "$tmp/examples/root/bin"
cd "$tmp/examples" || exit 1
PATH=$tmp/bin:$PATH
printf '#!/bin/sh\necho hello\n' >root/bin/run
chmod 755 root/bin/run
"$top/contrib/bundle" worker example.com/worker root /bin/run
pod=
number=0
examples=(
    "$key hello $uuid app-worker=0"
    'hello app-worker=0'
    'state=exited created=[0-9]+ app-worker=0'
    "$uuid $uuid"
    "removed $uuid"
    "$uuid moved exited-garbage $uuid kept exited garbage"
    ''
)
while IFS= read -r -d '#' example <&3; do
    example=${example#$'\n'}
    ran "the example '${example:0:40}'" "${examples[number]-none more}" "$example"
    number=$((number + 1))
done 3< <(sed -n '/^\.SH EXAMPLES/,/^\.SH CAVEATS/p' "$top/docs/rkt.1" |
    sed -n '/^\.nf/,/^\.fi/p' | sed '/^\.nf/d; s/^\.fi/#/; s/\\-/-/g; s/\\e/\\/g')
same 'the examples of the man page' ${#examples[@]} $number

# Bundles: the ID is that of a tar archive of manifest and root, whatever their times and owners are, and changes with a byte.
mkdir "$tmp/bundles"
cd "$tmp/bundles" || exit 1
export RKT_DIR=$tmp/bundles/data
bundle=$top/contrib/bundle
cp -a "$tmp/examples/root" root
mkdir -p root/a/b 'root/odd name'
ln -s ../bin/run root/a/link
mkfifo root/a/pipe
said=$("$bundle" one example.com/one root /bin/run 'a "word"' $'\tb\\' 2>&1)
same 'a pipe is left out, and told' 'bundle: left out: a/pipe' "$said"
same 'its ID' "sha512-$(tar -C one --sort=name --mtime=@0 --owner=0 --group=0 --numeric-owner -cf - manifest rootfs | sha512sum | cut -d' ' -f1)" "$(cat one/id)"
touch -d '2001-01-01' root/bin/run root/a
"$bundle" two example.com/one root /bin/run 'a "word"' $'\tb\\' 2>/dev/null
same 'the same root has the same ID' "$(cat one/id)" "$(cat two/id)"
echo '# more' >>root/bin/run
"$bundle" three example.com/one root /bin/run 'a "word"' $'\tb\\' 2>/dev/null
same 'another has another' yes "$([ "$(cat one/id)" != "$(cat three/id)" ] && echo yes)"
if command -v python3 >/dev/null; then
    same 'its manifest' "['/bin/run', 'a \"word\"', '\\tb\\\\'] example.com/one" \
        "$(python3 -c 'import json; m = json.load(open("one/manifest")); print(m["app"]["exec"], m["name"])')"
fi
first=$(cut -c 1-71 one/id)
expect 'it is imported' 0 "$first" '' "$rkt" image import one
expect 'it is imported once more, and nothing changes' 0 "$first" '' "$rkt" image import two
same 'there is one image' 1 "$("$rkt" image list | wc -l)"
expect 'it is judged a manifest' 0 'valid ImageManifest example.com/one' '' "$rkt" validate one/manifest
same 'its link is stored' 'l 0777 0 0 ../bin/run /a/link' "$(grep '^l ' "$RKT_DIR/store/images/$first/tree")"
expect 'no words' 1 '' 'usage: bundle OUT NAME ROOTFS EXEC [WORD..]' "$bundle" one example.com/one root
expect 'no root' 1 '' 'bundle: no folder: none' "$bundle" four example.com/one none /bin/run
expect 'it stands already' 1 '' 'bundle: it stands already: two' "$bundle" two example.com/one root /bin/run
same 'a refused one leaves nothing' '' "$(ls -d four 2>/dev/null)"
unset RKT_DIR

# What is installed works from its place, in each of the two ways.
cd "$tmp/copy" || exit 1
prefix=$tmp/prefix
DESTDIR='' make -s install PREFIX="$prefix"
same 'make install: its status' 0 $?
same 'the installed files' "bin/rkt lib/systemd/system/rkt-gc.service lib/systemd/system/rkt-gc.timer lib/systemd/system/rkt-metadata.service lib/systemd/system/rkt@.service share/bash-completion/completions/rkt share/man/man1/rkt.1 share/zsh/site-functions/_rkt" \
    "$(cd "$prefix" && find . -type f | sed 's|^\./||' | sort | tr '\n' ' ' | sed 's/ $//')"
expect 'the installed program' 0 "rkt $version" '' "$prefix/bin/rkt" --version
same 'the units start it' '' "$(grep -h '^ExecStart=' "$prefix"/lib/systemd/system/* | grep -v "^ExecStart=$prefix/bin/rkt ")"
same 'a pod that is a unit takes its programs along' 1 "$(grep -c '^KillMode=control-group$' "$prefix/lib/systemd/system/rkt@.service")"
if command -v systemd-analyze >/dev/null; then
    same 'systemd reads the units' '' "$(systemd-analyze verify --man=no "$prefix"/lib/systemd/system/rkt* 2>&1 | grep -F "$prefix")"
else
    skip 'whether systemd reads the units: there is no systemd-analyze'
fi
DESTDIR='' make -s uninstall PREFIX="$prefix"
same 'make uninstall leaves no file' '' "$(find "$prefix" ! -type d)"

deb=build/rkt_${version}_amd64.deb
if [ ! -f "$deb" ]; then
    skip 'the Debian package: it was not made'
else
    same 'the package' "rkt $version amd64" "$(dpkg-deb --showformat='${Package} ${Version} ${Architecture}' --show "$deb")"
    if [ "$(id -u)" -eq 0 ] && command -v dpkg >/dev/null; then
        # A system of its own, in which nothing else is.
        mkdir -p "$tmp/system/var/lib/dpkg/info" "$tmp/system/var/lib/dpkg/updates"
        touch "$tmp/system/var/lib/dpkg/status" "$tmp/system/var/lib/dpkg/available"
        PATH=$PATH:/usr/sbin:/sbin dpkg --root="$tmp/system" --log=/dev/null --force-depends -i "$deb" >"$tmp/out" 2>&1
        same 'it is installed' 0 $?
        expect 'its program' 0 "rkt $version" '' "$tmp/system/usr/bin/rkt" --version
        PATH=$PATH:/usr/sbin:/sbin dpkg --root="$tmp/system" --log=/dev/null -r rkt >"$tmp/out" 2>&1
        same 'it is removed' 0 $?
        same 'nothing of it is left' '' "$(find "$tmp/system" -path "$tmp/system/var" -prune -o ! -type d -print)"
    else
        skip 'the installing of the Debian package: that takes root and dpkg'
        dpkg-deb -x "$deb" "$tmp/system"
        expect 'its program' 0 "rkt $version" '' "$tmp/system/usr/bin/rkt" --version
    fi
fi

# The man page, as mandoc reads it.
cd "$top" || exit 1
if command -v mandoc >/dev/null; then
    same 'docs/rkt.1 as mandoc reads it' '' "$(mandoc -T lint -W warning docs/rkt.1 2>&1)"
else
    skip 'the man page: there is no mandoc'
fi

# The documents: each link leads to a file, and to a heading where it names one; the index has each document; a cell of
# CLAIMS.md has 400 bytes at most.
if command -v python3 >/dev/null; then
    same 'the links of the documents' '' "$(python3 tests/host/links.py)"
else
    skip 'the links of the documents: there is no python3'
fi
for page in docs/*.md docs/rkt.1 README.md SECURITY.md CHANGELOG.md; do
    [ "$page" = docs/README.md ] && continue
    checks=$((checks + 1))
    grep -qF "(${page#docs/})" docs/README.md || grep -qF "(../$page)" docs/README.md || fail "docs/README.md doesn't name $page"
done
same 'long cells of CLAIMS.md' '' "$(awk -F '|' '/^\|/ { for (i = 1; i <= NF; i++) if (length($i) > 400) print $i }' docs/CLAIMS.md)"
finish
