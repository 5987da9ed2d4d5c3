#!/usr/bin/env bash
# A stranger's first steps: each command of docs/FIRST-STEPS.md, run as it stands there on the built program, and the
# whole of what it writes.
set -u
unset RKT_DIR
cd "$(dirname "$0")/../.." || exit 1
. tests/host/checks.bash

steps=$PWD/docs/FIRST-STEPS.md
if ! command -v flock >/dev/null; then
    skip 'the tour: there is no flock'
    finish
    exit
fi

uuid_text='[0-9a-f]{8}-[0-9a-f]{4}-4[0-9a-f]{3}-[89ab][0-9a-f]{3}-[0-9a-f]{12}'
base_key='sha512-a{64}'
worker_key='sha512-c{64}'

# What each command that calls the program, or lists a folder, writes to both streams, in the document's order.
answers=(
    'images=5 prepared=5 ran=2 failed=1 deleted=2 left=3 entries=16'
    "$base_key"
    "$worker_key"
    "$base_key example.com/base [0-9]+ $worker_key example.com/worker [0-9]+"
    ''
    'state=prepared created=[0-9]+'
    'state=prepared created=[0-9]+'
    "$uuid_text"$'\tprepared\tworker'
    '\{"acKind":"PodManifest","acVersion":"0.8.0","apps":\[\{.*,"name":"worker"\}\]\}'
    'appsinfo created-[0-9]{20} pod stage1 token'
    'hello app-worker=0'
    'state=exited created=[0-9]+ app-worker=0'
    "removed $uuid_text"
    "hello $uuid_text app-worker=0"
    "$uuid_text moved exited-garbage $uuid_text kept exited garbage"
    "$uuid_text kept exited garbage"
    "removed $base_key"
    'valid ImageManifest example.com/worker'
    'rkt: bad manifest at apps: refusal 9'
    'rkt: no such pod'
    'state=exited'
    'state=running'
)

commands() {
    sed -n 's/^    //p' "$steps" | sed 's/ *# .*//'
}

mkdir -p "$tmp/tour/build"
cp "$rkt" "$tmp/tour/build/rkt"
cd "$tmp/tour" || exit 1
place=0
while IFS= read -r command <&3; do
    eval "$command" >"$tmp/out" 2>&1
    written=$(tr '\n' ' ' <"$tmp/out")
    wanted=
    case $command in
        *build/rkt* | ls*)
            wanted=${answers[place]-none more}
            place=$((place + 1))
            ;;
    esac
    checks=$((checks + 1))
    [[ ${written% } =~ ^$wanted$ ]] || fail "$command: wanted '$wanted', got '${written% }'"
done 3< <(commands)
same 'commands that answer' ${#answers[@]} $place
[[ ${pod-} =~ ^$uuid_text$ ]] || fail "the prepared pod has no uuid: '${pod-}'"
finish
