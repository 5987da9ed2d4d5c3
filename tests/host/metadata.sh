#!/usr/bin/env bash
# The built program as a metadata service on this host: apps of pods that run ask it who they are, sign and verify; and what
# becomes of clients that are many, slow, or silent.
set -u
unset RKT_DIR
cd "$(dirname "$0")/../.." || exit 1
. tests/host/checks.bash

for tool in curl python3; do
    if ! command -v $tool >/dev/null; then
        skip "all: there is no $tool"
        exit 0
    fi
done

clients=$PWD/tests/host/metadata.py
tmp=$(cd "$tmp" && pwd -P)
rkt=$tmp/rkt-program
export RKT_DIR=$tmp/data
unset http_proxy HTTP_PROXY ALL_PROXY all_proxy
port=$(python3 "$clients" port)
address=127.0.0.1:$port

# What the app of each image does: it asks by the address that it was given, keeps the answers in its root, and ends
# once a file `end` stands there.
mkdir -p "$tmp/bundle/rootfs/bin"
cat >"$tmp/bundle/rootfs/bin/run" <<'APP'
#!/bin/sh
ask() {
    curl -sS --noproxy '*' -H 'Metadata-Flavor: AppContainer' "$@"
}
pod=$AC_METADATA_URL/acMetadata/v1/pod
app=$AC_METADATA_URL/acMetadata/v1/apps/$AC_APP_NAME
ask "$pod/uuid" >uuid
ask "$pod/annotations" >pod-annotations
ask "$pod/manifest" >manifest
ask "$app/image/id" >image-id
ask "$app/image/manifest" >image-manifest
ask "$app/annotations" >annotations
ask --data-urlencode 'content=an order of 5' "$pod/hmac/sign" >signature
echo "$AC_METADATA_URL" >url
: >asked
for _ in $(seq 600); do
    [ ! -e end ] || exit 0
    sleep 0.05
done
exit 1
APP
chmod 755 "$tmp/bundle/rootfs/bin/run"

# image NAME DIGIT
image() {
    local id
    id=sha512-$(printf "$2%.0s" $(seq 128))
    echo "{\"acKind\":\"ImageManifest\",\"acVersion\":\"0.8.11\",\"name\":\"example.com/$1\",\"app\":{\"exec\":[\"/bin/run\"],\"user\":\"0\",\"group\":\"0\",\"environment\":[{\"name\":\"PATH\",\"value\":\"$PATH\"}]},\"annotations\":[{\"name\":\"who\",\"value\":\"$1\"}]}" >"$tmp/bundle/manifest"
    echo "$id" >"$tmp/bundle/id"
    expect "the image $1" 0 "${id:0:71}" '' "$rkt" image import "$tmp/bundle"
    cp "$tmp/bundle/manifest" "$tmp/$1-manifest"
}

# begin NAME: a pod of the image runs, and its app has asked. Its uuid is left in $pod, its root in $root, how it is reached in $url.
begin() {
    pod=$("$rkt" prepare "example.com/$1")
    "$rkt" run-prepared --metadata="$address" "$pod" >"$tmp/$1-ran" 2>&1 &
    runs="${runs-} $!"
    root=$RKT_DIR/pods/run/$pod/stage1/rootfs/opt/stage2/$1/rootfs
    for _ in $(seq 600); do
        [ -e "$root/asked" ] && break
        sleep 0.05
    done
    url=$(cat "$root/url")
}

# code CURL'S WORDS..: the status of a reply.
code() {
    curl -sS --noproxy '*' -o "$tmp/body" -w '%{http_code}' "$@"
}

flavor='Metadata-Flavor: AppContainer'

image first 1
image second 2

"$rkt" metadata-service "$address" 65535 >"$tmp/served" 2>&1 &
service=$!
trap 'kill $service ${runs-} 2>/dev/null; chmod -R u+rwx "$tmp"; rm -rf "$tmp"' EXIT
python3 "$clients" wait "$port"

# An app learns who it is.
begin first
first=$pod first_root=$root first_url=$url
same "the app is told its pod's uuid" "$first" "$(cat "$root/uuid")"
same "and its image's ID" "sha512-$(printf '1%.0s' {1..128})" "$(cat "$root/image-id")"
same "and its image's manifest, as it was stored" "$(cat "$tmp/first-manifest")" "$(cat "$root/image-manifest")"
same "and its annotations" '[{"name":"who","value":"first"}]' "$(cat "$root/annotations")"
same "and its pod's" '[]' "$(cat "$root/pod-annotations")"
same "and its pod's manifest" "$("$rkt" cat-manifest "$first")" "$(cat "$root/manifest")"
same "it is reached at the address, by its token" "http://$address/$(cat "$RKT_DIR/pods/run/$first/token")" "$url"

# Another pod verifies what the first one signed, and no one can sign for another.
begin second
same "the second app is told its own uuid" "$pod" "$(cat "$root/uuid")"
signature=$(cat "$first_root/signature")
same "a signature has 64 bytes" 64 "$(base64 -d <<<"$signature" | wc -c)"
verify=$url/acMetadata/v1/pod/hmac/verify
same "it is verified" 200 "$(code -H "$flavor" --data-urlencode 'content=an order of 5' --data-urlencode "uuid=$first" --data-urlencode "signature=$signature" "$verify")"
same "with an empty body" 0 "$(wc -c <"$tmp/body")"
same "other content isn't" 403 "$(code -H "$flavor" --data-urlencode 'content=an order of 6' --data-urlencode "uuid=$first" --data-urlencode "signature=$signature" "$verify")"
same "nor is it the second pod's" 403 "$(code -H "$flavor" --data-urlencode 'content=an order of 5' --data-urlencode "uuid=$pod" --data-urlencode "signature=$signature" "$verify")"
other=$(python3 "$clients" port)
"$rkt" metadata-service "127.0.0.1:$other" 2 >"$tmp/other" 2>&1 &
counted=$!
python3 "$clients" wait "$other"
same "nor does another service verify it, whose key is its own" 403 "$(code -H "$flavor" --data-urlencode 'content=an order of 5' --data-urlencode "uuid=$first" --data-urlencode "signature=$signature" "http://127.0.0.1:$other/${url##*/}/acMetadata/v1/pod/hmac/verify")"
wait $counted
same "a form without a signature is refused" 400 "$(code -H "$flavor" --data-urlencode 'content=an order of 5' --data-urlencode "uuid=$first" "$verify")"

# What isn't asked as it is to be.
same "without the flavor" 403 "$(code "$first_url/acMetadata/v1/pod/uuid")"
same "by another method" 405 "$(code -H "$flavor" -X PUT "$first_url/acMetadata/v1/pod/uuid")"
same "at another path" 404 "$(code -H "$flavor" "$first_url/acMetadata/v1/pod")"
same "of an app that the pod hasn't" 404 "$(code -H "$flavor" "$first_url/acMetadata/v1/apps/second/image/id")"
same "by a token of no pod" 404 "$(code -H "$flavor" "http://$address/00112233445566778899aabbccddeeff/acMetadata/v1/pod/uuid")"

# A request of a byte at a time, and a client that sends no more: it has at most ten seconds, and the next is served.
path=/$(cat "$RKT_DIR/pods/run/$first/token")/acMetadata/v1/pod/uuid
same "one byte at a time" "HTTP/1.1 200 OK" "$(python3 "$clients" slow "$port" "$path")"
python3 "$clients" hang "$port" 60 >"$tmp/hung" &
hung=$!
sleep 0.5
before=$SECONDS
same "behind a client that hangs" "1" "$(python3 "$clients" crowd "$port" "$path" 1 1 "$first")"
waited=$((SECONDS - before))
checks=$((checks + 1))
[ $waited -le 20 ] || fail "a client that hangs holds others up for $waited seconds"
wait $hung
same "what is told to it" "" "$(cat "$tmp/hung")"

# A service of its own for a thousand connections of twenty clients at once: each is served, and it ends with 0.
many=$(python3 "$clients" port)
"$rkt" metadata-service "127.0.0.1:$many" 1000 >"$tmp/many" 2>&1 &
counted=$!
same "a thousand requests of twenty clients" 1000 "$(python3 "$clients" crowd "$many" "$path" 20 50 "$first")"
wait $counted
same "the service of a thousand connections" "0|" "$?|$(cat "$tmp/many")"

# Ten thousand connections of 200 clients at once, of which some send half a head, garbage, or a token of no pod: none gets
# what is another pod's, none is lost, and the service takes no more memory than before.
second_path=/$(cat "$RKT_DIR/pods/run/$pod/token")/acMetadata/v1/pod/uuid
peak() {
    sed -n 's/^VmHWM:[^0-9]*\([0-9]*\) kB$/\1/p' "/proc/$service/status"
}
before=$(peak)
same "ten thousand connections" 10000 "$(python3 "$clients" storm "$port" "$path" "$first" "$second_path" "$pod" 20 50)"
grown=$(($(peak) - before))
checks=$((checks + 1))
[ $grown -le 1024 ] || fail "the service took $grown KB more"

# One of two connections, of which the first fails, ends with the fault of that connection.
two=$(python3 "$clients" port)
"$rkt" metadata-service "127.0.0.1:$two" 2 >"$tmp/two" 2>&1 &
counted=$!
python3 "$clients" hang "$two" 60 >"$tmp/hung"
same "the second connection is served" 1 "$(python3 "$clients" crowd "$two" "$path" 1 1 "$first")"
wait $counted
same "the fault of the first is told in the end" "13|rkt: link fault" "$?|$(cat "$tmp/two")"

# An address that can't be had, and words that are none.
expect "an address in use" 13 '' 'rkt: link fault' "$rkt" metadata-service "$address" 1
expect "no address" 13 '' 'rkt: link fault' "$rkt" metadata-service nowhere 1
expect "no count" 1 '' 'rkt: usage' "$rkt" metadata-service "$address"
expect "a count of 0" 1 '' 'rkt: usage' "$rkt" metadata-service "$address" 0
expect "a count past the limit" 1 '' 'rkt: usage' "$rkt" metadata-service "$address" 65536

# Once a pod has ended its token names none.
: >"$first_root/end"
for _ in $(seq 200); do
    [ "$("$rkt" status "$first" | head -n 1)" = state=exited ] && break
    sleep 0.05
done
same "the first pod is exited" state=exited "$("$rkt" status "$first" | head -n 1)"
same "and its token names no pod" 404 "$(code -H "$flavor" "$first_url/acMetadata/v1/pod/uuid")"
same "what it signed is verified still" 200 "$(code -H "$flavor" --data-urlencode 'content=an order of 5' --data-urlencode "uuid=$first" --data-urlencode "signature=$signature" "$verify")"
: >"$root/end"
wait $runs
same "the apps ended well" "app-first=0 app-second=0" "$(cat "$tmp/first-ran") $(cat "$tmp/second-ran")"
checks=$((checks + 1))
kill -0 $service 2>/dev/null || fail "the service ended: $(cat "$tmp/served")"

# README's lines on the identity of apps, as they stand there.
if ! python3 "$clients" free 18112; then
    skip "README's lines on the identity of apps: the port 18112 is in use"
elif ! command -v tar >/dev/null || ! command -v sha512sum >/dev/null; then
    skip "README's lines on the identity of apps: there is no tar or no sha512sum"
else
    lines=$(sed -n '/^## Identity for apps/,/^## See/p' README.md | sed -n 's/^    \([a-z]\)/\1/p' | sed 's/  *# [^"]*$//')
    same "README's lines" 5 "$(wc -l <<<"$lines")"
    mkdir -p "$tmp/readme/build" "$tmp/readme/root/bin"
    cp "$rkt" "$tmp/readme/build/rkt"
    ln -s "$PWD/contrib" "$tmp/readme/contrib"
    (
        cd "$tmp/readme" || exit 1
        RKT_DIR=$tmp/readme/data
        # The service listens before the app asks.
        while IFS= read -r line; do
            [[ $line != *' run '* ]] || python3 "$clients" wait 18112
            eval "$line"
        done <<<"$lines"
        kill %1
    ) >"$tmp/told" 2>"$tmp/said" </dev/null
    key=$(sed -n 1p "$tmp/told")
    uuid=$(sed -n 2p "$tmp/told")
    same "README's app is told its pod's uuid" "$key $uuid $uuid app-who=0" "$(tr '\n' ' ' <"$tmp/told" | sed 's/ $//')"
    same "README's image has a key" 71 "${#key}"
    same "README's pod has a uuid" 36 "${#uuid}"
fi

finish
