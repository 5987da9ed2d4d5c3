#!/usr/bin/env bash
# The built program on manifests of this host: what `validate` prints of good ones, of bad ones, and of
# paths at which no file stands or can be read.
set -u
cd "$(dirname "$0")/../.." || exit 1
. tests/host/checks.bash

# A tracer names paths without links.
tmp=$(cd "$tmp" && pwd -P)

export RKT_DIR=$tmp/data
mkdir "$tmp/work"
cd "$tmp/work" || exit 1

# valid NAME LINE TEXT
valid() {
    printf '%s' "$3" >m.json
    expect "$1" 0 "$2" '' "$rkt" validate m.json
}

# bad NAME PATH NUMBER TEXT
bad() {
    printf '%s' "$4" >m.json
    expect "$1" 6 '' "rkt: bad manifest at $2: refusal $3" "$rkt" validate m.json
}

# no_file NAME PATH
no_file() {
    expect "$1" 15 '' "rkt: no file: $2" "$rkt" validate "$2"
}

repeated() {
    printf "$1%.0s" $(seq "$2")
}

id=sha512-$(repeated a 128)
head='"acKind":"ImageManifest","acVersion":"0.8.0"'
pod='"acKind":"PodManifest","acVersion":"0.8.0"'

# Manifests after the examples of the App Container specification.
valid 'a base image' 'valid ImageManifest example.com/base' \
    "{$head,\"name\":\"example.com/base\",\"labels\":[{\"name\":\"version\",\"value\":\"1.0.0\"},{\"name\":\"os\",\"value\":\"linux\"},{\"name\":\"arch\",\"value\":\"amd64\"}]}"
cat >worker.json <<E
{
    "acKind": "ImageManifest",
    "acVersion": "0.8.11",
    "name": "example.com/reduce-worker",
    "labels": [
        { "name": "version", "value": "1.0.0" },
        { "name": "arch", "value": "amd64" },
        { "name": "os", "value": "linux" }
    ],
    "app": {
        "exec": ["/usr/bin/reduce-worker", "--quiet"],
        "user": "100",
        "group": "300",
        "supplementaryGIDs": [400, 500],
        "eventHandlers": [
            { "name": "pre-start", "exec": ["/usr/bin/data-downloader"] },
            { "name": "post-stop", "exec": ["/usr/bin/deregister-worker", "--verbose"] }
        ],
        "workingDirectory": "/opt/work",
        "environment": [{ "name": "REDUCE_WORKER_DEBUG", "value": "true" }],
        "isolators": [
            { "name": "resource/cpu", "value": { "request": "20m", "limit": "20m" } },
            { "name": "os/linux/capabilities-retain-set", "value": { "set": ["CAP_NET_BIND_SERVICE"] } }
        ],
        "mountPoints": [{ "name": "work", "path": "/var/lib/work", "readOnly": true }],
        "ports": [
            { "name": "health", "protocol": "tcp", "port": 4000, "socketActivated": true },
            { "name": "data", "protocol": "udp", "port": 5000, "count": 16 }
        ]
    },
    "dependencies": [
        {
            "imageName": "example.com/reduce-worker-base",
            "imageID": "$id",
            "labels": [{ "name": "os", "value": "linux" }],
            "size": 22017258
        }
    ],
    "pathWhitelist": ["/etc/ca/example.com/crt", "/usr/bin/map-reduce-worker", "/opt/", "/"],
    "annotations": [
        { "name": "authors", "value": "Carly Container, Nat Network" },
        { "name": "created", "value": "2014-10-27T19:32:27.67021798Z" },
        { "name": "homepage", "value": "https://example.com/" }
    ]
}
E
expect 'a whole image' 0 'valid ImageManifest example.com/reduce-worker' '' "$rkt" validate worker.json
cat >pod.json <<E
{
    "acVersion": "0.8.11",
    "acKind": "PodManifest",
    "apps": [
        {
            "name": "reduce-worker",
            "image": { "name": "example.com/reduce-worker", "id": "$id", "labels": [{ "name": "version", "value": "1.0.0" }] },
            "app": { "exec": ["/bin/reduce-worker"], "user": "0", "group": "0", "mountPoints": [{ "name": "data", "path": "/mnt/foo" }] },
            "readOnlyRootFS": true,
            "mounts": [{ "volume": "worklib", "path": "/mnt/foo" }],
            "annotations": [{ "name": "foo", "value": "baz" }]
        },
        { "name": "backup", "image": { "id": "$id" }, "mounts": [{ "volume": "worklib", "path": "/mnt/bar" }] },
        { "name": "register", "image": { "id": "$id" } }
    ],
    "volumes": [
        { "name": "worklib", "kind": "host", "source": "/opt/tenant1/work", "readOnly": true },
        { "name": "scratch", "kind": "empty", "mode": "0755", "uid": 0, "gid": 0 }
    ],
    "isolators": [{ "name": "resource/memory", "value": { "limit": "4G" } }],
    "annotations": [{ "name": "ip-address", "value": "10.1.2.3" }],
    "ports": [{ "name": "ftp", "hostPort": 2121 }]
}
E
expect 'a whole pod' 0 'valid PodManifest 3' '' "$rkt" validate pod.json
valid 'no apps' 'valid PodManifest 0' "{$pod,\"apps\":[]}"
valid 'the last of two keys counts' 'valid ImageManifest b' "{$head,\"name\":\"A\",\"name\":\"b\"}"
valid 'null counts as absent' 'valid ImageManifest a' "{$head,\"name\":\"a\",\"app\":null,\"labels\":null}"

# The document.
bad 'an open brace' '$' 20 '{'
bad 'nothing' '$' 20 ''
bad 'no UTF-8' '$' 20 $'{"acKind":"\xff"}'
bad 'no object' '$' 10 '[]'
bad 'no kind' acKind 9 '{}'
bad 'another kind' acKind 21 '{"acKind":"Other"}'
bad 'a kind that is no text' acKind 10 '{"acKind":1}'
bad 'no version' acVersion 9 '{"acKind":"PodManifest"}'
bad 'a bad version' acVersion 22 '{"acKind":"PodManifest","acVersion":"8"}'
bad 'nested 128 deep' '$' 20 "{$head,\"name\":\"a\",\"x\":$(repeated '[' 127)$(repeated ']' 127)}"
valid 'nested 127 deep' 'valid ImageManifest a' "{$head,\"name\":\"a\",\"x\":$(repeated '[' 126)$(repeated ']' 126)}"
sized() {
    printf '%s' "{$pod,\"apps\":[]}" >"$1"
    truncate -s "$2" "$1"
    tr '\0' ' ' <"$1" >"$1.padded"
}
sized longest 1048576
expect '1,048,576 bytes' 0 'valid PodManifest 0' '' "$rkt" validate longest.padded
sized longer 1048577
expect '1,048,577 bytes' 6 '' 'rkt: bad manifest at $: refusal 25' "$rkt" validate longer.padded
sized much_longer 50000000
expect 'fifty million bytes' 6 '' 'rkt: bad manifest at $: refusal 25' "$rkt" validate much_longer.padded

# The fields.
labels() {
    bad "labels $1" "$2" "$3" "{$head,\"name\":\"a\",\"labels\":$1}"
}
labels '[{"name":"name","value":"x"}]' 'labels[0].name' 6
labels '[{"name":"version","value":"1"},{"name":"version","value":"2"}]' 'labels[1].name' 5
labels '[{"name":"os","value":"linux"},{"name":"arch","value":"x86_64"}]' 'labels[1].value' 8
labels '[{"name":"os","value":"plan9"}]' 'labels[0].value' 7
labels '[{"name":"name","value":"x"},{"name":"version","value":"1"},{"name":"version","value":"2"}]' 'labels[0].name' 6
labels '[{"value":"x"}]' 'labels[0].name' 9
labels '[{"name":"","value":"x"}]' 'labels[0].name' 9
valid 'arch alone' 'valid ImageManifest a' "{$head,\"name\":\"a\",\"labels\":[{\"name\":\"arch\",\"value\":\"x86_64\"}]}"
app() {
    printf '%s' "{$head,\"name\":\"a\",\"app\":{\"user\":\"0\",\"group\":\"0\",$1}}"
}
port() {
    app "\"ports\":[{\"name\":\"p\",\"protocol\":\"tcp\",$1}]"
}
valid 'the last port' 'valid ImageManifest a' "$(port '"port":65535,"count":1')"
bad 'past the last port' 'app.ports[0]' 15 "$(port '"port":65535,"count":2')"
bad 'no such port' 'app.ports[0].port' 12 "$(port '"port":65536')"
bad 'half a port' 'app.ports[0].port' 11 "$(port '"port":1.5')"
bad 'no user' app.user 9 "{$head,\"name\":\"a\",\"app\":{\"group\":\"0\"}}"
bad 'a relative working directory' app.workingDirectory 14 "$(app '"workingDirectory":"opt"')"
bad 'a bad variable' 'app.environment[0].name' 13 "$(app '"environment":[{"name":"1A","value":""}]')"
bad 'a bad handler' 'app.eventHandlers[0].name' 16 "$(app '"eventHandlers":[{"name":"stop","exec":["/x"]}]')"
bad 'a mount point twice' 'app.mountPoints[1].name' 17 "$(app '"mountPoints":[{"name":"m","path":"/a"},{"name":"m","path":"/b"}]')"
bad 'a bad image ID' 'dependencies[0].imageID' 3 "{$head,\"name\":\"a\",\"dependencies\":[{\"imageName\":\"b\",\"imageID\":\"sha512-ab\"}]}"
bad 'a bad name' name 2 "{$head,\"name\":\"A\"}"
bad 'a path with dots' 'pathWhitelist[0]' 31 "{$head,\"name\":\"a\",\"pathWhitelist\":[\"/a/..\"]}"
bad 'a relative path' 'pathWhitelist[1]' 30 "{$head,\"name\":\"a\",\"pathWhitelist\":[\"/a\",\"b\"]}"
bad 'an app twice' 'apps[1].name' 24 "{$pod,\"apps\":[{\"name\":\"a\",\"image\":{\"id\":\"$id\"}},{\"name\":\"a\",\"image\":{\"id\":\"$id\"}}]}"
bad 'a volume without a source' 'volumes[0]' 23 "{$pod,\"apps\":[],\"volumes\":[{\"name\":\"v\",\"kind\":\"host\"}]}"

# Paths.
no_file 'a missing file' x
no_file 'a missing folder' x/y
no_file 'a folder' "$tmp/work"
no_file 'the current folder' .
no_file 'below a file' pod.json/x
cp pod.json "$tmp/m.json"
expect 'a file of the folder above' 0 'valid PodManifest 3' '' "$rkt" validate ../m.json
expect 'an absolute path' 0 'valid PodManifest 3' '' "$rkt" validate "$tmp/m.json"
cp pod.json ./-pod.json
expect 'a file that begins with a hyphen' 0 'valid PodManifest 3' '' "$rkt" validate ./-pod.json
ln -s ../m.json link.json
expect 'a link to a file' 0 'valid PodManifest 3' '' "$rkt" validate link.json
ln -s nowhere broken.json
no_file 'a link to nothing' broken.json
no_file 'a device' /dev/null
if command -v mkfifo >/dev/null; then
    mkfifo pipe
    expect 'a pipe' 15 '' 'rkt: no file: pipe' timeout 20 "$rkt" validate pipe
else
    skip 'a pipe: there is no mkfifo'
fi
from_pipe() { cat pod.json | timeout 20 "$rkt" validate /dev/stdin; }
if [ -L /dev/stdin ]; then
    expect 'a pipe behind a link' 15 '' 'rkt: no file: /dev/stdin' from_pipe
else
    skip 'a pipe behind a link: there is no /dev/stdin'
fi
expect 'a path that is too long' 10 '' 'rkt: bundle fault' "$rkt" validate "$(repeated x 5000)"
as_user=()
if [ "$(id -u)" -eq 0 ]; then
    as_user=(setpriv --reuid=65534 --regid=65534 --clear-groups)
fi
if [ ${#as_user[@]} -eq 0 ] || "${as_user[@]}" "$rkt" --version >/dev/null 2>&1; then
    cp pod.json secret.json
    "$rkt" validate pod.json >/dev/null
    chmod 755 . "$RKT_DIR"
    chmod 000 secret.json
    expect 'a file that may not be read' 10 '' 'rkt: bundle fault' "${as_user[@]}" "$rkt" validate secret.json
else
    skip 'a file that may not be read: root may read all, and there is no setpriv'
fi

# A file that another is moved over between its two pieces: what was opened is read to its end, and the next process reads
# the other. The system lets the program wait five seconds behind its first read.
long() {
    printf '%s' "{$head,$(repeated ' ' 100000)\"name\":\"$1\"}"
}
replaced() {
    local place=$PWD/long.json pid
    long old >long.json
    long new >new.json
    timeout 60 strace -qq -o trace -P "$place" -e trace=pread64 -e inject=pread64:delay_exit=5000000:when=1 \
        "$rkt" validate long.json >out 2>&1 </dev/null &
    for _ in {1..500}; do
        for pid in $(pgrep -f "^$rkt validate long.json\$"); do
            ! readlink "/proc/$pid/fd/"* 2>/dev/null | grep -qxF "$place" || break 2
        done
        sleep 0.01
    done
    mv new.json long.json
    wait $!
    same 'a file that is replaced is read to its end' 'valid ImageManifest old' "$(cat out)"
    expect 'the other is read from its start' 0 'valid ImageManifest new' '' "$rkt" validate long.json
}
if command -v strace >/dev/null && strace -qq -o /dev/null true 2>/dev/null; then
    replaced
else
    skip 'a file that is replaced: there is no strace, or it may not trace'
fi

# The words, the streams, and the data folder.
expect 'no file named' 1 '' 'rkt: usage' "$rkt" validate
expect 'an empty word' 1 '' 'rkt: usage' "$rkt" validate ''
expect 'two files' 1 '' 'rkt: usage' "$rkt" validate pod.json pod.json
expect 'an option' 1 '' 'rkt: usage' "$rkt" validate --strict
expect 'a name that begins with a hyphen' 1 '' 'rkt: usage' "$rkt" validate -m.json
mkdir hyphens
"$rkt" validate pod.json >valid
cp pod.json ./-m.json
cp pod.json hyphens/--help
expect 'the same behind --' 0 "$(cat valid)" '' "$rkt" validate -- -m.json
expect 'the same with its folder' 0 "$(cat valid)" '' "$rkt" validate ./-m.json
expect 'no file named --help' 15 '' 'rkt: no file: --help' "$rkt" validate -- --help
expect 'a file in a folder named --help' 0 "$(cat valid)" '' "$rkt" validate hyphens/--help
to_full() { "$@" >/dev/full; }
if [ -c /dev/full ]; then
    expect 'a full output' 12 '' 'rkt: output fault' to_full "$rkt" validate pod.json
    expect 'a full output that nothing is written to' 15 '' 'rkt: no file: x' to_full "$rkt" validate x
else
    skip 'full streams: there is no /dev/full'
fi
# Of the data folder it makes the missing areas, as every command does, and touches nothing in them.
rm -rf "$RKT_DIR"
"$rkt" validate pod.json >/dev/null
mkdir "$RKT_DIR/pods/run/00000000-0000-4000-8000-000000000001"
before=$(find "$RKT_DIR" -printf '%p %y %m %i %T@ %C@\n' 2>/dev/null | sort)
expect 'beside pods' 0 'valid PodManifest 3' '' "$rkt" validate pod.json
expect 'nothing in the data folder changes' 0 "$before" '' sh -c 'find "$0" -printf "%p %y %m %i %T@ %C@\n" 2>/dev/null | sort' "$RKT_DIR"

finish
