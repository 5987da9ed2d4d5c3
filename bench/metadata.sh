#!/usr/bin/env bash
# Times the metadata service: requests a second for a pod's uuid and for its manifest, one connection each, by `ab` with one
# and with twenty clients, beside busybox httpd and nginx, each of which serves a file with the same text. Prints for each the
# median of five runs, and the greatest memory of rkt. The program has to be built (make, or rt ci); needs ab, and of the
# two others those that are installed are measured.
set -eu
cd "$(dirname "$0")/.."
program=$PWD/crates/rkt/out/rkt
[ -x "$program" ] || { echo "bench/metadata.sh: build the program first (make)" >&2; exit 1; }
command -v ab >/dev/null || { echo "bench/metadata.sh: needs ab" >&2; exit 1; }
requests=${1:-2000}
work=$(mktemp -d)
stop() {
    # shellcheck disable=SC2046
    kill $(jobs -p) 2>/dev/null || true
    chmod -R u+rwx "$work"
    rm -rf "$work"
}
trap stop EXIT
export RKT_DIR=$work/data

free_port() {
    python3 -c 'import socket; s = socket.socket(); s.bind(("127.0.0.1", 0)); print(s.getsockname()[1])'
}

# A pod that runs until a file `end` stands in its root.
mkdir -p "$work/bundle/rootfs/bin"
printf '#!/bin/sh\nwhile [ ! -e end ]; do sleep 0.1; done\n' >"$work/bundle/rootfs/bin/run"
chmod 755 "$work/bundle/rootfs/bin/run"
echo "{\"acKind\":\"ImageManifest\",\"acVersion\":\"0.8.11\",\"name\":\"example.com/app\",\"app\":{\"exec\":[\"/bin/run\"],\"user\":\"0\",\"group\":\"0\",\"environment\":[{\"name\":\"PATH\",\"value\":\"$PATH\"}]}}" >"$work/bundle/manifest"
printf 'sha512-%0128d\n' 1 >"$work/bundle/id"
"$program" image import "$work/bundle" >/dev/null
pod=$("$program" prepare example.com/app)
"$program" run-prepared "$pod" >/dev/null &
while [ ! -d "$RKT_DIR/pods/run/$pod" ]; do sleep 0.05; done
token=$(cat "$RKT_DIR/pods/run/$pod/token")

# second PORT PATH CLIENTS: the requests of a second, in the middle of five runs.
second() {
    for _ in 1 2 3 4 5; do
        ab -q -n "$requests" -c "$3" -H 'Metadata-Flavor: AppContainer' "http://127.0.0.1:$1$2" 2>/dev/null |
            awk '/Failed requests/ { failed = $3 } /Non-2xx/ { failed += $3 } /Requests per second/ { printf "%d %d\n", $4, failed }'
    done | sort -n | sed -n 3p
}

# row NAME PORT PATH
row() {
    for clients in 1 20; do
        read -r rate failed <<<"$(second "$2" "$3" $clients)"
        echo "| $1, $clients at once | $rate a second | $failed failed |"
    done
}

port=$(free_port)
(ulimit -c 0; exec "$program" metadata-service "127.0.0.1:$port" 65535) &
service=$!
sleep 0.3
mkdir -p "$work/www"
printf '%s' "$pod" >"$work/www/uuid"
curl -sS --noproxy '*' -H 'Metadata-Flavor: AppContainer' "http://127.0.0.1:$port/$token/acMetadata/v1/pod/manifest" >"$work/www/manifest"
row 'rkt, a uuid' "$port" "/$token/acMetadata/v1/pod/uuid"
row 'rkt, a manifest' "$port" "/$token/acMetadata/v1/pod/manifest"
echo "| rkt's greatest memory | $(awk '/VmHWM/ { print $2 }' "/proc/$service/status") kB | |"
if command -v busybox >/dev/null && busybox httpd --help 2>&1 | grep -q 'Listen\|httpd'; then
    other=$(free_port)
    busybox httpd -f -p "127.0.0.1:$other" -h "$work/www" &
    sleep 0.3
    row 'busybox httpd, a file' "$other" /uuid
fi
if command -v nginx >/dev/null; then
    other=$(free_port)
    printf 'daemon off; master_process off; error_log /dev/null; pid %s/pid; events {} http { access_log off; keepalive_timeout 0; server { listen 127.0.0.1:%s; root %s/www; } }\n' "$work" "$other" "$work" >"$work/nginx.conf"
    chmod 755 "$work"
    nginx -c "$work/nginx.conf" 2>/dev/null &
    sleep 0.5
    row 'nginx, a file' "$other" /uuid
fi
touch "$RKT_DIR/pods/run/$pod/stage1/rootfs/opt/stage2/app/rootfs/end"
