#!/usr/bin/env bash
# The built program on a store and a pod of this host, each of whose growths of memory is refused in turn: it ends with 14, or as if
# nothing had been refused where the growth was for a message alone; no image is lost, and one sweep of each kind leaves nothing dead.
# The metadata service runs beside a pod that another process runs: it writes the reply to its connection or a beginning of it.
# The demo of a hundred images whose 5,000th growth is refused ends with 14 and prints nothing. With RKT_MEMORY=long it refuses each
# growth of each command, else twelve of each.
set -u
unset RKT_DIR
cd "$(dirname "$0")/../.." || exit 1

# In memory where programs may run there: on a disk most of the time goes to syncs.
if probe=$(mktemp -p /dev/shm 2>/dev/null); then
    printf '#!/bin/sh\n' >"$probe"
    chmod 755 "$probe"
    ! "$probe" 2>/dev/null || export TMPDIR=/dev/shm
    rm -f "$probe"
fi
. tests/host/checks.bash

for tool in python3 cc; do
    if ! command -v $tool >/dev/null; then
        skip "all: there is no $tool"
        exit 0
    fi
done

each=12
[ "${RKT_MEMORY:-}" != long ] || each=0
tmp=$(cd "$tmp" && pwd -P)
python3 tests/host/memory.py "$tmp/rkt-program" "$tmp/work" "$each" | tee "$tmp/told" | grep -v ' checks, '
told=$(tail -n 1 "$tmp/told")
case $told in
    'memory.py: '*' checks, '*' failed')
        checks=$(echo "$told" | cut -d' ' -f2)
        failures=$(echo "$told" | cut -d' ' -f4)
        ;;
    *) fail 'memory.py came to no end' ;;
esac
finish
