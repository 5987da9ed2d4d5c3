#!/usr/bin/env bash
# The built program on a store and pods of this host, killed at random times and at single calls of the system, and
# with single calls that fail: afterwards each pod's phase is one that its history allows, each listed image and each
# prepared pod is whole (recomputed by wholeness.py), one sweep of each kind leaves nothing dead, and no app of a living
# pod lost a file. With RKT_LOSSES=long it kills 1,000 commands and tries each call (of
# one that is made more than 16 times 16 of them); else it kills 150 and tries 40 calls.
set -u
unset RKT_DIR
cd "$(dirname "$0")/../.." || exit 1

# In memory where programs may run there: the kills need no disk, and on one most of the time goes to syncs.
if probe=$(mktemp -p /dev/shm 2>/dev/null); then
    printf '#!/bin/sh\n' >"$probe"
    chmod 755 "$probe"
    ! "$probe" 2>/dev/null || export TMPDIR=/dev/shm
    rm -f "$probe"
fi
. tests/host/checks.bash

if ! command -v python3 >/dev/null; then
    skip 'all: there is no python3'
    exit 0
fi

seed=${RKT_SEED:-29}
kills=150
calls=40
if [ "${RKT_LOSSES:-}" = long ]; then
    kills=1000
    calls=all
fi
if ! command -v strace >/dev/null || ! strace -qq -o /dev/null true 2>/dev/null; then
    skip 'kills and failures at single calls of the system: there is no strace, or it may not trace'
    calls=0
fi

tmp=$(cd "$tmp" && pwd -P)
rkt=$tmp/rkt-program
python3 tests/host/losses.py "$rkt" "$tmp/work" "$seed" "$kills" "$calls" | tee "$tmp/told" | grep -v ' checks, '
told=$(tail -n 1 "$tmp/told")
case $told in
    *' checks, '*' failed')
        checks=${told%% *}
        failures=${told#*, }
        failures=${failures% failed}
        ;;
    *) fail 'it ended early' ;;
esac
# Read by checks.bash.
export checks failures
finish
