#!/usr/bin/env bash
# The directory of a host among eight processes of `host_tools dir` at once, which make random calls on a few pods:
# some thousand short histories, for each of which an order of single steps has to be found that explains every answer
# (moments.py).
# With RKT_MOMENTS=long it goes on for ten minutes, else for forty seconds; RKT_SEED sets the seed, which is printed.
set -u
unset RKT_DIR
cd "$(dirname "$0")/../.." || exit 1
program=host_tools

# In memory where there is room: the calls need no disk.
if probe=$(mktemp -p /dev/shm 2>/dev/null); then
    printf '#!/bin/sh\n' >"$probe"
    chmod 755 "$probe"
    ! "$probe" 2>/dev/null || export TMPDIR=/dev/shm
    rm -f "$probe"
fi
. tests/host/checks.bash

if ! command -v python3 >/dev/null; then
    skip 'all: there is no python3'
    exit 0
fi

seconds=40
[ "${RKT_MOMENTS:-}" != long ] || seconds=600
python3 tests/host/moments.py "$rkt" "$tmp/work" "${RKT_SEED:-$RANDOM}" "$seconds" | tee "$tmp/told" | grep -v ' checks, '
told=$(tail -n 1 "$tmp/told")
case $told in
    *' checks, '*' failed')
        checks=${told%% *}
        failures=${told#*, }
        failures=${failures% failed}
        ;;
    *) fail 'it ended early' ;;
esac
# Read by checks.bash.
export checks failures
finish
