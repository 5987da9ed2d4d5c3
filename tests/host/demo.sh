#!/usr/bin/env bash
# The built program's demo: its line for the fewest and the most images, and that it touches no data folder but to make it.
set -u
unset RKT_DIR
cd "$(dirname "$0")/../.." || exit 1
. tests/host/checks.bash

export RKT_DIR=$tmp/data

expect 'one image' 0 'images=1 prepared=1 ran=1 failed=0 deleted=1 left=0 entries=2' '' "$rkt" demo 1
expect 'a hundred images' 0 'images=100 prepared=100 ran=34 failed=17 deleted=34 left=66 entries=680' '' "$rkt" demo 100
same 'nothing stands in the data folder' '' "$(cd "$RKT_DIR" && find . -type f)"
same 'no pod and no image' '' "$("$rkt" list; "$rkt" image list)"
for word in 0 101 07 -1 x ''; do
    expect "no number: '$word'" 1 '' 'rkt: usage' "$rkt" demo "$word"
done
expect 'no word' 1 '' 'rkt: usage' "$rkt" demo
expect 'two words' 1 '' 'rkt: usage' "$rkt" demo 1 2

finish
