#!/bin/sh
# Times the calls of path_map and tree_digest at large sizes, and sha512sum on the same
# listing. It takes the built program `host_tools`, which `rt run` in crates/host_tools leaves.
program=${1:-crates/host_tools/out/host_tools}
for words in "lay 16384" "lay 65536" "lay 262144" "keep 65536" "keep 262144" "read 65536" "links 16384" "links 65536" "deep 0" "deep 3400" "deep 6800"; do
    echo "== $words"
    # shellcheck disable=SC2086
    /usr/bin/time -f '%U s of processor, %M KiB' "$program" measure $words
done
listing=$(mktemp)
awk 'BEGIN {
    for (i = 0; i < 480; i++) target = target "x"
    for (i = 0; i < 65536; i++) printf "l 0777 0 0 %s /l%08x\n", target, i
}' > "$listing"
echo "== sha512sum"
/usr/bin/time -f '%U s of processor, %M KiB' sha512sum "$listing"
rm -f "$listing"
