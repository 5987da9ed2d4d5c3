# What the scripts of this folder share: a copy of the built program in a folder of its own, and counted
# checks. It is read at the top of the repository. A script that has checks without a program sets
# without_program=yes before.
export LC_ALL=C
script=$(basename "$0")
program=${program:-rkt}
built=$PWD/crates/$program/out/$program
checks=0
failures=0

if [ ! -x "$built" ] && [ "${without_program-no}" = no ]; then
    echo "$script: $built is missing: build the program first" >&2
    exit 1
fi
tmp=$(mktemp -d) || exit 1
trap 'chmod -R u+rwx "$tmp"; rm -rf "$tmp"' EXIT
chmod 755 "$tmp"
rkt=$tmp/rkt-program
[ ! -x "$built" ] || cp "$built" "$rkt"

# What is skipped is also kept in the file that RKT_SKIPPED names, which is told at the end of the gate.
skip() {
    echo "$script: skipped: $1" | tee -a "${RKT_SKIPPED:-/dev/null}"
}

fail() {
    echo "$script: FAILED: $1" >&2
    failures=$((failures + 1))
}

# same NAME WANTED GIVEN
same() {
    checks=$((checks + 1))
    [ "$2" = "$3" ] || fail "$1: wanted '$2', got '$3'"
}

# expect NAME STATUS OUT ERR COMMAND..: OUT and ERR are whole lines, or empty.
expect() {
    local name=$1 wanted="$2|$3|$4" status out err
    shift 4
    "$@" >"$tmp/out" 2>"$tmp/err" 9<&-
    status=$?
    out=$(cat "$tmp/out" && echo .)
    err=$(cat "$tmp/err" && echo .)
    out=${out%.}
    err=${err%.}
    same "$name" "$wanted" "$status|${out%$'\n'}|${err%$'\n'}"
    case $out$err in
        '' | *$'\n') ;;
        *) fail "$name: the last line has no line feed" ;;
    esac
}

# first_line COMMAND..: the first line that the command prints, and its status.
first_line() {
    local all status
    all=$("$@")
    status=$?
    [ -z "$all" ] || echo "${all%%$'\n'*}"
    return $status
}

# How many checks there were, and whether none failed.
finish() {
    echo "$script: $checks checks, $failures failed"
    [ $failures -eq 0 ]
}
