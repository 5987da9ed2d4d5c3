#!/usr/bin/env bash
# The words of the program: that what is written from docs/words.table is what stands in the repository; that the built
# program prints these texts for --help in each of its forms, and for no others; that the man page is one; and that the
# shells complete the words.
set -u
unset RKT_DIR
cd "$(dirname "$0")/../.." || exit 1
without_program=yes
. tests/host/checks.bash

texts=crates/rkt/src/texts.rt

# text NAME: the text of a constant of the program.
text() {
    sed -n "/const $1: &str = \"\\\\\$/,/^\";\$/p" "$texts" | sed '1d;$d'
}

# The names of the commands, in the table's order.
commands() {
    sed -n 's/^command //p' docs/words.table
}

# What is written from the table.
if command -v python3 >/dev/null; then
    python3 docs/words.py "$tmp/written" || fail 'docs/words.py ended badly'
    for file in $texts docs/rkt.1 README.md dist/completion/rkt.bash dist/completion/_rkt; do
        checks=$((checks + 1))
        cmp "$file" "$tmp/written/$file" || fail "$file isn't what docs/words.table says: run 'make words'"
    done
else
    skip 'what is written from the table: there is no python3'
fi

# printed NAME WORD..: the program prints the text of that name, and nothing is made.
printed() {
    local name=$1
    shift
    checks=$((checks + 1))
    [ -n "$(text "$name")" ] || fail "$texts has no text $name"
    RKT_DIR=$tmp/none expect "rkt $*" 0 "$(text "$name")" '' "$rkt" "$@"
}

usage() {
    RKT_DIR=$tmp/data expect "usage: rkt $*" 1 '' 'rkt: usage' "$rkt" "$@"
}

if [ -x "$rkt" ]; then
    for word in --help -h help; do printed HELP $word; done
    printed IMAGE image --help
    while IFS= read -r name; do
        constant=$(tr 'a-z -' 'A-Z__' <<<"$name")
        # The words of a name are apart: image import.
        # shellcheck disable=SC2086
        printed "$constant" $name --help
    done < <(commands)
    RKT_DIR=$tmp/none expect 'rkt --version' 0 "rkt $(sed -n 's/^version //p' docs/words.table)" '' "$rkt" --version
    checks=$((checks + 1))
    [ ! -e "$tmp/none" ] || fail 'the help made a data folder'

    usage --help x
    usage --help --help
    usage --help status
    usage help status
    usage help --help
    usage -h x
    usage -h --help
    usage --version x
    usage --Help
    usage -help
    usage Help
    usage -H
    usage -- --help
    usage '--help '
    usage --help=status
    usage status --help x
    usage status x --help
    usage status -h
    usage status help
    usage status -- --help
    usage status --help=
    usage --help image
    usage image -h
    usage image help
    usage image --help x
    usage image import -h
    usage image import --help x
    usage image frob --help
    usage image --help import
    usage import --help
    usage frob --help
    usage '' --help
else
    skip 'what the program prints: it is not built'
fi

# The man page, as groff reads it.
if command -v groff >/dev/null; then
    same 'docs/rkt.1 as groff reads it' '' "$(groff -t -man -z -ww docs/rkt.1 2>&1)"
else
    skip 'the man page: there is no groff'
fi

# completed WORD..: what bash offers for the last word.
completed() {
    COMP_WORDS=("$@")
    COMP_CWORD=$(($# - 1))
    COMPREPLY=()
    _rkt "$1"
    echo "${COMPREPLY[*]}"
}

if type compgen >/dev/null 2>&1; then
    . dist/completion/rkt.bash
    export RKT_DIR=$tmp/pods
    pod=00000000-0000-4000-8000-000000000001
    key=sha512-$(printf 'a%.0s' {1..64})
    mkdir -p "$RKT_DIR/pods/prepared/$pod" "$RKT_DIR/pods/run/${pod%1}2" "$RKT_DIR/pods/run/\$(touch made)" "$RKT_DIR/store/images/$key"
    same 'bash: each first word' "$(commands | sed 's/ .*//' | uniq | tr '\n' ' ')help" "$(completed rkt '')"
    same 'bash: a command' status "$(completed rkt st)"
    same 'bash: two commands' 'run-prepared run' "$(completed rkt ru)"
    same 'bash: the options of rkt' '--help --version' "$(completed rkt -)"
    same 'bash: the words behind image' 'import list rm gc' "$(completed rkt image '')"
    same 'bash: a word behind image' import "$(completed rkt image im)"
    same 'bash: an option' --grace-period= "$(completed rkt gc --g)"
    same 'bash: each option' '--volume= --mount= --metadata= --help' "$(completed rkt run -)"
    same 'bash: the value of an option' '' "$(completed rkt run --volume = '')"
    same 'bash: the value of an option, in two words' '' "$(completed rkt gc --grace-period '')"
    same 'bash: a prepared pod' $pod "$(completed rkt run-prepared 0)"
    same 'bash: pods' "$pod ${pod%1}2" "$(completed rkt rm 0)"
    same 'bash: a key' "$key" "$(completed rkt image rm s)"
    same 'bash: a folder' dist "$(completed rkt image import dis)"
    same 'bash: a file' docs/words.table "$(completed rkt validate docs/words.t)"
    same 'bash: no such command' '' "$(completed rkt frob '')"
    same 'bash: no name is run' '' "$(ls made 2>/dev/null)"
    unset RKT_DIR
else
    skip 'what bash completes: this bash has no compgen'
fi
if command -v zsh >/dev/null; then
    same 'zsh reads its completion' '' "$(zsh -n dist/completion/_rkt 2>&1)"
else
    skip 'whether zsh reads its completion: there is no zsh'
fi
finish
