# Words of rkt for bash: commands, options, pods by area, images and keys. Written by docs/words.py from docs/words.table.
_rkt_pods() {
    local area
    for area in "$@"; do ls "${RKT_DIR:-rkt}/pods/$area" 2>/dev/null; done | grep -x '[0-9a-f-]*'
}

_rkt_keys() {
    ls "${RKT_DIR:-rkt}/store/images" 2>/dev/null | grep -x 'sha512-[0-9a-f]*'
}

# Nothing is asked of the program where there is no data folder, since it would make one.
_rkt_images() {
    [ ! -d "${RKT_DIR:-rkt}" ] || "$1" image list 2>/dev/null | cut -d ' ' -f 2 | sort -u
}

_rkt_files() {
    local file
    while IFS= read -r file; do COMPREPLY+=("$file"); done < <(compgen "$1" -- "$2")
    compopt -o filenames 2>/dev/null
}

_rkt() {
    local program=$1 current=${COMP_WORDS[COMP_CWORD]} before=${COMP_WORDS[COMP_CWORD - 1]} command='' words='' options='' word
    COMPREPLY=()
    [ "$COMP_CWORD" -lt 2 ] || command=${COMP_WORDS[1]}
    [ "$command" != image ] || [ "$COMP_CWORD" -lt 3 ] || command="image ${COMP_WORDS[2]}"
    case $current$before in *=) return ;; esac
    case $before in --volume | --mount | --metadata | --grace-period | --expire-prepared) return ;; esac
    case $command in
    '') words='image prepare run-prepared run list status cat-manifest rm gc metadata-service validate demo help'; options='--help --version' ;;
    image) words='import list rm gc'; options=--help ;;
    'image import') options='--help'; case $current in -*) ;; *) _rkt_files -d "$current"; return ;; esac ;;
    'image list') options='--help' ;;
    'image rm') options='--help'; words=$(_rkt_keys) ;;
    'image gc') options='--help' ;;
    'prepare') options='--volume= --mount= --help'; words=$(_rkt_images "$program") ;;
    'run-prepared') options='--metadata= --help'; words=$(_rkt_pods prepared) ;;
    'run') options='--volume= --mount= --metadata= --help'; words=$(_rkt_images "$program") ;;
    'list') options='--help' ;;
    'status') options='--help'; words=$(_rkt_pods embryo prepare prepared run exited-garbage garbage) ;;
    'cat-manifest') options='--help'; words=$(_rkt_pods prepare prepared run exited-garbage garbage) ;;
    'rm') options='--help'; words=$(_rkt_pods prepare prepared run exited-garbage garbage) ;;
    'gc') options='--grace-period= --expire-prepared= --help' ;;
    'metadata-service') options='--help' ;;
    'validate') options='--help'; case $current in -*) ;; *) _rkt_files -f "$current"; return ;; esac ;;
    'demo') options='--help' ;;
    esac
    case $current in -*) words=$options ;; esac
    while IFS= read -r word; do COMPREPLY+=("$word"); done < <(compgen -W "$words" -- "$current")
    case ${COMPREPLY[0]-} in *=) compopt -o nospace 2>/dev/null ;; esac
}
complete -F _rkt rkt
