# shellcheck shell=bash
# Completes the arguments of jseg, pjseg, dictc and kumquatsieve-import in bash. It is
# installed under the name of each program, where bash-completion finds it.
#
# `cur` is the word that is completed, and `prev` the one before it. bash splits `--out=x` into
# three words.

_kumquatsieve_codes="C1 C2 C3 C4 C5 C6 C7 F1 F2 G1 G2 G3 G4 G5 I1 I2 I3
    K1 K2 K3 K4 K5 K6 K7 K8 K9 K10 L1 L2 L3 L4 L5 L6 L7 L8 M1 M2 M3 M4 Memory
    O1 O2 O3 P1 P2 P3 S1 S2 S3 S4 S5 U1 U2"
_kumquatsieve_encodings="utf-8 euc-jp euc-jis-2004 cp932 iso-2022-jp"

# Completes to those of the words in $1 that start with `cur`. `compgen -W` expands them, so they
# must be this file's own.
_kumquatsieve_of() {
    local IFS=$' \t\n'
    mapfile -t COMPREPLY < <(compgen -W "$1" -- "$cur")
}

# Completes to files and directories, as bash does without a function.
_kumquatsieve_files() {
    compopt -o default
}

_kumquatsieve_folders() {
    compopt -o dirnames
}

# Sets `image_dirs` to the directories of the user's images and of the images that are installed
# with a program: for PREFIX/bin/jseg these are PREFIX/var/lib/kumquatsieve, or
# /var/lib/kumquatsieve if PREFIX is /usr, and PREFIX/share/kumquatsieve.
_kumquatsieve_image_dirs() {
    local program prefix
    if [[ ${XDG_DATA_HOME-} = /* ]]; then
        image_dirs=("$XDG_DATA_HOME/kumquatsieve")
    elif [[ ${HOME-} = /* ]]; then
        image_dirs=("$HOME/.local/share/kumquatsieve")
    fi
    program=$(type -P -- "${COMP_WORDS[0]/#\~/$HOME}") || return 0
    program=$(readlink -f -- "$program") || return 0
    prefix=${program%/*/*}
    if [[ $prefix = /usr ]]; then
        image_dirs+=(/var/lib/kumquatsieve)
    else
        image_dirs+=("$prefix/var/lib/kumquatsieve")
    fi
    image_dirs+=("$prefix/share/kumquatsieve")
}

# Adds the names of the images in the image directories to `names`.
_kumquatsieve_names() {
    local folder image image_dirs=()
    _kumquatsieve_image_dirs
    for folder in "${image_dirs[@]}"; do
        for image in "$folder"/*.img; do
            [[ -f $image ]] || continue
            image=${image##*/}
            names+=("${image%.img}")
        done
    done
}

# Completes to images, by their files and by their names. A name is compared here, because
# `compgen -W` would expand it. readline quotes the word that it inserts, but not one with $, ` or
# ~, which the shell might be meant to expand; after an opening quote it quotes that too.
_kumquatsieve_image() {
    local name names=() typed=${cur//\\/}
    [[ $cur != [\"\']* ]] || typed=${cur:1}
    _kumquatsieve_names
    for name in "${names[@]}"; do
        [[ $name = "$typed"* ]] || continue
        [[ $cur != [\"\']* && $name = *[\$\`~]* ]] || COMPREPLY+=("$name")
    done
    if [[ ${#COMPREPLY[@]} = 0 ]]; then
        _kumquatsieve_files
    else
        mapfile -t -O "${#COMPREPLY[@]}" COMPREPLY < <(compgen -f -- "$cur")
        compopt -o filenames
    fi
}

# Sets `cur` and `prev`.
_kumquatsieve_words() {
    cur=${COMP_WORDS[COMP_CWORD]}
    prev=${COMP_WORDS[COMP_CWORD - 1]}
    if [[ $cur = = ]]; then
        cur=
    elif [[ $prev = = && $COMP_CWORD -gt 1 ]]; then
        prev=${COMP_WORDS[COMP_CWORD - 2]}
    fi
}

# Returns whether one of the words before `cur` is $1.
_kumquatsieve_has() {
    local word
    for word in "${COMP_WORDS[@]:1:COMP_CWORD-1}"; do
        [[ $word != "$1" ]] || return 0
    done
    return 1
}

_kumquatsieve_jseg() {
    local cur prev
    COMPREPLY=()
    _kumquatsieve_words
    case $prev in
    -d | -u) _kumquatsieve_image ;;
    --sources) _kumquatsieve_folders ;;
    -O) _kumquatsieve_of wakati ;;
    --lattice) _kumquatsieve_of "tsv dot" ;;
    --explain) _kumquatsieve_of "$_kumquatsieve_codes" ;;
    -M | -F | -U | -B | -E | --within) ;;
    *)
        _kumquatsieve_of "-d -u --sources --sample --dictionaries --skip-digest -M -O -F -U -B -E
            --lattice --within --why -v --explain -h --help -V --version"
        ;;
    esac
}

_kumquatsieve_pjseg() {
    local cur prev
    COMPREPLY=()
    _kumquatsieve_words
    case $prev in
    -d | -u) _kumquatsieve_image ;;
    -O) _kumquatsieve_of wakati ;;
    -j | -M | -F | -U | -B | -E) ;;
    *)
        _kumquatsieve_of "-d -u --test-digest --skip-digest --copy -j -M -O -F -U -B -E
            -v -h --help -V --version"
        ;;
    esac
}

_kumquatsieve_dictc() {
    local cur prev
    COMPREPLY=()
    _kumquatsieve_words
    case $prev in
    --matrix | --char | --unk | --out) _kumquatsieve_files ;;
    --dic | -u) _kumquatsieve_image ;;
    --explain) _kumquatsieve_of "$_kumquatsieve_codes" ;;
    *)
        case ${COMP_WORDS[1]}:$COMP_CWORD in
        -*:1) _kumquatsieve_of "--explain -h --help -V --version" ;;
        *:1) _kumquatsieve_of "system user ids help" ;;
        help:2) _kumquatsieve_of "system user ids" ;;
        ids:*) [[ $cur != -* ]] || _kumquatsieve_of "--dic -u --skip-digest -v -h --help" ;;
        system:* | user:*)
            if _kumquatsieve_has -- || [[ $cur != -* ]]; then
                _kumquatsieve_files
            elif [[ ${COMP_WORDS[1]} = system ]]; then
                _kumquatsieve_of "--matrix --char --unk --out --all-faults -v -h --help"
            else
                _kumquatsieve_of "--dic --skip-digest --out --all-faults -v -h --help"
            fi
            ;;
        esac
        ;;
    esac
}

# Prints how many of the words before `cur` are not options.
_kumquatsieve_count() {
    local word count=0 before=
    for word in "${COMP_WORDS[@]:1:COMP_CWORD-1}"; do
        [[ $word = -* || $word = = || $before = --encoding || $before = = ]] || count=$((count + 1))
        before=$word
    done
    echo "$count"
}

_kumquatsieve_import() {
    local cur prev
    COMPREPLY=()
    _kumquatsieve_words
    if [[ $prev = --encoding ]]; then
        _kumquatsieve_of "$_kumquatsieve_encodings"
    elif [[ $prev = --user ]]; then
        _kumquatsieve_image
    elif [[ $prev = --out ]]; then
        _kumquatsieve_files
    elif [[ $cur = -* ]] && ! _kumquatsieve_has --; then
        _kumquatsieve_of "--encoding --user --out --test -v --verbose -h --help"
    elif _kumquatsieve_has --test; then
        _kumquatsieve_image
    elif [[ $(_kumquatsieve_count) = 0 ]] && ! _kumquatsieve_has --user; then
        _kumquatsieve_of "ipadic juman naist unidic"
        compopt -o plusdirs
    else
        _kumquatsieve_files
    fi
}

complete -F _kumquatsieve_jseg jseg
complete -F _kumquatsieve_pjseg pjseg
complete -F _kumquatsieve_dictc dictc
complete -F _kumquatsieve_import kumquatsieve-import
