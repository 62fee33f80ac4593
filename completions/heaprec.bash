# Completion of heaprec for bash.

# The files that begin as a word does. Readline quotes the blanks of names, and gives the word as it is quoted.
_heaprec_files() {
    local begin=${1//\\/}
    compopt -o filenames
    mapfile -t COMPREPLY < <(compgen -f -- "${begin#[\"\']}")
}

_heaprec() {
    local current=$2 previous=${COMP_WORDS[COMP_CWORD - 1]} words='--modules= --summary --check='
    COMPREPLY=()
    # Readline parts `--NAME=VALUE` at the equals sign.
    if [ "$current" = '=' ]; then
        current=
    fi
    if [ "${current:0:2}" = '--' ] && [ "$previous" != '=' ]; then
        COMPREPLY=($(compgen -W "$words" -- "$current"))
        case ${COMPREPLY[0]} in
            *=) compopt -o nospace ;;
        esac
    else
        _heaprec_files "$current"
    fi
}

complete -F _heaprec heaprec
