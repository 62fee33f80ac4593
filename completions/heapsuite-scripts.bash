# Completion of the scripts beside heapsuite for bash.

# The options of a script.
_heapsuite_script_options() {
    local words=
    case $1 in
        heapsuite-leaks) words='--limit= --alloc-fns=' ;;
        heapsuite-symbols) words='--root=' ;;
        heapsuite-compare) words='--lines --limit=' ;;
        heapsuite-budget) words='--peak= --leaked=' ;;
    esac
    echo "$words --help"
}

_heapsuite_script() {
    local begin=${2//\\/} previous=${COMP_WORDS[COMP_CWORD - 1]} option=
    COMPREPLY=()
    # Readline parts `--NAME=VALUE` at the equals sign.
    if [ "$begin" = '=' ]; then
        option=$previous begin=
    elif [ "$previous" = '=' ]; then
        option=${COMP_WORDS[COMP_CWORD - 2]}
    elif [[ " $(_heapsuite_script_options "${1##*/}") " == *" $previous= "* ]]; then
        option=$previous
    fi
    if [ -z "$option" ] && [ "${begin:0:2}" = '--' ]; then
        COMPREPLY=($(compgen -W "$(_heapsuite_script_options "${1##*/}")" -- "$begin"))
        case ${COMPREPLY[0]} in
            *=) compopt -o nospace ;;
        esac
    elif [ -z "$option" ] || [ "$option" = '--root' ]; then
        compopt -o filenames
        mapfile -t COMPREPLY < <(compgen -f -- "${begin#[\"\']}")
    fi
}

complete -F _heapsuite_script heapsuite-leaks heapsuite-symbols heapsuite-compare heapsuite-budget
