# Completes the words of markring-node, markring-space, markring-accounts, markring-heap and markring-restore in bash: the
# commands and options that the program's --help names, and files.
_markring() {
    local words
    case $1 in
        *-node) words='id create show restore copy schema check run' ;;
        *-space) words='begin stop forget check backup' ;;
        *-heap) words='why top' ;;
        *) words= ;;
    esac
    [[ $2 == -* ]] && words=$("$1" --help 2>/dev/null | grep -oE -- '--[a-z][a-z-]*' | sort -u)
    mapfile -t COMPREPLY < <(compgen -W "$words" -- "$2")
}
complete -o default -F _markring markring-node markring-space markring-accounts markring-heap markring-restore
