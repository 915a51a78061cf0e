# Completion of stepmin for bash.
_stepmin() {
    local current=${COMP_WORDS[COMP_CWORD]} before=${COMP_WORDS[COMP_CWORD - 1]} command="" word options
    for word in "${COMP_WORDS[@]:1:COMP_CWORD-1}"; do
        case $word in
            check | shrink | verify | plain | presets | help) command=$word && break ;;
        esac
    done
    COMPREPLY=()
    case $command in
        "") options="--help --version" ;;
        check) options="--schema-alias --help" ;;
        shrink) options="--merge --schema-alias --in-sets --strict --help" ;;
        verify) options="--merge --schema-alias --in-sets --help" ;;
        *) options="--help" ;;
    esac
    if [[ $before == --merge ]]; then
        mapfile -t COMPREPLY < <(compgen -W "@points @styles @geometry @all" -- "$current")
    elif [[ $before == --schema-alias ]]; then
        return
    elif [[ $current == -* ]]; then
        mapfile -t COMPREPLY < <(compgen -W "$options" -- "$current")
    elif [[ -z $command || $command == help ]]; then
        mapfile -t COMPREPLY < <(compgen -W "check shrink verify plain presets help" -- "$current")
    else
        compopt -o filenames
        mapfile -t COMPREPLY < <(compgen -f -- "$current")
    fi
}
complete -F _stepmin stepmin
