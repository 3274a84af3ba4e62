# Completion of r2r for bash: the words that work today, `dump FILE` and `run IMAGE` with its options.

_r2r() {
    local current=${COMP_WORDS[COMP_CWORD]} previous=${COMP_WORDS[COMP_CWORD - 1]}
    COMPREPLY=()
    if [ "$COMP_CWORD" -eq 1 ]; then
        mapfile -t COMPREPLY < <(compgen -W 'dump run' -- "$current")
        return
    fi
    case ${COMP_WORDS[1]} in
        dump) [ "$COMP_CWORD" -eq 2 ] || return ;;
        run)
            case $previous in
                --entry | --worker | --ticks) return ;;
                --ref) ;;
                *)
                    if [[ $current == -* ]]; then
                        mapfile -t COMPREPLY < <(compgen -W '--ref --entry --worker --ticks' -- "$current")
                        return
                    fi
                    ;;
            esac
            ;;
        *) return ;;
    esac
    compopt -o filenames 2> /dev/null
    mapfile -t COMPREPLY < <(compgen -f -- "$current")
}

complete -F _r2r r2r
