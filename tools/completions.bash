# Completions of batchd for bash: its commands, their options, codes, and paths of documents.
_batchd() {
    local word=${COMP_WORDS[COMP_CWORD]} before=${COMP_WORDS[COMP_CWORD - 1]} options
    if [ "$COMP_CWORD" -eq 1 ]; then
        mapfile -t COMPREPLY < <(compgen -W "check verify show run serve status draw audit plant explain help --help --version" -- "$word")
        return
    fi
    case ${COMP_WORDS[1]} in
        check) options="--all --dot --write --quiet --help" ;;
        verify | show) options="--quiet --help" ;;
        audit) options="--beginning --quiet --help" ;;
        run) options="--journal --echo --times --quiet --help" ;;
        serve) options="--journal --times --quiet --help" ;;
        plant) options="--batches --ticks --ring --help" ;;
        help) options="check verify show run serve status draw audit plant explain" ;;
        explain) options="--help $("${COMP_WORDS[0]}" explain 2>/dev/null | cut -d : -f 1)" ;;
        *) options="--help" ;;
    esac
    case $before in
        --batches | --ticks | --ring) return ;;
        --write) mapfile -t COMPREPLY < <(compgen -f -- "$word"); return ;;
    esac
    if [[ $word == -* || ${COMP_WORDS[1]} =~ ^(explain|help)$ ]]; then
        mapfile -t COMPREPLY < <(compgen -W "$options" -- "$word")
    elif [[ ${COMP_WORDS[1]} =~ ^(status|draw|audit)$ ]] || [ "$before" = --journal ]; then
        mapfile -t COMPREPLY < <(compgen -f -- "$word")
    else
        mapfile -t COMPREPLY < <(compgen -f -X '!*.@(toml|txt)' -- "$word"; compgen -d -S / -- "$word")
    fi
}
complete -o nospace -F _batchd batchd
