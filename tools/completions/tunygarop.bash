# Completions of tunygarop for bash. tools/docs --write makes them.

_tunygarop() {
    local word=${COMP_WORDS[COMP_CWORD]} before=${COMP_WORDS[COMP_CWORD - 1]} command=${COMP_WORDS[1]}
    local commands="tables check audit play serve pull relay probe record replay live"
    local names option given

    COMPREPLY=()
    # In --NAME=VALUE, bash makes '=' a word of its own.
    if [ "$word" = "=" ]; then
        word=""
    elif [ "$before" = "=" ]; then
        before=${COMP_WORDS[COMP_CWORD - 2]}
    fi

    case $before in
        "<" | ">" | ">>" | ">|" | "<>" | "&>" | ">&")
            compopt -o filenames 2> /dev/null
            mapfile -t COMPREPLY < <(compgen -f -- "$word")
            return
            ;;
        --host)
            mapfile -t COMPREPLY < <(compgen -A hostname -- "$word")
            return
            ;;
        --times | --primary | --screen | --user-file | --file | --state)
            compopt -o filenames 2> /dev/null
            mapfile -t COMPREPLY < <(compgen -f -- "$word")
            return
            ;;
        --history | --staged | --memory | --at | --at-time | --of | --against | --contest | --for \
        | --port | --count | --turn | --back | --from | --base | --host-header | --turns \
        | --silence | --listen | --seconds | --url | --speed | --settle | --return | --address \
        | --screens | --allow | --per-address | --idle | --window | --pending | --hold | --status \
        | --status-address)
            return
            ;;
    esac

    if [ "$COMP_CWORD" -eq 1 ]; then
        mapfile -t COMPREPLY < <(compgen -W "$commands help --help --version -h -V" -- "$word")
        return
    fi

    case $command in
        tables) names="history staged memory at at-time times verbose" ;;
        check) names="stream verbose" ;;
        audit) names="primary screen of against contest for json verbose history staged memory" ;;
        play) names="" ;;
        serve) names="port contest count turn chunked back verbose history staged memory" ;;
        pull) names="host port from contest base host-header user-file turns silence resume verbose history staged memory" ;;
        relay) names="host port from contest base host-header user-file turns silence resume verbose history staged memory listen count chunked" ;;
        probe) names="against user-file host-header seconds json verbose" ;;
        record) names="url host port base contest host-header user-file file no-recheck verbose" ;;
        replay) names="file times speed from contest listen verbose" ;;
        live) names="contest url host port base from host-header user-file settle fresh serve-broken no-recheck return until-eof listen address screens allow per-address idle window pending chunked state new hold serve-old history staged memory status status-address check verbose quiet" ;;
        help)
            [ "$COMP_CWORD" -eq 2 ] && mapfile -t COMPREPLY < <(compgen -W "$commands" -- "$word")
            return
            ;;
        *) return ;;
    esac

    # An option may be given once.
    given=" ${COMP_WORDS[*]:2:COMP_CWORD - 2} ${COMP_WORDS[*]:COMP_CWORD + 1} "
    for option in $names help; do
        if [[ $given != *" --$option "* && "--$option" == "$word"* ]]; then
            COMPREPLY+=("--$option")
        fi
    done
    [ "$word" = "-h" ] && COMPREPLY+=("-h")
}

complete -F _tunygarop tunygarop
