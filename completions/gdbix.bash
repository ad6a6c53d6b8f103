# Completion of gdbix for bash.

# Offers those of some words that begin as one does.
_gdbix_offer() {
    mapfile -t COMPREPLY < <(compgen -W "$1" -- "$2")
}

_gdbix() {
    local word=${COMP_WORDS[COMP_CWORD]} before=${COMP_WORDS[COMP_CWORD - 1]}
    local command=${COMP_WORDS[1]} at=2 files queries options
    COMPREPLY=()
    if ((COMP_CWORD == 1)); then
        _gdbix_offer "ask serve race cached index add look aranges files drill --help --version" "$word"
        return
    fi
    # What a command takes: how many files, its options, and the first words of its queries.
    case $command in
    ask) files=1 options="--workers --quote" queries="name simple addr main cache" ;;
    cached) files=2 options="--workers --quote" queries="name addr main" ;;
    serve) files=1 options="--workers --wait --quote" queries="" ;;
    race) files=2 options="--workers --readers --quote" queries="" ;;
    index | add) files=2 options="--as --rules --workers" queries="" ;;
    aranges) files=1 options="--workers" queries="" ;;
    files) files=1 options="--workers" queries="" ;;
    look)
        if ((COMP_CWORD == 2)); then
            _gdbix_offer "gdb names --help" "$word"
            return
        fi
        at=3
        case ${COMP_WORDS[2]} in
        gdb) files=1 options="--quote" queries="name addr main" ;;
        names) files=2 options="--base --quote" queries="name" ;;
        *) return ;;
        esac
        ;;
    *) return ;;
    esac
    case $before in
    --as)
        _gdbix_offer "gdb8 gdb9 names" "$word"
        return
        ;;
    --rules)
        _gdbix_offer "gdb" "$word"
        return
        ;;
    --workers | --readers | --wait | --base) return ;;
    esac
    # Past the options, each of which but --quote has a value.
    while [[ ${COMP_WORDS[at]} == --* ]] && ((at < COMP_CWORD)); do
        [[ ${COMP_WORDS[at]} == --quote ]] || ((at++))
        ((at++))
    done
    if [[ $word == -* ]] && ((COMP_CWORD == at)); then
        _gdbix_offer "$options --help" "$word"
    elif ((COMP_CWORD < at + files)); then
        compopt -o filenames 2>/dev/null
        mapfile -t COMPREPLY < <(compgen -f -- "$word")
    elif ((COMP_CWORD == at + files)); then
        _gdbix_offer "$queries" "$word"
    fi
}

complete -F _gdbix gdbix
