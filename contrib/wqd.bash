# Completes the words of wqd in bash.

_wqd() {
    local word=${COMP_WORDS[COMP_CWORD]} before=${COMP_WORDS[COMP_CWORD - 1]} command=${COMP_WORDS[1]} choices=
    if [ "$COMP_CWORD" -eq 1 ]; then
        choices="serve sockname replay check --help --version"
    elif [ "$command" = serve ] || [ "$command" = sockname ]; then
        case $before in
            --sockname) mapfile -t COMPREPLY < <(compgen -f -- "$word"); return ;;
            --start) choices=$(date +%s) ;;
            --pid) choices=$$ ;;
            --interval) choices="100 1000 60000 600000" ;;
            --share) choices="5 10 25 50 100" ;;
            --quiet-after) choices="0 600" ;;
            --workers) choices="auto 1" ;;
            *) choices="--sockname --start --pid --interval --share --quiet-after --workers" ;;
        esac
    elif [ "$command" = check ] && [ "$COMP_CWORD" -eq 2 ]; then
        mapfile -t COMPREPLY < <(compgen -f -- "$word")
        return
    fi
    mapfile -t COMPREPLY < <(compgen -W "$choices" -- "$word")
}

complete -o filenames -F _wqd wqd
