# Completes the words of wqasm in bash.

_wqasm() {
    local word=${COMP_WORDS[COMP_CWORD]} before=${COMP_WORDS[COMP_CWORD - 1]} command=${COMP_WORDS[1]} choices=
    if [ "$COMP_CWORD" -eq 1 ]; then
        choices="assemble disassemble explain run compile add --help"
    elif [ "${word:0:1}" = - ]; then
        case $command in
            assemble) choices="-o --version" ;;
            run) choices="--record --deleted --cclock --csec --oclock --osec" ;;
            compile) choices="-o --clock" ;;
        esac
    elif [ "$before" = --version ]; then
        choices="1 2"
    else
        mapfile -t COMPREPLY < <(compgen -f -- "$word")
        return
    fi
    mapfile -t COMPREPLY < <(compgen -W "$choices" -- "$word")
}

complete -o filenames -F _wqasm wqasm
