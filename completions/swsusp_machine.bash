# Completions of swsusp_machine for bash, as its `--help` lists them.
_swsusp_machine() {
    local word=${COMP_WORDS[COMP_CWORD]} command=${COMP_WORDS[1]}
    COMPREPLY=()
    if [ "$COMP_CWORD" -eq 1 ]; then
        mapfile -t COMPREPLY < <(compgen -W 'make draw loader core from-core show differ check help --help --version' -- "$word")
        return
    fi
    case $command:$word in
        help:*) mapfile -t COMPREPLY < <(compgen -W 'make draw loader core from-core show differ check' -- "$word") ;;
        from-core:-*) mapfile -t COMPREPLY < <(compgen -W '--slots --help' -- "$word") ;;
        check:-*) mapfile -t COMPREPLY < <(compgen -W '--any-kernel --help' -- "$word") ;;
        *:-*) mapfile -t COMPREPLY < <(compgen -W '--help' -- "$word") ;;
        differ:* | check:*)
            compopt -o filenames 2> /dev/null
            mapfile -t COMPREPLY < <(compgen -f -- "$word")
            ;;
    esac
}
complete -F _swsusp_machine swsusp_machine
