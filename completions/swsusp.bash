# Completions of swsusp for bash, as its `--help` lists them.
_swsusp() {
    local word=${COMP_WORDS[COMP_CWORD]} before=${COMP_WORDS[COMP_CWORD - 1]} command=${COMP_WORDS[1]}
    COMPREPLY=()
    if [ "$COMP_CWORD" -eq 1 ]; then
        mapfile -t COMPREPLY < <(compgen -W 'inspect hibernate resume replay drill export import help --help --version' -- "$word")
        return
    fi
    case $before in
        --offset | --image-size) return ;;
    esac
    case $command:$word in
        inspect:-*) mapfile -t COMPREPLY < <(compgen -W '--offset --help' -- "$word") ;;
        hibernate:-*) mapfile -t COMPREPLY < <(compgen -W '--skip-zeros --image-size --help' -- "$word") ;;
        resume:-*) mapfile -t COMPREPLY < <(compgen -W '--any-kernel --help' -- "$word") ;;
        import:-* | export:-* | replay:-* | drill:-*) mapfile -t COMPREPLY < <(compgen -W '--help' -- "$word") ;;
        inspect:* | hibernate:* | resume:* | import:*)
            compopt -o filenames 2> /dev/null
            mapfile -t COMPREPLY < <(compgen -f -- "$word")
            ;;
        help:*) mapfile -t COMPREPLY < <(compgen -W 'inspect hibernate resume replay drill export import' -- "$word") ;;
    esac
}
complete -F _swsusp swsusp
