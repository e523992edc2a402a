# Completions of swsusp_image for bash, as its `--help` lists them.
_swsusp_image() {
    local word=${COMP_WORDS[COMP_CWORD]} before=${COMP_WORDS[COMP_CWORD - 1]} command=${COMP_WORDS[1]}
    COMPREPLY=()
    if [ "$COMP_CWORD" -eq 1 ]; then
        mapfile -t COMPREPLY < <(compgen -W 'check show stream page core differ discard loader machine help --help --version' -- "$word")
        return
    fi
    [ "$before" = --offset ] && return
    case $command:$word in
        help:*) mapfile -t COMPREPLY < <(compgen -W 'check show stream page core differ discard loader machine' -- "$word") ;;
        check:-* | show:-*) mapfile -t COMPREPLY < <(compgen -W '--json --offset --help' -- "$word") ;;
        differ:-*) mapfile -t COMPREPLY < <(compgen -W '--first --offset --help' -- "$word") ;;
        machine:-*) mapfile -t COMPREPLY < <(compgen -W '--offset --tables --zone --extent --help' -- "$word") ;;
        loader:-*) mapfile -t COMPREPLY < <(compgen -W '--offset --zone --extent --help' -- "$word") ;;
        *:-*) mapfile -t COMPREPLY < <(compgen -W '--offset --help' -- "$word") ;;
        *)
            compopt -o filenames 2> /dev/null
            mapfile -t COMPREPLY < <(compgen -f -- "$word")
            ;;
    esac
}
complete -F _swsusp_image swsusp_image
