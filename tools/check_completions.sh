#!/bin/sh
# check_completions.sh [SWSUSP SWSUSP_MACHINE SWSUSP_IMAGE]: asks bash, zsh and fish to complete, and compares what they offer with the programs' `--help`.
#
# The words are the programs, by default those that `rt run` or `rt ci` left. A shell that isn't installed is named and left out. Each command, and
# each option of each command, must be offered, and no other command or option. The status is 1 if one is missing or too many.
set -u
top=$(cd "$(dirname "$0")/.." && pwd)
room=$(mktemp -d)
trap 'trap "" HUP INT TERM; rm -rf "$room"' EXIT
trap 'exit 1' HUP INT TERM
mkdir "$room/bin"
cp "${1:-$top/crates/swsusp/out/swsusp}" "$room/bin/swsusp" || exit 1
cp "${2:-$top/crates/swsusp_machine/out/swsusp_machine}" "$room/bin/swsusp_machine" || exit 1
cp "${3:-$top/crates/swsusp_image/out/swsusp_image}" "$room/bin/swsusp_image" || exit 1
PATH=$room/bin:$PATH
export PATH
asked=0
wrong=0

# Print the commands and the long options that a help text names, one word per line.
commands_of() { "$@" --help 2>&1 | sed -n '/^Commands:/,/^$/s/^  \([a-z_]*\) .*/\1/p' | sort; }
options_of() { "$@" --help 2>&1 | sed -n '/^Options:/,/^$/s/.*\(--[a-z][a-z-]*\).*/\1/p' | sort; }

# Print what a shell offers for a line, one word per line; for bash, what its completion function returns.
bash_offers() {
    bash --norc -c '
        source "$1"
        read -ra COMP_WORDS <<< "$2"
        [[ $2 != *" " ]] || COMP_WORDS+=("")
        COMP_CWORD=$((${#COMP_WORDS[@]} - 1))
        "_${COMP_WORDS[0]}"
        printf "%s\n" "${COMPREPLY[@]}"' - "$top/completions/${1%% *}.bash" "$1"
}

fish_offers() { HOME=$room fish --no-config -c "source $top/completions/${1%% *}.fish; complete -C '$1'" | cut -f 1; }

# A shell without a terminal completes nothing, so zsh gets one, and its compadd writes down each match.
cat > "$room/zshrc" << 'END'
PROMPT=
fpath=($completions $fpath)
autoload -U compinit
compinit -u -D
bindkey '^I' complete-word
zstyle ':completion:*' insert-tab false
compadd() {
    case " ${(j: :)@[1,(i)(-|--)]}" in
        *' -'[OAD]' '*) builtin compadd "$@"; return ;;
    esac
    local -a offered
    builtin compadd -O offered "$@"
    print -rl -- $offered >> $hits
    builtin compadd "$@"
}
comppostfuncs=(exit)
print ready
END
zsh_offers() {
    : > "$room/hits"
    completions=$top/completions hits=$room/hits timeout 60 zsh -f -c '
        zmodload zsh/zpty
        zpty shell zsh -f -i
        zpty -w shell "source $1"
        zpty -r -m shell seen "*ready*"
        zpty -n -w shell "$2"$'"'\\t'"'
        while zpty -r shell seen; do :; done' - "$room/zshrc" "$1" 2> /dev/null
    cat "$room/hits"
}

# Compares what a shell offers for a line with the words that must be offered.
compare() {
    asked=$((asked + 1))
    "$1_offers" "$2" | tr -s ' \r' '\n' | grep -E "$4" | sort -u > "$room/offered"
    if ! printf '%s\n' "$3" | diff - "$room/offered" > "$room/differs"; then
        wrong=$((wrong + 1))
        echo "$1: '$2' is completed otherwise than --help says (<) "
        cat "$room/differs"
    fi
}

for shell in bash zsh fish; do
    command -v "$shell" > /dev/null || { echo "no $shell here: left out"; continue; }
    for program in swsusp swsusp_machine swsusp_image; do
        compare "$shell" "$program " "$(commands_of "$program")" '^[a-z]+$'
        for command in $(commands_of "$program" | grep -v '^help$'); do
            compare "$shell" "$program $command --" "$(options_of "$program" "$command")" '^--[a-z-]+$'
        done
    done
done
echo "completions: $asked lines completed, $wrong wrong"
[ "$wrong" -eq 0 ] && [ "$asked" -gt 0 ]
