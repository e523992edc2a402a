#!/bin/sh
# cycle.sh [SWSUSP SWSUSP_MACHINE]: saves a machine to a swap area and restores it, on real files, checks that it is the same, and draws a picture
# of what happened. The words are the programs, by default those that `rt run` or `rt ci` left, or else programs that are built here without
# proving them; in an installation, those on the path.
set -eu
top=$(cd "$(dirname "$0")/.." && pwd)
picture=$top/out/cycle.svg
[ -d "$top/crates" ] || { set -- "${1:-$(command -v swsusp)}" "${2:-$(command -v swsusp_machine)}"; picture=$PWD/cycle.svg; }

# Prints the path of the program $1, and builds it if it doesn't exist or its sources are newer.
place() {
    at=$top/crates/$1/out/$1
    if [ ! -x "$at" ]; then
        at=$top/out/unproved/$1
        if [ ! -x "$at" ] || [ -n "$(find "$top/crates" -name '*.rt' -newer "$at" | head -n 1)" ]; then
            echo "cycle.sh: building $1 without proving it; that takes about a minute, on a busy machine some minutes" >&2
            sh "$top/tools/unproved.sh" "$1" "$at"
        fi
    fi
    echo "$at"
}
# Both programs are built at the same time.
[ $# -ge 2 ] || place swsusp_machine > /dev/null &
swsusp=${1:-$(place swsusp)}
wait "$!"
machine=${2:-$(place swsusp_machine)}
for program in "$swsusp" "$machine"; do
    [ -x "$program" ] || { echo "cycle.sh: no program at ${program:-any place of the path}" >&2; exit 1; }
done
swsusp=$(cd "$(dirname "$swsusp")" && pwd)/$(basename "$swsusp")
machine=$(cd "$(dirname "$machine")" && pwd)/$(basename "$machine")
room=$(mktemp -d)
trap 'trap "" PIPE HUP INT TERM; rm -rf "$room"' EXIT
trap 'exit 1' PIPE HUP INT TERM
cd "$room"
swsusp() {
    "$swsusp" "$@"
}

# Prints a command, and runs it.
tell() {
    echo "\$ $1"
    eval "$1"
}

sh "$top/tools/make_area.sh" area.img 1599
python3 "$top/tools/make_dump.py" saved > saved.dump
python3 "$top/tools/make_dump.py" loader > loader.dump
tell 'swsusp hibernate area.img < saved.dump'
tell 'swsusp inspect area.img'
tell 'swsusp resume area.img < loader.dump > restored.dump'
# The record of page frame 10, the task's, is at this byte in both dumps.
cmp -n 4096 -i 12740 saved.dump restored.dump && echo "page frame 10 is the same in both dumps"
tell 'swsusp inspect area.img'
echo '$ swsusp resume area.img < loader.dump'
if swsusp resume area.img < loader.dump 2>&1; then
    echo "cycle.sh: an image was resumed twice" >&2
    exit 1
fi

# The same machine once more, step by step, as a script: 12 steps save its 5 page frames, 12 more bring them back, and a second resume finds no image.
mkdir -p "$(dirname "$picture")"
{
    cat "$top/examples/story.txt"
    printf '%s\n' hibernate 'steps core 12' resume 'steps core 12' 'show 3 10 0' 'cut 0' resume 'steps core 2'
} | "$machine" draw > "$picture"
echo "a picture of what happened, step by step: $picture"
