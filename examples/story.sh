#!/bin/sh
# A machine's story on real files: it is made, hibernates, is checked and resumed, and is compared with what it was. Each command is printed,
# and then its output. The words are the programs `swsusp` and `swsusp_machine`, by default those that `rt run` or `rt ci` leaves, and in an
# installation those on the path.
set -eu
top=$(cd "$(dirname "$0")/.." && pwd)
[ -d "$top/crates" ] || set -- "${1:-$(command -v swsusp)}" "${2:-$(command -v swsusp_machine)}"
swsusp=${1:-$top/crates/swsusp/out/swsusp}
machine=${2:-$top/crates/swsusp_machine/out/swsusp_machine}
for program in "$swsusp" "$machine"; do
    [ ! -x "$program" ] || continue
    echo "story.sh: no program at ${program:-any place of the path}: 'make' proves and builds both," >&2
    echo "and 'sh tools/quick_test.sh' builds them without a proof and tells this story with them" >&2
    exit 1
done
room=$(mktemp -d)
trap 'trap "" PIPE HUP INT TERM; rm -rf "$room"' EXIT
trap 'exit 1' PIPE HUP INT TERM
mkdir "$room/bin"
cp "$swsusp" "$room/bin/swsusp"
cp "$machine" "$room/bin/swsusp_machine"
chmod +x "$room/bin/swsusp" "$room/bin/swsusp_machine"
PATH=$room/bin:$PATH
cd "$room"
cp "$top/examples/story.txt" story.txt
sh "$top/tools/make_area.sh" area.img 1599

# Prints a command, its output, and its status if that isn't 0.
tell() {
    echo "\$ $1"
    sh -c "$1" 2>&1 || echo "status $?"
}

tell 'swsusp_machine make < story.txt > saved.dump'
tell 'swsusp_machine loader < saved.dump > loader.dump'
tell 'swsusp_machine differ saved.dump loader.dump'
tell 'swsusp hibernate area.img < saved.dump'
tell 'swsusp inspect area.img'
tell 'swsusp_machine check area.img < loader.dump'
tell 'swsusp resume area.img < loader.dump > restored.dump'
tell 'swsusp_machine differ saved.dump restored.dump'
tell 'swsusp_machine check area.img < loader.dump'
tell 'swsusp resume area.img < loader.dump'
