#!/bin/sh
# quick_test.sh [NAME..]: runs the tests of tests/, except those of the stack, the story and the scripts of examples/, over programs that are
# built without a proof.
#
# It is for somebody who has changed a line, and takes minutes instead of an hour. Contracts aren't checked. A program is
# built anew if a source is newer, and stays in out/unproved. With names of files of tests/ only those are run.
set -u
top=$(cd "$(dirname "$0")/.." && pwd)
built=$top/out/unproved
mkdir -p "$built"

# Builds the program $1, in place of this shell, if its sources have changed.
build() {
    if [ ! -x "$built/$1" ] || [ -n "$(find "$top/crates" -name '*.rt' -newer "$built/$1" | head -n 1)" ]; then
        echo "quick_test.sh: building $1 without proving it" >&2
        exec sh "$top/tools/unproved.sh" "$1" "$built/$1"
    fi
}

(build swsusp) &
first=$!
(build swsusp_image) &
second=$!
trap 'kill "$first" "$second" 2> /dev/null || :' EXIT
trap 'exit 1' HUP INT TERM
status=0
(build swsusp_machine) || status=1
wait "$first" || status=1
wait "$second" || status=1
if [ "$status" -ne 0 ]; then
    echo "quick_test.sh: a program isn't built" >&2
    exit 1
fi
trap - EXIT HUP INT TERM
# How much stack a command takes is said of the proved build only: this one is compiled differently.
all=$(cd "$top/tests" && find . -name '*_tests.py' ! -name stack_tests.py | sed 's!^\./!!; s!\.py$!!' | sort)
# shellcheck disable=SC2086
SWSUSP=$built/swsusp SWSUSP_MACHINE=$built/swsusp_machine SWSUSP_IMAGE=$built/swsusp_image python3 "$top/tests/run.py" ${*:-$all} || status=1
[ $# -eq 0 ] || exit "$status"
python3 "$top/tools/check_examples.py" "$built/swsusp" || status=1
sh "$top/examples/story.sh" "$built/swsusp" "$built/swsusp_machine" | diff "$top/examples/story.out" - || status=1
[ "$status" -ne 0 ] || echo "quick_test.sh: all passed, nothing proved"
exit "$status"
