#!/bin/sh
# Refuses each growth of memory in turn, one per run, in each command of the three built programs; commands that take images are run over a
# compressed one too. Each time the status is 6, the note is `no memory`, nothing is printed, and every byte of the disk is as before. After the
# last growth the command does what it does with ample memory. It also does so without the room for its list of words, which is asked for before
# the command begins. The programs are the three words, or those in crates/*/out, which `rt run` and `rt ci` leave. A library is loaded before
# them, made here by cc (over glibc), whose malloc and realloc fail at a given call (`rt try --fail-alloc N` does so too, but builds the program
# anew for each N). Prints a line for each command, and ends with status 1 if one differs. Without cc it is skipped, with status 0.
set -u
top=$(cd "$(dirname "$0")/.." && pwd)
swsusp=${1:-$top/crates/swsusp/out/swsusp}
image=${2:-$top/crates/swsusp_image/out/swsusp_image}
machine=${3:-$top/crates/swsusp_machine/out/swsusp_machine}
for program in "$swsusp" "$image" "$machine"; do
    if [ ! -x "$program" ]; then
        echo "$program isn't built: make builds it"
        exit 1
    fi
done
if ! command -v cc >/dev/null; then
    echo "skipped: no cc"
    exit 0
fi
room=$(mktemp -d)
trap 'trap "" PIPE HUP INT TERM; rm -rf "$room"' EXIT
trap 'exit 1' PIPE HUP INT TERM
failed=0

# Call number REFUSED of malloc and realloc finds no memory. At the end the number of calls is written into the file GROWTHS.
cat >"$room/refuse.c" <<'EOF'
#include <fcntl.h>
#include <stdio.h>
#include <stdlib.h>
#include <unistd.h>

extern void *__libc_malloc(size_t size);
extern void *__libc_realloc(void *block, size_t size);

static long refused = -1, calls;

static int refuses(void) {
    if (refused < 0) {
        const char *text = getenv("REFUSED");
        refused = text ? atol(text) : 0;
    }
    return ++calls == refused;
}

void *malloc(size_t size) { return refuses() ? NULL : __libc_malloc(size); }

void *realloc(void *block, size_t size) { return refuses() ? NULL : __libc_realloc(block, size); }

__attribute__((destructor)) static void tell(void) {
    char text[32];
    int size = snprintf(text, sizeof text, "%ld\n", calls);
    int file = open(getenv("GROWTHS"), O_WRONLY | O_CREAT | O_TRUNC, 0600);
    if (file < 0 || write(file, text, size) != size)
        _exit(99);
}
EOF
cc -O1 -shared -fPIC -o "$room/refuse.so" "$room/refuse.c" || exit 1

# Runs the program with call $1 refused, over a fresh copy of the disk. Prints its status, its note, and whether output and disk are as before.
told() {
    call=$1
    shift
    cp "$room/before" "$room/disk"
    status=0
    timeout 60 env "REFUSED=$call" "GROWTHS=$room/growths" "LD_PRELOAD=$room/refuse.so" "$program" "$@" \
        <"$room/input" >"$room/out" 2>"$room/note" || status=$?
    disk=changed
    cmp -s "$room/before" "$room/disk" && disk=same
    echo "$status|$(head -c 200 "$room/note")|$(($(wc -c <"$room/out")))|$disk"
}

# Refuses each growth of a command of $program. The arguments are a name, the disk, the input and the command's words.
each() {
    name=$1
    cp "$2" "$room/before"
    cp "$3" "$room/input"
    shift 3
    ample=$(told 0 "$@")
    growths=$(cat "$room/growths")
    wrong=0 without=0
    call=1
    while [ "$call" -le "$growths" ]; do
        came=$(told "$call" "$@")
        if [ "$came" = "$ample" ] && [ "$without" = 0 ] && [ "$call" -le $(($# + 5)) ]; then
            without=$call
        elif [ "$came" != "6|no memory|0|same" ]; then
            case "$name:$came" in
            words*":2|"*"|0|same") ;;
            *)
                echo "differs: $name, growth $call of $growths: [$came]"
                wrong=1
                ;;
            esac
        fi
        call=$((call + 1))
    done
    after=$(told "$call" "$@")
    if [ "$after" != "$ample" ]; then
        echo "differs: $name, after its $growths growths: wanted [$ample], came [$after]"
        wrong=1
    fi
    if [ "$growths" -lt 2 ]; then
        echo "differs: $name has $growths growths: is the library loaded?"
        wrong=1
    fi
    [ "$wrong" = 0 ] && echo "as told: $name, each of $growths growths refused, number $without done without; else [$(echo "$ample" | head -n 1)]"
    [ "$wrong" = 0 ] || failed=1
}

sh "$top/tools/make_area.sh" "$room/area" 1599
python3 "$top/tools/make_dump.py" saved >"$room/saved"
python3 "$top/tools/make_dump.py" loader >"$room/loader"
cp "$room/area" "$room/image"
"$swsusp" hibernate "$room/image" <"$room/saved" >"$room/line" || exit 1
cp "$room/area" "$room/skipped"
"$swsusp" hibernate --skip-zeros "$room/skipped" <"$room/saved" >"$room/line" || exit 1
"$swsusp" export <"$room/saved" >"$room/stream" || exit 1
PYTHONPATH=$top/tests python3 -c 'import sys; from compressed import twin; from image_tests import Built; twin(Built(40)).write(sys.argv[1])' "$room/compressed" || exit 1
: >"$room/nothing"

program=$swsusp
each inspect "$room/area" "$room/nothing" inspect "$room/disk"
each hibernate "$room/area" "$room/saved" hibernate "$room/disk"
each "hibernate --skip-zeros" "$room/area" "$room/saved" hibernate --skip-zeros "$room/disk"
each "hibernate --image-size" "$room/area" "$room/saved" hibernate --image-size 10 "$room/disk"
each "hibernate over an image" "$room/image" "$room/saved" hibernate "$room/disk"
each resume "$room/image" "$room/loader" resume "$room/disk"
each "resume --any-kernel" "$room/image" "$room/loader" resume --any-kernel "$room/disk"
each import "$room/area" "$room/stream" import "$room/disk"
each export "$room/area" "$room/saved" export
each replay "$room/area" "$top/examples/swap.txt" replay
each drill "$room/area" "$room/nothing" drill 10
# The text that says what is wrong with words leaves out the parts for which there is no memory.
each "words that aren't plain" "$room/area" "$room/nothing" inspect -- "$room/disk"
each "words that don't parse" "$room/area" "$room/nothing" hibernate --fast "$room/disk"

program=$image
each "show" "$room/image" "$room/nothing" show "$room/disk"
each "show --json" "$room/image" "$room/nothing" show --json "$room/disk"
each "check" "$room/image" "$room/nothing" check "$room/disk"
each "check --json" "$room/image" "$room/nothing" check --json "$room/disk"
each "stream" "$room/image" "$room/nothing" stream "$room/disk"
each "stream of an image without pages of zeros" "$room/skipped" "$room/nothing" stream "$room/disk"
each "page" "$room/image" "$room/nothing" page "$room/disk" 0
each "core" "$room/image" "$room/nothing" core "$room/disk"
each "differ" "$room/image" "$room/nothing" differ "$room/disk" "$room/image"
each "loader" "$room/image" "$room/nothing" loader "$room/disk"
each "machine" "$room/image" "$room/nothing" machine "$room/disk"
each "discard" "$room/image" "$room/nothing" discard "$room/disk"
for command in show "show --json" check "check --json" stream core loader machine; do
    # shellcheck disable=SC2086
    each "$command of a compressed image" "$room/compressed" "$room/nothing" $command "$room/disk"
done
each "page of a compressed image" "$room/compressed" "$room/nothing" page "$room/disk" 0
each "differ of compressed images" "$room/compressed" "$room/nothing" differ "$room/disk" "$room/compressed"

program=$machine
each "show a dump" "$room/area" "$room/saved" show
each "loader of a dump" "$room/area" "$room/saved" loader
each "differ of dumps" "$room/area" "$room/nothing" differ "$room/saved" "$room/loader"
each "check with a dump" "$room/image" "$room/loader" check "$room/disk"
each "core of a dump" "$room/area" "$room/saved" core
"$machine" core <"$room/saved" >"$room/core"
each "from-core" "$room/area" "$room/core" from-core
each "make" "$room/area" "$top/examples/tasks.txt" make
each "draw" "$room/area" "$top/examples/tasks.txt" draw
exit $failed
