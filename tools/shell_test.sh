#!/bin/sh
# Starts the built programs as a shell may start them: with standard streams closed, with a terminal as standard output, over a file that is no
# swap area, or over no file. Compares their notes, their output, their statuses and the area's bytes. The programs are the words, or
# those in crates/*/out, which `rt run` and `rt ci` leave. Prints a line for each check, and ends with status 1 if one
# differs. Without python3 no dumps are made, and what needs one is left out.
set -u
top=$(cd "$(dirname "$0")/.." && pwd)
program=${1:-$top/crates/swsusp/out/swsusp}
machine=${2:-$top/crates/swsusp_machine/out/swsusp_machine}
images=${3:-$top/crates/swsusp_image/out/swsusp_image}
for it in "$program" "$machine" "$images"; do
    if [ ! -x "$it" ]; then
        echo "$it isn't built: make builds it"
        exit 1
    fi
done
room=$(mktemp -d)
trap 'trap "" PIPE HUP INT TERM; rm -rf "$room"' EXIT
trap 'exit 1' PIPE HUP INT TERM
failed=0

# The arguments are what is tried, and the expected and the actual result: status, output and note on one line.
same() {
    if [ "$2" = "$3" ]; then
        echo "as told: $1"
    else
        echo "differs: $1: wanted [$2], came [$3]"
        failed=1
    fi
}

# Runs a command, ends it if it hangs, and prints its status, output and note.
told() {
    status=0
    timeout 60 "$program" "$@" >"$room/out" 2>"$room/note" || status=$?
    echo "$status|$(cat "$room/out")|$(cat "$room/note")"
}

area=$room/area.img
sh "$top/tools/make_area.sh" "$area"
before=$(cksum <"$area")
zeros="no swap: signature 00000000000000000000"

same "an area" "0|area last 3000 bad 0 image none|" "$(told inspect "$area")"
same "no such file" "7||open fault" "$(told inspect "$room/none")"
same "a directory" "7||open fault" "$(told inspect "$room")"
same "a character device" "7||open fault" "$(told inspect /dev/null)"
mkfifo "$room/fifo"
same "a FIFO" "7||open fault" "$(told inspect "$room/fifo")"
same "a pipe" "7||open fault" "$(echo x | told inspect /dev/stdin)"
head -c 4095 /dev/zero >"$room/short"
same "a file shorter than a block" "1||$zeros" "$(told inspect "$room/short")"
ln -s "$area" "$room/link"
same "a link to an area" "0|area last 3000 bad 0 image none|" "$(told inspect "$room/link")"
same "words that aren't plain" "2||words" "$(told inspect -- "$area")"
same "a header by its block" "0|area last 3000 bad 0 image none|" "$(told inspect --offset 0 "$area")"
same "a block after the file" "1||$zeros" "$(told inspect --offset 4294967295 "$area")"

# One standard stream is closed, and then all of them.
status=0
"$program" inspect "$area" >"$room/out" 2>"$room/note" <&- || status=$?
same "an area, without standard input" "0|area last 3000 bad 0 image none|" "$status|$(cat "$room/out")|$(cat "$room/note")"
status=0
"$program" inspect "$area" 2>"$room/note" >&- || status=$?
same "an area, without standard output" "4|sink fault" "$status|$(cat "$room/note")"
status=0
"$program" inspect "$room/short" >"$room/out" 2>&- || status=$?
same "a short file, without standard error" "4|" "$status|$(cat "$room/out")"
status=0
"$program" inspect "$area" <&- >&- 2>&- || status=$?
same "an area, without any" "4" "$status"
# At a full pipe the program waits with the area open, so its descriptors can be seen.
mkfifo "$room/full"
exec 9<>"$room/full"
dd if=/dev/zero bs=65536 count=1 >"$room/full" 2>"$room/note"
"$program" inspect "$area" <&- >"$room/full" 2>&- 9>&- &
sleep 1
seen="$(readlink /proc/$!/fd/0) $(readlink /proc/$!/fd/2)"
kill $! 2>/dev/null
wait $! 2>/dev/null
exec 9>&-
same "what stands for closed streams" "/dev/null /dev/null" "$seen"
same "the area, after all that" "$before" "$(cksum <"$area")"

# A script of one event that has a reply, and one of no event.
status=0
echo "step core" | "$program" replay >"$room/out" 2>"$room/note" || status=$?
same "a script" "0|idle|" "$status|$(cat "$room/out")|$(cat "$room/note")"
status=0
"$program" replay >"$room/out" 2>"$room/note" <&- || status=$?
same "a script, without standard input" "4||source fault" "$status|$(cat "$room/out")|$(cat "$room/note")"
status=0
echo "step core" | "$program" replay 2>"$room/note" >&- || status=$?
same "a script, without standard output" "4|sink fault" "$status|$(cat "$room/note")"
status=0
echo "step core" | "$program" replay >"$room/out" 2>&- || status=$?
same "a script, without standard error" "0|idle" "$status|$(cat "$room/out")"

if ! command -v python3 >/dev/null; then
    echo "left out: the other commands (no python3 that makes dumps)"
    exit $failed
fi

# Every command with each set of standard streams closed, over an area of 1,599 slots or its image. A file that is opened then must not take the
# place of a stream: nothing may be printed into the area.
sh "$top/tools/make_area.sh" "$room/empty" 1599
python3 "$top/tools/make_dump.py" saved >"$room/saved"
python3 "$top/tools/make_dump.py" loader >"$room/loader"
cp "$room/empty" "$room/image"
"$program" hibernate "$room/image" <"$room/saved" >"$room/out" || failed=1
"$program" export <"$room/saved" >"$room/stream" || failed=1
head -c 5000 "$room/stream" >"$room/cut"
echo "step core" >"$room/script"
printf 'boot\nsteps core 2\nclaim 3 10\n' >"$room/story"
: >"$room/nothing"
cp "$room/saved" "$room/dump"
"$machine" core <"$room/saved" >"$room/core" || failed=1

# Runs a command with the streams in $1 closed, over a fresh area, and returns its status.
closed() {
    sets=$1
    shift
    cp "$room/$before" "$room/disk"
    : >"$room/out"
    : >"$room/note"
    status=0
    (
        case $sets in *0*) exec <&- ;; *) exec <"$room/$input" ;; esac
        case $sets in *1*) exec >&- ;; *) exec >"$room/out" ;; esac
        case $sets in *2*) exec 2>&- ;; *) exec 2>"$room/note" ;; esac
        exec timeout 300 "$@"
    ) || status=$?
}

# Checks a command with each set of closed streams. $1 is the command's name, $2 what it uses: i if it reads its input, o if it prints,
# n if it notes something, and $3 its status with all streams open.
each() {
    name=$1 uses=$2 wanted=$3 before=$4 input=$5
    shift 5
    closed - "$@"
    same "$name" "$wanted" "$status"
    cp "$room/disk" "$room/after"
    cp "$room/out" "$room/printed"
    for sets in 0 1 2 01 02 12 012; do
        closed "$sets" "$@"
        # A command fails if it uses a closed stream, and the first such stream decides the status.
        expected=$wanted
        case $uses,$sets in *i*,*0*) expected=4 ;; *o*,*1*) expected=4 ;; *n*,*2*) expected=4 ;; esac
        if cmp -s "$room/disk" "$room/after"; then
            left=after
        elif cmp -s "$room/disk" "$room/$before"; then
            left=before
        else
            left="bytes that are neither"
        fi
        # Only a run that fails may leave the area as it was, and one without its input must.
        allowed=after
        case $expected,$wanted in "$wanted,$expected") ;; *) allowed="after before" ;; esac
        case $uses,$sets in *i*,*0*) allowed=before ;; esac
        case " $allowed " in *" $left "*) fits="as it may be" ;; *) fits=$left ;; esac
        cmp -s "$room/$before" "$room/after" && [ "$left" = after ] && fits="as it may be"
        # An open stream gets only what it gets with all streams open, or a part of that, and a line of note.
        case $sets in *1*) size=0 ;; *) size=$(($(wc -c <"$room/out"))) ;; esac
        head -c "$size" "$room/printed" >"$room/front"
        cmp -s "$room/front" "$room/out" || fits="$fits, and other output"
        cmp -s "$room/saved" "$room/dump" || fits="$fits, and the dump is changed"
        same "$name, without $sets" "$expected|as it may be" "$status|$fits"
    done
}

each "inspect" o 0 empty nothing "$program" inspect "$room/disk"
each "inspect of no area" n 1 saved nothing "$program" inspect "$room/disk"
each "hibernate" io 0 empty saved "$program" hibernate "$room/disk"
each "hibernate --skip-zeros" io 0 empty saved "$program" hibernate --skip-zeros "$room/disk"
each "hibernate over an image" in 1 image saved "$program" hibernate "$room/disk"
each "hibernate of no dump" in 3 empty stream "$program" hibernate "$room/disk"
each "resume" io 0 image loader "$program" resume "$room/disk"
each "resume of no image" in 1 empty loader "$program" resume "$room/disk"
each "resume into no dump" in 3 image stream "$program" resume "$room/disk"
each "import" io 0 empty stream "$program" import "$room/disk"
each "import over an image" n 1 image stream "$program" import "$room/disk"
each "import of a stream that is cut off" in 3 empty cut "$program" import "$room/disk"
each "replay" io 0 empty script "$program" replay
each "drill" o 0 empty nothing "$program" drill 1
each "export" io 0 empty saved "$program" export
each "make" io 0 empty story "$machine" make
each "draw" io 0 empty story "$machine" draw
each "loader" io 0 empty saved "$machine" loader
each "core" io 0 empty saved "$machine" core
each "from-core" io 0 empty core "$machine" from-core
each "from-core of no core file" in 1 empty saved "$machine" from-core
each "show" io 0 empty saved "$machine" show
each "differ, the same" o 0 empty nothing "$machine" differ "$room/dump" "$room/dump"
each "differ, no dump" n 3 empty nothing "$machine" differ "$room/dump" "$room/stream"
each "check" io 0 image loader "$machine" check "$room/disk"
each "check of no image" in 1 empty loader "$machine" check "$room/disk"
cp "$room/image" "$room/other"
printf X | dd of="$room/other" bs=1 seek=20500 conv=notrunc 2>"$room/note"
each "show of an area" o 0 image nothing "$images" show "$room/disk"
each "show --json" o 0 image nothing "$images" show --json "$room/disk"
each "check --json" o 0 image nothing "$images" check --json "$room/disk"
each "check of an area" o 0 image nothing "$images" check "$room/disk"
each "check of an area without an image" o 1 empty nothing "$images" check "$room/disk"
each "stream" o 0 image nothing "$images" stream "$room/disk"
each "stream of no image" n 1 empty nothing "$images" stream "$room/disk"
each "page" o 0 image nothing "$images" page "$room/disk" 0
each "page that isn't saved" n 1 image nothing "$images" page "$room/disk" 65535
each "core" o 0 image nothing "$images" core "$room/disk"
each "core of no image" n 1 empty nothing "$images" core "$room/disk"
each "differ, the same image" o 0 image nothing "$images" differ "$room/disk" "$room/image"
each "differ, another image" o 1 image nothing "$images" differ "$room/disk" "$room/other"
each "differ, no image" n 1 empty nothing "$images" differ "$room/disk" "$room/image"
each "loader of an image" o 0 image nothing "$images" loader "$room/disk"
each "machine of an image" o 0 image nothing "$images" machine "$room/disk"
each "machine of no image" n 1 empty nothing "$images" machine "$room/disk"
each "loader of no image" n 1 empty nothing "$images" loader "$room/disk"
each "discard" o 0 image nothing "$images" discard "$room/disk"
each "discard of no image" o 1 empty nothing "$images" discard "$room/disk"

# A dump or a stream isn't written to a terminal, and no image is given up for output that would go there. The first word is a file for the
# note, the second the input; then come the program and its words. Prints what the terminal shows, and ends with the program's status.
cat >"$room/terminal.py" <<'EOF'
import os, subprocess, sys
ours, theirs = os.openpty()
with open(sys.argv[1], "wb") as note, open(sys.argv[2], "rb") as given:
    run = subprocess.Popen(sys.argv[3:], stdin=given, stdout=theirs, stderr=note)
os.close(theirs)
while True:
    try:
        piece = os.read(ours, 65536)
    except OSError:  # all have closed it
        break
    if not piece:
        break
    sys.stdout.buffer.write(piece)
sys.exit(run.wait())
EOF

# Runs a command over the image with this input and a terminal as standard output. Prints its status, its note, what the terminal shows, and
# whether the image is as it was.
shown() {
    given=$room/$1
    shift
    cp "$room/image" "$room/disk"
    status=0
    timeout 300 python3 "$room/terminal.py" "$room/note" "$given" "$@" >"$room/out" || status=$?
    kept=gone
    cmp -s "$room/image" "$room/disk" && kept=kept
    echo "$status|$(cat "$room/note")|$(tr -dc '\n -~' <"$room/out" | head -n 1 | head -c 60)|$kept"
}

same "inspect on a terminal" "0||area last 1599 bad 0 image 1 flags 2 hw -|kept" "$(shown nothing "$program" inspect "$room/disk")"
same "resume on a terminal" "4|sink fault||kept" "$(shown loader "$program" resume "$room/disk")"
same "resume --any-kernel on a terminal" "4|sink fault||kept" "$(shown loader "$program" resume --any-kernel "$room/disk")"
# The program says so before it opens the area, so it doesn't notice whether there is one.
same "resume of no such file on a terminal" "4|sink fault||kept" "$(shown loader "$program" resume "$room/none")"
same "export on a terminal" "4|sink fault||kept" "$(shown saved "$program" export)"
same "make on a terminal" "4|sink fault||kept" "$(shown story "$machine" make)"
same "draw on a terminal" "4|sink fault||kept" "$(shown story "$machine" draw)"
same "loader on a terminal" "4|sink fault||kept" "$(shown saved "$machine" loader)"
same "core on a terminal" "4|sink fault||kept" "$(shown saved "$machine" core)"
same "from-core on a terminal" "4|sink fault||kept" "$(shown core "$machine" from-core)"
same "show on a terminal" "0||slots 1600|kept" "$(shown saved "$machine" show)"
same "check on a terminal" "0||resumed 5|kept" "$(shown loader "$machine" check "$room/disk")"
same "stream on a terminal" "4|sink fault||kept" "$(shown nothing "$images" stream "$room/disk")"
same "page on a terminal" "4|sink fault||kept" "$(shown nothing "$images" page "$room/disk" 0)"
same "core on a terminal" "4|sink fault||kept" "$(shown nothing "$images" core "$room/disk")"
same "loader of an image on a terminal" "4|sink fault||kept" "$(shown nothing "$images" loader "$room/disk")"
same "machine of an image on a terminal" "4|sink fault||kept" "$(shown nothing "$images" machine "$room/disk")"
same "differ of images on a terminal" "0||same|kept" "$(shown nothing "$images" differ "$room/disk" "$room/image")"
exit $failed
