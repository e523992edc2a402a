#!/bin/sh
# Starts two of the built programs at once over one area, and shows that the first one locks it: of two that write, at most one does
# its work, and the area is always as one of them alone leaves it. Then holds the lock by flock(1), and checks that each command is refused with
# `open fault` and status 7, and that every byte is as before. The words are the programs, by default those that `rt run` leaves, and the number
# of rounds, by default 100:
#
#   tools/locks_test.sh [SWSUSP [SWSUSP_MACHINE [ROUNDS]]]
#
# The areas are a file and, as root, a loop device. Prints a line for each check, and ends with status 1 if one differs. It is skipped, with
# status 0, without python3 or flock.
set -u
top=$(cd "$(dirname "$0")/.." && pwd)
program=${1:-$top/crates/swsusp/out/swsusp}
machine=${2:-$top/crates/swsusp_machine/out/swsusp_machine}
rounds=${3:-100}
for it in "$program" "$machine"; do
    if [ ! -x "$it" ]; then
        echo "$it isn't built: rt run in its crate builds it"
        exit 1
    fi
done
for it in python3 flock; do
    if ! command -v "$it" >/dev/null; then
        echo "skipped: no $it"
        exit 0
    fi
done
room=$(mktemp -d)
device=
clean() {
    trap '' PIPE HUP INT TERM
    exec 9>&-
    [ -z "$device" ] || losetup -d "$device" 2>/dev/null
    rm -rf "$room"
}
trap clean EXIT
trap 'exit 1' PIPE HUP INT TERM
passed=0 failed=0

# The arguments are what is tried, the expected result, and the actual one.
same() {
    if [ "$2" = "$3" ]; then
        echo "as told: $1"
        passed=$((passed + 1))
    else
        echo "differs: $1: wanted [$2], came [$3]"
        failed=$((failed + 1))
    fi
}

# Prints the dump of a machine with 2,048 page frames and 1,600 slots, 300 of whose page frames are filled with the byte $1.
dump() {
    python3 -c '
import struct, sys
out = sys.stdout.buffer
entries = [0] * 4 + [1] * 1020 + [3 << 16] * 300 + [1] * 724
frames = {0: entries[:1024], 1: entries[1024:], 2: [131072]}
records = {p: struct.pack("<%dI" % len(it), *it).ljust(4096, b"\0") for p, it in frames.items()}
records.update({1024 + i: bytes([int(sys.argv[1])]) * 4096 for i in range(300)})
names = [b"Linux", b"machine", b"6.1.0", b"#1", b"plain", b"(none)"]
out.write(b"SWSUDMP1" + struct.pack("<6I", 393472, 1600, 0, 2, 0, 1))
out.write(b"".join(it.ljust(65, b"\0") for it in names) + bytes(2) + struct.pack("<3I", 0, 2048, len(records)))
for p, page in sorted(records.items()):
    out.write(struct.pack("<I", p) + page)
' "$1"
}

dump 65 >"$room/saved"
dump 66 >"$room/second"
python3 "$top/tools/make_dump.py" loader >"$room/loader"
sh "$top/tools/make_area.sh" "$room/empty" 1599
: >"$room/nothing"

# Keeps what one command alone leaves, to recognize it by comparison.
alone() {
    cp "$room/$1" "$room/$2"
    "$program" "$3" "$room/$2" <"$room/$4" >"$room/$2.out" || echo "differs: $3 alone"
}
"$program" export <"$room/second" >"$room/stream"
alone empty image hibernate saved
alone empty other hibernate second
alone empty imported import stream
cp "$room/image" "$room/taken"
"$program" resume "$room/taken" <"$room/loader" >"$room/restored" || echo "differs: resume alone"
alone taken again hibernate second

# Prints the name of what an area holds: one of those above, with `other` for an area that the second machine hibernated or was imported into.
holds() {
    for it in empty image other taken; do
        cmp -s "$room/$it" "$1" && echo "$it" && return
    done
    echo torn
}
same "what each leaves alone" "empty image other other taken other" \
    "$(for it in empty image other imported taken again; do holds "$room/$it"; done | tr '\n' ' ' | sed 's/ $//')"

# Starts two commands at once over area $1, which begins as $2; each has the name of its input. Prints their statuses and notes, and what the
# area holds.
pair() {
    cat "$room/$2" >"$1" || echo "the area can't be written"
    timeout 300 "$program" "$3" "$1" <"$room/$4" >"$room/out1" 2>"$room/note1" &
    first=$!
    timeout 300 "$program" "$5" "$1" <"$room/$6" >"$room/out2" 2>"$room/note2" &
    second=$!
    s1=0 s2=0
    wait "$first" || s1=$?
    wait "$second" || s2=$?
    echo "$s1 $(cat "$room/note1")|$s2 $(cat "$room/note2")|$(holds "$1")"
}

# Runs the given number of rounds of a pair. The further words are the outcomes that are allowed: one command has the lock and the other finds
# it held (7), or one runs after the other.
race() {
    name=$1 at=$2 begin=$3 one=$4 input=$5 two=$6 other=$7
    shift 7
    printf '%s\n' "$@" >"$room/allowed"
    : >"$room/came"
    round=0
    while [ "$round" -lt "$rounds" ]; do
        pair "$at" "$begin" "$one" "$input" "$two" "$other" >>"$room/came"
        # A resume that succeeded has written the whole dump.
        case "$one:$s1" in resume:0) cmp -s "$room/restored" "$room/out1" || echo "a torn dump" >>"$room/came" ;; esac
        case "$two:$s2" in resume:0) cmp -s "$room/restored" "$room/out2" || echo "a torn dump" >>"$room/came" ;; esac
        round=$((round + 1))
    done
    same "$name, $rounds times" "" "$(grep -vxF -f "$room/allowed" "$room/came" | sort | uniq -c | tr -s ' \n' ' ')"
}

over() {
    kind=$1 at=$2
    race "two hibernations, over $kind" "$at" empty hibernate saved hibernate second \
        "0 |7 open fault|image" "0 |1 closed|image" "7 open fault|0 |other" "1 closed|0 |other"
    race "two resumes, over $kind" "$at" image resume loader resume loader \
        "0 |7 open fault|taken" "0 |1 no image|taken" "7 open fault|0 |taken" "1 no image|0 |taken"
    race "a hibernation and an import, over $kind" "$at" empty hibernate saved import stream \
        "0 |7 open fault|image" "0 |1 no swap: image|image" "7 open fault|0 |other" "1 closed|0 |other"
    race "a resume and a hibernation, over $kind" "$at" image resume loader hibernate second \
        "0 |0 |other" "0 |7 open fault|taken" "0 |1 closed|taken" "7 open fault|1 closed|image"
}

cp "$room/empty" "$room/area"
if [ "$(id -u)" = 0 ] && command -v losetup >/dev/null && cp "$room/empty" "$room/loop" &&
    device=$(losetup -f --show "$room/loop" 2>/dev/null); then
    loop=$device
else
    device= loop=
fi

# Checks a command while another holds the lock: shared or exclusive, as flock(1) takes it.
refused() {
    how=$1 wanted=$2 at=$3 before=$4 input=$5
    shift 5
    cat "$room/$before" >"$at"
    status=0
    timeout 300 flock "$how" "$at" "$@" "$at" <"$room/$input" >"$room/out" 2>"$room/note" || status=$?
    same "$(basename "$1") $2 of $before beside a lock ($how) on $(basename "$at")" "$wanted|$before" \
        "$status|$(tr -dc '\n -~' <"$room/out" | head -c 60)|$(cat "$room/note")|$(holds "$at")"
}

for at in "$room/area" $loop; do
    for how in -x -s; do
        refused $how "7||open fault" "$at" empty saved "$program" hibernate
        refused $how "7||open fault" "$at" empty nothing "$program" hibernate
        refused $how "7||open fault" "$at" empty saved "$program" hibernate --skip-zeros
        refused $how "7||open fault" "$at" image loader "$program" resume
        refused $how "7||open fault" "$at" image loader "$program" resume --any-kernel
        refused $how "7||open fault" "$at" empty stream "$program" import
    done
    refused -x "7||open fault" "$at" image nothing "$program" inspect
    refused -x "7||open fault" "$at" empty nothing "$program" inspect --offset 0
    refused -x "7||open fault: $at isn't there, can't be opened, is in use, or is an output" "$at" image loader "$machine" check
    refused -s "0|area last 1599 bad 0 image 1 flags 2 hw -|" "$at" image nothing "$program" inspect
    refused -s "0|resumed 304|" "$at" image loader "$machine" check
done

# The lock is held while a command waits for its input, and while one waits for its output to be taken. flock(1) tries for a shared and for
# an exclusive lock.
locked() {
    exclusive=free shared=free
    flock -n -x "$1" true || exclusive=held
    flock -n -s "$1" true || shared=held
    echo "$exclusive $shared"
}

# Starts a command over the area with a FIFO as its input, and looks at the lock as soon as it has opened the area.
waits() {
    name=$1 wanted=$2 before=$3 input=$4 at=$5
    shift 5
    cat "$room/$before" >"$at"
    rm -f "$room/fifo"
    mkfifo "$room/fifo"
    "$@" "$at" <"$room/fifo" >"$room/out" 2>"$room/note" &
    run=$!
    exec 9>"$room/fifo"
    tries=0
    until ls -l "/proc/$run/fd" 2>/dev/null | grep -qF " $at" || [ "$tries" = 100 ]; do
        sleep 0.1
        tries=$((tries + 1))
    done
    # The command takes the lock right after it has opened the area, and then reads its input.
    sleep 1
    came=$(locked "$at")
    cat "$room/$input" >&9
    exec 9>&-
    status=0
    wait "$run" || status=$?
    same "the lock of $name that waits for its input" "$wanted, 0, free free" "$came, $status, $(locked "$at")"
}

if [ -d /proc/self/fd ]; then
    for at in "$room/area" $loop; do
        waits "a hibernation" "held held" empty saved "$at" "$program" hibernate
        waits "an import" "held held" empty stream "$at" "$program" import
        waits "a resume" "held held" image loader "$at" "$program" resume
        waits "a check" "held free" image loader "$at" "$machine" check
    done
else
    echo "left out: commands that wait for their input (no /proc)"
fi

# A resume whose output nobody takes has given the image up, and still holds the lock.
cat "$room/image" >"$room/area"
rm -f "$room/fifo"
mkfifo "$room/fifo"
exec 9<>"$room/fifo"
"$program" resume "$room/area" <"$room/loader" >"$room/fifo" 2>"$room/note" 9>&- &
run=$!
tries=0
until [ "$(holds "$room/area")" = taken ] || [ "$tries" = 100 ]; do
    sleep 0.1
    tries=$((tries + 1))
done
sleep 1
same "the lock of a resume that waits for its output" "held held taken" "$(locked "$room/area") $(holds "$room/area")"
cat "$room/fifo" >"$room/out" 9>&- &
reader=$!
status=0
wait "$run" || status=$?
exec 9>&-
wait "$reader"
cmp -s "$room/restored" "$room/out" && whole=whole || whole=torn
same "its end" "0 whole free free" "$status $whole $(locked "$room/area")"

# Two commands that only read don't lock each other out.
cat "$room/image" >"$room/area"
"$machine" check "$room/area" <"$room/loader" >"$room/out1" 2>&1 &
first=$!
"$program" inspect "$room/area" >"$room/out2" 2>&1 &
second=$!
wait "$first"
wait "$second"
same "a check and an inspect at once" "resumed 304, area last 1599 bad 0 image 1 flags 2 hw -" "$(cat "$room/out1"), $(cat "$room/out2")"

over "a file" "$room/area"
if [ -n "$loop" ]; then
    over "a loop device" "$loop"
else
    echo "left out: a loop device (not root, or there is none)"
fi
echo "$passed passed, $failed failed"
[ "$failed" = 0 ]
