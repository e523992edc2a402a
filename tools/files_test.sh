#!/bin/sh
# Hibernates and resumes over real files with the built program, and compares its notes, its output and its statuses. The program is the
# first word, or crates/swsusp/out/swsusp, which `rt run` leaves. Prints a line for each check, and ends with status 1 if one differs.
set -u
top=$(cd "$(dirname "$0")/.." && pwd)
program=${1:-$top/crates/swsusp/out/swsusp}
if [ ! -x "$program" ]; then
    echo "$program isn't built: rt run in crates/swsusp builds it"
    exit 1
fi
room=$(mktemp -d)
trap 'trap "" PIPE HUP INT TERM; rm -rf "$room"' EXIT
trap 'exit 1' PIPE HUP INT TERM
failed=0

# The arguments are what is tried, and the expected and the actual result: status, output and note on one line.
same() {
    if [ "$2" = "$3" ]; then
        echo "as told: $1"
    else
        echo "differs: $1: wanted [$2], came [$3]"
        failed=1
    fi
}

# Runs the program, ends it if it hangs, and prints its status, output and note.
told() {
    status=0
    timeout 60 "$program" "$@" >"$room/out" 2>"$room/note" || status=$?
    echo "$status|$(tr -d '\0' <"$room/out")|$(cat "$room/note")"
}

# Resumes the image of an area into the loader's dump, and prints status, length of the output and note.
resumed() {
    status=0
    timeout 60 "$program" resume "$@" <"$room/loader" >"$room/restored" 2>"$room/note" || status=$?
    echo "$status|$(($(wc -c <"$room/restored")))|$(cat "$room/note")"
}

# Prints the 4-byte number at a place of the restored dump.
number() {
    od -A n -t u4 -j "$1" -N 4 "$room/restored" | tr -d ' '
}

area=$room/area.img
sh "$top/tools/make_area.sh" "$area" 1599
python3 "$top/tools/make_dump.py" saved >"$room/saved"
python3 "$top/tools/make_dump.py" loader >"$room/loader"
same "a dump" "16836" "$(($(wc -c <"$room/saved")))"

# From dump to dump.
same "a hibernation" "0|hibernated 5|" "$(told hibernate "$area" <"$room/saved")"
same "its image" "0|area last 1599 bad 0 image 1 flags 2 hw -|" "$(told inspect "$area")"

# The same machine's stream has the pages that come after the image's first map.
"$program" export <"$room/saved" >"$room/stream"
same "a stream" "28672" "$(($(wc -c <"$room/stream")))"
same "its pages" "$(tail -c +8193 "$area" | head -c 28672 | cksum)" "$(cksum <"$room/stream")"

# An import into another area leaves what the hibernation left. A stream that is cut off leaves no image.
other=$room/other.img
sh "$top/tools/make_area.sh" "$other" 1599
before=$(head -c 4096 "$other" | cksum)
same "a stream that is cut off" "3||stream Short byte 5000" "$(head -c 5000 "$room/stream" | told import "$other")"
same "its header block" "$before" "$(head -c 4096 "$other" | cksum)"
same "an import" "0|imported 5|" "$(told import "$other" <"$room/stream")"
same "the area" "$(cksum <"$area")" "$(cksum <"$other")"
same "another import" "1||no swap: image" "$(told import "$other" <"$room/stream")"

before=$(cksum <"$area")
same "a second hibernation" "1||closed" "$(told hibernate "$area" <"$room/saved")"
same "a bad dump" "3||dump Magic byte 0" "$(told hibernate "$area" <"$area")"
same "a dump that ends early" "3||dump Short byte 100" "$(head -c 100 "$room/saved" | told resume "$area")"
same "the area, after all that" "$before" "$(cksum <"$area")"
same "a resume" "0|20936|" "$(resumed "$area")"
same "the restored page frames" "0 1 2 10 50" "$(echo $(number 436) $(number 4536) $(number 8636) $(number 12736) $(number 16836))"
same "the word of page frame 10" "77" "$(number 12740)"
tail -c 4096 "$room/loader" >"$room/nines"
same "the loader's page frame 50" "$(cksum <"$room/nines")" "$(tail -c 4096 "$room/restored" | cksum)"
cp "$room/restored" "$room/first"
before=$(cksum <"$area")
same "a second resume" "1|0|no image" "$(resumed "$area")"
same "the area, after the second resume" "$before" "$(cksum <"$area")"
same "its header" "0|area last 1599 bad 0 image none|" "$(told inspect "$area")"

# The restored dump is of a machine that can hibernate again. The loader's machine has 1,000 page frames in use.
same "a hibernation of what was restored" "0|hibernated 5|" "$(told hibernate "$area" <"$room/first")"
same "its resume" "0|20936|" "$(resumed "$area")"
same "what it restored" "$(cksum <"$room/first")" "$(cksum <"$room/restored")"
same "a machine that is too full" "1||no frames 1048 need 2025" "$(told hibernate "$area" <"$room/loader")"

# A dump on a pipe, and without pages of zeros.
same "a dump on a pipe" "0|hibernated 5|" "$(cat "$room/saved" | told hibernate --skip-zeros "$area")"
same "its image, without zeros" "0|area last 1599 bad 0 image 1 flags 258 hw -|" "$(told inspect "$area")"
same "its resume" "0|20936|" "$(resumed "$area")"
same "what it restored" "$(cksum <"$room/first")" "$(cksum <"$room/restored")"

# The output goes to a full disk: the image is gone.
same "a hibernation, before a full disk" "0|hibernated 5|" "$(told hibernate "$area" <"$room/saved")"
status=0
timeout 60 "$program" resume "$area" <"$room/loader" >/dev/full 2>"$room/note" || status=$?
same "a full disk" "4|sink fault" "$status|$(cat "$room/note")"
same "the image, after a full disk" "1|0|no image" "$(resumed "$area")"

# A limit on the size of files, here of 16 KiB (32 times 512 bytes). If the caller ignores the signal that it raises (SIGXFSZ), a write past it
# fails like any other; else the signal ends the program.
limited() {
    status=0
    (
        trap '' XFSZ
        ulimit -f 32
        exec timeout 60 "$program" "$@" >"$room/out" 2>"$room/note"
    ) || status=$?
    echo "$status|$(($(wc -c <"$room/out")))|$(cat "$room/note")"
}
sh "$top/tools/make_area.sh" "$room/limited.img" 1599
before=$(head -c 4096 "$room/limited.img" | cksum)
same "a hibernation past a limit" "5|0|write fault same" "$(limited hibernate "$room/limited.img" <"$room/saved")"
same "an import past a limit" "5|0|write fault same" "$(limited import "$room/limited.img" <"$room/stream")"
same "the header block, past a limit" "$before" "$(head -c 4096 "$room/limited.img" | cksum)"
same "a hibernation, before a limit" "0|hibernated 5|" "$(told hibernate "$room/limited.img" <"$room/saved")"
same "a resume whose output passes a limit" "4|16384|sink fault" "$(limited resume "$room/limited.img" <"$room/loader")"
same "the image, after a limit" "1|0|no image" "$(resumed "$room/limited.img")"
same "an export past a limit" "4|16384|sink fault" "$(limited export <"$room/saved")"

# Closed standard streams.
status=0
timeout 60 "$program" hibernate "$area" >"$room/out" 2>"$room/note" <&- || status=$?
same "without standard input" "4||source fault" "$status|$(cat "$room/out")|$(cat "$room/note")"

# Files that can't be opened. Root may write to a file that is read-only.
same "no such file" "7||open fault" "$(told hibernate "$room/none" <"$room/saved")"
same "no such file, and a bad dump" "7||open fault" "$(told resume "$room/none" <"$area")"
same "a directory" "7||open fault" "$(told hibernate "$room" <"$room/saved")"
same "a character device" "7||open fault" "$(told resume /dev/null <"$room/loader")"
cp "$area" "$room/fixed" && chmod 444 "$room/fixed"
if [ -w "$room/fixed" ]; then
    echo "left out: a read-only file (this user may write it)"
else
    same "a read-only file" "7||open fault" "$(told hibernate "$room/fixed" <"$room/saved")"
    same "a read-only file is looked into" "0|area last 1599 bad 0 image none|" "$(told inspect "$room/fixed")"
fi

# A file that is no area, one of another size, and one that ends early.
head -c 6553600 /dev/zero >"$room/zeros"
same "no area" "1||no swap: signature 00000000000000000000" "$(told hibernate "$room/zeros" <"$room/saved")"
sh "$top/tools/make_area.sh" "$room/large" 3000
same "another area" "1||no swap: misfit 3000 slots 1600" "$(told hibernate "$room/large" <"$room/saved")"
head -c 409600 "$area" >"$room/cut"
same "an area that is cut off" "1||no swap: short 1599 blocks 100" "$(told hibernate "$room/cut" <"$room/saved")"
exit $failed
