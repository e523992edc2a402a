#!/bin/sh
# Tries the disk in a file over block devices. A loop device that nobody uses is read and written. A device that the kernel swaps to,
# one whose file system is mounted, the disk of a mounted partition and one that the device mapper holds are refused for
# writing, and opened for reading. Then the built program (the first word, or crates/swsusp/out/swsusp, if there is one)
# reads a device, refuses a swap file that the kernel swaps to, and finds that what the kernel remembers of a device isn't what the
# device has. Prints a line for each check, and ends with status 1 if one differs. It is skipped, with status 0, without root or
# loop devices.
set -u
top=$(cd "$(dirname "$0")/.." && pwd)
room=$(mktemp -d)
program=${1:-$top/crates/swsusp/out/swsusp}
free= swap= mount= parted= held= file= mapped=swsusp_device_test_$$

skip() {
    echo "skipped: $1"
    exit 0
}

# Undoes what was set up, the last thing first. A signal that comes meanwhile, as when nobody reads the output, doesn't end it.
clean() {
    trap '' PIPE HUP INT TERM
    exec 8>&-
    [ -z "$file" ] || swapoff "$file" 2>/dev/null
    [ -z "$swap" ] || swapoff "$swap" 2>/dev/null
    umount "$room/at" 2>/dev/null
    umount "$room/part" 2>/dev/null
    [ -z "$held" ] || dmsetup remove "$mapped" 2>/dev/null
    for device in $free $swap $mount $parted $held; do
        losetup -d "$device" 2>/dev/null
    done
    rm -rf "$room"
}

# Sets up a loop device over a new file $1 of $2 blocks of 4096 bytes.
loop() {
    dd if=/dev/zero of="$room/$1" bs=4096 count="$2" 2>/dev/null && losetup -P -f --show "$room/$1" 2>/dev/null
}

trap clean EXIT
trap 'exit 1' PIPE HUP INT TERM
[ "$(id -u)" = 0 ] || skip "not root"
for tool in losetup mkswap swapon mkfs.ext4; do
    command -v "$tool" >/dev/null || skip "no $tool"
done
free=$(loop free 1600) || skip "no loop device"
swap=$(loop swap 64) || skip "no second loop device"
mount=$(loop mount 1024) || skip "no third loop device"

: >"$room/devices"
mkswap "$free" >/dev/null
echo "free $free" >>"$room/devices"
if mkswap "$swap" >/dev/null && swapon "$swap" 2>/dev/null; then
    echo "used $swap" >>"$room/devices"
else
    echo "left out: a device that the kernel swaps to (swapon isn't allowed)"
fi
mkdir "$room/at" "$room/part"
if mkfs.ext4 -q "$mount" 2>/dev/null && mount "$mount" "$room/at" 2>/dev/null; then
    echo "used $mount" >>"$room/devices"
else
    echo "left out: a mounted device (mount isn't allowed)"
fi
if command -v addpart >/dev/null && parted=$(loop parted 8192) &&
    addpart "$parted" 1 2048 16384 2>/dev/null && addpart "$parted" 2 20480 16384 2>/dev/null &&
    mkfs.ext4 -q "${parted}p1" 2>/dev/null && mount "${parted}p1" "$room/part" 2>/dev/null; then
    printf 'used %s\nused %sp1\nfree %sp2\n' "$parted" "$parted" "$parted" >>"$room/devices"
else
    echo "left out: partitions (the kernel shows none of a loop device)"
fi
if command -v dmsetup >/dev/null && held=$(loop held 64) &&
    dmsetup create "$mapped" --table "0 512 linear $held 0" 2>/dev/null; then
    echo "used $held" >>"$room/devices"
else
    echo "left out: a device that another holds (no device mapper)"
fi

status=0
(cd "$top/crates/file_disk" && rt try --test --data "devices=$room/devices") >"$room/log" 2>&1
if grep -q "devices_in_use_are_refused ... ok" "$room/log"; then
    sed 's/^/as told: /' "$room/devices"
else
    cat "$room/log"
    echo "differs: the test over $(tr '\n' ',' <"$room/devices")"
    status=1
fi

if [ ! -x "$program" ]; then
    echo "left out: the program over devices ($program isn't built)"
    exit $status
fi

# The arguments are what is tried, the expected result, and the actual one.
same() {
    if [ "$2" = "$3" ]; then
        echo "as told: $1"
    else
        echo "differs: $1: wanted [$2], came [$3]"
        status=1
    fi
}

# Prints status, output and note of a run.
told() {
    ended=0
    timeout 300 "$program" "$@" >"$room/out" 2>"$room/note" || ended=$?
    echo "$ended|$(tr -d '\0' <"$room/out" | head -c 80)|$(cat "$room/note")"
}

mkswap "$free" >/dev/null
same "inspect $free" "0|area last 1599 bad 0 image none|" "$(told inspect "$free")"
if ! command -v python3 >/dev/null; then
    echo "left out: a swap file in use, and what the kernel remembers (no python3 that makes dumps)"
    exit $status
fi
python3 "$top/tools/make_dump.py" saved >"$room/saved"
python3 "$top/tools/make_dump.py" loader >"$room/loader"
"$program" export <"$room/saved" >"$room/stream"

# A swap file that the kernel swaps to.
file=$room/at/swapfile
if mountpoint -q "$room/at" && dd if=/dev/zero of="$file" bs=4096 count=64 2>/dev/null && chmod 600 "$file" &&
    mkswap "$file" >/dev/null && swapon "$file" 2>/dev/null; then
    before=$(head -c 4096 "$file" | cksum)
    same "hibernate onto a swap file in use" "7||open fault" "$(told hibernate "$file" <"$room/saved")"
    same "resume of a swap file in use" "7||open fault" "$(told resume "$file" <"$room/loader")"
    same "import into a swap file in use" "7||open fault" "$(told import "$file" <"$room/stream")"
    same "inspect of a swap file in use" "0|area last 63 bad 0 image none|" "$(told inspect "$file")"
    ln "$file" "$room/at/name two" && ln -s "name two" "$room/at/link"
    same "hibernate onto its second name" "7||open fault" "$(told hibernate "$room/at/name two" <"$room/saved")"
    same "hibernate onto a link to it" "7||open fault" "$(told hibernate "$room/at/link" <"$room/saved")"
    same "its header block" "$before" "$(head -c 4096 "$file" | cksum)"
    swapoff "$file"
    # A header of 64 slots doesn't fit the dump's machine, but the file isn't in use.
    same "the file, when it isn't in use" "1||no swap: misfit 63 slots 1600" "$(told hibernate "$file" <"$room/saved")"
    rm -f "$room/at/name two" "$room/at/link"
else
    file=
    echo "left out: a swap file that the kernel swaps to (swapon isn't allowed)"
fi

# The kernel keeps what it read of a device that somebody holds open. After a resume's sync has failed, it may keep a header block without an
# image while the device has one with an image. Then a resume that finds no image writes the kept block to the device.
same "a hibernation onto the device" "0|hibernated 5|" "$(told hibernate "$free" <"$room/saved")"
cp "$room/free" "$room/image"
timeout 300 "$program" resume "$free" <"$room/loader" >"$room/out" 2>"$room/note" || status=1
exec 8<"$free"
dd if="$free" of="$room/block" bs=4096 count=1 2>/dev/null
dd if="$room/image" of="$room/free" bs=4096 count=1 conv=notrunc 2>/dev/null
mark() {
    head -c 4096 "$1" | tail -c 10 | tr -d '\0'
}
if [ "$(mark "$free")/$(mark "$room/free")" = "SWAPSPACE2/S1SUSPEND" ]; then
    same "a resume where the kernel remembers no image" "1||no image" "$(told resume "$free" <"$room/loader")"
    same "what the device has then" "SWAPSPACE2" "$(mark "$room/free")"
    exec 8<&-
    same "and a resume of that" "1||no image" "$(told resume "$free" <"$room/loader")"
else
    exec 8<&-
    echo "left out: what the kernel remembers (it reads the loop device's file anew)"
fi
exit $status
