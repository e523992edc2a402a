#!/bin/sh
# Tries tools/extents.py: on texts of filefrag that are written here, and then, as root, on a swap file that lies in pieces in an ext4 file
# system, in an image file of a device. The machine hibernates into the file's blocks through the device while nothing is mounted, and is
# inspected and resumed from there. Afterwards the file system is clean, and no block outside the swap file has changed. The word is the
# program, by default crates/swsusp/out/swsusp, which `rt run` leaves. Prints a line for each check, and ends with status 1 if one
# differs. What needs root, a loop device or a tool that isn't installed is left out, with a sentence.
set -u
top=$(cd "$(dirname "$0")/.." && pwd)
program=${1:-$top/crates/swsusp/out/swsusp}
if [ ! -x "$program" ]; then
    echo "$program isn't built: rt run in crates/swsusp builds it"
    exit 1
fi
if ! command -v python3 >/dev/null; then
    echo "skipped: no python3"
    exit 0
fi
room=$(mktemp -d)
clean() {
    trap '' PIPE HUP INT TERM
    umount "$room/at" 2>/dev/null
    rm -rf "$room"
}
trap clean EXIT
trap 'exit 1' PIPE HUP INT TERM
passed=0 failed=0

same() {
    if [ "$2" = "$3" ]; then
        echo "as told: $1"
        passed=$((passed + 1))
    else
        echo "differs: $1: wanted [$2], came [$3]"
        failed=$((failed + 1))
    fi
}

ended() {
    echo "$passed passed, $failed failed"
    [ "$failed" = 0 ]
    exit
}

# Prints what extents.py says of a text of filefrag: the lines that are no comments, or its sentence, and its status.
told() {
    status=0
    python3 "$top/tools/extents.py" --text - swapfile >"$room/out" 2>"$room/note" || status=$?
    echo "$status|$(grep -v '^#' "$room/out" | tr '\n' ';')|$(cat "$room/note")"
}

# Prints a text of filefrag. The arguments are the kind of the file system, the file's size and the size of its blocks; the input has its lines.
text() {
    printf 'Filesystem type is: %s\nFile size of swapfile is %s (%s blocks of %s bytes)\n' "$1" "$2" $((($2 + $3 - 1) / $3)) "$3"
    echo " ext:     logical_offset:        physical_offset: length:   expected: flags:"
    cat
    echo "swapfile: 2 extents found"
}

same "two extents" "0|area 1599;extent 0 1024 34816;extent 1024 576 36864;|" "$(text ef53 6553600 4096 <<'END' | told
   0:        0..    1023:      34816..     35839:   1024:            
   1:     1024..    1599:      36864..     37439:    576:      35840: last,eof
END
)"
same "two that lie side by side, one of them unwritten" "0|area 9;extent 0 10 100;|" "$(text ef53 40960 4096 <<'END' | told
   0:        0..       3:        100..       103:      4:            
   1:        4..       9:        104..       109:      6:             last,unwritten,eof
END
)"
same "blocks of 1024 bytes" "0|area 2;extent 0 1 3;extent 1 2 25;|" "$(text ef53 12288 1024 <<'END' | told
   0:        0..       3:         12..        15:      4:            
   1:        4..      11:        100..       107:      8:         16: last,eof
END
)"
same "blocks of 1024 bytes that are no whole page" "1||swapfile: the extent from block 4 on isn't of whole pages" "$(text ef53 12288 1024 <<'END' | told
   0:        0..       3:         12..        15:      4:            
   1:        4..      11:        101..       108:      8:         16: last,eof
END
)"
same "an extent that is longer than the file" "0|area 1;extent 0 2 50;|" "$(text ef53 8192 4096 <<'END' | told
   0:        0..       7:         50..        57:      8:             last,eof
END
)"
same "a hole" "1||swapfile: the file has a hole at byte 4096" "$(text ef53 12288 4096 <<'END' | told
   0:        0..       0:         12..        12:      1:            
   1:        2..       2:         14..        14:      1:         13: last,eof
END
)"
same "a hole at the end" "1||swapfile: the file has a hole at byte 8192" "$(text ef53 12288 4096 <<'END' | told
   0:        0..       1:         12..        13:      2:             last
END
)"
same "an extent that is shared" "1||swapfile: the extent from block 0 on is shared" "$(text 58465342 8192 4096 <<'END' | told
   0:        0..       1:         12..        13:      2:             last,shared,eof
END
)"
same "one that isn't on the disk yet" "1||swapfile: the extent from block 0 on is delalloc, unknown_loc" "$(text ef53 8192 4096 <<'END' | told
   0:        0..       1:          0..         1:      2:             last,unknown_loc,delalloc,eof
END
)"
same "btrfs" "1|" "$(text 9123683e 8192 4096 <<'END' | told | cut -c 1-2
   0:        0..       1:         12..        13:      2:             last,eof
END
)"
same "a file of one page" "1||swapfile: the file has 1 pages, and an area has 2 to 131072" "$(text ef53 4096 4096 <<'END' | told
   0:        0..       0:         12..        12:      1:             last,eof
END
)"
# $1 extents, of one block each: 65, and 64.
lines() {
    awk -v n="$1" 'BEGIN { for (i = 0; i < n; i++) printf "%4d: %8d..%8d: %10d..%10d: %6d: %10d:\n", i, i, i, 10 + 2 * i, 10 + 2 * i, 1, 0 }'
}
same "65 extents" "1||swapfile: the file has 65 extents, and a dump at most 64: make it anew where there is more room" \
    "$(lines 65 | text ef53 $((65 * 4096)) 4096 | told)"
same "64 extents" "0|area 63;extent 0 1 10;" "$(lines 64 | text ef53 $((64 * 4096)) 4096 | told | cut -d ';' -f 1,2);"
same "no text of filefrag" "1||swapfile: this is no output of filefrag -v" "$(echo hello | told)"

# A real swap file: 64 MiB are filled with files of 48 blocks, and every second one is removed before the swap file is made.
left_out() {
    echo "left out: a swap file in a file system ($1)"
    ended
}
[ "$(id -u)" = 0 ] || left_out "not root"
for tool in mkfs.ext4 e2fsck mount umount filefrag mkswap; do
    command -v "$tool" >/dev/null || left_out "no $tool"
done
device=$room/device.img
mkdir "$room/at"
truncate -s 64M "$device"
mkfs.ext4 -q -b 4096 "$device" && mount -o loop "$device" "$room/at" 2>/dev/null || left_out "it can't be mounted"
i=0
while dd if=/dev/urandom of="$room/at/file$i" bs=4096 count=48 2>/dev/null; do
    i=$((i + 1))
done
sync -f "$room/at"
i=1
while rm "$room/at/file$i" 2>/dev/null; do
    i=$((i + 2))
done
sync -f "$room/at"
dd if=/dev/zero of="$room/at/swap" bs=4096 count=1600 2>/dev/null
chmod 600 "$room/at/swap"
mkswap "$room/at/swap" >/dev/null
sync -f "$room/at"
python3 "$top/tools/extents.py" "$room/at/swap" >"$room/told" || left_out "filefrag tells no extents"
pieces=$(grep -c '^extent' "$room/told")
same "the swap file lies in pieces" "many" "$([ "$pieces" -gt 8 ] && echo many || echo "$pieces")"
same "the device is that of the file system" "# device $(findmnt -n -o SOURCE "$room/at")" "$(head -n 1 "$room/told")"
offset=$(sed -n 's/.*resume_offset=//p' "$room/told")
# 66 page frames of tables and 500 of a task: an image in several pieces of the file.
for kind in saved loader; do
    python3 "$top/tools/make_dump.py" "$kind" 500 1600 >"$room/plain"
    python3 "$top/tools/extents.py" --dump "$room/at/swap" <"$room/plain" >"$room/$kind"
done
status=0
python3 "$top/tools/make_dump.py" saved 10 3000 | python3 "$top/tools/extents.py" --dump "$room/at/swap" >"$room/out" 2>"$room/note" || status=$?
same "a dump with another number of slots" "1|the dump's machine has 3000 slots, and the file 1600 pages" "$status|$(sed 's/^[^:]*: //' "$room/note")"
cp "$room/at/swap" "$room/swap"
umount "$room/at"
cp "$device" "$room/before"

# Copies the swap file through the file system, which is mounted read-only.
through() {
    mount -o loop,ro,noload "$device" "$room/at" && cp "$room/at/swap" "$room/now"
    umount "$room/at"
}

# Counts the blocks of the device that have changed; then prints those of them outside the extents.
outside() {
    cmp -l "$room/before" "$device" | awk '{ print int(($1 - 1) / 4096) }' | uniq | sort -nu | awk '
        BEGIN { n = 0 }
        NR == FNR { if ($1 == "extent") { first[n] = $4; past[n] = $4 + $3; n++ } next }
        { inside = 0; for (i = 0; i < n; i++) if ($1 >= first[i] && $1 < past[i]) inside = 1; if (inside) changed++; else others = others " " $1 }
        END { print changed + 0 "|" others }' "$room/told" -
}

# Counts the extents that have a block that has changed.
changed_extents() {
    cmp -l "$room/before" "$device" | awk '{ print int(($1 - 1) / 4096) }' | uniq | sort -nu | awk '
        BEGIN { n = 0 }
        NR == FNR { if ($1 == "extent") { first[n] = $4; past[n] = $4 + $3; n++ } next }
        { for (i = 0; i < n; i++) if ($1 >= first[i] && $1 < past[i]) seen[i] = 1 }
        END { for (i in seen) count++; print count + 0 }' "$room/told" -
}

run() {
    status=0
    timeout 300 "$program" "$@" >"$room/out" 2>"$room/note" || status=$?
    echo "$status|$(tr -dc '\n -~' <"$room/out" | head -n 1 | head -c 80)|$(cat "$room/note")"
}

same "the header by its block" "0|area last 1599 bad 0 image none|" "$(run inspect --offset "$offset" "$device")"
same "a hibernation through the device" "0|hibernated 566|" "$(run hibernate "$device" <"$room/saved")"
# The image's first map is slot 1, and the dump's first extent has more slots than that.
same "its image" "0|area last 1599 bad 0 image $((offset + 1)) flags 2 hw -|" "$(run inspect --offset "$offset" "$device")"
# The header block, two maps, the info page, two number pages, and 566 pages, one of which is zeros as before.
same "the blocks that changed, and those outside" "571|" "$(outside)"
same "extents of the swap file that have changed" "several" "$([ "$(changed_extents)" -gt 3 ] && echo several || echo few)"
same "the file system, with the image" "0" "$(e2fsck -fn "$device" >"$room/log" 2>&1; echo $?)"
through
same "the swap file's mark" "S1SUSPEND" "$(tail -c +4087 "$room/now" | head -c 9)"
same "its info page, at slot 2" "Linux" "$(tail -c +8193 "$room/now" | head -c 5)"
same "a resume through the device" "0" "$(timeout 300 "$program" resume "$device" <"$room/loader" >"$room/restored" 2>"$room/note"; echo $?)"
# The loader has no page of its own that isn't zero, so what is restored is exactly what was saved.
same "the restored dump" "$(cksum <"$room/saved")" "$(cksum <"$room/restored")"
same "its header" "0|area last 1599 bad 0 image none|" "$(run inspect --offset "$offset" "$device")"
same "a second resume" "1||no image" "$(run resume "$device" <"$room/loader")"
same "the file system, afterwards" "0" "$(e2fsck -fn "$device" >"$room/log" 2>&1; echo $?)"
same "the blocks that changed, afterwards" "571|" "$(outside)"
through
same "the swap file's first sectors" "$(head -c 3584 "$room/swap" | cksum)" "$(head -c 3584 "$room/now" | cksum)"

ended
