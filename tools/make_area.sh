#!/bin/sh
# make_area.sh FILE [LAST]: makes FILE a version 1 swap area without an image, as mkswap does, with the header's slot and LAST others (by
# default 3000).
last=${2:-3000}
byte() {
    printf '\\%03o' $((last >> $1 & 255))
}
truncate -s 0 "$1" && truncate -s $(((last + 1) * 4096)) "$1" &&
    printf "\\001\\000\\000\\000$(byte 0)$(byte 8)$(byte 16)$(byte 24)" | dd of="$1" bs=1 seek=1024 conv=notrunc status=none &&
    printf 'SWAPSPACE2' | dd of="$1" bs=1 seek=4086 conv=notrunc status=none
