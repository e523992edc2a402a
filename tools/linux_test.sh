#!/bin/sh
# linux_test.sh [-d FOLDER] [-t SECONDS] [-p "PART.."] [SWSUSP [SWSUSP_MACHINE [SWSUSP_IMAGE]]]: tries the programs against real kernels, in
# the machines that linux_lab.sh builds in FOLDER, and boots for at most SECONDS. The programs are those that `rt run` leaves unless words name
# others. Prints a line for each case, and how many passed; ends with status 1 if one differs. It is skipped, with status 0, without qemu.
#
# The parts are plain, used, bad, full, compressed, signature, x86, damage and initramfs. Without -p all are tried. What is expected comes from
# what the kernel logs and does, and from docs/FORMATS.md by linux_lab/image.py, which reads images by itself.
set -u
top=$(cd "$(dirname "$0")/.." && pwd)
parts="plain used bad full compressed signature x86 damage initramfs"
lab=${HOME:-/root}/.cache/dirukofe-linux-lab
limit=180
while getopts d:t:p: option; do
    case $option in
    d) lab=$OPTARG ;;
    t) limit=$OPTARG ;;
    p) parts=$OPTARG ;;
    *) exit 2 ;;
    esac
done
shift $((OPTIND - 1))
swsusp=${1:-$top/crates/swsusp/out/swsusp}
checker=${2:-$top/crates/swsusp_machine/out/swsusp_machine}
imager=${3:-$top/crates/swsusp_image/out/swsusp_image}
passed=0 failed=0

skip() {
    echo "skipped: $1"
    exit 0
}

for tool in qemu-system-mips64el python3; do
    command -v "$tool" >/dev/null || skip "no $tool"
done
for program in "$swsusp" "$checker" "$imager"; do
    if [ ! -x "$program" ]; then
        echo "$program isn't built: rt run in its crate builds it"
        exit 1
    fi
done
room=$(mktemp -d)
trap 'rm -rf "$room"' EXIT
trap 'exit 1' INT TERM HUP

same() {
    if [ "$2" = "$3" ]; then
        echo "as told: $1"
        passed=$((passed + 1))
    else
        echo "differs: $1: wanted [$2], came [$3]"
        failed=$((failed + 1))
    fi
}

machine=mips

lab() {
    sh "$top/tools/linux_lab.sh" -m $machine -d "$lab" -t "$limit" "$@"
}

image() {
    python3 "$top/tools/linux_lab/image.py" "$@"
}

# Makes a copy that takes no room for blocks of zeros.
copy() {
    cp --sparse=always "$1" "$2"
}

# Print what the kernel logged: a number from a line, and how many pages it copied.
logged() {
    sed -n "s/.*$2.*/\\1/p" "$1.hibernate.log"
}

copied() {
    logged "$1" 'Need to copy \([0-9]*\) pages'
}

# Prints status, output and note of a program over a dump.
told() {
    dump=$1
    shift
    status=0
    timeout 300 "$@" <"$dump" >"$room/out" 2>"$room/note" || status=$?
    echo "$status|$(head -c 200 "$room/out" | tr -d '\0')|$(cat "$room/note")"
}

# Prints the status of a resume and its note, and leaves the restored dump in $room/restored.
resumed() {
    dump=$1
    shift
    status=0
    timeout 300 "$swsusp" resume "$@" <"$dump" >"$room/restored" 2>"$room/note" || status=$?
    echo "$status|$(cat "$room/note")"
}

# Prints what the kernel does with an image, with the settings of init.c that follow: `resumes` if the saved program goes on, with its pages and
# the word of this boot; `refuses` if the kernel goes on as it was booted; else its last line.
kernel() {
    if lab resume "$@" >"$1.out" 2>&1; then
        echo resumes
    elif grep -q '^lab: not resumed' "$1.resume.log"; then
        echo refuses
    else
        tail -n 1 "$1.resume.log"
    fi
}

# Prints what the kernel does with a copy of an image.
kernel_of_copy() {
    copy "$1" "$room/copy.img"
    kernel "$room/copy.img"
}

# Makes a real image of this name, with the settings of init.c that follow. If there is no area, it is made first.
hibernated() {
    name=$1
    shift
    status=0
    lab hibernate "$room/$name.img" "$@" >"$room/$name.out" 2>&1 || status=$?
    same "$name: the kernel hibernates" 0 $status
    [ $status = 0 ] || sed 's/^/  /' "$room/$name.out"
    return $status
}

# Prints the slots that the saved program's pages went out to, in image.py's form.
let_out() {
    sed -n 's/^lab: slots [0-9]* [0-9]* \([0-9]*\) \([0-9]*\)$/\1 \2/p' "$1.hibernate.log" | while read -r first count; do
        echo "$first-$((first + count - 1))"
    done
}

# Prints the status of `swsusp_image show` and its lines with these keys: each as it stands, but for runs the sum of their lengths.
shown() {
    status=0
    timeout 300 "$imager" show "$1" >"$room/shown" 2>"$room/note" || status=$?
    shift
    echo "$status$(cat "$room/note")"
    for key; do
        case $key in
        *_run) awk -v key="$key" '$1 == key { sum += $3 } END { print key, sum + 0 }' "$room/shown" ;;
        *) sed -n "/^$key /p" "$room/shown" ;;
        esac
    done
}

# Prints what the kernel's log says of an image without compression, as lines of `show`: $2 is the last slot of its area, $3 its number of bad slots,
# $4 its flags. The kernel logs the pages without the info page, and writes a map after every 511 pages.
as_logged() {
    pages=$(($(logged "$1" 'Saving image data pages (\([0-9]*\) pages)') + 1))
    size=$(logged "$1" 'Wrote \([0-9]*\) kbytes in')
    memory=$(logged "$1" 'Memory: [0-9]*K\/\([0-9]*\)K available')
    [ $((size / 4 + 1)) = $pages ] || echo "the log has $size kbytes of $pages pages"
    printf '%s\n' 0 "image yes" "area swap" "last_page $2" "bad_pages $3" "flags $4" "memory_pages $((memory / 4))" \
        "image_pages $(copied "$1")" "stream_pages $pages" "maps $((pages / 511 + 1))" "block_run $((pages + pages / 511 + 1))" \
        "frame_run $(copied "$1")"
}

keys="image area last_page bad_pages flags memory_pages image_pages stream_pages maps block_run frame_run"

# Prints what a generic header says of the kernel; the kernel's log begins with it.
named() {
    printf '%s\n' 0 "header generic" "sysname Linux" "release $(logged "$1" 'Linux version \([^ ]*\) ')" \
        "version $(logged "$1" 'Linux version [^#]*\(#.*\)')" "machine mips64" "kernel $(logged "$1" 'Linux version \([0-9.]*\)')"
}

# Prints the page frame of the first page with a pattern.
patterned() {
    sed -n 's/^lab: frames 1 0 \([0-9]*\) [0-9]*$/\1/p' "$1.hibernate.log"
}

# Checks what swsusp_image says of a real image without compression, and leaves its stream in $room/streamed.
looked_at() {
    real=$room/$1.img
    same "$1: swsusp_image check" "0|whole|" "$(told /dev/null "$imager" check "$real")"
    same "$1: show, with the kernel's log" "$(as_logged "$real" "$2" "$3" "${4:-2}")" "$(shown "$real" $keys)"
    image stream "$real" >"$room/wanted"
    "$imager" stream "$real" >"$room/streamed"
    same "$1: stream, each page" "$(cksum <"$room/wanted")" "$(cksum <"$room/streamed")"
    image pattern 1 0 >"$room/wanted"
    "$imager" page "$real" "$(patterned "$real")" >"$room/page"
    same "$1: page, of a page frame with a pattern" "$(cksum <"$room/wanted")" "$(cksum <"$room/page")"
}

# Checks all that is said of a real image without compression: $1 is its name, $2 the last slot of its area, $3 its number of bad slots.
round() {
    real=$room/$1.img
    pages=$(copied "$real")
    # shellcheck disable=SC2046
    image saved "$real" $(let_out "$real") >"$room/saved"
    image loader "$real" >"$room/loader"
    first=$(image facts "$real" | sed -n 's/^first //p')
    same "$1: inspect" "0|area last $2 bad $3 image $first flags 2 hw -|" "$(told /dev/null "$swsusp" inspect "$real")"
    sum=$(cksum <"$real")
    same "$1: check calls it whole, with the pages of the kernel's log" "0|resumed $pages|" \
        "$(told "$room/loader" "$checker" check "$real")"
    looked_at "$1" "$2" "$3"
    same "$1: show, of the kernel" "$(named "$real")" "$(shown "$real" header sysname release version machine kernel)"
    same "$1: the area, after all of these" "$sum" "$(cksum <"$real")"
    copy "$real" "$room/ours.img"
    same "$1: swsusp resumes the kernel's image" "0|" "$(resumed "$room/loader" "$room/ours.img")"
    same "$1: each page, byte for byte" "pages $pages wrong 0" "$(image compare "$real" "$room/restored")"
    frames=$(sed -n 's/^lab: patterns \([0-9]*\) in memory.*/\1/p' "$real.hibernate.log")
    same "$1: the patterns in their page frames" "patterns $frames of $frames" "$(image patterns "$real.hibernate.log" "$room/restored")"
    same "$1: a second resume" "1|no image" "$(resumed "$room/loader" "$room/ours.img")"
    same "$1: the kernel refuses the area afterwards" refuses "$(kernel_of_copy "$room/ours.img")"
    # The kernel resumes what swsusp writes of that machine's memory.
    extra=$(image tables "$real")
    copy "$room/ours.img" "$room/written.img"
    same "$1: swsusp hibernates that machine" "0|hibernated $((pages + extra))|" \
        "$(told "$room/saved" "$swsusp" hibernate "$room/written.img")"
    same "$1: the kernel resumes what swsusp wrote" resumes "$(kernel "$room/written.img")"
    same "$1: the kernel refuses it the second time" refuses "$(kernel "$room/written.img")"
    copy "$room/ours.img" "$room/carried.img"
    if [ "$(let_out "$real")" = "" ]; then
        "$swsusp" export <"$room/saved" >"$room/stream"
        same "$1: swsusp imports its stream" "0|imported $((pages + extra))|" "$(told "$room/stream" "$swsusp" import "$room/carried.img")"
        same "$1: the kernel resumes what was carried" resumes "$(kernel "$room/carried.img")"
        sh "$top/tools/make_area.sh" "$room/moved.img" "$2"
        same "$1: swsusp imports what swsusp_image streams" "0|imported $pages|" "$(told "$room/streamed" "$swsusp" import "$room/moved.img")"
        same "$1: the kernel resumes what was moved" resumes "$(kernel "$room/moved.img")"
    else
        same "$1: a machine with slots in use isn't exported" "1||slots in use $(let_out "$real" | sed -n '1s/-.*//p')" \
            "$(told "$room/saved" "$swsusp" export)"
    fi
    same "$1: the kernel resumes its own image" resumes "$(kernel_of_copy "$real")"
}

# Prints whether the kernel swaps to an area.
swaps() {
    if lab swap "$1" >"$room/swap.out" 2>&1; then echo yes; else echo no; fi
}

# A fresh area, and a check that no other part makes: once its image is given up, the kernel swaps to the area.
part_plain() {
    hibernated plain lab.pages=100 || return
    round plain 16383 0
    same "plain: the kernel swaps to the area again" yes "$(swaps "$room/ours.img")"
    copy "$real" "$room/given.img"
    copy "$real" "$room/unmarked.img"
    image damage "$room/unmarked.img" unmarked >/dev/null
    same "plain: swsusp_image discards the image" "0|discarded|" "$(told /dev/null "$imager" discard "$room/given.img")"
    same "plain: it took the mark back, and no more" "$(cksum <"$room/unmarked.img")" "$(cksum <"$room/given.img")"
    same "plain: swsusp_image check then" "1|no image|" "$(told /dev/null "$imager" check "$room/given.img")"
    same "plain: show then" "$(printf '%s\n' 0 "image no" "area swap" "last_page 16383")" \
        "$(shown "$room/given.img" image area last_page image_pages)"
    same "plain: the kernel refuses what was discarded" refuses "$(kernel "$room/given.img")"
    same "plain: the kernel swaps to that area" yes "$(swaps "$room/given.img")"
}

part_used() {
    hibernated used lab.pages=100 lab.used=640 || return
    same "used: pages that were let out" "lab: patterns 100 in memory, 640 of 640 let out" \
        "$(grep '^lab: patterns' "$room/used.img.hibernate.log")"
    round used 16383 0
}

# Bad pages at the front, in a run, among the pages, and at the end.
part_bad() {
    sh "$top/tools/make_area.sh" "$room/bad.img" 16383
    image bad "$room/bad.img" 1 2 3 600 1500 1501 16383
    hibernated bad lab.pages=100 || return
    round bad 16383 7
    same "bad: show, each bad page" "$(echo 0; printf 'bad_page %s\n' 1 2 3 600 1500 1501 16383)" "$(shown "$real" bad_page)"
}

# Prints the least number of pages, from $2 on, whose image fills its last map or its last number page.
filling() {
    n=$2
    case $1 in
    map) while [ $(((n + 1 + (n + 511) / 512) % 511)) != 0 ]; do n=$((n + 1)); done ;;
    numbers) while [ $((n % 512)) != 0 ]; do n=$((n + 1)); done ;;
    esac
    echo $n
}

# The number of pages that the kernel copies differs a little from boot to boot, so it is approached by further pages of the saved program.
part_full() {
    for name in map numbers; do
        real=$room/$name.img
        fill=0 tries=0 wanted=0 pages=
        while [ $tries -lt 30 ]; do
            rm -f "$real"
            lab hibernate "$real" lab.pages=100 lab.fill=$fill >"$room/$name.out" 2>&1 || break
            pages=$(copied "$real")
            [ $wanted != 0 ] || wanted=$(filling $name $((pages + 16)))
            [ "$pages" != $wanted ] || break
            fill=$((fill + wanted - pages)) tries=$((tries + 1))
        done
        if [ "$pages" = $wanted ]; then
            chain=$(image facts "$real" | sed -n 's/^chain //p')
            same "$name: an image of $wanted pages: its maps" $((chain / 511 + 1)) "$(image facts "$real" | sed -n 's/^maps //p')"
            round $name 16383 0
        else
            echo "left out: an image that fills its $name (the kernel wouldn't copy just $wanted pages)"
        fi
    done
}

# Checks a compressed image of this name: what is said of it, and that it is carried over into one that `swsusp` and the kernel resume. $2 is the
# last slot of its area.
carried_over() {
    real=$room/$1.img
    pages=$(copied "$real")
    saving=$(logged "$real" 'Compressing and saving image data (\([0-9]*\) pages)')
    sum=$(cksum <"$real")
    flags=$(image facts "$real" | sed -n 's/^flags //p')
    image loader "$real" >"$room/loader"
    same "$1: swsusp refuses it by name" "1|compressed $flags" "$(resumed "$room/loader" "$real")"
    same "$1: check says so before" "1||compressed $flags" "$(told "$room/loader" "$checker" check "$real")"
    same "$1: swsusp_image check" "0|whole|" "$(told /dev/null "$imager" check "$real")"
    same "$1: show" "$(printf '%s\n' 0 "image yes" "flags $flags")" "$(shown "$real" image flags)"
    image stream "$real" >"$room/wanted"
    "$imager" stream "$real" >"$room/streamed"
    same "$1: stream, each page of the kernel's log" "$((4096 * (saving + 1))) $(cksum <"$room/wanted")" "$(($(wc -c <"$room/streamed"))) $(cksum <"$room/streamed")"
    sh "$top/tools/make_area.sh" "$room/moved.img" "$2"
    same "$1: swsusp imports its stream" "0|imported $pages|" "$(told "$room/streamed" "$swsusp" import "$room/moved.img")"
    "$imager" stream "$room/moved.img" >"$room/wanted"
    same "$1: the stream of what was carried over" "$(cksum <"$room/streamed")" "$(cksum <"$room/wanted")"
    image pattern 1 0 >"$room/wanted"
    "$imager" page "$room/moved.img" "$(patterned "$real")" >"$room/page"
    same "$1: page, of a page frame with a pattern" "$(cksum <"$room/wanted")" "$(cksum <"$room/page")"
    same "$1: the area, byte for byte, after all of these" "$sum" "$(cksum <"$real")"
    copy "$room/moved.img" "$room/ours.img"
    same "$1: swsusp resumes what was carried over" "0|" "$(resumed "$room/loader" "$room/ours.img")"
    same "$1: each page, byte for byte" "pages $pages wrong 0" "$(image compare "$real" "$room/restored")"
    same "$1: the kernel resumes what was carried over" resumes "$(kernel "$room/moved.img")"
    copy "$real" "$room/given.img"
    same "$1: swsusp_image discards it" "0|discarded|" "$(told /dev/null "$imager" discard "$room/given.img")"
    same "$1: the kernel refuses what was discarded" refuses "$(kernel "$room/given.img")"
    same "$1: the kernel resumes its own image" resumes "$(kernel_of_copy "$real")"
}

part_compressed() {
    hibernated compressed lab.pages=100 hibernate= || return
    carried_over compressed 16383
    if ! command -v qemu-system-x86_64 >/dev/null; then
        echo "left out: Debian's default image (no qemu-system-x86_64)"
        return
    fi
    # With the firmware taking part, as Debian hibernates unless it is told otherwise: flag 1 beside that of the checksum.
    machine=x86-64
    sh "$top/tools/make_area.sh" "$room/default.img" 32000
    if lab build >"$room/lab.out" 2>&1 && hibernated default lab.pages=100 lab.power=platform hibernate=; then
        carried_over default 32000
    fi
    machine=mips
}

# A machine with a hardware signature, both ways.
part_signature() {
    hibernated signature lab.pages=100 lab.sig=4711 || return
    real=$room/signature.img
    pages=$(copied "$real")
    first=$(image facts "$real" | sed -n 's/^first //p')
    image saved "$real" >"$room/saved"
    image loader "$real" 4711 >"$room/loader"
    image loader "$real" 4712 >"$room/other"
    same "signature: inspect" "0|area last 16383 bad 0 image $first flags 10 hw 4711|" "$(told /dev/null "$swsusp" inspect "$real")"
    looked_at signature 16383 0 10
    same "signature: show, the signature" "$(printf '%s\n' 0 "flag nocompress" "flag hw_sig" "hw_sig 4711")" "$(shown "$real" flag hw_sig)"
    same "signature: check with the machine's" "0|resumed $pages|" "$(told "$room/loader" "$checker" check "$real")"
    same "signature: check with another's" "1||hardware 4711 own 4712" "$(told "$room/other" "$checker" check "$real")"
    copy "$real" "$room/ours.img"
    same "signature: swsusp resumes it with the machine's" "0|" "$(resumed "$room/loader" "$room/ours.img")"
    same "signature: each page, byte for byte" "pages $pages wrong 0" "$(image compare "$real" "$room/restored")"
    same "signature: swsusp hibernates that machine" "0|hibernated $((pages + $(image tables "$real")))|" \
        "$(told "$room/saved" "$swsusp" hibernate "$room/ours.img")"
    copy "$room/ours.img" "$room/other.img"
    same "signature: the kernel with the same resumes it" resumes "$(kernel "$room/ours.img" lab.sig=4711)"
    same "signature: the kernel with another refuses it" refuses "$(kernel "$room/other.img" lab.sig=4712)"
    same "signature: and the image is gone" "1|no image" "$(resumed "$room/loader" "$room/other.img")"
}

# An image with the header of an architecture.
part_x86() {
    if ! command -v qemu-system-x86_64 >/dev/null; then
        echo "left out: x86-64 (no qemu-system-x86_64)"
        return
    fi
    machine=x86-64
    sh "$top/tools/make_area.sh" "$room/x86.img" 32000
    if lab build >"$room/lab.out" 2>&1 && hibernated x86 lab.pages=100; then
        real=$room/x86.img
        pages=$(copied "$real")
        image loader "$real" >"$room/loader"
        image stranger "$real" >"$room/stranger"
        sum=$(cksum <"$real")
        looked_at x86 32000 0
        same "x86: show, the header" "$(printf '%s\n' 0 "header x86-64")" "$(shown "$real" header release version_code)"
        copy "$real" "$room/ours.img"
        same "x86: a loader with a generic header's names" "1|mismatch version code" "$(resumed "$room/stranger" "$room/ours.img")"
        copy "$real" "$room/ours.img"
        same "x86: with --any-kernel" "0|" "$(resumed "$room/stranger" --any-kernel "$room/ours.img")"
        same "x86: each page, byte for byte" "pages $pages wrong 0" "$(image compare "$real" "$room/restored")"
        same "x86: the patterns in their page frames" "patterns 100 of 100" "$(image patterns "$real.hibernate.log" "$room/restored")"
        same "x86: a second resume" "1|no image" "$(resumed "$room/loader" "$room/ours.img")"
        same "x86: Debian's kernel refuses the area afterwards" refuses "$(kernel_of_copy "$room/ours.img")"
        # A loader that carries the architecture's record passes it on.
        same "x86: check with the record" "0|resumed $pages|" "$(told "$room/loader" "$checker" check "$real")"
        same "x86: the area, after check" "$sum" "$(cksum <"$real")"
        sh "$top/tools/make_area.sh" "$room/moved.img" 32000
        same "x86: swsusp imports what swsusp_image streams" "0|imported $pages|" "$(told "$room/streamed" "$swsusp" import "$room/moved.img")"
        same "x86: Debian's kernel resumes what was moved" resumes "$(kernel "$room/moved.img")"
        image saved "$real" >"$room/saved"
        all=$((pages + $(image tables "$real")))
        copy "$room/ours.img" "$room/carried.img"
        "$swsusp" export <"$room/saved" >"$room/stream"
        same "x86: swsusp imports its stream" "0|imported $all|" "$(told "$room/stream" "$swsusp" import "$room/carried.img")"
        same "x86: Debian's kernel resumes what was carried" resumes "$(kernel "$room/carried.img")"
        same "x86: swsusp hibernates that machine" "0|hibernated $all|" "$(told "$room/saved" "$swsusp" hibernate "$room/ours.img")"
        same "x86: Debian's kernel resumes what swsusp wrote" resumes "$(kernel "$room/ours.img")"
        same "x86: Debian's kernel resumes its own image" resumes "$(kernel_of_copy "$real")"
    else
        sed 's/^/  /' "$room/lab.out"
    fi
    machine=mips
}

# Damaged images: what swsusp says of each, and what the kernel does with it. Those that the kernel refuses are tried in one boot.
part_damage() {
    [ -f "$room/plain.img" ] || hibernated plain lab.pages=100 || return
    real=$room/plain.img
    image loader "$real" >"$room/loader"
    image cases "$real" >"$room/cases"
    copy "$real" "$room/cases.img"
    lab cases "$room/cases.img" "$room/cases" >"$room/cases.out" 2>&1
    for name in $(image damage "$real"); do
        copy "$real" "$room/damaged.img"
        told=$(image damage "$room/damaged.img" "$name")
        copy "$room/damaged.img" "$room/ours.img"
        found=${told##*|} told=${told%|*}
        case $told in
        *"|resumed "*) wanted="0|" ;;
        *) wanted="1|${told#*|}" ;;
        esac
        if [ "$found" = whole ]; then status=0; else status=1; fi
        same "damage $name: swsusp_image check" "$status|$(echo "$found" | tr ';' '\n')|" "$(told /dev/null "$imager" check "$room/ours.img")"
        same "damage $name: swsusp" "$wanted" "$(resumed "$room/loader" "$room/ours.img")"
        case $told in
        resumes*) came=$(kernel "$room/damaged.img") ;;
        *) came=$(sed -n -e "s/^lab: refused, case $name\$/refuses/p" -e "s/^lab: overlooked, case $name\$/overlooks/p" "$room/cases.out") ;;
        esac
        same "damage $name: the kernel" "${told%%|*}" "$came"
    done
}

# Prints a file of an initramfs that was made in the lab's own Debian.
packed() {
    gzip -d -c "$lab/x86-64/$1" | cpio -i --quiet --to-stdout "$2"
}

# Lists the files of this repository in an initramfs.
listed() {
    gzip -d -c "$lab/x86-64/$1" | cpio -t --quiet | grep -e dirukofe -e check-resume -e swsusp
}

# Prints what the check said in a boot with one of those, and how the boot ended: `resumes`, `goes on` to a root that doesn't exist, or `stops`.
booted() {
    if lab -i "$1" resume "$2" resume=/dev/vda root=/dev/vdz rd.retry=5 rd.shell=0 rd.emergency=reboot ${3:-} >"$2.out" 2>&1; then
        end=resumes
    elif grep -q -e '^ALERT!  /dev/vdz does not exist' -e 'Warning: Could not boot' "$2.resume.log"; then
        end="goes on"
    else
        end=stops
    fi
    sed -n 's/^.*\] dirukofe: //p' "$2.resume.log"
    echo $end
}

# Debian's own initramfs with the check of packaging/initramfs before the resume, made by mkinitramfs (`tools`) and by dracut, without
# systemd in it (`dracut`) and with it (`systemd`).
part_initramfs() {
    if ! command -v qemu-system-x86_64 >/dev/null || ! command -v debootstrap >/dev/null; then
        echo "left out: an initramfs that checks before the resume (no qemu-system-x86_64, or no debootstrap)"
        return
    fi
    machine=x86-64
    lab build >"$room/lab.out" 2>&1 && lab debian "$imager" >>"$room/lab.out" 2>&1 || {
        sed 's/^/  /' "$room/lab.out"
        same "initramfs: the lab's Debian is built" yes no
        machine=mips
        return
    }
    same "initramfs: mkinitramfs puts the check before the resume" "/scripts/local-premount/dirukofe
/scripts/local-premount/resume" "$(packed tools scripts/local-premount/ORDER | sed -n 's/ "$@"$//p')"
    same "initramfs: without swsusp_image mkinitramfs takes no check" "/scripts/local-premount/resume" \
        "$(packed tools_bare scripts/local-premount/ORDER | sed -n 's/ "$@"$//p'; listed tools_bare)"
    same "initramfs: without swsusp_image dracut takes no check" "" "$(listed dracut_bare)"
    same "initramfs: dracut puts the check before the resume" "usr/lib/dracut/hooks/initqueue/finished/00-check-resume.sh
usr/lib/dracut/hooks/pre-mount/05-check-resume.sh" "$(gzip -d -c "$lab/x86-64/dracut" | cpio -t --quiet | grep check-resume.sh | grep hooks | sort)"
    real=$room/x86.img
    [ -f "$real" ] || sh "$top/tools/make_area.sh" "$real" 32000
    if [ -f "$real.hibernate.log" ] || hibernated x86 lab.pages=100; then
        copy "$real" "$room/damaged.img"
        image damage "$room/damaged.img" link_cut >/dev/null
        copy "$real" "$room/none.img"
        image damage "$room/none.img" unmarked >/dev/null
        found="map 1: no next map, though the image has $(($(logged "$real" 'Saving image data pages (\([0-9]*\) pages)') + 1)) pages"
        sum=$(cksum <"$room/damaged.img")
        for maker in tools dracut systemd; do
            checked_boots $maker
        done
        other_boots
    fi
    machine=mips
}

# With each maker: a whole image, no image, and a damaged image with both settings.
checked_boots() {
    copy "$real" "$room/copy.img"
    same "initramfs by $1: a whole image" "/dev/vda: the image is whole
resumes" "$(booted "$1" "$room/copy.img" dirukofe.check=stop)"
    copy "$room/none.img" "$room/copy.img"
    same "initramfs by $1: no image, and nothing is said" "goes on" "$(booted "$1" "$room/copy.img" dirukofe.check=stop)"
    copy "$room/damaged.img" "$room/copy.img"
    same "initramfs by $1: a damaged image" "/dev/vda: $found
/dev/vda: the image is damaged
goes on" "$(booted "$1" "$room/copy.img")"
    same "initramfs by $1: the kernel was asked for it, and gave it up" "marked no" "$(image facts "$room/copy.img" | grep marked)"
    copy "$room/damaged.img" "$room/copy.img"
    same "initramfs by $1: a damaged image, with the setting stop" "/dev/vda: $found
/dev/vda: the image is damaged
stops" "$(booted "$1" "$room/copy.img" dirukofe.check=stop)"
    same "initramfs by $1: the area then" "$sum" "$(cksum <"$room/copy.img")"
}

# An area that lies in a device like a swap file, an image that is compressed, and the check switched off.
other_boots() {
    image moved "$real" 100 >"$room/copy.img"
    same "initramfs: a whole image at an offset" "/dev/vda, offset 100: the image is whole
resumes" "$(booted tools "$room/copy.img" resume_offset=100)"
    image moved "$room/damaged.img" 100 >"$room/copy.img"
    same "initramfs: a damaged image at an offset" "/dev/vda, offset 100: $found
/dev/vda, offset 100: the image is damaged
stops" "$(booted tools "$room/copy.img" "resume_offset=100 dirukofe.check=stop")"
    copy "$real" "$room/copy.img"
    same "initramfs: with the setting off" resumes "$(booted tools "$room/copy.img" dirukofe.check=off)"
    sh "$top/tools/make_area.sh" "$room/packed.img" 32000
    hibernated packed lab.pages=100 hibernate= || return
    same "initramfs: a compressed image" "/dev/vda: the image is whole
resumes" "$(booted tools "$room/packed.img" dirukofe.check=stop)"
}

lab build >"$room/lab.out" 2>&1 || {
    sed 's/^/  /' "$room/lab.out"
    exit 1
}
for part in $parts; do
    part_"$part"
done

echo "linux_test.sh: $passed passed, $failed failed"
[ $failed = 0 ]
