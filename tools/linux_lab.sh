#!/bin/sh
# linux_lab.sh [-m MACHINE] [-d FOLDER] [-t SECONDS] [-i INITRAMFS] STEP ..: hibernates and resumes a real Linux 6.1 in qemu. The steps are:
#
#   build                 makes the machine: a kernel, and an initramfs with linux_lab/init.c as its only program
#   hibernate IMAGE [W..] boots it with IMAGE as its disk, and lets it hibernate there. If there is no such file, it is first made a swap
#                         area of 16,383 slots. The words W are settings for init.c, such as lab.pages=100, or `hibernate=`, which
#                         leaves the image compressed. Status 0 if the area has an image afterwards
#   resume IMAGE [W..]    boots it again and lets the kernel resume the image, which is used up. Status 0 if the program that was
#                         saved goes on, finds its pages as it left them, and prints the word that this very boot was handed
#   cases IMAGE CASES     boots it once and lets the kernel try to resume the image with each damage of the disk CASES, which
#                         `linux_lab/image.py cases` makes, for the MIPS machine. Status 0 if none is resumed
#   swap IMAGE            boots it and lets the kernel swap to IMAGE. Status 0 if it does
#   debian PROGRAM        for x86-64: makes a Debian of its own by debootstrap, with the kernel's modules, what `make install-initramfs`
#                         installs, and PROGRAM as its swsusp_image. In it mkinitramfs makes the initramfs `tools`, and dracut makes
#                         `dracut`, and `systemd` with systemd in it; without PROGRAM they make `tools_bare` and `dracut_bare`. A boot takes
#                         one of them with -i
#   all                   build, and then a hibernation and its resume
#
# MACHINE is mips, the default, a 64-bit little-endian MIPS whose kernel is built from Debian's linux-source-6.1, or x86-64, whose kernel
# is Debian's own, taken out of its package. What is made stays in FOLDER, by default ~/.cache/dirukofe-linux-lab. A boot that takes
# more than SECONDS, by default 180, is ended. What a boot prints is left in IMAGE.STEP.log. IMAGE's disk is written to as it is:
# keep a copy of what you still want. JOBS says how many processors a build takes.
set -eu
here=$(cd "$(dirname "$0")" && pwd)
machine=mips
lab=${HOME:-/root}/.cache/dirukofe-linux-lab
limit=180
initramfs=initramfs
while getopts m:d:t:i: option; do
    case $option in
    m) machine=$OPTARG ;;
    d) lab=$OPTARG ;;
    t) limit=$OPTARG ;;
    i) initramfs=$OPTARG ;;
    *) exit 2 ;;
    esac
done
shift $((OPTIND - 1))
jobs=${JOBS:-$(nproc)}

stop() {
    echo "linux_lab: $1" >&2
    exit 1
}

newer() {
    [ "$(find "$1" -newer "$2")" ]
}

needs() {
    for tool; do
        command -v "$tool" >/dev/null || stop "no $tool: docs/LINUX.md names Debian's packages"
    done
}

case $machine in
mips)
    emulator=qemu-system-mips64el
    compiler=mips64el-linux-gnuabi64-gcc
    disk=sda word=sdb
    ;;
x86-64)
    emulator=qemu-system-x86_64
    compiler=gcc
    disk=vda word=vdb
    ;;
*) stop "no machine $machine" ;;
esac
built=$lab/$machine

# Builds the kernel of the MIPS machine from Debian's source, unless there is one of this configuration.
build_mips() {
    source=/usr/src/linux-source-6.1.tar.xz
    [ -f $source ] || stop "no $source: docs/LINUX.md names Debian's packages"
    if [ -f "$built/kernel" ] && cmp -s "$here/linux_lab/mips.config" "$built/config" && newer "$built/kernel" $source; then
        return
    fi
    rm -rf "$built/source" "$built/objects"
    mkdir -p "$built/source" "$built/objects"
    tar -x -f $source -C "$built/source" --strip-components=1
    set -- make -s -C "$built/source" O="$built/objects" ARCH=mips CROSS_COMPILE=mips64el-linux-gnuabi64-
    KCONFIG_ALLCONFIG="$here/linux_lab/mips.config" "$@" allnoconfig >"$built/build.log" 2>&1 || stop "$built/build.log says why"
    for setting in $(grep '=' "$here/linux_lab/mips.config"); do
        grep -q -x "$setting" "$built/objects/.config" || stop "the kernel has no $setting"
    done
    "$@" -j "$jobs" vmlinux >>"$built/build.log" 2>&1 || stop "$built/build.log says why"
    cp "$built/objects/vmlinux" "$built/kernel"
    # The address of the hardware signature in memory, which the firmware sets elsewhere: the linked address without the segment's.
    mips64el-linux-gnuabi64-nm "$built/kernel" | sed -n 's/.*\(.......\) [BbDd] swsusp_hardware_signature$/0x\1/p' >"$built/sigat"
    cp "$here/linux_lab/mips.config" "$built/config"
    rm -rf "$built/source" "$built/objects"
}

# Takes Debian's kernel for x86-64, and the modules of its disks in the order in which they are loaded.
build_x86_64() {
    package=$(apt-cache depends linux-image-amd64 | sed -n 's/ *Depends: \(linux-image-6\.1.*\)/\1/p')
    [ -n "$package" ] || stop "apt knows no kernel 6.1 of Debian"
    if [ ! -f "$built/kernel" ] || [ "$(cat "$built/config")" != "$package" ]; then
        rm -rf "$built/package"
        mkdir -p "$built/package"
        (cd "$built/package" && apt-get -q download "$package") >"$built/build.log" 2>&1 || stop "$built/build.log says why"
        dpkg -x "$built/package/"*.deb "$built/package"
        rm -rf "$built/root/modules"
        mkdir -p "$built/root/modules"
        at=0
        for module in virtio_ring virtio virtio_pci_modern_dev virtio_pci_legacy_dev virtio_pci virtio_blk; do
            file=$(find "$built/package" -name "$module.ko")
            [ -z "$file" ] || cp "$file" "$built/root/modules/0$at.ko"
            at=$((at + 1))
        done
        cp "$built/package/boot/"vmlinuz-* "$built/kernel"
        echo "$package" >"$built/config"
        rm -rf "$built/package"
    fi
}

build() {
    needs "$emulator" "$compiler" cpio gzip timeout
    [ "$machine" != mips ] || needs make bc bison flex mips64el-linux-gnuabi64-nm
    mkdir -p "$built/root/proc" "$built/root/sys" "$built/root/dev"
    case $machine in
    mips) build_mips ;;
    x86-64) build_x86_64 ;;
    esac
    made=$built/initramfs
    if [ ! -f "$made" ] || newer "$here/linux_lab/init.c" "$made" || newer "$built/kernel" "$made"; then
        "$compiler" -O2 -Wall -Wextra -Werror -static -o "$built/root/init" "$here/linux_lab/init.c"
        (cd "$built/root" && find . | LC_ALL=C sort | cpio -o -H newc --quiet) | gzip >"$made.new"
        mv "$made.new" "$made"
    fi
    echo "built $built"
}

# Makes a Debian of its own, with what makes an initramfs, and the kernel's package.
build_tree() {
    tree=$built/debian
    packages="initramfs-tools,busybox,dracut-core,systemd,systemd-sysv,dbus"
    if [ "$(cat "$tree/packages" 2>/dev/null)" != "$packages" ]; then
        rm -rf "$tree"
        debootstrap --variant=minbase --include=$packages bookworm "$tree" >"$built/debian.log" 2>&1 || stop "$built/debian.log says why"
        echo $packages >"$tree/packages"
    fi
    if [ "$(cat "$tree/kernel" 2>/dev/null)" != "$package" ]; then
        rm -rf "$tree/lib/modules" "$tree/package"
        mkdir "$tree/package"
        (cd "$tree/package" && apt-get -q download "$package") >"$built/debian.log" 2>&1 || stop "$built/debian.log says why"
        dpkg -x "$tree/package/"*.deb "$tree/package"
        cp -R "$tree/package/lib/modules" "$tree/usr/lib"
        cp "$tree/package/boot/"config-* "$tree/boot"
        rm -rf "$tree/package"
        echo "$package" >"$tree/kernel"
    fi
    # Only the drivers of this machine's disks, so that the initramfs is small.
    echo MODULES=list >"$tree/etc/initramfs-tools/conf.d/lab"
    printf '%s\n' virtio_pci virtio_blk >"$tree/etc/initramfs-tools/modules"
}

# Makes an initramfs of this name by a program of that Debian.
make_initramfs() {
    made=$built/$1
    shift
    chroot "$tree" "$@" /initramfs "$version" >>"$built/debian.log" 2>&1 || stop "$built/debian.log says why"
    mv "$tree/initramfs" "$made"
}

debian() {
    [ "$machine" = x86-64 ] || stop "debian is a step of -m x86-64"
    needs debootstrap make chroot
    [ -f "$built/kernel" ] || stop "nothing is built in $built: linux_lab.sh -m $machine build"
    program=$1
    package=$(cat "$built/config")
    version=${package#linux-image-}
    build_tree
    set -- dracut --force --no-hostonly --drivers "virtio_pci virtio_blk" --add resume
    make -s -C "$here/.." install-initramfs DESTDIR="$tree" PREFIX=/usr
    rm -f "$tree/usr/bin/swsusp_image"
    make_initramfs tools_bare mkinitramfs -o
    make_initramfs dracut_bare "$@" --omit systemd
    install -m 755 "$program" "$tree/usr/bin/swsusp_image"
    make_initramfs tools mkinitramfs -o
    make_initramfs dracut "$@" --omit systemd
    make_initramfs systemd "$@"
    echo "built $built/debian"
}

# Runs the machine until it switches itself off or its time is up, and leaves in `ended` how it ended.
run_machine() {
    timeout -k 5 "$limit" "$emulator" -accel tcg "$@" -kernel "$built/kernel" -initrd "$built/$initramfs" -append "$words" \
        -drive "file=$image,format=raw,if=none,id=d0" -drive "file=$image.word,format=raw,if=none,id=d1" \
        $third -nic none -display none -monitor none -no-reboot -serial "file:$log" >"$image.qemu" 2>&1 &
    pid=$!
    # `timeout` passes the signal on to the machine that it started.
    trap 'kill "$pid" 2>/dev/null; exit 1' INT TERM HUP
    ended=0
    wait "$pid" || ended=$?
    trap - INT TERM HUP
}

# Boots the machine with an image's disk and a disk with a word, until it switches itself off.
boot() {
    step=$1 image=$2 log=$2.$1.log
    shift 2
    [ -f "$built/kernel" ] && [ -f "$built/$initramfs" ] || stop "nothing is built in $built: linux_lab.sh -m $machine build"
    needs "$emulator" timeout
    handed=$(od -A n -t x8 -N 8 /dev/urandom | tr -d ' ')
    { printf %s "$handed" && head -c 65520 /dev/zero; } >"$image.word"
    third=
    if [ "$step" = cases ]; then
        third="-drive file=$1,format=raw,if=none,id=d2 -device ide-hd,drive=d2,bus=ide.1,unit=0"
        shift
    fi
    words="console=ttyS0 panic=1 lab.mode=$step lab.disk=$disk lab.word=$word $*"
    case " $words" in
    *" hibernate="*) ;;
    *) words="$words hibernate=nocompress" ;;
    esac
    case $machine in
    mips)
        set -- -M malta -vga none -cpu MIPS64R2-generic -m 64 \
            -device ide-hd,drive=d0,bus=ide.0,unit=0 -device ide-hd,drive=d1,bus=ide.0,unit=1
        words="$words lab.sigat=$(cat "$built/sigat")"
        ;;
    x86-64)
        set -- -M pc -cpu qemu64 -m 256 -device virtio-blk-pci,drive=d0 -device virtio-blk-pci,drive=d1
        ;;
    esac
    rm -f "$log"
    run_machine "$@"
    [ $ended = 0 ] || echo "linux_lab: qemu ended with $ended: $(cat "$image.qemu")" >&2
    rm -f "$image.word" "$image.qemu"
    tr -d '\r' <"$log" >"$log.new" && mv "$log.new" "$log"
}

# Prints what the kernel and init.c said of this boot, without the time stamps.
said() {
    sed -n -e 's/^\(\[[ 0-9.]*\] \)*\(PM: .*\)/\2/p' -e '/^lab: \(frames\|slots\)/d' -e 's/.*\(lab: .*\)/\1/p' "$log"
}

hibernate() {
    [ -f "$1" ] || sh "$here/make_area.sh" "$1" 16383
    boot hibernate "$@"
    said
    [ "$(dd if="$1" bs=1 skip=4086 count=9 2>/dev/null)" = S1SUSPEND ]
}

resume() {
    boot resume "$@"
    said
    grep -q -x "lab: resumed, word $handed" "$log" &&
        grep -q -x 'lab: patterns good \([1-9][0-9]*\) of \1, let out good \([0-9]*\) of \2' "$log"
}

cases() {
    boot cases "$@"
    said
    grep -q -x 'lab: no more cases' "$log"
}

swap() {
    boot swap "$@"
    said
    grep -q -x 'lab: swaps' "$log"
}

case ${1-} in
build)
    build
    ;;
hibernate | resume | cases | swap | debian)
    step=$1
    shift
    [ $# -ge 1 ] || stop "$step wants a file"
    $step "$@"
    ;;
all)
    build
    room=$(mktemp -d)
    trap 'rm -rf "$room"' EXIT
    hibernate "$room/image" lab.pages=100 lab.used=64
    resume "$room/image"
    ;;
*) stop "the steps are build, hibernate IMAGE, resume IMAGE, cases IMAGE CASES, swap IMAGE, debian PROGRAM, all" ;;
esac
