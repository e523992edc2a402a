#!/bin/sh
# check.sh DEVICE [OFFSET]: writes to the kernel's log what `swsusp_image check` finds about the image on DEVICE, before the kernel resumes it.
# OFFSET is that of resume_offset, the block of the area's header. Nothing else is written.
#
# The status is 1 if and only if the image has a finding and the kernel's command line says dirukofe.check=stop. A check that fails is reported as
# failed and is no reason to stop. If the area has no image, nothing is said.
device=$1
offset=${2:-0}
# The most findings that are written one by one: the kernel takes only a limited number of lines at a time from a program.
most=6

# Errors are shown on the console even of a quiet boot; remarks aren't.
error() {
    echo "<3>dirukofe: $1" > /dev/kmsg
}

remark() {
    echo "<6>dirukofe: $1" > /dev/kmsg
}

setting=go
read -r words < /proc/cmdline
for word in $words; do
    case $word in dirukofe.check=*) setting=${word#*=} ;; esac
done
case $setting in
go | stop) ;;
off) exit 0 ;;
*)
    error "dirukofe.check=$setting is none of go, stop and off: taken as go"
    setting=go
    ;;
esac

place=$device
if [ "$offset" = 0 ]; then
    set -- check "$device"
else
    place="$device, offset $offset"
    set -- check --offset "$offset" "$device"
fi
status=0
told=$(swsusp_image "$@" 2>&1) || status=$?

# The lines that say what is wrong: all but the last one, which counts them.
findings=
tell() {
    shown=0
    while read -r line; do
        case $line in
        *[0-9]" findings" | whole | "no image" | "") ;;
        *)
            findings=yes
            shown=$((shown + 1))
            [ $shown -gt $most ] || error "$place: $line"
            ;;
        esac
    done
    [ $shown -le $most ] || error "$place: and $((shown - most)) more: swsusp_image $*"
}

case $status in
0) remark "$place: the image is whole" ;;
1)
    tell "$@" <<TOLD
$told
TOLD
    if [ "$findings" ]; then
        error "$place: the image is damaged"
        [ "$setting" = go ] || exit 1
    fi
    ;;
*) error "$place: not checked: swsusp_image ended with status $status: $told" ;;
esac
exit 0
