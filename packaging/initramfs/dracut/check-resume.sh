#!/bin/sh
# Checks the image of the resume device once, as soon as the device exists. The status is always 0, so that the boot goes on.
# shellcheck source=/dev/null
command -v getarg > /dev/null || . /lib/dracut-lib.sh

# The function runs in a subshell, since dracut reads this file into its own shell.
check_resume() (
    [ ! -e /run/dirukofe.checked ] || exit 0
    ! getarg noresume > /dev/null || exit 0
    device=$(label_uuid_to_dev "$(getarg resume=)")
    [ -b "$device" ] || exit 0
    : > /run/dirukofe.checked
    offset=$(getarg resume_offset=)
    sh /lib/dracut/dirukofe-check.sh "$device" "${offset:-0}" && exit 0
    why="dirukofe: the image on $device is damaged, and dirukofe.check=stop is set. After an exit the kernel gets it all the same."
    # After an exit from the shell the boot goes on. Without a shell (rd.shell=0), or with an action after it (rd.emergency=), the machine ends, and
    # nothing goes on meanwhile: if no program ends it, the kernel switches it off.
    if getargbool 1 rd.shell && [ -z "$(getarg rd.emergency)" ]; then
        emergency_shell -n dirukofe "$why"
        exit 0
    fi
    (emergency_shell -n dirukofe "$why") || echo o > /proc/sysrq-trigger
    while :; do sleep 60; done
)

check_resume
