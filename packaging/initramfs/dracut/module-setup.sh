#!/bin/bash
# A module of dracut: checks the image of the resume device by swsusp_image, if that is installed, before the kernel resumes it.
# shellcheck disable=SC2154

check() {
    require_binaries swsusp_image || return 1
    return 0
}

install() {
    dracut_module_included resume || return 0
    inst_multiple swsusp_image
    inst_script "$moddir/check.sh" /lib/dracut/dirukofe-check.sh
    inst_script "$moddir/check-resume.sh" /lib/dracut/dirukofe-check-resume.sh
    if dracut_module_included systemd; then
        # The units that resume: the first up to systemd 254, the second from 255 on.
        for unit in systemd-hibernate-resume@.service systemd-hibernate-resume.service; do
            inst_simple "$moddir/resume.conf" "$systemdsystemunitdir/$unit.d/dirukofe.conf"
        done
    else
        # A job of the queue resumes (00resume.sh), or a script before the root is mounted (10-resume.sh): this check comes before each of the two.
        inst_hook initqueue/finished 00 "$moddir/check-resume.sh"
        inst_hook pre-mount 05 "$moddir/check-resume.sh"
    fi
}
