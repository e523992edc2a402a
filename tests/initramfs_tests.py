"""What the check before a resume (packaging/initramfs/check.sh) writes to the kernel's log, for images of real kernels and damaged ones.

The script runs as it is, except for two of the kernel's files that it names: /proc/cmdline, and /dev/kmsg, where each write is a message.
tools/linux_test.sh boots with the script.
"""
import pathlib
import shlex
import subprocess
import tempfile

from harness import check, check_same, programs
from linux_tests import area, reader

SCRIPT = pathlib.Path(__file__).resolve().parent.parent / "packaging" / "initramfs" / "check.sh"
ERROR, REMARK = "<3>", "<6>"


def ran_script(device, *words, offset=(), program=None):
    """Returns the script's result and its messages, if the kernel's command line has these words among others."""
    with tempfile.TemporaryDirectory() as room:
        room = pathlib.Path(room)
        line, log, script = room / "cmdline", room / "log", room / "check.sh"
        line.write_text(" ".join(["BOOT_IMAGE=/vmlinuz", "root=/dev/sda1", "ro", *words, "quiet"]) + "\n")
        log.touch()
        text = SCRIPT.read_text()
        script.write_text(text.replace("< /proc/cmdline", f"< {shlex.quote(str(line))}").replace("> /dev/kmsg", f">> {shlex.quote(str(log))}"))
        if program:
            (room / "swsusp_image").write_text(program)
            (room / "swsusp_image").chmod(0o755)
        else:
            (room / "swsusp_image").symlink_to(pathlib.Path(programs["swsusp_image"]).resolve())
        command = ["sh", script, device, *map(str, offset)]
        ran = subprocess.run(command, env={"PATH": f"{room}:/usr/bin:/bin"}, capture_output=True, timeout=120, check=False)
        return (ran.returncode, ran.stdout, ran.stderr.decode()), log.read_text().splitlines()


def check_told(device, *messages, words=(), status=0, **settings):
    ran, log = ran_script(device, *words, **settings)
    check(ran, status)
    check_same(f"the messages {log}", log, [f"{level}dirukofe: {text}" for level, text in messages])


def test_whole_images():
    for name in ["plain", "x86_64"]:
        with area(name) as (file, _):
            for words in [(), ("dirukofe.check=go",), ("dirukofe.check=stop",)]:
                check_told(file.path, (REMARK, f"{file.path}: the image is whole"), words=words)


def test_nothing_is_said_of_no_image():
    with area("plain") as (file, image):
        file.write(0, image.header[:4086] + b"SWAPSPACE2")
        for words in [(), ("dirukofe.check=stop",)]:
            check_told(file.path, words=words)


def test_damaged_images_are_told_with_their_place():
    """The setting decides the status only."""
    for name in reader.damages():
        with area("plain") as (file, _):
            _, _, found = getattr(reader.Damage(file.path), name)()
            if not found or found == ["no image"]:
                continue
            told = [(ERROR, f"{file.path}: {text}") for text in [*found, "the image is damaged"]]
            before = file.bytes()
            check_told(file.path, *told)
            check_told(file.path, *told, words=["dirukofe.check=stop"], status=1)
            check_same(f"{name}: the area", file.bytes(), before)


def test_a_compressed_image_is_checked():
    with area("compressed") as (file, image):
        for words in [(), ("dirukofe.check=stop",)]:
            check_told(file.path, (REMARK, f"{file.path}: the image is whole"), words=words)
        file.change((image.chain[1], 0, 0))
        text = f"unit 1 map 1 block {image.maps[0]} entry 1: length 0"
        told = [(ERROR, f"{file.path}: {it}") for it in [text, "the image is damaged"]]
        check_told(file.path, *told)
        check_told(file.path, *told, words=["dirukofe.check=stop"], status=1)


def test_a_compressed_image_with_a_finding():
    with area("compressed") as (file, image):
        file.write(0, image.header[:4076] + b"S1SUSPEND\0" + image.header[4086:])
        told = [(ERROR, f"{file.path}: {text}") for text in ["header: the original signature is no swap area's", "the image is damaged"]]
        check_told(file.path, *told)
        check_told(file.path, *told, words=["dirukofe.check=stop"], status=1)


def test_many_findings_are_counted():
    """The kernel takes ten messages at a time."""
    with area("plain") as (file, image):
        damage = reader.Damage(file.path)
        for k in range(100, 110):
            damage.entry(k, 0)
        damage.file.close()
        told = [*(f"map 1 block {image.maps[0]} entry {k}: block 0" for k in range(100, 106)), f"and 4 more: swsusp_image check {file.path}"]
        check_told(file.path, *((ERROR, f"{file.path}: {text}") for text in [*told, "the image is damaged"]))


def test_an_area_in_a_device():
    with area("plain") as (file, _):
        file.path.write_bytes(bytes(409600) + file.bytes())
        # The image still names blocks of the area, not of the device, so at the offset the header is found, but the map isn't.
        check_told(file.path)
        ran, log = ran_script(file.path, "dirukofe.check=stop", offset=[100])
        check(ran, 1)
        check_same("the place", log[-1], f"{ERROR}dirukofe: {file.path}, offset 100: the image is damaged")


def test_the_check_is_switched_off():
    with area("plain") as (file, _):
        reader.Damage(file.path).link_cut()
        check_told(file.path, words=["dirukofe.check=off"])


def test_the_last_setting_counts_and_others_are_go():
    with area("plain") as (file, _):
        whole = (REMARK, f"{file.path}: the image is whole")
        check_told(file.path, whole, words=["dirukofe.check=off", "dirukofe.check=go"])
        wrong = (ERROR, "dirukofe.check=halt is none of go, stop and off: taken as go")
        check_told(file.path, wrong, whole, words=["dirukofe.check=halt"])
        _, _, (text,) = reader.Damage(file.path).link_cut()
        told = [(ERROR, f"{file.path}: {it}") for it in [text, "the image is damaged"]]
        check_told(file.path, wrong, *told, words=["dirukofe.check=halt"])


def test_a_check_that_fails_is_no_damage():
    """A device that can't be opened, no memory, or a processor for which the program isn't built."""
    for status, note in [(7, "open fault"), (6, "no memory"), (127, "the processor lacks a feature")]:
        told = (ERROR, f"/dev/none: not checked: swsusp_image ended with status {status}: {note}")
        check_told("/dev/none", told, words=["dirukofe.check=stop"], program=f"#!/bin/sh\necho {note} >&2\nexit {status}\n")
    ran, (message,) = ran_script("/dev/none", "dirukofe.check=stop")
    check(ran, 0)
    begin = f"{ERROR}dirukofe: /dev/none: not checked: swsusp_image ended with status 7: open fault"
    check_same(f"the message {message}", message[: len(begin)], begin)
