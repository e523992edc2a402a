"""How much memory a program takes while it replays a script or reads a dump, as the system reports it: memory that nothing was written
to costs nothing.

A program waits when nobody takes its output, and is looked at then.
"""
import fcntl
import re
import struct
import subprocess
import termios
import time

from harness import Mismatch, programs, run

# The replies to `LINES` lines fill a pipe, which holds 64 KiB.
LINES = 20_000

# A machine of the most page frames, with an area of the most slots, that a script can have.
LARGEST = "zone 0 65536\narea 16383\n"

BOOT = "boot\nsteps core 2\n"


def waiting(pipe):
    """Returns how many bytes wait to be read."""
    return struct.unpack("i", fcntl.ioctl(pipe, termios.FIONREAD, b"\0" * 4))[0]


def most_memory(given, name, *words):
    """Returns the most memory, in MiB, that a program has had when it waits for someone to take its output."""
    with subprocess.Popen([programs[name], *words], stdin=subprocess.PIPE, stdout=subprocess.PIPE) as program:
        program.stdin.write(given)
        program.stdin.close()
        before, now, rounds = -1, 0, 0
        while (now == 0 or now != before) and rounds < 600:
            time.sleep(0.1)
            before, now, rounds = now, waiting(program.stdout), rounds + 1
        with open(f"/proc/{program.pid}/status", encoding="ascii") as status:
            found = re.search(r"VmHWM:\s+(\d+) kB", status.read())
        program.kill()
    if not found:
        raise Mismatch(f"{name} has ended before anyone took what it prints")
    return int(found[1]) / 1024


def check_memory(most, given, name, *words):
    """Checks that a program that prints more than a pipe holds has had at most `most` MiB."""
    had = most_memory(given, name, *words)
    if had > most:
        raise Mismatch(f"{name} {words[0]}: {had:.1f} MiB of memory for at most {most}")


def check_replay(most, script):
    """Checks the same of the replay of a script, with lines after it whose replies fill a pipe."""
    check_memory(most, (script + "show 1 9 0\n" * LINES).encode(), "swsusp", "replay")


def test_a_script_that_uses_a_few_page_frames():
    check_replay(8, BOOT + "claim 1 9\nstore 1 9 0 7\n")


def test_the_largest_machine_that_uses_a_few_page_frames():
    check_replay(8, LARGEST + BOOT + "claim 1 60000\nstore 1 60000 0 7\n")


def test_a_resume_whose_loader_holds_all_page_frames():
    check_replay(8, LARGEST + BOOT + "hibernate\nsteps core 200\nresume 0-65535\nsteps core 30\n")


def test_a_dump_of_the_largest_machine_that_uses_a_few_page_frames():
    script = LARGEST + BOOT + "claim 1 60000\nstore 1 60000 0 7\n"
    dump = run("swsusp_machine", "make", stdin=script.encode())[1]
    check_memory(8, dump, "swsusp_machine", "loader")
    check_memory(8, dump, "swsusp_machine", "core")
