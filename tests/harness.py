"""Runs of the built programs, and what they must print.

Each test writes down what it expects, from what docs/MACHINE.md says of the plain machine, and never takes it from the program.
"""
import re
import subprocess

# The programs, by their names; run.py sets them.
programs = {}

# A pick says which of each 64 sectors that a cut or a failing write reaches keep their last bytes: those whose bit is set. None, all, and
# only the sector of the mark.
NONE = 0
ALL = 2**64 - 1
MARK = 128


class Mismatch(Exception):
    """The output isn't the expected one."""


def first_difference(got, wanted):
    """Returns the number of the first line that differs, counted from 1, with the printed line and the expected one."""
    lines = got.splitlines(), wanted.splitlines()
    for at in range(max(map(len, lines))):
        one, other = (lines[k][at] if at < len(lines[k]) else None for k in range(2))
        if one != other:
            return f"line {at + 1}: printed {one!r} for {other!r}"
    return f"printed {got!r} for {wanted!r}"


def run(*words, stdin=b""):
    """Runs the program that the first word names over this input. Returns its status, its output and its note."""
    words = [programs[words[0]], *map(str, words[1:])]
    ran = subprocess.run(words, input=stdin, capture_output=True, timeout=120, check=False)
    return ran.returncode, ran.stdout, ran.stderr.decode()


def run_before_the_end(*words, stdin):
    """Runs the program over this input, which stays open. Returns its status, its output and its note."""
    words = [programs[words[0]], *map(str, words[1:])]
    with subprocess.Popen(words, stdin=subprocess.PIPE, stdout=subprocess.PIPE, stderr=subprocess.PIPE) as ran:
        ran.stdin.write(stdin)
        ran.stdin.flush()
        try:
            ran.wait(timeout=60)
        except subprocess.TimeoutExpired:
            ran.kill()
            raise Mismatch(f"{len(stdin)} bytes of input were not enough") from None
        return ran.returncode, ran.stdout.read(), ran.stderr.read().decode()


def check(ran, status, out=b"", note=""):
    """Checks that the run ended with this status, and printed exactly these bytes and this note."""
    if (ran[0], ran[2]) != (status, note):
        raise Mismatch(f"status {ran[0]} and {ran[2]!r} for {status} and {note!r}")
    if ran[1] != out:
        raise Mismatch(first_difference(ran[1].decode(errors="replace"), out.decode(errors="replace")))


def check_same(what, got, wanted):
    if got != wanted:
        raise Mismatch(f"{what} differs")


def check_line(ran, line):
    """Checks that the run ended with status 0 and printed this line."""
    check(ran, 0, f"{line}\n".encode())


def check_refused(ran, note, status=1):
    """Checks that the run printed nothing but this note, and ended with this status."""
    check(ran, status, note=note + "\n")


def check_replay(script, text, status=0, note=""):
    """Checks that the replay of this script ends with this status, and prints exactly this text and this note."""
    check(run("swsusp", "replay", stdin=script.encode()), status, text.encode(), note)


def counts(before, first, last, after=""):
    """Returns a reply for each number from `first` to `last`."""
    return [f"{before}{k}{after}" for k in range(first, last + 1)]


def replies_of(line):
    """Returns the replies that a line of a transcript stands for: `more 1 .. 14 of 15` is one for each number."""
    run = re.fullmatch(r"(.* )(\d+) \.\. (\d+)(.*)", line)
    return counts(run[1], int(run[2]), int(run[3]), run[4]) if run else [line]


class Play:
    """A script, and what its replay must print."""

    def __init__(self, settings=""):
        self.script = settings
        self.text = ""

    def turn(self, lines, *replies):
        """Adds lines to the script, and what their events must print."""
        self.script += lines + "\n"
        self.text += "".join(reply + "\n" for reply in replies)

    def tells(self, transcript):
        """Adds a transcript: a line of the script after each `> `, and below it what that line must print."""
        for line in filter(None, map(str.strip, transcript.splitlines())):
            if line.startswith("> "):
                self.turn(line[2:])
            else:
                self.text += "".join(reply + "\n" for reply in replies_of(line))

    def check(self):
        check_replay(self.script, self.text)


def check_transcript(*transcripts):
    """Checks that the replay of the lines after `> ` prints exactly the other lines."""
    play = Play()
    for transcript in transcripts:
        play.tells(transcript)
    play.check()
