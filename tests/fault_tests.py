"""Calls of the disk that fail at any point: in a boot, a hibernation, its undo, a settling and a resume."""
from harness import ALL, NONE, Play, check_transcript, counts

# A machine with page frames 0 to 4095, the tables in the first seven of them, and 3001 slots, each on the block of its number.
MACHINE = "zone 0 4096\narea 3000\n"

# The number of steps of a hibernation, and of a resume: 8 page frames are saved, the tables' and the task's, so the image has 10 pages and
# a map.
STEPS = 15

# More steps than an operation and its undo take.
ALL_STEPS = 18


# The calls that an arm lets fail.


def test_fault_in_boot():
    """The sync of a boot fails: the machine is off, and boots again."""
    check_transcript("""
        > arm 1 1 0
        ok
        > boot
        more 0 of 2
        > step core
        sync fault same
        > step core
        idle
        > boot
        more 0 of 2
        > step core
        more 1 of 2
    """)


def test_an_arm_outlives_a_restart():
    check_transcript("""
        > arm 1 1 0
        ok
        > cut 0
        cut
        > boot
        more 0 of 2
        > step core
        sync fault same
    """)


def test_count_0_disarms():
    check_transcript("""
        > arm 1 1 0
        ok
        > arm 1 0 0
        ok
        > boot
        more 0 of 2
        > steps core 2
        more 1 of 2
        booted image no
    """)


def test_a_later_arm_replaces_the_earlier_one():
    check_transcript("""
        > arm 1 1 0
        ok
        > arm 2 1 0
        ok
        > boot
        more 0 of 2
        > steps core 2
        more 1 of 2
        read fault same
    """)


# Every call of a hibernation, and every call of a resume, fails once, alone and together with the next one. After the cut the image is resumed
# once, or none exists.


class Faults(Play):
    """Rounds of a machine whose disk fails."""

    def __init__(self):
        super().__init__(MACHINE)

    def boots(self):
        """Task 3 claims page frame 10 and stores 77 in it."""
        self.turn("boot\nsteps core 2", "more 0 of 2", "more 1 of 2", "booted image no")
        self.turn("claim 3 10\nstore 3 10 0 77", "ok", "ok")

    def ends(self, before, first, after, end):
        """Expects the steps before the one that fails, the end of the operation, and then nothing left to do."""
        idle = ["idle"] * (ALL_STEPS - (first - 1) - len(end))
        self.turn(f"steps core {ALL_STEPS}", *counts(before, 1, first - 1, after), *end, *idle)

    def fails_to_hibernate(self, first, count, pick, end):
        """A hibernation in which `count` calls from number `first` on fail, and its end. If such a call is a write, the sectors of the pick take their
        bytes all the same."""
        self.boots()
        self.turn(f"hibernate\narm {first} {count} {pick}", "more 0 of 15", "ok")
        self.ends("more ", first, " of 15", end)

    def fails_to_resume(self, first, count, pick, end):
        """An undisturbed hibernation, and then a resume of its image in which `count` calls from number `first` on fail, and the end of that resume."""
        self.boots()
        self.turn("hibernate\nsteps core 15", *counts("more ", 0, STEPS - 1, " of 15"), "hibernated 8")
        self.turn(f"resume\narm {first} {count} {pick}", "loading 0", "ok")
        self.ends("loading ", first, "", [end])

    def is_found(self, image):
        """If an image exists, the machine is resumed. Then the power is cut."""
        rest = [*counts("loading ", 2, STEPS - 1), "resumed 8"] if image else ["no image", *["idle"] * (STEPS - 2)]
        self.turn("resume\nsteps core 15", "loading 0", "loading 1", *rest)
        self.turn("cut 0", "cut")

    def is_resumed(self, cut, image):
        """The power is cut, and the machine is resumed twice, from whatever is on the disk. No call fails any more."""
        self.turn(f"arm 1 0 0\ncut {cut}", "ok", "cut")
        self.is_found(image)
        self.is_found(False)


def end_of_hibernation(first, count):
    """Returns the end of a hibernation whose call number `first` fails, and the next call too if `count` is 2. The first 11 calls write pages and
    the map; then come a sync, the read of the header block, the write of the mark and its sync."""
    undone = {14: "write", 15: "sync"}
    if first in undone:
        kind = undone[first]
        ends = [f"undo {kind} 1", f"{kind} fault gone"] if count == 1 else [f"{kind} fault unsure"]
        return [f"undo {kind} 0", *ends]
    return [{12: "sync fault same", 13: "read fault same"}.get(first, "write fault same")]


def check_hibernations(count, pick):
    """Checks that no such hibernation leaves an image: if the mark was written, it was cleared again, if only by a write that failed and
    reached the sector all the same."""
    play = Faults()
    for first in range(1, STEPS + 1):
        for cut in [ALL, NONE]:
            play.fails_to_hibernate(first, count, pick, end_of_hibernation(first, count))
            play.is_resumed(cut, False)
    play.check()


def test_each_call_of_a_hibernation():
    check_hibernations(1, NONE)


def test_each_two_calls_of_a_hibernation():
    check_hibernations(2, ALL)


def test_each_moment_behind_a_call_that_fails():
    """The power is cut after the step that failed, and after each step of its undo. The image exists only if the sync after the mark
    has failed and the cut keeps the mark, until the undo has written."""
    play = Faults()
    for first in range(1, STEPS + 1):
        end = end_of_hibernation(first, 1)
        replies = counts("more ", 1, first - 1, " of 15") + end
        for steps in range(first, first + len(end)):
            for cut in [ALL, NONE]:
                play.boots()
                play.turn(f"hibernate\narm {first} 1 0", "more 0 of 15", "ok")
                play.turn(f"steps core {steps}", *replies[:steps])
                play.is_resumed(cut, (first, steps, cut) == (15, 15, ALL))
    play.check()


def test_undo_leaves_the_mark():
    """A write that fails leaves every sector as it was: the mark stays, since the undo's write fails too. Without a sync the last bytes
    are on the disk only if the cut keeps them."""
    play = Faults()
    for cut, image in [(ALL, True), (NONE, False)]:
        play.fails_to_hibernate(15, 2, NONE, end_of_hibernation(15, 2))
        play.is_resumed(cut, image)
    play.check()


# The end of a resume whose call of this number fails: a sync, a read of the header block, its write, a sync, and then reads.
ENDS_OF_RESUMES = {
    1: "sync fault same",
    2: "read fault same",
    3: "write fault unsure",
    4: "sync fault unsure",
    **{first: "read fault gone" for first in range(5, STEPS + 1)},
}


def is_there(first, written, keeps):
    """Returns whether the image exists after a resume whose call number `first` failed, and a cut that keeps the last bytes of all sectors or of
    none. Up to the read nothing was written. The write that clears the mark has reached every sector or none, and no sync followed."""
    return {1: True, 2: True, 3: not (written and keeps), 4: not keeps}.get(first, False)


def check_resumes(count, pick):
    play = Faults()
    for first, end in ENDS_OF_RESUMES.items():
        for cut in [ALL, NONE]:
            play.fails_to_resume(first, count, pick, end)
            play.is_resumed(cut, is_there(first, pick == ALL, cut == ALL))
    play.check()


def test_each_call_of_a_resume():
    check_resumes(1, NONE)


def test_each_two_calls_of_a_resume():
    check_resumes(2, ALL)


# Undoing and settling.

HIBERNATES = """
    > zone 0 4096
    > area 3000
    > boot
    more 0 of 2
    > steps core 2
    more 1 of 2
    booted image no
    > claim 3 10
    ok
    > store 3 10 0 77
    ok
    > hibernate
    more 0 of 15
"""

# The sync after the mark's write fails, and then so does the write that clears the mark: the machine runs, and may hold an image.
IS_UNSURE = HIBERNATES + """
    > arm 15 2 0
    ok
    > steps core 14
    more 1 .. 14 of 15
    > steps core 2
    undo sync 0
    sync fault unsure
"""


def test_undo_fails_settle():
    """A settling takes the image away."""
    check_transcript(IS_UNSURE, """
        > hibernate
        closed
        > settle
        more 0 of 3
        > steps core 3
        more 1 of 3
        more 2 of 3
        settled
        > hibernate
        more 0 of 15
    """)


def test_undo_succeeds():
    """Only the sync fails: the undo clears the mark, and the machine holds no image."""
    check_transcript(HIBERNATES, """
        > arm 15 1 0
        ok
        > steps core 14
        more 1 .. 14 of 15
        > steps core 3
        undo sync 0
        undo sync 1
        sync fault gone
        > settle
        nothing held
        > hibernate
        more 0 of 15
    """)


def test_settling_fails():
    """A call of a settling fails: the machine may hold an image, is closed to a hibernation, and can be settled again."""
    check_transcript(IS_UNSURE, """
        > settle
        more 0 of 3
        > arm 1 1 0
        ok
        > step core
        read fault same
        > hibernate
        closed
        > settle
        more 0 of 3
        > arm 2 1 0
        ok
        > steps core 2
        more 1 of 3
        write fault unsure
        > hibernate
        closed
        > settle
        more 0 of 3
        > arm 3 1 0
        ok
        > steps core 3
        more 1 of 3
        more 2 of 3
        sync fault unsure
        > hibernate
        closed
    """)


def test_write_fault_then_again():
    check_transcript(HIBERNATES, """
        > arm 3 1 0
        ok
        > steps core 2
        more 1 of 15
        more 2 of 15
        > step core
        write fault same
        > hibernate
        more 0 of 15
    """)
