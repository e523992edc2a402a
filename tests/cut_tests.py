"""Power cuts after each step of a hibernation, of a page that goes out, and of a resume, for different sets of unsynced sectors that survive.

An image exists if and only if the signature sector is on the disk after the cut. It is resumed once, and gives back the word in memory and
the page in its slot.
"""
from harness import ALL, MARK, NONE, Play, counts

# The number of steps of a hibernation, and of a resume, of the tables' 6 page frames and the task's one: the image has 9 pages.
STEPS = 14

# After such a cut no sector keeps its last bytes, each sector does, or only the sector of the mark.
PICKS = [NONE, ALL, MARK]

# Of each 64 sectors only one keeps its last bytes, each in turn.
EACH_SECTOR = [1 << sector for sector in range(64)]


def later(word):
    """Returns the word that is stored after the page with the first word has gone out."""
    return word ^ 1


def steps_made(before, steps, after, end):
    """Returns a line for each step: the first is the event's own, and `end` is the line of the very last step."""
    return counts(before, 0, min(steps, STEPS - 1), after) + ([end] if steps == STEPS else [])


class Cuts(Play):
    """Rounds that each begin and end with a machine that is off, over an area of 1,100 slots."""

    def __init__(self):
        super().__init__("area 1100\n")

    def boots(self):
        self.turn("boot\nsteps core 2", "more 0 of 2", "more 1 of 2", "booted image no")

    def hibernates(self, word, steps):
        """A machine boots, and its task stores the word, whose page goes out to a slot. Then the task stores another word, and the machine makes
        the given number of steps of a hibernation."""
        self.boots()
        self.turn("claim 3 10", "ok")
        self.turn(f"store 3 10 0 {word}", "ok")
        self.turn("out 3 10", "slot 1")
        self.turn("step 3", "written 1")
        self.turn(f"store 3 10 0 {later(word)}", "ok")
        self.turn(f"hibernate\nsteps core {steps}", *steps_made("more ", steps, " of 14", "hibernated 7"))

    def loads(self, steps):
        """The machine, which is off, makes the given number of steps of a resume."""
        self.turn(f"resume\nsteps core {steps}", *steps_made("loading ", steps, "", "resumed 7"))

    def is_cut(self, pick):
        self.turn(f"cut {pick}", "cut")

    def ends(self, word, image):
        """If an image exists, the machine is resumed and shows its last word, and the first word once the page is back from its slot."""
        if image:
            self.loads(STEPS)
            self.turn("show 3 10 0", f"word {later(word)}")
            self.turn("in 3 1 10", "reading 1")
            self.turn("step 3", "read 1")
            self.turn("show 3 10 0", f"word {word}")
        else:
            self.turn("resume\nsteps core 14", "loading 0", "loading 1", "no image", *["idle"] * 12)
            self.turn("show 3 10 0", "not on")
        self.is_cut(NONE)

    def hibernations(self, pick):
        """The power is cut after each step of a hibernation. From step 13 on the mark is written, and from step 14 on it is synced."""
        for steps in range(1, STEPS + 1):
            self.hibernates(pick, steps)
            self.is_cut(pick)
            self.ends(pick, steps == 14 or steps == 13 and pick & MARK != 0)

    def outs(self, pick):
        """The power is cut before and after the write of a page to its slot: no image exists, and no task has the slot."""
        for steps in ["", "> step 3\nwritten 1"]:
            self.boots()
            self.turn("claim 3 10", "ok")
            self.turn("out 3 10", "slot 1")
            self.tells(steps)
            self.is_cut(pick)
            self.ends(pick, False)

    def resumes(self, pick):
        """The power is cut after each step of a resume. From step 3 on the mark is cleared, and from step 4 on that is synced."""
        for steps in range(1, STEPS + 1):
            self.hibernates(pick, STEPS)
            self.loads(steps)
            self.is_cut(pick)
            self.ends(pick, steps < 3 or steps == 3 and pick & MARK == 0)


def check(rounds, picks):
    play = Cuts()
    for pick in picks:
        rounds(play, pick)
    play.check()


def test_hibernations():
    check(Cuts.hibernations, PICKS + EACH_SECTOR)


def test_outs():
    check(Cuts.outs, PICKS + EACH_SECTOR)


def test_resumes():
    check(Cuts.resumes, PICKS + EACH_SECTOR)
