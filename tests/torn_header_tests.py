"""Each of the 256 sets of the header block's sectors that may survive a cut, or that a failing write may have reached: only the mark's sector
decides whether the image exists, and it is resumed at most once."""
from harness import ALL, MARK, NONE, Play, counts

# The number of steps of a hibernation, and of a resume, of the tables' 4 page frames and the task's one: the image has 7 pages and a map. A
# hibernation has written the mark by step 11, and a resume has cleared it by step 3.
STEPS = 12

# The sets of a block's 8 sectors.
SETS = range(256)


class Torn(Play):
    """Rounds of a machine, each with a word of its own."""

    def __init__(self):
        super().__init__("zone 0 1100\narea 1100\n")

    def begins(self, word):
        """The machine boots, its task stores the word, and a hibernation begins."""
        self.turn("boot\nsteps core 2", "more 0 of 2", "more 1 of 2", "booted image no")
        self.turn(f"claim 3 10\nstore 3 10 0 {word}", "ok", "ok")
        self.turn("hibernate", "more 0 of 12")

    def writes(self, steps):
        self.turn(f"steps core {steps}", *counts("more ", 1, steps, " of 12"))

    def hibernates(self, word):
        self.begins(word)
        self.writes(STEPS - 1)
        self.turn("step core", "hibernated 5")

    def loads(self, steps):
        self.turn(f"resume\nsteps core {steps}", *counts("loading ", 0, steps))

    def arms(self, first, pick):
        self.turn(f"arm {first} 1 {pick}", "ok")

    def is_cut(self, pick):
        self.turn(f"cut {pick}", "cut")

    def ends(self, word, image):
        """If an image exists, the machine is resumed with its word. After that no image exists."""
        if image:
            self.loads(STEPS - 1)
            self.turn("step core\nshow 3 10 0", "resumed 5", f"word {word}")
            self.is_cut(NONE)
        self.turn("resume\nsteps core 2", "loading 0", "loading 1", "no image")


def test_marks_that_are_cut():
    """The mark is written, but not synced."""
    play = Torn()
    for pick in SETS:
        play.begins(pick)
        play.writes(11)
        play.is_cut(pick)
        play.ends(pick, pick & MARK != 0)
    play.check()


def test_takings_back_that_are_cut():
    """The mark is cleared, but that isn't synced."""
    play = Torn()
    for pick in SETS:
        play.hibernates(pick)
        play.loads(3)
        play.is_cut(pick)
        play.ends(pick, pick & MARK == 0)
    play.check()


def test_marks_that_fail():
    """The mark's write fails, and then the write that clears the mark, which reaches no sector. The machine may have an image."""
    play = Torn()
    for pick in SETS:
        play.begins(pick)
        play.arms(11, pick)
        play.writes(10)
        play.turn("step core", "undo write 0")
        play.arms(1, NONE)
        play.turn("step core\nhibernate", "write fault unsure", "closed")
        play.is_cut(ALL)
        play.ends(pick, pick & MARK != 0)
    play.check()


def test_takings_back_that_fail():
    play = Torn()
    for pick in SETS:
        play.hibernates(pick)
        play.turn("resume", "loading 0")
        play.arms(3, pick)
        play.turn("steps core 3", "loading 1", "loading 2", "write fault unsure")
        play.is_cut(ALL)
        play.ends(pick, pick & MARK == 0)
    play.check()
