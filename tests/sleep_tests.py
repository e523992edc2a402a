"""Machines that fall asleep and wake: worked examples, what is refused meanwhile, cuts after each step, and calls of the disk that fail.

However it goes, the machine that slept and its image never both go on.
"""
import itertools

from harness import ALL, MARK, NONE, Play, check_transcript, counts

# The number of steps of a suspend, and of a resume, of the tables' 6 page frames and the task's one: the image has 9 pages.
STEPS = 14

PICKS = [NONE, ALL, MARK]

# Only one sector of the header block, each in turn.
HEADER_SECTORS = [1 << sector for sector in range(8)]

# A machine boots, its task 3 stores 77 in its page frame 10, and it falls asleep: the image of the tables' 7 page frames and the task's has
# 10 pages.
BOOT = """
    > zone 0 4096
    > area 3000
    > boot
    more 0 of 2
    > steps core 2
    more 1 of 2
    booted image no
    > claim 3 10
    ok
    > store 3 10 0 77
    ok
"""

SLEPT = BOOT + """
    > suspend
    more 0 of 15
    > steps core 15
    more 1 .. 14 of 15
    asleep 8
    > store 3 10 0 78
    sleeping
"""

WAKES = """
    > wake
    more 0 of 3
    > steps core 3
    more 1 of 3
    more 2 of 3
    woken
"""


def test_sleep_and_wake():
    """The machine wakes and goes on, and its image is gone."""
    check_transcript(SLEPT, WAKES, """
        > store 3 10 0 78
        ok
        > show 3 10 0
        word 78
        > cut 0
        cut
        > resume
        loading 0
        > steps core 2
        loading 1
        no image
    """)


def test_cut_before_it_wakes():
    """The power fails before the cleared mark is synced: the image is resumed."""
    check_transcript(SLEPT, """
        > wake
        more 0 of 3
        > steps core 2
        more 1 of 3
        more 2 of 3
        > cut 0
        cut
        > resume
        loading 0
        > steps core 15
        loading 1 .. 14
        resumed 8
        > show 3 10 0
        word 77
    """)


def test_a_wake_that_fails():
    """The sync of a wake fails: the machine sleeps on."""
    check_transcript(SLEPT, """
        > arm 3 1 0
        ok
        > wake
        more 0 of 3
        > steps core 3
        more 1 of 3
        more 2 of 3
        sync fault unsure
        > store 3 10 0 78
        sleeping
    """)


def test_sleep_without_zeros():
    """Without its pages of zeros, those of page frames 5 and 6 of the slot table, an image has 8 pages. The machine wakes, sleeps again and is
    resumed."""
    check_transcript(BOOT, """
        > suspend zeros
        more 0 of 13
        > steps core 13
        more 1 .. 12 of 13
        asleep 8
    """, WAKES, """
        > show 3 10 0
        word 77
        > store 3 10 0 78
        ok
        > suspend zeros
        more 0 of 13
        > steps core 13
        more 1 .. 12 of 13
        asleep 8
        > cut 0
        cut
        > resume
        loading 0
        > steps core 13
        loading 1 .. 12
        resumed 8
        > show 3 10 0
        word 78
    """)


def later(word):
    """Returns the word that is stored after the page with the first word has gone out."""
    return word ^ 1


class Nights(Play):
    """Rounds of a machine that sleeps, over an area for images of few pages."""

    def __init__(self):
        super().__init__("area 1100\n")

    def boots(self, word):
        """A machine boots, and its task stores the word, whose page goes out to a slot. Then the task stores another word."""
        self.turn("boot\nsteps core 2", "more 0 of 2", "more 1 of 2", "booted image no")
        self.turn(f"claim 3 10\nstore 3 10 0 {word}", "ok", "ok")
        self.turn("out 3 10\nstep 3", "slot 1", "written 1")
        self.turn(f"store 3 10 0 {later(word)}", "ok")

    def suspends(self, steps=STEPS):
        """The machine makes `steps` steps of a suspend, at least one."""
        last = ["asleep 7"] if steps == STEPS else []
        self.turn(f"suspend\nsteps core {steps}", *counts("more ", 0, min(steps, STEPS - 1), " of 14"), *last)

    def sleeps(self):
        """The machine sleeps, and no task goes on."""
        self.turn("show 3 10 0\nstep 3\nstep core", "sleeping", "idle", "idle")

    def wakes(self, steps=3):
        last = ["woken"] if steps == 3 else []
        self.turn(f"wake\nsteps core {steps}" if steps else "wake", *counts("more ", 0, min(steps, 2), " of 3"), *last)

    def goes_on(self, word):
        """The machine goes on with its words, and with the slots that the image had."""
        self.turn("show 3 10 0", f"word {later(word)}")
        self.turn("out 3 10\nstep 3\nstore 3 10 0 5", "slot 2", "written 2", "ok")
        self.turn("in 3 1 10\nstep 3", "reading 1", "read 1")
        self.turn("show 3 10 0", f"word {word}")

    def is_cut(self, pick):
        self.turn(f"cut {pick}", "cut")

    def ends(self, word, image):
        """After a cut a machine that boots finds the image, or none. A machine that is then resumed has the words of the one whose power was cut."""
        self.turn("boot\nsteps core 2", "more 0 of 2", "more 1 of 2", f"booted image {'yes' if image else 'no'}")
        if image:
            self.turn("out 3 10\ncut 0", "not owner", "cut")
            self.turn("resume\nsteps core 14", *counts("loading ", 0, STEPS - 1), "resumed 7")
            self.turn("wake\nshow 3 10 0", "not asleep", f"word {later(word)}")
            self.turn("in 3 1 10\nstep 3\nshow 3 10 0", "reading 1", "read 1", f"word {word}")
        else:
            self.turn("settle\ncut 0", "nothing held", "cut")
            self.turn("resume\nsteps core 2", "loading 0", "loading 1", "no image")
            self.turn("wake\nshow 3 10 0", "not asleep", "not on")
        self.is_cut(NONE)


# Refusals.


def test_nothing_to_wake():
    """A machine that is off, boots, runs or saves its memory can't be woken."""
    play = Nights()
    play.tells("""
        > wake
        not asleep
        > suspend
        not on
        > boot
        more 0 of 2
        > wake
        not asleep
        > suspend zeros
        frozen
        > steps core 2
        more 1 of 2
        booted image no
        > cut 0
        cut
    """)
    play.boots(77)
    play.tells("""
        > wake
        not asleep
        > out 3 10
        slot 2
        > suspend
        busy 3
        > step 3
        written 2
        > suspend
        more 0 of 14
        > wake
        not asleep
        > suspend
        frozen
        > show 3 10 0
        frozen
        > boot
        not off
        > cut 0
        cut
    """)
    play.ends(77, False)
    play.check()


def test_refused_asleep():
    play = Nights()
    play.boots(77)
    play.suspends()
    for line in ["boot", "resume"]:
        play.turn(line, "not off")
    for line in ["hibernate", "suspend", "suspend zeros", "settle", "shrink 0"]:
        play.turn(line, "sleeping")
    for line in ["step 3", "step core"]:
        play.turn(line, "idle")
    for line in ["claim 4 20", "release 3 10", "store 3 10 0 5", "show 3 9999 0", "cache 3 10", "out 3 10", "in 3 1 10"]:
        play.turn(line, "sleeping")
    play.is_cut(NONE)
    play.ends(77, True)
    play.check()


def test_refused_while_it_wakes():
    play = Nights()
    play.boots(77)
    play.suspends()
    play.turn("wake", "more 0 of 3")
    for line in ["boot", "resume"]:
        play.turn(line, "not off")
    for line in ["hibernate", "suspend", "settle", "shrink 0", "store 3 10 0 5"]:
        play.turn(line, "frozen")
    play.tells("""
        > wake
        not asleep
        > step 3
        idle
        > steps core 3
        more 1 of 3
        more 2 of 3
        woken
        > wake
        not asleep
        > step core
        idle
        > settle
        nothing held
    """)
    play.goes_on(77)
    play.check()


def test_closed_by_an_image():
    """If a machine finds an image when it boots, it can't be suspended until the image is settled."""
    play = Nights()
    play.boots(77)
    play.suspends()
    play.tells("""
        > cut 0
        cut
        > boot
        more 0 of 2
        > steps core 2
        more 1 of 2
        booted image yes
        > suspend
        closed
        > settle
        more 0 of 3
        > suspend
        frozen
        > steps core 3
        more 1 of 3
        more 2 of 3
        settled
        > cut 0
        cut
    """)
    play.ends(77, False)
    play.boots(78)
    play.suspends()
    play.check()


def check_suspend(zone, area, region, reply):
    """Checks what a machine that has booted replies to a suspend."""
    check_transcript(f"""
        > {zone}
        > {area}
        > {region}
        > boot
        more 0 of 2
        > steps core 2
        more 1 of 2
        booted image no
        > suspend
        {reply}
    """)


def test_frames_just_enough():
    check_suspend("zone 0 4024", "area 3000", "region 7 1493 0", "no frames 2524 need 2525")
    check_suspend("zone 0 4025", "area 3000", "region 7 1493 0", "more 0 of 1511")


def test_slots_just_enough():
    check_suspend("zone 0 2048", "area 1537", "region 4 506 0", "no slots 1537 need 1538")
    check_suspend("zone 0 2048", "area 1538", "region 4 506 0", "more 0 of 518")


# Power cuts, for different sets of unsynced sectors that survive.


def test_suspends_that_are_cut():
    """The power is cut after each step of a suspend. From step 13 on the mark is written, and from step 14 on, when the machine sleeps, it is
    synced."""
    play = Nights()
    for pick in PICKS + HEADER_SECTORS:
        for steps in range(1, STEPS + 1):
            play.boots(pick)
            play.suspends(steps)
            play.is_cut(pick)
            play.ends(pick, steps == 14 or steps == 13 and pick & MARK != 0)
    play.check()


def test_wakes_that_are_cut():
    """The power is cut before each step of a wake, and after the last. From step 2 on the mark is cleared, and from step 3 on, when the
    machine goes on, that is synced."""
    play = Nights()
    for pick in PICKS + HEADER_SECTORS:
        for steps in range(4):
            play.boots(pick)
            play.suspends()
            play.sleeps()
            play.wakes(steps)
            if steps == 3:
                play.goes_on(pick)
            play.is_cut(pick)
            play.ends(pick, steps < 2 or steps == 2 and pick & MARK == 0)
    play.check()


def test_the_last_of_four_images():
    """A machine sleeps and wakes again and again, each time with another word. In the end the last image is resumed."""
    play = Nights()
    play.boots(7)
    for word in [10, 11, 12]:
        play.turn(f"store 3 10 0 {word}", "ok")
        play.suspends()
        play.wakes()
        play.turn("show 3 10 0", f"word {word}")
    play.turn("store 3 10 0 6", "ok")
    play.suspends()
    play.is_cut(NONE)
    play.ends(7, True)
    play.check()


# Calls of the disk that fail, each in turn. A write that fails has reached no sector, each sector, or only that of the mark.

# The reply to a suspend whose call of this number fails, and the replies to the steps of the undo. The pages and their map are 10
# writes; then come a sync, a read, the write of the mark and a sync.
FAULTS = {
    **{call: ("write fault same", ["idle"]) for call in range(1, 11)},
    11: ("sync fault same", ["idle"]),
    12: ("read fault same", ["idle"]),
    13: ("undo write 0", ["undo write 1", "write fault gone"]),
    14: ("undo sync 0", ["undo sync 1", "sync fault gone"]),
}


def fails(play, call, count, reached, fault):
    """A suspend in which `count` calls from number `call` on fail, up to the first failure."""
    replies = counts("more ", 1, call - 1, " of 14")
    play.turn(f"suspend\narm {call} {count} {reached}\nsteps core {call}", "more 0 of 14", "ok", *replies, fault)


def test_suspends_that_fail():
    """After a suspend that fails the machine goes on, and no image exists."""
    play = Nights()
    for reached, pick in itertools.product(PICKS, PICKS):
        for call, (fault, undone) in FAULTS.items():
            play.boots(pick)
            fails(play, call, 1, reached, fault)
            play.turn(f"steps core {len(undone)}", *undone)
            play.turn("wake", "not asleep")
            play.goes_on(pick)
            play.is_cut(pick)
            play.ends(pick, False)
    play.check()


def test_undoes_that_fail():
    """The undo fails too: an image may exist, and no page goes to a slot."""
    play = Nights()
    for reached, pick in itertools.product(PICKS, PICKS):
        marked = reached & MARK == 0 and pick & MARK != 0
        for call, kind, image in [(13, "write", False), (14, "sync", marked)]:
            play.boots(pick)
            fails(play, call, 2, reached, f"undo {kind} 0")
            play.turn("step core", f"{kind} fault unsure")
            play.turn("wake\nsuspend\nout 3 10\nstore 3 10 0 5", "not asleep", "closed", "closed", "ok")
            play.is_cut(pick)
            play.ends(pick, image)
    play.check()


def wake_fails(play, call, reached):
    """A wake whose call of this number fails: the machine sleeps on."""
    fault = {1: "read fault same", 2: "write fault unsure", 3: "sync fault unsure"}[call]
    play.suspends()
    play.turn(f"arm {call} 1 {reached}\nwake\nsteps core {call}", "ok", *counts("more ", 0, call - 1, " of 3"), fault)
    play.sleeps()


def test_wakes_that_fail():
    """Then the power is cut, or the machine wakes at the next try and goes on."""
    play = Nights()
    for reached, pick in itertools.product(PICKS, PICKS):
        for call in [1, 2, 3]:
            play.boots(pick)
            wake_fails(play, call, reached)
            play.is_cut(pick)
            play.ends(pick, pick & MARK == 0 or call == 1 or call == 2 and reached & MARK == 0)

            play.boots(pick)
            wake_fails(play, call, reached)
            play.wakes()
            play.goes_on(pick)
            play.is_cut(pick)
            play.ends(pick, False)
    play.check()
