"""What a replay prints for any script, and for machines that settings describe: zones, regions, tables elsewhere, bad slots, extents, a
hardware signature, and the page frames that a loader may use."""
from harness import check_replay, check_transcript

# A machine with page frames 0 to 4095 and 3001 slots has booted, and its task 3 has stored 77 in page frame 10.
B = """
    > zone 0 4096
    > area 3000
    > boot
    more 0 of 2
    > steps core 2
    more 1 of 2
    booted image no
    > claim 3 10
    ok
    > store 3 10 0 77
    ok
"""

# After it a hibernation, and the resume of its image.
HIBERNATES = """
    > hibernate
    more 0 of 15
    > steps core 15
    more 1 .. 14 of 15
    hibernated 8
"""

RESUMES = """
    > resume
    loading 0
    > steps core 15
    loading 1 .. 14
    resumed 8
"""

SHOWS = """
    > show 3 10 0
    word 77
"""

UP = """
    > boot
    more 0 of 2
    > steps core 2
    more 1 of 2
    booted image no
"""


# What a replay prints for any script.


def test_short_scripts():
    check_replay("", "")
    check_replay("boot", "more 0 of 2\n")
    check_replay("claim 3 10\nstep core\n", "not on\nidle\n")
    check_transcript(B)


def test_faulty_scripts():
    for script, note in [
        ("boot\njump\n", "script line 2 Word"),
        ("claim 65 1", "script line 1 Range"),
        ("claim 65 1\n", "script line 1 Range"),
        ("claim 1", "script line 1 Count"),
        ("claim 1\n", "script line 1 Count"),
        ("claim x 1", "script line 1 Number"),
        ("claim x 1\n", "script line 1 Number"),
        ("steps 3 1\n", "script line 1 Word"),
        ("boot\narea 10\n", "script line 2 Late"),
        ("boot\nzone 0 10\n", "script line 2 Late"),
        ("region 0 1 2\nboot\n", "script line 2 Hardware"),
        ("zone 0 3\n", "script line 2 Hardware"),
        ("boot\nsteps core 100000\n", "script line 2 Events"),
    ]:
        check_replay(script, "", status=3, note=note + "\n")


def test_a_thin_run():
    """During a hibernation nothing is stored, and after the resume the word is there again."""
    check_transcript(UP, """
        > claim 3 10
        ok
        > store 3 10 0 77
        ok
        > hibernate
        more 0 of 15
        > store 3 10 0 5
        frozen
        > steps core 15
        more 1 .. 14 of 15
        hibernated 8
    """, RESUMES, SHOWS)


def test_what_a_cut_leaves():
    check_transcript(B, """
        > hibernate
        more 0 of 15
        > steps core 14
        more 1 .. 14 of 15
        > cut 0
        cut
        > resume
        loading 0
        > steps core 2
        loading 1
        no image
    """)
    check_transcript(B, """
        > hibernate
        more 0 of 15
        > steps core 14
        more 1 .. 14 of 15
        > cut 128
        cut
    """, RESUMES)
    check_transcript(B, HIBERNATES, """
        > resume
        loading 0
        > steps core 3
        loading 1 .. 3
        > cut 0
        cut
    """, RESUMES)
    check_transcript(B, HIBERNATES, """
        > resume
        loading 0
        > steps core 4
        loading 1 .. 4
        > cut 0
        cut
        > resume
        loading 0
        > steps core 3
        loading 1
        no image
        idle
    """)


# What a machine accepts in each state.


def test_until_it_runs():
    """A machine boots, and nothing else begins until it runs."""
    check_transcript("""
        > claim 3 10
        not on
        > hibernate
        not on
        > boot
        more 0 of 2
        > step core
        more 1 of 2
        > claim 3 10
        frozen
        > hibernate
        frozen
        > step core
        booted image no
        > boot
        not off
    """)


def test_what_tasks_ask():
    """Task 3 claims page frame 10, stores 77 in its first word and reads it back. The tables are in page frames 0 to 6."""
    check_transcript("> zone 0 4096\n> area 3000", UP, """
        > claim 3 6
        not free
        > claim 3 10
        ok
        > store 3 10 0 77
        ok
        > show 3 10 0
        word 77
        > release 4 10
        not owner
        > show 3 4096 0
        no frame
        > step 3
        idle
        > release 3 10
        ok
        > show 3 10 0
        not owner
    """)


def test_while_it_hibernates():
    """During a hibernation no page frame is claimed, and no other hibernation begins. The power is cut after its first step."""
    check_transcript(B, """
        > hibernate
        more 0 of 15
        > claim 3 11
        frozen
        > hibernate
        frozen
        > step core
        more 1 of 15
        > cut 0
        cut
        > step core
        idle
    """)


def test_while_it_resumes():
    """During a resume nothing else begins, and since the disk has no image the machine is off again."""
    check_transcript("""
        > zone 0 4096
        > area 3000
        > resume
        loading 0
        > claim 3 10
        frozen
        > hibernate
        frozen
        > boot
        not off
        > resume
        not off
        > steps core 2
        loading 1
        no image
        > step core
        idle
        > claim 3 10
        not on
    """)


def test_fresh_memory_hibernates():
    """The tables' page frames 0 to 6 are saved, so the image has 7 pages, a page of numbers and the info page. Nine pages, one map and the four
    steps at the header block make 14 steps. Page frames 5 and 6 have the entries of slots 1024 to 3000, which are free, so they are all zero:
    without them the image has 5 pages with data, and takes 12 steps."""
    for event, steps in [("hibernate", 14), ("hibernate zeros", 12)]:
        check_transcript("> zone 0 4096\n> area 3000", UP, f"""
            > {event}
            more 0 of {steps}
            > steps core {steps}
            more 1 .. {steps - 1} of {steps}
            hibernated 7
        """)


# Page frames and slots: exactly enough, and one too few.


def check_hibernation(settings, reply):
    """Checks what a machine that has booted replies to a hibernation."""
    check_transcript(settings, UP, f"> hibernate\n{reply}")


def test_frames_just_enough():
    for count, reply in [(4024, "no frames 2524 need 2525"), (4025, "more 0 of 1511")]:
        check_hibernation(f"> zone 0 {count}\n> area 3000\n> region 7 1493 0", reply)


def test_slots_just_enough():
    """A bad slot that is named twice counts once."""
    for area, reply in [
        ("> area 1537", "no slots 1537 need 1538"),
        ("> area 1538", "more 0 of 518"),
        ("> area 1538\n> bad 5\n> bad 5", "no slots 1537 need 1538"),
        ("> area 1539\n> bad 5\n> bad 5", "more 0 of 518"),
    ]:
        check_hibernation(f"{area}\n> zone 0 2048\n> region 4 506 0", reply)


# A machine with 78 page frames in use beside its tables has hibernated.
LOADED = """
    > zone 0 4096
    > area 3000
    > region 7 78 0
""" + UP + """
    > hibernate
    more 0 of 92
    > steps core 92
    more 1 .. 91 of 92
    hibernated 85
"""


def test_loader_frames_just_enough():
    check_transcript(LOADED, """
        > resume 0-4008
        loading 0
        > steps core 92
        loading 1 .. 91
        resumed 85
    """)


def test_a_loader_frame_too_few():
    """Afterwards the image is gone."""
    check_transcript(LOADED, """
        > resume 0-4009
        loading 0
        > steps core 92
        loading 1 .. 6
        too few loader frames 86 need 87
    """, "idle\n" * 85, """
        > resume
        loading 0
        > steps core 2
        loading 1
        no image
    """)


def test_regions_of_a_loader():
    """A region without flags is free to a loader; one with flags isn't."""
    check_transcript(LOADED, """
        > resume 0-6 85-4095
        loading 0
        > steps core 7
        loading 1 .. 6
        too few loader frames 78 need 87
    """)
    for resume in ["resume 0-6 85-99 110-4095", "resume 0-6 85-4095"]:
        check_transcript("> region 7 78 0\n> region 100 10 2", UP, f"""
            > hibernate
            more 0 of 102
            > steps core 102
            more 1 .. 101 of 102
            hibernated 95
            > {resume}
            loading 0
            > steps core 7
            loading 1 .. 6
            too few loader frames 78 need 98
        """)


# Images that are resumed.

PIECES = "> extent 0 1 50\n> extent 1 3000 100"


def test_a_loader_on_the_frames_of_the_image():
    check_transcript(B, HIBERNATES, RESUMES.replace("> resume", "> resume 0-6 10-10"), SHOWS)


def test_a_bad_slot():
    check_transcript("> bad 1", B, HIBERNATES)


def test_a_hardware_signature():
    check_transcript("> hwsig 7", B, HIBERNATES, RESUMES, SHOWS)


def test_a_swap_file_in_pieces():
    check_transcript(PIECES, B, HIBERNATES, RESUMES, SHOWS)


def test_two_maps_end_to_end():
    claims = "".join(f"> claim 1 {p}\nok\n" for p in range(7, 509))
    check_transcript(UP, claims, """
        > hibernate
        more 0 of 517
        > steps core 517
        more 1 .. 516 of 517
        hibernated 509
        > resume
        loading 0
        > steps core 516
        loading 1 .. 515
        resumed 509
    """)


def test_runs_of_moves():
    check_transcript("""
        > zone 0 4096
        > area 3000
        > region 7 1493 0
    """, UP, """
        > hibernate
        more 0 of 1511
        > steps core 1511
        more 1 .. 1510 of 1511
        hibernated 1500
        > resume 2000-4095
        loading 0
        > steps core 1511
        loading 1 .. 1510
        resumed 1500
    """)


def test_zeros():
    check_transcript(B, """
        > hibernate zeros
        more 0 of 13
        > steps core 13
        more 1 .. 12 of 13
        hibernated 8
        > resume
        loading 0
        > steps core 13
        loading 1 .. 12
        resumed 8
    """, SHOWS)
    check_transcript("""
        > zone 0 2048
        > area 1537
        > region 4 506 0
    """, UP, """
        > hibernate zeros
        more 0 of 10
    """)


def test_the_mark_of_a_swap_file():
    """Sector 7 of block 50 is sector 407, which is bit 23 of a pick."""
    written = """
        > hibernate
        more 0 of 15
        > steps core 14
        more 1 .. 14 of 15
    """
    check_transcript(PIECES, B, written, "> cut 8388608\ncut", RESUMES)
    check_transcript(PIECES, B, written, """
        > cut 128
        cut
        > resume
        loading 0
        > steps core 2
        loading 1
        no image
    """)


def test_the_last_page_frame():
    """Page frames 4096 to 65534 lie between the zones. The frame table takes 64 page frames, so the tables take 67."""
    check_transcript("""
        > zone 0 4096
        > zone 65535 1
    """, UP, """
        > claim 3 4096
        no frame
        > claim 3 65534
        no frame
        > claim 3 65535
        ok
        > store 3 65535 511 99
        ok
        > hibernate
        more 0 of 75
        > steps core 75
        more 1 .. 74 of 75
        hibernated 68
        > resume
        loading 0
        > steps core 75
        loading 1 .. 74
        resumed 68
        > show 3 65535 511
        word 99
    """)


def test_the_first_page_frame():
    """Page frame 0 is a task's if the tables are elsewhere."""
    check_transcript("> tables 4092 100", UP, """
        > claim 3 0
        ok
        > store 3 0 0 5
        ok
        > claim 3 100
        not free
    """, HIBERNATES, RESUMES.replace("> resume", "> resume 1-99"), """
        > show 3 0 0
        word 5
    """)
