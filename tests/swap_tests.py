"""Pages that go out to slots and come in again, and memory that shrinks: each transcript is written by hand from what docs/MACHINE.md
says of the plain machine."""
from harness import check_transcript

# A machine boots, and no task has a page.
UP = """
    > boot
    more 0 of 2
    > steps core 2
    more 1 of 2
    booted image no
"""

# Its task 3 stores 77 in its page frame 10.
STORES = """
    > claim 3 10
    ok
    > store 3 10 0 77
    ok
"""

BOOT = "> area 3000" + UP + STORES


def test_tasks_that_swap():
    """Two tasks' pages pass each other on their way."""
    check_transcript(BOOT, """
        > claim 5 12
        ok
        > store 5 12 0 88
        ok
        > out 3 10
        slot 1
        > out 5 12
        slot 2
        > step 5
        written 2
        > step 3
        written 1
        > in 3 2 10
        no slot here
        > in 3 1 10
        reading 1
        > in 5 2 12
        reading 2
        > step 5
        read 2
        > step 3
        read 1
        > show 5 12 0
        word 88
        > show 3 10 0
        word 77
        > step 3
        idle
    """)


def test_slots_across_a_resume():
    """A page that went out before a hibernation comes back after the resume with the bytes that it had when it went out."""
    check_transcript(BOOT, """
        > out 3 10
        slot 1
        > step 3
        written 1
        > store 3 10 0 78
        ok
        > hibernate
        more 0 of 15
        > steps core 15
        more 1 .. 14 of 15
        hibernated 8
        > cut 0
        cut
        > resume
        loading 0
        > steps core 15
        loading 1 .. 14
        resumed 8
        > show 3 10 0
        word 78
        > out 3 10
        slot 2
        > step 3
        written 2
        > in 3 1 10
        reading 1
        > step 3
        read 1
        > show 3 10 0
        word 77
    """)


def test_busy_task_then_frozen():
    """The lowest task with a page on its way keeps a hibernation waiting, and a settling too."""
    check_transcript(BOOT, """
        > claim 5 12
        ok
        > out 5 12
        slot 1
        > out 3 10
        slot 2
        > hibernate
        busy 3
        > step 3
        written 2
        > hibernate zeros
        busy 5
        > settle
        busy 5
        > step 5
        written 1
        > hibernate
        more 0 of 16
        > store 5 12 0 1
        frozen
        > step 5
        idle
    """)


def test_refusals():
    check_transcript("""
        > area 3000
        > out 3 10
        not on
        > step 3
        idle
    """, UP, STORES, """
        > settle
        nothing held
        > in 3 1 10
        no slot here
        > in 3 131071 10
        no slot here
        > out 4 10
        not owner
        > out 3 9999
        no frame
        > out 3 10
        slot 1
        > release 3 10
        in flight
        > in 3 1 10
        in flight
    """)


def test_three_tasks_over_five_slots():
    """Pages go out until the area is full, and its last slot is given back and taken again."""
    check_transcript("> area 5", UP, STORES, """
        > claim 1 11
        ok
        > store 1 11 0 101
        ok
        > claim 2 12
        ok
        > store 2 12 0 102
        ok
        > out 1 11
        slot 1
        > out 2 12
        slot 2
        > step 2
        written 2
        > out 3 10
        slot 3
        > out 2 12
        slot 4
        > step 1
        written 1
        > in 1 1 11
        reading 1
        > step 3
        written 3
        > out 3 10
        slot 5
        > step 2
        written 4
        > out 2 12
        no slot
        > step 3
        written 5
        > step 1
        read 1
        > out 2 12
        slot 1
        > in 2 2 12
        in flight
        > step 2
        written 1
        > store 2 12 0 7
        ok
        > in 2 4 12
        reading 4
        > in 3 2 10
        no slot here
        > in 3 5 10
        reading 5
        > step 3
        read 5
        > step 2
        read 4
        > out 1 11
        slot 4
        > step 1
        written 4
        > show 1 11 0
        word 101
        > show 2 12 0
        word 102
        > show 3 10 0
        word 77
    """)


def test_faults_on_the_way():
    """A write that fails gives its slot back; a read that fails leaves page frame and slot as they were."""
    check_transcript(BOOT, """
        > out 3 10
        slot 1
        > arm 1 1 18446744073709551615
        ok
        > step 3
        write fault same
        > step 3
        idle
        > in 3 1 10
        no slot here
        > out 3 10
        slot 1
        > step 3
        written 1
        > store 3 10 0 78
        ok
        > in 3 1 10
        reading 1
        > arm 1 1 0
        ok
        > step 3
        read fault same
        > show 3 10 0
        word 78
        > in 3 1 10
        reading 1
        > step 3
        read 1
        > show 3 10 0
        word 77
    """)


def test_cut_on_the_way():
    """A page on its way is lost with the power, and so is what the slots held."""
    check_transcript(BOOT, """
        > out 3 10
        slot 1
        > cut 0
        cut
    """, UP, """
        > step 3
        idle
        > claim 3 10
        ok
        > in 3 1 10
        no slot here
        > out 3 10
        slot 1
        > step 3
        written 1
    """)


def test_closed_for_outs_alone():
    """While an image may exist no page goes out, but one may come in."""
    check_transcript(BOOT, """
        > out 3 10
        slot 1
        > step 3
        written 1
        > store 3 10 0 78
        ok
        > hibernate
        more 0 of 15
        > arm 15 2 0
        ok
        > steps core 14
        more 1 .. 14 of 15
        > step core
        undo sync 0
        > step core
        sync fault unsure
        > out 3 10
        closed
        > in 3 1 10
        reading 1
        > settle
        busy 3
        > step 3
        read 1
        > show 3 10 0
        word 77
        > settle
        more 0 of 3
        > steps core 3
        more 1 of 3
        more 2 of 3
        settled
        > out 3 10
        slot 1
        > step 3
        written 1
    """)


def test_what_is_cached_is_dropped():
    """Page frames 0 to 6 are the tables', and 100 to 119 are cached."""
    check_transcript("""
        > zone 0 4096
        > area 3000
        > region 100 20 64
    """, UP, """
        > shrink 18446744073709551615
        shrunk 0 left 27
        > shrink 10
        shrunk 17 left 10
        > shrink 0
        shrunk 3 left 7
        > shrink 0
        shrunk 0 left 7
    """)


def test_a_hibernation_that_fits_then():
    """One page frame less to save, and one more that is free."""
    check_transcript("""
        > zone 0 4024
        > area 3000
        > region 7 1493 64
    """, UP, """
        > hibernate
        no frames 2524 need 2525
        > shrink 1499
        shrunk 1 left 1499
        > hibernate
        more 0 of 1510
    """)


def test_a_page_that_a_task_has_cached():
    """A page frame that a task has marked as cached isn't the task's any more once it is dropped."""
    check_transcript(BOOT, """
        > cache 3 10
        ok
        > shrink 8
        shrunk 0 left 8
        > show 3 10 0
        word 77
        > shrink 7
        shrunk 1 left 7
        > show 3 10 0
        not owner
    """)


def test_only_what_is_cached_from_below():
    """A page frame with another flag beside CACHE stays, and so does one in a second zone as long as the first zone has enough."""
    check_transcript("""
        > zone 0 200
        > zone 300 3000
        > area 1600
        > region 100 2 66
        > region 110 2 64
        > region 400 3 64
    """, UP, """
        > shrink 11
        shrunk 2 left 11
        > claim 1 110
        ok
        > claim 1 400
        not free
        > shrink 0
        shrunk 3 left 9
    """)


def test_when_a_shrink_is_refused():
    check_transcript("""
        > area 3000
        > shrink 0
        not on
    """, UP, STORES, """
        > out 3 10
        slot 1
        > shrink 0
        busy 3
        > step 3
        written 1
        > shrink 0
        shrunk 0 left 8
        > hibernate
        more 0 of 15
        > shrink 0
        frozen
    """)
