"""Streams: what `export` writes of a machine, what `import` takes, and what it refuses. The streams are put together here by the tables of
docs/FORMATS.md."""
import struct

from dump_tests import check_no_image, check_restored, hibernate, inspect, resume
from harness import check, check_line, check_refused, check_same, run
from inputs import BAD, EXAMPLE, NAMES, ZERO_PAGE, area, disk, header, page

END = 2**64 - 1

# The page frames of the worked example that are saved. Page frame 3 is all zero.
SAVED = [0, 1, 2, 3, 10]


def example_stream():
    """Returns the info page, the number page, and the pages of the saved page frames."""
    names = b"".join(name.ljust(65, b"\0") for name in NAMES) + bytes(2)
    info = names + struct.pack("<6Q", 393472, 2048, 0, 5, 7, 28672)
    numbers = struct.pack("<6Q", *SAVED, END)
    pages = EXAMPLE.saved_pages()
    return b"".join(content.ljust(4096, b"\0") for content in [info, numbers, *(pages.get(p, ZERO_PAGE) for p in SAVED)])


def taken(swap, stream):
    return run("swsusp", "import", swap.path, stdin=stream)


def test_a_dump_as_a_stream():
    stream = example_stream()
    check_same("the stream's length", len(stream), 28672)
    check(run("swsusp", "export", stdin=EXAMPLE.saved()), 0, stream)


def test_a_slot_in_use():
    """Slot 7 is task 3's."""
    check_refused(run("swsusp", "export", stdin=EXAMPLE.saved(slots=page({0: BAD, 28: 3}))), "slots in use 7")


def test_no_dump():
    check_refused(run("swsusp", "export", stdin=EXAMPLE.saved()[:16835]), "dump Short byte 16835", status=3)


def test_as_a_hibernation_leaves_it():
    """The disk is the same as after a hibernation of the same machine, and a resume gives the machine back."""
    with area() as hibernated, area() as swap:
        check_line(hibernate(hibernated), "hibernated 5")
        check_line(taken(swap, example_stream()), "imported 5")
        check_same("the disk", swap.bytes(), hibernated.bytes())
        check_line(inspect(swap), "area last 1599 bad 0 image 1 flags 2 hw -")
        check_restored(resume(swap))
        check_no_image(swap)


def check_no_stream(stream, note):
    """Checks that the input is refused with this note, and that the header block is as before."""
    with area() as swap:
        check_refused(taken(swap, stream), note, status=3)
        check_same("the header block", swap.block(0), header(1599))
        check_no_image(swap)


def test_what_is_no_stream():
    stream = example_stream()
    for length in [0, 5000, 28671]:
        check_no_stream(stream[:length], f"stream Short byte {length}")
    check_no_stream(stream + b"\0", "stream Extra byte 28672")
    for at, byte, fault in [
        (416, 0, "Counts byte 416"),
        (424, 8, "Counts byte 416"),
        (4104, 0, "Order byte 4104"),
        (4106, 1, "Pfn byte 4104"),
        (4136, 0, "End byte 4136"),
    ]:
        check_no_stream(stream[:at] + bytes([byte]) + stream[at + 1 :], f"stream {fault}")


def numbered(saved, pages, numbers):
    """Returns the first two pages of a stream with these counts."""
    info = bytes(416) + struct.pack("<2Q", saved, pages)
    return info.ljust(4096, b"\0") + struct.pack(f"<{len(numbers)}Q", *numbers).ljust(4096, b"\0")


def test_counts_that_no_stream_has():
    for saved, pages in [(0, 1), (511, 512), (511, 514), (65537, 65667), (END, 0)]:
        check_no_stream(numbered(saved, pages, range(512)), "stream Counts byte 416")


def test_words_of_a_number_page():
    """Every eighth word in turn is too large, or repeats the one before it; the word after the last number isn't the end value; and then the
    pages are missing."""
    whole = [*range(511), END]
    for i in range(7, 511, 8):
        check_no_stream(numbered(511, 513, [*whole[:i], 65536, *whole[i + 1 :]]), f"stream Pfn byte {4096 + 8 * i}")
        check_no_stream(numbered(511, 513, [*whole[:i], i - 1, *whole[i + 1 :]]), f"stream Order byte {4096 + 8 * i}")
    check_no_stream(numbered(511, 513, [*whole[:511], 511]), "stream End byte 8184")
    check_no_stream(numbered(511, 513, whole), "stream Short byte 8192")


def check_area(blocks, first, note):
    """Checks that an area with this header block refuses the stream with this note, and stays as it is."""
    with disk(blocks, first) as swap:
        before = swap.bytes()
        check_refused(taken(swap, example_stream()), note)
        check_same("the disk", swap.bytes(), before)


def test_areas_that_are_refused():
    """7 pages, and 1026 slots that must stay free: 1033 slots are enough, and 1032 aren't."""
    check_area(1600, ZERO_PAGE, "no swap: signature 00000000000000000000")
    check_area(1600, header(1600), "no swap: short 1600 blocks 1600")
    check_area(1600, header(1032), "no slots 1032 need 1033")
    with disk(1600, header(1033)) as swap:
        check_line(taken(swap, example_stream()), "imported 5")
        before = swap.bytes()
        check_refused(taken(swap, example_stream()), "no swap: image")
        check_same("the disk", swap.bytes(), before)


def test_slots_that_are_passed_over():
    """Slots 1 and 3 are bad: the map is in block 2, and its pages are in block 4 and the blocks after it."""
    with disk(1600, header(1599, [1, 3])) as swap:
        check_line(taken(swap, example_stream()), "imported 5")
        check_line(inspect(swap), "area last 1599 bad 2 image 2 flags 2 hw -")
        check_same("the map", swap.block(2), struct.pack("<7Q", *range(4, 11)).ljust(4096, b"\0"))
        check_same("the pages", swap.bytes()[4 * 4096 : 11 * 4096], example_stream())
