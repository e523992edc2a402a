"""A machine hibernates from its memory dump onto a swap file, and is resumed into a loader's dump: whole cycles, the bytes of an image, images
of a wanted size, refusals of valid dumps, and images of another machine."""
import struct

from harness import check, check_line, check_refused, check_same, run
from inputs import BAD, EXAMPLE, NAMES, OVER_FILE, PAGE, SCRIPTED, Machine, area, beginning_with, disk, header, page


def hibernate(swap, dump=EXAMPLE.saved(), *options):
    return run("swsusp", "hibernate", *options, swap.path, stdin=dump)


def resume(swap, dump=EXAMPLE.loader_with_nines(), *options):
    return run("swsusp", "resume", *options, swap.path, stdin=dump)


def inspect(swap, *options):
    return run("swsusp", "inspect", *options, swap.path)


def check_restored(ran, machine=EXAMPLE):
    """Checks that the output is the dump of the restored machine, byte for byte."""
    check(ran, 0, machine.restored())


def check_no_image(swap):
    check_refused(resume(swap), "no image")


# Whole cycles.


def test_from_dump_to_dump():
    with area() as swap:
        check_line(hibernate(swap), "hibernated 5")
        check_line(inspect(swap), "area last 1599 bad 0 image 1 flags 2 hw -")
        ran = resume(swap)
        check_restored(ran)
        check_same("the dump's length", len(ran[1]), 20936)


def test_an_image_is_resumed_once():
    with area() as swap:
        hibernate(swap)
        resume(swap)
        check_line(inspect(swap), "area last 1599 bad 0 image none")
        before = swap.bytes()
        check_no_image(swap)
        check_same("the disk", swap.bytes(), before)


def test_a_second_cycle():
    """The area takes the next image, whatever is left of the last one."""
    with area() as swap:
        for _ in range(2):
            check_line(hibernate(swap), "hibernated 5")
            check_restored(resume(swap))


def test_pages_of_zeros_are_left_out():
    """Page frame 3 is all zero: the image has one page less, and the restored dump is the same."""
    with area() as swap:
        check_line(hibernate(swap, EXAMPLE.saved(), "--skip-zeros"), "hibernated 5")
        check_line(inspect(swap), "area last 1599 bad 0 image 1 flags 258 hw -")
        check_restored(resume(swap))
        check_no_image(swap)


def test_over_a_swap_file():
    """The header is in block 50, and the slots begin at block 100. The dump names the two extents, in 32 bytes more."""
    with disk(1699, header(1599), 50) as swap:
        check_line(hibernate(swap, OVER_FILE.saved()), "hibernated 5")
        check_line(inspect(swap, "--offset", 50), "area last 1599 bad 0 image 100 flags 2 hw -")
        dump = OVER_FILE.loader_with_nines()
        ran = resume(swap, dump)
        check_restored(ran, OVER_FILE)
        check_same("the dump's length", len(ran[1]), 20968)
        check_refused(resume(swap, dump), "no image")


# The bytes of an image.


def words(*numbers):
    """Returns a page that begins with these 8-byte words."""
    return struct.pack(f"<{len(numbers)}Q", *numbers).ljust(PAGE, b"\0")


def test_the_bytes_of_an_image():
    """The map is in block 1, the info page in block 2, the number page in block 3, and the pages of page frames 0 to 6 and 10 are in blocks 4
    to 11 (struct swsusp_header, struct swap_map_page and struct swsusp_info of kernel/power)."""
    info = b"".join(name.ljust(65, b"\0") for name in NAMES) + bytes(2) + struct.pack("<6Q", 393472, 4096, 0, 8, 10, 40960)
    numbers = words(*range(7), 10, 2**64 - 1)
    pages = SCRIPTED.saved_pages()
    with area(3000) as swap:
        check_line(hibernate(swap, SCRIPTED.saved()), "hibernated 8")
        check_same("the mark", swap.block(0)[4056:], struct.pack("<IIQI", 0, 0, 1, 2) + b"SWAPSPACE2S1SUSPEND\0")
        check_same("the rest of the header block", swap.block(0)[:4056], header(3000)[:4056])
        check_same("the map", swap.block(1), words(*range(2, 12)))
        check_same("the info page", swap.block(2), info.ljust(PAGE, b"\0"))
        check_same("the numbers", swap.block(3), numbers)
        check_same("the pages", swap.bytes()[4 * PAGE : 12 * PAGE], b"".join(pages.get(p, bytes(PAGE)) for p in [*range(7), 10]))
        check_same("the other blocks", swap.bytes()[12 * PAGE :], bytes(2989 * PAGE))


def test_the_numbers_of_an_image_without_zeros():
    """Page frames 5 and 6 are all zero: their numbers are marked, and they have no data pages."""
    with area(3000) as swap:
        check_line(hibernate(swap, SCRIPTED.saved(), "--skip-zeros"), "hibernated 8")
        check_same("the map", swap.block(1), words(*range(2, 10)))
        check_same("the numbers", swap.block(3), words(*range(5), 2**63 + 5, 2**63 + 6, 10, 2**64 - 1))
        check_same("the last page", swap.block(9), beginning_with(77))


def test_where_a_second_map_lies():
    """A map has 511 entries: for the info page, for a number page for each 512 page frames, and for the saved pages. The next map is in the slot
    after the last of these pages, and is begun when the first map is full (swap_write_page, kernel/power/swap.c)."""
    for saved, link, first in [(508, 0, None), (509, 513, 0), (510, 513, 514), (512, 513, 514), (513, 513, 514)]:
        with area(3000) as swap:
            check_line(hibernate(swap, SCRIPTED.loader(saved)), f"hibernated {saved}")
            entries = struct.unpack("<512Q", swap.block(1))
            check_same(f"the first map of {saved}", (entries[0], entries[511]), (2, link))
            if link:
                check_same(f"the second map of {saved}", swap.block(link)[:8], struct.pack("<Q", first))


# Images of a wanted size: cached page frames are dropped before the machine hibernates.

# The worked example's machine, and ten page frames that are cached.
CACHED = EXAMPLE.saved(cached=range(20, 30))


def test_as_many_as_are_wanted():
    """15 page frames are saveable. As many are saved as are wanted, but at least those that aren't cached."""
    for size, saved in [(2**64 - 1, 15), (15, 15), (14, 14), (7, 7), (5, 5), (0, 5)]:
        with area() as swap:
            check_line(hibernate(swap, CACHED, "--image-size", size), f"hibernated {saved}")


def test_the_image_of_what_is_left():
    """If all cached page frames are dropped, the disk is that of the machine that never had them, byte for byte."""
    with area() as swap, area() as never:
        hibernate(swap, CACHED, "--image-size", 0)
        hibernate(never)
        check_same("the disk", swap.bytes(), never.bytes())
        check_restored(resume(swap))


def test_the_first_are_dropped():
    """The lowest cached page frames are dropped first. Only the last one's page is in the image, after those of the page frames that aren't cached.
    The map is in block 1, the info page and the numbers are in 2 and 3, then come page frames 0, 1, 2, 10 and 29: page frame 3 is all zero."""
    with area() as swap:
        check_line(hibernate(swap, CACHED, "--image-size", 6, "--skip-zeros"), "hibernated 6")
        check_same("block 8", swap.block(8), page({0: 29}))


# Refusals of valid dumps.


def check_closed(swap, dump, note):
    """Checks that a hibernation is refused with this note, and leaves each block as it was."""
    before = swap.bytes()
    check_refused(hibernate(swap, dump), note)
    check_same("the disk", swap.bytes(), before)


def test_over_an_image():
    """No image is written over another one, which can be resumed afterwards."""
    with area() as swap:
        hibernate(swap)
        check_closed(swap, EXAMPLE.saved(), "closed")
        check_restored(resume(swap))


def test_over_another_area():
    for first, note in [
        (bytes(PAGE), "no swap: signature 00000000000000000000"),
        (header(1500), "no swap: misfit 1500 slots 1600"),
        (header(1600), "no swap: short 1600 blocks 1600"),
        (header(1599, [7]), "no swap: bad set"),
    ]:
        with disk(1600, first) as swap:
            check_closed(swap, EXAMPLE.saved(), note)


def test_bad_slots_that_differ():
    """Slot 7 is bad in the dump, so it must be bad in the area too."""
    dump = EXAMPLE.saved(slots=page({0: BAD, 28: BAD}))
    for bad in [8, 9]:
        with disk(1600, header(1599, [bad])) as swap:
            check_closed(swap, dump, "no swap: bad set")
    with disk(1600, header(1599, [7])) as swap:
        check_line(hibernate(swap, dump), "hibernated 5")


def test_too_few_slots():
    """7 pages, and 1026 slots that must stay free. Of 1033 slots the header's can't be used."""
    with area(1032) as swap:
        check_closed(swap, Machine(slots=1033).saved(), "no slots 1032 need 1033")


def test_too_few_loader_frames():
    """5 pages wait, and need one page frame for their list and one for bouncing. The image is gone when the lack is found."""
    with area() as swap:
        hibernate(swap)
        check_refused(resume(swap, EXAMPLE.loader_with_nines(2042)), "too few loader frames 6 need 7")
        check_no_image(swap)
        hibernate(swap)
        check_restored(resume(swap, EXAMPLE.loader_with_nines(2041)))


def test_compressed_images():
    """Linux compresses images unless it is told not to. Nothing is written."""
    with area() as swap:
        swap.change((0, 4064, 1), (0, 4072, 4))
        swap.write(0, swap.block(0)[:4076] + b"SWAPSPACE2S1SUSPEND\0")
        swap.change((1, 0, 2), (2, 400, 2048))
        before = swap.bytes()
        for _ in range(2):
            check_refused(resume(swap), "compressed 4")
            check_same("the disk", swap.bytes(), before)


# A machine that is too small, and input that is no dump.

TINY = Machine(frames=4, slots=2)


def tiny_dump():
    """Returns a dump with page frames 0 to 3, two slots, the tables in page frames 0 and 1, and one record."""
    return TINY.dump({1: page({0: BAD})})


def test_a_tiny_machine():
    check_same("the dump's length", len(tiny_dump()), 4536)
    with area(1) as swap:
        check_refused(hibernate(swap, tiny_dump()), "no frames 0 need 1029")


def test_what_is_no_dump():
    """Without its record the tiny dump's slot 0 isn't bad."""
    tiny = tiny_dump()
    for dump, note in [
        (b"", "dump Short byte 0"),
        (tiny[:100], "dump Short byte 100"),
        (tiny[:4535], "dump Short byte 4535"),
        (tiny[:432] + bytes(4), "dump Tables frame 1"),
        (EXAMPLE.saved() + b"\0", "dump Extra byte 16836"),
    ]:
        with area() as swap:
            before = swap.bytes()
            check_refused(hibernate(swap, dump), note, status=3)
            check_refused(resume(swap, dump), note, status=3)
            check_same("the disk", swap.bytes(), before)


# Images of another machine.


def signed(hw_sig):
    """Returns the worked example's machine with a hardware signature."""
    return Machine(hw_sig=hw_sig)


def test_a_hardware_signature():
    for machine in [signed(8), signed(7)]:
        with area() as swap:
            check_line(hibernate(swap, signed(7).saved()), "hibernated 5")
            check_line(inspect(swap), "area last 1599 bad 0 image 1 flags 10 hw 7")
            dump = machine.loader_with_nines()
            if machine.hw_sig == 7:
                check_restored(resume(swap, dump), machine)
            else:
                check_refused(resume(swap, dump), "hardware 7 own 8")
                check_refused(resume(swap, dump), "no image")


def test_an_image_of_another_kernel():
    """All bytes of the names and of the version code, 0 to 395, are 255."""
    dump = signed(7).loader_with_nines()
    for options in [[], ["--any-kernel"]]:
        with area() as swap:
            hibernate(swap, signed(7).saved())
            swap.change(*[(2, 4 * i, 2**32 - 1) for i in range(99)])
            if options:
                check_restored(resume(swap, dump, *options), signed(7))
            else:
                check_refused(resume(swap, dump), "mismatch version code")
                check_refused(resume(swap, dump), "no image")
