"""Damaged images of both formats. A resume reports the cause, whichever kernels are accepted, and a second resume finds no image any more.
`swsusp_machine check` foretells both, and leaves the disk as it is.

A script's machine hibernates by its dump. The map is in block 1, the info page in block 2, the number page in block 3, and page frames 0 to
6 and 10 are in blocks 4 to 11. Without pages of zeros, which page frames 5 and 6 are, page frames 0 to 4 and 10 are in blocks 4 to 9.
"""
from dump_tests import hibernate, inspect, resume
from harness import check_line, check_refused, check_same, run
from inputs import SCRIPTED, area, beginning_with

PLAIN, SKIPS_ZEROS = (), ("--skip-zeros",)

# A loader in which all page frames but those of the tables are free.
LOADER = SCRIPTED.loader(7)

ANY_KERNEL = [(), ("--any-kernel",)]

# The note on an image that was given up.
GONE = "no image"


def check_foretold(swap, note, options=(), dump=LOADER):
    """Checks what `swsusp_machine check` foretells. A warning that the first map lies beyond the file may come before it."""
    before = swap.bytes()
    status, out, told = run("swsusp_machine", "check", *options, swap.path, stdin=dump)
    check_same("what is foretold", (status, out, told.splitlines()[-1]), (1, b"", note))
    check_same("the disk", swap.bytes(), before)


def check_damaged(form, changes, note, again=GONE, kernels=ANY_KERNEL, dump=SCRIPTED.saved(), saved=8):
    """Checks that the image with these changes is refused with `note`, and the second time with `again`."""
    for options in kernels:
        with area(3000) as swap:
            check_line(hibernate(swap, dump, *form), f"hibernated {saved}")
            swap.change(*changes)
            for why in [note, again]:
                check_foretold(swap, why, options)
                check_refused(resume(swap, LOADER, *options), why)


def check_table(form, table, **settings):
    for changes, note in table:
        check_damaged(form, changes, note, **settings)


def test_headers_and_maps():
    check_table(PLAIN, [
        ([(0, 4064, 0)], "no chain"),
        ([(0, 4064, 3001)], "bad block 3001"),
        ([(0, 4064, 0), (0, 4068, 1)], "bad block 4294967296"),
        ([(0, 4072, 10), (0, 4056, 7)], "hardware 7 own 0"),
        ([(1, 0, 0)], "bad block 0"),
        ([(1, 72, 3001)], "bad block 3001"),
        ([(2, 400, 4095)], "memory size 4095 own 4096"),
    ])


def test_counts_and_numbers():
    check_table(PLAIN, [
        ([(2, 416, 9)], "bad counts 9 10"),
        ([(2, 416, 0), (2, 424, 1)], "bad counts 0 1"),
        ([(2, 416, 4097), (2, 424, 4107)], "bad counts 4097 4107"),
        ([(3, 56, 4096)], "bad pfn 4096"),
        ([(3, 44, 0x80000000)], "bad pfn 9223372036854775813"),
        ([(3, 48, 5)], "pfn order 5 5"),
        ([(3, 0, 5), (3, 8, 5)], "pfn order 5 5"),
        ([(3, 64, 0), (3, 68, 0)], "pfn end 0"),
    ])


def test_headers_maps_and_counts_without_zeros():
    """The 8 numbers take a page, and 6 page frames have data."""
    check_table(SKIPS_ZEROS, [
        ([(0, 4064, 0)], "no chain"),
        ([(0, 4064, 3001)], "bad block 3001"),
        ([(0, 4072, 266), (0, 4056, 7)], "hardware 7 own 0"),
        ([(1, 0, 0)], "bad block 0"),
        ([(1, 56, 3001)], "bad block 3001"),
        ([(2, 400, 4095)], "memory size 4095 own 4096"),
        ([(2, 416, 0), (2, 424, 1)], "bad counts 0 1"),
        ([(2, 424, 1)], "bad counts 8 1"),
        ([(2, 424, 11)], "bad counts 8 11"),
    ])


def test_numbers_without_zeros():
    """With a ninth number the end value is read as a number, without its mark."""
    check_table(SKIPS_ZEROS, [
        ([(2, 424, 9)], "bad counts 8 9"),
        ([(2, 424, 7)], "bad counts 8 7"),
        ([(2, 416, 9)], "bad pfn 9223372036854775807"),
        ([(3, 56, 4096)], "bad pfn 4096"),
        ([(3, 56, 4096), (3, 60, 0x80000000)], "bad pfn 4096"),
        ([(3, 48, 5)], "pfn order 5 5"),
        ([(3, 64, 0), (3, 68, 0)], "pfn end 0"),
    ])


def test_chains_that_end():
    """Images with two maps: one of 597 page frames, and one without pages of zeros of 520 page frames, 518 of which have data. The first map's
    link is damaged."""
    pages = {**SCRIPTED.loader_pages(520), **{p: beginning_with(5) for p in range(7, 520)}}
    for form, dump, saved in [(PLAIN, SCRIPTED.loader(597), 597), (SKIPS_ZEROS, SCRIPTED.dump(pages), 520)]:
        check_table(form, [
            ([(1, 4088, 0), (1, 4092, 0)], "chain ends 1"),
            ([(1, 4088, 3001)], "bad block 3001"),
            ([(1, 4088, 0), (1, 4092, 1)], "bad block 4294967296"),
        ], dump=dump, saved=saved)


def test_images_that_are_compressed():
    """Only these refusals leave the disk as it was, so that each resume says the same."""
    for form, flags in [(PLAIN, 0), (SKIPS_ZEROS, 256)]:
        check_damaged(form, [(0, 4072, flags)], f"compressed {flags}", f"compressed {flags}")


def test_a_damaged_slot_table():
    """The restored slot table says that slot 0 is free. A script's resume reports that, but the command restores any memory."""
    for form in [PLAIN, SKIPS_ZEROS]:
        with area(3000) as swap:
            hibernate(swap, SCRIPTED.saved(), *form)
            swap.change((8, 0, 0))
            status, _, note = resume(swap, LOADER)
            check_same("status and note", (status, note), (0, ""))


# Images of another kernel: another version code; a sysname whose first byte is 0; a release that begins with `7.1.`; the version `#2`; and the
# machine `plann`. If two differ, the first is reported.
OTHER_KERNELS = [
    ([(2, 392, 393473)], "mismatch version code"),
    ([(2, 0, 0x756E6900)], "mismatch sysname"),
    ([(2, 130, 0x2E312E37)], "mismatch release"),
    ([(2, 195, 0x3223)], "mismatch version"),
    ([(2, 260, 0x6E616C70)], "mismatch machine"),
    ([(2, 260, 0x6E616C70), (2, 0, 0x756E6900)], "mismatch sysname"),
]


def test_other_kernels():
    for form in [PLAIN, SKIPS_ZEROS]:
        check_table(form, OTHER_KERNELS, kernels=[()])


def test_any_kernel():
    """No resume compares the nodename and the domainname. If any kernel is accepted, an image in which all of the names differ is restored too."""
    for form in [PLAIN, SKIPS_ZEROS]:
        with area(3000) as one, area(3000) as other:
            for swap in [one, other]:
                hibernate(swap, SCRIPTED.saved(), *form)
                swap.change((2, 65, 0), (2, 325, 0))
            other.change(*(change for changes, _ in OTHER_KERNELS for change in changes))
            whole = resume(one, LOADER)
            check_same("how it ended", (whole[0], whole[2]), (0, ""))
            check_same("what is restored", resume(other, LOADER, "--any-kernel"), whole)
            check_refused(resume(other, LOADER, "--any-kernel"), GONE)


def test_too_few_page_frames():
    """The loader has one page frame fewer than are needed: those for the pages with data, one for their list, and one for bouncing."""
    for form, used, note in [(PLAIN, 4087, "too few loader frames 9 need 10"), (SKIPS_ZEROS, 4089, "too few loader frames 7 need 8")]:
        for options in ANY_KERNEL:
            with area(3000) as swap:
                hibernate(swap, SCRIPTED.saved(), *form)
                dump = SCRIPTED.loader(used)
                for why in [note, GONE]:
                    check_foretold(swap, why, options, dump)
                    check_refused(resume(swap, dump, *options), why)


# A marked header block whose original signature is the mark itself: once the mark is cleared, the block is still marked. That an image is
# resumed at most once has the premise that no such block is handed in. What is wrong with the image is reported all the same.

# S1SUSPEND and a zero byte from 4076 on, and the first two bytes of the mark after them, which are the same.
MARKED = [(0, 4076, 0x55533153), (0, 4080, 0x4E455053), (0, 4084, 0x31530044)]


def test_a_mark_that_stays():
    with area(3000) as swap:
        hibernate(swap, SCRIPTED.saved())
        swap.change(*MARKED)
        whole = resume(swap, LOADER)
        check_same("how it ended", (whole[0], whole[2]), (0, ""))
        check_line(inspect(swap), "area last 3000 bad 0 image 1 flags 2 hw -")
        check_refused(hibernate(swap, LOADER), "closed")
        check_same("what is restored", resume(swap, LOADER), whole)


def test_a_damaged_image_whose_mark_stays():
    for change, note in [
        ((0, 4072, 0), "compressed 0"),
        ((0, 4064, 0), "no chain"),
        ((1, 0, 0), "bad block 0"),
        ((2, 400, 4095), "memory size 4095 own 4096"),
        ((2, 416, 0), "bad counts 0 10"),
        ((3, 48, 5), "pfn order 5 5"),
    ]:
        check_damaged(PLAIN, [*MARKED, change], note, note)
