"""What `inspect` says of a header block, and `drill` of its machine."""
import struct

from harness import check_line, check_refused, run
from inputs import ZERO_PAGE, disk, header


def with_number(block, at, number):
    return block[:at] + struct.pack("<I", number) + block[at + 4 :]


def marked(block, flags, hw_sig=0):
    """Returns a header block with the mark of an image whose first map is in block 1 (struct swsusp_header, kernel/power/swap.c)."""
    return block[:4056] + struct.pack("<IIQI", hw_sig, 0, 1, flags) + block[4086:] + b"S1SUSPEND\0"


EMPTY = header(3000)


def inspected(block, *options, blocks=1):
    with disk(blocks, block) as swap:
        return run("swsusp", "inspect", *options, swap.path)


def test_areas_and_images():
    """A header block without an image, one with as many bad pages as there is room for, and one with an image."""
    for block, line in [
        (EMPTY, "bad 0 image none"),
        (header(3000, range(1, 631)), "bad 630 image none"),
        (marked(EMPTY, 2), "bad 0 image 1 flags 2 hw -"),
        (marked(EMPTY, 258), "bad 0 image 1 flags 258 hw -"),
        (marked(EMPTY, 10, 7), "bad 0 image 1 flags 10 hw 7"),
    ]:
        check_line(inspected(block), f"area last 3000 {line}")


def test_blocks_that_are_refused():
    for block, why in [
        (EMPTY[:4086] + b"S1SUSPEND\1", "signature 533153555350454e4401"),
        (ZERO_PAGE, "signature 00000000000000000000"),
        (EMPTY[:4086] + b"SWAP-SPACE", "old"),
        (header(3000, version=2), "version 2"),
        (header(0), "last zero"),
        (with_number(EMPTY, 1032, 631), "bad count 631"),
        (header(3000, [5, 3001]), "bad entry 3001"),
        (header(3000, [5, 0]), "bad entry 0"),
    ]:
        check_refused(inspected(block), f"no swap: {why}")


def test_blocks_that_are_not_there():
    """An empty file, and an offset past the end. Block 0 can be named by its number too."""
    zeros = "no swap: signature 00000000000000000000"
    with disk(0, b"") as swap:
        check_refused(run("swsusp", "inspect", swap.path), zeros)
    for offset in [1, 2, 4294967295]:
        check_refused(inspected(EMPTY, "--offset", offset), zeros)
    check_line(inspected(EMPTY, "--offset", 0), "area last 3000 bad 0 image none")


def test_drills():
    """The sums of three, ten and two thousand words are worked out from the values 1000003 c + 7919 i. The first eight of them are shown
    again after another one was stored over them."""
    for number, line in [
        (1, "drill 1 events 79 hibernated 1 resumed 1 words 2 sum 2000007"),
        (10, "drill 10 events 166 hibernated 1 resumed 1 words 18 sum 180578635"),
        (2000, "drill 2000 events 10128 hibernated 1 resumed 1 words 2008 sum 4031842350740"),
    ]:
        check_line(run("swsusp", "drill", number), line)
