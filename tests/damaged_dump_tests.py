"""Memory dumps with a fault, and for each the name and the place of the fault that is reported."""
import struct

from harness import check_refused, check_same, run, run_before_the_end
from inputs import BAD, EXAMPLE, Machine, area, page


def check_dump(dump, fault=None):
    """Checks that the bytes are a valid dump, or are refused for this fault."""
    ran = run("swsusp_machine", "show", stdin=dump)
    if fault:
        check_refused(ran, f"dump {fault}", status=3)
    else:
        check_same("the note of a dump", (ran[0], ran[2]), (0, ""))


def with_number(dump, at, number):
    """Returns the dump with a 4-byte number written over it at `at`."""
    return dump[:at] + struct.pack("<I", number) + dump[at + 4 :]


def with_byte_turned(dump, at):
    """Returns the dump with all bits of a byte flipped."""
    return dump[:at] + bytes([dump[at] ^ 255]) + dump[at + 1 :]


def tiny(extents=()):
    """Returns a dump with page frames 0 to 3, two slots, the tables in page frames 0 and 1, and one record."""
    return Machine(frames=4, slots=2, hw_sig=5, extents=extents).dump({1: page({0: BAD})})


FILE_MAP = ((0, 1, 50), (1, 1, 100))


def test_damaged_dumps():
    dump = EXAMPLE.saved()
    check_same("the dump's length", len(dump), 16836)
    check_dump(dump)
    for at, number, fault in [
        (0, 0, "Magic byte 0"),
        (12, 1, "Header byte 12"),
        (16, 2047, "Header byte 16"),
        (28, 0, "Zone byte 28"),
        (28, 17, "Zone byte 28"),
        (428, 0, "Zone byte 424"),
        (432, 2049, "Frame byte 432"),
        (4536, 0, "Order byte 4536"),
        (4536, 2048, "Frame byte 4536"),
        (432, 3, "Extra byte 12736"),
        (440, 4, "Tables frame 0"),
    ]:
        check_dump(with_number(dump, at, number), fault)


def test_a_byte_too_many():
    check_dump(EXAMPLE.saved() + b"\0", "Extra byte 16836")


def test_a_field_is_looked_at_when_it_was_read():
    """The first bytes of a dump show its fault, although the input goes on."""
    dump, mapped = EXAMPLE.saved(), tiny(FILE_MAP)
    for whole, at, number, needed, fault in [
        (dump, 0, 0, 8, "Magic byte 0"),
        (dump, 12, 1, 16, "Header byte 12"),
        (dump, 28, 17, 32, "Zone byte 28"),
        (dump, 428, 0, 432, "Zone byte 424"),
        (dump, 16, 2047, 432, "Header byte 16"),
        (dump, 432, 2049, 436, "Frame byte 432"),
        (dump, 4536, 0, 4540, "Order byte 4536"),
        (dump, 432, 3, 12737, "Extra byte 12736"),
        (mapped, 436, 0, 440, "Extent byte 436"),
        (mapped, 444, 0, 452, "Extent byte 440"),
        (mapped, 460, 50, 464, "Extent byte 452"),
        (mapped, 432, 51, 464, "Extent byte 432"),
    ]:
        first = with_number(whole, at, number)[:needed]
        check_refused(run_before_the_end("swsusp_machine", "show", stdin=first), f"dump {fault}", status=3)
        with area() as swap:
            for command in ["hibernate", "resume"]:
                check_refused(run_before_the_end("swsusp", command, swap.path, stdin=first), f"dump {fault}", status=3)


def test_damaged_file_maps():
    dump = tiny(FILE_MAP)
    check_same("the dump's length", len(dump), 4568)
    check_dump(dump)
    for at, number, fault in [
        (436, 0, "Extent byte 436"),
        (436, 65, "Extent byte 436"),
        (444, 0, "Extent byte 440"),
        (460, 50, "Extent byte 452"),
        (456, 2, "Extent byte 452"),
        (432, 51, "Extent byte 432"),
    ]:
        check_dump(with_number(dump, at, number), fault)


def check_each_byte(dump, table):
    """Flips each byte from the first number of a row up to the second, and checks the row's fault."""
    for first, end, fault in table:
        for at in range(first, end):
            check_dump(with_byte_turned(dump, at), fault)


def test_each_byte_of_the_front():
    """The mark, the numbers before the names, the names, the zone and the number of records."""
    check_each_byte(tiny(), [
        (0, 8, "Magic byte 0"),
        (8, 13, None),
        (13, 14, "Header byte 16"),
        (14, 16, "Header byte 12"),
        (16, 24, "Header byte 16"),
        (24, 28, None),
        (28, 32, "Zone byte 28"),
        (32, 424, None),
        (424, 426, "Header byte 16"),
        (426, 428, "Zone byte 424"),
        (428, 429, None),
        (429, 430, "Header byte 16"),
        (430, 432, "Zone byte 424"),
        (432, 436, "Frame byte 432"),
    ])


def test_each_byte_of_a_file_map():
    """The same, and the number of records after it."""
    check_each_byte(tiny(FILE_MAP), [
        (432, 436, "Extent byte 432"),
        (436, 440, "Extent byte 436"),
        (440, 444, "Extent byte 440"),
        (444, 448, "Extent byte 452"),
        (448, 452, "Extent byte 432"),
        (452, 460, "Extent byte 452"),
        (460, 464, None),
        (464, 468, "Frame byte 464"),
    ])


def test_dumps_that_end_early():
    """Every prefix of a dump without records, and many prefixes of a dump with one record: the fault is at the prefix's end."""
    dump = tiny()
    for n in [*range(436), *range(436, 4536, 50), 4535]:
        check_dump(dump[:n], f"Short byte {n}")
    check_dump(dump[:432] + bytes(4), "Tables frame 1")
    for n in range(432, 4568, 47):
        check_dump(tiny(FILE_MAP)[:n], f"Short byte {n}")
