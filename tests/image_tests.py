"""What `swsusp_image` says of images that are written here by hand, from docs/FORMATS.md, and of damaged ones.

The images come from `Built` below, and those of tests/linux from real kernels. No program of this repository writes one here.
"""
import itertools
import pathlib
import shutil
import struct
import subprocess
import tempfile

from harness import Mismatch, check, check_refused, check_same, programs, run
from linux_tests import PLAIN, area, logged
from inputs import PAGE, Machine
from inputs import area as fresh_area

ENTRIES = 511
END = 2**64 - 1
NAMES = [b"Linux", b"(none)", b"6.1.0", b"#1", b"mips64", b"(none)"]


def words(numbers):
    return struct.pack(f"<{len(numbers)}Q", *numbers).ljust(PAGE, b"\0")


class Built:
    """An image of `saved` pages in an area, block by block: maps and pages from block 1 on, as Linux lays them out on a fresh area."""

    def __init__(self, saved, last=None, bad=(), first=1, header=0, flags=2):
        numbers = self.numbers = [p + p // 1000 for p in range(saved)]
        listed = [numbers[k : k + 512] for k in range(0, saved, 512)]
        pages = [self.info(saved)]
        pages += [words(page + [END] * (len(page) < 512)) for page in listed]
        pages += [bytes([1 + p % 255]) * PAGE for p in numbers]
        self.header = header
        self.blocks = {}
        self.maps = []
        self.places = []
        free = (b for b in range(first, 1 << 30) if b not in bad and b != header)
        for at in range(0, len(pages) // ENTRIES + 1):
            self.maps.append(next(free))
            part = pages[at * ENTRIES : (at + 1) * ENTRIES]
            for page in part:
                self.places.append(next(free))
                self.blocks[self.places[-1]] = page
        for at, b in enumerate(self.maps):
            named = self.places[at * ENTRIES : (at + 1) * ENTRIES]
            link = self.maps[at + 1] if at + 1 < len(self.maps) else 0
            self.blocks[b] = words(named + [0] * (ENTRIES - len(named)) + [link])
        end = max([*self.maps, *self.places, header]) + 1
        self.last = last or end
        self.count = self.last + 1
        self.blocks[header] = self.area(bad, first, flags)

    @staticmethod
    def info(saved):
        pages = saved + (saved + 511) // 512 + 1
        named = b"".join(name.ljust(65, b"\0") for name in NAMES).ljust(392, b"\0")
        return (named + struct.pack("<IIQQQQQ", 393472, 0, 65536, 0, saved, pages, pages * PAGE)).ljust(PAGE, b"\0")

    def area(self, bad, first, flags):
        page = bytearray(PAGE)
        page[1024:1036] = struct.pack("<III", 1, self.last, len(bad))
        page[1536 : 1536 + 4 * len(bad)] = struct.pack(f"<{len(bad)}I", *bad)
        page[4064:] = struct.pack("<QI", first, flags) + b"SWAPSPACE2" + b"S1SUSPEND\0"
        return bytes(page)

    def put(self, b, at, data):
        """Writes bytes into a block."""
        page = bytearray(self.blocks[b])
        page[at : at + len(data)] = data
        self.blocks[b] = bytes(page)

    def put_word(self, b, k, number):
        self.put(b, 8 * k, struct.pack("<Q", number))

    def put_entry(self, map_, entry, number):
        """Sets an entry of a map; entry 511 is its link. Maps count from 1."""
        self.put_word(self.maps[map_ - 1], entry, number)

    def write(self, path):
        with open(path, "wb") as made:
            for b, page in self.blocks.items():
                made.seek(b * PAGE)
                made.write(page)
            made.truncate(self.count * PAGE)


def ran_over(built, command="check", *options):
    """Returns what a command says of an image, and the file's bytes before and after it."""
    with tempfile.TemporaryDirectory() as room:
        path = pathlib.Path(room) / "area"
        built.write(path)
        before = path.read_bytes()
        ran = run("swsusp_image", command, *options, path)
        return ran, before, path.read_bytes()


def check_findings(built, *lines, options=()):
    """Checks that `check` prints exactly these lines and their number, and writes nothing."""
    ran, before, after = ran_over(built, "check", *options)
    end = f"{len(lines)} findings" if lines else "whole"
    check(ran, 1 if lines else 0, "".join(f"{line}\n" for line in [*lines, end]).encode())
    check_same("the area after a check", after, before)


def test_whole_images():
    for saved in [1, 8, 511, 512, 513, 600, 1018]:
        check_findings(Built(saved))


def test_an_empty_last_map_is_right_and_not_needed():
    # 507 + 1 + 1 pages fill no map; 509 + 1 + 1 fill one, and the writer makes another.
    built = Built(509)
    check_same("the maps", len(built.maps), 2)
    check_findings(built)
    built.put_entry(1, 511, 0)
    check_findings(built)


def test_bad_slots_and_another_first_map():
    check_findings(Built(600, bad=(1, 2, 3, 100, 700), first=4, last=900))


def test_a_file_with_the_header_at_an_offset():
    check_findings(Built(20, header=77, first=3), options=("--offset", "77"))


def compared(first, second, *options):
    """Returns what `differ` says of two images, and checks that it changes neither."""
    with tempfile.TemporaryDirectory() as room:
        paths = [pathlib.Path(room) / name for name in ["first", "second"]]
        for path, built in zip(paths, [first, second]):
            built.write(path)
        before = [path.read_bytes() for path in paths]
        ran = run("swsusp_image", "differ", *options, *paths)
        check_same("the areas", [path.read_bytes() for path in paths], before)
        return ran


def changed(change, saved=600):
    """Returns an image with a change."""
    built = Built(saved)
    change(built)
    return built


def test_images_that_are_the_same():
    """The blocks that an image lies in, and what belongs to the area, aren't compared."""
    check(compared(Built(600), Built(600)), 0, b"same\n")
    check(compared(Built(600), Built(600, bad=(1, 2, 3, 700), first=4, last=1500)), 0, b"same\n")
    check(compared(Built(20, header=77, first=3), Built(20, header=77, first=9), "--offset", "77"), 0, b"same\n")
    unsigned = changed(lambda built: built.put(0, 4056, struct.pack("<I", 7)))
    check(compared(Built(600), unsigned), 0, b"same\n")


# Changes to the second image of 600 page frames, and the lines that report them. Block 1 is its first map, block 2 its info page, and blocks 3
# and 4 have the numbers 0 to 511 and 512 to 599. Up to page frame 507, page frame P's page is in block 5 + P; from 508 on, after the second map,
# in block 6 + P.
DIFFERENCES = [
    (lambda built: built.put(0, 4072, struct.pack("<I", 3)), ["header flags 2 3"]),
    (lambda built: (built.put(0, 4072, struct.pack("<I", 10)), built.put(0, 4056, struct.pack("<I", 7))), ["header flags 2 10", "header hardware signature 0 7"]),
    (lambda built: built.put(2, 392, struct.pack("<I", 393473)), ["identity version code"]),
    (lambda built: built.put(2, 0, b"linux"), ["identity sysname"]),
    (lambda built: built.put(2, 65, b"(some)"), ["identity nodename"]),
    (lambda built: built.put(2, 130 + 5, b".1"), ["identity release"]),
    (lambda built: built.put(2, 195 + 64 - 1, b"x"), ["identity version"]),
    (lambda built: built.put(2, 260, b"mipsel"), ["identity machine"]),
    (lambda built: built.put(2, 325, b"home"), ["identity domainname"]),
    (lambda built: built.put(2, 400, struct.pack("<Q", 2**40)), ["memory size 65536 1099511627776"]),
    (lambda built: built.put(5, 0, b"\0"), ["page 0"]),
    (lambda built: (built.put(6 + 599, 4095, b"\0"), built.put(5 + 300, 2000, b"\0")), ["page 300", "page 599"]),
    (lambda built: built.put_word(4, 87, 700), ["frame 599 first alone", "frame 700 second alone"]),
    (lambda built: built.put_word(4, 87, 2**52 - 1), ["frame 599 first alone", f"frame {2**52 - 1} second alone"]),
    (lambda built: (built.put(2, 130 + 5, b".1"), built.put(5, 0, b"\0"), built.put_word(4, 87, 700)), ["identity release", "page 0", "frame 599 first alone", "frame 700 second alone"]),
]


def test_images_that_differ():
    for change, lines in DIFFERENCES:
        text = "".join(f"{line}\n" for line in lines).encode()
        check(compared(Built(600), changed(change)), 1, text)
        check(compared(Built(600), changed(change), "--first"), 1, f"{lines[0]}\n".encode())
        check(compared(changed(change), changed(change)), 0, b"same\n")
    check(compared(Built(511), Built(513)), 1, b"frame 511 second alone\nframe 512 second alone\n")
    check(compared(Built(513), Built(511)), 1, b"frame 511 first alone\nframe 512 first alone\n")
    check(compared(Built(513), Built(511), "--first"), 1, b"frame 511 first alone\n")
    check(compared(Built(20), Built(20), "--first"), 0, b"same\n")
    for options in [["--first", "--offset", "77"], ["--offset", "77", "--first"]]:
        check(compared(Built(20, header=77, first=3), Built(19, header=77, first=3), *options), 1, b"frame 19 first alone\n")


def test_images_that_cant_be_compared():
    none = changed(lambda built: built.put(0, 4086, b"SWAPSPACE2"))
    for name, images in [("first", (none, Built(600))), ("second", (Built(600), none))]:
        check(compared(*images), 1, note=f"{name}: no image\n")
    # The entry of page frame 300 is 0, and page frame 0 differs in the other image.
    torn = changed(lambda built: built.put_entry(1, 303, 0))
    other = changed(lambda built: built.put(5, 0, b"\0"))
    found = "map 1 block 1 entry 303: block 0\n"
    for name, images in [("first", (torn, other)), ("second", (other, torn))]:
        check(compared(*images), 1, b"page 0\n", f"{found}{name}: the image has findings\n")


def test_no_image():
    built = Built(8)
    built.put(0, 4086, b"SWAPSPACE2")
    ran, before, after = ran_over(built)
    check(ran, 1, b"no image\n")
    check_same("the area", after, before)
    ran, _, _ = ran_over(Built(8), "check", "--offset", "5000")
    check(ran, 1, b"no image\n")


def damaged(saved=600, **settings):
    return Built(saved, **settings)


def test_damages_of_the_header():
    built = damaged()
    built.put(0, 4076, b"SWAPSPACE3")
    check_findings(built, "header: the original signature is no swap area's")
    built = damaged()
    built.put(0, 4076, b"S1SUSPEND\0")
    check_findings(built, "header: the original signature is no swap area's")
    built = damaged()
    built.put(0, 4076, b"SWAP-SPACE")
    check_findings(built, "header: the area has version 0")
    built = damaged()
    built.put(0, 1024, struct.pack("<I", 3))
    check_findings(built, "header: the area has version 3")
    built = damaged()
    built.put(0, 1032, struct.pack("<I", 631))
    check_findings(built, "header: the area has 631 bad pages")
    built = damaged()
    built.put(0, 1028, struct.pack("<I", 700))
    built.count = 700
    check_findings(built, "header: last page 700, but the file has 700 blocks")
    built = damaged()
    built.put(0, 4072, struct.pack("<I", 5))
    check_findings(built, "unit 1 map 1 block 1 entry 1: length 0")


def test_damages_of_the_chain():
    built = damaged()
    built.put(0, 4064, struct.pack("<Q", 0))
    check_findings(built, "map 1: block 0")
    built = damaged()
    built.put(0, 4064, struct.pack("<Q", END))
    check_findings(built, f"map 1: block {END} is beyond the file")
    built = damaged()
    built.put_entry(1, 511, 0)
    check_findings(built, "map 1: no next map, though the image has 603 pages")
    built = damaged()
    built.put_entry(1, 511, built.maps[0])
    check_findings(built, "map 2: block 1 is named already")
    built = damaged()
    built.put_entry(2, 511, built.maps[0])
    check_findings(built, "map 3: block 1 is named already")
    built = damaged()
    built.put_entry(1, 511, built.places[3])
    check_findings(built, "map 2: block 5 is named already")
    built = damaged()
    built.put_entry(1, 511, built.count)
    check_findings(built, f"map 2: block {built.count} is beyond the file")
    built = damaged()
    built.put_entry(2, 511, built.count - 1)
    built.blocks[built.count - 1] = bytes(PAGE)
    check_findings(built, f"map 3 block {built.count - 1}: after the last map")
    built = damaged(bad=(9,))
    built.put_entry(1, 511, 9)
    check_findings(built, "map 2: block 9 is a bad page")


def test_damages_of_entries():
    built = damaged()
    built.put_entry(2, 17, 0)
    check_findings(built, "map 2 block 513 entry 17: block 0")
    built = damaged()
    built.put_entry(2, 17, 2**64 - 1)
    check_findings(built, f"map 2 block 513 entry 17: block {END} is beyond the file")
    built = damaged()
    built.put_entry(1, 510, built.places[509])
    check_findings(built, f"map 1 block 1 entry 510: block {built.places[509]} is named already")
    built = damaged()
    built.put_entry(1, 510, built.maps[0])
    check_findings(built, "map 1 block 1 entry 510: block 1 is named already")
    built = damaged(bad=(800,), last=900)
    built.put_entry(1, 400, 800)
    check_findings(built, "map 1 block 1 entry 400: block 800 is a bad page")
    built = damaged()
    built.count += 3
    built.put_entry(2, 0, built.last + 1)
    check_findings(built, f"map 2 block 513 entry 0: block {built.last + 1} is beyond the last page")
    built = damaged()
    built.put_entry(2, 92, built.last)
    check_findings(built, f"map 2 block 513 entry 92: block {built.last} after the last page")
    built = damaged()
    for entry in [17, 18, 90]:
        built.put_entry(2, entry, 0)
    check_findings(built, *(f"map 2 block 513 entry {entry}: block 0" for entry in [17, 18, 90]))
    built = Built(8)
    built.put_entry(1, 0, 0)
    check_findings(built, "map 1 block 1 entry 0: block 0")


def test_damages_of_the_info_page():
    built = damaged()
    built.put(built.places[0], 65, b"n" * 65)
    check_findings(built, "info page name 1: no end")
    built = damaged()
    built.put(built.places[0], 0, b"n" * 390)
    check_findings(built, *(f"info page name {j}: no end" for j in range(6)))
    built = damaged()
    built.put(built.places[0], 432, struct.pack("<Q", 603 * PAGE + 1))
    check_findings(built, f"info page: size {603 * PAGE + 1}, but pages 603")
    built = damaged()
    built.put(built.places[0], 416, struct.pack("<Q", 599))
    check_findings(built, "info page: image pages 599, but pages 603", "numbers page 2 word 87: 599 after the last number")
    built = damaged()
    built.put(built.places[0], 424, struct.pack("<QQ", 602, 602 * PAGE))
    check_findings(built, "info page: image pages 600, but pages 602", f"map 2 block 513 entry 91: block {built.places[602]} after the last page")


def test_headers_of_architectures():
    built = damaged()
    built.put(built.places[0], 0, bytes(396))
    built.put(built.places[0], 24, struct.pack("<Q", 0x23456789ABCDEF02))
    check_findings(built)
    built.put(built.places[0], 24, struct.pack("<Q", 0x23456789ABCDEF01))
    check_findings(built, "info page: the header of an architecture, but with magic 0x23456789abcdef01")
    built.put(built.places[0], 0, b"#1 SMP Debian 6.1.192-3 (2026-11-01)".ljust(65, b"\0"))
    check_findings(built)


def test_damages_of_number_pages():
    built = damaged()
    built.put_word(built.places[2], 40, 552)
    built.put_word(built.places[2], 41, 552)
    check_findings(built, "numbers page 2 word 41: 552 after 552", )
    built = damaged()
    built.put_word(built.places[2], 0, 511)
    check_findings(built, "numbers page 2 word 0: 511 after 511")
    built = damaged()
    built.put_word(built.places[1], 7, 2**52)
    check_findings(built, f"numbers page 1 word 7: {2**52} is no page frame", f"numbers page 1 word 8: 8 after {2**52}")
    built = damaged()
    built.put_word(built.places[2], 88, 0)
    check_findings(built, "numbers page 2 word 88: 0 after the last number")


def test_an_image_without_pages_of_zeros():
    built = Built(8, flags=258)
    built.put_word(built.places[1], 3, 3 + 2**63)
    built.put(built.places[0], 424, struct.pack("<QQ", 9, 9 * PAGE))
    built.put_entry(1, 9, 0)
    check_findings(built)
    # A number without its mark asks for a data page that the image doesn't have; a number with a mark leaves one that no number names.
    built.put_word(built.places[1], 3, 3)
    check_findings(built, "number pages: data pages 8, but pages 9")
    built = Built(600, flags=258)
    built.put_word(built.places[2], 20, built.numbers[532] + 2**63)
    check_findings(built, "number pages: data pages 599, but pages 603")
    # Pages that aren't read aren't counted.
    built.put_entry(1, 1, 0)
    check_findings(built, f"map 1 block {built.maps[0]} entry 1: block 0")
    built = Built(8)
    built.put_word(built.places[1], 3, 3 + 2**63)
    check_findings(built, f"numbers page 1 word 3: {3 + 2**63} is no page frame", f"numbers page 1 word 4: 4 after {3 + 2**63}")


def test_what_a_resume_refuses_is_found():
    # Page frame 3 of this machine is zero and has no data page. Then the info page counts one page more, and the map names it.
    machine = Machine()
    with fresh_area() as area:
        check_same("the status", run("swsusp", "hibernate", "--skip-zeros", area.path, stdin=machine.saved())[0], 0)
        check(run("swsusp_image", "check", area.path), 0, b"whole\n")
        info = area.block(2)
        counts = struct.unpack_from("<QQ", info, 416)
        area.write(2, info[:424] + struct.pack("<QQ", counts[1] + 1, (counts[1] + 1) * PAGE) + info[440:])
        area.change((1, 8 * counts[1], 1000))
        ran = run("swsusp_image", "check", area.path)
        check(ran, 1, f"number pages: data pages {counts[1] - 2}, but pages {counts[1] + 1}\n1 findings\n".encode())
        check_refused(run("swsusp", "resume", area.path, stdin=machine.loader(1000)), f"bad counts {counts[0]} {counts[1] + 1}", 1)


def test_real_kernels():
    for name in PLAIN:
        with area(name) as (file, _):
            check(run("swsusp_image", "check", file.path), 0, b"whole\n")


AREA = ["image yes", "area swap"]
FRESH_UUID = "uuid 00000000-0000-0000-0000-000000000000"
MARK = ["first_map 1", "flags 2", "flag nocompress", "hw_sig 0", "crc32 0"]
GENERIC = [
    "header generic",
    "sysname Linux",
    "nodename (none)",
    "release 6.1.0",
    "version #1",
    "machine mips64",
    "domainname (none)",
    "version_code 393472",
    "kernel 6.1.0",
]


def check_shown(built, *lines, options=(), status=0):
    """Checks that `show` prints exactly these lines, and writes nothing."""
    ran, before, after = ran_over(built, "show", *options)
    check(ran, status, "".join(f"{line}\n" for line in lines).encode())
    check_same("the area after a show", after, before)


def test_show_of_an_image():
    check_shown(
        Built(8),
        "blocks 13", *AREA, "last_page 12", "bad_pages 0", FRESH_UUID, *MARK, *GENERIC,
        "memory_pages 65536", "image_pages 8", "stream_pages 10", "block_run 1 11", "maps 1", "frame_run 0 8",
    )


def test_show_of_two_maps_a_gap_and_a_bad_page():
    # 1018 pages of the page frames 0 to 999 and 1001 to 1018, 2 number pages and the info page: 511 in the first map, 510 in the second.
    check_shown(
        Built(1018, bad=(3,)),
        "blocks 1026", *AREA, "last_page 1025", "bad_pages 1", "bad_page 3", FRESH_UUID, *MARK, *GENERIC,
        "memory_pages 65536", "image_pages 1018", "stream_pages 1021",
        "block_run 1 2", "block_run 4 1021", "maps 2", "frame_run 0 1000", "frame_run 1001 18",
    )


def test_show_of_an_area_in_a_device():
    check_shown(
        Built(8, header=77, first=3),
        "blocks 79", *AREA, "last_page 78", "bad_pages 0", FRESH_UUID, "first_map 3", *MARK[1:], *GENERIC,
        "memory_pages 65536", "image_pages 8", "stream_pages 10", "block_run 3 11", "maps 1", "frame_run 0 8",
        options=("--offset", "77"),
    )


def test_show_of_a_label_and_a_uuid():
    built = Built(8)
    built.put(0, 1036, bytes.fromhex("0123456789abcdef0123456789abcdef") + b"swap of mine\0\0\0\0")
    built.put(0, 4086, b"SWAPSPACE2")
    check_shown(
        built,
        "blocks 13", "image no", "area swap", "last_page 12", "bad_pages 0",
        "uuid 01234567-89ab-cdef-0123-456789abcdef", "label swap of mine",
    )
    built.put(0, 1052, b"\xe9".ljust(16, b"\0"))
    ran, _, _ = ran_over(built, "show")
    check_same("the last line", ran[1].splitlines()[-1], b"label_hex e9")


def test_show_of_other_areas():
    built = Built(8)
    built.put(0, 4086, b"SWAP-SPACE")
    check_shown(built, "blocks 13", "image no", "area old")
    built.put(0, 4086, b"\x00LABEL\xff\x01\x02\x03")
    check_shown(built, "blocks 13", "image no", "area other 004c4142454cff010203")
    check_shown(Built(8), "blocks 13", "header missing", options=("--offset", "13"), status=1)
    built = Built(8)
    built.put(0, 1024, struct.pack("<I", 3))
    ran, _, _ = ran_over(built, "show")
    check_same("the area", ran[1].splitlines()[:3], [b"blocks 13", b"image yes", b"area bad version 3"])


def test_show_of_headers_of_architectures():
    counts = ["memory_pages 65536", "image_pages 8", "stream_pages 10", "block_run 1 11", "maps 1", "frame_run 0 8"]
    area_lines = ["blocks 13", *AREA, "last_page 12", "bad_pages 0", FRESH_UUID, *MARK]
    built = Built(8)
    built.put(built.places[0], 0, bytes(396))
    check_shown(built, *area_lines, "header unknown", *counts)
    built.put(built.places[0], 0, struct.pack("<5Q", 0xFFFFFFFF81000000, 0x1000000, 0x2A0A000, 0x23456789ABCDEF02, 0xDEADBEEF))
    record = [
        "header x86-64",
        "jump_address 0xffffffff81000000",
        "jump_address_physical 0x0000000001000000",
        "cr3 0x0000000002a0a000",
        "memory_map_checksum 0x00000000deadbeef",
    ]
    check_shown(built, *area_lines, *record, *counts)
    built.put(built.places[0], 0, b"#1 SMP Debian 6.1.192-3 (2026-11-01)".ljust(65, b"\0"))
    check_shown(built, *area_lines, "header arm64", "kernel_version #1 SMP Debian 6.1.192-3 (2026-11-01)", *counts)


def test_show_goes_as_far_as_the_bytes_allow():
    built = Built(600)
    built.put_entry(2, 17, 0)
    ran, _, _ = ran_over(built, "show")
    # The first map, its 511 pages, the second map and 17 of its pages.
    check_same("the blocks", ran[1].splitlines()[-3:], [b"block_run 1 530", b"maps 2", b"frame_run 0 600"])
    built = Built(8, flags=5)
    check_shown(
        built,
        "blocks 13", *AREA, "last_page 12", "bad_pages 0", FRESH_UUID, "first_map 1",
        "flags 5", "flag platform_mode", "flag crc32", "hw_sig 0", "crc32 0",
    )


def units_of(image):
    """Returns what is printed of the units of a real kernel's image: 32 pages each, in all pages of its chain but the info page."""
    pages = image.pages - 1
    return [str(n) for n in [-(-pages // 32), 4096 * (len(image.chain) - 1), 4096 * pages]]


def test_show_of_real_kernels_images():
    """The kernel logs how many page frames it copied; all else is read by the laboratory's own reader."""
    for name in [*PLAIN, "compressed"]:
        with area(name) as (file, image):
            status, out, note = run("swsusp_image", "show", file.path)
            check_same(f"{name}: status and note", (status, note), (0, ""))
            facts = [line.split(b" ", 1) for line in out.splitlines()]
            values = {key.decode(): value.decode() for key, value in facts}
            check_same(f"{name}: the mark", (values["first_map"], values["flags"]), (str(image.first), str(image.flags)))
            check_same(f"{name}: pages", values["image_pages"], str(logged(name, r"Need to copy (\d+) pages")[0]))
            check_same(f"{name}: memory", values["memory_pages"], str(image.physpages))
            check_same(f"{name}: header", values["header"], "x86-64" if name == "x86_64" else "generic")
            frames = [tuple(map(int, value.split())) for key, value in facts if key == b"frame_run"]
            check_same(f"{name}: page frames", tuple(p for start, count in frames for p in range(start, start + count)), image.listed)
            units = [values.get(key) for key in ["units", "compressed_bytes", "expanded_bytes"]]
            check_same(f"{name}: units", units, units_of(image) if name == "compressed" else [None] * 3)
            blocks = [tuple(map(int, value.split())) for key, value in facts if key == b"block_run"]
            check_same(f"{name}: blocks", sorted(b for at, n in blocks for b in range(at, at + n)), sorted([*image.maps, *image.chain]))


def streamed(built):
    """Returns the pages of an image in the order of its chain, one after another."""
    return b"".join(built.blocks[b] for b in built.places)


def test_stream_of_whole_images():
    for saved in [1, 8, 509, 512, 513, 1018]:
        built = Built(saved)
        ran, before, after = ran_over(built, "stream")
        check(ran, 0, streamed(built))
        check_same("the area", after, before)
    built = Built(20, header=77, first=3)
    ran, _, _ = ran_over(built, "stream", "--offset", "77")
    check(ran, 0, streamed(built))


def test_stream_is_that_of_an_export_and_moves_an_image():
    machine = Machine()
    saved, loader = machine.saved(), machine.loader(1000)
    _, exported, _ = run("swsusp", "export", stdin=saved)
    with fresh_area() as one, fresh_area() as other:
        run("swsusp", "hibernate", one.path, stdin=saved)
        ran = run("swsusp_image", "stream", one.path)
        check(ran, 0, exported)
        check_same("the status of the import", run("swsusp", "import", other.path, stdin=ran[1])[0], 0)
        check(run("swsusp_image", "check", other.path), 0, b"whole\n")
        check(run("swsusp_image", "differ", one.path, other.path), 0, b"same\n")
        first = run("swsusp", "resume", one.path, stdin=loader)
        check_same("what is restored", run("swsusp", "resume", other.path, stdin=loader), first)
        check_refused(run("swsusp_image", "stream", one.path), "no image", 1)


def test_stream_of_a_damaged_image_stops_before_the_damage():
    built = Built(600)
    built.put_entry(2, 17, 0)
    ran, before, after = ran_over(built, "stream")
    check_refused((ran[0], b"", ran[2]), f"map 2 block {built.maps[1]} entry 17: block 0", 1)
    check_same("the stream", ran[1], streamed(built)[: (ENTRIES + 17) * PAGE])
    check_same("the area", after, before)
    ran, _, _ = ran_over(Built(8, flags=5), "stream")
    check_refused(ran, "unit 1 map 1 block 1 entry 1: length 0", 1)


def paged(built, frame):
    """Returns what `page` prints for a page frame, and the area before and after."""
    with tempfile.TemporaryDirectory() as room:
        path = pathlib.Path(room) / "area"
        built.write(path)
        before = path.read_bytes()
        ran = run("swsusp_image", "page", path, str(frame))
        return ran, before, path.read_bytes()


def test_pages_of_page_frames():
    built = Built(1018)
    for frame in [0, 1, 511, 512, 999, 1001, 1018]:
        ran, before, after = paged(built, frame)
        check(ran, 0, bytes([1 + frame % 255]) * PAGE)
        check_same("the area", after, before)
    for frame in [1000, 1019, 2**63, 2**64 - 1]:
        ran, _, _ = paged(built, frame)
        check_refused(ran, f"no page {frame}", 1)


def test_page_is_read_although_damage_follows_it():
    built = Built(600)
    built.put_entry(2, 17, 0)
    ran, _, _ = paged(built, 500)
    check(ran, 0, bytes([1 + 500 % 255]) * PAGE)
    ran, _, _ = paged(built, 599)
    check_refused(ran, f"map 2 block {built.maps[1]} entry 17: block 0", 1)
    built = Built(8)
    built.put(0, 4086, b"SWAPSPACE2")
    ran, _, _ = paged(built, 0)
    check_refused(ran, "no image", 1)


def check_discarded(built):
    """The mark is cleared, and all other bytes stay."""
    ran, before, after = ran_over(built, "discard")
    check(ran, 0, b"discarded\n")
    check_same("the area", after, before[:4086] + before[4076:4086] + before[4096:])


def test_discard():
    check_discarded(Built(8))
    check_discarded(Built(8, flags=5))
    built = Built(8)
    built.put(0, 4076, b"SWAP-SPACE")
    check_discarded(built)
    built = Built(8, header=77, first=3)
    ran, before, after = ran_over(built, "discard", "--offset", "77")
    check(ran, 0, b"discarded\n")
    at = 77 * PAGE
    check_same("the area", after, before[: at + 4086] + before[at + 4076 : at + 4086] + before[at + 4096 :])


def probed(path):
    """Returns the type, the UUID and the label that blkid finds."""
    told = subprocess.run(["blkid", "-p", "-o", "export", path], capture_output=True, text=True).stdout
    facts = dict(line.split("=", 1) for line in told.splitlines())
    return [facts.get(key) for key in ["TYPE", "UUID", "LABEL"]]


def test_blkid_finds_the_area_that_was_discarded():
    if not shutil.which("blkid"):
        return
    built = Built(8)
    built.put(0, 1036, bytes(range(16)) + b"sleeps")
    with tempfile.TemporaryDirectory() as room:
        path = pathlib.Path(room) / "area"
        built.write(path)
        names = ["00010203-0405-0607-0809-0a0b0c0d0e0f", "sleeps"]
        check_same("what blkid finds of an image", probed(path), ["swsuspend", *names])
        check(run("swsusp_image", "discard", path), 0, b"discarded\n")
        check_same("what blkid finds afterwards", probed(path), ["swap", *names])


def test_discard_without_a_mark_to_take_back():
    built = Built(8)
    built.put(0, 4076, b"S1SUSPEND\0")
    ran, before, after = ran_over(built, "discard")
    check(ran, 1, b"no original signature\n")
    check_same("the area", after, before)
    built.put(0, 4086, b"SWAPSPACE2")
    ran, before, after = ran_over(built, "discard")
    check(ran, 1, b"no image\n")
    check_same("the area", after, before)
    ran, _, _ = ran_over(built, "discard", "--offset", "4000000000")
    check(ran, 1, b"no image\n")


def test_discard_of_real_kernels_images():
    for name in [*PLAIN, "compressed"]:
        with area(name) as (file, _):
            before = file.path.read_bytes()
            check(run("swsusp_image", "discard", file.path), 0, b"discarded\n")
            check_same(name, file.path.read_bytes(), before[:4086] + before[4076:4086] + before[4096:])
            check(run("swsusp_image", "check", file.path), 1, b"no image\n")


NOT_PLAIN = "words: options go before SWAP, SWAP isn't empty nor begins with -, numbers have no sign or leading zero"


def test_words():
    for words_ in [["check", "--offset", "01", "s"], ["check", "--offset", "+1", "s"], ["check", "s", "--offset", "1"], ["check", "-"], ["check", ""]]:
        check_refused(run("swsusp_image", *words_), NOT_PLAIN, 2)
    for words_ in [["page", "s", "01"], ["page", "s", "+1"], ["stream", "s", "--offset", "1"], ["differ", "a", "--first", "b"], ["differ", "a", "b", "--first"], ["differ", "a", "-"], ["differ", "a", ""], ["differ", "", "b"], ["differ", "--offset", "+1", "a", "b"]]:
        check_refused(run("swsusp_image", *words_), NOT_PLAIN, 2)
    for words_ in [[], ["check"], ["page", "s"], ["differ", "s"], ["differ", "a", "b", "c"], ["differ", "--first", "--first", "a", "b"], ["page", "s", "18446744073709551616"], ["check", "a", "b"], ["repair", "s"], ["check", "--offset", "4294967296", "s"]]:
        status, out, note = run("swsusp_image", *words_)
        if status != 2 or out or not note:
            raise Mismatch(f"{words_}: status {status}, {out!r} and {note!r}")
    for words_ in [["--help"], ["check", "--help"], ["--version"]]:
        status, out, note = run("swsusp_image", *words_)
        if status != 0 or not out or note:
            raise Mismatch(f"{words_}: status {status}, {out!r} and {note!r}")


def test_files_that_arent_opened():
    for command in ["check", "show", "stream", "discard"]:
        for path in ["/nowhere", "/"]:
            note = f"open fault: {path} isn't there, is no file or block device, is in use, or is an output"
            check_refused(run("swsusp_image", command, path), note, 7)
            if command == "check":
                with tempfile.NamedTemporaryFile() as other:
                    check_refused(run("swsusp_image", "differ", path, other.name), note, 7)
                    check_refused(run("swsusp_image", "differ", other.name, path), note, 7)


def test_quiet_changes_no_answer():
    built = Built(8)
    for command in ["check", "show", "stream", "page", "differ"]:
        with tempfile.TemporaryDirectory() as room:
            path = pathlib.Path(room) / "area"
            built.write(path)
            rest = {"page": ["0"], "differ": [path]}.get(command, [])
            check_same(command, run("swsusp_image", "--quiet", command, path, *rest), run("swsusp_image", command, path, *rest))
    for words_ in [["--quiet"], ["check", "--quiet", "s"], ["--quiet", "--quiet", "check", "s"]]:
        status, out, note = run("swsusp_image", *words_)
        if status != 2 or out or not note:
            raise Mismatch(f"{words_}: status {status}, {out!r} and {note!r}")


def test_closed_streams_leave_the_area():
    """With each set of closed standard streams only a discard writes to the area, and a command fails if it uses a closed stream."""
    built = Built(8)
    for command in ["check", "show", "stream", "page", "differ", "discard"]:
        for closed in itertools.product([False, True], repeat=3):
            with tempfile.TemporaryDirectory() as room:
                path = pathlib.Path(room) / "area"
                built.write(path)
                before = path.read_bytes()
                closing = " ".join(text for text, is_closed in zip(["<&-", ">&-", "2>&-"], closed) if is_closed)
                rest = {"page": "0", "differ": '"$2"'}.get(command, "")
                line = f'"$1" {command} "$2" {rest} {closing}'
                ran = subprocess.run(["sh", "-c", line, "sh", programs["swsusp_image"], path], capture_output=True, timeout=60, check=False)
                check_same(f"the status of {line}", ran.returncode, 4 if closed[1] else 0)
                after = before[:4086] + before[4076:4086] + before[4096:] if command == "discard" else before
                check_same(f"the area after {line}", path.read_bytes(), after)
