"""What `swsusp_image loader` makes of images: dumps that are read here by the tables of docs/FORMATS.md, and handed to `swsusp resume`."""
import pathlib
import struct
import tempfile

from harness import check, check_refused, check_same, run
from image_tests import Built
from inputs import BAD, EXAMPLE, FREE, NAMES, PAGE, Machine, area, disk, header, page
from linux_tests import PLAIN, check_pages
from linux_tests import area as kernels_area


class Read:
    """A dump, with or without extents."""

    def __init__(self, data):
        self.magic = data[:8]
        self.version, self.slots, self.frame_table, self.slot_table, self.hw_sig, zones = struct.unpack_from("<6I", data, 8)
        self.names, at = data[32:422], 424
        self.zones = [struct.unpack_from("<2I", data, at + 8 * k) for k in range(zones)]
        at += 8 * zones
        self.extents = []
        if self.magic == b"SWSUDMP2":
            _, count = struct.unpack_from("<2I", data, at)
            self.extents = [struct.unpack_from("<3I", data, at + 8 + 12 * k) for k in range(count)]
            at += 8 + 12 * count
        count, = struct.unpack_from("<I", data, at)
        at += 4
        self.pages = {}
        for _ in range(count):
            self.pages[struct.unpack_from("<I", data, at)[0]] = data[at + 4 : at + 4 + PAGE]
            at += 4 + PAGE
        check_same("the end of a dump", at, len(data))

    def entries(self, table, count):
        pages = (self.pages.get(table + k, bytes(PAGE)) for k in range(-(-count // 1024)))
        return struct.unpack(f"<{count}I", b"".join(pages)[: 4 * count])

    def frames(self):
        first, count = self.zones[-1]
        return self.entries(self.frame_table, first + count)

    def tables(self):
        first, count = self.zones[-1]
        return [*range(self.frame_table, self.frame_table + -(-(first + count) // 1024)), *range(self.slot_table, self.slot_table + -(-self.slots // 1024))]


def loader(file, *options):
    return run("swsusp_image", "loader", *options, file.path)


def made(ran):
    check_same("a loader's status and note", (ran[0], ran[2]), (0, ""))
    return Read(ran[1])


def check_fresh(dump, bad=(0,)):
    """Checks that only the tables are in use, that the bad slots are bad, and that all other page frames and slots are free."""
    valid = {p for first, count in dump.zones for p in range(first, first + count)}
    frames = dump.frames()
    check_same("the page frames in use", [p for p in sorted(valid) if frames[p] != FREE], sorted(dump.tables()))
    check_same("the entries of the tables", {frames[p] for p in dump.tables()}, {0})
    check_same("the bad slots", {s: e for s, e in enumerate(dump.entries(dump.slot_table, dump.slots)) if e}, {s: BAD for s in bad})
    check_same("the pages of a loader", set(dump.pages) - set(dump.tables()), set())


def test_the_image_of_a_dump():
    """The loader has the dump's hardware, except for its tables: they come after those of the image, whose page frames are 0 to 3 and 10."""
    with area() as file:
        check_same("a hibernation", run("swsusp", "hibernate", file.path, stdin=EXAMPLE.saved())[0], 0)
        before = file.bytes()
        ran = loader(file)
        dump = made(ran)
        check_same("the area", file.bytes(), before)
        check_same("the hardware", (dump.magic, dump.version, dump.slots, dump.hw_sig, dump.zones), (b"SWSUDMP1", 393472, 1600, 0, [(0, 2048)]))
        check_same("the names", dump.names, b"".join(name.ljust(65, b"\0") for name in NAMES))
        check_same("the tables", (dump.frame_table, dump.slot_table), (4, 6))
        check_fresh(dump)
        resumed = run("swsusp", "resume", file.path, stdin=ran[1])
        check_same("a resume's status and note", (resumed[0], resumed[2]), (0, ""))
        restored = Read(resumed[1])
        wanted = EXAMPLE.saved_pages()
        check_same("the restored pages", {p: restored.pages.get(p, bytes(PAGE)) for p in wanted}, wanted)


def test_a_hardware_signature_and_bad_slots():
    machine = Machine(hw_sig=0xFFFFFFFF)
    slots = page({0: BAD, 4 * 7: BAD, 4 * 1000: BAD})
    with disk(1600, header(1599, [7, 1000])) as file:
        check_same("a hibernation", run("swsusp", "hibernate", file.path, stdin=machine.saved(slots=slots))[0], 0)
        ran = loader(file)
        dump = made(ran)
        check_same("the signature", dump.hw_sig, 0xFFFFFFFF)
        check_fresh(dump, bad=[0, 7, 1000])
        check_same("a resume", run("swsusp", "resume", file.path, stdin=ran[1])[0], 0)


def test_extents_and_an_offset():
    extents = ((0, 1, 50), (1, 1599, 100))
    words = [word for extent in extents for word in ["--extent", *extent]]
    machine = Machine(extents=extents)
    with disk(1699, header(1599), at=50) as file:
        check_same("a hibernation", run("swsusp", "hibernate", file.path, stdin=machine.saved())[0], 0)
        check_refused(loader(file, "--offset", 50), "block of slot 0 0: offset 50")
        check_refused(loader(file, *words, "--offset", 51), "no image")
        ran = loader(file, *words[:4], "--offset", 50, *words[4:], "--zone", 0, 2048)
        dump = made(ran)
        check_same("the extents", dump.extents, list(extents))
        check_fresh(dump)
        check_refused(loader(file, *words[:4], "--offset", 50), "extents refused")
        check_same("a resume", run("swsusp", "resume", file.path, stdin=ran[1])[0], 0)


def ran_over(built, *options):
    with tempfile.TemporaryDirectory() as room:
        path = pathlib.Path(room) / "area"
        built.write(path)
        return run("swsusp_image", "loader", *options, path)


class Sized(Built):
    """An image whose info page says that the machine has `pages` page frames."""

    def __init__(self, pages, saved=8, **settings):
        super().__init__(saved, **settings)
        self.put(self.places[0], 400, struct.pack("<Q", pages))


def test_limits():
    check_refused(ran_over(Sized(65537)), "limit page frames 65536: memory pages 65537")
    check_refused(ran_over(Sized(2097152), "--zone", 0, 65536), "limit page frames 65536: memory pages 2097152")
    check_refused(ran_over(Sized(0)), "zones refused")
    check_refused(ran_over(Sized(2048), "--zone", 5, 10, "--zone", 14, 10), "zones refused")
    check_refused(ran_over(Sized(2048), "--zone", 0, 2047), "page frames in zones 2047: memory pages 2048")
    check_refused(ran_over(Sized(2048), "--zone", 0, 3, "--zone", 4, 2045), "page frame 3 lies in no zone")
    check_refused(ran_over(Sized(9)), "no room for the tables")
    check_refused(ran_over(Sized(10)), "free page frames 8: needed 10")
    check_refused(ran_over(Sized(600, saved=599)), "no room for the tables")


def test_the_least_machine():
    """Page frames 0 to 7 are saved. The loader needs as many more, a list frame, a bounce frame and two for the tables."""
    check_refused(ran_over(Sized(11)), "free page frames 9: needed 10")
    dump = made(ran_over(Sized(12)))
    check_same("the tables", (dump.frame_table, dump.slot_table), (8, 9))
    check_fresh(dump)


def test_tables_around_saved_page_frames():
    """The frame table needs two page frames, and finds them after page frame 1; the slot table is in page frame 0."""
    built = Sized(2048, saved=1)
    built.put(built.places[1], 0, struct.pack("<Q", 1))
    dump = made(ran_over(built))
    check_same("the tables", (dump.frame_table, dump.slot_table), (2, 0))
    check_fresh(dump)


def test_a_large_area():
    check_refused(ran_over(Built(8, last=131072)), "limit slots 131072: last page 131072")
    check_fresh(made(ran_over(Built(8, last=131071))))


def test_what_is_no_image():
    with area() as file:
        check_refused(loader(file), "no image")
    built = Built(8, flags=4)
    ran = ran_over(built)
    check_same("the status of a compressed image", (ran[0], ran[1]), (1, b""))
    built = Sized(2048)
    built.put_word(built.places[1], 3, 1)
    check(ran_over(built), 1, note="numbers page 1 word 3: 1 after 2\n")


def test_words():
    with tempfile.TemporaryDirectory() as room:
        path = pathlib.Path(room) / "area"
        Sized(2048).write(path)
        for words in [
            ["--zone", "0", path],
            ["--zone", "00", "2048", path],
            ["--zone", "0", "4294967296", path],
            ["--offset", "0", "--offset", "0", path],
            ["--extent", "0", "10", path],
            [path, "--zone", "0", "2048"],
            ["--zones", "0", "2048", path],
            [],
            [""],
            [*["--zone", "0", "1"] * 17, path],
            [*["--extent", "0", "1", "0"] * 65, path],
        ]:
            ran = run("swsusp_image", "loader", *words)
            check_same(f"the status of {words}", (ran[0], ran[1]), (2, b""))
        check_same("sixteen zones", run("swsusp_image", "loader", *["--zone", "0", "1"] * 16, path)[2], "zones refused\n")


def test_images_of_real_kernels():
    """The image of each kernel is resumed into the loader that is made of it, and its identity is compared."""
    for name in PLAIN:
        with kernels_area(name) as (file, image):
            zones = gapless(image)
            words = [word for zone in zones for word in ["--zone", *zone]]
            ran = loader(file, *words)
            dump = made(ran)
            check_same(f"{name}: the zones", dump.zones, zones)
            check_same(f"{name}: the identity", (dump.names, dump.version), (image.info[:390], int.from_bytes(image.info[392:396], "little")))
            check_pages(run("swsusp", "resume", file.path, stdin=ran[1]), image)


def gapless(image):
    """Returns the zones of a machine with as many page frames as the image counts, including all that it saves."""
    import image as reader

    return [tuple(zone) for zone in reader.Hardware(image).zones]
