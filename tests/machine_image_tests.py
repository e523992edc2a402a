"""What `swsusp_image machine` makes of images: dumps that are read here by the tables of docs/FORMATS.md, and hibernated again."""
import pathlib
import subprocess
import tempfile

from harness import check, check_line, check_refused, check_same, programs, run
from image_machine_tests import Read, Sized, gapless
from image_tests import Built
from inputs import BAD, EXAMPLE, FREE, OVER_FILE, PAGE, Machine, area, disk, header, page
from linux_tests import PLAIN, check_pages, made_up
from linux_tests import area as kernels_area

# The tables of a machine of inputs.py with 2048 page frames.
TABLES = ["--tables", 0, 2]


def machine(file, *options):
    return run("swsusp_image", "machine", *options, file.path)


def made(ran):
    check_same("a machine's status and note", (ran[0], ran[2]), (0, ""))
    return Read(ran[1])


def hibernate(file, dump):
    ran = run("swsusp", "hibernate", file.path, stdin=dump)
    check_same("a hibernation's status and note", (ran[0], ran[2]), (0, ""))


def check_machine(dump, saved, bad=(0,)):
    """Checks that only the saved page frames, which have their pages, and the tables are in use, with no flag and no owner."""
    valid = {p for first, count in dump.zones for p in range(first, first + count)}
    frames = dump.frames()
    in_use = {*saved, *dump.tables()}
    check_same("how many page frames are saved or of tables", len(in_use), len(saved) + len(dump.tables()))
    check_same("the frame table", {p: frames[p] for p in valid}, {p: 0 if p in in_use else FREE for p in valid})
    check_same("the bad slots", {s: e for s, e in enumerate(dump.entries(dump.slot_table, dump.slots)) if e}, {s: BAD for s in bad})
    check_same("the saved pages", {p: dump.pages.get(p, bytes(PAGE)) for p in saved}, saved)
    check_same("other pages", set(dump.pages) - in_use, set())


def test_the_machine_with_new_tables():
    """Page frames 0 to 3 and 10 are saved. The tables come after the first of them, and a hibernation saves the tables too."""
    saved = {p: EXAMPLE.saved_pages().get(p, bytes(PAGE)) for p in [0, 1, 2, 3, 10]}
    with area() as file, area() as other:
        hibernate(file, EXAMPLE.saved())
        before = file.bytes()
        ran = machine(file)
        dump = made(ran)
        check_same("the area", file.bytes(), before)
        check_same("the hardware", (dump.magic, dump.version, dump.slots, dump.hw_sig, dump.zones), (b"SWSUDMP1", 393472, 1600, 0, [(0, 2048)]))
        check_same("the tables", (dump.frame_table, dump.slot_table), (4, 6))
        check_machine(dump, saved)
        check_line(run("swsusp", "hibernate", other.path, stdin=ran[1]), "hibernated 9")
        check(run("swsusp_image", "differ", file.path, other.path), 1, "".join(f"frame {p} second alone\n" for p in [4, 5, 6, 7]).encode())
        resumed = run("swsusp", "resume", other.path, stdin=run("swsusp_image", "loader", other.path)[1])
        check_same("a resume's status and note", (resumed[0], resumed[2]), (0, ""))
        restored = Read(resumed[1])
        check_same("the restored pages", {p: restored.pages.get(p, bytes(PAGE)) for p in saved}, saved)


def test_the_machine_with_its_tables():
    """The dump is the machine that hibernated, byte for byte, with its tasks' page frames and slots. Hibernated again, it gives the same image."""
    slots = page({0: BAD, 4 * 5: 3, 4 * 9: 64})
    for hw_sig in [0, 0xFFFFFFFF]:
        with area() as file, area() as other:
            saved = Machine(hw_sig=hw_sig).saved(slots=slots, cached=[20, 21])
            hibernate(file, saved)
            before = file.bytes()
            ran = machine(file, *TABLES)
            check(ran, 0, saved)
            check_same("the area", file.bytes(), before)
            hibernate(other, ran[1])
            check(run("swsusp_image", "differ", file.path, other.path), 0, b"same\n")


def test_extents_and_an_offset():
    words = [word for extent in OVER_FILE.extents for word in ["--extent", *extent]]
    with disk(1699, header(1599), at=50) as file:
        hibernate(file, OVER_FILE.saved())
        check_refused(machine(file, "--offset", 50), "block of slot 0 0: offset 50")
        check(machine(file, *words, *TABLES, "--offset", 50, "--zone", 0, 2048), 0, OVER_FILE.saved())
        check_refused(machine(file, *words[:4], "--offset", 50), "extents refused")


def test_tables_at_fault():
    """Page frames that have no table, or a table that disagrees with the image about page frames."""
    with area() as file:
        hibernate(file, EXAMPLE.saved())
        for tables, note in [
            ((2047, 2), "tables refused"),
            ((1, 2), "tables refused"),
            ((0, 2048), "tables refused"),
            ((4294967295, 4294967295), "tables refused"),
            # There slot 0 is free.
            ((0, 3), "tables: page frame 3"),
            # Page frame 10 is a task's.
            ((0, 10), "tables: page frame 10"),
            # In a frame table of zeros every page frame is in use.
            ((4, 2), "tables: page frame 4"),
        ]:
            check_refused(machine(file, "--tables", *tables), note)


def ran_over(built, *options):
    with tempfile.TemporaryDirectory() as room:
        path = pathlib.Path(room) / "area"
        built.write(path)
        return run("swsusp_image", "machine", *options, path)


def test_limits():
    check_refused(ran_over(Sized(65537)), "limit page frames 65536: memory pages 65537")
    check_refused(ran_over(Sized(0)), "zones refused")
    check_refused(ran_over(Sized(2048), "--zone", 0, 2047), "page frames in zones 2047: memory pages 2048")
    check_refused(ran_over(Sized(2048), "--zone", 0, 3, "--zone", 4, 2045), "page frame 3 lies in no zone")
    check_refused(ran_over(Sized(9)), "no room for the tables")
    check_refused(ran_over(Sized(600, saved=599)), "no room for the tables")
    check_refused(ran_over(Built(8, last=131072)), "limit slots 131072: last page 131072")


def test_the_least_machine():
    """Page frames 0 to 7 are saved. The machine has only the tables beside them, so a hibernation finds no free page frame for a copy."""
    ran = ran_over(Sized(10))
    dump = made(ran)
    check_same("the tables", (dump.frame_table, dump.slot_table), (8, 9))
    check_machine(dump, {p: bytes([1 + p]) * PAGE for p in range(8)})
    with area(dump.slots - 1) as file:
        ran = run("swsusp", "hibernate", file.path, stdin=ran[1])
        check_same("a hibernation", (ran[0], ran[1], ran[2].split(" need ")[0]), (1, b"", "no frames 0"))


def test_what_is_no_image():
    with area() as file:
        check_refused(machine(file), "no image")
        check_refused(machine(file, "--offset", 5000, "--extent", 0, 1600, 5000), "no image")
    ran = ran_over(Built(8, flags=4))
    check_same("the status of a compressed image", (ran[0], ran[1]), (1, b""))


def test_a_damaged_image():
    """Nothing is written for an image with findings: a number out of order, and a wrong block for page frame 300."""
    built = Sized(2048)
    built.put_word(built.places[1], 3, 1)
    check(ran_over(built), 1, note="numbers page 1 word 3: 1 after 2\n")
    built = Sized(2048, saved=600)
    built.put_entry(1, 303, 0)
    check(ran_over(built), 1, note="map 1 block 1 entry 303: block 0\n")


def test_closed_and_full_outputs():
    with tempfile.TemporaryDirectory() as room:
        path = pathlib.Path(room) / "area"
        Sized(2048).write(path)
        for line in ['"$1" machine "$2" >&-', '"$1" machine "$2" > /dev/full', '"$1" machine "$2" <&- >&- 2>&-']:
            ran = subprocess.run(["sh", "-c", line, "sh", programs["swsusp_image"], path], capture_output=True, timeout=60, check=False)
            check_same(f"the status of {line}", ran.returncode, 4)
        ran = subprocess.run(["sh", "-c", '"$1" machine "$2" <&- 2>&-', "sh", programs["swsusp_image"], path], capture_output=True, timeout=60, check=False)
        check_same("a dump beside closed streams", ran.stdout, ran_over(Sized(2048))[1])


def test_words():
    with tempfile.TemporaryDirectory() as room:
        path = pathlib.Path(room) / "area"
        Sized(2048).write(path)
        for words in [
            ["machine", "--tables", "8", path],
            ["machine", "--tables", "08", "9", path],
            ["machine", "--tables", "8", "4294967296", path],
            ["machine", "--tables", "8", "9", "--tables", "8", "9", path],
            ["machine", path, "--tables", "8", "9"],
            ["machine", "--zone", "0", path],
            ["machine", "--offset", "0", "--offset", "0", path],
            ["machine"],
            ["machine", ""],
            ["loader", "--tables", "8", "9", path],
            ["machines", path],
        ]:
            ran = run("swsusp_image", *words)
            check_same(f"the status of {words}", (ran[0], ran[1]), (2, b""))
        sixteen = ["--zone", "0", "1"] * 16
        extents = ["--extent", "0", "1", "0"] * 64
        check_same("all options", run("swsusp_image", "machine", *sixteen, "--tables", "8", "9", *extents, "--offset", "0", path)[2], "zones refused\n")


def test_images_of_real_kernels():
    """The machine of each kernel's image hibernates again. The images differ only in the new tables, and the second one is resumed."""
    for name in PLAIN:
        with kernels_area(name) as (file, image), disk(image.last + 1, image.header[:4086] + b"SWAPSPACE2") as other:
            words = [word for zone in gapless(image) for word in ["--zone", *zone]]
            ran = machine(file, *words)
            dump = made(ran)
            check_machine(dump, {p: made_up(p) for p in image.listed}, bad=[0, *bad_slots(image)])
            hibernate(other, ran[1])
            lines = "".join(f"frame {p} second alone\n" for p in sorted(dump.tables()))
            check(run("swsusp_image", "differ", file.path, other.path), 1, lines.encode())
            loader = run("swsusp_image", "loader", *words, other.path)
            check_pages(run("swsusp", "resume", other.path, stdin=loader[1]), image)


def bad_slots(image):
    import image as reader

    return reader.bad_pages(image.header)
