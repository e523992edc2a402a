"""What `swsusp_machine core` writes of a dump: the file is compared with one that is put together from elf.h's structures (core_tests)."""
import shutil
import struct
import subprocess
import tempfile

from core_tests import core_file, runs_of, told
from harness import Mismatch, check, check_refused, check_same, programs, run
from inputs import EXAMPLE, FREE, NAMES, PAGE, ZERO_PAGE, Machine, area, page

# The beginning of an info page of the machine of tests, and the places of a dump's number of zones, names and zones.
IDENTITY = b"".join(name.ljust(65, b"\0") for name in NAMES) + struct.pack("<HI", 0, 393472)
ZONE_COUNT, NAMES_AT, ZONES_AT = 28, 32, 424

NINES = bytes([9]) * PAGE


def core(dump):
    return run("swsusp_machine", "core", stdin=dump)


def wanted(pages, frames, machine=0, identity=IDENTITY):
    """Returns the core file of these page frames, some of which have pages; the others are all zero."""
    return core_file(machine, identity, {p: pages.get(p, ZERO_PAGE) for p in frames})


def check_core(dump, pages, frames, **identity):
    """Checks that the core file of a dump has exactly these page frames."""
    status, out, note = core(dump)
    if (status, out, note) != (0, wanted(pages, frames, **identity), ""):
        raise Mismatch(f"a core of {len(frames)} page frames: status {status}, {len(out)} bytes and {note!r}")


def test_core_of_a_saved_machine():
    """The tables are in use, even the slot table's second page frame, which is all zero; and page frame 10 is a task's."""
    check_core(EXAMPLE.saved(), EXAMPLE.saved_pages(), [0, 1, 2, 3, 10])


def test_page_frames_in_use_that_are_all_zero():
    pages = {**EXAMPLE.loader_pages(1000), 50: NINES}
    check_core(EXAMPLE.dump(pages), pages, range(1000))


def test_free_page_frames_that_hold_bytes():
    """Three free page frames: 50 holds nines, 2047 is zero but for its last byte, and 60 is all zero."""
    pages = {**EXAMPLE.loader_pages(4), 50: NINES, 2047: bytes(PAGE - 1) + b"\1"}
    check_core(EXAMPLE.dump(pages), pages, [0, 1, 2, 3, 50, 2047])
    check_core(EXAMPLE.dump({**pages, 60: ZERO_PAGE}), pages, [0, 1, 2, 3, 50, 2047])


def test_a_machine_of_many_runs():
    """Above the tables every second page frame is in use, whatever its other flags are."""
    for frames in [2048, 5000, 65536]:
        machine = Machine(frames)
        used = [*range(machine.tables), *range(machine.tables + 1, frames, 2)]
        kinds = [0, 2, 4, 8, 16, 32, 64, 126, 7 << 16]
        free = {p: FREE for p in set(range(frames)) - set(used)}
        entries = {**{p: kinds[p % 9] for p in used[machine.tables :]}, **free}
        pages = {**machine.frame_table(frames, entries), machine.slot_table: page({0: 131072})}
        check_core(machine.dump(pages), pages, used)


def test_page_frames_of_no_zone():
    """Page frames 16 to 1023 are in no zone, so their entries in the frame table don't count."""
    for rest in [0, FREE]:
        entries = {**{p: rest for p in range(16, 1024)}, **{p: FREE for p in range(4, 16)}, **{p: FREE for p in range(1024, 2048)}, 1030: 0}
        pages = {**EXAMPLE.frame_table(0, entries), **EXAMPLE.saved_pages()}
        pages = {**pages, **EXAMPLE.frame_table(4, entries)}
        pages.pop(10)
        dump = EXAMPLE.dump(pages)
        dump = dump[:ZONE_COUNT] + struct.pack("<I", 2) + dump[NAMES_AT:ZONES_AT] + struct.pack("<4I", 0, 16, 1024, 1024) + dump[ZONES_AT + 8 :]
        check_core(dump, pages, [0, 1, 2, 3, 1030])


def test_machines():
    numbers = {b"x86_64": 62, b"aarch64": 183, b"i386": 3, b"i686": 3, b"armv7l": 40, b"riscv64": 243, b"ppc64le": 21}
    numbers |= {b"s390x": 22, b"loongarch64": 258, b"ar": 0, b"x86_64a": 0, b"": 0}
    saved, pages = EXAMPLE.saved(), EXAMPLE.saved_pages()
    for name, machine in numbers.items():
        at = NAMES_AT + 4 * 65
        field = name.ljust(65, b"\0")
        identity = IDENTITY[: 4 * 65] + field + IDENTITY[5 * 65 :]
        check_core(saved[:at] + field + saved[at + 65 :], pages, [0, 1, 2, 3, 10], machine=machine, identity=identity)


def test_core_of_the_image_of_the_same_machine():
    """All page frames in use are saved, and no other page frame holds a byte that isn't zero, so the image's core file is that of the dump."""
    for machine in [Machine(), Machine(frames=3000, slots=5000)]:
        saved = machine.saved(cached=range(100, 140))
        with area(machine.slots - 1) as one:
            run("swsusp", "hibernate", one.path, stdin=saved)
            check_same("the core of the image", core(saved), run("swsusp_image", "core", one.path))


def test_what_is_no_dump():
    for dump, note in [(b"", "dump Short byte 0"), (EXAMPLE.saved()[:435], "dump Short byte 435"), (b"\x7fELF" * 200, "dump Magic byte 0")]:
        check_refused(core(dump), note, status=3)


def test_closed_and_full_streams():
    with tempfile.NamedTemporaryFile() as file:
        file.write(EXAMPLE.saved())
        file.flush()
        for line, note in [("<&-", "source fault\n"), ('< "$2" >&-', "sink fault\n"), ('< "$2" > /dev/full', "sink fault\n")]:
            words = ["sh", "-c", f'"$1" core {line}', "sh", programs["swsusp_machine"], file.name]
            ran = subprocess.run(words, capture_output=True, timeout=60, check=False)
            check((ran.returncode, ran.stdout, ran.stderr.decode()), 4, note=note)
        words = ["sh", "-c", '"$1" core < "$2" 2>&- > /dev/null', "sh", programs["swsusp_machine"], file.name]
        check_same("the status without a note", subprocess.run(words, timeout=60, check=False).returncode, 0)


def test_readelf_lists_the_segments():
    if not shutil.which("readelf"):
        return
    pages = {**EXAMPLE.loader_pages(1000), 1500: NINES}
    with tempfile.NamedTemporaryFile() as file:
        file.write(core(EXAMPLE.dump(pages))[1])
        file.flush()
        lines = [line.split() for line in told("readelf", "-lW", file.name).splitlines() if line.split()[:1] == ["LOAD"]]
    listed = [(int(line[3], 16) // PAGE, int(line[4], 16) // PAGE, int(line[5], 16) // PAGE) for line in lines]
    check_same("the segments", listed, [(first, count, count) for first, count in runs_of([*range(1000), 1500])])
