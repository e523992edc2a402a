"""What `swsusp_machine from-core` makes of core files, which are put together here from elf.h's structures (core_tests).

One of our own core files gives its machine's pages back; another maker's core file gives the pages of its segments.
"""
import struct

from harness import Mismatch, check, check_refused, check_same, run
from inputs import EXAMPLE, NAMES, PAGE, area

PT_LOAD, PT_NOTE = 1, 4


def file_header(count, place=64, **fields):
    """Returns an Elf64_Ehdr of a core file with the given number of program headers; named fields replace its own."""
    has = {"magic": b"\x7fELF", "bits": 2, "order": 1, "ident": 1, "kind": 4, "machine": 62, "version": 1, "size": 56, **fields}
    head = has["magic"] + bytes([has["bits"], has["order"], has["ident"]]) + bytes(9)
    return head + struct.pack("<HHIQQQIHHHHHH", has["kind"], has["machine"], has["version"], 0, place, 0, 0, 64, has["size"], count, 64, 0, 0)


def segment(place, address, size, memory, kind=PT_LOAD):
    return struct.pack("<IIQQQQQQ", kind, 7, place, 0, address, size, memory, PAGE)


def from_core(core, *words):
    return run("swsusp_machine", "from-core", *words, stdin=core)


class Read:
    """The contents of a dump (docs/FORMATS.md)."""

    def __init__(self, dump):
        self.slots, self.frame_table, self.slot_table, self.signature, zones = struct.unpack_from("<5I", dump, 12)
        self.names = [dump[32 + 65 * k : 97 + 65 * k].rstrip(b"\0") for k in range(6)]
        self.zones = [struct.unpack_from("<2I", dump, 424 + 8 * k) for k in range(zones)]
        at = 424 + 8 * zones
        if dump[:8] == b"SWSUDMP2":
            at += 8 + 12 * struct.unpack_from("<I", dump, at + 4)[0]
        count, at, self.pages = struct.unpack_from("<I", dump, at)[0], at + 4, {}
        for _ in range(count):
            self.pages[struct.unpack_from("<I", dump, at)[0]] = dump[at + 4 : at + 4 + PAGE]
            at += 4 + PAGE
        check_same("the length of the dump", len(dump), at)


def read(core, *words):
    status, out, note = from_core(core, *words)
    if (status, note) != (0, ""):
        raise Mismatch(f"status {status} and {note!r}")
    return Read(out)


def check_pages(machine, pages):
    """Checks that exactly these page frames, and those of the tables, hold bytes."""
    tables = set(range(machine.frame_table, machine.frame_table + -(-machine.zones[0][1] // 1024)))
    tables |= set(range(machine.slot_table, machine.slot_table + -(-machine.slots // 1024)))
    check_same("the pages", {p: page for p, page in machine.pages.items() if p not in tables}, pages)


def test_a_core_of_ours_gives_its_pages_back():
    status, core, note = run("swsusp_machine", "core", stdin=EXAMPLE.saved())
    check_same("the end of core", (status, note), (0, ""))
    machine = read(core)
    check_pages(machine, EXAMPLE.saved_pages())
    check_same("the names", machine.names, [name.rstrip(b"\0") for name in NAMES])


def test_a_core_of_another_maker():
    """The kernel's text comes first, inside the last segment; the others begin and end inside page frames; there are holes."""
    first, second = bytes(range(1, 251)) * 20, b"\xaa\x55" * 2250
    table = segment(232, 20 * PAGE + 8, 100, 100) + segment(332, 2 * PAGE + 100, 5000, 5000) + segment(5409, 20 * PAGE, 4500, 3 * PAGE)
    core = file_header(3) + table + bytes([7]) * 100 + first + b"#" * 77 + second + b"rest"
    machine = read(core)
    check_same("the zones", machine.zones, [(0, 23)])
    check_same("the slots", machine.slots, 23)
    check_same("the names", [machine.names[0], machine.names[4]], [b"Linux", b"x86_64"])
    memory = bytearray(23 * PAGE)
    memory[2 * PAGE + 100 : 2 * PAGE + 5100] = first
    memory[20 * PAGE : 20 * PAGE + 4500] = second
    pages = {p: bytes(memory[p * PAGE : p * PAGE + PAGE]) for p in range(23)}
    check_pages(machine, {p: page for p, page in pages.items() if any(page)})
    check_same("the slots that are asked for", read(core, "--slots", "5000").slots, 5000)


def test_of_two_segments_with_the_same_addresses_the_first_is_kept():
    core = file_header(2) + segment(176, 5 * PAGE, 10, 10) + segment(186, 5 * PAGE, 10, 10) + b"A" * 10 + b"B" * 10
    check_pages(read(core), {5: (b"A" * 10).ljust(PAGE, b"\0")})


def test_a_core_that_ends_too_early():
    core = file_header(1) + segment(120, 5 * PAGE, PAGE, PAGE) + b"\1" * PAGE
    check_pages(read(core), {5: b"\1" * PAGE})
    for size in [*range(121), 4000, 120 + PAGE - 1]:
        check_refused(from_core(core[:size]), f"core file ends at byte {size}")


def test_what_is_refused():
    rest = bytes(56)
    far = 2**48 + 1
    for core, note in [
        (file_header(1, magic=b"\x7fELG") + rest, "no ELF file"),
        (file_header(1, bits=1) + rest, "ELF class 1"),
        (file_header(1, order=2) + rest, "ELF byte order 2"),
        (file_header(1, ident=0) + rest, "ELF version 0"),
        (file_header(1, version=9) + rest, "ELF version 9"),
        (file_header(1, kind=2) + rest, "ELF type 2"),
        (file_header(1, size=32) + rest, "program headers of 32 bytes"),
        (file_header(0) + rest, "program headers 0"),
        (file_header(65535) + rest, "program headers 65535"),
        (file_header(1, place=63) + rest, "program headers at byte 63"),
        (file_header(1, place=far) + rest, f"program headers at byte {far}"),
        (file_header(1) + segment(120, 0, 0, 0), "no segment"),
        (file_header(1) + segment(120, 0, 10, 10, PT_NOTE), "no segment"),
        (file_header(1) + segment(120, PAGE, 11, 10), "segment at address 4096: more bytes in the file than in memory"),
        (file_header(1) + segment(120, 2**64 - PAGE, 0, PAGE + 1), f"segment at address {2**64 - PAGE}: ends beyond 2^64"),
        (file_header(1) + segment(120, 2**28 - PAGE, 0, PAGE + 1), f"limit page frames 65536: address {2**28}"),
        (file_header(2) + segment(176, PAGE, 9, 9) + segment(185, 4200, 9, 9), "segment at address 4200: not above the one before"),
        (file_header(2) + segment(176, PAGE, 9, 9) + segment(184, 8192, 9, 9), "segment at address 8192: its bytes lie before others"),
        (file_header(1) + segment(119, PAGE, 9, 9), "segment at address 4096: its bytes lie before others"),
        (file_header(1) + segment(far, PAGE, 9, 9), f"segment at byte {far}"),
        (file_header(1) + segment(120, 0, 2 * PAGE, 2 * PAGE) + b"x" * 2 * PAGE, "no room for the tables"),
    ]:
        check_refused(from_core(core), note)


def test_the_machine_of_a_core_file_hibernates_and_resumes():
    # Four pages at page frame 5, in a memory of 2,000 page frames.
    pages = {5 + k: bytes([k + 1]) * PAGE for k in range(4)}
    core = file_header(1) + segment(120, 5 * PAGE, 4 * PAGE, 1995 * PAGE) + b"".join(pages.values())
    status, dump, note = from_core(core, "--slots", "2000")
    check_same("the end of from-core", (status, note), (0, ""))
    machine = Read(dump)
    saved = 4 + 2 * -(-2000 // 1024)
    loader = run("swsusp_machine", "loader", stdin=dump)[1]
    with area(1999) as file:
        check(run("swsusp", "hibernate", file.path, stdin=dump), 0, f"hibernated {saved}\n".encode())
        check(run("swsusp_image", "check", file.path), 0, b"whole\n")
        check(run("swsusp_machine", "check", file.path, stdin=loader), 0, f"resumed {saved}\n".encode())
        status, restored, note = run("swsusp", "resume", file.path, stdin=loader)
        check_same("the end of the resume", (status, note), (0, ""))
    check_same("the memory", Read(restored).pages, machine.pages)
