"""What `swsusp_image show --json` and `check --json` print of images that are written here by hand, and of real ones.

The objects are written down here, from docs/FORMATS.md. Each is also compared with what the text form says.
"""
import json
import pathlib
import struct
import subprocess
import tempfile

from compressed import Compressed, twin
from harness import check_same, programs, run
from image_tests import Built, ran_over
from linux_tests import PLAIN, area
from lzo1x import compress, store

# Up to this number a double holds each whole number.
MOST = 2**53

# The members that can have several values.
ARRAYS = ["bad_page", "flag", "block_run", "frame_run"]

AREA = {"image": True, "area": "swap", "last_page": 12, "bad_pages": 0, "uuid": "00000000-0000-0000-0000-000000000000"}
MARK = {"first_map": 1, "flags": 2, "flag": ["nocompress"], "hw_sig": 0, "crc32": 0}
GENERIC = {
    "header": "generic",
    "sysname": "Linux",
    "nodename": "(none)",
    "release": "6.1.0",
    "version": "#1",
    "machine": "mips64",
    "domainname": "(none)",
    "version_code": 393472,
    "kernel": "6.1.0",
}
COUNTS = {"memory_pages": 65536, "image_pages": 8, "stream_pages": 10, "block_run": [[1, 11]], "maps": 1, "frame_run": [[0, 8]]}


def printed(built, command, *options):
    """Returns the status and the printed object of a command, and checks that the command leaves the area as it was."""
    (status, out, note), before, after = ran_over(built, command, "--json", *options)
    check_same("the note", note, "")
    check_same("the area", after, before)
    return status, object_of(out)


def object_of(out):
    """Returns the object that was printed, and checks that it is one line and that no member comes twice."""
    check_same("the end of the line", (out.count(b"\n"), out[-1:]), (1, b"\n"))
    pairs = json.loads(out, object_pairs_hook=lambda pairs: pairs)
    check_same("the members", len({key for key, _ in pairs}), len(pairs))
    # Nothing stands between the parts.
    check_same("the text", json.dumps(dict(pairs), separators=(",", ":"), ensure_ascii=False).encode() + b"\n", out)
    return dict(pairs)


def check_shown(built, *parts, options=(), status=0):
    """Checks that the object has exactly these members, in this order."""
    wanted = {key: value for part in parts for key, value in part.items()}
    got = printed(built, "show", *options)
    check_same("the object", got, (status, wanted))
    check_same("the order", list(got[1]), list(wanted))


def check_checked(built, image, findings, options=()):
    whole = image and not findings
    wanted = {"findings": findings, "image": image, "whole": whole}
    got = printed(built, "check", *options)
    check_same("the object", got, (0 if whole else 1, wanted))
    check_same("the order", list(got[1]), list(wanted))


def test_show_of_an_image():
    check_shown(Built(8), {"blocks": 13}, AREA, MARK, GENERIC, COUNTS)


def test_show_of_bad_pages_runs_and_flags():
    # Flags 2 and 8, and in a map of two bad pages one gap each.
    built = Built(1018, bad=(3, 5))
    built.put(0, 4072, struct.pack("<I", 10))
    check_shown(
        built,
        {"blocks": 1027},
        {"image": True, "area": "swap", "last_page": 1026, "bad_pages": 2, "bad_page": [3, 5], "uuid": AREA["uuid"]},
        {"first_map": 1, "flags": 10, "flag": ["nocompress", "hw_sig"], "hw_sig": 0, "crc32": 0},
        GENERIC,
        {"memory_pages": 65536, "image_pages": 1018, "stream_pages": 1021},
        {"block_run": [[1, 2], [4, 1], [6, 1020]], "maps": 2, "frame_run": [[0, 1000], [1001, 18]]},
    )


def counted(**facts):
    """Returns the counts with these facts, in the order in which they are printed."""
    order = ["memory_pages", "image_pages", "stream_pages", "block_run", "maps", "units", "compressed_bytes", "expanded_bytes", "frame_run"]
    return {key: {**COUNTS, **facts}[key] for key in order}


def test_show_of_compressed_images():
    """The blocks are those of the area; the page frames and the counts are those of the image."""
    built = twin(Built(8))
    mark = {"first_map": 1, "flags": 4, "flag": ["crc32"], "hw_sig": 0, "crc32": built.checksum}
    check_same("the chain", (built.maps, built.places), ([1], [2, 3]))
    # One unit of one page, which expands to the number page and 8 others.
    units = {"units": 1, "compressed_bytes": 4096, "expanded_bytes": 9 * 4096}
    check_shown(built, {"blocks": 13}, AREA, mark, GENERIC, counted(block_run=[[1, 3]], **units))
    # The info page, three units of 33 pages and one of one page: the bad pages part their blocks.
    built = twin(Built(120), packed=lambda k, unit: store(unit) if k < 3 else compress(unit), bad=(40, 70), first=30, flags=1)
    check_same("the chain", (built.maps, built.places), ([30], [*range(31, 40), *range(41, 70), *range(71, 71 + 63)]))
    check_shown(
        built,
        {"blocks": built.count},
        {"image": True, "area": "swap", "last_page": built.last, "bad_pages": 2, "bad_page": [40, 70], "uuid": AREA["uuid"]},
        {"first_map": 30, "flags": 1, "flag": ["platform_mode"], "hw_sig": 0, "crc32": 0},
        GENERIC,
        counted(image_pages=120, stream_pages=122, block_run=[[30, 10], [41, 29], [71, 63]], units=4, compressed_bytes=100 * 4096,
                expanded_bytes=121 * 4096, frame_run=[[0, 120]]),
    )


def test_show_of_damaged_compressed_images():
    """Only what the header block says is shown."""
    built = twin(Built(8))
    mark = {"first_map": 1, "flags": 4, "flag": ["crc32"], "hw_sig": 0, "crc32": built.checksum}
    built.put_length(0, 0)
    check_shown(built, {"blocks": 13}, AREA, mark)
    built = twin(Built(8))
    built.put(0, 4060, struct.pack("<I", built.checksum ^ 1))
    check_shown(built, {"blocks": 13}, AREA, {**mark, "crc32": built.checksum ^ 1})


def test_show_without_an_image():
    built = Built(8)
    built.put(0, 1036, bytes.fromhex("0123456789abcdef0123456789abcdef") + b'a "label" \\ of'.ljust(16, b"\0"))
    built.put(0, 4086, b"SWAPSPACE2")
    area_members = {"image": False, "area": "swap", "last_page": 12, "bad_pages": 0, "uuid": "01234567-89ab-cdef-0123-456789abcdef"}
    check_shown(built, {"blocks": 13}, area_members, {"label": 'a "label" \\ of'})
    built.put(0, 1052, b"\xe9\n".ljust(16, b"\0"))
    check_shown(built, {"blocks": 13}, area_members, {"label_hex": "e90a"})
    built.put(0, 4086, b"SWAP-SPACE")
    check_shown(built, {"blocks": 13, "image": False, "area": "old"})
    built.put(0, 4086, b"\x00LABEL\xff\x01\x02\x03")
    check_shown(built, {"blocks": 13, "image": False, "area": "other 004c4142454cff010203"})


def test_show_of_a_bad_area():
    built = Built(8)
    built.put(0, 1024, struct.pack("<I", 3))
    check_shown(built, {"blocks": 13, "image": True, "area": "bad version 3"}, MARK, GENERIC, COUNTS)


def test_show_without_a_header_block():
    check_shown(Built(8), {"blocks": 13, "header": "missing"}, options=("--offset", "13"), status=1)


def test_show_of_headers_of_architectures():
    built = Built(8)
    built.put(built.places[0], 0, struct.pack("<5Q", 0xFFFFFFFF81000000, 0x1000000, 0x2A0A000, 0x23456789ABCDEF02, 0xDEADBEEF).ljust(396, b"\0"))
    record = {
        "header": "x86-64",
        "jump_address": "0xffffffff81000000",
        "jump_address_physical": "0x0000000001000000",
        "cr3": "0x0000000002a0a000",
        "memory_map_checksum": "0x00000000deadbeef",
    }
    check_shown(built, {"blocks": 13}, AREA, MARK, record, COUNTS)
    built.put(built.places[0], 0, b"#1 SMP Debian 6.1.192-3 (2026-11-01)".ljust(396, b"\0"))
    check_shown(built, {"blocks": 13}, AREA, MARK, {"header": "arm64", "kernel_version": "#1 SMP Debian 6.1.192-3 (2026-11-01)"}, COUNTS)


def test_show_of_large_numbers():
    for number, value in [(MOST, MOST), (MOST + 1, str(MOST + 1)), (2**64 - 1, str(2**64 - 1))]:
        built = Built(8)
        built.put(built.places[0], 400, struct.pack("<Q", number))
        check_shown(built, {"blocks": 13}, AREA, MARK, GENERIC, {**COUNTS, "memory_pages": value})
        built = Built(8)
        built.put_word(built.places[1], 7, number)
        run_of_it = [value, 1]
        check_shown(built, {"blocks": 13}, AREA, MARK, GENERIC, {**COUNTS, "frame_run": [[0, 7], run_of_it]})


def test_check():
    check_checked(Built(8), True, [])
    check_checked(Built(20, header=77, first=3), True, [], options=("--offset", "77"))
    check_checked(Built(8), False, [], options=("--offset", "5000"))
    built = Built(8)
    built.put(0, 4086, b"SWAPSPACE2")
    check_checked(built, False, [])


def test_check_of_damages():
    built = Built(600)
    built.put_entry(2, 17, 0)
    check_checked(built, True, ["map 2 block 513 entry 17: block 0"])
    for entry in [18, 90]:
        built.put_entry(2, entry, 0)
    check_checked(built, True, [f"map 2 block 513 entry {entry}: block 0" for entry in [17, 18, 90]])
    built = Built(600)
    built.put(0, 1028, struct.pack("<I", 700))
    built.count = 700
    check_checked(built, True, ["header: last page 700, but the file has 700 blocks"])


def test_check_of_compressed_images():
    for saved in [1, 600, 1018]:
        check_checked(twin(Built(saved)), True, [])
    check_checked(Compressed(twin(Built(20)).pages, header=77, first=3), True, [], options=("--offset", "77"))
    built = twin(Built(8))
    built.put(0, 4086, b"SWAPSPACE2")
    check_checked(built, False, [])


def test_check_of_damaged_compressed_images():
    """The first fault of the area or a unit is found; of names without an end, both; and what is wrong with the pages of the plain image."""
    built = twin(Built(600))
    built.put(0, 1028, struct.pack("<I", 700))
    built.count = 700
    check_checked(built, True, ["header: last page 700, but the file has 700 blocks"])
    built = twin(Built(600))
    built.put_entry(1, 3, 0)
    built.put_entry(1, 9, 0)
    check_checked(built, True, ["map 1 block 1 entry 3: block 0"])
    built = twin(Built(600))
    built.put(built.places[0], 65, b"n" * 130)
    check_checked(built, True, ["info page name 1: no end", "info page name 2: no end"])
    built = twin(Built(600))
    built.put_length(18, 2**64 - 1)
    check_checked(built, True, [f"{built.place(18)}: length {2**64 - 1}"])
    built = twin(Built(600))
    built.put(0, 4060, struct.pack("<I", built.checksum ^ 1))
    check_checked(built, True, [f"checksum 0x{built.checksum ^ 1:08x}, but the units have 0x{built.checksum:08x}"])
    plain = Built(600)
    plain.put_word(plain.places[1], 7, 2**52)
    plain.put_word(plain.places[2], 41, 552)
    findings = ["numbers page 1 word 7: 4503599627370496 is no page frame", "numbers page 1 word 8: 8 after 4503599627370496"]
    check_checked(twin(plain), True, [*findings, "numbers page 2 word 41: 552 after 552"])


def value_of(key, text):
    """Returns the value of a line as JSON, by its text."""
    numbers = [int(word) if int(word) <= MOST else word for word in text.split()] if text.replace(" ", "").isdigit() else []
    if key == "image":
        return text == "yes"
    if key in ["block_run", "frame_run"]:
        return numbers
    named = ["sysname", "nodename", "release", "version", "machine", "domainname", "kernel_version", "label", "uuid", "kernel"]
    return numbers[0] if len(numbers) == 1 and key.removesuffix("_hex") not in named else text


def members_of(lines):
    """Returns the members that stand for the lines of the text form."""
    members = {}
    for line in lines:
        key, text = line.split(" ", 1)
        if key in ARRAYS:
            members.setdefault(key, []).append(value_of(key, text))
        else:
            members[key] = value_of(key, text)
    return members


def test_both_forms_of_real_kernels_images():
    for name in [*PLAIN, "compressed"]:
        with area(name) as (file, _):
            status, text, _ = run("swsusp_image", "show", file.path)
            got = run("swsusp_image", "show", "--json", file.path)
            check_same(f"{name}: status", (got[0], got[2]), (status, ""))
            shown, wanted = object_of(got[1]), members_of(text.decode().splitlines())
            check_same(f"{name}: members", (shown, list(shown)), (wanted, list(wanted)))
            status, text, _ = run("swsusp_image", "check", file.path)
            got = run("swsusp_image", "check", "--json", file.path)
            check_same(f"{name}: status", (got[0], got[2]), (status, ""))
            *findings, last = text.decode().splitlines()
            check_same(f"{name}: check", object_of(got[1]), {"image": True, "findings": findings, "whole": last == "whole"})


def test_both_forms_of_many_findings():
    # Every second entry of the first map is 0.
    built = Built(1018)
    for entry in range(0, 511, 2):
        built.put_entry(1, entry, 0)
    *findings, last = ran_over(built)[0][1].decode().splitlines()
    check_same("how many", last, f"{len(findings)} findings")
    check_checked(built, True, findings)


def test_words():
    built = Built(8)
    for command in ["check", "show"]:
        wanted = ran_over(built, command, "--json")[0]
        check_same("a status", wanted[0], 0)
        for options in [("--offset", "0", "--json"), ("--json", "--offset", "0")]:
            check_same(f"{command} {options}", ran_over(built, command, *options)[0], wanted)
        for options in [("--json", "--json"), ("--json", "--offset", "0", "--json"), ("--json=true",), ("--offset", "0", "--offset", "0", "--json")]:
            check_same(f"{command} {options}", ran_over(built, command, *options)[0][0], 2)
    for command in ["stream", "page", "discard"]:
        check_same(command, run("swsusp_image", command, "--json", "area")[0], 2)


def test_an_output_that_fails():
    with tempfile.TemporaryDirectory() as room, open("/dev/full", "wb") as full:
        path = pathlib.Path(room) / "area"
        Built(8).write(path)
        for command in ["check", "show"]:
            ran = subprocess.run([programs["swsusp_image"], command, "--json", path], stdout=full, stderr=subprocess.PIPE, check=False)
            check_same(command, (ran.returncode, ran.stderr), (4, b"sink fault\n"))
