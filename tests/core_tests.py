"""What `swsusp_image core` writes of an image: the file is compared with one that is put together here from elf.h's structures.

If `readelf` and `gdb` are installed, they read it too.
"""
import pathlib
import shutil
import struct
import subprocess
import tempfile

from harness import Mismatch, check, check_refused, check_same, programs, run
from image_tests import ENTRIES, Built, ran_over
from inputs import PAGE, Machine
from inputs import area as fresh_area
from linux_tests import PLAIN, area, made_up, reader

PT_LOAD, PT_NOTE, PN_XNUM = 1, 4, 0xFFFF


def runs_of(frames):
    """Returns the runs of neighbouring numbers, each as (first, how many)."""
    runs = []
    for p in frames:
        if runs and p == sum(runs[-1]):
            runs[-1] = (runs[-1][0], runs[-1][1] + 1)
        else:
            runs.append((p, 1))
    return runs


def program_header(kind, flags, offset, address, size, align):
    return struct.pack("<IIQQQQQQ", kind, flags, offset, address, address, size, size, align)


def core_head(machine, info, frames):
    """Returns what comes before the pages of these page frames in the core file of an image with this info page."""
    runs = runs_of(sorted(frames))
    count = len(runs) + 1
    note_at = 64 + 56 * count
    note = struct.pack("<III", 9, 396, 1) + b"DIRUKOFE\0\0\0\0" + info[:396]
    many = count >= PN_XNUM
    section = bytes(4) + struct.pack("<IIQQQQIIQQ", 0, 0, 0, 0, 0, 0, 0, count, 0, 0) if many else b""
    place = -(-(note_at + len(note) + len(section)) // PAGE) * PAGE
    head = b"\x7fELF" + bytes([2, 1, 1]) + bytes(9)
    head += struct.pack("<HHIQQQIHHHHHH", 4, machine, 1, 0, 64, note_at + len(note) + 4 if many else 0, 0, 64, 56, min(count, PN_XNUM), 64, many, 0)
    head += program_header(PT_NOTE, 0, note_at, 0, len(note), 4)
    at = place
    for first, size in runs:
        head += program_header(PT_LOAD, 7, at, first * PAGE, size * PAGE, PAGE)
        at += size * PAGE
    return (head + note + section).ljust(place, b"\0")


def core_file(machine, info, pages):
    """Returns the core file of these pages, which are given by their page frames."""
    return core_head(machine, info, pages) + b"".join(pages[p] for p in sorted(pages))


def numbered(built):
    """Returns the page of each page frame of an image."""
    count = struct.unpack_from("<Q", built.blocks[built.places[0]], 416)[0]
    listed = -(-count // 512)
    words = b"".join(built.blocks[b] for b in built.places[1 : 1 + listed])
    return dict(zip(struct.unpack_from(f"<{count}Q", words), (built.blocks[b] for b in built.places[1 + listed :])))


def spread(built, step):
    """Spreads the image's page frames apart: they become the first multiples of `step`."""
    for i in range(len(numbered(built))):
        built.put_word(built.places[1 + i // 512], i % 512, i * step)
    return built


def wanted(built, machine=0):
    return core_file(machine, built.blocks[built.places[0]], numbered(built))


def check_core(built, machine=0, options=()):
    ran, before, after = ran_over(built, "core", *options)
    if ran != (0, wanted(built, machine), ""):
        raise Mismatch(f"a core of {len(numbered(built))} page frames: status {ran[0]}, {len(ran[1])} bytes and {ran[2]!r}")
    check_same("the area", after, before)


def test_cores_of_whole_images():
    for saved in [1, 8, 512, 513, 1000, 1001, 1018]:
        check_core(Built(saved))
    check_core(Built(20, header=77, first=3), options=["--offset", "77"])


def test_an_image_of_many_runs():
    for saved in [2, 63, 64, 65, 513]:
        check_core(spread(Built(saved), 2))


def test_more_program_headers_than_the_file_header_can_count():
    """Each page frame is a run of its own. The pages are holes of the file, and only what comes before them is read."""
    for saved in [PN_XNUM - 2, PN_XNUM - 1]:
        built = spread(Built(saved), 2)
        head = core_head(0, built.blocks[built.places[0]], range(0, 2 * saved, 2))
        for b in built.places[1 + -(-saved // 512) :]:
            del built.blocks[b]
        with tempfile.TemporaryDirectory() as room:
            path = pathlib.Path(room) / "area"
            built.write(path)
            with subprocess.Popen([programs["swsusp_image"], "core", path], stdout=subprocess.PIPE, stderr=subprocess.DEVNULL) as child:
                check_same(f"what lies before the pages of {saved}", child.stdout.read(len(head)) == head, True)
                child.stdout.close()


def test_machines():
    numbers = {b"x86_64": 62, b"aarch64": 183, b"i386": 3, b"i686": 3, b"armv7l": 40, b"arm": 40, b"riscv64": 243, b"ppc64le": 21}
    numbers |= {b"s390x": 22, b"loongarch64": 258, b"ar": 0, b"x86_64a": 0, b"": 0}
    for name, machine in numbers.items():
        built = Built(3)
        built.put(built.places[0], 260, name.ljust(65, b"\0"))
        check_core(built, machine)
    for head, machine in [(struct.pack("<QQQQQ", 1, 2, 3, 0x23456789ABCDEF02, 5), 62), (b"6.1.0 #1 SMP", 183)]:
        built = Built(3)
        built.put(built.places[0], 0, head.ljust(396, b"\0"))
        check_core(built, machine)


def test_cores_of_real_kernels_images():
    for name in PLAIN:
        machine = 62 if name == "x86_64" else 0  # the others are of mips64
        with area(name) as (file, image):
            pages = {p: made_up(p) for p in image.listed}
            check_same(f"{name}: the core", run("swsusp_image", "core", file.path), (0, core_file(machine, image.info, pages), ""))


def test_core_of_a_hibernated_machine():
    saved = Machine().saved()
    with fresh_area() as one:
        run("swsusp", "hibernate", one.path, stdin=saved)
        image = reader.Image(one.path)
        data = one.path.read_bytes()
        pages = {p: data[b * PAGE : (b + 1) * PAGE] for p, b in image.data().items()}
        status, out, note = run("swsusp_image", "core", one.path)
        check_same("the core of a hibernated machine", (status, out, note), (0, core_file(0, image.info, pages), ""))


def test_damaged_images():
    built = Built(600)
    whole = wanted(built)
    built.put_entry(2, 17, 0)
    ran, before, after = ran_over(built, "core")
    check_refused((ran[0], b"", ran[2]), f"map 2 block {built.maps[1]} entry 17: block 0", 1)
    check_same("what was written before the damage", ran[1], whole[: len(whole) - (600 - (ENTRIES + 17 - 3)) * PAGE])
    check_same("the area", after, before)
    built = Built(600)
    built.put_word(built.places[2], 3, 5)
    ran, _, _ = ran_over(built, "core")
    check_same("a number out of order", (ran[0], ran[1]), (1, b""))
    ran, _, _ = ran_over(Built(8, flags=5), "core")
    check_refused(ran, "unit 1 map 1 block 1 entry 1: length 0", 1)
    with fresh_area() as empty:
        check_refused(run("swsusp_image", "core", empty.path), "no image", 1)


def test_closed_and_full_outputs():
    with tempfile.TemporaryDirectory() as room:
        path = pathlib.Path(room) / "area"
        Built(8).write(path)
        for line in ['"$1" core "$2" >&-', '"$1" core "$2" > /dev/full']:
            ran = subprocess.run(["sh", "-c", line, "sh", programs["swsusp_image"], path], capture_output=True, timeout=60, check=False)
            check_same(f"the status of {line}", ran.returncode, 4)


def told(*words):
    return subprocess.run(words, capture_output=True, timeout=120, check=False, text=True).stdout


def test_readelf_lists_the_segments():
    if not shutil.which("readelf"):
        return
    for built in [Built(1018), spread(Built(65), 2)]:
        with tempfile.NamedTemporaryFile() as file:
            pathlib.Path(file.name).write_bytes(ran_over(built, "core")[0][1])
            lines = [line.split() for line in told("readelf", "-lW", file.name).splitlines() if line.split()[:1] == ["LOAD"]]
        listed = [(int(line[3], 16) // PAGE, int(line[4], 16) // PAGE, int(line[5], 16) // PAGE) for line in lines]
        check_same("the segments", listed, [(first, count, count) for first, count in runs_of(numbered(built))])


def test_gdb_reads_a_word():
    if not shutil.which("gdb"):
        return
    with area("x86_64") as (file, image), tempfile.NamedTemporaryFile() as core:
        pathlib.Path(core.name).write_bytes(run("swsusp_image", "core", file.path)[1])
        for p in [image.listed[0], image.listed[len(image.listed) // 2], image.listed[-1]]:
            out = told("gdb", "-batch", "-nx", "-ex", f"core-file {core.name}", "-ex", f"x/1gx {p * PAGE}")
            word = int.from_bytes(made_up(p)[:8], "little")
            if not out.rstrip().endswith(f"0x{word:016x}"):
                raise Mismatch(f"gdb reads {out!r} at page frame {p}")
