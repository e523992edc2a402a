"""Images that real kernels wrote, without the pages of their memory. tests/linux/README.md says where each comes from.

For each image tests/linux has what the kernel's hibernation code wrote itself (NAME.xz), and what it logged (NAME.log). Here the images are
put together with made-up pages, and handed to every command that reads an area. What is expected comes from the log, from the bytes as
tools/linux_lab/image.py reads them, and from docs/FORMATS.md.
"""
import contextlib
import functools
import io
import lzma
import pathlib
import re
import struct
import sys
import tempfile
import zlib

import lzo1x
from harness import Mismatch, check, check_line, check_refused, check_same, run
from inputs import PAGE, SwapFile
from inputs import area as fresh_area

HERE = pathlib.Path(__file__).resolve().parent
sys.path.insert(0, str(HERE.parent / "tools" / "linux_lab"))
import image as reader  # noqa: E402

# The images without compression.
PLAIN = ["plain", "used_bad", "x86_64"]

# The images that Linux compressed, as it does by default.
COMPRESSED = ["compressed", "x86_64_compressed"]


def log_of(name):
    return (HERE / "linux" / f"{name}.log").read_text()


def logged(name, pattern):
    """Returns the numbers that the kernel's log has in the place of each group of the pattern."""
    found = re.search(pattern, log_of(name))
    if not found:
        raise Mismatch(f"the log of {name} has no {pattern!r}")
    return tuple(map(int, found.groups()))


def made_up(p):
    """Returns the page that stands for a page frame's own: no two are alike, and none is all zero."""
    return struct.pack("<Q", (p + 1) * 0x9E3779B97F4A7C15 % 2**64) * 512


def records_of(name):
    """Returns the blocks of a packed image by their numbers, and the number pages that are in no block."""
    content = lzma.decompress((HERE / "linux" / f"{name}.xz").read_bytes())
    found = [(reader.number(content, at), content[at + 8 : at + 8 + PAGE]) for at in range(0, len(content), 8 + PAGE)]
    return {b: page for b, page in found if b != reader.END}, [page for b, page in found if b == reader.END]


@functools.cache
def with_made_up_pages(name):
    """Returns the blocks of a compressed image with made-up pages, and the bytes that come after its info page. A unit whose bytes of the kernel's
    are packed is what these expand to. Any other unit has the number pages and made-up pages, in a stream as long as the kernel's. The header's
    checksum is that of these bytes."""
    blocks, number_pages = records_of(name)
    with tempfile.NamedTemporaryFile() as file:
        for b, page in blocks.items():
            file.seek(b * PAGE)
            file.write(page)
        file.truncate((max(blocks) + 1 + 64) * PAGE)
        file.flush()
        image = reader.Image(file.name)
        image.list_pages(b"".join(number_pages))
        pages, units = number_pages + [made_up(p) for p in image.listed], []
        for at, length, count in image.units():
            content = b"".join(pages[32 * len(units) : 32 * len(units) + count])
            if length <= reader.FEW:
                content = lzo1x.expand(image.packed(at, length), count * PAGE)
            else:
                unit = length.to_bytes(8, "little") + lzo1x.of_length(content, length)
                blocks |= {image.chain[at + k // PAGE]: unit[k : k + PAGE].ljust(PAGE, b"\0") for k in range(0, len(unit), PAGE)}
            units.append(content)
        content = b"".join(units)
        checksum = (zlib.crc32(content, 0xFFFFFFFF) ^ 0xFFFFFFFF).to_bytes(4, "little")
        blocks[0] = image.header[:4060] + checksum + image.header[4064:]
    return blocks, content


@contextlib.contextmanager
def area(name):
    """Yields the image of this name in a file, with made-up pages."""
    blocks, content = with_made_up_pages(name) if name in COMPRESSED else (records_of(name)[0], b"")
    with tempfile.TemporaryDirectory() as room:
        file = SwapFile(pathlib.Path(room) / "area")
        with file.path.open("wb") as made:
            for b, page in blocks.items():
                made.seek(b * PAGE)
                made.write(page)
            made.truncate((reader.number(blocks[0], 1028, 4) + 1) * PAGE)
        image = reader.Image(file.path)
        if image.plain:
            with file.path.open("r+b") as made:
                for p, b in image.data().items():
                    made.seek(b * PAGE)
                    made.write(made_up(p))
        else:
            image.list_pages(content)
            image.stream = image.info + content
        yield file, image


def loader_of(image, hw_sig=0, ident=None):
    """Returns the dump of a loader of the same hardware, with the image's identity or another one."""
    if ident:
        image.info = ident + image.info[len(ident) :]
    out = io.BytesIO()
    reader.Hardware(image).dump(out, [], {}, hw_sig)
    return out.getvalue()


# The identity of a kernel with a generic header.
GENERIC = b"".join(it.ljust(65, b"\0") for it in [b"Linux", b"(none)", b"6.1.0", b"#1", b"x86_64", b"(none)"]) + struct.pack("<HI", 0, 393472)


def ran_over(file, dump, *words):
    return run(*words, file.path, stdin=dump)


def check_image(file, dump):
    return ran_over(file, dump, "swsusp_machine", "check")


def resume(file, dump, *options):
    return ran_over(file, dump, "swsusp", "resume", *options)


def looked(file, command, *more, offset=None):
    """Returns what a command of swsusp_image says of an area."""
    return run("swsusp_image", command, *([] if offset is None else ["--offset", offset]), file.path, *more)


def stream_of(image):
    """Returns the stream of an image: the info page and the pages after it."""
    return b"".join([image.info, *image.pages_behind_info()])


def check_pages(ran, image, contents=None):
    """Checks that a resume ended well, and that its dump has each page of the image in its page frame: `contents`, or the made-up pages."""
    check_same("a resume's status and note", (ran[0], ran[2]), (0, ""))
    with tempfile.NamedTemporaryFile() as dump:
        pathlib.Path(dump.name).write_bytes(ran[1])
        found = reader.pages_of(dump.name)
    check_same("the restored pages", {p: found.get(p, bytes(PAGE)) for p in image.listed}, contents or {p: made_up(p) for p in image.listed})


def test_sizes_of_the_kernels_log():
    """The kernel's log says how many pages it copied; it saved these and their number pages."""
    for name in PLAIN:
        with area(name) as (_, image):
            copied, = logged(name, r"Need to copy (\d+) pages")
            saving, = logged(name, r"Saving image data pages \((\d+) pages\)")
            check_same(f"{name}: image_pages", image.image_pages, copied)
            check_same(f"{name}: pages", (image.pages, image.meta), (saving + 1, saving - copied))
            check_same(f"{name}: the chain", (len(image.chain), len(image.maps)), (image.pages, image.pages // 511 + 1))


def test_headers_that_are_inspected():
    areas = [("plain", 16383, 0, 2), ("used_bad", 16383, 7, 2), ("x86_64", 32000, 0, 2), ("compressed", 16383, 0, 4), ("x86_64_compressed", 32000, 0, 4)]
    for name, last, bad, flags in areas:
        with area(name) as (file, image):
            check_line(ran_over(file, b"", "swsusp", "inspect"), f"area last {last} bad {bad} image {image.first} flags {flags} hw -")


def test_bad_and_used_slots_that_are_left_alone():
    """No block of the image lies in a bad slot or in a slot that a task had, and the map comes after them."""
    with area("used_bad") as (_, image):
        bad = reader.bad_pages(image.header)
        check_same("the bad slots", len(bad), 7)
        used = [(int(a), int(n)) for a, n in re.findall(r"lab: slots \d+ \d+ (\d+) (\d+)", log_of("used_bad"))]
        check_same("how many slots are used", sum(n for _, n in used), 640)
        taken = {*bad, *(s for a, n in used for s in range(a, a + n))}
        check_same("blocks of the image among them", taken & {*image.maps, *image.chain}, set())


def test_images_that_are_whole():
    for name in PLAIN:
        with area(name) as (file, image):
            before = file.bytes()
            copied, = logged(name, r"Need to copy (\d+) pages")
            check_line(check_image(file, loader_of(image)), f"resumed {copied}")
            check_same(f"{name}: the area", file.bytes(), before)


def test_images_that_are_resumed():
    """Afterwards the old signature stands in the header, and all else is as it was."""
    for name in PLAIN:
        with area(name) as (file, image):
            before, dump = file.bytes(), loader_of(image)
            check_pages(resume(file, dump), image)
            check_same(f"{name}: the area", file.bytes(), before[:4086] + b"SWAPSPACE2" + before[PAGE:])
            check_refused(resume(file, dump), "no image")
            check_refused(check_image(file, dump), "no image")


def test_areas_that_are_not_written_over():
    for name in [*PLAIN, "compressed"]:
        with area(name) as (file, image):
            before, dump = file.bytes(), loader_of(image)
            check_refused(ran_over(file, dump, "swsusp", "hibernate"), "closed")
            check_refused(ran_over(file, stream_of(image), "swsusp", "import"), "no swap: image")
            check_same(f"{name}: the area", file.bytes(), before)


def test_streams_of_real_images():
    """The pages of an image in the order of its maps are a stream, as /dev/snapshot hands it out. Another area takes it, and it is resumed there."""
    for name in PLAIN:
        with area(name) as (file, image):
            stream, dump = stream_of(image), loader_of(image)
            file.write(0, image.header[:4086] + b"SWAPSPACE2")
            check_line(ran_over(file, stream, "swsusp", "import"), f"imported {image.image_pages}")
            check_pages(resume(file, dump), image)


def listing(frames):
    """Returns the number pages of these page frames, with the end value after the last number unless its page is full."""
    words = frames + [reader.END] * (len(frames) % 512 > 0)
    return struct.pack(f"<{len(words)}Q", *words).ljust(-(-len(words) // 512) * PAGE, b"\0")


def test_machines_of_real_images():
    """The machine that was saved is exported and hibernates. Besides the image's page frames, those of its tables are saved."""
    for name in PLAIN:
        with area(name) as (file, image):
            out = io.BytesIO()
            hardware = reader.Hardware(image)
            hardware.dump(out, image.listed, {p: made_up(p) for p in image.listed}, 0)
            with tempfile.NamedTemporaryFile() as dump:
                pathlib.Path(dump.name).write_bytes(out.getvalue())
                found = reader.pages_of(dump.name)
            frames = sorted([*image.listed, *hardware.tables])
            pages = len(frames) + -(-len(frames) // 512) + 1
            info = image.info[:400] + struct.pack("<5Q", image.physpages, 0, len(frames), pages, pages * PAGE)
            stream = info.ljust(PAGE, b"\0") + listing(frames) + b"".join(found.get(p, bytes(PAGE)) for p in frames)
            check(run("swsusp", "export", stdin=out.getvalue()), 0, stream)
            file.write(0, image.header[:4086] + b"SWAPSPACE2")
            check_line(ran_over(file, out.getvalue(), "swsusp", "hibernate"), f"hibernated {len(frames)}")
            check(looked(file, "check"), 0, b"whole\n")
            check(looked(file, "stream"), 0, stream)


def test_pages_and_streams_of_real_images():
    """swsusp_image prints each block that the kernel wrote, in the order of its maps, and writes nothing to the area."""
    for name in PLAIN:
        with area(name) as (file, image):
            before = file.bytes()
            check(looked(file, "check"), 0, b"whole\n")
            check(looked(file, "stream"), 0, b"".join(map(image.block, image.chain)))
            for p in [image.listed[0], image.listed[511], image.listed[512], image.listed[-1]]:
                check(looked(file, "page", p), 0, made_up(p))
            absent = min({*range(image.listed[-1])} - {*image.listed})
            check_refused(looked(file, "page", absent), f"no page {absent}")
            check_same(f"{name}: the area", file.bytes(), before)


def facts_of(image):
    """Returns what `show` says of an area and its mark, a list of values for each key, by the tables of docs/FORMATS.md."""
    header = image.header
    uuid = header[1036:1052].hex()
    bad = reader.bad_pages(header)
    facts = {
        "blocks": [image.last + 1], "image": ["yes"], "area": ["swap"], "last_page": [image.last], "bad_pages": [len(bad)], "bad_page": bad,
        "uuid": ["-".join([uuid[:8], uuid[8:12], uuid[12:16], uuid[16:20], uuid[20:]])], "first_map": [image.first],
        "label": [header[1052:1068].rstrip(b"\0").decode()] if header[1052] else [],
        "flags": [image.flags], "flag": ["nocompress" if image.plain else "crc32"], "hw_sig": [image.hw_sig],
        "crc32": [reader.number(header, 4060, 4)],
    }
    return {key: list(map(str, values)) for key, values in facts.items() if values}


def kernel_facts(name, image):
    """Returns what `show` says of the kernel that wrote the image."""
    if name.startswith("x86_64"):
        words = reader.numbers(image.info)
        keys = ["jump_address", "jump_address_physical", "cr3", "memory_map_checksum"]
        return {"header": ["x86-64"], **{key: [f"0x{words[at]:016x}"] for key, at in zip(keys, [0, 1, 2, 4])}}
    release, version = re.search(r"^Linux version (\S+) .*?(#.*)$", log_of(name), re.MULTILINE).groups()
    facts = {"header": "generic", "sysname": "Linux", "nodename": "(none)", "release": release, "version": version, "machine": "mips64",
             "domainname": "(none)", "version_code": str(6 * 65536 + 256 + 192), "kernel": "6.1.192"}
    return {key: [value] for key, value in facts.items()}


def image_facts(name, image):
    """Returns what `show` says of the image, in the kernel's numbers and in the order of a resume's reads."""
    copied, = logged(name, r"Need to copy (\d+) pages")
    saving, = logged(name, r"[Ss]aving image data (?:pages )?\((\d+) pages\)")
    parts = [[b, *image.chain[k * 511 : (k + 1) * 511]] for k, b in enumerate(image.maps)]
    counts = {"units": -(-saving // 32), "compressed_bytes": PAGE * (len(image.chain) - 1), "expanded_bytes": PAGE * saving}
    return {
        **({} if image.plain else {key: [str(n)] for key, n in counts.items()}),
        "memory_pages": [str(image.physpages)], "image_pages": [str(copied)], "stream_pages": [str(saving + 1)], "maps": [str(len(parts))],
        "block_run": [f"{first} {count}" for first, count in reader.runs(sum(parts, []))],
        "frame_run": [f"{first} {count}" for first, count in reader.runs(image.listed)],
    }


def test_what_show_prints():
    for name in [*PLAIN, *COMPRESSED]:
        with area(name) as (file, image):
            before = file.bytes()
            status, out, note = looked(file, "show")
            check_same(f"{name}: status and note {note}", (status, note), (0, ""))
            found = {}
            for line in out.decode().splitlines():
                key, _, value = line.partition(" ")
                found.setdefault(key, []).append(value)
            wanted = {**facts_of(image), **kernel_facts(name, image), **image_facts(name, image)}
            for key in {*wanted, *found}:
                check_same(f"{name}: {key} {found.get(key)} for {wanted.get(key)}", found.get(key), wanted.get(key))
            check_same(f"{name}: the area", file.bytes(), before)


def test_real_images_are_given_up():
    """Afterwards the old signature stands in the header, of a compressed image too, and no command finds an image any more."""
    for name in [*PLAIN, "compressed"]:
        with area(name) as (file, image):
            before, dump = file.bytes(), loader_of(image)
            check_line(looked(file, "discard"), "discarded")
            check_same(f"{name}: the area", file.bytes(), before[:4086] + b"SWAPSPACE2" + before[PAGE:])
            check(looked(file, "check"), 1, b"no image\n")
            check_refused(resume(file, dump), "no image")
            flags = f"area last {image.last} bad {reader.number(image.header, 1032, 4)} image none"
            check_line(ran_over(file, b"", "swsusp", "inspect"), flags)


def test_an_area_in_a_device():
    """Like a swap file, the area begins at another block than the first."""
    for name in ["plain", "x86_64"]:
        with area(name) as (file, image):
            p, out = image.listed[600], io.BytesIO()
            reader.moved(file.path, 100, out)
            chain = b"".join(map(image.block, image.chain))
            file.path.write_bytes(out.getvalue())
            line = f"area last {image.last} bad 0 image {image.first + 100} flags {image.flags} hw -"
            check_line(ran_over(file, b"", "swsusp", "inspect", "--offset", 100), line)
            check(looked(file, "check"), 1, b"no image\n")
            check(looked(file, "check", offset=100), 0, b"whole\n")
            check(looked(file, "stream", offset=100), 0, chain)
            check(looked(file, "page", p, offset=100), 0, made_up(p))
            _, out, _ = looked(file, "show", offset=100)
            check_same("the first map", f"\nfirst_map {image.first + 100}\n" in out.decode(), True)
            check_line(looked(file, "discard", offset=100), "discarded")
            check(looked(file, "check", offset=100), 1, b"no image\n")


def test_an_architectures_header():
    """The architecture's record stands in the place of the names."""
    with area("x86_64") as (file, image):
        dump = loader_of(image, ident=GENERIC)
        check_refused(check_image(file, dump), "mismatch version code")
        check_pages(resume(file, dump, "--any-kernel"), image)
    with area("x86_64") as (file, image):
        check_refused(resume(file, dump), "mismatch version code")
        check_refused(resume(file, dump, "--any-kernel"), "no image")


def test_compressed_images_are_read():
    """Each page is the one that the tests' own reader finds, and the checksum is the header's."""
    for name in COMPRESSED:
        with area(name) as (file, image):
            before, contents = file.bytes(), image.contents()
            copied, = logged(name, r"Need to copy (\d+) pages")
            saving, = logged(name, r"Compressing and saving image data \((\d+) pages\)")
            check_same(f"{name}: pages", (image.image_pages, image.pages), (copied, saving + 1))
            check(looked(file, "check"), 0, b"whole\n")
            check(looked(file, "stream"), 0, image.stream)
            for p in [image.listed[0], image.listed[511], image.listed[512], image.listed[-1]]:
                check(looked(file, "page", p), 0, contents[p])
            absent = min({*range(image.listed[-1])} - {*image.listed})
            check_refused(looked(file, "page", absent), f"no page {absent}")
            check_same(f"{name}: the area", file.bytes(), before)


def test_a_compressed_image_is_still_refused_by_a_resume():
    """A compressed image is refused as compressed, and left as it is."""
    with area("compressed") as (file, image):
        before, dump = file.bytes(), loader_of(image)
        for ran in [resume(file, dump), resume(file, dump, "--any-kernel"), check_image(file, dump)]:
            check_refused(ran, f"compressed {image.flags}")
        check_same("the area", file.bytes(), before)


def test_a_compressed_image_is_carried_over():
    """As README says: stream, compare, discard the old image, resume the new one, by the loader of either."""
    with area("compressed") as (file, image), fresh_area(image.last) as new:
        stream = looked(file, "stream")[1]
        check_line(ran_over(new, stream, "swsusp", "import"), f"imported {image.image_pages}")
        check_line(looked(file, "differ", new.path), "same")
        status, dump, note = looked(file, "loader")
        check_same("the status and the note of a loader", (status, note), (0, ""))
        check(looked(new, "loader"), 0, dump)
        check_line(looked(file, "discard"), "discarded")
        check_refused(resume(file, dump), "no image")
        check_line(check_image(new, dump), f"resumed {image.image_pages}")
        check_pages(resume(new, dump), image, image.contents())


def test_a_compressed_image_is_hibernated_again():
    """The image's machine goes through the engine, which writes a plain image of the same page frames and of new tables."""
    with area("compressed") as (file, image), fresh_area(image.last) as new:
        before, dump = file.bytes(), looked(file, "machine")
        check_same("the status and the note of a machine", (dump[0], dump[2]), (0, ""))
        check_same("the area", file.bytes(), before)
        status, _, note = ran_over(new, dump[1], "swsusp", "hibernate")
        check_same("the status and the note of a hibernation", (status, note), (0, ""))
        status, out, note = looked(file, "differ", new.path)
        check_same("the status and the note of a comparison", (status, note), (1, ""))
        lines = out.decode().splitlines()
        alone = [int(line.split()[1]) for line in lines]
        check_same("the differences", lines, [f"frame {p} second alone" for p in alone])
        check_same("page frames that the image saves", {*alone} & {*image.listed}, set())
        restored = resume(new, looked(new, "loader")[1])
        check_pages(restored, image, image.contents())


def test_a_carried_image_is_the_same():
    """Another image differs from the copy in the same ways as from the image that was copied."""
    with area("x86_64_compressed") as (file, image), fresh_area(image.last) as new:
        check_line(ran_over(new, image.stream, "swsusp", "import"), f"imported {image.image_pages}")
        for first, second in [(file, new), (new, file), (file, file)]:
            check_line(looked(first, "differ", second.path), "same")
        with area("x86_64") as (plain, _):
            told = looked(file, "differ", plain.path)
            check_same("the lines of differences", told, looked(new, "differ", plain.path))
            check_same("the status", told[0], 1)


def test_a_damaged_byte_of_a_compressed_image():
    """A byte in the middle of every twentieth unit is changed; the unit's length stays as the kernel wrote it."""
    with area("compressed") as (file, image):
        whole = file.bytes()
        for at, length, _ in list(image.units())[::20]:
            place = image.chain[at] * PAGE + 8 + min(length, PAGE - 8) // 2
            file.path.write_bytes(whole[:place] + bytes([whole[place] ^ 255]) + whole[place + 1 :])
            status, out, note = looked(file, "check")
            lines = out.decode().splitlines()
            check_same("status, note and last line", (status, note, lines[1:]), (1, "", ["1 findings"]))
            check_same(f"the finding {lines[0]}", lines[0].startswith(("unit ", "checksum ")), True)


def test_a_loader_of_other_hardware():
    """The loader has a hardware signature, which the kernel's firmware has none of: an image without flag 8 asks for none."""
    with area("plain") as (file, image):
        check_line(check_image(file, loader_of(image, hw_sig=7)), f"resumed {image.image_pages}")
        image.physpages -= 1
        image.listed = image.listed[:-1]
        check_refused(check_image(file, loader_of(image)), f"memory size {image.physpages + 1} own {image.physpages}")


# What `swsusp_machine check` warns of before it says what a resume would report.
BEYOND = "warning: the first map is block {}, beyond the file: of a swap file in a file system give the device"


def test_damage_is_named():
    """For each damage of tools/linux_lab/image.py, its kind's finding is reported."""
    for name in reader.damages():
        with area("plain") as (file, image):
            dump = loader_of(image)
            _, answer, found = getattr(reader.Damage(file.path), name)()
            ran = check_image(file, dump)
            try:
                check(looked(file, "check"), 1 if found else 0, f"{reader.checked(found)}\n".encode())
                if answer.startswith("resumed "):
                    check_line(ran, answer)
                elif name == "first_map_off_the_disk":
                    first = answer.removeprefix("bad block ")
                    check_refused(ran, f"{BEYOND.format(first)}\n{answer}")
                else:
                    check_refused(ran, answer)
            except Mismatch as why:
                raise Mismatch(f"{name}: {why}") from None


def test_fields_that_are_not_read():
    """A size, a number of processors, a checksum, or a link that no page needs."""
    with area("plain") as (file, image):
        file.change((0, 4060, 7), (image.chain[0], 408, 9), (image.chain[0], 432, 1))
        check(check_image(file, loader_of(image)), 0, f"resumed {image.image_pages}\n".encode())
