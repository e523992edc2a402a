"""Compressed images: `check`, `stream`, `page`, `core`, `loader` and `machine` say the same of a compressed image as of the plain image of
the same memory, and a compressed image can be carried over into a plain one.

compressed.py writes the images. What is wrong with a damaged one is found by the reader there, or written down here.
"""
import itertools
import pathlib
import struct
import subprocess
import tempfile

import compressed
import lzo1x
from compressed import EACH_KIND, UNIT, Compressed, Unread, crafted, pages_of, twin
from harness import check, check_refused, check_same, programs, run
from image_tests import Built, changed, check_findings, compared, paged, ran_over, streamed
from inputs import PAGE, Machine
from inputs import area as fresh_area
from lzo1x import Match


def stored_first(count):
    """Packs the first `count` units as literals only, so that each takes 33 pages."""
    return lambda k, unit: lzo1x.store(unit) if k < count else lzo1x.compress(unit)


# Numbers of saved page frames. With a number page for each 512 of them they make units of 32 pages, and a last one of 2, 31, 32, 1, 32, 9 and 28.
SIZES = [1, 30, 31, 32, 63, 600, 1018]


def check_streamed(built, stream, *options):
    """Checks that the image is whole and that its stream is this one. Neither command writes to the area."""
    check_findings(built, options=options)
    ran, before, after = ran_over(built, "stream", *options)
    check(ran, 0, stream)
    check_same("the area", after, before)


def check_unread(built, line):
    """Checks that `check` and `stream` print this line only, and that the area stays as it is."""
    check_findings(built, line)
    ran, before, after = ran_over(built, "stream")
    check_refused(ran, line)
    check_same("the area", after, before)


def test_pages_of_page_frames():
    built = twin(Built(1018))
    for frame in [0, 29, 30, 61, 62, 511, 512, 999, 1001, 1018]:
        ran, before, after = paged(built, frame)
        check(ran, 0, bytes([1 + frame % 255]) * PAGE)
        check_same("the area", after, before)
    for frame in [1000, 1019, 2**64 - 1]:
        check_refused(paged(built, frame)[0], f"no page {frame}")


def test_core_is_that_of_the_plain_twin():
    for plain in [Built(8), Built(600)]:
        wanted = ran_over(plain, "core")[0]
        check_same("status and note", (wanted[0], wanted[2]), (0, ""))
        ran, before, after = ran_over(twin(plain), "core")
        check(ran, 0, wanted[1])
        check_same("the area", after, before)


def test_a_damaged_image_gives_no_page_and_no_core():
    """An invalid length, a wrong byte in the last unit, and a wrong checksum: each command notes the fault, and writes nothing."""
    whole = twin(Built(600))
    damages = [
        (lambda built: built.put_length(1, 0), f"{whole.place(1)}: length 0"),
        (lambda built: built.put_stream(18, b"\x14abc\x11\0\0\0"), "unit 19 byte 7: bytes after the end"),
        (lambda built: built.put(0, 4060, bytes(4)), f"checksum 0x00000000, but the units have 0x{whole.checksum:08x}"),
    ]
    for change, line in damages:
        built = twin(Built(600))
        change(built)
        ran, before, after = ran_over(built, "core")
        check_refused(ran, line)
        check_same("the area", after, before)
        check_refused(paged(built, 0)[0], line)


# The commands that write dumps, with and without the facts that no image has.
DUMPS = [["loader"], ["machine"], ["machine", "--zone", "0", "65536"]]


def dumped(built, command):
    """Returns what a command that writes a dump says of an image, and checks that the command leaves the image as it was."""
    ran, before, after = ran_over(built, command[0], *command[1:])
    check_same("the area", after, before)
    return ran


def test_dumps_are_those_of_the_plain_twin():
    """The twin's area has the same size and bad slots. If flag 8 is set, the hardware signature counts in both."""
    for saved, bad, flags in [(8, (), 4), (40, (1500,), 12), (600, (1, 2, 3, 700), 0)]:
        plain = Built(saved, last=1500, bad=bad, first=4, flags=flags & ~4 | 2)
        built = twin(plain, bad=bad, first=4, flags=flags)
        for it in [plain, built]:
            it.put(0, 4056, struct.pack("<I", 77))
        for command in DUMPS:
            wanted = dumped(plain, command)
            check_same("status and note", (wanted[0], wanted[2]), (0, ""))
            check(dumped(built, command), 0, wanted[1])


def test_a_damaged_image_gives_no_dump():
    """The first fault of the units is noted; a fault in the pages inside them is noted as for the plain image."""
    built = twin(Built(600))
    built.put_length(3, 0)
    plain = changed(lambda it: it.put_word(4, 87, 511))
    torn = twin(plain)
    for command in DUMPS:
        check_refused(dumped(built, command), f"{built.place(3)}: length 0")
        wanted = dumped(plain, command)
        check_same("the status", wanted[0], 1)
        check_same("a damaged image", dumped(torn, command), wanted)


def test_limits_of_dumps():
    """The limits apply to what the info page and the number pages say."""
    less, more = (twin(changed(lambda it: it.put(it.places[0], 400, struct.pack("<Q", pages)), 8)) for pages in [2048, 65537])
    for command in [["loader"], ["machine"]]:
        check_refused(dumped(more, command), "limit page frames 65536: memory pages 65537")
        check_refused(dumped(less, [*command, "--zone", "0", "3", "--zone", "4", "2045"]), "page frame 3 lies in no zone")


# Changes to a plain image of 600 page frames before it is compressed, and the lines that report them.
DIFFERENCES = [
    (lambda built: built.put(2, 130 + 5, b".1"), ["identity release"]),
    (lambda built: built.put(2, 400, struct.pack("<Q", 2**40)), ["memory size 65536 1099511627776"]),
    (lambda built: built.put(5, 0, b"\0"), ["page 0"]),
    (lambda built: (built.put(6 + 599, 4095, b"\0"), built.put(5 + 300, 2000, b"\0")), ["page 300", "page 599"]),
    (lambda built: built.put_word(4, 87, 700), ["frame 599 first alone", "frame 700 second alone"]),
]


def test_an_image_is_compared_with_one_that_may_be_compressed():
    """Either image may be compressed or not, and it doesn't matter where its area lies."""
    plain = Built(600)
    for one, other in [(twin(plain), plain), (plain, twin(plain)), (twin(plain), twin(plain, bad=(1, 2, 3), first=4, flags=0))]:
        check(compared(one, other), 0, b"same\n")
    check(compared(twin(plain, header=77, first=3), Built(600, header=77, first=9), "--offset", "77"), 0, b"same\n")
    for change, lines in DIFFERENCES:
        other, text = changed(change), "".join(f"{line}\n" for line in lines).encode()
        for images in [(twin(plain), other), (plain, twin(other)), (twin(plain), twin(other))]:
            check(compared(*images), 1, text)
            check(compared(*images, "--first"), 1, f"{lines[0]}\n".encode())
        check(compared(twin(other), other), 0, b"same\n")


def test_flags_of_compressed_images_are_compared_as_those_of_plain_ones():
    """Flag 1 says that the kernel was to be suspended by its platform. Whether an image is compressed, and whether it has a checksum (flag 4),
    is no difference."""
    for flags in [0, 4]:
        check(compared(twin(Built(20), flags=flags), Built(20)), 0, b"same\n")
        check(compared(twin(Built(20), flags=1 + flags), Built(20)), 1, b"header flags 3 2\n")
        check(compared(Built(20), twin(Built(20), flags=8 + flags)), 1, b"header flags 2 10\n")


def test_a_damaged_compressed_image_is_not_compared():
    """What is wrong with an image is reported before the two are compared."""
    torn, other = twin(Built(600)), changed(lambda built: built.put(5, 0, b"\0"))
    torn.put_length(3, 0)
    found = f"{torn.place(3)}: length 0\n"
    for fine in [other, twin(other)]:
        check(compared(torn, fine), 1, note=f"{found}first: the image has findings\n")
        check(compared(fine, torn), 1, note=f"{found}second: the image has findings\n")
    check(compared(torn, torn), 1, note=f"{found}first: the image has findings\n")
    none = changed(lambda built: built.put(0, 4086, b"SWAPSPACE2"))
    for name, images in [("first", (none, twin(other))), ("second", (twin(other), none))]:
        check(compared(*images), 1, note=f"{name}: no image\n")


def test_what_is_wrong_inside_the_units_of_a_side():
    """A damaged plain image inside a compressed one ends the comparison, as it does when it isn't compressed."""
    torn = changed(lambda built: built.put_word(4, 87, 511))
    for fine in [Built(600), twin(Built(600))]:
        for images in [(torn, fine), (fine, torn)]:
            wanted = compared(*(Built(600) if it is fine else torn for it in images))
            check_same("status", wanted[0], 1)
            check_same("the comparison", compared(*(twin(torn) if it is torn else it for it in images)), wanted)


def test_images_of_each_size():
    for saved in SIZES:
        plain = Built(saved)
        check_streamed(twin(plain), streamed(plain))
    plain = Built(600)
    for flags in [0, 4, 5, 12]:
        check_streamed(twin(plain, flags=flags), streamed(plain))


def test_units_of_more_pages_than_they_expand_to():
    plain = Built(100)
    built = twin(plain, packed=stored_first(4))
    check_same("the first pages of the units", built.starts, [1, 34, 67, 100, 106])
    check_streamed(built, streamed(plain))


def test_a_last_map_that_is_just_full():
    """The info page, 15 units of 33 pages and 15 of one page fill a map; the writer then makes another map, which isn't needed."""
    plain = Built(958)
    built = twin(plain, packed=stored_first(15))
    check_same("pages and maps", (len(built.places), len(built.maps)), (511, 2))
    check_streamed(built, streamed(plain))
    built.put_entry(1, 511, 0)
    check_streamed(built, streamed(plain))


def test_units_across_maps():
    plain = Built(1018)
    built = twin(plain, packed=stored_first(32))
    check_same("the maps", len(built.maps), 3)
    check_streamed(built, streamed(plain))


def test_bad_slots_another_first_map_and_an_offset():
    plain = Built(600)
    check_streamed(twin(plain, bad=(1, 2, 3, 20), first=4), streamed(plain))
    check_streamed(Compressed([plain.blocks[b] for b in plain.places], header=77, first=3), streamed(plain), "--offset", "77")


def test_an_area_that_would_not_hold_the_plain_image():
    plain = Built(1018)
    built = Compressed([plain.blocks[b] for b in plain.places])
    check_same("the blocks of the area", built.count < 40, True)
    check_streamed(built, streamed(plain))


def hibernated(area, dump, **settings):
    """Returns the compressed image of what `hibernate` leaves in an area."""
    check_same("the status", run("swsusp", "hibernate", area.path, stdin=dump)[0], 0)
    return Compressed(pages_of(area), last=len(area.bytes()) // PAGE - 1, **settings)


def test_a_compressed_image_is_carried_over():
    """Stream, compare, discard the old image, resume the new one. The dumps made of either are those of the image that was compressed."""
    machine = Machine()
    loader = machine.loader(1000)
    with fresh_area() as plain, fresh_area() as new, tempfile.TemporaryDirectory() as room:
        old = pathlib.Path(room) / "old"
        hibernated(plain, machine.saved()).write(old)
        ran = run("swsusp_image", "stream", old)
        check(ran, 0, run("swsusp", "export", stdin=machine.saved())[1])
        check(run("swsusp", "import", new.path, stdin=ran[1]), 0, b"imported 5\n")
        check(run("swsusp_image", "stream", new.path), 0, ran[1])
        for command in [["loader"], ["machine"], ["machine", "--tables", 0, 2]]:
            dump = run("swsusp_image", *command, plain.path)
            check_same("the status and the note of a dump", (dump[0], dump[2]), (0, ""))
            for path in [old, new.path]:
                check(run("swsusp_image", *command, path), 0, dump[1])
        check(run("swsusp_image", "discard", old), 0, b"discarded\n")
        check_refused(run("swsusp", "resume", old, stdin=loader), "no image")
        first = run("swsusp", "resume", plain.path, stdin=loader)
        check_same("the status of a resume", first[0], 0)
        check_same("what is restored", run("swsusp", "resume", new.path, stdin=loader), first)


def test_other_programs_refuse_it_and_leave_it():
    machine = Machine()
    with fresh_area() as plain, tempfile.TemporaryDirectory() as room:
        path = pathlib.Path(room) / "old"
        for flags in [0, 4, 5]:
            hibernated(plain, machine.saved(), flags=flags).write(path)
            before, loader = path.read_bytes(), machine.loader(1000)
            for words in [["swsusp", "resume"], ["swsusp", "resume", "--any-kernel"], ["swsusp_machine", "check"]]:
                check_refused(run(*words, path, stdin=loader), f"compressed {flags}")
            check_refused(run("swsusp", "hibernate", path, stdin=machine.saved()), "closed")
            check_refused(run("swsusp", "import", path, stdin=run("swsusp", "export", stdin=machine.saved())[1]), "no swap: image")
            check_same("the area", path.read_bytes(), before)
            check(run("swsusp_image", "discard", plain.path), 0, b"discarded\n")


def test_each_kind_of_instruction():
    built = crafted(EACH_KIND)
    check_streamed(built, b"".join(built.pages))
    built = crafted(EACH_KIND, begin_with_run=True)
    check_streamed(built, b"".join(built.pages))


def test_long_runs_and_far_matches():
    """Runs with one and with two zero bytes, and a match of the kind whose distance begins at 32,768."""
    text = bytes(k * k % 251 for k in range(700))
    runs = [text[:273], Match(9, 300), text[:274], Match(9, 400), text[:529], Match(9, 500)]
    built = crafted([*runs, Match(30000, 1000, 3), b"far", Match(3, 32768, 4), Match(300, 33000, 4), b"near"], saved=9)
    check_streamed(built, b"".join(built.pages))
    saved = 13
    built = crafted([*runs, Match(48000, 1000, 3), Match(7, 49151, 4)], saved=saved)
    check_streamed(built, b"".join(built.pages))


def test_the_longest_match():
    """A unit of 32 pages with the number page and one match, whose length takes many zero bytes."""
    built = crafted([b"longest"], saved=31)
    check_same("the bytes", len(built.streams[0]) < 1000, True)
    check_streamed(built, b"".join(built.pages))


def check_as_read(built):
    """Checks that `stream` prints what the reader here finds, or notes the reader's line."""
    ran, _, _ = ran_over(built, "stream")
    try:
        check(ran, 0, compressed.read(built))
    except Unread as line:
        check_refused(ran, str(line))


def test_every_prefix_of_a_unit():
    """The unit's length says that it ends before each of its bytes in turn."""
    built = crafted(EACH_KIND)
    whole = built.streams[0]
    for length in range(len(whole)):
        built.put_length(0, length)
        check_as_read(built)


def test_every_flipped_byte_of_a_unit():
    """Flips one bit, and then all bits, of each byte of the length, the compressed bytes and the start of the padding. If the bytes still are a
    valid stream, the checksum reports it."""
    built = crafted(EACH_KIND)
    page = built.blocks[built.places[1]]
    for at in range(8 + len(built.streams[0]) + 4):
        for mask in [1 << at % 8, 0xFF]:
            built.put_bytes(0, at, bytes([page[at] ^ mask]))
            check_as_read(built)
        built.put_bytes(0, at, page[at : at + 1])


def test_lengths_that_no_unit_has():
    for k, length in itertools.product([0, 5], [0, compressed.MOST + 1, 2**32, 2**64 - 1]):
        built = twin(Built(600))
        built.put_length(k, length)
        check_unread(built, f"{built.place(k)}: length {length}")
    # Here the first page of the second unit comes after the first map.
    built = twin(Built(958), packed=stored_first(15))
    built.put_length(29, 0)
    check_unread(built, "unit 30 map 1 block 1 entry 510: length 0")
    built = twin(Built(989), packed=stored_first(15))
    built.put_length(30, 0)
    check_unread(built, f"unit 31 map 2 block {built.maps[1]} entry 0: length 0")


# The rest of a stream after the literals of a first run, the byte of its fault, and the reason.
FAULTS = [
    (bytes([17]), 4, lzo1x.TOO_SHORT),
    (b"", 4, lzo1x.TOO_SHORT),
    (bytes([32, 0, 0]), 4, lzo1x.TOO_SHORT),
    (bytes([64 + 3, 0]) + b"no", 4, lzo1x.TOO_SHORT),
    (bytes([64 + 12, 0, 17, 0, 0]), 4, lzo1x.BEFORE_BEGIN),
    (bytes([64 + 8, 0, 64, 255, 17, 0, 0]), 6, lzo1x.BEFORE_BEGIN),
    (bytes([17, 0, 0, 0]), 7, lzo1x.BEHIND_END),
    (bytes([18, 0, 0]), 4, lzo1x.BAD_END),
]


def test_faults_of_streams():
    for rest, at, why in FAULTS:
        for k in [0, 7, 18]:
            built = twin(Built(600))
            built.put_stream(k, b"\x14abc" + rest)
            check_unread(built, f"unit {k + 1} byte {at}: {why}")
    built = twin(Built(600))
    built.put_stream(2, bytes([17, 1]) + built.streams[2])
    check_unread(built, f"unit 3 byte 0: {lzo1x.VERSIONED}")


def test_units_of_other_sizes():
    """A unit that is a page too short, a byte too short, and a byte too long."""
    for k, size in [(0, UNIT), (18, 26 * PAGE)]:
        for less in [PAGE, 1]:
            built = twin(Built(600))
            built.put_stream(k, lzo1x.compress(built.content[k * UNIT : k * UNIT + size - less]))
            check_unread(built, f"unit {k + 1}: {size - less} bytes, but {size} are wanted")
        built = twin(Built(600))
        stream = lzo1x.stream([b"literals", Match(size - 7, 1)])
        built.put_stream(k, stream)
        check_unread(built, f"unit {k + 1} byte 9: {lzo1x.TOO_LONG}")
    built = twin(Built(600))
    built.put_stream(4, lzo1x.END_MARKER)
    check_unread(built, f"unit 5: 0 bytes, but {UNIT} are wanted")


def test_padding_says_nothing():
    built = twin(Built(600))
    stream = b"".join(built.pages)
    for k, it in enumerate(built.streams):
        built.put_bytes(k, 8 + len(it), b"\xff" * (PAGE - 8 - len(it)))
    check_streamed(built, stream)


def test_checksums():
    built = twin(Built(600))
    whole = built.checksum
    built.put(0, 4060, struct.pack("<I", whole ^ 1))
    check_unread(built, f"checksum 0x{whole ^ 1:08x}, but the units have 0x{whole:08x}")
    # A wrong byte of a page, in a stream that is still valid.
    built = twin(Built(600), packed=stored_first(19))
    built.put_bytes(18, 3000, b"\0")
    try:
        compressed.read(built)
        check_same("a reading of it", "whole", "unread")
    except Unread as line:
        check_unread(built, str(line))
    # Without the flag the checksum isn't looked at.
    built = twin(Built(600), flags=0)
    built.put(0, 4060, struct.pack("<I", 12345))
    check_findings(built)


def test_damages_of_the_chain():
    saved, packed = 958, stored_first(16)
    built = twin(Built(saved), packed=packed)
    built.put_entry(1, 511, 0)
    check_unread(built, "map 1: no next map, though the image has 961 pages")
    for number, why in [(0, "block 0"), (2**64 - 1, f"block {2**64 - 1} is beyond the file"), (1, "block 1 is named already")]:
        built = twin(Built(saved), packed=packed)
        built.put_entry(1, 100, number)
        check_unread(built, f"map 1 block 1 entry 100: {why}")
        if number:
            built = twin(Built(saved), packed=packed)
            built.put_entry(1, 511, number)
            check_unread(built, f"map 2: {why}")
    built = twin(Built(saved), packed=packed)
    built.put_entry(2, 3, built.places[40])
    check_unread(built, f"map 2 block {built.maps[1]} entry 3: block {built.places[40]} is named already")
    built = twin(Built(saved), packed=packed, bad=(900,))
    built.put_entry(1, 100, 900)
    check_unread(built, "map 1 block 1 entry 100: block 900 is a bad page")
    built = twin(Built(8))
    built.put(0, 4064, bytes(8))
    check_unread(built, "map 1: block 0")


def test_entries_behind_the_last_unit_are_not_read():
    plain = Built(600)
    built = twin(plain)
    built.put_entry(1, 20, built.last)
    check_streamed(built, streamed(plain))


def test_damages_of_the_header_and_the_info_page():
    built = twin(Built(600))
    built.put(0, 4076, b"S1SUSPEND\0")
    check_findings(built, "header: the original signature is no swap area's")
    built = twin(Built(600))
    built.put(0, 1028, struct.pack("<I", built.count))
    check_findings(built, f"header: last page {built.count}, but the file has {built.count} blocks")
    built = twin(Built(600))
    built.put(built.places[0], 432, struct.pack("<Q", 1))
    check_unread(built, "info page: size 1, but pages 603")
    built = twin(Built(600))
    built.put(built.places[0], 65, b"n" * 130)
    check_findings(built, "info page name 1: no end", "info page name 2: no end")
    built = twin(Built(600))
    built.put(built.places[0], 416, struct.pack("<Q", 599))
    check_unread(built, "info page: image pages 599, but pages 603")


def test_what_is_wrong_inside_the_units():
    """The number pages of a compressed image are checked as those of a plain one, and reported in the same lines."""
    changes = [
        lambda built: built.put_word(built.places[2], 41, 552),
        lambda built: (built.put_word(built.places[1], 7, 2**52), built.put_word(built.places[2], 41, 552)),
        lambda built: built.put_word(built.places[2], 88, 0),
    ]
    for change in changes:
        plain = Built(600)
        change(plain)
        wanted = ran_over(plain, "check")[0]
        check_same("the status", wanted[0], 1)
        check(ran_over(twin(plain), "check")[0], 1, wanted[1])
        status, _, note = ran_over(twin(plain), "stream")[0]
        check_same("the status and the note", (status, note), (1, ran_over(plain, "stream")[0][2]))


def test_no_image():
    built = twin(Built(8))
    built.put(0, 4086, b"SWAPSPACE2")
    check(ran_over(built, "check")[0], 1, b"no image\n")
    for command in ["stream", "core", "loader", "machine"]:
        check_refused(ran_over(built, command)[0], "no image")


def test_discard():
    built = twin(Built(600))
    ran, before, after = ran_over(built, "discard")
    check(ran, 0, b"discarded\n")
    check_same("the area", after, before[:4086] + before[4076:4086] + before[4096:])


def test_a_file_that_ends_early():
    """A copy of an area that is shorter than the area."""
    built = twin(Built(600), packed=stored_first(2))
    for count in [1, 2, 3, 20, 40, 80]:
        built.count = count
        check_unread(built, f"header: last page {built.last}, but the file has {count} blocks")


def check_closed(built, command, *rest):
    """With each set of closed standard streams the command fails if and only if its output is closed, and leaves the area as it was."""
    with tempfile.TemporaryDirectory() as room:
        path = pathlib.Path(room) / "area"
        built.write(path)
        before = path.read_bytes()
        for closed in itertools.product([False, True], repeat=3):
            closing = " ".join(text for text, is_closed in zip(["<&-", ">&-", "2>&-"], closed) if is_closed)
            line = f'"$@" {closing}'
            words = [programs["swsusp_image"], command, path, *rest]
            ran = subprocess.run(["sh", "-c", line, "sh", *words], capture_output=True, timeout=60, check=False)
            check_same(f"the status of {command} {closing}", ran.returncode, 4 if closed[1] else 0)
        check_same(f"the area after {command}", path.read_bytes(), before)


def test_closed_streams_leave_the_area():
    for command, *rest in [["check"], ["stream"], ["page", "0"], ["core"]]:
        check_closed(twin(Built(600)), command, *rest)


def test_quiet_changes_no_answer():
    with tempfile.TemporaryDirectory() as room:
        path = pathlib.Path(room) / "area"
        twin(Built(600)).write(path)
        for command in ["check", "stream", "core"]:
            check_same(command, run("swsusp_image", "--quiet", command, path), run("swsusp_image", command, path))
