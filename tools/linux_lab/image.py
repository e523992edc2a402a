#!/usr/bin/env python3
"""image.py: reads the image that a kernel left in a swap area, by the tables of docs/FORMATS.md, and makes dumps and damage of it.

  image.py facts AREA              what the image says of itself, a fact a line
  image.py saved AREA [FIRST-LAST..] > DUMP
                                   the dump of the machine that was saved: the image's page frames are in use with their pages, all others
                                   are free. Slots FIRST to LAST of each word are task 1's
  image.py loader AREA [SIG] > DUMP
                                   the dump of a loader of the same hardware, with this hardware signature, that has all page frames
                                   free but those of its tables
  image.py stranger AREA > DUMP    that of one whose kernel has a generic header's names, as the image of an architecture's header has none
  image.py tables AREA             in how many page frames these dumps have their tables
  image.py bad AREA SLOT..         names bad slots in an area without an image
  image.py compare AREA DUMP       tells whether the dump has each page of the image in its page frame; AREA's mark may be gone
  image.py patterns LOG DUMP       tells whether the dump has init.c's patterns in the page frames that its log names
  image.py stream AREA > STREAM    the pages of the image, in the order of the maps; of a compressed one those that its units expand to
  image.py pattern SET K > PAGE    the page that init.c fills as page K of a set
  image.py moved AREA N > DEVICE   a device that has the area from block N on, as a swap file: its image names blocks of the device
  image.py damage AREA [NAME]      damages the image, and prints what a kernel then does, what `swsusp resume` is to answer, and what
                                   `swsusp_image check` is to print, parted by bars; without NAME it prints the names, a line each
  image.py cases AREA > FILE       the damages that a kernel refuses, for a single boot (init.c)
  image.py pack AREA > FILE        what the kernel's own code wrote of the image, without the pages of the memory, packed by xz; of a
                                   compressed one the number pages, the lengths of all units, and the units of few bytes

The area is a whole disk: its header lies in block 0. Nothing here goes by the program that is tested.
"""
import lzma
import pathlib
import struct
import sys
import tempfile

sys.path.insert(0, str(pathlib.Path(__file__).resolve().parents[2] / "tests"))
import lzo1x  # noqa: E402

PAGE = 4096
FREE, TASK_1, BAD = 1, 1 << 16, 131072
END = 2**64 - 1
# The number of pages of a unit of a compressed image; and the most bytes of a unit that is packed as it is.
UNIT_PAGES, FEW = 32, 1500
SIGNATURE = b"S1SUSPEND\0"
SIGNED = 8


class NoImage(Exception):
    """The area has no image that can be read."""


def number(page, at, width=8):
    return int.from_bytes(page[at : at + width], "little")


def numbers(page):
    return struct.unpack("<512Q", page)


def bad_pages(header):
    return list(struct.unpack_from(f"<{number(header, 1032, 4)}I", header, 1536))


class Image:
    """An image on a disk: its header block, maps, info page and numbers. An image whose mark was cleared is still found."""

    def __init__(self, path):
        self.file = open(path, "rb")
        self.header = self.block(0)
        self.marked = self.header[4086:] == SIGNATURE
        self.last = number(self.header, 1028, 4)
        self.hw_sig, self.first, self.flags = number(self.header, 4056, 4), number(self.header, 4064), number(self.header, 4072, 4)
        self.plain = self.flags & 2 != 0
        self.maps, self.chain = [], []
        at = self.first
        while at:
            page = self.block(at)
            *entries, link = numbers(page)
            self.maps.append(at)
            self.chain += entries
            at = link
        self.chain = [b for b in self.chain if b]
        if not self.chain:
            raise NoImage(path)
        self.info = self.block(self.chain[0])
        self.physpages, self.image_pages, self.pages = (number(self.info, at) for at in (400, 416, 424))
        self.meta = -(-self.image_pages // 512)
        if self.plain:
            self.list_pages(b"".join(map(self.block, self.chain[1 : 1 + self.meta])))

    def list_pages(self, number_pages):
        self.listed = struct.unpack_from(f"<{self.image_pages}Q", number_pages)

    def block(self, b):
        self.file.seek(b * PAGE)
        page = self.file.read(PAGE)
        if len(page) != PAGE:
            raise NoImage(f"block {b}")
        return page

    def data(self):
        """Returns the blocks of the pages, by their page frames."""
        return dict(zip(self.listed, self.chain[1 + self.meta :]))

    def units(self):
        """Yields for each unit of a compressed image the place of its first page in the chain, the length of its bytes, and its number of pages."""
        left, at = self.pages - 1, 1
        while left:
            length, count = number(self.block(self.chain[at]), 0), min(left, UNIT_PAGES)
            yield at, length, count
            at += -(-(8 + length) // PAGE)
            left -= count

    def packed(self, at, length):
        """Returns the compressed bytes of the unit at this place."""
        blocks = self.chain[at : at + -(-(8 + length) // PAGE)]
        return b"".join(map(self.block, blocks))[8 : 8 + length]

    def pages_behind_info(self):
        """Returns the number pages and the saved pages, in the order of the chain."""
        if self.plain:
            return [self.block(b) for b in self.chain[1:]]
        content = b"".join(lzo1x.expand(self.packed(at, length), count * PAGE) for at, length, count in self.units())
        return [content[at : at + PAGE] for at in range(0, len(content), PAGE)]

    def contents(self):
        """Returns the pages, by their page frames."""
        found = self.pages_behind_info()
        if not self.plain:
            self.list_pages(b"".join(found[: self.meta]))
        return dict(zip(self.listed, found[self.meta :]))

    def own_blocks(self):
        """Returns the blocks that the kernel's own code filled: the header, maps, info page and number pages."""
        return [0, *self.maps, *self.chain[: 1 + (self.meta if self.plain else 0)]]


def name(info, at):
    return info[at : at + 65].split(b"\0")[0].decode(errors="backslashreplace")


def facts(path):
    image = Image(path)
    print(f"marked {'yes' if image.marked else 'no'}")
    print(f"flags {image.flags}")
    print(f"hw {image.hw_sig if image.flags & SIGNED else '-'}")
    print(f"last {image.last}")
    print(f"bad {number(image.header, 1032, 4)}")
    print(f"first {image.first}")
    print(f"maps {len(image.maps)}")
    print(f"chain {len(image.chain)}")
    print(f"physpages {image.physpages}")
    print(f"image_pages {image.image_pages}")
    print(f"pages {image.pages}")
    print(f"code {number(image.info, 392, 4)}")
    print(f"names {[name(image.info, 65 * k) for k in range(6)]}")


def runs(members):
    """Returns the runs of a sorted list, each as first and length."""
    found = []
    for p in members:
        if found and p == sum(found[-1]):
            found[-1][1] += 1
        else:
            found.append([p, 1])
    return found


def gaps(members, top):
    """Returns the runs below `top` that have no member."""
    ends = [0, *(sum(run) for run in runs(members))]
    starts = [*(run[0] for run in runs(members)), top]
    return [(a, b - a) for a, b in zip(ends, starts) if b > a]


class Hardware:
    """The hardware of an image's machine as a dump describes it. Its zones hold as many page frames as the image counts, including all that it
    lists. If memory has a hole, the largest runs of page frames that aren't listed make room for it. The tables are in page frames
    that aren't listed, where the machine has free ones."""

    def __init__(self, image):
        self.image = image
        top = max(image.physpages, image.listed[-1] + 1)
        excess, holes = top - image.physpages, []
        for first, length in sorted(gaps(image.listed, top), key=lambda gap: -gap[1]):
            if excess:
                cut = min(excess, length)
                holes.append((first, cut))
                excess -= cut
        self.zones = gaps(sorted(p for first, length in holes for p in range(first, first + length)), top)
        self.top, self.slots = top, image.last + 1
        frames, slots = -(-top // 1024), -(-self.slots // 1024)
        valid = {p for first, length in self.zones for p in range(first, first + length)}
        room = [gap for gap in gaps(image.listed, top) if set(range(gap[0], gap[0] + frames + slots)) <= valid and gap[1] >= frames + slots]
        # A run between pages of the image is certainly memory. Low memory is left to the firmware.
        self.frame_table = next(first for first, length in room if first > 300)
        self.slot_table = self.frame_table + frames
        self.tables = range(self.frame_table, self.slot_table + slots)

    def dump(self, out, in_use, pages, hw_sig, taken=()):
        """Writes a dump in which these page frames are in use and have these pages, and these slots are task 1's."""
        entries = [FREE] * (-(-self.top // 1024) * 1024)
        for p in [*in_use, *self.tables]:
            entries[p] = 0
        owners = [0] * (-(-self.slots // 1024) * 1024)
        for s in taken:
            owners[s] = TASK_1 >> 16
        for s in [0, *bad_pages(self.image.header)]:
            owners[s] = BAD
        lists = struct.pack(f"<{len(entries)}I", *entries) + struct.pack(f"<{len(owners)}I", *owners)
        pages = {**pages, **{p: lists[k * PAGE : (k + 1) * PAGE] for k, p in enumerate(self.tables)}}
        out.write(b"SWSUDMP1" + self.image.info[392:396])
        out.write(struct.pack("<5I", self.slots, self.frame_table, self.slot_table, hw_sig, len(self.zones)))
        out.write(self.image.info[:390] + bytes(2))
        for zone in self.zones:
            out.write(struct.pack("<2I", *zone))
        records = [p for p in sorted(pages) if any(pages[p])]
        out.write(struct.pack("<I", len(records)))
        for p in records:
            out.write(struct.pack("<I", p) + pages[p])


def slots_of(words):
    ranges = [tuple(map(int, word.split("-"))) for word in words]
    return [s for first, last in ranges for s in range(first, last + 1)]


def saved(path, *words):
    image = Image(path)
    pages = image.contents()
    hw_sig = image.hw_sig if image.flags & SIGNED else 0
    Hardware(image).dump(sys.stdout.buffer, image.listed, pages, hw_sig, slots_of(words))


def loader(path, hw_sig="0"):
    image = Image(path)
    image.contents()
    Hardware(image).dump(sys.stdout.buffer, [], {}, int(hw_sig))


def stranger(path):
    image = Image(path)
    names = [b"Linux", b"(none)", b"6.1.0-lab", b"#1", b"x86_64", b"(none)"]
    image.info = b"".join(it.ljust(65, b"\0") for it in names) + bytes(2) + struct.pack("<I", 393472) + image.info[396:]
    Hardware(image).dump(sys.stdout.buffer, [], {}, 0)


def tables(path):
    print(len(Hardware(Image(path)).tables))


def bad(path, *slots):
    with open(path, "r+b") as file:
        for at, value in [(1032, len(slots)), *((1536 + 4 * k, int(slot)) for k, slot in enumerate(slots))]:
            file.seek(at)
            file.write(struct.pack("<I", value))


def pages_of(path):
    """Returns the pages of a dump of version 1, by their page frames."""
    dump = pathlib.Path(path).read_bytes()
    at = 424 + 8 * number(dump, 28, 4)
    count, found = number(dump, at, 4), {}
    for k in range(count):
        record = at + 4 + 4100 * k
        found[number(dump, record, 4)] = dump[record + 4 : record + 4100]
    return found


def compare(path, dump):
    image, found = Image(path), pages_of(dump)
    wrong = [p for p, page in image.contents().items() if found.get(p, bytes(PAGE)) != page]
    print(f"pages {len(image.listed)} wrong {len(wrong)}")
    return 1 if wrong else 0


def page_of(group, k):
    """Returns the page that init.c fills as page k of a set."""
    words, mask = [], 2**64 - 1
    for i in range(512):
        x = (group << 56) + (k << 16) + i
        x = (x ^ x >> 30) * 0xBF58476D1CE4E5B9 & mask
        x = (x ^ x >> 27) * 0x94D049BB133111EB & mask
        words.append(x ^ x >> 31)
    return struct.pack("<512Q", *words)


def patterns(log, dump):
    found, right, of = pages_of(dump), 0, 0
    for line in pathlib.Path(log).read_text(errors="replace").splitlines():
        if line.startswith("lab: frames "):
            group, first, place, count = map(int, line.split()[2:])
            of += count
            right += sum(found.get(place + k) == page_of(group, first + k) for k in range(count))
    print(f"patterns {right} of {of}")
    return 0 if right == of and of else 1


def pattern(group, k):
    sys.stdout.buffer.write(page_of(int(group), int(k)))


def stream(path):
    image = Image(path)
    sys.stdout.buffer.write(b"".join([image.info, *image.pages_behind_info()]))


def moved(path, by, out=sys.stdout.buffer):
    """Writes the header, each map and each page `by` blocks further on, with the blocks that they name moved likewise. Before them comes the
    header of another area without an image, by which an initramfs knows that the device has something on it."""
    image, by = Image(path), int(by)
    header = image.header[:4064] + struct.pack("<Q", image.first + by) + image.header[4072:]
    maps = {b: struct.pack("<512Q", *(at and at + by for at in numbers(image.block(b)))) for b in image.maps}
    out.write((image.header[:4086] + b"SWAPSPACE2").ljust(by * PAGE, b"\0"))
    for b in range(image.last + 1):
        out.write(header if b == 0 else maps.get(b) or image.block(b))


def packed_units(image):
    """Returns a compressed image's number pages, under no block's number, and each unit: its bytes if they are few, else only its length."""
    parts = [struct.pack("<Q", END) + page for page in image.pages_behind_info()[: image.meta]]
    for at, length, _ in image.units():
        unit = struct.pack("<Q", length) + (image.packed(at, length) if length <= FEW else b"")
        parts.append(struct.pack("<Q", image.chain[at]) + unit.ljust(PAGE, b"\0"))
    return parts


def pack(path):
    image = Image(path)
    parts = [struct.pack("<Q", b) + image.block(b) for b in image.own_blocks()]
    if not image.plain:
        parts += packed_units(image)
    sys.stdout.buffer.write(lzma.compress(b"".join(parts), preset=9 | lzma.PRESET_EXTREME))


class Damage:
    """Ways to damage an image, each on an open file. Each returns what a kernel then does; what `swsusp resume` must report, which is `resumed N`
    if it must find the image whole; and what `swsusp_image check` must print, by the table of man/swsusp_image.8 (FINDINGS). A kernel
    overlooks an image without a mark, and gives up one that it refuses. To `check` an image is whole if it only differs from a machine's hardware
    or kernel."""

    def __init__(self, path):
        self.image = Image(path)
        self.file = open(path, "r+b")
        self.infos = self.image.chain[0]
        self.lists = self.image.chain[1 : 1 + self.image.meta]
        self.whole = f"resumed {self.image.image_pages}"
        self.far = self.image.last + 1000

    def put(self, block, at, content):
        self.file.seek(block * PAGE + at)
        self.file.write(content)

    def number(self, block, at, value, width=8):
        self.put(block, at, value.to_bytes(width, "little"))

    def entry(self, k, value):
        """Sets entry k of the whole chain."""
        self.number(self.image.maps[k // 511], k % 511 * 8, value)

    def listed(self, k, value):
        self.number(self.lists[k // 512], k % 512 * 8, value)

    def place(self, k):
        """Returns how `check` names the place of entry k of the whole chain."""
        at = k // 511
        return f"map {at + 1} block {self.image.maps[at]} entry {k % 511}"

    @staticmethod
    def word(k):
        """Returns how `check` names the place of number k."""
        return f"numbers page {k // 512 + 1} word {k % 512}"

    # The mark.
    def unmarked(self):
        self.put(0, 4086, b"SWAPSPACE2")
        return "overlooks", "no image", ["no image"]

    def mark_misspelled(self):
        self.put(0, 4086, b"S1SUSPENT\0")
        return "overlooks", "no image", ["no image"]

    def flags_of_a_compressed_image(self):
        # The first number page stands where a unit would begin with its length: the first number, page frame 0, is no valid length.
        self.number(0, 4072, 0, 4)
        assert self.image.listed[0] == 0
        return "refuses", "compressed 0", [f"unit 1 {self.place(1)}: length 0"]

    def flags_unknown(self):
        self.number(0, 4072, self.image.flags | 0x40000000, 4)
        return "resumes", self.whole, []

    def flags_of_a_signature(self):
        self.number(0, 4056, 4711, 4)
        self.number(0, 4072, self.image.flags | SIGNED, 4)
        return "refuses", "hardware 4711 own 0", []

    def left_over_signature_and_checksum(self):
        self.number(0, 4056, 4711, 4)
        self.number(0, 4060, 4711, 4)
        return "resumes", self.whole, []

    def first_map_none(self):
        self.number(0, 4064, 0)
        return "refuses", "no chain", ["map 1: block 0"]

    def first_map_off_the_disk(self):
        self.number(0, 4064, self.far)
        return "refuses", f"bad block {self.far}", [f"map 1: block {self.far} is beyond the file"]

    # The maps.
    def link_off_the_disk(self):
        self.number(self.image.maps[0], 4088, self.far)
        return "refuses", f"bad block {self.far}", [f"map 2: block {self.far} is beyond the file"]

    def link_cut(self):
        self.number(self.image.maps[0], 4088, 0)
        return "refuses", "chain ends 1", [f"map 1: no next map, though the image has {self.image.pages} pages"]

    def entry_cut(self):
        self.entry(100, 0)
        return "refuses", "bad block 0", [f"{self.place(100)}: block 0"]

    def entry_off_the_disk(self):
        self.entry(100, self.far)
        return "refuses", f"bad block {self.far}", [f"{self.place(100)}: block {self.far} is beyond the file"]

    # The info page.
    def version_code(self):
        self.number(self.infos, 392, number(self.image.info, 392, 4) + 1, 4)
        return "refuses", "mismatch version code", []

    def sysname(self):
        self.put(self.infos, 0, b"M")
        return "refuses", "mismatch sysname", []

    def release(self):
        self.put(self.infos, 130, b"7")
        return "refuses", "mismatch release", []

    def version(self):
        self.put(self.infos, 195, b"$")
        return "refuses", "mismatch version", []

    def machine(self):
        self.put(self.infos, 260, b"x")
        return "refuses", "mismatch machine", []

    def names_that_are_not_compared(self):
        """Changes the names of the node and of its domain."""
        self.put(self.infos, 65, b"x")
        self.put(self.infos, 325, b"x")
        return "resumes", self.whole, []

    def memory_size(self):
        own = self.image.physpages
        self.number(self.infos, 400, own - 1)
        return "refuses", f"memory size {own - 1} own {own}", []

    def fields_that_are_not_read(self):
        """Changes the number of processors and the size in bytes to values that no writer leaves."""
        self.number(self.infos, 408, 7, 4)
        self.number(self.infos, 432, 1)
        return "resumes", self.whole, [f"info page: size 1, but pages {self.image.pages}"]

    def counts(self):
        """Counts one page more than the page frames give. The maps have no block for it."""
        more = self.image.pages + 1
        self.number(self.infos, 424, more)
        told = [f"image pages {self.image.image_pages}, but pages {more}", f"size {self.image.pages * PAGE}, but pages {more}"]
        found = [*(f"info page: {it}" for it in told), f"{self.place(self.image.pages)}: block 0"]
        return "refuses", f"bad counts {self.image.image_pages} {more}", found

    # The numbers.
    def number_too_high(self):
        self.listed(700, 1 << 40)
        return "refuses", f"bad pfn {1 << 40}", [f"{self.word(701)}: {self.image.listed[701]} after {1 << 40}"]

    def number_twice(self):
        twice = self.image.listed[699]
        self.listed(700, twice)
        return "refuses", f"pfn order {twice} {twice}", [f"{self.word(700)}: {twice} after {twice}"]

    def numbers_out_of_order(self):
        """Swaps two numbers. The kernel sets bits, and takes the pages in the order of the bits: the image is the same."""
        a, b = self.image.listed[700:702]
        self.listed(700, b)
        self.listed(701, a)
        return "resumes", f"pfn order {b} {a}", [f"{self.word(701)}: {a} after {b}"]

    def end_too_early(self):
        self.listed(700, END)
        found = [f"{self.word(700)}: {END} is no page frame", f"{self.word(701)}: {self.image.listed[701]} after {END}"]
        return "refuses", f"bad pfn {END}", found


def damages():
    return [key for key in vars(Damage) if key not in ("put", "number", "entry", "listed", "place", "word") and not key.startswith("__")]


def checked(found):
    """Returns what `swsusp_image check` prints of these findings: the findings, and how many they are."""
    return "\n".join(found if found == ["no image"] else [*found, f"{len(found)} findings"] if found else ["whole"])


def damage(path, *words):
    """Does a damage and prints its results, parted by bars; or prints the names of all."""
    if words:
        kernel, answer, found = getattr(Damage(path), words[0])()
        print(kernel, answer, checked(found).replace("\n", ";"), sep="|")
    else:
        print("\n".join(damages()))


def cases(path):
    """Writes each damage that a kernel refuses, for one boot: a page with its name, the number of blocks and the blocks; then these blocks'
    damaged pages, and the pages as they were."""
    image, out = Image(path), sys.stdout.buffer
    before = {b: image.block(b) for b in image.own_blocks()}
    for key in damages():
        with tempfile.TemporaryDirectory() as room:
            copy = pathlib.Path(room) / "area"
            with copy.open("wb") as file:
                file.truncate((image.last + 1) * PAGE)
                for b, page in before.items():
                    file.seek(b * PAGE)
                    file.write(page)
            damaging = Damage(copy)
            kernel, *_ = getattr(damaging, key)()
            damaging.file.close()
            if kernel == "resumes":
                continue
            pages = copy.open("rb")
            after = {b: (pages.seek(b * PAGE), pages.read(PAGE))[1] for b in before}
            # The kernel clears the mark before it refuses an image, so the header is always written anew.
            changed = [b for b in before if b == 0 or after[b] != before[b]]
            head = key.encode().ljust(64, b"\0") + struct.pack(f"<{1 + len(changed)}Q", len(changed), *changed)
            out.write(head.ljust(PAGE, b"\0") + b"".join(after[b] for b in changed) + b"".join(before[b] for b in changed))
    out.write(bytes(PAGE))


CALLS = [facts, saved, loader, stranger, tables, bad, compare, patterns, stream, pattern, moved, damage, cases, pack]
COMMANDS = {call.__name__: call for call in CALLS}

if __name__ == "__main__":
    if len(sys.argv) < 3 or sys.argv[1] not in COMMANDS:
        sys.exit(__doc__)
    try:
        sys.exit(COMMANDS[sys.argv[1]](*sys.argv[2:]))
    except NoImage as why:
        sys.exit(f"no image: {why}")
