"""Compressed images, written as save_image_lzo of kernel/power/swap.c writes them, and a reader of them.

The info page stands by itself. The pages that follow it in the plain image are cut into units of 32; the last unit may have fewer. A unit
consists of eight bytes with the length of its compressed bytes, these bytes, and zeros up to a whole page. The chain of maps names the units'
pages after the info page. With flag 4 the header has the kernel's crc32_le of all bytes of the units before they are compressed.
"""
import itertools
import struct
import zlib

import lzo1x
from image_tests import ENTRIES, Built, words
from inputs import PAGE
from lzo1x import Match

UNIT_PAGES = 32
UNIT = UNIT_PAGES * PAGE
CRC32 = 4
# LZO_CMP_SIZE of kernel/power/swap.c without the header's eight bytes: the most bytes that a compressor makes of a unit or uses after it.
MOST = UNIT + UNIT // 16 + 64 + 3 + 2


def crc32_le(content, seed=0):
    """Returns the kernel's checksum: zlib's without its inversions."""
    return zlib.crc32(content, seed ^ 0xFFFFFFFF) ^ 0xFFFFFFFF


def cut(content):
    return [content[at : at + UNIT] for at in range(0, len(content), UNIT)]


class Compressed(Built):
    """A compressed image of these pages, the first of which is the info page, laid out block by block as `Built` lays out a plain one.
    `packed` makes the compressed bytes of unit k, counted from 0."""

    def __init__(self, pages, last=None, bad=(), first=1, header=0, flags=CRC32, packed=lambda k, unit: lzo1x.compress(unit)):
        self.pages = pages
        self.content = b"".join(pages[1:])
        self.streams = [packed(k, unit) for k, unit in enumerate(cut(self.content))]
        self.header, self.bad, self.first, self.flags = header, bad, first, flags
        self.lay(last)

    def lay(self, last=None):
        """Lays the streams out in blocks anew; bytes that were put into the old blocks are lost."""
        units = [struct.pack("<Q", len(it)) + it for it in self.streams]
        units = [it.ljust(-(-len(it) // PAGE) * PAGE, b"\0") for it in units]
        # The place of each unit's first page in the chain.
        self.starts = list(itertools.accumulate((len(it) // PAGE for it in units), initial=1))
        laid = b"".join([self.pages[0], *units])
        self.blocks, self.maps, self.places = {}, [], []
        free = (b for b in itertools.count(self.first) if b not in self.bad and b != self.header)
        for at in range(len(laid) // PAGE // ENTRIES + 1):
            self.maps.append(next(free))
            for k in range(at * ENTRIES, min((at + 1) * ENTRIES, len(laid) // PAGE)):
                self.places.append(next(free))
                self.blocks[self.places[-1]] = laid[k * PAGE : (k + 1) * PAGE]
        for at, b in enumerate(self.maps):
            named = self.places[at * ENTRIES : (at + 1) * ENTRIES]
            link = self.maps[at + 1] if at + 1 < len(self.maps) else 0
            self.blocks[b] = words(named + [0] * (ENTRIES - len(named)) + [link])
        self.last = max([last or 0, *self.maps, *self.places, self.header])
        self.count = self.last + 1
        self.blocks[self.header] = self.area(self.bad, self.first, self.flags)
        self.checksum = crc32_le(self.content) if self.flags & CRC32 else 0
        self.put(self.header, 4060, struct.pack("<I", self.checksum))

    def put_stream(self, k, content):
        """Gives unit k other bytes after their length; the checksum stays that of the pages."""
        self.streams[k] = content
        self.lay(self.last)

    def put_bytes(self, k, at, content):
        """Writes bytes into the pages of unit k, whose first eight bytes are the length."""
        for i, byte in enumerate(content):
            page, rest = divmod(at + i, PAGE)
            self.put(self.places[self.starts[k] + page], rest, bytes([byte]))

    def put_length(self, k, length):
        self.put_bytes(k, 0, struct.pack("<Q", length))

    def place(self, k):
        """Returns the words by which a finding names the first page of unit k."""
        at, entry = divmod(self.starts[k], ENTRIES)
        return f"unit {k + 1} map {at + 1} block {self.maps[at]} entry {entry}"


def twin(plain, **settings):
    """Returns the compressed image of the same memory in an area of the same size; the settings give its header block, bad slots and first map."""
    return Compressed([plain.blocks[b] for b in plain.places], last=plain.last, **settings)


def pages_of(file, header=0):
    """Returns the pages of a plain image in a file, in the order of its chain."""
    page = file.block(header)
    found, at = [], struct.unpack_from("<Q", page, 4064)[0]
    while at:
        *entries, at = struct.unpack("<512Q", file.block(at))
        found += [file.block(b) for b in entries if b]
    return found


# Each kind and form of instruction that a stream of six pages has room for: of each kind of match the nearest, the farthest, the shortest, the
# longest and one longer still, some of them before one to three literals; and runs of 4, 18 and 19 literals.
EACH_KIND = [
    b"runs", Match(3, 2049, 1), b"to", Match(2, 1, 1), b"x", Match(2, 1024, 1), b"of literals, eigh..", Match(3, 3072, 1), Match(3, 1, 2), b"yes",
    Match(8, 2048, 2), Match(4, 9, 2), b"eighteen literals.", Match(5, 2000, 2), Match(3, 3, 3), b"z", Match(33, 4000, 3), Match(34, 2, 3),
    Match(2 + 31 + 255, 5, 3), Match(2 + 31 + 256, 5, 3), b"ab", Match(12000, 7, 3), Match(4, 16384, 3), Match(3, 16385, 4), b"abc", Match(9, 16400, 4),
    Match(10, 16390, 4), Match(2 + 7 + 256, 16500, 4), b"four",
]


def crafted(instructions, saved=5, begin_with_run=False):
    """Returns an image of one unit, whose stream has the number page, these instructions, and a match that fills the unit."""
    plain = Built(saved)
    page = plain.blocks[plain.places[1]]
    front = 8 * saved + 9
    numbers = [page[:front], Match(PAGE - front, 1)]
    room = (1 + saved) * PAGE
    stream = lzo1x.stream([*numbers, *instructions], begin_with_run=begin_with_run)
    written = lzo1x.expand(stream, room)
    rest = room - len(written)
    stream = lzo1x.stream([*numbers, *instructions, *([Match(rest, 1)] if rest else [])], begin_with_run=begin_with_run)
    content = lzo1x.expand(stream, room)
    pages = [plain.blocks[plain.places[0]], *(content[at : at + PAGE] for at in range(0, room, PAGE))]
    assert pages[1] == page
    return Compressed(pages, last=plain.last, packed=lambda _, unit: stream)


class Unread(Exception):
    """The first fault of a compressed image, as a line."""


class Chain:
    """The pages that the maps of an area name, read as they are asked for. It doesn't check the maps themselves for damage."""

    def __init__(self, built):
        self.blocks, self.entries, self.wanted = built.blocks, [], 0
        at, self.maps = struct.unpack_from("<Q", built.blocks[built.header], 4064)[0], 0
        while at:
            *entries, link = struct.unpack("<512Q", built.blocks[at])
            self.maps += 1
            self.entries += [(f"map {self.maps} block {at} entry {k}", b) for k, b in enumerate(entries)]
            at = link

    def page(self, k):
        if k >= len(self.entries):
            raise Unread(f"map {self.maps}: no next map, though the image has {self.wanted} pages")
        place, b = self.entries[k]
        if not b:
            raise Unread(f"{place}: block 0")
        return self.blocks[b]


def unit_at(chain, at, k, room):
    """Returns the bytes of unit k, whose first page is at place `at` of the chain, and the place of the next unit."""
    first = chain.page(at)
    length, = struct.unpack_from("<Q", first)
    if not 1 <= length <= MOST:
        raise Unread(f"unit {k + 1} {chain.entries[at][0]}: length {length}")
    pages = -(-(8 + length) // PAGE)
    compressed = b"".join([first, *(chain.page(at + i) for i in range(1, pages))])[8 : 8 + length]
    try:
        found = lzo1x.expand(compressed, room)
    except lzo1x.Fault as fault:
        raise Unread(f"unit {k + 1} byte {fault.at}: {fault.why}") from None
    if len(found) < room:
        raise Unread(f"unit {k + 1}: {len(found)} bytes, but {room} are wanted")
    return found, at + pages


def read(built):
    """Returns the stream of a compressed image's pages, the info page first, or raises Unread."""
    chain, units = Chain(built), []
    info = chain.page(0)
    chain.wanted, = struct.unpack_from("<Q", info, 424)
    left, at = chain.wanted - 1, 1
    while left:
        count = min(left, UNIT_PAGES)
        unit, at = unit_at(chain, at, len(units), count * PAGE)
        units.append(unit)
        left -= count
    header = built.blocks[built.header]
    wanted, found = struct.unpack_from("<I", header, 4060)[0], crc32_le(b"".join(units))
    if struct.unpack_from("<I", header, 4072)[0] & CRC32 and found != wanted:
        raise Unread(f"checksum 0x{wanted:08x}, but the units have 0x{found:08x}")
    return info + b"".join(units)
