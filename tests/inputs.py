"""Swap areas in files, and memory dumps, put together byte by byte by the tables of docs/FORMATS.md."""
import contextlib
import pathlib
import struct
import tempfile

PAGE = 4096

# Entries of a frame table: a free page frame, a cached one, and one of task 3. The entry of a bad slot in a slot table.
FREE, CACHE, TASK_3, BAD = 1, 64, 3 << 16, 131072

ZERO_PAGE = bytes(PAGE)


def page(numbers):
    """Returns a page of zeros with these 4-byte numbers at their places."""
    made = bytearray(PAGE)
    for at, number in numbers.items():
        struct.pack_into("<I", made, at, number)
    return bytes(made)


def beginning_with(number):
    return page({0: number})


def header(last, bad=(), version=1):
    """Returns the header block of an area with the last slot `last` and these bad slots."""
    numbers = {1024: version, 1028: last, 1032: len(bad), **{1536 + 4 * k: slot for k, slot in enumerate(bad)}}
    return page(numbers)[:4086] + b"SWAPSPACE2"


class SwapFile:
    """A swap file or a device, as a file."""

    def __init__(self, path):
        self.path = path

    def bytes(self):
        return self.path.read_bytes()

    def block(self, b):
        return self.bytes()[b * PAGE : (b + 1) * PAGE]

    def write(self, b, content):
        """Writes a block."""
        with self.path.open("r+b") as file:
            file.seek(b * PAGE)
            file.write(content)

    def change(self, *changes):
        """Writes 4-byte numbers over blocks. Each change is a block, the number's place in it, and the number."""
        with self.path.open("r+b") as file:
            for b, at, number in changes:
                file.seek(b * PAGE + at)
                file.write(struct.pack("<I", number))


@contextlib.contextmanager
def disk(blocks, first=ZERO_PAGE, at=0):
    """A file of `blocks` blocks, with this page in block `at`."""
    with tempfile.TemporaryDirectory() as room:
        file = SwapFile(pathlib.Path(room) / "swap")
        with file.path.open("wb") as made:
            made.truncate(blocks * PAGE)
        file.write(at, first)
        yield file


def area(last=1599):
    """An area with the last slot `last`, and no block after it."""
    return disk(last + 1, header(last))


NAMES = [b"Linux", b"machine", b"6.1.0", b"#1", b"plain", b"(none)"]


class Machine:
    """The hardware of a dump: page frames from 0 on, with the frame table in the first ones and the slot table after it. Without extents
    each slot lies on the block of its number."""

    def __init__(self, frames=2048, slots=1600, hw_sig=0, extents=()):
        self.frames, self.slots, self.hw_sig, self.extents = frames, slots, hw_sig, extents
        self.slot_table = -(-frames // 1024)
        self.tables = self.slot_table + -(-slots // 1024)

    def dump(self, pages):
        """Returns a dump with these pages, which are given by their page frames."""
        parts = [b"SWSUDMP2" if self.extents else b"SWSUDMP1"]
        parts += [struct.pack("<6I", 393472, self.slots, 0, self.slot_table, self.hw_sig, 1)]
        parts += [*(name.ljust(65, b"\0") for name in NAMES), bytes(2), struct.pack("<2I", 0, self.frames)]
        if self.extents:
            parts += [struct.pack("<2I", self.extents[0][2], len(self.extents))]
            parts += [struct.pack("<3I", *extent) for extent in self.extents]
        parts += [struct.pack("<I", len(pages))]
        parts += [struct.pack("<I", p) + content for p, content in sorted(pages.items())]
        return b"".join(parts)

    def frame_table(self, used, owned=()):
        """Returns the pages of the frame table: page frames below `used` are in use and the others free, except those with entries in `owned`."""
        entries = dict(owned)
        return {
            k: page({4 * i: entries.get(p, 0 if p < used else FREE) for i, p in enumerate(range(1024 * k, 1024 * k + 1024))})
            for k in range(self.slot_table)
        }

    def saved_pages(self, slots=beginning_with(BAD), cached=()):
        """Returns the pages of the machine that is saved. All page frames are free except those of the tables, the cached ones, and page frame 10,
        which is task 3's and begins with 77. Each cached page frame begins with its number."""
        owned = {10: TASK_3, **{p: CACHE for p in cached}}
        tables = {**self.frame_table(self.tables, owned), self.slot_table: slots}
        return {**tables, 10: beginning_with(77), **{p: beginning_with(p) for p in cached}}

    def saved(self, **kinds):
        """Returns the dump of the machine that is saved."""
        return self.dump(self.saved_pages(**kinds))

    def loader_pages(self, used):
        return {**self.frame_table(used), self.slot_table: beginning_with(BAD)}

    def loader(self, used):
        """Returns the dump of a loader whose page frames from `used` on are free."""
        return self.dump(self.loader_pages(used))

    def loader_with_nines(self, used=1000):
        """Returns the dump of such a loader with page frame 50 filled with nines."""
        return self.dump({**self.loader_pages(used), 50: bytes([9]) * PAGE})

    def restored(self):
        """Returns the dump of the machine that is restored into that loader: its pages, and the loader's page frame 50, which was in use."""
        return self.dump({**self.saved_pages(), 50: bytes([9]) * PAGE})


# The machine of the worked example: the tables are in page frames 0 to 3.
EXAMPLE = Machine()

# The same machine over a swap file whose header is in block 50, and whose other slots begin at block 100.
OVER_FILE = Machine(extents=((0, 1, 50), (1, 1599, 100)))

# The machine of scripts without settings, with 3001 slots: the tables are in page frames 0 to 6.
SCRIPTED = Machine(frames=4096, slots=3001)
