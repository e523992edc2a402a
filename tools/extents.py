#!/usr/bin/env python3
"""extents.py [--dump] [--text FILE] SWAPFILE: tells where a swap file lies on the device of its file system.

A swap file's image is read by the kernel from the device, by the device's blocks. So it is written there, while the file system isn't
mounted: the dump must name the blocks (version 2, docs/FORMATS.md), and SWAP is the device. What filefrag(8) prints of the file's extents
becomes lines of a script (for `swsusp_machine make` or `swsusp replay`), with what else is needed in comments:

    # device /dev/sda2
    # swsusp inspect --offset 34816 /dev/sda2
    # resume=/dev/sda2 resume_offset=34816
    area 1599
    extent 0 1024 34816
    extent 1024 576 36864

With --dump it reads a memory dump from standard input, of a machine with as many slots as the file has pages, and writes it as
version 2 with these extents. With --text the output of `filefrag -v SWAPFILE` is read from FILE (- is standard input) instead, and
SWAPFILE needn't exist; then the device isn't named.

Refused, with a sentence and status 1, are: holes, and data that isn't on the disk yet (sync it, or write the file by dd and not by truncate);
extents that are shared, encoded or inside metadata; extents that aren't of whole pages; more than 64 extents; a file system whose extents
aren't blocks of the device (btrfs); a page that lies beyond 2^32 blocks; fewer than two pages, or more than 131,072.
"""
import os
import pathlib
import re
import struct
import subprocess
import sys

PAGE = 4096
MOST_EXTENTS, MOST_SLOTS = 64, 131072
BTRFS = "9123683e"
# Flags of filefrag that say that the bytes aren't, or not only, in the blocks that it names.
UNFIT = {"unknown_loc", "delalloc", "encoded", "data_encrypted", "not_aligned", "inline", "tail_packed", "shared", "encrypted", "unknown"}


class Refused(Exception):
    pass


def extents_of(text):
    """Returns the extents in a text of `filefrag -v`, in pages: first page of the file, number of pages, first page of the device."""
    kind = re.search(r"^Filesystem type is: (\w+)", text, re.M)
    if kind and kind.group(1) == BTRFS:
        raise Refused("the extents of btrfs aren't blocks of a device (btrfs inspect-internal map-swapfile tells its resume offset)")
    size = re.search(r"^File size of .* is (\d+) \((\d+) blocks? of (\d+) bytes\)", text, re.M)
    if not size:
        raise Refused("this is no output of filefrag -v")
    length, _, unit = map(int, size.groups())
    if length % PAGE:
        raise Refused(f"the file has {length} bytes, which aren't whole pages")
    pages = length // PAGE
    if not 2 <= pages <= MOST_SLOTS:
        raise Refused(f"the file has {pages} pages, and an area has 2 to {MOST_SLOTS}")
    out, at = [], 0
    for line in text.splitlines():
        found = re.match(r"\s*\d+:\s*(\d+)\.\.\s*(\d+):\s*(\d+)\.\.\s*(\d+):\s*(\d+):\s*(.*)$", line)
        if not found:
            continue
        first, last, block, _, count = (int(it) for it in found.groups()[:5])
        flags = set(re.split(r"[,\s]+", found.group(6).split(":")[-1].strip()))
        if flags & UNFIT:
            raise Refused(f"the extent from block {first} on is {', '.join(sorted(flags & UNFIT))}")
        if first * unit != at:
            raise Refused(f"the file has a hole at byte {at}")
        if last - first + 1 != count:
            raise Refused(f"the extent from block {first} on has another length")
        at += count * unit
        if block * unit % PAGE or first * unit % PAGE:
            raise Refused(f"the extent from block {first} on isn't of whole pages")
        slot, start = first * unit // PAGE, block * unit // PAGE
        # The file ends before the end of an extent that the file system made longer.
        size = min(count * unit, length - first * unit)
        if size <= 0:
            break
        if size % PAGE:
            raise Refused(f"the extent from block {first} on isn't of whole pages")
        if start + size // PAGE > 2**32:
            raise Refused(f"the extent from block {first} on ends beyond block {2**32 - 1}")
        if out and out[-1][2] + out[-1][1] == start:
            out[-1] = (out[-1][0], out[-1][1] + size // PAGE, out[-1][2])
        else:
            out.append((slot, size // PAGE, start))
    if at < length:
        raise Refused(f"the file has a hole at byte {at}")
    if len(out) > MOST_EXTENTS:
        raise Refused(f"the file has {len(out)} extents, and a dump at most {MOST_EXTENTS}: make it anew where there is more room")
    return out


def device_of(path):
    """Returns the path of the device that the file's file system lies on."""
    number = os.stat(path).st_dev
    name = pathlib.Path(f"/sys/dev/block/{os.major(number)}:{os.minor(number)}")
    if not name.exists():
        raise Refused("its file system lies on no single device")
    return "/dev/" + name.resolve().name.replace("!", "/")


def with_extents(dump, extents):
    """Returns a dump as version 2, with these extents in the place of its own."""
    if dump[:8] not in (b"SWSUDMP1", b"SWSUDMP2") or len(dump) < 424:
        raise Refused("standard input is no dump")
    slots, zones = struct.unpack_from("<I", dump, 12)[0], struct.unpack_from("<I", dump, 28)[0]
    pages = sum(it[1] for it in extents)
    if slots != pages:
        raise Refused(f"the dump's machine has {slots} slots, and the file {pages} pages")
    fields = 424 + 8 * zones
    rest = fields
    if dump[:8] == b"SWSUDMP2":
        rest += 8 + 12 * struct.unpack_from("<I", dump, fields + 4)[0]
    own = struct.pack("<2I", extents[0][2], len(extents)) + b"".join(struct.pack("<3I", *it) for it in extents)
    return b"SWSUDMP2" + dump[8:fields] + own + dump[rest:]


def main(words):
    as_dump = "--dump" in words
    words = [it for it in words if it != "--dump"]
    text = None
    if words[:1] == ["--text"] and len(words) >= 2:
        text = words[1]
        words = words[2:]
    if len(words) != 1 or words[0].startswith("-"):
        print(__doc__.split("\n")[0], file=sys.stderr)
        return 2
    path = words[0]
    try:
        if text is None:
            told = subprocess.run(["filefrag", "-v", path], capture_output=True, text=True, env={**os.environ, "LC_ALL": "C"})
            if told.returncode:
                raise Refused((told.stderr or told.stdout).strip())
            told = told.stdout
        else:
            told = sys.stdin.read() if text == "-" else pathlib.Path(text).read_text()
        extents = extents_of(told)
        if as_dump:
            dump = with_extents(sys.stdin.buffer.read(), extents)
            sys.stdout.buffer.write(dump)
            return 0
        device = device_of(path) if text is None else "DEVICE"
    except (Refused, OSError) as why:
        print(f"{path}: {why}", file=sys.stderr)
        return 1
    offset = extents[0][2]
    print(f"# device {device}")
    print(f"# swsusp inspect --offset {offset} {device}")
    print(f"# resume={device} resume_offset={offset}")
    print(f"area {sum(it[1] for it in extents) - 1}")
    for it in extents:
        print("extent %d %d %d" % it)
    return 0


if __name__ == "__main__":
    sys.exit(main(sys.argv[1:]))
