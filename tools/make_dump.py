#!/usr/bin/env python3
"""make_dump.py KIND [PAGES [SLOTS [FILE]]]: writes a memory dump to standard output, by the table of docs/FORMATS.md.

KIND saved is a machine that can hibernate: page frame 10 is task 3's, and begins with 77. With PAGES as many page frames more, from
1024 on, are task 3's, each filled with a byte that isn't zero, or with the next page of the bytes of FILE, over and over. KIND loader is one that an image of it can be resumed into: its page
frames 0 to 999 are in use, and page frame 50 is filled with nines. Both have the same hardware: without PAGES 2,048 page frames and
1,600 slots, with PAGES 65,536 page frames and 131,072 slots, or SLOTS where that isn't 0.
"""
import struct
import sys

FREE, TASK_3, BAD = 1, 3 << 16, 131072
NAMES = [b"Linux", b"machine", b"6.1.0", b"#1", b"plain", b"(none)"]


def put(entries):
    return struct.pack("<%dI" % len(entries), *entries)


def main(kind, pages=0, slots=0, file=None):
    content = open(file, "rb").read() if file else b""
    whole = len(content) // 4096
    frames = 65536 if pages else 2048
    slots = slots or (131072 if pages else 1600)
    slot_table = frames // 1024
    tables = slot_table + -(-slots // 1024)
    used = tables if kind == "saved" else 1000
    entries = [0] * used + [FREE] * (frames - used)
    memory = {}
    if kind == "saved":
        entries[10] = 0 if 10 < tables else TASK_3
        for p in range(1024, 1024 + pages):
            entries[p] = TASK_3
            at = 4096 * (p % whole) if whole else 0
            memory[p] = content[at : at + 4096] if whole else bytes([1 + p % 255]) * 4096
        if 10 >= tables:
            memory[10] = struct.pack("<Q", 77).ljust(4096, b"\0")
    elif tables <= 50:
        memory[50] = bytes([9]) * 4096
    lists = put(entries).ljust(slot_table * 4096, b"\0") + put([BAD])
    for p in range(tables):
        memory[p] = lists[4096 * p : 4096 * (p + 1)].ljust(4096, b"\0")

    out = sys.stdout.buffer
    out.write(b"SWSUDMP1" + struct.pack("<6I", 393472, slots, 0, slot_table, 0, 1))
    out.write(b"".join(name.ljust(65, b"\0") for name in NAMES) + bytes(2))
    out.write(struct.pack("<2I", 0, frames))
    records = [p for p in sorted(memory) if any(memory[p])]
    out.write(struct.pack("<I", len(records)))
    for p in records:
        out.write(struct.pack("<I", p) + memory[p])


if len(sys.argv) < 2 or sys.argv[1] not in ("saved", "loader"):
    sys.exit(__doc__)
main(sys.argv[1], *[int(word) for word in sys.argv[2:4]], *sys.argv[4:5])
