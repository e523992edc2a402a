#!/usr/bin/env python3
"""stress.py SEED ROUNDS [PROGRAM [SECONDS]]: feeds the built program damaged disks, dumps, scripts and streams, so many rounds of them.

Each round is made from SEED and its number alone, so that one can be had again: ROUNDS is how many, or FIRST-LAST. A run must end within
SECONDS (10 without the word) with a status that docs/COMMANDS.md gives its command, print no line that isn't one of the formats, and leave what it has no leave to change: an
import that is refused leaves the header block, a resume changes no other block, and what is refused before anything is written leaves
every byte. PROGRAM is crates/swsusp/out/swsusp without the word, which `rt run` leaves. Each run that does otherwise is told, and the
round's files stay; then the status is 1.
"""
import collections
import pathlib
import random
import re
import shutil
import struct
import subprocess
import sys
import tempfile

TOP = pathlib.Path(__file__).resolve().parent.parent
PAGE = 4096
FRAMES, SLOTS = 1100, 1100
NAMES = [b"Linux", b"machine", b"6.1.0", b"#1", b"plain", b"(none)"]
TASK_3, BAD, MARK = 3 << 16, 131072, b"S1SUSPEND\0"

N = r"\d{1,20}"
LEFT = "(same|gone|unsure)"
NO_SWAP = (
    rf"no swap: (image|old|signature [0-9a-f]{{20}}|version {N}|bad count {N}|last zero|bad entry {N}"
    rf"|short {N} blocks {N}|misfit {N} slots {N}|bad set)"
)
# The refusals that a command notes with status 1.
REFUSED = [
    "closed", "no slot", "nothing held", NO_SWAP, rf"no frames {N} need {N}", rf"no slots {N} need {N}", "no image",
    rf"compressed {N}", rf"hardware {N} own {N}", "no chain", rf"bad block {N}", rf"chain ends {N}",
    "mismatch (version code|sysname|release|version|machine)", rf"memory size {N} own {N}", rf"bad counts {N} {N}",
    rf"bad pfn {N}", rf"pfn order {N} {N}", rf"pfn end {N}", rf"too few loader frames {N} need {N}",
]
# The replies that a script prints besides these.
REPLIES = REFUSED + [
    "ok", rf"more {N} of {N}", "booted image (yes|no)", rf"word {N}", rf"slot {N}", rf"written {N}", rf"reading {N}", rf"read {N}",
    rf"hibernated {N}", rf"undo (write|sync) {N}", "settled", rf"loading {N}", rf"resumed {N}", "cut", "idle", "not off", "not on",
    "no dump", "frozen", "in flight", "no frame", "not free", "not owner", "no slot here", rf"busy {N}", rf"bad tables {N}",
    rf"(read|write|sync) fault {LEFT}", "sleeping", rf"asleep {N}", "not asleep", "woken", rf"shrunk {N} left {N}",
]
DUMP_NOTE = rf"dump (Short byte|Magic byte|Header byte|Zone byte|Extent byte|Frame byte|Order byte|Extra byte|Tables frame) {N}"
STREAM_NOTE = rf"stream (Counts|Pfn|Order|End|Extra|Short) byte {N}"
SCRIPT_NOTE = rf"script line {N} (TooLong|Byte|Word|Late|Count|Number|Range|Events|Hardware)"
# For each command and status, the lines on standard output and the note.
SHAPES = {
    "inspect": {0: ([rf"area last {N} bad {N} image (none|{N} flags {N} hw (-|{N}))"], []), 1: ([], [NO_SWAP])},
    "hibernate": {0: ([rf"hibernated {N}"], []), 1: ([], REFUSED), 3: ([], [DUMP_NOTE])},
    "resume": {0: (None, []), 1: ([], REFUSED), 3: ([], [DUMP_NOTE])},
    "export": {0: (None, []), 1: ([], [rf"slots in use {N}"]), 3: ([], [DUMP_NOTE])},
    "import": {0: ([rf"imported {N}"], []), 1: ([], [NO_SWAP, rf"no slots {N} need {N}"]), 3: ([], [STREAM_NOTE])},
    "replay": {0: (REPLIES, []), 1: ([], [rf"disk blocks {N} need {N}"]), 3: ([], [SCRIPT_NOTE])},
}


def page_of(entries):
    """Returns a page that begins with these numbers of 4 bytes."""
    return struct.pack("<%dI" % len(entries), *entries).ljust(PAGE, b"\0")


def dump(used, records, hw_sig=0, extents=()):
    """Returns a dump of page frames 0 to 1099: those from `used` on are free, except page frame 10 if it has a record."""
    entries = [0] * used + [1] * (2048 - used)
    if 10 in records:
        entries[10] = TASK_3
    frames = {0: page_of(entries[:1024]), 1: page_of(entries[1024:]), 2: page_of([BAD]), **records}
    out = b"SWSUDMP2" if extents else b"SWSUDMP1"
    out += struct.pack("<6I", 393472, SLOTS, 0, 2, hw_sig, 1)
    out += b"".join(name.ljust(65, b"\0") for name in NAMES) + bytes(2) + struct.pack("<2I", 0, FRAMES)
    if extents:
        out += struct.pack("<2I", extents[0][2], len(extents)) + b"".join(struct.pack("<3I", *it) for it in extents)
    out += struct.pack("<I", len(frames))
    return out + b"".join(struct.pack("<I", p) + frames[p] for p in sorted(frames))


def area(blocks, at=0):
    """Returns a disk of `blocks` blocks with an empty area, whose header is in block `at`."""
    header = bytearray(PAGE)
    struct.pack_into("<2I", header, 1024, 1, SLOTS - 1)
    header[4086:] = b"SWAPSPACE2"
    out = bytearray(blocks * PAGE)
    out[at * PAGE : (at + 1) * PAGE] = header
    return bytes(out)


class Bench:
    """The program, a folder for its files, and the results of its runs."""

    def __init__(self, program, room, seconds):
        self.program, self.room, self.seconds = program, room, seconds
        self.seen = collections.Counter()
        self.wrong = []

    def run(self, words, given, disk=None):
        """Returns status, output and note of a run, and the disk's bytes after it."""
        path = self.room / "disk"
        if disk is not None:
            path.write_bytes(disk)
            words = [*words, str(path)]
        try:
            ended = subprocess.run([self.program, *words], input=given, capture_output=True, timeout=self.seconds)
            status, out, note = ended.returncode, ended.stdout, ended.stderr
        except subprocess.TimeoutExpired as late:
            status, out, note = None, late.stdout or b"", late.stderr or b""
        after = path.read_bytes() if disk is not None else None
        self.seen[words[0], status] += 1
        fault = self.fault(words[0], status, out, note)
        if fault is None and disk is not None:
            fault = disk_fault(words[0], status, note, disk, after)
        if fault:
            self.wrong.append(f"{' '.join(words)}: {fault}")
        return status, out, note, after

    @staticmethod
    def fault(command, status, out, note):
        """Returns what is wrong with the status and the texts of a run, or None."""
        if status is None:
            return "it hangs"
        if status not in SHAPES[command]:
            return f"status {status}, note {note[-300:]!r}"
        lines, notes = SHAPES[command][status]
        if command == "resume" and status == 0 and not is_dump(out):
            return "the output is no dump"
        if command == "export" and status == 0 and len(out) != PAGE * struct.unpack_from("<Q", out, 424)[0]:
            return "the output is no stream"
        wrong = [] if lines is None else unlike(out, lines)
        wrong += unlike(note, notes)
        if notes and note.count(b"\n") != 1:
            return f"not one note: {note!r}"
        return f"a line of no format: {wrong[0]!r}" if wrong else None


def unlike(text, shapes):
    """Returns the lines of a text that have none of these shapes, and a rest without an end of line."""
    *lines, rest = text.split(b"\n")
    whole = re.compile("|".join(f"(?:{it})" for it in shapes) or r"(?!)")
    return [it for it in lines if not whole.fullmatch(it.decode("latin-1"))] + [rest] * bool(rest)


def is_dump(text):
    """Returns whether the text has the size and the ascending records of a dump."""
    if text[:8] not in (b"SWSUDMP1", b"SWSUDMP2") or len(text) < 436:
        return False
    at = 424 + 8 * struct.unpack_from("<I", text, 28)[0]
    if text[7:8] == b"2":
        at += 8 + 12 * struct.unpack_from("<I", text, at + 4)[0]
    count = struct.unpack_from("<I", text, at)[0]
    if len(text) != at + 4 + 4100 * count:
        return False
    frames = [struct.unpack_from("<I", text, at + 4 + 4100 * i)[0] for i in range(count)]
    return frames == sorted(set(frames))


def changed_blocks(before, after):
    return [b for b in range(-(-len(before) // PAGE)) if before[b * PAGE : (b + 1) * PAGE] != after[b * PAGE : (b + 1) * PAGE]]


def disk_fault(command, status, note, before, after):
    """Returns what a run has changed on its disk without leave, or None."""
    if len(before) != len(after):
        return "the disk has another length"
    changed = changed_blocks(before, after)
    if command == "inspect" or (command == "hibernate" and status) or (command == "resume" and status == 3):
        return f"blocks {changed} are changed" if changed else None
    if command == "resume":
        kept = note.startswith((b"compressed", b"no image"))
        if len(changed) > (0 if kept else 1):
            return f"blocks {changed} are changed"
        for b in changed:
            old, new = (it[b * PAGE : (b + 1) * PAGE] for it in (before, after))
            if old[4086:] != MARK or new != old[:4086] + old[4076:4086]:
                return f"block {b} isn't taken back"
    if command == "import" and status and 0 in changed:
        return "the header block is changed"
    return None


NUMBERS = [0, 1, 2, 3, 8, 10, 255, 510, 511, 512, 1023, 1099, 1100, 1101, 4095, 4096, 65535, 65536, 131072, 2**31, 2**32 - 1, 2**32,
           2**63, 2**63 + 1, 2**64 - 2, 2**64 - 1]


def mutated(dice, data, places=()):
    """Returns bytes with a few changes: at one of the places, each given as first byte and one past the last, or anywhere."""
    data = bytearray(data)
    for _ in range(dice.choice([1, 1, 1, 2, 3, 6])):
        first, past = dice.choice(places) if places and dice.random() < 0.85 else (0, len(data))
        first, past = min(first, len(data)), min(past, len(data))
        if past - first < 1:
            continue
        at = dice.randrange(first, past)
        way = dice.randrange(8)
        if way == 0:
            data[at] ^= 1 << dice.randrange(8)
        elif way == 1:
            data[at] = dice.choice([0, 1, 127, 128, 255, dice.randrange(256)])
        elif way in (2, 3, 4):
            size = dice.choice([4, 8])
            at -= at % 4
            number = dice.choice(NUMBERS + [dice.getrandbits(64), dice.randrange(1200)]) % 256**size
            data[at : at + size] = number.to_bytes(size, "little")[: len(data) - at]
        elif way == 5:
            size = dice.choice([1, 8, 512, 4096])
            other = dice.randrange(len(data))
            piece = data[other : other + size][: len(data) - at]
            data[at : at + len(piece)] = piece
        elif way == 6 and dice.random() < 0.3:
            del data[at:]
        elif way == 7 and dice.random() < 0.3:
            data[at:at] = dice.randbytes(dice.choice([1, 8, 4096]))
    return bytes(data)


def of_disk(dice, data):
    """Returns a disk of whole blocks with changes in its header, its first blocks, or anywhere."""
    blocks = [(b * PAGE, (b + 1) * PAGE) for b in range(1, 4)]
    mark = [(4056, 4096)] * 4 + [(1024, 1044), (1536, 1552)]
    fields = [(PAGE, PAGE + 96), (2 * PAGE + 388, 2 * PAGE + 440), (2 * PAGE, 2 * PAGE + 330), (3 * PAGE, 3 * PAGE + 80)]
    changed = mutated(dice, data, mark + blocks + fields * 2)
    return changed[: len(data)] if dice.random() < 0.9 else changed[: PAGE * dice.randrange(1, len(data) // PAGE)]


WORDS = ["boot", "step", "steps", "core", "claim", "release", "store", "show", "cache", "out", "in", "hibernate", "zeros", "resume", "cut",
         "arm", "settle", "suspend", "wake", "shrink", "zone", "area", "bad", "region", "tables", "hwsig", "extent", "#", "0-6", "10-10",
         "7-", "-", "x", ""]
EVENTS = ["boot", "steps core 2", "step core", "steps core 15", "claim 3 10", "store 3 10 0 77", "show 3 10 0", "out 3 10", "in 3 1 10",
          "step 3", "hibernate", "hibernate zeros", "steps core 20", "resume", "resume 0-6 10-10", "cut 0", "cut 128",
          "cut 18446744073709551615", "arm 1 1 0", "arm 3 2 18446744073709551615", "settle", "release 3 10", "cache 3 10", "claim 4 11",
          "shrink 0", "shrink 7"]


def of_script(dice, texts):
    """Returns a script whose lines are dropped, doubled, moved and changed; or one of events in any order."""
    lines = dice.choice(texts).split("\n")
    if dice.random() < 0.4:
        lines = ["area 1100", "boot", "steps core 2"] + dice.choices(EVENTS, k=dice.randrange(5, 60))
    for _ in range(dice.choice([0, 1, 1, 2, 4])):
        at = dice.randrange(len(lines))
        way = dice.randrange(6)
        if way == 0 and len(lines) > 1:
            del lines[at]
        elif way == 1:
            lines.insert(at, dice.choice(lines + EVENTS))
        elif way == 2:
            other = dice.randrange(len(lines))
            lines[at], lines[other] = lines[other], lines[at]
        else:
            words = lines[at].split(" ")
            spot = dice.randrange(len(words))
            words[spot] = dice.choice(WORDS) if dice.random() < 0.4 else str(dice.choice(NUMBERS + [dice.randrange(20)]))
            lines[at] = " ".join(words)
    text = "\n".join(lines).encode()
    return mutated(dice, text) if dice.random() < 0.15 else text


class Samples:
    """What the rounds damage: dumps, images of both formats and of a swap file, a stream, scripts."""

    def __init__(self, bench):
        record = struct.pack("<Q", 77).ljust(PAGE, b"\0")
        pieces = ((0, 1, 50), (1, SLOTS - 1, 100))
        self.plain = (dump(4, {10: record}), dump(100, {}))
        self.signed = (dump(4, {10: record}, 7), dump(100, {}, 7))
        self.pieces = (dump(4, {10: record}, 0, pieces), dump(100, {}, 0, pieces))
        self.empty = area(SLOTS)
        self.images = []
        for words, dumps, disk in [
            (["hibernate"], self.plain, self.empty),
            (["hibernate", "--skip-zeros"], self.plain, self.empty),
            (["hibernate"], self.signed, self.empty),
            (["hibernate"], self.pieces, area(SLOTS + 99, 50)),
        ]:
            self.images.append((dumps, bench.run(words, dumps[0], disk)[3]))
        self.stream = bench.run(["export"], self.plain[0])[1]
        self.scripts = [it.read_text() for it in sorted((TOP / "examples").glob("*.txt"))]


def image_round(dice, bench, samples):
    (saved, loader), disk = dice.choice(samples.images)
    disk = of_disk(dice, disk)
    bench.run(["inspect"], b"", disk)
    if dice.random() < 0.15:
        bench.run(["hibernate"], saved, disk)
    if dice.random() < 0.15:
        bench.run(["import"], samples.stream, disk)
    words = dice.choice([["resume"], ["resume", "--any-kernel"]])
    status, _, note, after = bench.run(words, loader, disk)
    again = bench.run(words, loader, after)
    kept = [b for b in range(len(after) // PAGE) if after[b * PAGE + 4086 : (b + 1) * PAGE] == MARK]
    if status in (0, 1) and not kept and again[2] != b"no image\n":
        bench.wrong.append(f"resume: {note!r}, and then {again[2]!r}")


def dump_round(dice, bench, samples):
    dumps, disk = dice.choice(samples.images)
    saved, loader = dumps
    fields = [(0, 32), (422, 480), (436, 520), (4532, 4544), (8636, 8680)]
    if dice.random() < 0.3:
        saved = with_slots(dice, saved)
    way = dice.randrange(3)
    if way == 0:
        words = dice.choice([["hibernate"], ["hibernate", "--skip-zeros"], ["hibernate", "--image-size", str(dice.choice([0, 4, 5, 1000]))]])
        bench.run(words, mutated(dice, saved, fields), samples.empty)
    elif way == 1:
        bench.run(["export"], mutated(dice, saved, fields))
    else:
        bench.run(["resume"], mutated(dice, loader, fields), disk)


def with_slots(dice, saved):
    """Returns a dump in which some slots are tasks': the slot table is the page of the second record from the end."""
    changed = bytearray(saved)
    at = len(changed) - 2 * 4100 + 4
    for slot in dice.sample(range(1, SLOTS - 76), dice.randrange(1, 5)):
        struct.pack_into("<I", changed, at + 4 * slot, dice.randrange(1, 65))
    return bytes(changed)


def script_round(dice, bench, samples):
    bench.run(["replay"], of_script(dice, samples.scripts))


def stream_round(dice, bench, samples):
    fields = [(388, 440), (4096, 4144), (4096, 8192)]
    disk = samples.empty if dice.random() < 0.8 else of_disk(dice, samples.empty)
    status, _, _, after = bench.run(["import"], mutated(dice, samples.stream, fields), disk)
    if status == 0:
        bench.run(["inspect"], b"", after)
        bench.run(["resume"], samples.plain[1], after)


ROUNDS = [image_round, image_round, dump_round, script_round, stream_round]


def main(seed, rounds, program=TOP / "crates/swsusp/out/swsusp", seconds=10):
    room = pathlib.Path(tempfile.mkdtemp(prefix="swsusp-stress-"))
    bench = Bench(str(program), room, float(seconds))
    samples = Samples(bench)
    told = 0
    first, _, last = rounds.rpartition("-")
    numbers = range(int(first), int(last) + 1) if first else range(int(last))
    for number in numbers:
        dice = random.Random(f"{seed} {number}")
        dice.choice(ROUNDS)(dice, bench, samples)
        for it in bench.wrong[told:]:
            shutil.copy(room / "disk", room / f"disk-{number}")
            print(f"round {number}: {it}", flush=True)
        told = len(bench.wrong)
    for (command, status), count in sorted(bench.seen.items(), key=str):
        print(f"{command}: status {status}, {count} times")
    print(f"{len(numbers)} rounds of {seed}, {len(bench.wrong)} wrong")
    if bench.wrong:
        print(f"their disks are in {room}")
        return 1
    shutil.rmtree(room)
    return 0


if __name__ == "__main__":
    if len(sys.argv) < 3:
        sys.exit(__doc__)
    sys.exit(main(*sys.argv[1:5]))
