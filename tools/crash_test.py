#!/usr/bin/env python3
"""crash_test.py [SWSUSP [SWSUSP_MACHINE [SEED]]]: kills, fails and interrupts each system call of a hibernation, an import and a resume.

strace watches, kills and fails the calls, so any build is tried as it is. For each command it shows:
- the order of the calls: the lock, a sync, the first block read, written back and synced, the pages and maps, a sync, the header block read
  and written, a sync;
- killed at any call, it leaves no image or a whole one, `swsusp_machine check` and `swsusp resume` agree on which, and an image is resumed once;
- with any call failing, status and note report that call, and `same` and `gone` are kept;
- with each read and write interrupted once, it does what it does without interruptions;
- a power cut at any point, which leaves any of the unsynced writes, as a whole or some of their sectors, leaves no image or a whole one. The
  states are made from the log of the command's writes: all of them if they are few, else some that SEED (1) chooses.
What a whole image is comes from docs/FORMATS.md: its chain is read here, and has exactly the page frames of the dump that aren't free.

The programs are those that `rt run` leaves unless words name others. Prints a line for each check, then `N passed, M failed`, and ends with
status 1 if a check differs. It is skipped, with status 0, if strace isn't installed or may not trace.
"""
import concurrent.futures
import hashlib
import itertools
import os
import pathlib
import random
import re
import shutil
import signal
import struct
import subprocess
import sys
import tempfile

TOP = pathlib.Path(__file__).resolve().parent.parent
PAGE, SECTOR = 4096, 512
MARK = b"S1SUSPEND\0"
FREE = 1
LAST = 1599
# Calls whose first argument is a descriptor.
ON_FILES = {"read", "write", "pread64", "pwrite64", "lseek", "fsync", "fdatasync", "flock", "statx", "fstat", "newfstatat", "ioctl", "close"}
LOOKS = {"statx", "fstat", "newfstatat", "ioctl"}
# The name by which a program can open its standard output once more.
OUTPUT = b"/proc/self/fd/1"


class Bench:
    """The programs, a folder for their files, and the results so far."""

    def __init__(self, program, machine, room):
        self.program, self.machine, self.room = program, machine, room
        self.passed = self.failed = 0
        self.folders = itertools.count()
        self.agreed = {}

    def same(self, name, wanted, came):
        if wanted == came:
            print(f"as told: {name}", flush=True)
            self.passed += 1
        else:
            print(f"differs: {name}: wanted [{wanted}], came [{came}]", flush=True)
            self.failed += 1

    def run(self, words, given, area=None, under=()):
        """Runs a program over this area, whose file comes after its words. Returns its status, output, note, the area's bytes, and the trace."""
        folder = self.room / str(next(self.folders))
        folder.mkdir()
        (folder / "input").write_bytes(given)
        words = [str(it) for it in words]
        if area is not None:
            (folder / "area").write_bytes(area)
            words.append(str(folder / "area"))
        under = [it.replace("FOLDER", str(folder)) for it in under]
        with open(folder / "input", "rb") as source, open(folder / "out", "wb") as out, open(folder / "note", "wb") as note:
            ended = subprocess.run([*under, *words], stdin=source, stdout=out, stderr=note, timeout=300)
        after = (folder / "area").read_bytes() if area is not None else None
        log = (folder / "log").read_text() if (folder / "log").exists() else ""
        told = (ended.returncode, (folder / "out").read_bytes(), (folder / "note").read_bytes(), after)
        shutil.rmtree(folder)
        return *told, Trace(log, str(folder / "area"))

    def traced(self, words, given, area=None):
        return self.run(words, given, area, ["strace", "-qq", "-o", "FOLDER/log", "-xx", "-s", "70000"])

    def injected(self, words, given, area, call, what):
        """Runs a program and makes something happen at a call; `when` counts the calls of that name."""
        name = call.name
        return self.run(words, given, area, ["strace", "-qq", "-o", "FOLDER/ended", "-e", f"trace={name}",
                                             "-e", f"inject={name}:{what}:when={call.nth}"])


class Call:
    """A system call: its name, its place among the calls of that name, its arguments, its result, and the file that it works on."""

    def __init__(self, name, nth, words, result):
        self.name, self.nth, self.words, self.result = name, nth, words, result
        self.on = self.at = None
        self.data = b""

    def __repr__(self):
        return f"{self.name} {self.nth}"


TEXT = re.compile(r'"((?:\\x[0-9a-f]{2})*)"')


class Trace:
    """The calls of a run in order; `own` has those from the first mention of the area on, `on_area` those on the open area."""

    def __init__(self, log, area):
        self.calls, counts, files, places = [], {}, {0: "input", 1: "output", 2: "note"}, {}
        self.start = None
        for line in log.splitlines():
            found = re.match(r"(\w+)\((.*)\) += (-?\d+|\?|0x[0-9a-f]+)", line)
            if not found:
                continue
            name, words, result = found.groups()
            counts[name] = counts.get(name, 0) + 1
            call = Call(name, counts[name], words, result)
            call.data = b"".join(bytes.fromhex(it.replace("\\x", "")) for it in TEXT.findall(words)[:1])
            self.calls.append(call)
            first = re.match(r"(\d+)\b", words)
            fd = int(first.group(1)) if first and name in ON_FILES else None
            if name in ("openat", "open", "statx", "newfstatat", "stat", "readlink", "access") and call.data == area.encode():
                call.on = "path"
                if self.start is None:
                    self.start = len(self.calls) - 1
                if name in ("open", "openat") and int(result) >= 0:
                    files[int(result)] = "area"
                    places[int(result)] = 0
            elif call.data == OUTPUT and not is_sync(call):
                call.on = "output"
                if name in ("open", "openat") and int(result) >= 0:
                    files[int(result)] = "output"
            elif name in ("openat", "open") and not result.startswith("-"):
                files.pop(int(result), None)
            elif fd in files:
                call.on = files[fd]
                if call.on == "area":
                    self.place(call, fd, places)
                if name == "close":
                    del files[fd]
        self.own = self.calls[self.start:] if self.start is not None else []
        self.on_area = [it for it in self.own if it.on == "area"]

    @staticmethod
    def place(call, fd, places):
        """Notes where on the area a call reads or writes."""
        if call.name in ("pread64", "pwrite64"):
            call.at = int(call.words.rsplit(", ", 1)[1])
        elif call.name in ("read", "write"):
            call.at = places[fd]
            places[fd] += max(int(call.result), 0)
        elif call.name == "lseek":
            places[fd] = max(int(call.result), 0)
        if call.name in ("read", "write", "pread64", "pwrite64"):
            call.data = call.data[: max(int(call.result), 0)]


def is_read(call):
    return call.name in ("read", "pread64")


def is_write(call):
    return call.name in ("write", "pwrite64")


def is_sync(call):
    return call.name in ("fsync", "fdatasync")


def number(page, at, size=8):
    return int.from_bytes(page[at : at + size], "little")


def machine_of(dump):
    """Returns the page frames of a dump that aren't free, with their bytes."""
    zones = number(dump, 28, 4)
    at = 424 + 8 * zones
    frames = max(sum(struct.unpack_from("<2I", dump, 424 + 8 * i)) for i in range(zones))
    memory = {}
    for i in range(number(dump, at, 4)):
        record = at + 4 + 4100 * i
        memory[number(dump, record, 4)] = dump[record + 4 : record + 4100]
    table = number(dump, 16, 4)
    zero = bytes(PAGE)
    entries = [number(memory.get(table + p // 1024, zero), p % 1024 * 4, 4) for p in range(frames)]
    return {p: memory.get(p, zero) for p in range(frames) if entries[p] != FREE}


def image_of(area):
    """Returns what the area holds: `none`, the page frames of its image, or what is wrong with the image."""
    def block(b):
        return area[b * PAGE : (b + 1) * PAGE]

    if area[4086:4096] != MARK:
        return "none"
    chain, at = [], number(area, 4064)
    while at and len(chain) <= LAST:
        if at > LAST:
            return f"map {at}"
        page = block(at)
        chain += [number(page, 8 * i) for i in range(511)]
        at = number(page, 4088)
    pages = number(block(chain[0]), 424) if chain and chain[0] <= LAST else 0
    saved = number(block(chain[0]), 416) if pages else 0
    counted = -(-saved // 512)
    if not pages or pages != 1 + counted + saved or len(chain) < pages or max(chain[:pages]) > LAST or 0 in chain[:pages]:
        return "no counts"
    numbers = [number(block(b), 8 * i) for b in chain[1 : 1 + counted] for i in range(512)][:saved]
    return {p: bytes(block(b)) for p, b in zip(numbers, chain[1 + counted : pages])}


class Command:
    """A command to try: its words, its input, and the area before it."""

    def __init__(self, name, words, given, before, answer):
        self.name, self.words, self.given, self.before, self.answer = name, words, given, before, answer


def verdict(machine, area):
    """Returns `none`, `whole`, or what is torn."""
    image = image_of(area)
    if image == "none":
        return "none"
    return "whole" if image == machine else f"torn ({image if isinstance(image, str) else 'other pages'})"


def agree(bench, machine, loader, area):
    """Returns an empty text if check and resume say what the area holds, and an image is resumed exactly once; else what differs."""
    key = hashlib.sha256(area).digest()
    if key in bench.agreed:
        return bench.agreed[key]
    wrong = ""
    kind = verdict(machine, area)
    checked = bench.run([bench.machine, "check"], loader, area)
    status, out, note, after, _ = bench.run([bench.program, "resume"], loader, area)
    again = bench.run([bench.program, "resume"], loader, after)
    if kind == "none":
        if checked[:3] != (1, b"", b"no image\n") or (status, out, note) != (1, b"", b"no image\n"):
            wrong = f"no image, check {checked[:3]}, resume {status, note}"
    elif kind == "whole":
        restored = {p: machine_bytes(out, p) for p in machine} if status == 0 else None
        if checked[:3] != (0, b"resumed %d\n" % len(machine), b"") or restored != machine:
            wrong = f"an image, check {checked[:3]}, resume {status, note}"
    else:
        wrong = kind
    if not wrong and (again[0], again[2]) != (1, b"no image\n"):
        wrong = f"resumed again: {again[0], again[2]}"
    bench.agreed[key] = wrong
    return wrong


def machine_bytes(dump, p):
    """Returns page frame p of a dump, wherever its record is."""
    at = 424 + 8 * number(dump, 28, 4)
    for i in range(number(dump, at, 4)):
        record = at + 4 + 4100 * i
        if number(dump, record, 4) == p:
            return dump[record + 4 : record + 4100]
    return bytes(PAGE)


def order(bench, command, trace):
    """Checks the order of the calls on the area."""
    name, calls = command.name, [it for it in trace.on_area if it.name != "lseek"]
    moved = [it for it in calls if is_read(it) or is_write(it) or is_sync(it)]
    locks = [it for it in calls if it.name == "flock"]
    held = bool(locks) and calls.index(locks[0]) < calls.index(moved[0])
    bench.same(f"{name}: an exclusive lock that doesn't wait comes before all reads, and isn't given back", "True LOCK_EX|LOCK_NB 1",
               f"{held} {'|'.join(sorted(locks[0].words.split(', ', 1)[1].split('|'))) if locks else '-'} {len(locks)}")
    ends = [i for i, it in enumerate(trace.own) if it.name == "close" and it.on == "area"] or [len(trace.own)]
    last = max(i for i, it in enumerate(trace.own) if it.on == "output" and is_write(it))
    bench.same(f"{name}: the area is open until the output is written", True, ends[0] > last)
    writes = [i for i, it in enumerate(moved) if is_write(it)]
    syncs = [i for i, it in enumerate(moved) if is_sync(it)]
    reads = [i for i, it in enumerate(moved) if is_read(it)]
    if not name.startswith("resume"):
        first = next(i for i in writes if moved[i].at >= PAGE)
        bench.same(f"{name}: before the first page a sync of all that was there, beside that of the header block", True,
                   len([i for i in syncs if i < first]) >= 2)
    # The first block that is read is written back as it was, and synced, before any other call.
    back, read = moved[writes[0]], moved[reads[0]]
    bench.same(f"{name}: what is read first is written back", (0, True), (back.at, back.at == read.at and back.data == read.data))
    follows = moved[writes[0] + 1] if writes[0] + 1 < len(moved) else None
    bench.same(f"{name}: and is synced then", True, follows is not None and is_sync(follows) and len(back.data) == PAGE)
    bench.same(f"{name}: and nothing is read between", 1, len([i for i in reads if i < writes[0] + 2]))
    rest = moved[writes[0] + 2 :] if back.data == read.data else moved
    marks = [i for i, it in enumerate(rest) if is_write(it) and it.at < PAGE]
    pages = [i for i, it in enumerate(rest) if is_write(it) and it.at >= PAGE]
    bench.same(f"{name}: the header block is written once", 1, len(marks))
    mark = marks[0]
    if name.startswith("resume"):
        bench.same(f"{name}: no other block is written", 0, len(pages))
        bench.same(f"{name}: the next call is a sync", True, is_sync(rest[mark + 1]))
        bench.same(f"{name}: only then is an image's block read", 0, len([it for it in rest[:mark] if is_read(it) and it.at >= PAGE]))
    else:
        bench.same(f"{name}: pages and maps are written before", True, bool(pages) and max(pages) < mark)
        later = [("s" if is_sync(it) else "r" if is_read(it) else "w") + ("0" if it.at == 0 else "") for it in rest[max(pages) + 1 :]]
        bench.same(f"{name}: after them a sync, the header block read and written, a sync", "s r0 w0 s", " ".join(later))
    # All that is new in the header block is in its last sector.
    bench.same(f"{name}: the header block's first seven sectors stay", command.before[: 7 * SECTOR], rest[mark].data[: 7 * SECTOR])


def killed(bench, command, machine, loader, trace):
    """Kills the command at each call from the area's first mention on."""
    def one(call):
        status, out, _, after, _ = bench.injected(command.words, command.given, command.before, call, "signal=KILL")
        return call, status, out, after

    wrong, left, missed = [], {}, 0
    with concurrent.futures.ThreadPoolExecutor(4) as pool:
        for call, status, out, after in pool.map(one, trace.own):
            if status != -signal.SIGKILL:
                missed += 1
            kind = verdict(machine, after)
            left[kind] = left.get(kind, 0) + 1
            if len(after) != len(command.before):
                wrong.append(f"{call}: another length")
            elif kind not in ("none", "whole"):
                wrong.append(f"{call}: {kind}")
            elif kind == "none" and not command.name.startswith("resume") and after[:PAGE] != command.before[:PAGE]:
                wrong.append(f"{call}: another header block")
            elif kind == "whole" and command.name.startswith("resume") and (out or after != command.before):
                wrong.append(f"{call}: an image beside output, or other bytes")
            else:
                note = agree(bench, machine, loader, after)
                if note:
                    wrong.append(f"{call}: {note}")
    bench.same(f"{command.name}: killed at each of {len(trace.own)} calls, {left}", "", "; ".join(wrong[:5]))
    bench.same(f"{command.name}: before and after the header's write", {"none", "whole"}, set(left))
    # A call that isn't reached shows nothing (the loader or a sanitizer maps memory as it likes), but most calls are reached.
    bench.same(f"{command.name}: nearly all were reached", True, missed * 10 <= len(trace.own))


def failed(bench, command, machine, loader, trace):
    """Fails each call that works on a file."""
    calls = [it for it in trace.own if it.on and it.name != "close"]
    calls += [it for it in trace.own if it.on is None and it.name in ("openat", "statx")]
    first_read = next(it for it in trace.on_area if is_read(it))
    moved = [it for it in trace.on_area if is_read(it) or is_write(it) or is_sync(it)]
    writes = [it for it in moved if is_write(it)]
    back = [writes[0], moved[moved.index(writes[0]) + 1]] if writes[0].data == first_read.data else []

    def wanted(call):
        if call.on == "input":
            return 4, "source fault"
        if call.on == "output":
            # The output is looked at before the area is opened, since it may not be the area.
            early = call.name in LOOKS and trace.own.index(call) < trace.own.index(trace.on_area[0])
            return (7, "open fault") if early else (4, "sink fault")
        if call.on in ("path", None) or call.name in LOOKS or call.name == "flock" or "SEEK_END" in call.words:
            return 7, "open fault"
        if call in back:
            return 5, "read fault same"
        word = "sync" if is_sync(call) else "write" if is_write(call) else "read"
        if call.name == "lseek":
            later = trace.on_area[trace.on_area.index(call) + 1]
            word = "write" if is_write(later) else "read"
        return 5, rf"{word} fault (same|gone|unsure)"

    def one(call):
        return call, bench.injected(command.words, command.given, command.before, call, "error=EIO")

    wrong, seen = [], {}
    with concurrent.futures.ThreadPoolExecutor(4) as pool:
        for call, (status, _, note, after, _) in pool.map(one, calls):
            note = note.decode("latin-1").strip()
            code, shape = wanted(call)
            # Files that are only looked at (other files of the system, whether the output is a terminal) needn't be there.
            if status == 0 and (call.on is None or call.on == "output" and call.name in LOOKS):
                continue
            if status != code or not re.fullmatch(shape, note):
                wrong.append(f"{call} on the {call.on}: status {status}, note {note}, wanted {code}, {shape}")
            kind = verdict(machine, after)
            seen[note] = seen.get(note, 0) + 1
            if kind not in ("none", "whole"):
                wrong.append(f"{call}: {kind}")
            if note.endswith(" same") and after[:PAGE] != command.before[:PAGE]:
                wrong.append(f"{call}: {note}, and another header block")
            if note.endswith(" gone") and kind != "none":
                wrong.append(f"{call}: {note}, and an image")
            if (call in back or status in (3, 7)) and after != command.before:
                wrong.append(f"{call}: {note}, and other bytes")
            difference = agree(bench, machine, loader, after)
            if difference:
                wrong.append(f"{call}: {difference}")
    bench.same(f"{command.name}: each of {len(calls)} calls failed, {seen}", "", "; ".join(wrong[:5]))


def interrupted(bench, command, trace, whole):
    """Interrupts each read and each write once, from the area's first mention on; the outcome is as without interruptions."""
    under = ["strace", "-qq", "-o", "FOLDER/ended"]
    names = sorted({it.name for it in trace.own if it.name in ("read", "write", "pread64", "pwrite64")})
    for name in names:
        first = next(it.nth for it in trace.own if it.name == name)
        result = bench.run(command.words, command.given, command.before,
                           [*under, "-e", f"trace={name}", "-e", f"inject={name}:error=EINTR:when={first}+2"])
        bench.same(f"{command.name}: each {name} interrupted once", (whole[0], whole[2], True, True),
                   (result[0], result[2], whole[1] == result[1], whole[3] == result[3]))


def cuts(before, calls, dice, few=256, many=48):
    """Yields the states that a power cut may leave, at each point between the calls: the synced writes, and any of the others, or some of
    their sectors."""
    synced, waiting = bytearray(before), []
    for call in [None, *calls]:
        if call is not None and is_sync(call):
            for at, piece in waiting:
                synced[at : at + len(piece)] = piece
            waiting = []
        elif call is not None:
            waiting.append((call.at, call.data))
        if 2 ** len(waiting) <= few:
            picks = list(itertools.product([0, 1], repeat=len(waiting)))
        else:
            picks = [[dice.randrange(2) for _ in waiting] for _ in range(many)] + [[1] * len(waiting)]
        for pick in picks:
            state = bytearray(synced)
            for (at, piece), taken in zip(waiting, pick):
                if taken:
                    state[at : at + len(piece)] = piece
            yield state
        for _ in range(16 if waiting else 0):
            state = bytearray(synced)
            for at, piece in waiting:
                for s in range(0, len(piece), SECTOR):
                    if dice.randrange(2):
                        state[at + s : at + s + SECTOR] = piece[s : s + SECTOR]
            yield state


def power_cuts(bench, command, machine, loader, trace, dice):
    calls = [it for it in trace.on_area if is_write(it) or is_sync(it)]
    found, torn, samples = {}, [], []
    for state in cuts(command.before, calls, dice):
        kind = verdict(machine, state)
        found[kind] = found.get(kind, 0) + 1
        if kind not in ("none", "whole"):
            torn.append(kind)
        samples.append(bytes(state)) if len(samples) < 3 or dice.random() < 0.02 else None
    bench.same(f"{command.name}: power cuts, {found}", [], torn[:3])
    bench.same(f"{command.name}: some with an image, some without", {"none", "whole"}, set(found))
    picked = dice.sample(samples, min(6, len(samples)))
    notes = [agree(bench, machine, loader, it) for it in picked]
    bench.same(f"{command.name}: check and resume say so of {len(picked)} of them", "", "; ".join(filter(None, notes)))
    # Without the sync before the header's write there are torn images; else this test would find none at all.
    if not command.name.startswith("resume"):
        mark = max(i for i, it in enumerate(calls) if is_write(it) and it.at < PAGE)
        last = max(i for i in range(mark) if is_sync(calls[i]))
        loose = calls[:last] + calls[last + 1 :]
        torn = [kind for kind in (verdict(machine, it) for it in cuts(command.before, loose, dice)) if kind not in ("none", "whole")]
        bench.same(f"{command.name}: without the sync before the mark some are torn", True, bool(torn))


def outputs(bench, command, trace, given):
    """Output that is a regular file is synced after its last write; if that sync fails, the status is 4."""
    synced = [i for i, it in enumerate(trace.own if given is not None else trace.calls) if is_sync(it) and it.on == "output"]
    written = [i for i, it in enumerate(trace.own if given is not None else trace.calls) if is_write(it) and it.on == "output"]
    bench.same(f"{command.name}: the output is synced once, after its last write", (1, True),
               (len(synced), bool(synced) and synced[0] > max(written)))


def lockless(bench, command, trace, whole):
    """On a file system without locks, a command does what it does on one with them."""
    locks = [it for it in trace.on_area if it.name == "flock"]
    for error in ("ENOLCK", "EOPNOTSUPP") if locks else ():
        result = bench.injected(command.words, command.given, command.before, locks[0], f"error={error}")
        bench.same(f"{command.name}: a file system without locks ({error})", (whole[:4]), (result[:4]))


def foreign(bench, loader, saved, stream):
    """A file that is no swap area is only read."""
    for name, tail in [("no signature", bytes(10)), ("another signature", b"SWAPSPACE3"), ("a signature that is cut off", b"\0SWAPSPACE")]:
        area = bytes(4086) + tail + bytes(PAGE * LAST)
        for words, given in [(["hibernate"], saved), (["resume"], loader), (["import"], stream)]:
            status, _, _, after, trace = bench.traced([bench.program, *words], given, area)
            writes = len([it for it in trace.on_area if is_write(it)])
            bench.same(f"{words[0]} over {name}", (1, 0, True), (status, writes, area == after))
    for name, tail in [("a version 0 area", b"SWAP-SPACE"), ("an area without slots", b"SWAPSPACE2")]:
        area = bytes(4086) + tail + bytes(PAGE * LAST)
        for words, given in [(["hibernate"], saved), (["resume"], loader), (["import"], stream)]:
            status, _, _, after, trace = bench.traced([bench.program, *words], given, area)
            moved = [it for it in trace.on_area if is_read(it) or is_write(it) or is_sync(it)]
            writes = [i for i, it in enumerate(moved) if is_write(it)]
            told = [(moved[i].at, moved[i].data == area[:PAGE], i + 1 < len(moved) and is_sync(moved[i + 1])) for i in writes]
            bench.same(f"{words[0]} over {name}", (1, [(0, True, True)], True), (status, told, area == after))


def main(program=TOP / "crates/swsusp/out/swsusp", machine=TOP / "crates/swsusp_machine/out/swsusp_machine", seed="1"):
    for it in (program, machine):
        if not os.access(it, os.X_OK):
            print(f"{it} isn't built: rt run in its crate builds it")
            return 1
    if not shutil.which("strace") or subprocess.run(["strace", "-qq", "-o", "/dev/null", "true"], stderr=subprocess.DEVNULL).returncode:
        print("skipped: no strace that may trace")
        return 0
    room = pathlib.Path(tempfile.mkdtemp(prefix="swsusp-crash-"))
    # A signal ends the script by an exception, so the folder is removed.
    for number_of in (signal.SIGTERM, signal.SIGHUP):
        signal.signal(number_of, lambda *_: sys.exit(1))
    try:
        return tried(Bench(str(program), str(machine), room), random.Random(seed))
    except BrokenPipeError:
        os.dup2(os.open(os.devnull, os.O_WRONLY), 1)
        return 1
    finally:
        shutil.rmtree(room, ignore_errors=True)


def tried(bench, dice):
    def made(*words):
        return subprocess.run([sys.executable, TOP / "tools/make_dump.py", *words], capture_output=True, check=True).stdout

    saved, loader = made("saved"), made("loader")
    subprocess.run(["sh", TOP / "tools/make_area.sh", bench.room / "empty", str(LAST)], check=True)
    empty = (bench.room / "empty").read_bytes()
    machine = machine_of(saved)
    image = bench.run([bench.program, "hibernate"], saved, empty)[3]
    bench.same("the image of a hibernation is its machine", "whole", verdict(machine, image))
    stream = bench.run([bench.program, "export"], saved)[1]
    commands = [
        Command("hibernate", [bench.program, "hibernate"], saved, empty, b"hibernated 5\n"),
        Command("import", [bench.program, "import"], stream, empty, b"imported 5\n"),
        Command("resume", [bench.program, "resume"], loader, image, None),
    ]
    for command in commands:
        whole = bench.traced(command.words, command.given, command.before)
        trace = whole[4]
        bench.same(f"{command.name}, traced", (0, command.answer or whole[1], b""), whole[:3])
        order(bench, command, trace)
        if command.answer is None:
            outputs(bench, command, trace, True)
        interrupted(bench, command, trace, whole)
        power_cuts(bench, command, machine, loader, trace, dice)
        killed(bench, command, machine, loader, trace)
        failed(bench, command, machine, loader, trace)
        lockless(bench, command, trace, whole)
    foreign(bench, loader, saved, stream)
    # An export has no area; here its output is a regular file.
    export = Command("export", [bench.program, "export"], saved, None, None)
    status, out, note, _, trace = bench.traced(export.words, export.given)
    bench.same("export, traced", (0, stream, b""), (status, out, note))
    outputs(bench, export, trace, None)
    synced = [it for it in trace.calls if is_sync(it)]
    if synced:
        failing = bench.injected(export.words, export.given, None, synced[-1], "error=EIO")
        bench.same("export whose sync fails", (4, b"sink fault\n"), (failing[0], failing[2]))
    print(f"{bench.passed} passed, {bench.failed} failed")
    return 1 if bench.failed else 0


if __name__ == "__main__":
    sys.exit(main(*sys.argv[1:4]))
