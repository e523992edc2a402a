#!/bin/sh
# embed_test.sh [LIBRARY [SWSUSP [SWSUSP_IMAGE]]]: resumes images by examples/boot.c over the static library LIBRARY (by default the one that
# `rt lib` left in crates/swsusp_c/out), from an area that the program SWSUSP hibernated into. Compares each page with the image's bytes, breaks the
# resume off before each call and boots again, fails each call in turn, and does so under valgrind and the sanitizers too, if they are installed.
# Checks these images and damaged copies of them by examples/check.c, and compares what that prints with what the program SWSUSP_IMAGE prints.
# tests/border.c tries wrong arguments, an area's facts and the end of an image, tests/stack.c how much stack a call takes. The library may call
# nothing but memcpy and its like, and must have less than 100 KiB of text.
set -eu
top=$(cd "$(dirname "$0")/.." && pwd)
library=${1:-$top/crates/swsusp_c/out/libswsusp_c.a}
swsusp=${2:-$top/crates/swsusp/out/swsusp}
[ -f "$library" ] || { echo "embed_test.sh: no library at $library" >&2; exit 1; }
if [ ! -x "$swsusp" ]; then
    swsusp=$top/out/unproved/swsusp
    [ -x "$swsusp" ] || sh "$top/tools/unproved.sh" swsusp "$swsusp"
fi
swsusp_image=${3:-$top/crates/swsusp_image/out/swsusp_image}
if [ ! -x "$swsusp_image" ]; then
    swsusp_image=$top/out/unproved/swsusp_image
    [ -x "$swsusp_image" ] || sh "$top/tools/unproved.sh" swsusp_image "$swsusp_image"
fi
room=$(mktemp -d)
trap 'trap "" PIPE HUP INT TERM; rm -rf "$room"' EXIT
trap 'exit 1' PIPE HUP INT TERM
cc=${CC:-cc}
flags="-Wall -Wextra -Werror -std=c11 -I$top/include"

sanitizers="-g -fsanitize=address,undefined -fno-sanitize-recover=all"
for program in boot check; do
    # shellcheck disable=SC2086
    $cc $flags -O2 -o "$room/$program" "$top/examples/$program.c" "$library"
    # shellcheck disable=SC2086
    $cc $flags $sanitizers -o "$room/checked_$program" "$top/examples/$program.c" "$library" 2> "$room/log" || rm -f "$room/checked_$program"
done
[ -x "$room/checked_boot" ] || echo "embed_test.sh: no sanitizers" >&2
valgrind=$(command -v valgrind || true)
# shellcheck disable=SC2086
$cc $flags -O2 -o "$room/border" "$top/tests/border.c" "$library"

# A small image of 5 saved page frames, and one of 1,268 with three maps and three number pages.
sh "$top/tools/make_area.sh" "$room/small" 1599
python3 "$top/tools/make_dump.py" saved | "$swsusp" hibernate "$room/small"
sh "$top/tools/make_area.sh" "$room/large" 3999
python3 "$top/tools/make_dump.py" saved 1200 4000 | "$swsusp" hibernate "$room/large"
sh "$top/tools/make_area.sh" "$room/zeros" 1599
python3 "$top/tools/make_dump.py" saved | "$swsusp" hibernate --skip-zeros "$room/zeros"

# The sizes that docs/EMBEDDING.md gives.
# shellcheck disable=SC2086
$cc $flags -O2 -o "$room/stack" "$top/tests/stack.c" "$library"
"$room/stack" "$room/small" 2048
size "$library" | awk 'NR > 1 { text += $1 } END { print "text", text; exit text >= 102400 }'
cp "$room/small" "$room/given_up"
"$room/border" "$room/given_up"
if nm -u "$library" 2> /dev/null | grep -E '^ +U ' | grep -vE ' (memcpy|memmove|memset|memcmp)$'; then
    echo "embed_test.sh: the library calls more than memcpy and its like" >&2
    exit 1
fi

SWSUSP_IMAGE=$swsusp_image VALGRIND=$valgrind python3 - "$room" <<'EOF'
import os
import random
import shutil
import struct
import subprocess
import sys

ROOM = sys.argv[1]
BOOT = [os.path.join(ROOM, "boot")]
CHECK = [os.path.join(ROOM, "check")]
# The commands that start both programs under the sanitizers and under valgrind.
WATCHED = {}
if os.path.exists(os.path.join(ROOM, "checked_boot")):
    WATCHED["sanitizers"] = [os.path.join(ROOM, "checked_boot")], [os.path.join(ROOM, "checked_check")]
if os.environ["VALGRIND"]:
    VALGRIND = [os.environ["VALGRIND"], "-q", "--error-exitcode=99"]
    WATCHED["valgrind"] = VALGRIND + BOOT, VALGRIND + CHECK
PAGE = 4096
DONE, REFUSED, FAILED = 5, 6, 7
NO_IMAGE, NO_CHAIN, BAD_BLOCK, MEMORY_SIZE = 1, 4, 5, 9
# The places of `image` in struct swsusp_header, and of `num_physpages` in struct swsusp_info.
MARK, COUNTS = 4064, 400
SKIPS_ZEROS = 256
SAME, UNSURE, GONE = 1, 2, 3


def chain(blocks):
    """The blocks of the maps, and those that their entries name, in order."""
    maps, pages, at = [], [], struct.unpack_from("<Q", blocks, MARK)[0]
    while at:
        words = struct.unpack_from("<512Q", blocks, PAGE * at)
        maps.append(at)
        pages += [word for word in words[:511] if word]
        at = words[511]
    return maps, pages


def image(name):
    """The page frames of the image and their pages, by the format (docs/FORMATS.md), and the machine's number of page frames."""
    with open(os.path.join(ROOM, name), "rb") as file:
        blocks = file.read()

    def block(number):
        return blocks[PAGE * number : PAGE * (number + 1)]

    def words(page):
        return struct.unpack("<512Q", page)

    head = block(0)
    assert head[4086:] == b"S1SUSPEND\0"
    flags = struct.unpack_from("<I", head, MARK + 8)[0]
    stream = [block(number) for number in chain(blocks)[1]]
    physpages, _, saved, pages = struct.unpack_from("<4Q", stream[0], COUNTS)
    assert pages == len(stream)
    numbers = -(-saved // 512)
    frames = [number for page in stream[1 : 1 + numbers] for number in words(page)][:saved]
    data = iter(stream[1 + numbers :])
    placed = {}
    for number in frames:
        zero = flags & SKIPS_ZEROS and number >> 63
        placed[number % 2**63] = bytes(PAGE) if zero else next(data)
    assert next(data, None) is None
    return placed, physpages


def boot(name, *words, by=BOOT, frames=None):
    """Boots from a copy: how it ended, and the memory."""
    memory = os.path.join(ROOM, "memory")
    ran = subprocess.run(
        by + [os.path.join(ROOM, name), memory, str(frames)] + [str(word) for word in words],
        stdout=subprocess.PIPE, stderr=subprocess.PIPE, text=True,
    )
    assert ran.stderr == "", ran.stderr
    told = ran.stdout.split()
    end = tuple(int(told[i]) for i in (0, 3, 5, 7, 9))
    with open(memory, "rb") as file:
        return ran.returncode, end, file.read()


def fresh(name):
    shutil.copyfile(os.path.join(ROOM, name), os.path.join(ROOM, "area"))


def whole(name, by=BOOT):
    """One boot gets each page, and the next one none: how many calls the first made."""
    placed, frames = image(name)
    expected = bytearray(frames * PAGE)
    for number, page in placed.items():
        expected[number * PAGE : (number + 1) * PAGE] = page
    fresh(name)
    status, end, memory = boot("area", frames=frames, by=by)
    assert (status, end[1:]) == (0, (DONE, 0, len(placed), 0)), (name, status, end)
    assert memory == expected, name
    status, end, memory = boot("area", frames=frames, by=by)
    assert (status, end[1:]) == (1, (REFUSED, NO_IMAGE, 0, 0)), (name, status, end)
    assert memory == bytes(frames * PAGE), name
    return boot_calls(name, frames), frames, bytes(expected)


def boot_calls(name, frames):
    fresh(name)
    return boot("area", frames=frames)[1][0]


def broken_off(name, by, steps):
    """Broken off before each call: the next boot resumes all of it, or finds no image, and then alone the first one may have pages."""
    calls, frames, expected = whole(name)
    for stop in range(0, calls, steps):
        fresh(name)
        status, end, memory = boot("area", 2**63, stop, frames=frames, by=by)
        assert status == 3, (name, stop, status, end)
        status, end, again = boot("area", frames=frames, by=by)
        if stop < 3:
            assert memory == bytes(len(memory)), (name, stop)
            assert (status, again) == (0, expected), (name, stop, end)
        else:
            assert (status, end[1:3]) == (1, (REFUSED, NO_IMAGE)), (name, stop, end)
            assert again == bytes(len(again)), (name, stop)
    return calls


def failed(name, by, steps):
    """Each call fails in turn: what is told to be left is left."""
    calls, frames, expected = whole(name)
    for fail in range(0, calls, steps):
        fresh(name)
        status, end, memory = boot("area", fail, frames=frames, by=by)
        left = SAME if fail < 2 else UNSURE if fail < 4 else GONE
        assert (status, end[0], end[1], end[3]) == (1, fail + 1, FAILED, left), (name, fail, status, end)
        status, end, again = boot("area", frames=frames, by=by)
        if fail < 3:
            assert (status, again) == (0, expected), (name, fail, end)
        else:
            assert (status, end[1:3]) == (1, (REFUSED, NO_IMAGE)), (name, fail, end)


def damaged(name):
    """Another machine's image, and a header that names no map or a block that isn't there."""
    frames = image(name)[1]
    fresh(name)
    status, end, memory = boot("area", frames=frames - 1)
    assert (status, end[1:]) == (1, (REFUSED, MEMORY_SIZE, frames, frames - 1)), end
    for first, cause in ((0, (NO_CHAIN, 0, 0)), (10**6, (BAD_BLOCK, 10**6, 0))):
        fresh(name)
        with open(os.path.join(ROOM, "area"), "r+b") as file:
            file.seek(MARK)
            file.write(struct.pack("<Q", first))
        status, end, memory = boot("area", frames=frames)
        assert (status, end[1:]) == (1, (REFUSED,) + cause), (cause, end)
        assert memory == bytes(len(memory))


def check(name, *words, by=CHECK):
    """What check.c prints of an area."""
    ran = subprocess.run(
        by + [os.path.join(ROOM, name)] + [str(word) for word in words],
        stdout=subprocess.PIPE, stderr=subprocess.PIPE, text=True,
    )
    assert ran.stderr == "", ran.stderr
    return ran.returncode, ran.stdout


def same_findings(name, by=CHECK):
    """check.c finds what `swsusp_image check` does: the lines, but for the last one, which has their number."""
    ran = subprocess.run(
        [os.environ["SWSUSP_IMAGE"], "check", os.path.join(ROOM, name)],
        stdout=subprocess.PIPE, stderr=subprocess.PIPE, text=True,
    )
    assert ran.stderr == "" and ran.returncode in (0, 1), ran
    lines = ran.stdout.splitlines(True)
    found = [] if lines[-1] == "whole\n" else lines if lines[-1] == "no image\n" else lines[:-1]
    assert (ran.returncode == 0) == (found == []), ran.stdout
    status, text = check(name, by=by)
    assert (status, text) == (int(found != []), "".join(found)), (name, ran.stdout, text)
    return found


def edited(name, edits):
    """A copy with other numbers of 8 bytes at these offsets."""
    with open(os.path.join(ROOM, name), "rb") as file:
        blocks = bytearray(file.read())
    for at, number in edits:
        struct.pack_into("<Q", blocks, at, number)
    with open(os.path.join(ROOM, "area"), "wb") as file:
        file.write(blocks)
    return blocks


def is_compressed(blocks):
    """Whether the header is marked without SF_NOCOMPRESS_MODE: then check.c reads no more than the header block."""
    return blocks[4086:4096] == b"S1SUSPEND\0" and not struct.unpack_from("<I", blocks, MARK + 8)[0] & 2


def damage(name, rounds, by=CHECK):
    """Random numbers at random places: how many findings there were."""
    draw = random.Random(name)
    maps, pages = chain(edited(name, []))
    numbers = [0, 1, 2**52, 2**63, 2**64 - 1] + maps + pages[:6]

    def edit():
        block = draw.choice([0] + maps + pages[:6])
        word = draw.choice((draw.randrange(16), draw.randrange(512), 511))
        within = draw.choice((MARK, MARK + 8, 4076, 1024, 1028)) if block == 0 else 8 * word
        return PAGE * block + within, draw.choice(numbers + [draw.randrange(5000), draw.getrandbits(64)])

    total = 0
    for _ in range(rounds):
        if is_compressed(edited(name, [edit() for _ in range(draw.randrange(1, 5))])):
            status, text = check("area", by=by)
            assert status == 1 and text.endswith(", a compressed image, which can't be read yet\n"), text
            total += len(text.splitlines())
        else:
            total += len(same_findings("area", by))
    return total


def most_at_once():
    """A number page whose every word is wrong, before the rest of a map that names no block of the disk."""
    maps, pages = chain(edited("large", []))
    edits = [(PAGE * pages[2] + 8 * i, 2**64 - 1 - i) for i in range(512)]
    edits += [(PAGE * maps[0] + 8 * i, 10**6 + i) for i in range(3, 511)]
    edited("large", edits)
    found = same_findings("area")
    assert len(found) > 1000, len(found)
    return len(found)


def unread(name, by, steps):
    """Each read fails in turn, and is a finding with its block; broken off before each, what was printed is a front of all."""
    (at,), pages = chain(edited(name, []))
    edited(name, [(PAGE * at + 8 * 5, 10**6)])
    everything = check("area")[1]
    assert everything.endswith("block 1000000 is beyond the file\n"), everything
    reads = [0, at] + pages[:5] + pages[6:]
    for fail in range(0, len(reads) + 1, steps):
        status, text = check("area", fail, by=by)
        found = [line for line in text.splitlines() if line.endswith("can't be read")]
        assert status == 1 and len(found) == len(reads[fail : fail + 1]), (fail, text)
        for line, block in zip(found, reads[fail:]):
            assert "block %d%s can't" % (block, ":" if fail == 0 else "") in line, (fail, text)
        status, text = check("area", 2**63, fail, by=by)
        assert status == (3 if fail < len(reads) else 1) and everything.startswith(text), (fail, text)
    return len(reads)


for area in ("small", "large", "zeros"):
    whole(area)
    damaged(area)
for area in ("small", "large", "zeros"):
    fresh(area)
    assert same_findings("area") == [], area
    print("%s: %d findings in damaged copies" % (area, damage(area, 100)))
for area in ("small", "zeros"):
    print("%s: each of %d reads fails" % (area, unread(area, CHECK, 1)))
print("large: %d findings, most of them at once" % most_at_once())
for area in ("small", "zeros"):
    calls = broken_off(area, BOOT, 1)
    failed(area, BOOT, 1)
    print("%s: %d calls" % (area, calls))
for what, (boots, checks) in WATCHED.items():
    whole("small", boots)
    whole("zeros", boots)
    broken_off("small", boots, 5)
    failed("small", boots, 5)
    unread("small", checks, 5)
    damage("large", 5, checks)
    print(what)
EOF
echo "embed_test.sh: passed"
