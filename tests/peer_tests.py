"""The programs beside a peer: tools/bench.c, a C program that hibernates, resumes, exports, imports and plays a script's cycle by
docs/FORMATS.md and docs/MACHINE.md. What both leave of the same input must be the same, byte for byte. Without a cc nothing is compared.
"""
import pathlib
import shutil
import subprocess
import tempfile

from harness import Mismatch, check_same, run
from inputs import EXAMPLE, SCRIPTED, Machine, area

PEER = pathlib.Path(__file__).resolve().parent.parent / "tools" / "bench.c"

# Machines with their last slot and further page frames in use: images of one map, of two, of one that is exactly full, of two number pages.
CASES = [(EXAMPLE, 1599, ()), (EXAMPLE, 1599, range(100, 605)), (EXAMPLE, 1599, range(100, 604)), (SCRIPTED, 3000, range(500, 1010)),
         (SCRIPTED, 3000, range(7, 10)), (Machine(hw_sig=7), 1599, range(20, 700, 3))]


class Peer:
    def __init__(self, room):
        self.program = pathlib.Path(room) / "peer"
        made = subprocess.run(["cc", "-O1", "-Wall", "-Wextra", "-Werror", "-std=c11", "-D_DEFAULT_SOURCE", "-o", self.program, PEER])
        if made.returncode != 0:
            raise Mismatch("cc refuses tools/bench.c")

    def run(self, *words, stdin):
        ran = subprocess.run([self.program, *map(str, words)], input=stdin, capture_output=True)
        return ran.returncode, ran.stdout, ran.stderr.decode()


def check_alike(peer, machine, last, used):
    saved, loader = machine.saved(cached=used), machine.loader(1000)
    stream = run("swsusp", "export", stdin=saved)
    check_same("an export", peer.run("export", stdin=saved), stream)
    with area(last) as own, area(last) as other:
        check_same("a hibernation", peer.run("hibernate", other.path, stdin=saved), run("swsusp", "hibernate", own.path, stdin=saved))
        check_same("the area", other.bytes(), own.bytes())
        restored = run("swsusp", "resume", own.path, stdin=loader)
        check_same("a resume", peer.run("resume", other.path, stdin=loader), restored)
        check_same("the area after it", other.bytes(), own.bytes())
    with area(last) as own, area(last) as other:
        check_same("an import", peer.run("import", other.path, stdin=stream[1]), run("swsusp", "import", own.path, stdin=stream[1]))
        check_same("the area", other.bytes(), own.bytes())


# A script's cycle of so many page frames, beside the seven of the tables: images of one map, of one that is exactly full, of several.
CYCLES = [0, 1, 502, 503, 505, 1017, 1500]


def check_cycle(peer, frames):
    saved = frames + 7
    pages = saved + -(-saved // 512) + 1
    lines = ["boot", "steps core 2", *(f"claim 1 {16 + k}" for k in range(frames)), "hibernate", f"steps core {pages + pages // 511 + 5}",
             "resume", f"steps core {4 + -(-pages // 511) + pages}"]
    script = "".join(f"{line}\n" for line in lines).encode()
    check_same(f"a cycle of {frames} page frames", peer.run("cycle", frames, stdin=b""), run("swsusp", "replay", stdin=script))


def test_a_peer_in_c_leaves_the_same():
    if not shutil.which("cc"):
        return
    with tempfile.TemporaryDirectory() as room:
        peer = Peer(room)
        for machine, last, used in CASES:
            check_alike(peer, machine, last, used)
        for frames in CYCLES:
            check_cycle(peer, frames)
