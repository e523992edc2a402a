"""What `swsusp_image show` and `check` print of images that `swsusp hibernate` writes, of the worked examples: the texts are
written by hand from docs/FORMATS.md, the blocks by the order in which slots are taken.
"""
import shutil
import subprocess
import tempfile

from harness import check, check_same, run
from image_tests import Built, ran_over
from inputs import EXAMPLE, OVER_FILE, PAGE, SCRIPTED, Machine, area, disk, header

NAMES = ["header generic", "sysname Linux", "nodename machine", "release 6.1.0", "version #1", "machine plain", "domainname (none)"]
KERNEL = ["version_code 393472", "kernel 6.1.0"]
NO_UUID = "uuid 00000000-0000-0000-0000-000000000000"


def front(blocks, last_page, first_map, flags, *flag_names, hw_sig=0):
    """Returns what `show` prints of a header block and of the names."""
    mark = [f"first_map {first_map}", f"flags {flags}", *(f"flag {name}" for name in flag_names), f"hw_sig {hw_sig}", "crc32 0"]
    return [f"blocks {blocks}", "image yes", "area swap", f"last_page {last_page}", "bad_pages 0", NO_UUID, *mark, *NAMES, *KERNEL]


def check_image(file, machine, lines, *words, options=(), saved=()):
    """A machine hibernates on the file. Checks that exactly these lines are shown of the image, and that it is whole."""
    count = next(int(line.split()[1]) for line in lines if line.startswith("image_pages"))
    dump = machine.saved(cached=saved)
    check(run("swsusp", "hibernate", *words, file.path, stdin=dump), 0, f"hibernated {count}\n".encode())
    check(run("swsusp_image", "show", *options, file.path), 0, "".join(f"{line}\n" for line in lines).encode())
    check(run("swsusp_image", "check", *options, file.path), 0, b"whole\n")


def test_first_image():
    tail = ["memory_pages 4096", "image_pages 8", "stream_pages 10", "block_run 1 11", "maps 1", "frame_run 0 7", "frame_run 10 1"]
    with area(3000) as file:
        check_image(file, SCRIPTED, [*front(3001, 3000, 1, 2, "nocompress"), *tail])


TAIL = ["memory_pages 2048", "image_pages 5", "stream_pages 7"]
FRAMES = ["maps 1", "frame_run 0 4", "frame_run 10 1"]


def test_dump_to_dump():
    with area() as file:
        check_image(file, EXAMPLE, [*front(1600, 1599, 1, 2, "nocompress"), *TAIL, "block_run 1 8", *FRAMES])


def test_swap_file():
    with disk(1699, header(1599), 50) as file:
        lines = [*front(1699, 1599, 100, 2, "nocompress"), *TAIL, "block_run 100 8", *FRAMES]
        check_image(file, OVER_FILE, lines, options=("--offset", "50"))


def test_hardware_signature():
    with area() as file:
        lines = [*front(1600, 1599, 1, 10, "nocompress", "hw_sig", hw_sig=7), *TAIL, "block_run 1 8", *FRAMES]
        check_image(file, Machine(hw_sig=7), lines)


def test_zeros():
    # Page frames 5 and 6 are zero, and have no data page.
    tail = ["memory_pages 4096", "image_pages 8", "stream_pages 8", "block_run 1 9", "maps 1", "frame_run 0 7", "frame_run 10 1"]
    with area(3000) as file:
        check_image(file, SCRIPTED, [*front(3001, 3000, 1, 258, "nocompress", "zeros_skipped"), *tail], "--skip-zeros")


def test_two_maps():
    # 510 saved pages, a number page and the info page: 511 in the first map, and one in the second, which is block 513.
    tail = ["memory_pages 2048", "image_pages 510", "stream_pages 512", "block_run 1 514", "maps 2"]
    frames = ["frame_run 0 4", "frame_run 10 1", "frame_run 100 505"]
    with area() as file:
        check_image(file, EXAMPLE, [*front(1600, 1599, 1, 2, "nocompress"), *tail, *frames], saved=range(100, 605))


def test_a_kernels_banner_is_found_in_a_core_file():
    banner = b"Linux version 6.1.0-52-amd64 (debian-kernel@lists.debian.org) (gcc-12 (Debian 12.2.0-14) 12.2.0) #1 SMP\n\0"
    built = Built(8)
    built.put(built.places[4], 100, banner)
    ran, _, _ = ran_over(built, "core")
    check_same("the status", ran[0], 0)
    check_same("how often it is there", ran[1].count(banner), 1)
    if not shutil.which("strings"):
        return
    with tempfile.NamedTemporaryFile() as file:
        file.write(ran[1])
        file.flush()
        told = subprocess.run(["strings", "-t", "d", file.name], capture_output=True, text=True).stdout
        found = [line.split(None, 1) for line in told.splitlines() if "Linux version" in line]
        # The note and the headers take the first page, and page frame 2 is the third of the pages after it.
        check_same("what strings finds", found, [[str(3 * PAGE + 100), banner[:-2].decode()]])
