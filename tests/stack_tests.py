"""Each command runs within the stack that README's limits say."""
import pathlib
import resource
import subprocess
import tempfile

from compressed import twin
from harness import Mismatch, programs
from image_tests import Built
from inputs import Machine, area

KIB = 1024
STACK = 256 * KIB
# `show`, `core` and `differ` keep lists of facts in their frames, each with room for 630 bad pages.
SHOW_STACK = 512 * KIB
CORE_STACK = 896 * KIB
DIFFER_STACK = 1024 * KIB
# The commands that write dumps keep what an image says of its area, with its bad pages, in several frames.
DUMP_STACK = 512 * KIB
# The disk that expands a compressed image keeps its header block and its info page in its frame.
COMPRESSED_STACK = 384 * KIB
SCRIPT = (pathlib.Path(__file__).resolve().parent.parent / "examples" / "machine.txt").read_bytes()


def within(*words, stdin=b"", stack=STACK):
    """Runs a command with `stack` bytes of stack, and checks that it ends with status 0. Returns its output."""
    limit = lambda: resource.setrlimit(resource.RLIMIT_STACK, (stack, stack))
    words = [programs[words[0]], *map(str, words[1:])]
    ran = subprocess.run(words, input=stdin, capture_output=True, preexec_fn=limit, timeout=120, check=False)
    if ran.returncode != 0:
        raise Mismatch(f"{words[1]} ended with {ran.returncode} and {ran.stderr.decode()!r}")
    return ran.stdout


def test_each_command_runs_in_its_stack():
    machine = Machine()
    saved, loader = machine.saved(), machine.loader(1000)
    with tempfile.NamedTemporaryFile() as compressed:
        twin(Built(40)).write(compressed.name)
        within("swsusp_image", "check", compressed.name)
        within("swsusp_image", "show", compressed.name, stack=SHOW_STACK)
        within("swsusp_image", "stream", compressed.name, stack=COMPRESSED_STACK)
        within("swsusp_image", "page", compressed.name, 0, stack=COMPRESSED_STACK)
        within("swsusp_image", "core", compressed.name, stack=CORE_STACK)
        within("swsusp_image", "loader", compressed.name, stack=DUMP_STACK)
        within("swsusp_image", "machine", compressed.name, stack=DUMP_STACK)
        within("swsusp_image", "differ", compressed.name, compressed.name, stack=DIFFER_STACK)
    with area() as swap, tempfile.NamedTemporaryFile() as dump:
        dump.write(saved)
        dump.flush()
        within("swsusp", "inspect", swap.path)
        within("swsusp", "hibernate", swap.path, stdin=saved)
        within("swsusp_machine", "check", swap.path, stdin=loader)
        within("swsusp_machine", "check", "--any-kernel", swap.path, stdin=loader)
        within("swsusp_image", "check", swap.path)
        within("swsusp_image", "show", swap.path, stack=SHOW_STACK)
        within("swsusp_image", "stream", swap.path)
        within("swsusp_image", "page", swap.path, 0)
        within("swsusp_image", "loader", swap.path, stack=DUMP_STACK)
        within("swsusp_image", "machine", swap.path, stack=DUMP_STACK)
        within("swsusp_image", "core", swap.path, stack=CORE_STACK)
        within("swsusp_image", "differ", swap.path, swap.path, stack=DIFFER_STACK)
        within("swsusp", "resume", swap.path, stdin=loader)
        within("swsusp", "import", swap.path, stdin=within("swsusp", "export", stdin=saved))
        within("swsusp_image", "discard", swap.path)
        within("swsusp", "hibernate", "--skip-zeros", swap.path, stdin=saved)
        within("swsusp_image", "stream", swap.path)
        within("swsusp_image", "page", swap.path, 0)
        within("swsusp_machine", "differ", dump.name, dump.name)
    within("swsusp", "replay", stdin=SCRIPT)
    within("swsusp", "drill", 10)
    within("swsusp_machine", "loader", stdin=saved)
    within("swsusp_machine", "core", stdin=saved)
    within("swsusp_machine", "show", stdin=saved)
    within("swsusp_machine", "draw", stdin=SCRIPT)
    within("swsusp_machine", "make", stdin=b"boot\nstep core\nstep core\n")
    within("swsusp_machine", "--help")
    within("swsusp_image", "--help")
