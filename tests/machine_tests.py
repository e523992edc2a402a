"""The commands of `swsusp_machine` over the machine of the worked example."""
import pathlib
import re
import subprocess
import tempfile
import xml.etree.ElementTree

from dump_tests import check_no_image, check_restored, hibernate, resume
from harness import MARK, check, check_line, check_refused, check_same, counts, programs, run
from inputs import BAD, EXAMPLE, ZERO_PAGE, Machine, area, page

# The worked example's machine, by a script.
SCRIPT = b"zone 0 2048\narea 1599\nboot\nsteps core 2\nclaim 3 10\nstore 3 10 0 77\n"


def machine(*words, stdin=b""):
    return run("swsusp_machine", *words, stdin=stdin)


def check_image(swap, dump=EXAMPLE.loader_with_nines()):
    return machine("check", swap.path, stdin=dump)


def test_dumps_that_are_made():
    """A region's page frames are in use, and a dump has no place for the region itself."""
    check(machine("make", stdin=SCRIPT), 0, EXAMPLE.saved())
    script = b"zone 0 2048\narea 1599\nregion 4 6 0\nboot\nsteps core 2\n"
    check(machine("make", stdin=script), 0, EXAMPLE.loader(10))


def test_scripts_without_a_machine():
    for script in [b"", b"boot\n", b"boot\nsteps core 2\ncut 0\n"]:
        check_refused(machine("make", stdin=script), "no machine runs")
    check_refused(machine("make", stdin=b"extent 0 3001 16383\nboot\n"), "disk blocks 16384 need 19384")
    check_refused(machine("make", stdin=b"boot\njump\n"), "script line 2 Word", status=3)
    check_refused(machine("make", stdin=b"region 0 1 2\nboot\n"), "script line 2 Hardware", status=3)


def test_loaders_that_are_made():
    """Page frame 10 isn't a task's any more, and slot 1600, which doesn't exist, isn't bad. Bad slots stay bad."""
    check(machine("loader", stdin=EXAMPLE.saved()), 0, EXAMPLE.loader(4))
    entries = {0: BAD, 4: BAD, 4092: BAD}
    bad = {2: page(entries), 3: page({0: BAD, 4 * 575: BAD})}
    dump = {**EXAMPLE.saved_pages(slots=page({**entries, 8: 3})), 3: page({0: BAD, 4 * 575: BAD, 4 * 576: BAD})}
    check(machine("loader", stdin=EXAMPLE.dump(dump)), 0, EXAMPLE.dump({**EXAMPLE.frame_table(4), **bad}))


def differ(first, second):
    with tempfile.TemporaryDirectory() as room:
        paths = [pathlib.Path(room) / name for name in ["first", "second"]]
        for path, dump in zip(paths, [first, second]):
            path.write_bytes(dump)
        return machine("differ", *paths)


def test_dumps_that_differ():
    saved = EXAMPLE.saved()
    check_line(differ(saved, saved), "same")
    check(differ(saved, Machine(hw_sig=7).saved()), 1, b"hardware\n")
    check(differ(saved, EXAMPLE.saved(cached=range(20, 30))), 1, b"page 0\n")
    check_refused(differ(saved, saved[:435]), "dump Short byte 435", status=3)
    check_refused(differ(b"", saved), "dump Short byte 0", status=3)


def changed(table, i, entry):
    """Returns the worked example's dump with this entry of a table, or number of a page frame, changed."""
    pages = {**EXAMPLE.saved_pages()}
    p, at = table + i // 1024, 4 * (i % 1024)
    content = pages.get(p, ZERO_PAGE)
    pages[p] = content[:at] + entry.to_bytes(4, "little") + content[at + 4 :]
    return EXAMPLE.dump(pages)


def test_dumps_that_differ_in_a_word():
    """The last word of page frame 10; owners, which stand in the frame table (page frame 10's in page frame 0, page frame 1024's in 1); and
    slots. What a free page frame holds is no difference."""
    saved = EXAMPLE.saved()
    for table, i, entry, line in [
        (10, 0, 77, "same"),
        (10, 0, 78, "page 10"),
        (10, 1023, 1, "page 10"),
        (0, 10, 262144, "page 0"),
        (0, 1024, 131072, "page 1"),
        (2, 1, 3, "page 2"),
        (2, 1599, 3, "page 3"),
        (11, 0, 5, "same"),
        (2047, 1023, 5, "same"),
    ]:
        for dumps in [(saved, changed(table, i, entry)), (changed(table, i, entry), saved)]:
            check(differ(*dumps), 0 if line == "same" else 1, f"{line}\n".encode())


def test_dumps_of_other_hardware():
    saved = EXAMPLE.saved()
    others = [Machine(slots=1599).saved(), Machine(hw_sig=1).saved(), Machine(extents=((0, 1, 0), (1, 1599, 1))).saved()]
    others += [with_names(saved, [b"Linux", b"machine", b"6.1.0", b"#1", b"plain", b"(none)".ljust(64, b"\0") + b"x"])]
    others += [saved[:8] + (393473).to_bytes(4, "little") + saved[12:]]
    for other in others:
        for dumps in [(saved, other), (other, saved)]:
            check(differ(*dumps), 1, b"hardware\n")


def test_images_that_are_checked():
    """The disk is as before, and the image is resumed afterwards."""
    with area() as swap:
        check_refused(check_image(swap), "no image")
        hibernate(swap)
        before = swap.bytes()
        for _ in range(2):
            check_line(check_image(swap), "resumed 5")
            check_same("the disk", swap.bytes(), before)
        check_restored(resume(swap))
        check_no_image(swap)


def test_another_kernels_image_that_is_checked():
    """All bytes of the names and of the version code are 255."""
    with area() as swap:
        hibernate(swap)
        swap.change(*[(2, 4 * i, 2**32 - 1) for i in range(99)])
        before = swap.bytes()
        dump = EXAMPLE.loader_with_nines()
        check_refused(check_image(swap, dump), "mismatch version code")
        check_line(machine("check", "--any-kernel", swap.path, stdin=dump), "resumed 5")
        check_same("the disk", swap.bytes(), before)
        check_restored(resume(swap, dump, "--any-kernel"))


def test_damage_that_is_foretold():
    """A resume gives the image up before it says so."""
    with area() as swap:
        hibernate(swap)
        swap.change((3, 0, 5))
        check_refused(check_image(swap), "pfn order 5 1")
        check_refused(resume(swap), "pfn order 5 1")
        check_refused(check_image(swap), "no image")


def check_shown(dump, text):
    check(machine("show", stdin=dump), 0, text.encode())


def with_names(dump, names):
    """Returns the dump with these six names, which come after its mark and six numbers."""
    return dump[:32] + b"".join(name.ljust(65, b"\0") for name in names) + dump[422:]


KEYS = ["sysname", "nodename", "release", "version", "machine", "domainname"]


def test_facts_that_are_shown():
    """Page frames 0 to 3 and 10 are saveable, and page frame 3 is all zero. The names have no zero byte and no printable one."""
    names = "".join(f"{key}_hex {'07' * 65}\n" for key in KEYS)
    check_shown(with_names(EXAMPLE.saved(), [b"\7" * 65] * 6), f"""slots 1600
frame_table 0
slot_table 2
zone 0 2048
extent 0 1600 0
hw_sig 0
version_code 393472
{names}frames_saveable 5
frames_free 2043
frames_needed 1030
frames_owned 3 1
slots_free 1599
slots_bad 1
image_plain 5 5 7
slots_needed_plain 1033
image_zeros 5 4 6
slots_needed_zeros 1032
""")


def test_facts_of_tasks_and_extents():
    """Task 3 has page frame 10, with a word, page frame 11, and slots 1 and 2; task 64 has page frame 12, with a last word, and slot 3. Slot 5 is
    bad. Page frames 100 to 119 are cached, and 200 to 204 offline."""
    owned = {10: 3 << 16, 11: 3 << 16, 12: 64 << 16, **{p: 64 for p in range(100, 120)}, **{p: 4 for p in range(200, 205)}}
    small = Machine(frames=4096, slots=3001, hw_sig=7, extents=((0, 1, 50), (1, 3000, 100)))
    slots = page({0: BAD, 4: 3, 8: 3, 12: 64, 20: BAD})
    dump = small.dump({**small.frame_table(7, owned), 4: slots, 10: page({0: 77}), 12: page({4092: 1})})
    check_shown(dump, """slots 3001
frame_table 0
slot_table 4
zone 0 4096
extent 0 1 50
extent 1 3000 100
hw_sig 7
version_code 393472
sysname Linux
nodename machine
release 6.1.0
version #1
machine plain
domainname (none)
frames_saveable 30
frames_free 4061
frames_needed 1055
frames_owned 3 2
frames_owned 64 1
slots_free 2996
slots_bad 2
slots_owned 3 2
slots_owned 64 1
image_plain 30 30 32
slots_needed_plain 1058
image_zeros 30 7 9
slots_needed_zeros 1035
""")


def test_facts_of_names():
    """An empty name, one of 65 bytes, one that ends at a zero byte before other bytes, and three with a byte that isn't printed."""
    names = [b"", b"~" * 65, b"a b\0c", b"\n", b"a\x7f", b"\xc3\xa9"]
    status, out, note = machine("show", stdin=with_names(EXAMPLE.saved(), names))
    wanted = f"sysname \nnodename {'~' * 65}\nrelease a b\nversion_hex 0a\nmachine_hex 617f\ndomainname_hex c3a9\nframes_saveable"
    check_same("what was shown", (status, note, wanted.encode() in out), (0, "", True))


# The prefix of the picture's elements.
SVG = "{http://www.w3.org/2000/svg}"


def draw(script):
    """Returns the columns of a script's picture: the words and the reply in each title, the names of what each draws, and the columns themselves."""
    status, out, note = machine("draw", stdin=script.encode())
    check_same("how it ended", (status, note), (0, ""))
    picture = xml.etree.ElementTree.fromstring(out)
    columns = [group for group in picture.iter(SVG + "g") if group.find(SVG + "title") is not None]
    check_same("the places", [group.get("transform") for group in columns], [f"translate({72 + 16 * k})" for k in range(len(columns))])
    check_same("the width", picture.get("width"), str(max(88 + 16 * len(columns), 720)))
    titles = [tuple(part.strip() for part in group.find(SVG + "title").text.split(": ", 1)) for group in columns]
    return titles, [[use.get("href")[1:] for use in group.iter(SVG + "use")] for group in columns], columns


def drawn(power, memory, disk, *more):
    """Returns what a column draws: what each lane shows, and then a call, a cut or the line under an event's words."""
    return [f"power-{power}", f"memory-{memory}", f"disk-{disk}", *more]


def boots(disk="none"):
    """Returns a boot's three columns over a disk that shows `disk` and has no image."""
    return [drawn("on", "boots", disk, "event"), drawn("on", "boots", disk, "sync"), drawn("on", "runs", "none", "header")]


def saves(*pages):
    """Returns the columns of a hibernation of the given numbers of pages and maps, up to the step that writes the mark."""
    steps = ["write"] * sum(pages) + ["sync", "header"]
    return [drawn("on", "saves", "none", "event"), *(drawn("on", "saves", "none", call) for call in steps), drawn("on", "saves", "perhaps", "mark")]


CUT_SCRIPT = """boot
steps core 2
claim 3 10
store 3 10 0 77
hibernate
steps core 14
cut {}
resume
steps core {}
"""


def test_a_picture_of_a_cut_that_leaves_no_image():
    """The script of examples/cut.txt: the hibernation's 15 steps write 11 pages and maps, and 8 page frames are saved."""
    titles, uses, _ = draw(CUT_SCRIPT.format(0, 2))
    script = ["boot", "step core", "step core", "claim 3 10", "store 3 10 0 77", "hibernate", *["step core"] * 14, "cut 0", "resume", *["step core"] * 2]
    replies = ["more 0 of 2", "more 1 of 2", "booted image no", "ok", "ok", *counts("more ", 0, 14, " of 15"), "cut", "loading 0", "loading 1", "no image"]
    check_same("the titles", titles, list(zip(script, replies)))
    asked = [drawn("on", "runs", "none", "event")] * 2
    resume = [drawn("on", "loads", "perhaps", "event"), drawn("on", "loads", "perhaps", "sync"), drawn("off", "nothing", "none", "header")]
    check_same("what is drawn", uses, boots() + asked + saves(11) + [drawn("off", "nothing", "perhaps", "cut", "event")] + resume)


def test_a_picture_of_a_cut_that_leaves_the_image():
    _, uses, columns = draw(CUT_SCRIPT.format(MARK, 15))
    resume = uses[-16:]
    steps = [("perhaps", "event"), ("perhaps", "sync"), ("image", "header"), ("perhaps", "back"), ("none", "sync"), *[("none", "read")] * 10]
    check_same("the resume", resume[:-1], [drawn("on", "loads", disk, call) for disk, call in steps])
    check_same("its end", resume[-1], drawn("on", "runs", "none", "read"))
    names = [(text.get("y"), text.text) for group in columns for text in group.iter(SVG + "text") if text.get("class") == "state"]
    check_same("the names", names, [("200", name) for name in ["boots", "runs", "saves", "loads"]] + [("242", "image"), ("200", "runs")])


def test_a_picture_of_calls_that_fail():
    """Failures of the third call of a hibernation, of the write of a task's page, and of the sync after a mark, which is undone."""
    _, uses, columns = draw("boot\nsteps core 2\nclaim 3 10\narm 3 1 0\nhibernate\nsteps core 3\nout 3 10\narm 1 1 0\nstep 3\n")
    check_same("a page", uses[-4:-2] + uses[-1:], [drawn("on", "runs", "none", "write", "fails"), drawn("on", "runs", "none", "event"),
               drawn("on", "runs", "none", "write", "fails", "event")])
    classes = [group.findall(SVG + "text")[-1].get("class") for group in columns]
    check_same("the replies", [k for k, name in enumerate(classes) if name == "fault"], [8, 11])
    _, uses, _ = draw("boot\nsteps core 2\nhibernate\nsteps core 12\narm 2 1 0\nsteps core 4\n")
    check_same("the undoing", uses[-4:], [drawn("on", "saves", "perhaps", "mark"), drawn("on", "undoes", "perhaps", "sync", "fails"),
               drawn("on", "undoes", "perhaps", "back"), drawn("on", "runs", "none", "sync")])


def test_a_picture_of_a_machine_that_sleeps():
    _, uses, _ = draw("boot\nsteps core 2\nsuspend\nsteps core 14\nclaim 3 10\nwake\nsteps core 3\n")
    asleep = [drawn("asleep", "sleeps", "image", "sync"), drawn("asleep", "sleeps", "image", "event")]
    wakes = [drawn("on", "wakes", "image", "event"), drawn("on", "wakes", "image", "header"), drawn("on", "wakes", "perhaps", "back"),
             drawn("on", "runs", "none", "sync")]
    check_same("what is drawn", uses[-6:], asleep + wakes)


def test_words_of_each_event():
    """The words stand as in the script, except for `steps` and for numbers with leading zeros."""
    lines = ["boot", "step core", "step 7", "claim 1 2", "release 1 2", "store 1 2 3 18446744073709551615", "show 1 2 3", "cache 1 2", "out 1 2", "in 1 2 3",
             "hibernate", "hibernate zeros", "suspend", "suspend zeros", "wake", "settle", "shrink 5", "resume", "resume 0-1 7-9", "cut 128", "arm 2 3 4"]
    titles, _, columns = draw("\n".join(lines))
    check_same("the words", [words for words, _ in titles], lines)
    shown = [group.find(f"{SVG}text[@transform='translate(12 146)rotate(-90)']") for group in columns]
    check_same("the words above", [text is not None and text.text for text in shown], [line != "step core" and line for line in lines])


def test_pictures_are_the_same_each_time():
    runs = [machine("draw", stdin=CUT_SCRIPT.format(0, 2).encode()) for _ in range(2)]
    check_same("the picture", runs[0], runs[1])
    check_same("the replies", re.findall(r"[0-9:]{5,}", runs[0][1].decode().split("</defs>")[1].split("<title>")[0]), [])


def test_pictures_that_fail():
    check_refused(machine("draw", stdin=b"boot\njump\n"), "script line 2 Word", status=3)
    check_refused(machine("draw", stdin=b"extent 0 3001 16383\nboot\n"), "disk blocks 16384 need 19384")
    with open("/dev/full", "wb") as full:
        ran = subprocess.run([programs["swsusp_machine"], "draw"], input=b"boot\n", stdout=full, stderr=subprocess.PIPE, timeout=120, check=False)
    check_same("a full output", (ran.returncode, ran.stderr), (4, b"sink fault\n"))


def test_the_picture_that_is_shown():
    """docs/cut_run.svg, which README shows, is what the command draws of examples/cut.txt."""
    top = pathlib.Path(__file__).resolve().parent.parent
    check(machine("draw", stdin=(top / "examples" / "cut.txt").read_bytes()), 0, (top / "docs" / "cut_run.svg").read_bytes())
