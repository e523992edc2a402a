"""Scripts with a line at fault: the line's number and the kind of its fault, and the ends of the ranges of numbers."""
from harness import check_refused, check_same, run


def check_script(script, fault=None):
    """Checks that the script is played, or refused for this fault: the line's number and the kind."""
    ran = run("swsusp", "replay", stdin=script.encode())
    if fault:
        check_refused(ran, f"script line {fault}", status=3)
    else:
        check_same("the note of " + repr(script[:60]), (ran[0], ran[2]), (0, ""))


def check_scripts(table):
    for script, fault in table.items():
        check_script(script, fault)


def test_faulty_scripts():
    check_scripts({
        "claim 65 1": "1 Range",
        "claim 1": "1 Count",
        "hibernate zeros x": "1 Count",
        "hibernate x zeros": "1 Word",
        "hibernate zero": "1 Word",
        "boot\nsleep": "2 Word",
        "cut": "1 Count",
        "cut 18446744073709551616": "1 Number",
        "claim x 1": "1 Number",
        "steps 3 1": "1 Word",
        "boot\nsteps core 100000": "2 Events",
        "boot\njump": "2 Word",
        "boot\n\narea\n": "3 Late",
        "steps": "1 Count",
        "steps 3": "1 Word",
        "step 65": "1 Range",
        "step core 1": "1 Count",
        "steps core 0": "1 Range",
        "steps core 100001": "1 Range",
        "claim x": "1 Count",
        "claim 65 x": "1 Range",
        "claim x 65536": "1 Number",
        "store 1 2 512 0": "1 Range",
        "store 1 2 3 18446744073709551616": "1 Number",
        "claim +1 2": "1 Number",
        " # x": "1 Word",
        "# \t": "1 Byte",
        "jump\nboot\r\n": "1 Word",
        "out 3 10 1": "1 Count",
        "region 0 1 1 1": "1 Count",
    })


def test_armed_and_settled():
    """The lines that let calls of the disk fail, and the line that settles."""
    check_scripts({
        "arm 1 0 0": None,
        "arm 1000000 1000000 18446744073709551615": None,
        "arm 0 1 0": "1 Range",
        "arm 1000001 1 0": "1 Range",
        "arm 1 1000001 0": "1 Range",
        "arm 1 1 18446744073709551616": "1 Number",
        "arm 1 1": "1 Count",
        "arm 1 1 0 0": "1 Count",
        "settle": None,
        "settle 1": "1 Count",
        "arm 1 1 0\narea 1": "2 Late",
    })


def test_sent_to_sleep_and_woken():
    """The lines that send a machine to sleep, and the line that wakes it."""
    check_scripts({
        "suspend": None,
        "suspend zeros": None,
        "wake": None,
        "suspend zeros x": "1 Count",
        "suspend x zeros": "1 Word",
        "suspend zero": "1 Word",
        "suspends": "1 Word",
        "wake 1": "1 Count",
        "wake zeros": "1 Count",
        "suspend\narea 1": "2 Late",
        "wake\narea 1": "2 Late",
    })


def test_shrunk():
    """The line that drops cached page frames."""
    check_scripts({
        "shrink 0": None,
        "shrink 18446744073709551615": None,
        "shrink 18446744073709551616": "1 Number",
        "shrink": "1 Count",
        "shrink 1 2": "1 Count",
        "shrinks 1": "1 Word",
    })


def test_ranges_of_a_resume():
    eight = "resume 1-1 2-2 3-3 4-4 5-5 6-6 7-7 8-8"
    check_scripts({
        "resume": None,
        eight: None,
        eight + " 9-9": "1 Count",
        "resume x 2-2 3-3 4-4 5-5 6-6 7-7 8-8 9-9 10-10 11-11": "1 Count",
        "resume 0-65535": None,
        "resume 0-65536": "1 Range",
        "resume 5": "1 Number",
        "resume 5-": "1 Number",
        "resume -5": "1 Number",
        "resume -": "1 Number",
        "resume 1-2-3": "1 Number",
        "resume 5-4": "1 Range",
        "resume 5-4 x": "1 Range",
        "resume x 5-4": "1 Number",
    })


def test_ends_of_ranges():
    """Both ends of the range of each number of a setting. Even if a number is in its range, the machine can be faulty, which is reported at the
    end of the script."""
    check_scripts({
        "zone 0 1\ntables 0 0": "3 Hardware",
        "zone 0 65536": None,
        "zone 65535 1": "2 Hardware",
        "zone 65536 1": "1 Range",
        "zone 0 0": "1 Range",
        "zone 0 65537": "1 Range",
        "area 1": None,
        "area 16383": None,
        "area 0": "1 Range",
        "area 16384": "1 Range",
        "bad 1": None,
        "bad 3000": None,
        "bad 3001": "2 Hardware",
        "area 16383\nbad 16383": None,
        "bad 0": "1 Range",
        "bad 16384": "1 Range",
        "region 7 1 0": None,
        "region 4095 1 126": None,
        "region 6 1 0": "2 Hardware",
        "region 65535 1 0": "2 Hardware",
        "region 65536 1 0": "1 Range",
        "region 0 65536 0": "2 Hardware",
        "region 7 0 0": "1 Range",
        "region 0 65537 0": "1 Range",
        "region 7 1 1": "1 Range",
        "region 7 1 125": "1 Range",
        "region 7 1 127": "1 Range",
        "region 7 1 128": "1 Range",
        "tables 3 0": None,
        "tables 65535 65535": "2 Hardware",
        "tables 65536 0": "1 Range",
        "tables 0 65536": "1 Range",
        "hwsig 4294967295": None,
        "hwsig 4294967296": "1 Range",
        "area 16383\nextent 0 16384 0": None,
        "extent 16383 1 16383": "2 Hardware",
        "extent 16384 1 0": "1 Range",
        "extent 0 0 0": "1 Range",
        "extent 0 16385 0": "1 Range",
        "extent 0 1 16384": "1 Range",
    })


def test_a_swap_file_behind_the_disk():
    """The highest block that a setting may name: the script has no fault, but the disk of a replay is too small for it."""
    check_refused(run("swsusp", "replay", stdin=b"extent 0 3001 16383"), "disk blocks 16384 need 19384")


def test_faulty_machines():
    """The line of a machine at fault is that of the first event, or the one after the last line."""
    check_scripts({
        "region 0 1 2\nboot": "2 Hardware",
        "region 0 1 2\n\n# x\nboot\njump": "4 Hardware",
        "region 0 1 2": "2 Hardware",
        "region 0 1 2\n": "2 Hardware",
        "region 0 1 2\n\n": "3 Hardware",
        "region 0 1 2\n ": "3 Hardware",
        "region 0 1 2\nclaim 1": "2 Count",
        "region 0 1 2\njump\nboot": "2 Word",
        "region 0 1 2\nboot\nsteps core 100000": "2 Hardware",
        "bad 3001\nboot": "2 Hardware",
        "bad 3001\narea 3001\nboot": None,
        "area 3001\nbad 3001\narea 3000": "4 Hardware",
        "zone 0 10\nzone 5 10\nboot": "3 Hardware",
        "extent 0 1 0\nextent 1 2999 1\nboot": "3 Hardware",
    })


def test_late_settings():
    """After an event each setting is refused as late, before its words are counted."""
    for script in [
        "boot\nzone 0 10",
        "boot\narea 9",
        "boot\nbad",
        "boot\nregion x",
        "boot\ntables 65536 0",
        "boot\nhwsig 1 2",
        "boot\nextent",
        "step core\nextent 0 1 0",
    ]:
        check_script(script, "2 Late")


def test_numbers_of_settings():
    """As many settings as a machine may have, and one more."""
    check_script("bad 7\n" * 630 + "boot\n")
    check_script("bad 7\n" * 631 + "boot\n", "632 Hardware")
    check_script("extent 0 1 0\n" * 65 + "boot\n", "66 Hardware")
    check_script("zone 0 4096\n" * 17 + "boot\n", "18 Hardware")
    check_script("region 7 1 2\n" * 65 + "boot\n", "66 Hardware")


def test_lengths_of_scripts():
    """An empty script, the longest one, and one that is too long."""
    check_script("")
    check_script("#" * 1048576)
    check_script("#" * 1048577, "0 TooLong")
