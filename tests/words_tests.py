"""The words that the programs take, and what they say of others."""
import pathlib

from harness import Mismatch, check, check_same, run

VERSION = (pathlib.Path(__file__).resolve().parent.parent / "VERSION").read_text().strip()

COMMANDS = ["inspect", "hibernate", "resume", "replay", "drill", "export", "import"]
MACHINE_COMMANDS = ["make", "draw", "loader", "core", "from-core", "show", "differ", "check"]

# clap takes these words, although they aren't plain.
NOT_PLAIN = [
    ["inspect", ""],
    ["inspect", "-"],
    ["inspect", "--", "s"],
    ["inspect", "s", "--"],
    ["inspect", "--offset", "010", "s"],
    ["inspect", "--offset", "00", "s"],
    ["inspect", "--offset", "+1", "s"],
    ["inspect", "--offset=1", "s"],
    ["inspect", "s", "--offset", "1"],
    ["inspect", "--offset", "1", "-"],
    ["inspect", "--offset", "1", "--", "s"],
    ["hibernate", ""],
    ["hibernate", "-"],
    ["hibernate", "--", "--skip-zeros"],
    ["hibernate", "s", "--skip-zeros"],
    ["hibernate", "--skip-zeros", "s", "--image-size", "1"],
    ["hibernate", "--image-size", "010", "s"],
    ["hibernate", "--image-size", "+1", "s"],
    ["hibernate", "--image-size=1", "s"],
    ["resume", ""],
    ["resume", "--", "s"],
    ["resume", "s", "--any-kernel"],
    ["replay", "--"],
    ["drill", "010"],
    ["drill", "+10"],
    ["drill", "--", "10"],
    ["export", "--"],
    ["import", ""],
    ["import", "-"],
    ["import", "--", "s"],
]

# clap refuses these.
REFUSED = [
    [],
    ["inspect"],
    ["inspect", "a", "b"],
    ["inspect", "--offset", "s"],
    ["inspect", "--offset", "x", "s"],
    ["inspect", "--offset", "4294967296", "s"],
    ["inspect", "--offset", "-1", "s"],
    ["inspect", "--offset", "1", "--offset", "2", "s"],
    ["inspect", "--skip-zeros", "s"],
    ["hibernate"],
    ["hibernate", "--any-kernel", "s"],
    ["hibernate", "--skip-zeros"],
    ["hibernate", "--skip-zeros", "--skip-zeros", "s"],
    ["hibernate", "--skip-zeros=true", "s"],
    ["hibernate", "--image-size", "s"],
    ["hibernate", "--image-size", "x", "s"],
    ["hibernate", "--image-size", "18446744073709551616", "s"],
    ["resume", "--skip-zeros", "s"],
    ["resume", "a", "b"],
    ["replay", "s"],
    ["drill"],
    ["drill", "0"],
    ["drill", "2001"],
    ["drill", "x"],
    ["export", "s"],
    ["import"],
    ["import", "a", "b"],
    ["no-command", "s"],
]


def refused(*words):
    """Returns the note of a program that doesn't take the words."""
    status, out, note = run(*words)
    if (status, out) != (2, b"") or not note.endswith("\n"):
        raise Mismatch(f"{words}: status {status}, {out!r} and {note!r}")
    return note


def has(text, *parts):
    for part in parts:
        if part not in text:
            raise Mismatch(f"{part!r} isn't in {text!r}")


def test_lists_that_are_not_plain():
    for words in NOT_PLAIN:
        check(run("swsusp", *words), 2, note="words\n")


def test_lists_that_clap_refuses():
    for words in REFUSED:
        note = refused("swsusp", *words)
        if note == "words\n":
            raise Mismatch(f"{words}: {note!r}")


def test_ranges_that_are_told():
    has(refused("swsusp", "drill", "2001"), "2001 is not in 1..=2000")
    has(refused("swsusp", "inspect", "--offset", "4294967296", "s"), "4294967296 is not in 0..=4294967295")


def test_help():
    """`swsusp` prints its help and its version as notes."""
    has(refused("swsusp", "--help"), *COMMANDS, "65,536", "131,072", "compressed")
    has(refused("swsusp", "--version"), f"swsusp {VERSION}")
    for command in COMMANDS:
        has(refused("swsusp", command, "--help"), f"Usage: swsusp {command}", "Limits:" if command != "inspect" else "reads", f"Example: swsusp {command}")
        has(refused("swsusp", "help", command), f"Usage: swsusp {command}")
    has(refused("swsusp", "inspect", "--help"), "--offset <N>", "[default: 0]", "<SWAP>")
    has(refused("swsusp", "hibernate", "--help"), "--skip-zeros", "--image-size <N>", "<SWAP>")
    has(refused("swsusp", "resume", "--help"), "--any-kernel", "<SWAP>")
    has(refused("swsusp", "drill", "--help"), "1 to 2000")


def test_help_for_machines():
    """`swsusp_machine` prints its help and its version on standard output."""
    for words in [["--help"], ["help"], ["-h"]]:
        status, out, note = run("swsusp_machine", *words)
        if (status, note) != (0, ""):
            raise Mismatch(f"{words}: status {status} and {note!r}")
        has(out.decode(), *MACHINE_COMMANDS)
    check(run("swsusp_machine", "--version"), 0, f"swsusp_machine {VERSION}\n".encode())
    for command in MACHINE_COMMANDS:
        status, out, note = run("swsusp_machine", command, "--help")
        if (status, note) != (0, ""):
            raise Mismatch(f"{command}: status {status} and {note!r}")
        has(out.decode(), f"Usage: swsusp_machine {command}", f"Example: swsusp_machine {command}", "standard" if command != "differ" else "files")


def test_words_of_no_machine_command():
    note = "words: a path isn't empty nor begins with -, a number has no zero before it, and nothing but --any-kernel stands between a command and its paths\n"
    for words in [[], ["make", "a"], ["from-core", "a"], ["from-core", "--slots"], ["from-core", "--slots", "1"], ["from-core", "--slots", "131073"], ["differ", "a"], ["check", "--any-kernel"], ["check", "--any-kernel", "--any-kernel", "s"], ["no-command"], ["--quiet"], ["--quiet", "--quiet", "make"], ["make", "--quiet"]]:
        if refused("swsusp_machine", *words) == note:
            raise Mismatch(f"{words}")
    for words in [["differ", "-", "b"], ["differ", "a", ""], ["differ", "--", "a", "b"], ["check", ""], ["check", "-"], ["check", "--any-kernel", "-"], ["check", "s", "--any-kernel"], ["make", "--"], ["from-core", "--slots", "010"], ["from-core", "--slots=10"]]:
        check(run("swsusp_machine", *words), 2, note=note)
        check(run("swsusp_machine", "--quiet", *words), 2, note=note)


def test_words_that_all_programs_answer_alike():
    """Help and the version in each form, `--` and unknown words. Only `swsusp` prints help and version as a note, with status 2."""
    for program in ["swsusp", "swsusp_machine", "swsusp_image"]:
        asked = 2 if program == "swsusp" else 0
        for words in [["-h"], ["--help"], ["help"], ["-V"], ["--version"]]:
            status, out, note = run(program, *words)
            check_same(f"{program} {words}", (status, bool(out), bool(note)), (asked, asked == 0, asked == 2))
        check_same("help", run(program, "-h"), run(program, "help"))
        check_same("the version", run(program, "-V"), run(program, "--version"))
        for words, said in [
            ([], "requires a subcommand"),
            (["--"], "requires a subcommand"),
            (["unknown"], "unrecognized subcommand 'unknown'"),
            (["--unknown"], "unexpected argument '--unknown' found"),
        ]:
            has(refused(program, *words), said)
