#!/usr/bin/env python3
"""check_examples.py [SWSUSP]: plays each script of examples/ that docs/COMMANDS.md lists, and compares what it prints with its row there.

SWSUSP is the program, by default the one that `rt run` or `rt ci` left. A row is a list of: a line, a line a number of times (`four times`), all
lines from one to another that differ in their first number, or what another script prints up to a line. The status is 1 if a script differs.
"""
import pathlib
import re
import subprocess
import sys

TOP = pathlib.Path(__file__).resolve().parent.parent
ROW = re.compile(r"\| (\w+\.txt) \| (.*) \|")
PART = re.compile(r"as (?P<other>\w+\.txt) up to `(?P<last>[^`]*)`|`(?P<first>[^`]*)` to `(?P<end>[^`]*)`|(?P<times>four times )?`(?P<line>[^`]*)`")


def between(first, last):
    """Returns the lines from one to another, which differ in their first number."""
    begin, end = (int(re.search(r"\d+", line)[0]) for line in (first, last))
    lines = [re.sub(r"\d+", str(k), first, count=1) for k in range(begin, end + 1)]
    if lines[-1] != last:
        sys.exit(f"docs/COMMANDS.md: no lines lead from {first!r} to {last!r}")
    return lines


def lines_of(row, rows):
    """Returns the lines that a row stands for."""
    lines = []
    for part in PART.finditer(row):
        if part["other"]:
            other = lines_of(rows[part["other"]], rows)
            lines += other[: other.index(part["last"]) + 1]
        elif part["first"]:
            lines += between(part["first"], part["end"])
        else:
            lines += [part["line"]] * (4 if part["times"] else 1)
    return lines


def main(program=TOP / "crates/swsusp/out/swsusp"):
    rows = dict(ROW.findall((TOP / "docs/COMMANDS.md").read_text()))
    scripts = {path.name for path in (TOP / "examples").glob("*.txt")} - {"story.txt"}
    wrong = [f"{name}: no row in docs/COMMANDS.md, or no such script" for name in sorted(scripts ^ rows.keys())]
    for name in sorted(scripts & rows.keys()):
        ran = subprocess.run([program, "replay"], input=(TOP / "examples" / name).read_bytes(), capture_output=True, timeout=120, check=False)
        if ran.returncode or ran.stdout.decode().splitlines() != lines_of(rows[name], rows):
            wrong.append(f"examples/{name}: printed something else than docs/COMMANDS.md says")
    for line in wrong:
        print(line)
    print(f"examples/: {len(scripts)} scripts played, {len(wrong)} wrong")
    return 1 if wrong or not scripts else 0


if __name__ == "__main__":
    sys.exit(main(*sys.argv[1:]))
