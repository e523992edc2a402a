#!/usr/bin/env python3
"""Writes docs/READING.md: the files of specifications that the contract of `run` reaches, in the order in which one reads them.

A file is reached if the contract of `run` (crates/swsusp_cli/src/top.rt) names a definition of it, or if the `use` lines of a file that is
reached name it; so are the types of the sources that these files name. Lines are counted without imports, comments and blank ones. With
--check it writes nothing, and ends with status 1 if the page isn't what the tree gives.
"""

import pathlib
import re
import sys

TOP = pathlib.Path(__file__).resolve().parent.parent
PAGE = TOP / "docs" / "READING.md"
START = TOP / "crates/swsusp_cli/src/top.rt"
USE = re.compile(r"^(?:ghost )?use Rattle\.(\w+)\.specs\.([\w.]+?)(?:\.\{([^}]*)\}|\.(◌\S*))?(?: as \w+)?;?$", re.MULTILINE)
FLOORS = [
    ("The program", ("swsusp_cli", "command_words", "command_kit")),
    ("What a command's machine does", ("command_core", "theorem_laws")),
    ("The plain machine, and what stands for it", ("plain_machine", "protocol_laws", "restore_laws", "image_laws")),
    ("Inputs and outputs", ("script", "dump_file", "stream_in", "stream_out", "byte_streams")),
    ("The engine's own words", ("world_core", "hib_core", "resume_core", "machine", "placement", "image_read", "image_write")),
    ("Structures and disks", ("image_format", "sector_disk", "definitions")),
]


def used(text):
    """Yields the modules that the text's `use` lines name, as pairs of a crate and a path below its specs."""
    for crate, path, names, _ in USE.findall(text):
        yield crate, path.split("."), names


def file_of(crate, path):
    """Returns the specification that a path names, and the rest of the path; None if it is one of the library's."""
    folder = TOP / "crates" / crate / "specs"
    for length in range(len(path), 0, -1):
        file = folder.joinpath(*path[:length]).with_suffix(".antt")
        if file.exists():
            return file
    return None


def reached():
    files, types = {}, set()
    todo = [(START, START.read_text())]
    while todo:
        _, text = todo.pop()
        for crate, path, names in used(text):
            if not (TOP / "crates" / crate).exists():
                continue
            if path[0] == "declared":
                named = path[-1] if path[-1][:1].isupper() else names.split(",")[0].strip()
                parts = [it for it in path[1:] if it not in ("TheVariants", "TheInside")]
                types.add((crate, ".".join(parts) or named))
                continue
            file = file_of(crate, path)
            if file and file not in files:
                files[file] = file.read_text()
                todo.append((file, files[file]))
    return files, types


def count(text):
    lines = [it.strip() for it in text.splitlines()]
    return sum(1 for it in lines if it and not it.startswith(("--", "use ", "pub use ", "pub mod ")))


def sentence(text):
    """Returns the file's first comment, up to its first full stop."""
    words = []
    for line in text.splitlines():
        if not line.startswith("--"):
            break
        words.append(line[2:].strip())
    said = " ".join(words)
    return re.split(r"(?<=\.)\s", said, maxsplit=1)[0].rstrip(".").replace("|", "\\|") or "(no comment)"


def page():
    files, types = reached()
    total = sum(map(count, files.values()))
    out = [
        "# The theorem, file by file",
        "",
        "What the program promises stands in the contract of `run` (crates/swsusp_cli/src/top.rt). It cites definitions, and those cite others: "
        "these are all that a reader has to believe,",
        "in an order in which they can be read. Lines are counted without imports, comments and blank ones. `python3 tools/reading.py` writes "
        "this page, and `.ci/run` fails where it and the",
        "tree disagree.",
        "",
        f"**{len(files)} files, {total} lines**, and {len(types)} types of the sources, whose doc comments say what they are.",
    ]
    left = dict(files)
    for title, crates in FLOORS + [("Others", None)]:
        here = [f for f in left if crates is None or f.relative_to(TOP).parts[1] in crates]
        here.sort(key=lambda f: (crates.index(f.relative_to(TOP).parts[1]) if crates else 0, str(f)))
        if not here:
            continue
        out += ["", f"## {title}", "", "| File | Lines | Says |", "|---|---|---|"]
        for file in here:
            out.append(f"| {file.relative_to(TOP)} | {count(left[file])} | {sentence(left[file])} |")
            del left[file]
    return "\n".join(out) + "\n"


def main():
    text = page()
    if "--check" not in sys.argv[1:]:
        PAGE.write_text(text)
        return 0
    if PAGE.exists() and PAGE.read_text() == text:
        print(f"docs/READING.md: {text.count('.antt |')} files, as the tree has them")
        return 0
    print("docs/READING.md isn't what the tree says: python3 tools/reading.py writes it")
    return 1


if __name__ == "__main__":
    sys.exit(main())
