#!/usr/bin/env python3
"""Checks docs/PROOFS.md: each file and edit that a table names exists, and each name in a row is declared in one of the row's files.

A file without a folder of its own belongs to the crate that the row named before it. What counts as declared is a function, a type, a variant,
a trait, a clause or a law of a source, or a definition, a field, a constructor or a lemma of a specification or proof. Prints what is
missing, and then ends with status 1.
"""

import pathlib
import re
import sys

TOP = pathlib.Path(__file__).resolve().parent.parent
PAGE = TOP / "docs" / "PROOFS.md"
PATH = re.compile(r"[\w/]+(?:\.antt|\.rt)|crates/[\w/]+|(?:src|specs|proofs|definitions/specs|theorem_laws/specs)(?:/[\w/]+)?")
NAME = re.compile(r"`([\w\[\]-]+)`")
EDIT = re.compile(r"(\w+)/must-fail/([\w-]+)\.edit")


def rows():
    """Yields the rows of the tables: for each its line number and its cells."""
    for number, line in enumerate(PAGE.read_text().splitlines(), 1):
        if line.startswith("|") and not line.startswith("|--"):
            yield number, [cell.strip() for cell in line.strip("|\n").split(" | ")]


def files_of(cell):
    """Returns the files that a cell names, and the names of those that are missing."""
    found, missing, crate = [], [], None
    for word in PATH.findall(cell):
        tries = [TOP / word]
        if crate:
            tries += [crate / word, crate / "src" / word, crate / "specs" / word, crate / "proofs" / word]
        tries += [TOP / "crates" / word, TOP / "crates/plain_machine/specs" / word]
        path = next((p for p in tries if p.exists()), None)
        if path is None:
            missing.append(word)
            continue
        found.append(path)
        parts = path.relative_to(TOP).parts
        if parts[0] == "crates" and len(parts) > 1:
            crate = TOP / "crates" / parts[1]
    return found, missing


def declares(text, name):
    """Returns whether a line of the text declares the name, as a source or a specification does."""
    word = re.escape(name) + r"(?![\w-])"
    source = rf"\b(?:fn|struct|enum|trait|type|const|static|mod|ensures|requires|ghost)\s+{word}"
    variant = rf"^\s+{word}\s*(?:,|\(|\{{|$)"
    bound = rf"\bimpl\b[^{{]*\b{word}"
    definition = rf"^\s*(?:pub\s+)?(?:(?:abbrev|unfoldable|record|data)\s+)?(?:pub\s+)?{word}[^=\n]*:(?=\s|$)"
    parameters = rf"^\s*(?:pub\s+)?(?:record|data)\s+{word}"
    return any(re.search(it, text, re.MULTILINE) for it in (source, variant, bound, definition, parameters))


def text_of(path):
    if path.is_dir():
        return "\n".join(p.read_text() for p in sorted(path.rglob("*")) if p.suffix in (".rt", ".antt") and "out" not in p.parts)
    return path.read_text()


def main():
    wrong = 0
    checked = 0
    for number, cells in rows():
        if len(cells) < 3 or cells[0] in ("Words", "Promise", "Name", "Wrong body"):
            continue
        clause, where = cells[1], cells[2]
        found, missing = files_of(where + " " + clause)
        edits = EDIT.findall(where)
        checked += len(edits)
        missing += [f"{crate}/must-fail/{name}.edit" for crate, name in edits if not (TOP / "crates" / crate / "must-fail" / f"{name}.edit").exists()]
        for word in missing:
            print(f"docs/PROOFS.md:{number}: {word} isn't there")
            wrong += 1
        text = "\n".join(text_of(p) for p in found)
        for name in NAME.findall(clause + " " + where):
            checked += 1
            if not declares(text, name):
                print(f"docs/PROOFS.md:{number}: no {name} in {', '.join(str(p.relative_to(TOP)) for p in found) or 'no file'}")
                wrong += 1
    print(f"docs/PROOFS.md: {checked} names checked, {wrong} missing")
    return 1 if wrong else 0


if __name__ == "__main__":
    sys.exit(main())
