#!/usr/bin/env python3
"""Prints what took longest in a crate's last full check: the functions and files of lemmas, the slowest first.

    python3 tools/slow_functions.py [CRATE..]

`rt check` keeps each module that it has checked as a file below crates/CRATE/out/incremental. The time between one file and the one
written before it is about what that module took, in seconds of the clock. So only a check from nothing on an idle machine says
anything: remove that folder first. A function has several modules: its code (Lts), the borrow checker's part (Tie), its proof.
"""

import collections
import pathlib
import re
import sys

TOP = pathlib.Path(__file__).resolve().parent.parent
ROWS = 40
# A longer gap lies between two checks.
LONGEST_GAP = 600


def modules(crate):
    """Yields each module of a crate by its name, and how long it took."""
    files = []
    for path in (TOP / "crates" / crate / "out" / "incremental").rglob("*.oantt"):
        files.append((path.stat().st_mtime, path.name))
    files.sort()
    for (before, _), (at, name) in zip(files, files[1:]):
        if at - before < LONGEST_GAP:
            yield re.sub(r"^Rattle[-.]|(\.decls)?\.oantt$", "", name), at - before


def main(names):
    crates = names or sorted(path.name for path in (TOP / "crates").iterdir() if (path / "out" / "incremental").is_dir())
    took = collections.Counter()
    sums = collections.Counter()
    for crate in crates:
        for module, seconds in modules(crate):
            # The parts of a function are counted together.
            took[re.sub(r"\.(Lts|Tie|Proof|Code|Answers|Goals|Statement|Met|Layout|Invariants)$", "", module)] += seconds
            sums[crate] += seconds
    for name, seconds in took.most_common(ROWS):
        print(f"{seconds:7.1f} {name}")
    for crate, seconds in sums.most_common():
        print(f"{seconds:7.1f} of {crate}")


if __name__ == "__main__":
    main(sys.argv[1:])
