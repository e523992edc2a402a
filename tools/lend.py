#!/usr/bin/env python3
"""lend.py FROM [TO]: gives the checkout TO (this one) the libraries that `rt ci` has built in the checkout FROM, for each crate
that is word for word the same there, as are all below it. Then `rt check` of a crate above them begins at once.

No verdict of the gate rests on it: `rt ci` takes what it built itself. Those that are lacking are named at the end.
"""
import importlib.machinery
import importlib.util
import os
import pathlib
import shutil
import sys

HERE = pathlib.Path(__file__).resolve().parent.parent


def toolchain():
    """Loads the command rt as a module."""
    path = os.path.realpath(shutil.which("rt"))
    loader = importlib.machinery.SourceFileLoader("rt_command", path)
    made = importlib.util.module_from_spec(importlib.util.spec_from_loader("rt_command", loader))
    sys.modules["rt_command"] = made
    loader.exec_module(made)
    made.Crate.allowed = ()
    return made


def text_of(rt, crate):
    """Returns everything that the crate's own library is made from."""
    files = sorted(rt.rtlib.files_of(crate.folder))
    return [(os.path.relpath(it, crate.folder), pathlib.Path(it).read_bytes()) for it in files], [it.name for it in crate.deps], crate.of_kit


def lend(rt, crate, other):
    """Links the library of the other checkout, and notes that it is the one of this text."""
    out = f"{crate.folder}/out/rlib"
    shutil.rmtree(out, ignore_errors=True)
    os.makedirs(out)
    shutil.copytree(other.rlib, crate.rlib, copy_function=rt.link_or_copy)
    pathlib.Path(f"{out}/stamp").write_text(crate.stamp())


def main(source, target=HERE):
    rt = toolchain()
    os.chdir(target)
    others = {it.name: it for it in rt.crates_of(os.path.abspath(source))}
    there, given = set(), 0
    crates = [it for it in rt.crates_of(os.path.abspath(target)) if not (it.is_program or it.is_static)]
    for crate in crates:
        other = others.get(crate.name)
        if not other or not os.path.isdir(other.rlib) or any(it.name not in there for it in crate.below()) or text_of(rt, crate) != text_of(rt, other):
            continue
        there.add(crate.name)
        if not (crate.is_built() and rt.rtlib.sum_of(f"{crate.rlib}/format") == rt.rtlib.sum_of(f"{other.rlib}/format")):
            lend(rt, crate, other)
            given += 1
    print(f"{given} given; lacking: {' '.join(it.name for it in crates if it.name not in there)}")


if __name__ == "__main__":
    if len(sys.argv) not in (2, 3):
        sys.exit(__doc__)
    main(*sys.argv[1:])
