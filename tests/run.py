#!/usr/bin/env python3
"""run.py [NAME..]: runs the tests of this folder, or of the files with these names, on the built programs.

The programs are those that `rt run` or `rt ci` leaves, such as crates/swsusp/out/swsusp, or those that the variables SWSUSP,
SWSUSP_MACHINE and SWSUSP_IMAGE name. A test is a function whose name begins with `test_`, in a file whose name ends with
`_tests.py`. If a test fails, the status is 1 and the test and its reason are printed.
"""
import importlib
import os
import pathlib
import sys

import harness

HERE = pathlib.Path(__file__).resolve().parent


def tests_of(name):
    module = importlib.import_module(name)
    return [(f"{name}: {key}", call) for key, call in vars(module).items() if key.startswith("test_") and callable(call)]


def fails(name, test):
    try:
        test()
    except harness.Mismatch as why:
        print(f"{name} FAILED: {why}")
        return True
    return False


def main(*names):
    for name in ["swsusp", "swsusp_machine", "swsusp_image"]:
        built = HERE.parent / "crates" / name / "out" / name
        harness.programs[name] = os.environ.get(name.upper(), built)
        if not os.access(harness.programs[name], os.X_OK):
            sys.exit(f"tests/: no program at {harness.programs[name]}: 'make' proves and builds it, 'sh tools/quick_test.sh' tests unproved ones")
    names = names or sorted(path.stem for path in HERE.glob("*_tests.py"))
    tests = [test for name in names for test in tests_of(name)]
    failed = sum(fails(name, test) for name, test in tests)
    print(f"tests/: {len(tests) - failed} tests passed, {failed} failed")
    return 1 if failed or not tests else 0


if __name__ == "__main__":
    sys.exit(main(*sys.argv[1:]))
