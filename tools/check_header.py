#!/usr/bin/env python3
"""Compares include/swsusp.h with the sources of crates/swsusp_c: the fields of each struct by name, type and order, which under `repr(C)`
give each field its offset; the sizes that both give; the constants; and the functions. Prints what differs; the status is then 1.
"""
import os
import re
import sys

TOP = os.path.join(os.path.dirname(os.path.abspath(__file__)), "..")
TYPES = {"u8": "uint8_t", "u32": "uint32_t", "u64": "uint64_t"}


def read(name):
    with open(os.path.join(TOP, name), encoding="utf-8") as file:
        return file.read()


def c_name(name):
    """Returns the header's name of a source's type: SwsuspCall becomes swsusp_call; FrameRange is boot_resume's."""
    return "swsusp_range" if name == "FrameRange" else re.sub(r"(?<!^)(?=[A-Z])", "_", name).lower()


def c_type(rattle):
    """Returns the type of an element, and the lengths of the arrays around it, the outermost first."""
    lengths = []
    while rattle.startswith("["):
        rattle, length = re.fullmatch(r"\[(.*); (\w+)\]", rattle).groups()
        lengths.append(length)
    return TYPES.get(rattle) or "struct " + c_name(rattle), lengths


def rattle_structs(text):
    structs = {}
    for name, body in re.findall(r"#\[repr\(C\)\]\n#\[derive\([^\n]*\)\]\npub struct (\w+) \{\n(.*?)\n\}", text, re.S):
        structs[c_name(name)] = [(field,) + c_type(kind) for field, kind in re.findall(r"^ +pub (\w+): (.*),$", body, re.M)]
    return structs


def c_structs(text):
    structs = {}
    for name, body in re.findall(r"^struct (\w+) \{\n(.*?)\n\};", text, re.S | re.M):
        fields = re.findall(r"^ +((?:struct )?\w+) (\w+)((?:\[\w+\])*);", body, re.M)
        structs[name] = [(field, kind, re.findall(r"\[(\w+)\]", lengths)) for kind, field, lengths in fields]
    return structs


def written_out(structs, constants):
    """Returns the structs, with the lengths of their arrays as numbers."""
    return {
        name: [(field, kind, [int(constants.get(length, length)) for length in lengths]) for field, kind, lengths in fields]
        for name, fields in structs.items()
    }


def variant_codes(source, kind, prefix, number):
    """Returns the numbers that the variants of an enum stand for, by their names in the header."""
    form = r"\b%s::(\w+)(?:\s*\{[^}]*\}|\([^)]*\))? => %s(\d+)" % (kind, number)
    return {prefix + c_name(name).upper(): int(n) for name, n in re.findall(form, source)}


def main():
    header = re.sub(r"/\*.*?\*/", "", read("include/swsusp.h"), flags=re.S)
    folder = "crates/swsusp_c/src"
    source = "".join(read(os.path.join(folder, name)) for name in sorted(os.listdir(os.path.join(TOP, folder))))
    ranges = read("crates/boot_resume/src/machine.rt")
    sizes = {c_name(name): int(size) for name, size in re.findall(r"prove!\(size_of::<(\w+)>\(\) == (\d+)\)", source)}
    asserted = {name: int(size) for name, size in re.findall(r"SWSUSP_SIZE\((\w+), (\d+)\)", header)}
    codes = {"SWSUSP_" + name: int(n) for name, n in re.findall(r"const (\w+): u32 = (\d+);", source)}
    variants = re.findall(r"(?:Cause|Field|Left)::(\w+)(?: \{[^}]*\})? => (?:refused\()?(\d+)", source)
    for name, n in variants:
        word = "ARCHITECTURE_MISMATCH" if name == "Architecture" else c_name(name).upper()
        codes["SWSUSP_" + word] = int(n)
    codes.update(variant_codes(source, "Finding", "SWSUSP_FOUND_", r"(?:\{\s*let[^;]*;\s*)?(?:four|at_place)\(\s*"))
    codes.update(variant_codes(source, "BlockFault", "SWSUSP_BLOCK_", r"\("))
    codes.update(variant_codes(source, "AreaFault", "SWSUSP_FAULT_", r"\("))
    codes.update(variant_codes(source, "Kind", "SWSUSP_STREAM_", ""))
    told = {name: int(n) for name, n in re.findall(r"(SWSUSP_\w+) = (\d+)", header)}
    ours = dict(re.findall(r"const (\w+): usize = (\d+);", source))
    theirs = dict(re.findall(r"#define (SWSUSP_\w+) (\d+)", header))
    wanted = [
        ("structs", written_out(rattle_structs(source + ranges), ours), written_out(c_structs(header), theirs)),
        ("sizes", sizes, asserted),
        ("codes", codes, {name: told.get(name) for name in codes}),
        ("functions", set(re.findall(r'pub extern "C" fn (\w+)', source)), set(re.findall(r"^(?:void|uint32_t) (\w+)\(", header, re.M))),
    ]
    differ = [(what, crate, declared) for what, crate, declared in wanted if crate != declared]
    for what, crate, declared in differ:
        print("%s differ\n  swsusp_c:  %s\n  swsusp.h:  %s" % (what, crate, declared))
    if set(sizes) != set(c_structs(header)):
        print("a struct without its size: %s" % sorted(set(c_structs(header)) ^ set(sizes)))
        differ.append("sizes")
    print("include/swsusp.h: %d structs, %d codes, %d functions compared, %d differences"
          % (len(c_structs(header)), len(codes), len(wanted[3][1]), len(differ)))
    return 1 if differ else 0


if __name__ == "__main__":
    sys.exit(main())
