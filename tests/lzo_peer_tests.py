"""Compressed images whose units another compressor wrote: liblzo2, from which the kernel's own comes. What the units expand to must be the same,
byte for byte. Without that library nothing is compared.
"""
import ctypes
import ctypes.util
import pathlib
import random

from compressed import UNIT, twin
from compressed_tests import check_streamed
from harness import check_same, programs
from image_tests import Built, streamed
from inputs import PAGE

# The size of each compressor's working memory (lzo1x.h), in bytes.
COMPRESSORS = {"lzo1x_1_compress": 131072, "lzo1x_1_15_compress": 262144, "lzo1x_999_compress": 458752}


def peer():
    name = ctypes.util.find_library("lzo2")
    return ctypes.CDLL(name) if name else None


def packed_by(library, name):
    """Returns a function that packs unit k by a compressor of the library."""
    def packed(_, unit):
        made = ctypes.create_string_buffer(len(unit) + len(unit) // 16 + 67)
        size = ctypes.c_size_t()
        work = ctypes.create_string_buffer(COMPRESSORS[name])
        status = getattr(library, name)(unit, ctypes.c_size_t(len(unit)), made, ctypes.byref(size), work)
        check_same(f"the status of {name}", status, 0)
        return made.raw[: size.value]
    return packed


def contents():
    """Returns pages of random bytes, of few bytes, of a program's code, of text, and of runs of many lengths."""
    rng = random.Random(20)
    program = pathlib.Path(programs["swsusp_image"]).read_bytes()
    text = pathlib.Path(__file__).read_bytes() * 40
    runs = b"".join(bytes([rng.randrange(256)]) * rng.randrange(1, 700) for _ in range(2000))
    few = bytes(rng.choice(b"abc") for _ in range(40 * PAGE))
    return [rng.randbytes(40 * PAGE), few, program[: 70 * PAGE], text[: 40 * PAGE], runs[: 40 * PAGE]]


def test_units_of_liblzo2():
    library = peer()
    if not library:
        return
    for content in contents():
        plain = Built(len(content) // PAGE)
        for k, place in enumerate(plain.places[2:]):
            plain.blocks[place] = content[PAGE * k : PAGE * (k + 1)]
        stream = streamed(plain)
        for name in COMPRESSORS:
            built = twin(plain, packed=packed_by(library, name))
            check_same("the units", len(built.streams), -(-(1 + len(content) // PAGE) * PAGE // UNIT))
            check_streamed(built, stream)
