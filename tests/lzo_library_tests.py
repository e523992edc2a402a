"""The codec of the tests and `swsusp_image` beside liblzo2: streams of the library are read, and those of lzo1x.py are read by the library.

Without liblzo2 (Debian's package liblzo2-2) the tests say so, and compare nothing.
"""
import ctypes
import ctypes.util
import random
import sys

import lzo1x
from compressed import EACH_KIND, UNIT, crafted, twin
from compressed_tests import check_streamed
from harness import check_same
from image_tests import Built, streamed
from inputs import PAGE

# The size of the working memory that each compressor of the library wants (lzo1x.h).
COMPRESSORS = {"lzo1x_1_compress": 16384 * 8, "lzo1x_1_11_compress": 2048 * 8, "lzo1x_1_12_compress": 4096 * 8, "lzo1x_1_15_compress": 32768 * 8,
               "lzo1x_999_compress": 14 * 16384 * 2}


def library():
    """Returns liblzo2, or None."""
    name = ctypes.util.find_library("lzo2")
    if not name:
        print("lzo_library_tests: nothing is compared: no liblzo2", file=sys.stderr)
    return ctypes.CDLL(name) if name else None


def compressed_by(lzo, name, content):
    out, size = ctypes.create_string_buffer(len(content) + len(content) // 16 + 67), ctypes.c_size_t()
    work = ctypes.create_string_buffer(COMPRESSORS[name])
    status = getattr(lzo, name)(content, ctypes.c_size_t(len(content)), out, ctypes.byref(size), work)
    check_same(f"the status of {name}", status, 0)
    return out.raw[: size.value]


def expanded_by(lzo, stream, room):
    """Returns the library's status, and the bytes."""
    out, size = ctypes.create_string_buffer(max(room, 1)), ctypes.c_size_t(room)
    status = lzo.lzo1x_decompress_safe(stream, ctypes.c_size_t(len(stream)), out, ctypes.byref(size), None)
    return status, out.raw[: size.value]


def texts():
    """Returns bytes of several kinds: none, few, runs, words of a small alphabet, pages of a plain image, and noise."""
    mixed = random.Random(49)
    spoken = b"".join(mixed.choice([b"page ", b"frame ", b"of ", b"the ", b"kernel "]) for _ in range(20000))[:UNIT]
    noise = mixed.randbytes(UNIT)
    yield from [b"", b"a", b"abc", b"abcd" * 5, bytes(PAGE), bytes(UNIT), spoken, noise]
    yield b"".join(spoken[k : k + 90] + noise[k : k + 30] for k in range(0, UNIT - 120, 120))
    yield b"".join(noise[:40000] + bytes(k) + noise[5:40000] for k in range(2))
    yield streamed(Built(600))[PAGE : PAGE + UNIT]


def test_streams_of_the_library_are_read():
    lzo = library()
    for content in texts() if lzo else ():
        for name in COMPRESSORS:
            stream = compressed_by(lzo, name, content)
            check_same(f"what {name} made of {len(content)} bytes", lzo1x.expand(stream, len(content)), content)


def test_the_library_reads_our_streams():
    lzo = library()
    for content in filter(None, texts() if lzo else ()):
        for stream in [lzo1x.compress(content), lzo1x.store(content)]:
            check_same(f"{len(content)} bytes", expanded_by(lzo, stream, len(content)), (0, content))
    for built in [crafted(EACH_KIND), crafted(EACH_KIND, begin_with_run=True)] if lzo else ():
        check_same("each kind", expanded_by(lzo, built.streams[0], len(built.content)), (0, built.content))


def test_the_library_finds_the_same_faults():
    """Every prefix of a stream, and streams with a flipped byte: if one reader expands them, so does the other, to the same bytes."""
    lzo = library()
    if not lzo:
        return
    built = crafted(EACH_KIND)
    stream, room = built.streams[0], len(built.content)
    flipped = [stream[:k] + bytes([stream[k] ^ mask]) + stream[k + 1 :] for k in range(len(stream)) for mask in [1, 4, 32, 128, 255]]
    for other in [*(stream[:k] for k in range(len(stream))), *flipped, stream + b"\0"]:
        status, content = expanded_by(lzo, other, room)
        try:
            check_same("the bytes", (status, content), (0, lzo1x.expand(other, room)))
        except lzo1x.Fault as fault:
            # The library knows no versions, and doesn't look at the length of an end marker.
            if fault.why not in (lzo1x.VERSIONED, lzo1x.BAD_END):
                check_same(f"{fault.why} at byte {fault.at}: the library's status {status}", status != 0, True)


def test_images_of_the_library_are_carried_over():
    lzo = library()
    for name in COMPRESSORS if lzo else ():
        plain = Built(600)
        for k, p in enumerate(plain.places[3:]):
            plain.blocks[p] = (b"page %d of the kernel's memory, " % k * 200)[:PAGE]
        built = twin(plain, packed=lambda _, unit: compressed_by(lzo, name, unit))
        check_streamed(built, streamed(plain))
