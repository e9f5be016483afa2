#!/usr/bin/env python3
"""Times runs of traces of growing length, and of texts of the greatest length. Run it after `rt run` in crates/angle_run.

The gate does not run it."""
from timing import program, repeated, time_texts

OPENING = b"angle-trace 1\nthread 0 group 0\nbegin\n0 ecreate 1\n0 ecurrent 1\n"


def calls(count):
    """Calls on buffers of 8 bytes, each time of another name."""
    yield OPENING
    for i in range(count // 5):
        name = 1 + (i * 7919) % 100000
        yield (
            b"0 bind copy_read %d\n0 bdata copy_read 8 static_draw 0102030405060708\n"
            b"0 bmap copy_read 0 8 r\n0 mread copy_read 2 4\n0 bunmap copy_read\n" % name
        )
    yield b"end\n"


def copies(count):
    """Calls that write a part of a buffer of 8 bytes, copy it to another, and read that, with 1,000 names."""
    yield OPENING
    for i in range(count // 8):
        name = 1 + (i * 7919) % 1000
        yield (
            b"0 bind copy_read %d\n0 bdata copy_read 8 static_draw 0102030405060708\n0 bsub copy_read 2 aabb\n"
            b"0 bind copy_write %d\n0 bdata copy_write 8 static_draw null\n0 bcopy copy_read copy_write 0 0 8\n"
            b"0 bmap copy_write 0 8 r\n0 mread copy_write 2 4\n" % (name, name + 1)
        )
    yield b"end\n"


def recorded(count):
    """Calls that record copies and are not waited for until the end."""
    yield OPENING
    yield b"0 bind array 1\n0 bdata array 8 static_draw 0102030405060708\n"
    for i in range(count):
        yield b"0 bsub array %d ff\n" % (i % 8)
    yield b"0 bmap array 0 8 r\n0 mread array 0 8\nend\n"


def one_store(size):
    """One buffer, filled and read whole."""
    yield OPENING
    yield b"0 bind copy_read 1\n0 bdata copy_read %d static_draw " % size
    yield from (b"ab" * 1000 for _ in range(size // 1000))
    yield b"\n0 bmap copy_read 0 %d r\n0 mread copy_read 0 %d\n0 bunmap copy_read\nend\n" % (size, size)


# a thread makes at most 65,536 calls
TEXTS = [
    ("6,500 calls", calls(6_500)),
    ("65,000 calls", calls(65_000)),
    ("6,500 calls with copies", copies(6_500)),
    ("65,000 calls with copies", copies(65_000)),
    ("6,500 writes of a part", recorded(6_500)),
    ("65,000 writes of a part", recorded(65_000)),
    ("a store of 16,000,000 bytes", one_store(16_000_000)),
    ("67 MB of line feeds", repeated(b"", b"\n", 67_000_000)),
    ("67 MB, one line of spaces", repeated(OPENING, b" ", 67_000_000)),
]

time_texts([program("angle_run"), "once", "--seed", "0"], TEXTS)
