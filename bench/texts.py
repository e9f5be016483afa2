#!/usr/bin/env python3
"""Times what `trace_text::parse` makes of texts of growing length, and of texts near the greatest, 67,108,864 bytes. Run it
after `rt run` in crates/text_bench.

The gate does not run it."""
from timing import program, repeated, time_texts

MOST = 67_108_864
OPENING = b"angle-trace 1\n" + b"".join(b"thread %d group 0\n" % t for t in range(16)) + b"begin\n"


def calls(count, words):
    """So many calls, on 16 threads in turn: a thread has 65,536 at most."""
    yield OPENING
    for i in range(0, count, 16):
        yield b"".join(b"%d %s\n" % (thread, words) for thread in range(16))
    yield b"end\n"


def one_store(size):
    yield OPENING
    yield b"0 bdata copy_read %d static_draw " % size
    yield from (b"ab" * 1000 for _ in range(size // 1000))
    yield b"\nend\n"


TEXTS = [
    ("10,000 calls", calls(10_000, b"bdata copy_read 8 static_draw 0102030405060708")),
    ("100,000 calls", calls(100_000, b"bdata copy_read 8 static_draw 0102030405060708")),
    ("1,000,000 calls", calls(1_000_000, b"bdata copy_read 8 static_draw 0102030405060708")),
    ("1,000,000 short calls", calls(1_000_000, b"flush")),
    ("1,048,576 calls of 60 bytes", calls(1_048_576, b"bdata copy_read 13 static_draw 01020304050607080910111213")),
    ("data of 33,000,000 bytes", one_store(33_000_000)),
    ("line feeds", repeated(OPENING, b"\n", MOST - 1000, b"end\n")),
    ("one line of spaces", repeated(OPENING, b" ", MOST - 1000, b"\nend\n")),
    ("one number", repeated(OPENING + b"0 bind copy_read ", b"1", MOST - 1000, b"\nend\n")),
]

time_texts([program("text_bench")], TEXTS, shown=True)
