#!/usr/bin/env python3
"""Counts the instructions of fixed traces, and compares them with the figures below.

    bench/instructions.py PROGRAM

PROGRAM is the proved program, crates/angle_run/out/angle_run. The counts are those of `valgrind --tool=callgrind` over the whole
process, so reading the text and writing the replies are in them; for one program they are the same each time. Without valgrind
nothing is counted.
"""
import os
import shutil
import subprocess
import sys
import tempfile

FILL = "bdata array 16 static_draw 000102030405060708090a0b0c0d0e0f"
PART = "bsub array 3 aabb"


def trace(threads, lines):
    """A text of these threads, thread t in group t mod 8, each with a context and a buffer of its own number."""
    head = ["angle-trace 1"] + [f"thread {t} group {t % 8}" for t in range(threads)] + ["begin"]
    for t in range(threads):
        head += [f"{t} ecreate {t + 1}", f"{t} ecurrent {t + 1}", f"{t} bind array {t + 1}"]
    return "\n".join(head + lines + ["end", ""])


def stores(threads, calls):
    """New stores of 16 bytes, each with a write of a part behind it, the threads in turn."""
    turns = calls // (2 * threads)
    return trace(threads, [f"{t} {c}" for _ in range(turns) for t in range(threads) for c in (FILL, PART)])


def flushed(calls):
    """New stores, writes of a part and flushes."""
    return trace(1, [f"0 {c}" for _ in range(calls // 3) for c in (FILL, PART, "flush")])


def fences(calls):
    """Fences that are flushed, polled and deleted."""
    four = ("fence 1 gpu 0", "flush", "cwait 1 0 0", "delsync 1")
    return trace(1, [f"0 {c}" for _ in range(calls // 4) for c in four])


def parts(calls):
    """Writes of a part into one buffer."""
    return trace(1, [f"0 {FILL}"] + [f"0 {PART}"] * calls)


def mixed(calls):
    """Stores, a write of a part, a copy, a map and its read, over 200 names."""
    lines = []
    for k in range(calls // 9):
        source, target = k % 200 + 1, (k + 1) % 200 + 1
        lines += [
            f"0 bind copy_read {source}",
            "0 bdata copy_read 8 static_draw 0102030405060708",
            f"0 bind copy_write {target}",
            "0 bdata copy_write 8 static_draw 0000000000000000",
            "0 bsub copy_read 1 aabb",
            "0 bcopy copy_read copy_write 0 4 4",
            "0 bmap copy_write 0 8 r",
            "0 mread copy_write 0 8",
            "0 bunmap copy_write",
        ]
    return trace(1, lines)


# name, text, millions of instructions when the figure was taken
TRACES = [
    ("8,000 calls on stores of one thread", lambda: stores(1, 8000), 97),
    ("16,000 of them", lambda: stores(1, 16000), 197),
    ("64,000 of them", lambda: stores(1, 64000), 811),
    ("8,000 calls on stores of sixteen threads", lambda: stores(16, 8000), 102),
    ("16,000 of them", lambda: stores(16, 16000), 206),
    ("64,000 of them", lambda: stores(16, 64000), 854),
    ("3,000 calls on stores with flushes", lambda: flushed(3000), 31),
    ("6,000 of them", lambda: flushed(6000), 64),
    ("2,000 calls on fences", lambda: fences(2000), 7),
    ("20,000 of them", lambda: fences(20000), 67),
    ("4,000 writes of a part into one buffer", lambda: parts(4000), 58),
    ("60,000 of them", lambda: parts(60000), 1012),
    ("9,000 mixed calls over 200 names", lambda: mixed(9000), 76),
]


def count(program, text):
    with tempfile.TemporaryDirectory() as folder:
        words = ["valgrind", "--tool=callgrind", f"--callgrind-out-file={os.path.join(folder, 'out')}", program, "once", "--seed", "1"]
        run = subprocess.run(words, input=text.encode(), stdout=subprocess.DEVNULL, stderr=subprocess.PIPE, check=True)
    line = next(x for x in run.stderr.decode().splitlines() if "Collected" in x)
    return int(line.split(":")[1])


def main():
    if len(sys.argv) != 2:
        sys.exit(__doc__)
    if shutil.which("valgrind") is None:
        print("valgrind is missing: nothing was counted")
        return
    for name, text, figure in TRACES:
        million = count(os.path.abspath(sys.argv[1]), text()) / 1e6
        print(f"{name}: {million:.1f} million instructions ({figure} when the figure was taken)")


if __name__ == "__main__":
    main()
