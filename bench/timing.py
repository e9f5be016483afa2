"""What the scripts beside it share: where a program stands, and its time and memory over texts."""
import os
import subprocess
import tempfile
import time


def program(crate):
    return os.path.join(os.path.dirname(__file__), "..", "crates", crate, "out", crate)


def repeated(first, byte, count, last=b""):
    """The byte so often, in whole thousands, between the others."""
    yield first
    yield from (byte * 1000 for _ in range(count // 1000))
    yield last


def time_texts(command, texts, shown=False):
    """Runs the command over each text, given as (name, pieces), and prints what it took, and its output where it is shown."""
    for name, pieces in texts:
        with tempfile.TemporaryFile() as source, tempfile.TemporaryFile() as sink:
            for piece in pieces:
                source.write(piece)
            size = source.tell()
            source.seek(0)
            start = time.monotonic()
            process = subprocess.Popen(command, stdin=source, stdout=sink if shown else subprocess.DEVNULL)
            _, status, usage = os.wait4(process.pid, 0)
            seconds = time.monotonic() - start
            sink.seek(0)
            output = sink.read().decode().strip()
        told = f"{output}, " if shown else ""
        code = os.waitstatus_to_exitcode(status)
        print(f"{name}: {size / 1e6:.1f} MB of text, {told}{seconds:.2f} s, {usage.ru_maxrss / 1e3:.0f} MB, status {code}")
