"""Processor seconds of a merge gate, crate by crate.

    python3 bench/gate.py watch FILE [PID]    beside a running `rt ci` (PID: which one, where several are at work)
    python3 bench/gate.py table FILE..        afterwards, over what one or several runs took

`watch` looks once a second at the processor time of each check that the gate started, as `top` would, and writes what it
last saw of each to FILE. It goes on from what FILE has, and ends with the gate. What a check uses after the last look at
it is lost: a second at most. `table` adds the seconds up: for each crate the proof of the library, the proof of the
library with its tests, and the must-fail edits, each with the number of checks. What the built tests and programs use
as they run is not in it.
"""
import json
import os
import sys
import time

TICKS = os.sysconf("SC_CLK_TCK")
KINDS = ["library", "tests", "edits"]


def read(path):
    with open(path, "rb") as file:
        return file.read()


def processes():
    """Each process by its number: its parent, its start, its processor seconds with those of the children that have ended,
    the words of its command line, and its folder."""
    found = {}
    for pid in filter(str.isdigit, os.listdir("/proc")):
        try:
            fields = read(f"/proc/{pid}/stat").rpartition(b")")[2].split()
            words = read(f"/proc/{pid}/cmdline").decode(errors="replace").split("\0")
            folder = os.readlink(f"/proc/{pid}/cwd")
        except OSError:
            continue
        seconds = sum(map(int, fields[11:15])) / TICKS
        found[int(pid)] = (int(fields[1]), int(fields[19]), seconds, words, folder)
    return found


def gate(found):
    """The process of an `rt ci` that runs."""
    for pid, (_, _, _, words, _) in found.items():
        if any(os.path.basename(a) == "rt" and b == "ci" for a, b in zip(words, words[1:])):
            return pid
    return None


def checks(found, root):
    """The checks that the gate has at work, each with the processor seconds of all that it started."""
    seconds = {}
    for pid, row in found.items():
        top = pid
        while top in found and found[top][0] != root:
            top = found[top][0]
        if top in found:
            seconds[top] = seconds.get(top, 0) + row[2]
    for top, used in seconds.items():
        _, start, _, words, folder = found[top]
        if "--crate-name" in words:
            yield f"{top} {start}", *kind(words, folder), used


def kind(words, folder):
    """The crate that is checked, and what for. An edit is checked in a folder of its own."""
    name = words[words.index("--crate-name") + 1]
    if os.path.basename(folder) != name:
        return name, "edits"
    return name, "tests" if "--test" in words else "library"


def seen_in(path):
    if not os.path.exists(path):
        return {}
    with open(path) as file:
        return json.load(file)


def watch(path, root):
    seen = seen_in(path)
    found = processes()
    root = root or gate(found)
    while root in found:
        for key, *row in checks(found, root):
            seen[key] = row
        with open(path + ".new", "w") as file:
            json.dump(seen, file)
        os.replace(path + ".new", path)
        time.sleep(1)
        found = processes()


def table(paths):
    crates = {}
    for path in paths:
        for name, what, seconds in seen_in(path).values():
            cells = crates.setdefault(name, {k: [0, 0] for k in KINDS})
            cells[what][0] += seconds
            cells[what][1] += 1
    print("| Crate | " + " | ".join(KINDS) + " |")
    print("|---|" + "---:|" * len(KINDS))
    for name, cells in sorted(crates.items(), key=lambda c: -sum(s for s, _ in c[1].values())):
        print(f"| {name} | " + " | ".join(f"{s:.0f} ({n})" if n else "" for s, n in cells.values()) + " |")


if __name__ == "__main__":
    if sys.argv[1:2] == ["watch"] and len(sys.argv) in (3, 4):
        watch(sys.argv[2], int(sys.argv[3]) if len(sys.argv) == 4 else None)
    elif sys.argv[1:2] == ["table"] and len(sys.argv) > 2:
        table(sys.argv[2:])
    else:
        sys.exit(__doc__)
