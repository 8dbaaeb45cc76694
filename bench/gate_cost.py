#!/usr/bin/env python3
"""Runs a command (rt ci, say) and tells the processor minutes that its checks took, a line a crate.

usage: bench/gate_cost.py OUTPUT COMMAND..

Each second the processes of the toolchain below the command are looked at in /proc, and the processor time of each is kept
as it was seen last. The kind of a check is read off its command line and its folder: a library or program, its tests, or a
must-fail edit. What a process does in its last second isn't seen, so the sums are a little low. Linux alone.
"""
import os
import subprocess
import sys
import time

TICKS = os.sysconf("SC_CLK_TCK")
KINDS = ["libraries", "tests", "edits"]


def read(path):
    try:
        with open(path, "rb") as file:
            return file.read()
    except OSError:
        return b""


def stat(pid):
    """The parent and the processor seconds of a process and of its children that ended, or None."""
    text = read(f"/proc/{pid}/stat").decode(errors="replace")
    if not text:
        return None
    fields = text[text.rindex(")") + 2:].split()
    return int(fields[1]), sum(int(fields[i]) for i in range(11, 15)) / TICKS


def below(root):
    """The processes below one, with their parents."""
    parents = {}
    for name in os.listdir("/proc"):
        if name.isdigit():
            found = stat(int(name))
            if found:
                parents[int(name)] = found[0]
    own, grew = {root}, True
    while grew:
        more = {pid for pid, parent in parents.items() if parent in own} - own
        grew = bool(more)
        own |= more
    return own


def check_of(pid):
    """The crate and the kind of a check of the toolchain, or None."""
    words = read(f"/proc/{pid}/cmdline").decode(errors="replace").split("\0")
    if not os.path.basename(words[0]) == "rattle" or "--crate-name" not in words:
        return None
    crate = words[words.index("--crate-name") + 1]
    try:
        folder = os.readlink(f"/proc/{pid}/cwd")
    except OSError:
        return None
    if "/rt-edit-" in folder:
        return crate, "edits"
    return crate, "tests" if "--test" in words else "libraries"


def sample(root, seen):
    for pid in below(root):
        check = check_of(pid)
        found = stat(pid)
        if check and found:
            seen[(pid, *check)] = max(found[1], seen.get((pid, *check), 0.0))


def table(seen):
    crates = {}
    for (_, crate, kind), seconds in seen.items():
        crates.setdefault(crate, dict.fromkeys(KINDS, 0.0))[kind] += seconds / 60
    lines = ["| Crate | " + " | ".join(KINDS) + " | together |", "|---|---|---|---|---|"]
    rows = sorted(crates.items(), key=lambda row: -sum(row[1].values()))
    sums = {kind: sum(row[kind] for _, row in rows) for kind in KINDS}
    for name, row in [("all", sums)] + rows:
        cells = [f"{row[kind]:.1f}" for kind in KINDS] + [f"{sum(row.values()):.1f}"]
        lines.append(f"| {name} | " + " | ".join(cells) + " |")
    return "\n".join(lines) + "\n"


def main():
    if len(sys.argv) < 3:
        sys.exit(__doc__)
    begun = time.time()
    run = subprocess.Popen(sys.argv[2:])
    seen = {}
    while run.poll() is None:
        sample(run.pid, seen)
        time.sleep(1)
    with open(sys.argv[1], "w") as file:
        file.write(f"Processor minutes; {(time.time() - begun) / 60:.0f} minutes went by.\n\n" + table(seen))
    sys.exit(run.returncode)


if __name__ == "__main__":
    main()
