#!/usr/bin/env python3
"""Refuses memory in a run of the program of several sessions with an EXEC in it: each call of malloc or realloc in turn, one a run.

usage: bench/session_memory.py LIBRARY, as bench/fail_alloc.sh calls it; LIBRARY refuses the call whose number FAIL_ALLOC gives

Each run must end with all units, or with status 8, its line and whole units of the first requests. Prints how many ended so amid the commands of
the EXEC, which must be some: then none of its replies is told.
"""
import contextlib
import os
import struct
import subprocess
import sys

# nothing is left beside the sources
sys.dont_write_bytecode = True
from sessions import OK, PROGRAM, QUEUED, asked, told  # noqa: E402

FULL = b"redis-core: out of memory\n"
REFUSED = b"refused\n"
QUEUE = ["SET a " + "x" * 100, "RPUSH l 1 2 3", "HSET h f v", "ZADD z 1 m", "XADD s 1-1 f v"]
BEFORE = asked((0, "WATCH w"), (0, "MULTI"), *((0, command) for command in QUEUE))
ANSWERED = told((0, OK), (0, OK), *((0, QUEUED) for _ in QUEUE))
BEHIND = asked((0, "EXEC"), (1, "GET a"), (1, "QUIT"))


def boundaries(units):
    """The places behind whole units."""
    places, at = [0], 0
    while at < len(units):
        at += 10 + struct.unpack_from("<Q", units, at + 2)[0]
        places.append(at)
    return places


def run(library, number):
    """The EXEC is sent when what came before it is answered, so that this was put."""
    environment = {**os.environ, "LD_PRELOAD": library, "FAIL_ALLOC": str(number)}
    pipes = {"stdin": subprocess.PIPE, "stdout": subprocess.PIPE, "stderr": subprocess.PIPE}
    running = subprocess.Popen([PROGRAM], env=environment, **pipes)
    units = b""
    for asked_now, length in ((BEFORE, len(ANSWERED)), (BEHIND, 0)):
        with contextlib.suppress(BrokenPipeError):
            running.stdin.write(asked_now)
            running.stdin.flush()
        units += running.stdout.read(length)
    more, notes = running.communicate()
    return units + more, notes, running.returncode


def main():
    library = sys.argv[1]
    wanted, notes, status = run(library, 0)
    if (notes, status) != (b"", 0):
        sys.exit(f"with none refused: status {status}, {notes!r}")
    places = boundaries(wanted)
    number, amid = 0, 0
    while True:
        number += 1
        units, notes, status = run(library, number)
        if notes == b"":
            break
        whole = status == 0 and units == wanted and notes == REFUSED
        short = status == 8 and len(units) in places and wanted.startswith(units) and notes == REFUSED + FULL
        # memory wants for the program's own words and files, before anything is served
        unserved = units == b"" and status in (1, 8)
        if not (whole or short or unserved):
            sys.exit(f"{number}: status {status}, {len(units)} bytes of units, {notes!r}")
        amid += short and units == ANSWERED
    if not amid:
        sys.exit("no run ended amid the commands of the EXEC")
    print(f"sessions: all {number - 1} allocations were refused in turn; {amid} runs ended amid the EXEC or behind it, with none of its replies told")


if __name__ == "__main__":
    main()
