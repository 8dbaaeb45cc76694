#!/usr/bin/env python3
"""How fast one of several sessions is answered: requests a second of pipelined SET and GET through the program of several sessions, beside the
program of one stream; and what keys that another session watches cost.

usage: bench/session_speed.py [requests] [turns]

The same requests, of values of 32 bytes over 1,000 keys, go to both programs, to the one of several sessions in pieces of 64 KiB by session 1. Then
session 0 watches 1,000 keys first: other ones, and those that are written. Each turn is a whole run from a file to a file; the median of the
turns counts, of the time that passes. The replies are compared.
"""
import os
import random
import statistics
import struct
import subprocess
import sys
import tempfile
import time

# nothing is left beside the sources
sys.dont_write_bytecode = True
from resp import request  # noqa: E402

HERE = os.path.dirname(os.path.abspath(__file__))
ONE, SEVERAL = (os.path.abspath(f"{HERE}/../crates/{name}/out/{name}") for name in ("redis_core_cli", "redis_sessions"))
KEYS = 1000
PIECE = 65536


def piece(session, data):
    return struct.pack("<HI", session, len(data)) + data


def pieces(session, data):
    return b"".join(piece(session, data[at : at + PIECE]) for at in range(0, len(data), PIECE))


def told_to(session, units):
    """The replies to one session, one behind the other."""
    replies, at = [], 0
    while at < len(units):
        number, length = struct.unpack_from("<HQ", units, at)
        if number == session:
            replies.append(units[at + 10 : at + 10 + length])
        at += 10 + length
    return b"".join(replies)


def key(number):
    return b"key:%012d" % number


def watching(name):
    return piece(0, b"".join(request(b"WATCH", name(number)) for number in range(KEYS)))


def run(program, source, sink):
    start = time.monotonic()
    with open(source, "rb") as stdin, open(sink, "wb") as stdout:
        subprocess.run([program], stdin=stdin, stdout=stdout, check=True)
    return time.monotonic() - start


def main():
    count = int(sys.argv[1]) if len(sys.argv) > 1 else 600_000
    turns = int(sys.argv[2]) if len(sys.argv) > 2 else 5
    draw = random.Random(1)
    stream = b"".join(
        request(b"SET", key(draw.randrange(KEYS)), b"%032d" % draw.randrange(10**9))
        if number % 2
        else request(b"GET", key(draw.randrange(KEYS)))
        for number in range(count)
    )
    asked = pieces(1, stream)
    inputs = [
        ("one stream", ONE, stream),
        ("one session", SEVERAL, asked),
        ("one session, 1,000 other keys are watched", SEVERAL, watching(lambda number: b"other:%010d" % number) + asked),
        ("one session, its 1,000 keys are watched", SEVERAL, watching(key) + asked),
    ]
    with tempfile.TemporaryDirectory() as room:
        first = None
        seconds = [[] for _ in inputs]
        for number, (_, _, data) in enumerate(inputs):
            with open(f"{room}/{number}", "wb") as file:
                file.write(data)
        for _ in range(turns):
            for number, (_, program, _) in enumerate(inputs):
                seconds[number].append(run(program, f"{room}/{number}", f"{room}/replies"))
                with open(f"{room}/replies", "rb") as file:
                    replies = file.read()
                replies = told_to(1, replies) if number else replies
                first = first or replies
                if replies != first:
                    sys.exit(f"{inputs[number][0]}: other replies")
    medians = [statistics.median(each) for each in seconds]
    for (name, _, _), median in zip(inputs, medians):
        print(f"{name}: {count / median:,.0f} requests a second, {medians[0] / median:.2f} of the program of one stream")


if __name__ == "__main__":
    main()
