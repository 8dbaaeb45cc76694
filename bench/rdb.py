#!/usr/bin/env python3
"""Writes a file of the RDB format, version 11, of string keys in database 0 to standard output.

usage: rdb.py strings              a small file with each form of a string; bench/strings.rdb was made so
       rdb.py long MIB [unsummed]  one key `a` whose value has so many MiB; unsummed: with zeros in place of its checksum
"""
import random
import sys

MIB = 1 << 20
# the polynomial ad93d23594c935a9 with its bits reversed
POLYNOMIAL = 0x95AC9329AC4BC9B5


def bit_steps(state):
    for _ in range(8):
        state = (state >> 1) ^ (POLYNOMIAL if state & 1 else 0)
    return state


TABLE = [bit_steps(byte) for byte in range(256)]


def crc(state, data):
    for byte in data:
        state = (state >> 8) ^ TABLE[(state ^ byte) & 255]
    return state


def image(columns, state):
    """The exclusive or of the columns at the bits that are set."""
    total = 0
    for column in columns:
        if state & 1:
            total ^= column
        state >>= 1
    return total


def crc_of_turns(state, block, turns):
    """The CRC of a block of one MiB that is repeated: a MiB of zeros maps the states linearly."""
    columns = [crc(1 << bit, b"\0") for bit in range(64)]
    for _ in range(20):
        columns = [image(columns, column) for column in columns]
    alone = crc(0, block)
    for _ in range(turns):
        state = image(columns, state) ^ alone
    return state


def text(data):
    if len(data) < 64:
        return bytes([len(data)]) + data
    if len(data) < 1 << 14:
        return bytes([64 | len(data) >> 8, len(data) & 255]) + data
    return b"\x80" + len(data).to_bytes(4, "big") + data


def strings():
    numbers = {b"\xc0": (-5, 1), b"\xc1": (1000, 2), b"\xc2": (-70_000, 4)}
    body = b"REDIS0011\xfe\x00"
    body += b"\0" + text(b"hello") + text(b"world")
    body += b"\0" + text(b"") + text(b"the empty key")
    body += b"\0" + text(b"long") + text(b"0123456789" * 10)
    for mark, (number, width) in numbers.items():
        name = b"number%d" % (8 * width)
        body += b"\0" + text(name) + mark + number.to_bytes(width, "little", signed=True)
    body += b"\xff"
    return body + crc(0, body).to_bytes(8, "little")


def long(turns, summed, out):
    block = random.Random(1).randbytes(MIB)
    head = b"REDIS0011\xfe\x00\x00\x01a\x80" + (turns * MIB).to_bytes(4, "big")
    out.write(head)
    for _ in range(turns):
        out.write(block)
    state = crc(crc_of_turns(crc(0, head), block, turns), b"\xff") if summed else 0
    out.write(b"\xff" + state.to_bytes(8, "little"))


def main():
    words = sys.argv[1:]
    if words == ["strings"]:
        sys.stdout.buffer.write(strings())
    elif words[:1] == ["long"] and len(words) > 1:
        long(int(words[1]), words[2:] != ["unsummed"], sys.stdout.buffer)
    else:
        sys.exit(__doc__)


if __name__ == "__main__":
    main()
