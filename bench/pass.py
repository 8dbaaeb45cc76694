#!/usr/bin/env python3
"""Writes requests in RESP2 into two files: one sets keys to values of mixed lengths, the other deletes half of them in a mixed
order.

usage: pass.py KEYS SETS DELETIONS
"""
import random
import sys

# nothing is left beside the sources
sys.dont_write_bytecode = True
from resp import request  # noqa: E402

# the shortest and the longest value, in bytes
SHORT, LONG = 8, 512


def name(number):
    return b"key:%012d" % number


def main():
    keys, sets, deletions = int(sys.argv[1]), sys.argv[2], sys.argv[3]
    dice = random.Random(1)
    with open(sets, "wb") as out:
        for i in range(keys):
            out.write(request(b"SET", name(i), b"v" * dice.randint(SHORT, LONG)))
    half = dice.sample(range(keys), keys // 2)
    with open(deletions, "wb") as out:
        for i in half:
            out.write(request(b"DEL", name(i)))


if __name__ == "__main__":
    main()
