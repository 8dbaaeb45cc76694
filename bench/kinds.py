#!/usr/bin/env python3
"""Writes the requests that make a large keyspace of one kind, for a real server to save or load.

usage: bench/kinds.py strings|hashes|sorted_set|list|streams|groups

1,000,000 short strings, 100,000 hashes of ten fields, a sorted set of 1,000,000 members, a list of 1,000,000 elements, 1,000 streams of
1,000 entries each, or a stream with a group of 1,000 consumers that have 100 pending entries each; values have 32 bytes. Each run writes the same.
"""
import sys
from random import Random

from resp import request

KEYS = 1_000_000
ENTRIES = 100_000
DICE = Random(1)


def value():
    return b"%032x" % DICE.getrandbits(128)


def hash_of_ten(number):
    fields = [word for field in range(10) for word in (b"field%d" % field, value())]
    return request(b"HSET", b"hash:%d" % number, *fields)


def group_of_many(number):
    if number < ENTRIES:
        return request(b"XADD", b"x", b"%d-0" % (number + 1), b"field", value())
    if number == ENTRIES:
        return request(b"XGROUP", b"CREATE", b"x", b"g", b"0")
    return request(b"XREADGROUP", b"GROUP", b"g", b"consumer:%d" % number, b"COUNT", b"100", b"STREAMS", b"x", b">")


KINDS = {
    "strings": (KEYS, lambda n: request(b"SET", b"key:%d" % n, value())),
    "hashes": (KEYS // 10, hash_of_ten),
    "sorted_set": (KEYS, lambda n: request(b"ZADD", b"z", b"%d" % DICE.randrange(10**9), b"member:%d" % n)),
    "list": (KEYS, lambda n: request(b"RPUSH", b"l", value())),
    "streams": (KEYS, lambda n: request(b"XADD", b"stream:%d" % (n % 1000), b"%d-0" % (n + 1), b"field", value())),
    "groups": (ENTRIES + 1001, group_of_many),
}


def main():
    count, asked = KINDS[sys.argv[1]]
    for number in range(count):
        sys.stdout.buffer.write(asked(number))


if __name__ == "__main__":
    main()
