#!/usr/bin/env python3
"""The lines of `--generate N --seed S`, worked out apart from the program.

usage: generated.py N SEED [FILE], which also writes the commands into a file as requests in RESP2, for a server

A plain model of its own: PCG XSH RR 64/32 seeded as rand_core seeds from one number, Redis's replies over Python's
dictionaries, and CRC-64 of Jones bit by bit. It shares no code with the program.
"""
import sys

# nothing is left beside the sources
sys.dont_write_bytecode = True
from resp import request  # noqa: E402

MASK64 = (1 << 64) - 1
MULTIPLIER = 6364136223846793005


def rotated(word, by):
    return ((word >> by) | (word << (32 - by))) & 0xFFFFFFFF


def output(state):
    return rotated((((state >> 18) ^ state) >> 27) & 0xFFFFFFFF, state >> 59)


class Pcg32:
    def __init__(self, number):
        words = []
        for _ in range(4):
            number = (number * MULTIPLIER + 11634580027462260723) & MASK64
            words.append(output(number))
        state = words[0] | words[1] << 32
        self.increment = (words[2] | words[3] << 32) | 1
        self.state = (state + self.increment) & MASK64
        self.step()

    def step(self):
        self.state = (self.state * MULTIPLIER + self.increment) & MASK64

    def next_word(self):
        state = self.state
        self.step()
        return output(state)


def crc_table():
    table = []
    for byte in range(256):
        for _ in range(8):
            byte = byte >> 1 ^ (0x95AC9329AC4BC9B5 if byte & 1 else 0)
        table.append(byte)
    return table


def bulk(text):
    return "$-1\r\n" if text is None else "$%d\r\n%s\r\n" % (len(text), text)


def bulks(texts):
    return "*%d\r\n" % len(texts) + "".join(bulk(text) for text in texts)


def number(n):
    return ":%d\r\n" % n


def added(collection, one):
    new = one not in collection
    collection.add(one)
    return number(int(new))


def answer(store, w, x, moment):
    """The reply to the command that two words say, at the moment of its number."""
    kind, k = w % 16, w // 16 % 1000
    at = lambda letter, empty: store.setdefault("%s:%d" % (letter, k), empty)
    there = lambda letter, empty: store.get("%s:%d" % (letter, k), empty)
    if kind <= 2:
        store["s:%d" % k] = str(x)
        return "+OK\r\n"
    if kind <= 4:
        return bulk(there("s", None))
    if kind == 5:
        store["n:%d" % k] = there("n", 0) + x % 1000
        return number(store["n:%d" % k])
    if kind == 6:
        at("l", []).append(str(x))
        return number(len(at("l", [])))
    if kind == 7:
        return bulks(there("l", [])[:10])
    if kind == 8:
        return added(at("t", set()), str(x % 64))
    if kind == 9:
        return number(int(str(x % 64) in there("t", ())))
    if kind == 10:
        fields = at("h", {})
        new = "f%d" % (x % 32) not in fields
        fields["f%d" % (x % 32)] = str(x)
        return number(int(new))
    if kind == 11:
        return bulk(there("h", {}).get("f%d" % (x % 32)))
    if kind == 12:
        scores = at("z", {})
        new = "m%d" % (x % 64) not in scores
        scores["m%d" % (x % 64)] = x % 1000
        return number(int(new))
    if kind == 13:
        return bulks([m for m, _ in sorted(there("z", {}).items(), key=lambda e: (e[1], e[0]))[:10]])
    if kind == 14:
        at("x", [])
        return bulk("%d-0" % moment)
    return number(int(store.pop("%s:%d" % ("snlthz"[x % 6], k), None) is not None))


# the words of each kind of command, for a key's number k and a word x
WORDS = ["SET s:{k} {x}"] * 3 + ["GET s:{k}"] * 2 + [
    "INCRBY n:{k} {x1000}", "RPUSH l:{k} {x}", "LRANGE l:{k} 0 9", "SADD t:{k} {x64}", "SISMEMBER t:{k} {x64}",
    "HSET h:{k} f{x32} {x}", "HGET h:{k} f{x32}", "ZADD z:{k} {x1000} m{x64}", "ZRANGE z:{k} 0 9", "XADD x:{k} * f {x}",
    "DEL {letter}:{k}"]


def words(w, x):
    """The words of the command that two words of the dice say."""
    parts = {"k": w // 16 % 1000, "x": x, "x1000": x % 1000, "x64": x % 64, "x32": x % 32, "letter": "snlthz"[x % 6]}
    return WORDS[w % 16].format(**parts).encode().split()


def main():
    count, seed = int(sys.argv[1]), int(sys.argv[2])
    requests = open(sys.argv[3], "wb") if len(sys.argv) > 3 else None
    dice, store, table, crc = Pcg32(seed), {}, crc_table(), 0
    for moment in range(1, count + 1):
        w = dice.next_word()
        x = dice.next_word()
        if requests:
            requests.write(request(*words(w, x)))
        for byte in answer(store, w, x, moment).encode():
            crc = table[(crc ^ byte) & 255] ^ crc >> 8
    print("commands %d\nkeys %d\ncrc %016x" % (count, len(store), crc))


main()
