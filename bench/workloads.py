#!/usr/bin/env python3
"""Writes requests of one workload in RESP2: those that prepare the keys into one file, and those that are measured into another,
and prints how many are measured.

usage: workloads.py set|get|incr|setex|expire|mset|mget|append|del|mix KEYS REQUESTS BYTES PREPARED MEASURED
       workloads.py lpush|pushpop|lrange|lindex|lpos KEYS REQUESTS BYTES PREPARED MEASURED ELEMENTS
       workloads.py zadd|zrescore|zrank|zrange|zbyscore|zincrby|zaddpop KEYS REQUESTS BYTES PREPARED MEASURED MEMBERS
       workloads.py sadd|sismember|spop|sinter KEYS REQUESTS BYTES PREPARED MEASURED MEMBERS
       workloads.py hset|hreset|hget|hgetall|hincrby KEYS REQUESTS BYTES PREPARED MEASURED FIELDS
       workloads.py xadd|xrange|xdel|xreadgroup KEYS REQUESTS BYTES PREPARED MEASURED ENTRIES

A key has 16 bytes, and a value as many as BYTES says; for INCR a value is a number. MSET and MGET name 10 keys. The mix is of 80
percent GET, 15 SET and 5 EXPIRE, with few keys that are named often. All keys are there before, but for those that DEL named.

Each key of the second line is a list of so many elements, each of as many bytes. LPUSH makes them longer; a push and a pop of the same
element are two requests, and the list stays as long. LRANGE tells 100 elements from any place on. LINDEX asks for the element in the
middle, and LPOS where that one stands, which is the only one of its kind.

Each key of the third line is a sorted set of so many members of as many bytes. ZADD adds a new member, or gives one that is there
another score; ZRANK, ZINCRBY ask for any member; ten members are told from a rank or from a score on. The lowest member is added and
taken off by two requests, and the set stays as large.

Each key of the fourth line is a set of so many members of as many bytes. SADD adds a new member; a new one and then any are put in and
taken off by two requests, and the set stays as large. SINTER joins it with one more set that is as large and shares a single member.

Each key of the fifth line is a hash of so many fields, which have as many bytes as their values; for HINCRBY a value is a number. HSET
adds a new field, or gives one that is there another value.

Each key of the last line is a stream of so many entries of two fields, whose values have as many bytes. XRANGE tells ten entries from
any on, and XDEL takes out one after the other in any order. A group reads the next ten and then acknowledges them by two requests; ask for half of all entries at most, lest a stream ends.
"""
import collections
import random
import sys

# nothing is left beside the sources
sys.dont_write_bytecode = True
from resp import request  # noqa: E402

# keys of an MSET and an MGET
GROUP = 10
SECONDS = b"100000"
# how uneven the choice of keys of the mix is: the number of a key is that of a power of a fair choice
SKEW = 4
# the workloads over lists, how many elements a request prepares, and how many LRANGE tells
LISTS = ("lpush", "pushpop", "lrange", "lindex", "lpos")
ZSETS = ("zadd", "zrescore", "zrank", "zrange", "zbyscore", "zincrby", "zaddpop")
SETS = ("sadd", "sismember", "spop", "sinter")
HASHES = ("hset", "hreset", "hget", "hgetall", "hincrby")
STREAMS = ("xadd", "xrange", "xdel", "xreadgroup")
PUSHED = 100
SCORES = 1_000_003
RANGE = 10
TOLD = 100
# the set that SINTER joins each other with, how many entries of each stream the group has read, and how many XDEL has taken out
OTHER = b"other"
read = collections.Counter()
taken = collections.Counter()
# XDEL goes round the entries by steps of this prime, and so meets each once
STEP = 7_919


def name(number):
    return b"key:%012d" % number


def value(number, length):
    return (b"%d" % number)[-length:].rjust(length, b"v")


def prepared(kind, keys, length):
    """A SET of each key."""
    for i in range(keys):
        yield request(b"SET", name(i), b"%d" % i if kind == "incr" else value(i, length))


def element(i, elements, length):
    """An element of a list: that in the middle equals no other."""
    return b"m" * length if i == elements // 2 else value(i, length)


def prepared_lists(_kind, keys, elements, length):
    """RPUSH of all elements of each list."""
    for i in range(keys):
        for first in range(0, elements, PUSHED):
            behind = min(first + PUSHED, elements)
            yield request(b"RPUSH", name(i), *[element(j, elements, length) for j in range(first, behind)])


def of_list(kind, i, key, dice, elements, length):
    """The requests of a workload over lists."""
    if kind == "lpush":
        return [request(b"LPUSH", key, value(i, length))]
    if kind == "pushpop":
        return [request(b"RPUSH", key, value(i, length)), request(b"RPOP", key)]
    if kind == "lrange":
        first = dice.randrange(max(elements - TOLD, 0) + 1)
        return [request(b"LRANGE", key, b"%d" % first, b"%d" % (first + TOLD - 1))]
    if kind == "lindex":
        return [request(b"LINDEX", key, b"%d" % (elements // 2))]
    return [request(b"LPOS", key, b"m" * length)]


def prepared_zsets(_kind, keys, members, length):
    """ZADD of all members of each sorted set."""
    for i in range(keys):
        for first in range(0, members, PUSHED):
            behind = min(first + PUSHED, members)
            pairs = [(b"%d" % (j * 7919 % SCORES), value(j, length)) for j in range(first, behind)]
            yield request(b"ZADD", name(i), *[word for pair in pairs for word in pair])


def of_zset(kind, i, key, dice, members, length):
    """The requests of a workload over sorted sets."""
    any_score, any_member = b"%d" % dice.randrange(SCORES), value(dice.randrange(members), length)
    if kind == "zadd":
        return [request(b"ZADD", key, any_score, value(members + i, length))]
    if kind == "zrescore":
        return [request(b"ZADD", key, any_score, any_member)]
    if kind == "zrank":
        return [request(b"ZRANK", key, any_member)]
    if kind == "zrange":
        first = dice.randrange(max(members - RANGE, 0) + 1)
        return [request(b"ZRANGE", key, b"%d" % first, b"%d" % (first + RANGE - 1))]
    if kind == "zbyscore":
        return [request(b"ZRANGEBYSCORE", key, any_score, b"+inf", b"LIMIT", b"0", b"%d" % RANGE)]
    if kind == "zincrby":
        return [request(b"ZINCRBY", key, b"%d" % (dice.randrange(201) - 100), any_member)]
    return [request(b"ZADD", key, b"-1", value(members, length)), request(b"ZPOPMIN", key)]


def prepared_sets(kind, keys, members, length):
    """SADD of all members of each set, and of the other one, whose first member is the last of each."""
    starts = [(name(i), 0) for i in range(keys)] + [(OTHER, members - 1)] * (kind == "sinter")
    for key, start in starts:
        for first in range(start, start + members, PUSHED):
            behind = min(first + PUSHED, start + members)
            yield request(b"SADD", key, *[value(j, length) for j in range(first, behind)])


def of_set(kind, i, key, dice, members, length):
    """The requests of a workload over sets."""
    if kind == "sadd":
        return [request(b"SADD", key, value(members + i, length))]
    if kind == "sismember":
        return [request(b"SISMEMBER", key, value(dice.randrange(members), length))]
    if kind == "spop":
        return [request(b"SADD", key, value(members + i, length)), request(b"SPOP", key)]
    return [request(b"SINTER", key, OTHER)]


def prepared_hashes(kind, keys, fields, length):
    """HSET of all fields of each hash."""
    for i in range(keys):
        for first in range(0, fields, PUSHED):
            behind = min(first + PUSHED, fields)
            pairs = [(value(j, length), b"%d" % j if kind == "hincrby" else value(i, length)) for j in range(first, behind)]
            yield request(b"HSET", name(i), *[word for pair in pairs for word in pair])


def of_hash(kind, i, key, dice, fields, length):
    """The requests of a workload over hashes."""
    any_field = value(dice.randrange(fields), length)
    if kind == "hset":
        return [request(b"HSET", key, value(fields + i, length), value(i, length))]
    if kind == "hreset":
        return [request(b"HSET", key, any_field, value(i, length))]
    if kind == "hget":
        return [request(b"HGET", key, any_field)]
    if kind == "hgetall":
        return [request(b"HGETALL", key)]
    return [request(b"HINCRBY", key, any_field, b"%d" % (dice.randrange(201) - 100))]


def entry_id(number):
    return b"%d-1" % (number + 1)


def added(key, number, length):
    """XADD of an entry: its id is the client's, so that the reply is the same each time."""
    return request(b"XADD", key, entry_id(number), b"first", value(number, length), b"second", value(number * 7, length))


def prepared_streams(kind, keys, entries, length):
    """XADD of each entry of each stream, and a group that has read none of them."""
    for i in range(keys):
        for j in range(entries):
            yield added(name(i), j, length)
        if kind == "xreadgroup":
            yield request(b"XGROUP", b"CREATE", name(i), b"group", b"0")


def of_stream(kind, i, key, dice, entries, length):
    """The requests of a workload over streams."""
    if kind == "xadd":
        return [added(key, entries + i, length)]
    if kind == "xrange":
        first = dice.randrange(max(entries - RANGE, 0) + 1)
        return [request(b"XRANGE", key, entry_id(first), b"+", b"COUNT", b"%d" % RANGE)]
    if kind == "xdel":
        taken[key] += STEP
        return [request(b"XDEL", key, entry_id(taken[key] % entries))]
    ids = [entry_id(j) for j in range(read[key], read[key] + RANGE)]
    read[key] += RANGE
    return [request(b"XREADGROUP", b"GROUP", b"group", b"consumer", b"COUNT", b"%d" % RANGE, b"STREAMS", key, b">"),
            request(b"XACK", key, b"group", *ids)]


def mixed(i, key, dice, length):
    """GET, SET or EXPIRE of a key."""
    pick = dice.random()
    if pick < 0.80:
        return request(b"GET", key)
    if pick < 0.95:
        return request(b"SET", key, value(i, length))
    return request(b"EXPIRE", key, SECONDS)


def one(kind, i, key, dice, keys, length):
    """A request of a workload."""
    if kind == "set":
        return request(b"SET", key, value(i, length))
    if kind == "setex":
        return request(b"SETEX", key, SECONDS, value(i, length))
    if kind == "expire":
        return request(b"EXPIRE", key, SECONDS)
    if kind == "append":
        return request(b"APPEND", key, b"+")
    if kind == "mget":
        return request(b"MGET", *[name(dice.randrange(keys)) for _ in range(GROUP)])
    if kind == "mset":
        words = [[name(dice.randrange(keys)), value(i, length)] for _ in range(GROUP)]
        return request(b"MSET", *[word for pair in words for word in pair])
    if kind == "mix":
        return mixed(i, key, dice, length)
    return request(kind.upper().encode(), key)


def numbers(kind, keys, count, dice):
    """The keys that the requests name, one after the other."""
    if kind == "del":
        order = list(range(keys))
        dice.shuffle(order)
        return order[:count]
    if kind == "mix":
        return (int(keys * dice.random() ** SKEW) for _ in range(count))
    return (dice.randrange(keys) for _ in range(count))


def measured(kind, keys, count, length):
    dice = random.Random(1)
    for i, number in enumerate(numbers(kind, keys, count, dice)):
        yield one(kind, i, name(number), dice, keys, length)


def measured_values(of_value, kind, keys, count, elements, length):
    dice = random.Random(1)
    for i in range(count):
        yield from of_value(kind, i, name(dice.randrange(keys)), dice, elements, length)


def write(path, requests):
    """Writes requests to a file, many at once, and says how many there were."""
    count = 0
    batch = []
    with open(path, "wb") as out:
        for bytes_of_one in requests:
            count += 1
            batch.append(bytes_of_one)
            if len(batch) == 10_000:
                out.write(b"".join(batch))
                batch.clear()
        out.write(b"".join(batch))
    return count


FAMILIES = ((LISTS, prepared_lists, of_list), (ZSETS, prepared_zsets, of_zset), (SETS, prepared_sets, of_set),
            (HASHES, prepared_hashes, of_hash), (STREAMS, prepared_streams, of_stream))


def main():
    kind, keys, count, length, first, second, *rest = sys.argv[1:]
    keys, count, length = int(keys), int(count), int(length)
    for kinds, prepare, of_value in FAMILIES:
        if kind in kinds:
            elements = int(rest[0])
            write(first, prepare(kind, keys, elements, length))
            print(write(second, measured_values(of_value, kind, keys, count, elements, length)))
            return
    write(first, prepared(kind, keys, length))
    print(write(second, measured(kind, keys, count, length)))


if __name__ == "__main__":
    main()
