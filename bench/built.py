#!/usr/bin/env python3
"""Asks the built programs what no row can: their real streams, files, clock and pacers, and what is too large for `./test`.

usage: bench/built.py

Rows of words, input, output, standard error and status; a hundred thousand generated commands, twice, by the lines of generated.py;
a packed hash, set and sorted set at the greatest limit; and a sorted set of 1,200,000 members, each of which came into its middle. Then the files that it saves, by
saving.py, what it tells of its slabs, by audit.py, and the program of several sessions, by sessions.py.
The last line is 'N passed, M failed', and the status 0 where none failed.
"""
import os
import shutil
import subprocess
import sys
import tempfile

# nothing is left beside the sources
sys.dont_write_bytecode = True
import audit  # noqa: E402
import saving  # noqa: E402
import sessions  # noqa: E402
from resp import request  # noqa: E402

HERE = os.path.dirname(os.path.abspath(__file__))
PROGRAM = os.path.abspath(os.path.join(HERE, "..", "crates", "redis_core_cli", "out", "redis_core_cli"))
# The greatest limit of elements of packed values.
MOST = 4096
# Half of the members of the sorted set.
HALF = 600_000


# Keys of which every second one goes.
KEYS = 8000
SET_AND_DELETED = b"".join(request(b"SET", b"%05d" % i, b"x") for i in range(KEYS)) + b"".join(
    request(b"DEL", b"%05d" % i) for i in range(0, KEYS, 2)
)
PINGS = b"PING\n" * 2000
# Words, input, output, standard error and status of a run, in a folder that holds the file `strings.rdb`.
ROWS = [
    ("replies and no note", [], b"SET a 1\nGET a\n", b"+OK\r\n$1\r\n1\r\n", b"", 0),
    ("a deadline that has passed by the real clock", [], b"SET a 1 PXAT 1000000000000\nGET a\n", b"+OK\r\n$-1\r\n", b"", 0),
    ("a deadline that has not", [], b"SET a 1 PXAT 9000000000000\nGET a\n", b"+OK\r\n$1\r\n1\r\n", b"", 0),
    ("a limit that is read", ["--set-max-intset", "0"], b"SADD s 1\nOBJECT ENCODING s\n", b":1\r\n$8\r\nlistpack\r\n", b"", 0),
    ("a file", ["--load", "strings.rdb"], b"GET hello\nDBSIZE\n", b"$5\r\nworld\r\n:6\r\n", b"", 0),
    ("no file", ["--load", "none"], b"PING\n", b"", b"redis-core: file could not be read\n", 6),
    ("a file of another form", ["--load", "stdin"], b"PING\n", b"", b"redis-core: file refused: L1 at byte 0\n", 7),
    ("a request that is cut", [], b"PING\nGET", b"+PONG\r\n", b"redis-core: input ended inside a request\n", 3),
    ("a limit of the real input", ["--max-input", "6"], b"PING\nPING\n", b"+PONG\r\n", b"redis-core: input limit reached\n", 9),
    ("wrong usage", ["--help"], b"PING\n", b"", b"redis-core: wrong usage\n", 1),
]


def run_of(words, requests):
    """What a run writes to its output and to its standard error, and its status."""
    with tempfile.TemporaryDirectory() as room:
        shutil.copy(f"{HERE}/strings.rdb", room)
        with open(f"{room}/stdin", "wb") as file:
            file.write(requests)
        with open(f"{room}/stdin", "rb") as file:
            ran = subprocess.run([PROGRAM, *words], stdin=file, capture_output=True, cwd=room)
    return ran.stdout, ran.stderr, ran.returncode


def run(words, requests=b""):
    """What the program writes where nothing is wrong."""
    output, notes, status = run_of(words, requests)
    return output if (notes, status) == (b"", 0) else None


def rows():
    """The runs that end otherwise than they have to."""
    lost = [name for name, words, asked, *wanted in ROWS if run_of(words, asked) != tuple(wanted)]
    print("".join(f"{name}: FAILED\n" for name in lost), end="")
    return not lost


def full_device():
    """An output that takes nothing ends the run by its status, and with its line."""
    with open("/dev/full", "wb") as full:
        ran = subprocess.run([PROGRAM], input=b"PING\n", stdout=full, stderr=subprocess.PIPE)
    return (ran.stderr, ran.returncode) == (b"redis-core: output failed\n", 5)


def slabs_of(reply):
    """The slabs of all classes that MEMORY SLABS tells, behind other replies."""
    numbers = [int(line[1:]) for line in reply.split(b"\r\n") if line.startswith(b":")]
    return sum(numbers[1::3])


def steady_work():
    """The default effort packs what every second key left, and without effort nothing does."""
    asked = SET_AND_DELETED + PINGS
    told = [run(words, asked + b"MEMORY SLABS\n") for words in ([], ["--effort", "0"])]
    before = [run(words, asked) for words in ([], ["--effort", "0"])]
    packed, left = (slabs_of(all_[len(front) :]) for all_, front in zip(told, before))
    return packed < left


def generated():
    """Twice the same run, and the lines of a model of its own."""
    wanted = subprocess.run([sys.executable, f"{HERE}/generated.py", "100000", "1"], check=True, capture_output=True).stdout
    return all(run(["--generate", "100000", "--seed", "1"]) == wanted for _ in range(2))


def packed(option, added, count, encoding):
    """Whether a value stays packed with as many elements as may be, and no longer with one more."""
    asked = request(b"OBJECT", b"ENCODING", b"k")
    adds = [added(i) for i in range(MOST + 1)]
    requests = [*adds[:MOST], asked, adds[MOST], asked, request(count, b"k")]
    wanted = b":1\r\n" * MOST + b"$8\r\nlistpack\r\n:1\r\n$%d\r\n%s\r\n:%d\r\n" % (len(encoding), encoding, MOST + 1)
    return run([option, str(MOST)], b"".join(requests)) == wanted


def packed_hash():
    return packed("--hash-max-entries", lambda i: request(b"HSET", b"k", b"%d" % i, b"%d" % (i * i)), b"HLEN", b"hashtable")


def packed_set():
    return packed("--set-max-entries", lambda i: request(b"SADD", b"k", b"x%d" % i), b"SCARD", b"hashtable")


def packed_sorted_set():
    return packed("--zset-max-entries", lambda i: request(b"ZADD", b"k", b"%d" % (i % 64), b"m%d" % i), b"ZCARD", b"skiplist")


def middle():
    """Scores from both ends in turn, so that each new one stands in the middle; then what stands there."""
    asked, last = [], 2 * HALF
    for low in range(1, HALF + 1):
        for score in (low, last + 1 - low):
            asked.append(request(b"ZADD", b"z", b"%d" % score, b"m%d" % score))
    asked.append(request(b"ZCARD", b"z"))
    asked.append(request(b"ZRANGE", b"z", b"%d" % (HALF - 1), b"%d" % HALF))
    asked.append(request(b"ZCOUNT", b"z", b"-inf", b"(%d" % HALF))
    asked.append(request(b"ZRANK", b"z", b"m%d" % (HALF + 1)))
    texts = [b"m%d" % HALF, b"m%d" % (HALF + 1)]
    wanted = b":1\r\n" * last + b":%d\r\n*2\r\n" % last + b"".join(b"$%d\r\n%s\r\n" % (len(it), it) for it in texts)
    return run([], b"".join(asked)) == wanted + b":%d\r\n:%d\r\n" % (HALF - 1, HALF)


def main():
    if not all(os.access(program, os.X_OK) for program in (PROGRAM, sessions.PROGRAM)):
        sys.exit("build the programs first: rt ci")
    cases = [rows, full_device, steady_work, generated, packed_hash, packed_set, packed_sorted_set, middle, *saving.CASES, *audit.CASES, *sessions.CASES]
    failed = 0
    for case in cases:
        right = case()
        failed += not right
        print(f"{case.__name__}: {'as wanted' if right else 'FAILED'}")
    print(f"{len(cases) - failed} passed, {failed} failed")
    return 1 if failed else 0


if __name__ == "__main__":
    sys.exit(main())
