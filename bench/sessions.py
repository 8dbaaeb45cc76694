"""What the program of several sessions is asked, beside a plain model of its own (bench/built.py runs it).

Rows of pieces and the units that answer them; each of these inputs cut in two at each place; and random histories of four sessions,
whose commands, transactions and watched keys the model answers in the order of their last bytes.
"""
import os
import random
import struct
import subprocess

from resp import request

HERE = os.path.dirname(os.path.abspath(__file__))
PROGRAM = os.path.abspath(os.path.join(HERE, "..", "crates", "redis_sessions", "out", "redis_sessions"))
HISTORIES = 200

OK, QUEUED, NULL = b"+OK\r\n", b"+QUEUED\r\n", b"*-1\r\n"
UNKNOWN = b"-ERR unknown command\r\n"
WRONG_NUMBER = b"-ERR wrong number of arguments\r\n"
NO_INTEGER = b"-ERR value is not an integer or out of range\r\n"
NESTED = b"-ERR MULTI calls can not be nested\r\n"
ABORT = b"-EXECABORT transaction discarded because of previous errors\r\n"
NO_EXEC = b"-ERR EXEC without MULTI\r\n"
NO_DISCARD = b"-ERR DISCARD without MULTI\r\n"
NO_WATCH = b"-ERR WATCH inside MULTI is not allowed\r\n"


def piece(session, data):
    return struct.pack("<HI", session, len(data)) + data


def unit(session, told):
    return struct.pack("<HQ", session, len(told)) + told


def asked(*lines):
    """Pieces, one an inline request of a session: `(0, "SET a 1")`."""
    return b"".join(piece(session, line.encode() + b"\n") for session, line in lines)


def told(*units):
    return b"".join(unit(session, reply) for session, reply in units)


# Words, input, output, standard error and status of a run.
ROWS = [
    (
        "a watched key changed",
        [],
        asked((0, "WATCH a"), (0, "MULTI"), (0, "SET a 1"), (1, "SET a 2"), (0, "EXEC")),
        told((0, OK), (0, OK), (0, QUEUED), (1, OK), (0, NULL)),
        b"",
        0,
    ),
    (
        "a watched key stayed",
        [],
        asked((0, "WATCH a"), (0, "MULTI"), (0, "SET a 1"), (0, "EXEC")),
        told((0, OK), (0, OK), (0, QUEUED), (0, b"*1\r\n+OK\r\n")),
        b"",
        0,
    ),
    (
        "the same value written again is no change",
        [],
        asked((0, "SET a 2"), (0, "WATCH a"), (0, "MULTI"), (0, "SET a 1"), (1, "SET a 2"), (0, "EXEC")),
        told((0, OK), (0, OK), (0, OK), (0, QUEUED), (1, OK), (0, b"*1\r\n+OK\r\n")),
        b"",
        0,
    ),
    (
        "another value in between is a change",
        [],
        asked((0, "SET a 2"), (0, "WATCH a"), (1, "SET a 3"), (1, "SET a 2"), (0, "MULTI"), (0, "EXEC")),
        told((0, OK), (0, OK), (1, OK), (1, OK), (0, OK), (0, NULL)),
        b"",
        0,
    ),
    (
        "another deadline is a change",
        [],
        asked((0, "SET a 2"), (0, "WATCH a"), (1, "EXPIRE a 1000"), (0, "MULTI"), (0, "EXEC")),
        told((0, OK), (0, OK), (1, b":1\r\n"), (0, OK), (0, NULL)),
        b"",
        0,
    ),
    (
        "a session's own write is a change too, before MULTI",
        [],
        asked((0, "WATCH a b"), (0, "SET b 1"), (0, "MULTI"), (0, "EXEC")),
        told((0, OK), (0, OK), (0, OK), (0, NULL)),
        b"",
        0,
    ),
    (
        "a key of another database",
        [],
        asked((0, "WATCH a"), (1, "SELECT 1"), (1, "SET a 1"), (0, "MULTI"), (0, "EXEC")),
        told((0, OK), (1, OK), (1, OK), (0, OK), (0, b"*0\r\n")),
        b"",
        0,
    ),
    (
        "FLUSHALL changes what was there",
        [],
        asked((0, "SET a 1"), (0, "WATCH a"), (1, "FLUSHALL"), (0, "MULTI"), (0, "EXEC"), (0, "MULTI"), (0, "EXEC")),
        told((0, OK), (0, OK), (1, OK), (0, OK), (0, NULL), (0, OK), (0, b"*0\r\n")),
        b"",
        0,
    ),
    (
        "an unknown command spoils",
        [],
        asked((0, "MULTI"), (0, "FOO"), (0, "EXEC"), (0, "EXEC")),
        told((0, OK), (0, UNKNOWN), (0, ABORT), (0, NO_EXEC)),
        b"",
        0,
    ),
    (
        "a wrong number of words spoils, of EXEC too",
        [],
        asked((0, "MULTI"), (0, "EXEC now"), (0, "EXEC"), (0, "MULTI"), (0, "GET"), (0, "DISCARD"), (0, "WATCH")),
        told((0, OK), (0, WRONG_NUMBER), (0, ABORT), (0, OK), (0, WRONG_NUMBER), (0, OK), (0, WRONG_NUMBER)),
        b"",
        0,
    ),
    (
        "another refusal is queued",
        [],
        asked((0, "SET a x"), (0, "MULTI"), (0, "INCR a"), (0, "SELECT 77"), (0, "GET a"), (0, "EXEC")),
        told((0, OK), (0, OK), (0, QUEUED), (0, QUEUED), (0, QUEUED), (0, b"*3\r\n" + NO_INTEGER + b"-ERR DB index is out of range\r\n$1\r\nx\r\n")),
        b"",
        0,
    ),
    (
        "what is refused inside and outside",
        [],
        asked((0, "EXEC"), (0, "DISCARD"), (0, "UNWATCH"), (0, "MULTI"), (0, "MULTI"), (0, "WATCH a"), (0, "DISCARD")),
        told((0, NO_EXEC), (0, NO_DISCARD), (0, UNKNOWN), (0, OK), (0, NESTED), (0, NO_WATCH), (0, OK)),
        b"",
        0,
    ),
    (
        "DISCARD forgets what is watched",
        [],
        asked((0, "WATCH a"), (1, "SET a 1"), (0, "MULTI"), (0, "DISCARD"), (0, "MULTI"), (0, "GET a"), (0, "EXEC")),
        told((0, OK), (1, OK), (0, OK), (0, OK), (0, OK), (0, QUEUED), (0, b"*1\r\n$1\r\n1\r\n")),
        b"",
        0,
    ),
    (
        "each session has a database of its own, EXEC's last one too",
        [],
        asked((0, "SELECT 3"), (0, "SET a 1"), (1, "GET a"), (0, "GET a"), (1, "MULTI"), (1, "SELECT 3"), (1, "EXEC"), (1, "GET a")),
        told((0, OK), (0, OK), (1, b"$-1\r\n"), (0, b"$1\r\n1\r\n"), (1, OK), (1, QUEUED), (1, b"*1\r\n+OK\r\n"), (1, b"$1\r\n1\r\n")),
        b"",
        0,
    ),
    (
        "QUIT ends one session, inside MULTI at once",
        [],
        asked((0, "MULTI"), (0, "SET a 1"), (0, "QUIT"), (0, "PING"), (1, "GET a"), (15, "PING")),
        told((0, OK), (0, QUEUED), (0, OK), (1, b"$-1\r\n"), (15, b"+PONG\r\n")),
        b"",
        0,
    ),
    (
        "a broken rule ends one session",
        [],
        asked((0, "PING")) + piece(0, b"*x\r\nPING\n") + piece(0, b"PING\n") + asked((1, "PING")),
        told((0, b"+PONG\r\n"), (0, b"-ERR Protocol error: invalid multibulk length at byte 5\r\n"), (1, b"+PONG\r\n")),
        b"",
        0,
    ),
    ("nothing", [], b"", b"", b"", 0),
    ("pieces without bytes", [], piece(3, b"") + piece(4, b""), b"", b"", 0),
    ("a number that no session has", [], piece(16, b"PING\n"), b"", b"redis-core: unknown session\n", 11),
    (
        "the same behind requests",
        [],
        asked((0, "PING")) + struct.pack("<H", 16),
        told((0, b"+PONG\r\n")),
        b"redis-core: unknown session\n",
        11,
    ),
    ("a piece that is cut", [], asked((0, "PING"))[:-1], b"", b"redis-core: input ended inside a request\n", 3),
    ("a head that is cut", [], asked((0, "PING")) + b"\0", told((0, b"+PONG\r\n")), b"redis-core: input ended inside a request\n", 3),
    ("a session that is cut", [], piece(2, b"PI") + asked((0, "PING")), told((0, b"+PONG\r\n")), b"redis-core: input ended inside a request\n", 3),
    ("a limit of bytes", ["--max-input", "11"], asked((0, "PING"), (1, "PING")), told((0, b"+PONG\r\n")), b"redis-core: input limit reached\n", 9),
    ("wrong usage", ["--sessions", "4"], asked((0, "PING")), b"", b"redis-core: wrong usage\n", 1),
    ("generated commands are none of it", ["--generate", "5"], b"", b"", b"redis-core: wrong usage\n", 1),
    ("no file", ["--load", "none"], asked((0, "PING")), b"", b"redis-core: file could not be read\n", 6),
]


def run_of(words, data):
    """What a run writes to its output and to its standard error, and its status."""
    ran = subprocess.run([PROGRAM, *words], input=data, capture_output=True)
    return ran.stdout, ran.stderr, ran.returncode


def session_rows():
    """The rows that end otherwise than they have to."""
    lost = [name for name, words, data, *wanted in ROWS if run_of(words, data) != tuple(wanted)]
    print("".join(f"{name}: FAILED\n" for name in lost), end="")
    return not lost


def split_piece(data, place):
    """The same pieces, where the one that this place is in is two: what its session sends is cut there."""
    at = 0
    while at < len(data):
        session, length = struct.unpack_from("<HI", data, at)
        end = at + 6 + length
        if at + 6 < place < end:
            return data[:at] + piece(session, data[at + 6 : place]) + piece(9, b"") + piece(session, data[place:end]) + data[end:]
        at = end
    return None


def session_cuts():
    """Each input of whole pieces gives the same units where a piece is cut in two, with another between."""
    whole = [(words, data, wanted) for _, words, data, *wanted in ROWS if wanted[2] == 0 and len(data) > 6]
    for words, data, wanted in whole[:6]:
        for place in range(len(data)):
            cut = split_piece(data, place)
            if cut is not None and run_of(words, cut) != tuple(wanted):
                print(f"cut at {place} of {data!r}: FAILED")
                return False
    return True


class Plain:
    """A plain server of several sessions: databases as dicts, and for each session what stands at the keys that it watches."""

    def __init__(self):
        self.world = {}
        self.sessions = {}

    def answer(self, number, words):
        own = self.sessions.setdefault(number, {"db": 0, "queue": None, "spoilt": False, "watched": []})
        reply = self.reply(own, words)
        for session in self.sessions.values():
            for one in session["watched"]:
                one[2] = one[2] or self.world.get(one[0]) != one[1]
        return reply

    def reply(self, own, words):
        name = words[0].upper()
        if name == "MULTI":
            if own["queue"] is not None:
                return NESTED
            own.update(queue=[], spoilt=False)
            return OK
        if name in ("EXEC", "DISCARD"):
            return self.end(own, name)
        if name == "WATCH":
            if own["queue"] is not None:
                return NO_WATCH
            own["watched"] += [[(own["db"], key), self.world.get((own["db"], key)), False] for key in words[1:]]
            return OK
        if own["queue"] is None:
            return self.run(own, words)
        wrong = UNKNOWN if not hasattr(self, f"do_{name.lower()}") else None
        own["spoilt"] |= wrong is not None
        if wrong is None:
            own["queue"].append(words)
        return wrong or QUEUED

    def end(self, own, name):
        queue, spoilt, changed = own["queue"], own["spoilt"], any(it[2] for it in own["watched"])
        if queue is None:
            return b"-ERR %s without MULTI\r\n" % name.encode()
        own.update(queue=None, spoilt=False, watched=[])
        if name == "DISCARD":
            return OK
        if spoilt:
            return ABORT
        return NULL if changed else b"*%d\r\n" % len(queue) + b"".join(self.run(own, words) for words in queue)

    def run(self, own, words):
        command = getattr(self, f"do_{words[0].lower()}", None)
        return command(own, *words[1:]) if command else UNKNOWN

    def do_ping(self, own):
        return b"+PONG\r\n"

    def do_select(self, own, db):
        own["db"] = int(db)
        return OK

    def do_set(self, own, key, value):
        self.world[own["db"], key] = value
        return OK

    def do_get(self, own, key):
        value = self.world.get((own["db"], key))
        return b"$-1\r\n" if value is None else b"$%d\r\n%s\r\n" % (len(value), value.encode())

    def do_incr(self, own, key):
        value = self.world.get((own["db"], key), "0")
        if not value.isdigit():
            return NO_INTEGER
        self.world[own["db"], key] = str(int(value) + 1)
        return b":%d\r\n" % (int(value) + 1)

    def do_del(self, own, key):
        return b":%d\r\n" % (self.world.pop((own["db"], key), None) is not None)


def drawn(draw):
    """A request of the model's commands."""
    key = draw.choice("abc")
    return draw.choice(
        [
            ["SET", key, draw.choice(["1", "2", "x"])],
            ["SET", key, "1"],
            ["GET", key],
            ["INCR", key],
            ["DEL", key],
            ["SELECT", draw.choice("01")],
            ["PING"],
            ["NONE", key],
            ["MULTI"],
            ["MULTI"],
            ["EXEC"],
            ["EXEC"],
            ["DISCARD"],
            ["WATCH", key],
            ["WATCH", key, draw.choice("abc")],
        ]
    )


def history(seed):
    """Pieces of four sessions, cut anywhere, and the units of the model, in the order of the requests' last bytes."""
    draw, plain = random.Random(seed), Plain()
    due = {session: [drawn(draw) for _ in range(40)] for session in range(4)}
    sent = {session: [(request(*(word.encode() for word in words)), words) for words in all_] for session, all_ in due.items()}
    data, units, begun = [], [], {session: b"" for session in sent}
    while any(sent.values()) or any(begun.values()):
        session = draw.choice([it for it in sent if sent[it] or begun[it]])
        some = begun[session] or b""
        ends = []
        while not some or (sent[session] and draw.random() < 0.4):
            some, ends = some + sent[session][0][0], [*ends, sent[session].pop(0)[1]]
        rest = draw.randrange(len(some)) if draw.random() < 0.5 else 0
        data.append(piece(session, some[: len(some) - rest]))
        begun[session] = some[len(some) - rest :]
        plain.due = getattr(plain, "due", {})
        plain.due.setdefault(session, []).extend((len(request(*(w.encode() for w in words))), words) for words in ends)
        units += arrived(plain, session, len(some) - rest)
    return b"".join(data), b"".join(units)


def arrived(plain, session, count):
    """The units of the requests whose last bytes are among so many more of a session."""
    have = getattr(plain, "have", {})
    plain.have = have
    have[session] = have.get(session, 0) + count
    units = []
    while plain.due[session] and plain.due[session][0][0] <= have[session]:
        length, words = plain.due[session].pop(0)
        have[session] -= length
        units.append(unit(session, plain.answer(session, words)))
    return units


def session_histories():
    """Random histories, beside the model."""
    for seed in range(HISTORIES):
        data, wanted = history(seed)
        if run_of([], data) != (wanted, b"", 0):
            print(f"history {seed}: FAILED")
            return False
    return True


CASES = [session_rows, session_cuts, session_histories]
