#!/usr/bin/env python3
"""Stands in for the core program in the tests: pieces to units over a plain dict.

It knows PING, ECHO, SET, GET, INCR, INCRBY, DEL, SELECT, FLUSHALL, MULTI, EXEC, DISCARD, WATCH and QUIT, and for the tests alone FILL n, which
answers n bytes, AWAIT file, which waits until there is such a file, and DIE n, which ends the program with that status.
"""
import argparse
import os
import re
import struct
import sys
import time

HANG_UP = 2**32 - 1
UNKNOWN = b"-ERR unknown command\r\n"


class Wrong(Exception):
    """Bytes that break a rule."""


class Session:
    def __init__(self):
        self.bytes = b""
        self.base = "0"
        self.queue = None
        self.is_spoilt = False
        self.watched = {}
        self.has_ended = False


def bulk(data):
    return b"$-1\r\n" if data is None else b"$%d\r\n%s\r\n" % (len(data), data)


def first_request(data):
    """The words of the first request and what is behind it; None where it isn't whole."""
    if data[:1] != b"*":
        line, end, rest = data.partition(b"\n")
        if not end:
            return None
        if re.search(rb"[\"']", line):
            raise Wrong
        return re.findall(rb"[^ \t]+", line.removesuffix(b"\r")), rest
    words, due, at = [], None, 0
    while due is None or len(words) < due:
        end = data.find(b"\r\n", at)
        if end < 0:
            if data[at : at + 1] not in (b"", b"$", b"*"):
                raise Wrong
            return None
        head = re.fullmatch(rb"([*$])(0|-?[1-9][0-9]*)", data[at:end])
        if not head or head[1] != (b"*" if due is None else b"$"):
            raise Wrong
        count, at = int(head[2]), end + 2
        if due is None:
            due = max(count, 0)
            continue
        if len(data) < at + count + 2:
            return None
        if data[at + count : at + count + 2] != b"\r\n":
            raise Wrong
        words.append(data[at : at + count])
        at += count + 2
    return words, data[at:]


class Core:
    def __init__(self):
        self.world = {}
        self.changes = {}
        self.sessions = {}

    def units(self, number, data):
        session = self.sessions.setdefault(number, Session())
        session.bytes += data
        while not session.has_ended:
            try:
                found = first_request(session.bytes)
            except Wrong:
                session.has_ended = True
                yield b"-ERR Protocol error: a rule is broken\r\n"
                return
            if found is None:
                return
            words, session.bytes = found
            if words:
                yield self.answer(session, words)

    def answer(self, session, words):
        name = words[0].upper()
        if name == b"QUIT":
            session.has_ended = True
            return b"+OK\r\n"
        if name == b"MULTI":
            if session.queue is not None:
                return b"-ERR MULTI calls can not be nested\r\n"
            session.queue = []
            return b"+OK\r\n"
        if name == b"WATCH":
            session.watched.update({(session.base, key): self.changes.get((session.base, key)) for key in words[1:]})
            return b"+OK\r\n"
        if name in (b"EXEC", b"DISCARD"):
            return self.end_queue(session, name)
        if session.queue is None:
            return self.run(session, words)
        if not hasattr(self, f"run_{name.decode(errors='replace').lower()}"):
            session.is_spoilt = True
            return UNKNOWN
        session.queue.append(words)
        return b"+QUEUED\r\n"

    def end_queue(self, session, name):
        queue, watched, is_spoilt = session.queue, session.watched, session.is_spoilt
        if queue is None:
            return b"-ERR %s without MULTI\r\n" % name
        session.queue, session.watched, session.is_spoilt = None, {}, False
        if name == b"DISCARD":
            return b"+OK\r\n"
        if is_spoilt:
            return b"-EXECABORT transaction discarded because of previous errors\r\n"
        if any(self.changes.get(key) != seen for key, seen in watched.items()):
            return b"*-1\r\n"
        return b"*%d\r\n" % len(queue) + b"".join(self.run(session, words) for words in queue)

    def run(self, session, words):
        name = words[0].decode(errors="replace").lower()
        command = getattr(self, f"run_{name}", None)
        try:
            return command(session, *words[1:]) if command else UNKNOWN
        except TypeError:
            return b"-ERR wrong number of arguments\r\n"

    def put(self, session, key, value):
        self.world[session.base, key] = value
        self.changes[session.base, key] = self.changes.get((session.base, key), 0) + 1

    def run_ping(self, _, text=None):
        return b"+PONG\r\n" if text is None else bulk(text)

    def run_echo(self, _, text):
        return bulk(text)

    def run_set(self, session, key, value):
        self.put(session, key, value)
        return b"+OK\r\n"

    def run_get(self, session, key):
        return bulk(self.world.get((session.base, key)))

    def run_incr(self, session, key):
        return self.run_incrby(session, key, 1)

    def run_incrby(self, session, key, more):
        value = int(self.world.get((session.base, key), 0)) + int(more)
        self.put(session, key, b"%d" % value)
        return b":%d\r\n" % value

    def run_del(self, session, *keys):
        return b":%d\r\n" % sum(self.world.pop((session.base, key), None) is not None for key in keys)

    def run_select(self, session, base):
        session.base = base.decode()
        return b"+OK\r\n"

    def run_flushall(self, _):
        self.world.clear()
        return b"+OK\r\n"

    def run_fill(self, _, count):
        return bulk(b"x" * int(count))

    def run_await(self, _, path):
        for _ in range(6000):
            if os.path.exists(path):
                break
            time.sleep(0.01)
        return b"+OK\r\n"

    def run_die(self, _, status):
        print(f"stand-in: ends with status {int(status)}", file=sys.stderr, flush=True)
        sys.exit(int(status))


def load(core, path):
    try:
        with open(path, encoding="latin-1") as file:
            for line in file:
                base, key, value = (bytes.fromhex(part) for part in line.rstrip("\n").split(","))
                core.world[base.decode(), key] = value
    except OSError:
        print("redis-core: file could not be read", file=sys.stderr)
        sys.exit(6)


def save(core, path):
    with open(path, "w", encoding="latin-1") as file:
        for (base, key), value in core.world.items():
            file.write(f"{base.encode().hex()},{key.hex()},{value.hex()}\n")


def serve(core):
    """Reads pieces until the input ends, and gives the status."""
    data, write = b"", sys.stdout.buffer.write
    while taken := os.read(0, 65_536):
        data, at = data + taken, 0
        while len(data) - at >= 6:
            number, length = struct.unpack_from("<HI", data, at)
            if length == HANG_UP:
                core.sessions.pop(number, None)
                at += 6
                continue
            if len(data) < at + 6 + length:
                break
            for unit in core.units(number, data[at + 6 : at + 6 + length]):
                write(struct.pack("<HQ", number, len(unit)) + unit)
            at += 6 + length
        data = data[at:]
        sys.stdout.buffer.flush()
    is_cut = data or any(it.bytes and not it.has_ended for it in core.sessions.values())
    return 3 if is_cut else 0


def main():
    words = argparse.ArgumentParser()
    for name in ("load", "save", "max-input", "seed", "effort"):
        words.add_argument(f"--{name}")
    options = words.parse_args()
    core = Core()
    if options.load:
        load(core, options.load)
    status = serve(core)
    if status == 0 and options.save:
        save(core, options.save)
    return status


if __name__ == "__main__":
    sys.exit(main())
