#!/usr/bin/env python3
"""What the program is asked that saves its keys (bench/built.py runs it).

usage: bench/saving.py FILE OLDER   writes a file that the program saved as one that a server reads which knows version 10 alone, without a checksum

Rows of requests and the files that they leave, with a checksum of this script's own; endings that save nothing; real faults, behind each of which the
file of before stands; a run that is killed while it saves; and files of all types that are loaded again to the same replies, by the program and,
where one is installed, by a real server.
"""
import os
import resource
import shutil
import signal
import subprocess
import sys
import tempfile
import time

from rdb import crc
from resp import request

HERE = os.path.dirname(os.path.abspath(__file__))
PROGRAM = os.path.abspath(os.path.join(HERE, "..", "crates", "redis_core_cli", "out", "redis_core_cli"))
FAILED = (b"redis-core: saving failed\n", 10)


def run(words, requests=b"", room=None, **how):
    """What a run writes to its output and to its standard error, and its status; in a folder, where one is given."""
    ran = subprocess.run([PROGRAM, *words], input=requests, capture_output=True, cwd=room, **how)
    return ran.stdout, ran.stderr, ran.returncode


def asked(*lines):
    """Requests, a line of words each."""
    return b"".join(request(*line.encode().split()) for line in lines)


def file_of(body, version=b"0011", sum_of=lambda data: crc(0, data)):
    """The file with these bytes between its head and its end."""
    data = b"REDIS" + version + body + b"\xff"
    return data + sum_of(data).to_bytes(8, "little")


def read(path):
    with open(path, "rb") as file:
        return file.read()


X = b"x" * 64
# Requests, and what stands in the file between head and end. Each database has one key, and each set, hash and sorted set one member, since
# their order isn't told.
FILES = [
    ("nothing", asked(), b""),
    ("a string", asked("SET a 1"), b"\xfe\x00" b"\x00\x01a\x011"),
    ("a string of 64 bytes", request(b"SET", b"a", X), b"\xfe\x00" b"\x00\x01a\x40\x40" + X),
    ("a string of 16,384 bytes", request(b"SET", b"a", X * 256), b"\xfe\x00" b"\x00\x01a\x80\x00\x00\x40\x00" + X * 256),
    ("a deadline", asked("SET a 1 PXAT 9000000000000"), b"\xfe\x00" b"\xfc" + (9_000_000_000_000).to_bytes(8, "little") + b"\x00\x01a\x011"),
    ("a deadline that has passed", asked("SET a 1 PXAT 1000000000000"), b""),
    ("databases by rising number", asked("SELECT 12", "SET b 2", "SELECT 3", "SET a 1", "SELECT 0"), b"\xfe\x03" b"\x00\x01a\x011" b"\xfe\x0c" b"\x00\x01b\x012"),
    ("a list in its order", asked("RPUSH l x y", "LPUSH l w"), b"\xfe\x00" b"\x01\x01l\x03\x01w\x01x\x01y"),
    ("a set", asked("SADD s 12"), b"\xfe\x00" b"\x02\x01s\x01\x0212"),
    ("a hash", asked("HSET h f v"), b"\xfe\x00" b"\x04\x01h\x01\x01f\x01v"),
    ("a sorted set", asked("ZADD z 3 m"), b"\xfe\x00" b"\x05\x01z\x01\x01m" + bytes.fromhex("0000000000000840")),
    ("a negative score", asked("ZADD z -2 m"), b"\xfe\x00" b"\x05\x01z\x01\x01m" + bytes.fromhex("00000000000000c0")),
    ("a greatest score", asked("ZADD z 9007199254740992 m"), b"\xfe\x00" b"\x05\x01z\x01\x01m" + bytes.fromhex("0000000000004043")),
    (
        "a stream",
        asked("XADD x 5-0 f v"),
        b"\xfe\x00\x15\x01x\x01"
        + bytes.fromhex("10 0000000000000005 0000000000000000")
        + bytes.fromhex("1d 1d000000 0a00 0101 0001 0101 816602 0001 0201 0001 0001 817602 0401 ff")
        + bytes.fromhex("01 05 00 05 00 00 00 01 00"),
    ),
    (
        "a group with a pending entry",
        asked("XADD x 5-0 f v", "XGROUP CREATE x g 0", "XREADGROUP GROUP g c COUNT 1 STREAMS x >"),
        None,
    ),
]


def files():
    """Each file is what it has to be."""
    lost = []
    for name, requests, body in FILES:
        with tempfile.TemporaryDirectory() as room:
            _, notes, status = run(["--save", "f"], requests, room)
            told = read(f"{room}/f") if os.path.exists(f"{room}/f") else None
            right = (notes, status) == (b"", 0) and os.listdir(room) == ["f"]
            if body is not None:
                right = right and told == file_of(body)
            else:
                right = right and told is not None and told[-8:] == crc(0, told[:-8]).to_bytes(8, "little")
        lost += [] if right else [name]
    print("".join(f"{name}: FAILED\n" for name in lost), end="")
    return not lost


# Words beside `--save f`, requests, standard error and status: the file of before stands.
UNSAVED = [
    ("a request that is cut", [], b"SET a 1\nGET", b"redis-core: input ended inside a request\n", 3),
    ("a broken rule", [], b"SET a 1\n*x\r\n", None, 2),
    ("a limit", ["--max-input", "6"], b"PING\nPING\n", b"redis-core: input limit reached\n", 9),
    ("no file to load", ["--load", "none"], b"PING\n", b"redis-core: file could not be read\n", 6),
    ("generated commands", ["--generate", "3"], b"", b"redis-core: wrong usage\n", 1),
]


def unsaved():
    """What ends otherwise than with status 0 saves nothing."""
    lost = []
    for name, words, requests, wanted, code in UNSAVED:
        with tempfile.TemporaryDirectory() as room:
            with open(f"{room}/f", "wb") as file:
                file.write(b"of before")
            _, notes, status = run(["--save", "f", *words], requests, room)
            right = status == code and wanted in (None, notes) and read(f"{room}/f") == b"of before"
        lost += [] if right else [name]
    print("".join(f"{name}: FAILED\n" for name in lost), end="")
    return not lost


def limited(most):
    """So many bytes may be written to a file; more is a fault, and no signal."""
    resource.setrlimit(resource.RLIMIT_FSIZE, (most, most))
    signal.signal(signal.SIGXFSZ, signal.SIG_IGN)


LARGE = b"".join(request(b"SET", b"%d" % number, b"x" * 5000) for number in range(200))
REPLIES = b"+OK\r\n" * 200
# How many bytes are put at once.
PUT = 65_536


def faults():
    """A name that is a folder, one in no folder, and one in a folder that nobody can write: status 10, its line, and all replies."""
    with tempfile.TemporaryDirectory() as room:
        os.mkdir(f"{room}/folder")
        ends = [run(["--save", name], LARGE, room) for name in ("folder", "none/f", "/proc/f")]
        return ends == [(REPLIES, *FAILED)] * 3 and os.path.isdir(f"{room}/folder")


def full_disk():
    """A device that is full, where one can be made: the same, and the file of before."""
    with tempfile.TemporaryDirectory() as room:
        made = subprocess.run(["mount", "-t", "tmpfs", "-o", "size=128k", "tmpfs", room], capture_output=True)
        if made.returncode:
            print("full_disk: no small device could be made, so none was filled")
            return True
        try:
            with open(f"{room}/f", "wb") as file:
                file.write(b"of before")
            return run(["--save", f"{room}/f"], LARGE) == (REPLIES, *FAILED) and read(f"{room}/f") == b"of before"
        finally:
            subprocess.run(["umount", room], check=True)


def each_put():
    """Each put fails in turn, by a limit on the file's length: status 10, its line, all replies, and the file of before."""
    with tempfile.TemporaryDirectory() as room:
        run(["--save", "whole"], LARGE, room)
        with open(f"{room}/f", "wb") as file:
            file.write(b"of before")
        for most in range(0, os.path.getsize(f"{room}/whole"), PUT):
            end = run(["--save", "f"], LARGE, room, preexec_fn=lambda: limited(most), restore_signals=False)
            if end != (REPLIES, *FAILED) or read(f"{room}/f") != b"of before":
                return False
        return True


def killed():
    """A run that is killed while it saves leaves the file of before, and one that goes on leaves the new one."""
    many = b"".join(request(b"SET", b"%d" % number, b"x" * 1000) for number in range(300_000))
    with tempfile.TemporaryDirectory() as room:
        with open(f"{room}/f", "wb") as file:
            file.write(file_of(b""))
        with open(f"{room}/stdin", "wb") as file:
            file.write(many)
        amid = False
        for _ in range(5):
            with open(f"{room}/stdin", "rb") as stdin:
                running = subprocess.Popen([PROGRAM, "--save", "f"], stdin=stdin, stdout=subprocess.DEVNULL, cwd=room)
            while running.poll() is None and not os.path.exists(f"{room}/f.saving"):
                time.sleep(0.001)
            running.kill()
            amid = running.wait() == -signal.SIGKILL or amid
            if amid:
                break
            shutil.copyfile(f"{room}/f", f"{room}/whole")
            with open(f"{room}/f", "wb") as file:
                file.write(file_of(b""))
        stood = read(f"{room}/f") == file_of(b"")
        with open(f"{room}/stdin", "rb") as stdin:
            ended = subprocess.run([PROGRAM, "--save", "f"], stdin=stdin, stdout=subprocess.DEVNULL, cwd=room)
        return amid and stood and ended.returncode == 0 and run(["--load", "f"], b"DBSIZE\n", room)[0] == b":300000\r\n"


LONG = "y" * 100
# All types, small and large, in several databases, with deadlines, groups, consumers and pending entries.
WORLD = asked(
    "SET text hello",
    "SET number 12",
    "SET long " + LONG * 300,
    "SET late 1 PXAT 9000000000000",
    "RPUSH list " + " ".join(str(number) for number in range(300)),
    "RPUSH wide " + " ".join(LONG * 90 for _ in range(4)),
    "SADD numbers " + " ".join(str(number * 7) for number in range(100)),
    "SADD words a b " + LONG,
    "SADD many " + " ".join(f"m{number}" for number in range(1000)),
    "HSET hash f v g " + LONG,
    "HSET fields " + " ".join(f"f{number} {number}" for number in range(600)),
    "ZADD scores 1 a 2 b -3 c",
    "ZADD ranks " + " ".join(f"{number * 3} r{number}" for number in range(500)),
    "PEXPIREAT ranks 9000000000001",
    "SELECT 5",
    *(f"XADD log {number + 1}-{number % 3} field value{number} other {number}" for number in range(500)),
    "XDEL log 17-1 18-2",
    "XGROUP CREATE log readers 0",
    "XGROUP CREATE log idle 5-1",
    "XREADGROUP GROUP readers one COUNT 100 STREAMS log >",
    "XREADGROUP GROUP readers two COUNT 50 STREAMS log >",
    "XACK log readers 1-0 2-1 120-2",
    "XADD gone 7-7 f v",
    "XDEL gone 7-7",
    "SELECT 15",
    "SET last 1",
    "SELECT 0",
)
# What is asked of it, in an order that no table decides.
ASKED = asked(
    "DBSIZE",
    "GET text",
    "GET number",
    "OBJECT ENCODING number",
    "GET long",
    "PEXPIRETIME late",
    "LRANGE list 0 -1",
    "LRANGE wide 0 -1",
    "SCARD numbers",
    "SMISMEMBER numbers 0 7 8 693 700",
    "SCARD many",
    "SMISMEMBER many " + " ".join(f"m{number}" for number in range(1001)),
    "SMISMEMBER words a b c " + LONG,
    "HLEN fields",
    "HMGET fields " + " ".join(f"f{number}" for number in range(601)),
    "HMGET hash f g h",
    "ZRANGE scores 0 -1 WITHSCORES",
    "ZRANGE ranks 0 -1 WITHSCORES",
    "PEXPIRETIME ranks",
    "SELECT 5",
    "DBSIZE",
    "XLEN log",
    "XRANGE log - +",
    "XPENDING log readers",
    "XPENDING log idle",
    "XREADGROUP GROUP readers one STREAMS log 0",
    "XREADGROUP GROUP readers three COUNT 2 STREAMS log >",
    "XREADGROUP GROUP idle four COUNT 2 STREAMS log >",
    "XLEN gone",
    "XADD gone 7-7 f v",
    "XADD gone 7-8 f v",
    "SELECT 15",
    "GET last",
)


def loaded_again():
    """A world that is saved and loaded answers as it did, also saved and loaded twice."""
    with tempfile.TemporaryDirectory() as room:
        before = run([], WORLD + ASKED, room)
        made = run(["--save", "f"], WORLD, room)
        again = run(["--load", "f", "--save", "g"], b"", room)
        after = [run(["--load", name], ASKED, room) for name in ("f", "g")]
        behind = len(made[0])
        return made[1:] == again[1:] == (b"", 0) and all(each == (before[0][behind:], b"", 0) for each in after)


class Older:
    """A file as a server reads it that knows version 10 alone: types 0, 1, 2, 4 and 5 as they stand; a stream without the moments at which its
    consumers were active."""

    def __init__(self, data):
        self.data, self.at, self.made = data, 9, []

    def take(self, count):
        self.at += count
        part = self.data[self.at - count : self.at]
        self.made.append(part)
        return part

    def length(self):
        first = self.take(1)[0]
        if first < 64:
            return first
        if first < 128:
            return (first & 63) << 8 | self.take(1)[0]
        return int.from_bytes(self.take({128: 4, 129: 8}[first]), "big")

    def text(self):
        self.take(self.length())

    def texts(self, each):
        for _ in range(self.length() * each):
            self.text()

    def scored(self):
        for _ in range(self.length()):
            self.text()
            self.take(8)

    def stream(self):
        self.made[-1] = b"\x13"
        self.text()
        for _ in range(self.length()):
            self.text()
            self.text()
        for _ in range(8):
            self.length()
        for _ in range(self.length()):
            self.group()

    def group(self):
        self.text()
        for _ in range(3):
            self.length()
        for _ in range(self.length()):
            self.take(24)
            self.length()
        for _ in range(self.length()):
            self.text()
            self.take(16)
            self.made[-1] = self.made[-1][:8]
            for _ in range(self.length()):
                self.take(16)

    def file(self):
        kinds = {1: 1, 2: 1, 4: 2}
        while (code := self.take(1)[0]) != 255:
            if code == 254:
                self.length()
                continue
            if code == 252:
                self.take(8)
                continue
            if code == 21:
                self.stream()
                continue
            self.text()
            if code == 5:
                self.scored()
            elif code:
                self.texts(kinds[code])
            else:
                self.text()
        if self.at + 8 != len(self.data):
            raise ValueError("something stands behind the end")
        # a server asks for no checksum where it is 0
        return file_of(b"".join(self.made)[:-1], b"0010", lambda data: 0)


def served(server, room, requests):
    """What a real server answers that begins with the file `dump.rdb` of a folder, and then saves."""
    words = [server, "--port", "0", "--unixsocket", "socket", "--save", "", "--rdbcompression", "no", "--dir", room]
    with subprocess.Popen(words, cwd=room, stdout=subprocess.DEVNULL) as serving:
        for _ in range(100):
            if os.path.exists(f"{room}/socket"):
                break
            time.sleep(0.1)
        with open(f"{room}/asked", "wb") as file:
            file.write(requests + request(b"SAVE"))
        subprocess.run([sys.executable, f"{HERE}/pipe.py", f"{room}/socket", f"{room}/asked", f"{room}/replies"], stdout=subprocess.DEVNULL, check=True)
        serving.terminate()
    # it words one refusal in another way
    told = read(f"{room}/replies").removesuffix(b"+OK\r\n")
    return told.replace(b"The ID specified in XADD is equal or smaller than the target stream top item", b"stream ID is not greater than the last ID")


def server_loads():
    """A real server loads a world that was saved, and answers as the program; and what the server then saves is loaded by the program."""
    server = shutil.which("redis-server") or shutil.which("valkey-server")
    if not server:
        print("server_loads: no server is installed, so none was asked")
        return True
    with tempfile.TemporaryDirectory() as room:
        run(["--save", "f"], WORLD, room)
        wanted = run(["--load", "f"], ASKED, room)[0]
        with open(f"{room}/dump.rdb", "wb") as file:
            file.write(Older(read(f"{room}/f")).file())
        told = served(server, room, ASKED)
        run(["--load", "f", "--save", "g"], ASKED, room)
        return told == wanted and run(["--load", "dump.rdb"], ASKED, room) == run(["--load", "g"], ASKED, room)


CASES = [files, unsaved, faults, full_disk, each_put, killed, loaded_again, server_loads]


def main():
    source, target = sys.argv[1:]
    with open(target, "wb") as file:
        file.write(Older(read(source)).file())


if __name__ == "__main__":
    main()
