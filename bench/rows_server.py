#!/usr/bin/env python3
"""Asks a real server the rows of requests of crates/top_rows/stdin, and prints those that it answers in another way.

usage: bench/rows_server.py [FILE..]

It begins redis-server (Debian's package) on a socket of its own, with nothing saved, asks the `ask` rows of each case in
turn, each case on an empty server, and compares the replies. Any error is taken as any other, since texts differ. Rows of
cases with plans, moments, loaded files, failing calls or fillers (`~`) are left out: a server is not told of these.
"""

import os
import socket
import subprocess
import sys
import tempfile
import time

ROWS = os.path.join(os.path.dirname(os.path.abspath(__file__)), "..", "crates", "top_rows", "stdin")
ESCAPES = {"r": b"\r", "n": b"\n", "0": b"\0", "t": b"\t", "s": b" ", "\\": b"\\", "e": b""}
SPECIAL = ("at ", "plan", "words ", "file", "f ", "host", "reads", "writes", "pieces", "moments", "v ", "in ", "each")


def unescaped(text):
    out, at = b"", 0
    while at < len(text):
        if text[at : at + 2] == "\\x":
            out += bytes.fromhex(text[at + 2 : at + 4])
            at += 4
        elif text[at] == "\\" and at + 1 < len(text):
            out += ESCAPES.get(text[at + 1], b"\\" + text[at + 1].encode())
            at += 2
        else:
            out += text[at].encode()
            at += 1
    return out


class Server:
    def __init__(self, folder):
        path = os.path.join(folder, "socket")
        self.process = subprocess.Popen(
            ["redis-server", "--port", "0", "--unixsocket", path, "--save", "", "--appendonly", "no", "--dir", folder],
            stdout=subprocess.DEVNULL)
        while not os.path.exists(path):
            time.sleep(0.05)
        self.socket = socket.socket(socket.AF_UNIX)
        self.socket.connect(path)
        self.replies = self.socket.makefile("rb")

    def reply(self):
        line = self.replies.readline()
        if line[:1] in b"+-:":
            return line
        count = int(line[1:])
        if line[:1] == b"$":
            return line if count < 0 else line + self.replies.read(count + 2)
        return line + b"".join(self.reply() for _ in range(max(count, 0)))

    def ask(self, words):
        self.socket.sendall(b"*%d\r\n" % len(words) + b"".join(b"$%d\r\n%s\r\n" % (len(w), w) for w in words))
        return self.reply()


def cases(path):
    with open(path, encoding="utf-8") as file:
        rows = file.read().removesuffix("\n").split("\n")
    lines = []
    for line in rows:
        if line.startswith("case") and lines:
            yield lines
            lines = []
        lines.append(line)
    yield lines


def main():
    with tempfile.TemporaryDirectory() as folder:
        server = Server(folder)
        asked = other = 0
        for path in sys.argv[1:] or [ROWS]:
            for lines in cases(path):
                if any(line.startswith(SPECIAL) for line in lines):
                    continue
                server.ask([b"FLUSHALL"])
                server.ask([b"SELECT", b"0"])
                for line in lines:
                    if not line.startswith("ask ") or "~" in line or " -> " not in line:
                        continue
                    request, _, want = line[4:].partition(" -> ")
                    got = server.ask([unescaped(word) for word in request.split(" ")])
                    asked += 1
                    if got != unescaped(want) + b"\r\n" and not (got[:1] == b"-" and want[:1] == "-"):
                        other += 1
                        print(line[:200])
                        print("    the server:", got[:200])
        print(f"{asked} rows, {other} answered in another way")
        server.process.terminate()


if __name__ == "__main__":
    main()
