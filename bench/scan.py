#!/usr/bin/env python3
"""Goes through all keys by SCAN, and writes the requests that it made into a file, so that they can be measured as one stream
afterwards: cursors differ with the seed of the hash.

usage: scan.py PROGRAM|SOCKET KEYS COUNT PATTERN PREPARED REQUESTS

PREPARED holds the requests that set the keys, of which the program is given all first; a server behind a unix socket has them
already. An empty pattern is none. It prints how many calls were made and how many different keys were reported.
"""
import os
import socket
import stat
import subprocess
import sys
import threading

# nothing is left beside the sources
sys.dont_write_bytecode = True
from resp import request  # noqa: E402


class Served:
    """Whoever answers requests, one by one."""

    def __init__(self, where, prepared, keys):
        if stat.S_ISSOCK(os.stat(where).st_mode):
            peer = socket.socket(socket.AF_UNIX)
            peer.connect(where)
            self.send, self.replies = peer.sendall, peer.makefile("rb")
            return
        child = subprocess.Popen([where], stdin=subprocess.PIPE, stdout=subprocess.PIPE)
        self.replies = child.stdout
        self.send = lambda data: (child.stdin.write(data), child.stdin.flush())
        sender = threading.Thread(target=self.send_file, args=(prepared,))
        sender.start()
        for _ in range(keys):
            self.replies.readline()
        sender.join()

    def send_file(self, path):
        with open(path, "rb") as file:
            while piece := file.read(1 << 20):
                self.send(piece)

    def bulk(self):
        """A bulk string."""
        length = int(self.replies.readline()[1:])
        return self.replies.read(length + 2)[:-2]

    def page(self, words):
        """The next cursor, and the keys of a page."""
        self.send(request(*words))
        self.replies.readline()
        cursor = self.bulk()
        return cursor, [self.bulk() for _ in range(int(self.replies.readline()[1:]))]


def main():
    where, keys, count, pattern, prepared, requests = sys.argv[1:]
    served = Served(where, prepared, int(keys))
    behind = [b"COUNT", count.encode()] + ([b"MATCH", pattern.encode()] if pattern else [])
    cursor, calls, seen = b"0", 0, set()
    with open(requests, "wb") as file:
        while True:
            words = [b"SCAN", cursor, *behind]
            file.write(request(*words))
            cursor, page = served.page(words)
            calls += 1
            seen.update(page)
            if cursor == b"0":
                break
    print(calls, len(seen))


main()
