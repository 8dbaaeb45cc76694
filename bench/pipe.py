#!/usr/bin/env python3
"""Sends a stream to a server over a unix socket, writes its replies to a file, and prints the seconds it took.

usage: pipe.py SOCKET STREAM REPLIES

A request of its own behind the stream tells where the replies end: a server drops what it has not sent yet when the
sending side is shut.
"""
import socket
import sys
import threading
import time

LAST = b"the last request of the stream"
LAST_REQUEST = b"*2\r\n$4\r\nECHO\r\n$%d\r\n%s\r\n" % (len(LAST), LAST)
LAST_REPLY = b"$%d\r\n%s\r\n" % (len(LAST), LAST)


def main():
    path, stream, replies = sys.argv[1:]
    link = socket.socket(socket.AF_UNIX)
    link.connect(path)
    start = time.monotonic()

    def send():
        with open(stream, "rb") as file:
            while piece := file.read(1 << 20):
                link.sendall(piece)
        link.sendall(LAST_REQUEST)

    sender = threading.Thread(target=send)
    sender.start()
    with open(replies, "wb") as out:
        tail = b""
        while tail != LAST_REPLY and (piece := link.recv(1 << 20)):
            out.write(piece)
            tail = (tail + piece)[-len(LAST_REPLY):]
        if tail != LAST_REPLY:
            sys.exit("the server did not answer the last request")
        out.truncate(out.tell() - len(LAST_REPLY))
    sender.join()
    print(time.monotonic() - start)


if __name__ == "__main__":
    main()
