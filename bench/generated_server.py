#!/usr/bin/env python3
"""The lines of `--generate N --seed S`, worked out from what a real server replies to the same commands.

usage: bench/generated_server.py N SEED

It has the commands from generated.py, asks them of a redis-server (Debian's package) that saves nothing, and sums the replies. The
ids of XADD are the server's moments, so the number of the command stands in their place, as `--generate` has it. It also tells the
server's processor time and memory.
"""
import os
import subprocess
import sys
import tempfile
import threading

sys.dont_write_bytecode = True
from rows_server import Server  # noqa: E402

HERE = os.path.dirname(os.path.abspath(__file__))


def crc_table():
    table = []
    for byte in range(256):
        for _ in range(8):
            byte = byte >> 1 ^ (0x95AC9329AC4BC9B5 if byte & 1 else 0)
        table.append(byte)
    return table


def first_words(requests):
    """The first word of each request."""
    while line := requests.readline():
        for place in range(int(line[1:])):
            word = requests.read(int(requests.readline()[1:]) + 2)[:-2]
            if place == 0:
                yield word


def told(server, section, *names):
    text = server.ask([b"INFO", section]).decode()
    return ", ".join(line for line in text.split("\r\n") if line.split(":")[0] in names)


def main():
    count, seed = sys.argv[1:]
    with tempfile.TemporaryDirectory() as room:
        path = os.path.join(room, "requests")
        subprocess.run([sys.executable, os.path.join(HERE, "generated.py"), count, seed, path], check=True, stdout=subprocess.DEVNULL)
        server = Server(room)
        with open(path, "rb") as requests:
            threading.Thread(target=server.socket.sendall, args=(requests.read(),)).start()
        table, crc, number = crc_table(), 0, 0
        with open(path, "rb") as requests:
            for word in first_words(requests):
                number += 1
                reply = server.reply()
                if word == b"XADD":
                    reply = b"$%d\r\n%d-0\r\n" % (len(b"%d-0" % number), number)
                for byte in reply:
                    crc = table[(crc ^ byte) & 255] ^ crc >> 8
        keys = int(server.ask([b"DBSIZE"])[1:])
        print("commands %d\nkeys %d\ncrc %016x" % (number, keys, crc))
        print("the server:", told(server, b"cpu", "used_cpu_user", "used_cpu_sys"), told(server, b"memory", "used_memory_rss_human"))
        server.process.terminate()


if __name__ == "__main__":
    main()
