"""What the tests share: a relay over the stand-in core, its clients, and the stand-ins of one process."""
import os
import re
import select
import signal
import socket
import struct
import subprocess
import sys
import tempfile

sys.dont_write_bytecode = True
TESTS = os.path.dirname(os.path.abspath(__file__))
SERVE = os.path.dirname(TESTS)
sys.path.insert(0, SERVE)
STAND_IN = os.path.join(TESTS, "stand_in_core.py")
# So long a test waits for what should come at once.
PATIENCE = 60
# Runs the relay with constants of its modules changed.
CHANGED = "import sys; sys.dont_write_bytecode = True; sys.path.insert(0, {serve!r}); {changes}; from relay.server import main; sys.exit(main(sys.argv[1:]))"


def request(*words):
    parts = [b"*%d\r\n" % len(words)]
    for word in words:
        data = word if isinstance(word, bytes) else str(word).encode()
        parts.append(b"$%d\r\n%s\r\n" % (len(data), data))
    return b"".join(parts)


class Client:
    def __init__(self, address):
        self.sock = socket.socket(socket.AF_UNIX if isinstance(address, str) else socket.AF_INET)
        self.sock.settimeout(PATIENCE)
        self.sock.connect(address)
        self.replies = self.sock.makefile("rb")

    def send(self, data):
        self.sock.sendall(data)

    def reply(self):
        line = self.replies.readline()
        if line[:1] in (b"+", b"-", b":", b""):
            return line
        count = int(line[1:])
        if line[:1] == b"$":
            return line if count < 0 else line + self.replies.read(count + 2)
        return line + b"".join(self.reply() for _ in range(count))

    def ask(self, *words):
        self.send(request(*words))
        return self.reply()

    def rest(self):
        """Everything up to the end."""
        return self.replies.read()

    def close(self):
        self.replies.close()
        self.sock.close()


def broken_off(client):
    """Closes the client's socket by a reset where it is of TCP."""
    client.sock.setsockopt(socket.SOL_SOCKET, socket.SO_LINGER, struct.pack("ii", 1, 0))
    client.close()


class Served:
    """A relay over a core, the stand-in where nothing else is said, with a socket in a folder of its own and a port of TCP."""

    def __init__(self, *words, core=STAND_IN, changes=None, ready=True):
        self.core = core
        self.room = tempfile.TemporaryDirectory()
        self.path = os.path.join(self.room.name, "socket")
        code = CHANGED.format(serve=SERVE, changes=changes)
        start = [sys.executable, "-c", code] if changes else [sys.executable, os.path.join(SERVE, "serve")]
        ours = ["--port", "0", "--unix", self.path, "--core", core]
        self.process = subprocess.Popen([*start, *ours, *words], stdout=subprocess.PIPE, stderr=subprocess.PIPE, text=True)
        self.clients = []
        self.line = ""
        if ready and select.select([self.process.stdout], [], [], PATIENCE)[0]:
            self.line = self.process.stdout.readline()
        found = re.search(r":(\d+)[ ,]", self.line)
        self.tcp = ("127.0.0.1", int(found[1])) if found else None

    def __enter__(self):
        return self

    def __exit__(self, *_):
        try:
            self.stop()
        finally:
            self.process.kill()
            self.forget()

    def forget(self):
        for client in self.clients:
            client.close()
        self.process.stdout.close()
        self.process.stderr.close()
        self.room.cleanup()

    def file(self, name):
        return os.path.join(self.room.name, name)

    def client(self, address=None):
        self.clients.append(Client(address or self.path))
        return self.clients[-1]

    def signal(self, number=signal.SIGTERM):
        if self.process.poll() is None:
            self.process.send_signal(number)

    def stop(self):
        """Ends it by SIGTERM, and gives its status."""
        self.signal()
        return self.wait()

    def wait(self):
        return self.process.wait(PATIENCE)

    def notes(self):
        return self.process.stderr.read()


class ToldCore:
    """Keeps what a core would be told."""

    def __init__(self):
        self.told = []

    def piece(self, number, data):
        self.told.append((number, data))

    def hang_up(self, number):
        self.told.append((number, None))
