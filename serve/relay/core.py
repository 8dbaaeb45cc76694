"""The core program behind its two pipes: pieces go in, units come out.

A piece is a session number (u16, little-endian), a length (u32, little-endian) and so many bytes of that session; the length
2^32 - 1 has no bytes and hangs the number up, which begins anew with its next piece. A unit is a number (u16), a length (u64)
and the bytes of one reply.
"""
import fcntl
import os
import struct
import subprocess

PIECE = struct.Struct("<HI")
UNIT = struct.Struct("<HQ")
HANG_UP = 2**32 - 1
# A unit of at most so many bytes is given out whole, a longer one as it comes.
WHOLE = 65_536
ROOM = 1 << 20


class Units:
    """Units out of the bytes of a pipe."""

    def __init__(self):
        self.rest = b""
        self.number = 0
        self.left = 0  # so many bytes are due of a unit whose front was given out

    def feed(self, data):
        """Takes the next bytes; lists `(number, bytes, is_end)`: whole units, or parts of one, of which the last is its end."""
        found, at = [], 0
        if self.left:
            part = data[: self.left]
            self.left -= len(part)
            at = len(part)
            found.append((self.number, part, not self.left))
        elif self.rest:
            data = self.rest + data
        size = len(data)
        while size - at >= UNIT.size:
            number, length = UNIT.unpack_from(data, at)
            begin = at + UNIT.size
            at = begin + length
            if at > size:
                if length <= WHOLE:
                    at = begin - UNIT.size
                    break
                self.number, self.left = number, at - size
                found.append((number, data[begin:], False))
                at = size
                break
            found.append((number, data[begin:at], True))
        self.rest = data[at:]
        return found


class Core:
    """The process, what waits to be written to it, and its units."""

    def __init__(self, words):
        # (a session of its own: the terminal's interrupt is for the relay, which ends the core's input)
        self.process = subprocess.Popen(
            words, stdin=subprocess.PIPE, stdout=subprocess.PIPE, bufsize=0, start_new_session=True)
        self.input = self.process.stdin.fileno()
        self.output = self.process.stdout.fileno()
        self.units = Units()
        self.waiting = 0  # bytes not written yet
        self.is_ending = False  # the input ends where these are written
        self.is_shut = False  # the input is closed
        self.queue = []
        self.now = b""
        for pipe in (self.input, self.output):
            os.set_blocking(pipe, False)
            try:
                fcntl.fcntl(pipe, fcntl.F_SETPIPE_SZ, ROOM)
            except (OSError, AttributeError):
                pass

    def piece(self, number, data):
        """Hands over bytes of a session; they are written by `write`, together with others."""
        if data and not self.is_shut:
            self.queue += (PIECE.pack(number, len(data)), data)
            self.waiting += PIECE.size + len(data)

    def hang_up(self, number):
        if not self.is_shut:
            self.queue.append(PIECE.pack(number, HANG_UP))
            self.waiting += PIECE.size

    def end_input(self):
        self.is_ending = True

    def write(self):
        """Writes as much as the pipe takes; says whether all was written, and then ends the input where that was asked."""
        try:
            while self.queue or self.now:
                if not self.now:
                    self.now = memoryview(b"".join(self.queue))
                    self.queue = []
                count = os.write(self.input, self.now)
                self.now = self.now[count:]
                self.waiting -= count
        except BlockingIOError:
            return False
        except BrokenPipeError:
            # (the end of its output says that it ended)
            self.shut()
        if self.is_ending:
            self.shut()
        return True

    def shut(self):
        if not self.is_shut:
            self.is_shut = True
            self.queue, self.now, self.waiting = [], b"", 0
            self.process.stdin.close()

    def read(self):
        """Lists the units that came; None at the end of the output."""
        try:
            data = os.read(self.output, ROOM)
        except BlockingIOError:
            return []
        return self.units.feed(data) if data else None

    def wait(self):
        """Waits until the process ended, and gives its status; 128 and the number of the signal that ended it."""
        self.shut()
        self.process.stdout.close()
        status = self.process.wait()
        return status if status >= 0 else 128 - status
