"""A client's connection: its requests, the order of its replies, and what waits to be sent."""
import collections
import itertools

from relay.framing import Framer

# A connection is dropped where a reply begins while more bytes than this wait to be sent; one reply may be of any size.
OUTPUT_LIMIT = 256 << 20
TAKE = 65_536
SENT_AT_ONCE = 256


class Connection:
    """Replies of the relay's own wait for those of the core that were asked for before: `asked` counts the core's, `answered`
    those that came."""

    def __init__(self, sock, ident):
        self.sock = sock
        self.ident = ident
        self.name = b""
        self.number = None
        self.framer = Framer()
        self.asked = 0
        self.answered = 0
        self.own = collections.deque()  # (how many of the core's come before, reply)
        self.out = collections.deque()
        self.waiting = 0  # bytes of `own` and `out`
        self.in_reply = False  # a front of a reply of the core came
        self.fault = ""  # why it has to be dropped
        self.is_blocked = False  # the socket takes nothing now
        self.is_ending = False  # the number is hung up; what was asked before is still sent
        self.is_answered = False  # nothing more is to come
        self.is_read = False  # the client sends nothing more
        self.is_closed = False

    def give(self, data, is_end=True):
        """Takes a reply of the core, or a part of one."""
        if not self.in_reply:
            self.look()
        self.in_reply = not is_end
        if data:
            self.out.append(data)
            self.waiting += len(data)
        if is_end:
            self.answered += 1
            if self.answered > self.asked:
                self.fault = "got a reply that it didn't ask for"
            while self.own and self.own[0][0] <= self.answered:
                self.out.append(self.own.popleft()[1])

    def give_own(self, reply):
        """Takes a reply of the relay's to the request that came last."""
        self.look()
        self.waiting += len(reply)
        if self.asked <= self.answered and not self.in_reply:
            self.out.append(reply)
        else:
            self.own.append((self.asked, reply))

    def look(self):
        if self.waiting > OUTPUT_LIMIT:
            self.fault = "doesn't read its replies"

    def take(self):
        """The next bytes of the client, none at their end. OSError where the connection broke; BlockingIOError where none wait."""
        return self.sock.recv(TAKE)

    def send(self):
        """Sends what the socket takes, and says whether all was sent. OSError where the connection broke."""
        out = self.out
        while out:
            try:
                if len(out) == 1:
                    count = self.sock.send(out[0])
                else:
                    count = self.sock.sendmsg(list(itertools.islice(out, SENT_AT_ONCE)))
            except BlockingIOError:
                return False
            self.waiting -= count
            while out and count >= len(out[0]):
                count -= len(out.popleft())
            if count:
                out[0] = memoryview(out[0])[count:]
        return True
