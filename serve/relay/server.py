"""The relay's loop: connections, the core, signals and the ending."""
import os
import resource
import selectors
import signal
import socket
import sys
import time

from relay import listening, options
from relay.answers import VERSION, answer
from relay.connections import Connection
from relay.core import Core
from relay.sessions import Sessions

NO_ADDRESS = 71  # the status where an address can't be listened on
# While more bytes than this wait for the core, no client is read.
AHEAD = 4 << 20
# So many seconds clients have at the end to take what is left for them.
LINGER = 5
# A connection of TCP that was silent for so many seconds is asked whether it is there.
KEEP_ALIVE = 300
FILES_BESIDE = 64
READS, WRITES = selectors.EVENT_READ, selectors.EVENT_WRITE
FULL = b"-ERR max number of clients reached\r\n"


def note(text):
    print(f"serve: {text}", file=sys.stderr, flush=True)


class Relay:
    """`selector` watches the core, the listeners, sockets that take no more bytes, and `clients`, which watches the sockets that are read."""

    def __init__(self, asked, listeners, core):
        self.asked = asked
        self.listeners = listeners
        self.core = core
        self.sessions = Sessions(core)
        self.selector = selectors.DefaultSelector()
        self.clients = selectors.DefaultSelector()
        self.connections = set()
        self.touched = set()  # connections that were given something
        self.idents = 0
        self.begun = time.monotonic()
        self.is_reading = False  # clients are read
        self.is_writing = False  # the core's input is waited for
        self.is_stopping = False
        self.has_ended = False  # the core's output ended
        self.number = None

    def run(self):
        """Serves until the core ends, and gives its status."""
        self.take_signals()
        self.selector.register(self.core.output, READS, lambda _: self.read_core())
        self.read_clients(True)
        # A fence before anything else: its unit says that the core has begun and its file is loaded.
        self.sessions.leave(self.sessions.take(self))
        self.write_core()
        while not self.has_ended:
            self.turn(None)
        return self.conclude()

    def turn(self, seconds):
        for key, events in self.selector.select(seconds):
            if not self.has_ended:
                key.data(events)
        self.write_core()
        self.send_touched()
        self.write_core()

    def take_signals(self):
        wake, woken = socket.socketpair()
        for end in (wake, woken):
            end.setblocking(False)
        signal.set_wakeup_fd(woken.fileno(), warn_on_full_buffer=False)
        for name in (signal.SIGTERM, signal.SIGINT):
            signal.signal(name, lambda *_: None)
        self.wake = (wake, woken)
        self.selector.register(wake, READS, lambda _: self.stop())

    # The core.

    def write_core(self):
        is_all = self.core.write()
        if is_all == self.is_writing:
            self.is_writing = not is_all
            if self.is_writing:
                self.selector.register(self.core.input, WRITES, lambda _: None)
            else:
                self.selector.unregister(self.core.input)
        self.read_clients(self.core.waiting <= AHEAD)

    def read_core(self):
        units = self.core.read()
        if units is None:
            self.selector.unregister(self.core.output)
            self.has_ended = True
            return
        unit, touched = self.sessions.unit, self.touched
        for number, data, is_end in units:
            holder, is_fence = unit(number, data)
            if is_fence:
                self.passed(holder)
            elif holder is not None and holder is not self and not holder.is_closed:
                holder.give(data, is_end)
                touched.add(holder)

    def passed(self, holder):
        """All that was asked before on the holder's number is answered, and the number is free."""
        if holder is not self:
            holder.is_answered = True
            self.touched.add(holder)
        elif not self.is_stopping:
            listening.listen(self.listeners)
            for listener in self.listeners:
                self.selector.register(listener, READS, lambda _, it=listener: self.accept(it))
            print(listening.told(self.listeners), flush=True)

    # Connections.

    def read_clients(self, are_read):
        if are_read != self.is_reading:
            self.is_reading = are_read
            if are_read:
                self.selector.register(self.clients.fileno(), READS, lambda _: self.hear_clients())
            else:
                self.selector.unregister(self.clients.fileno())

    def hear_clients(self):
        for key, _ in self.clients.select(0):
            self.hear(key.data)
            if self.core.waiting > AHEAD:
                break

    def accept(self, listener):
        try:
            sock, _ = listener.accept()
        except OSError:
            return
        sock.setblocking(False)
        number = None
        if len(self.connections) < self.asked.max_clients:
            self.idents += 1
            connection = Connection(sock, self.idents)
            number = self.sessions.take(connection)
        if number is None:
            refuse(sock)
            return
        if sock.family != socket.AF_UNIX:
            set_up_tcp(sock)
        connection.number = number
        self.connections.add(connection)
        self.clients.register(sock, READS, connection)

    def hear(self, connection):
        """Reads a client."""
        try:
            data = connection.take()
        except BlockingIOError:
            return
        except OSError:
            self.drop(connection)
            return
        if not data:
            connection.is_read = True
            self.clients.unregister(connection.sock)
            self.end(connection)
        elif not connection.is_ending:
            self.ask(connection, data)
            if connection.framer.ended:
                self.end(connection)
        # (what comes behind the end is read and thrown away, lest closing the socket takes back what was sent)

    def ask(self, connection, data):
        for part, asked in connection.framer.feed(data):
            if part is None:
                connection.give_own(answer(asked, connection, self.facts))
                self.touched.add(connection)
            else:
                self.core.piece(connection.number, part)
                connection.asked += asked

    def facts(self):
        yield from ("# Server", f"redis_version:{VERSION}", "redis_mode:standalone", f"process_id:{os.getpid()}")
        yield f"uptime_in_seconds:{int(time.monotonic() - self.begun)}"
        yield from ("# Clients", f"connected_clients:{len(self.connections)}", f"maxclients:{self.asked.max_clients}")
        yield from ("# Replication", "role:master")

    def end(self, connection):
        """Hands over nothing more of the client; it still gets the replies to what was handed over."""
        if not connection.is_ending:
            connection.is_ending = True
            self.sessions.leave(connection.number)
        self.touched.add(connection)

    def drop(self, connection):
        """Closes the socket now, and throws away what is left for it."""
        if connection.is_closed:
            return
        self.end(connection)
        connection.is_closed = True
        if not connection.is_read:
            self.clients.unregister(connection.sock)
        if connection.is_blocked:
            self.selector.unregister(connection.sock)
        connection.sock.close()
        connection.out.clear()
        connection.own.clear()
        self.connections.discard(connection)

    def send_touched(self):
        while self.touched:
            connection = self.touched.pop()
            if not connection.is_closed:
                self.send(connection)

    def send(self, connection):
        if connection.fault:
            note(f"client {connection.ident} {connection.fault}, and is dropped")
            self.drop(connection)
            return
        try:
            is_all = connection.send()
            if is_all == connection.is_blocked:
                self.block(connection, not is_all)
            if is_all and connection.is_answered:
                self.part(connection)
        except OSError:
            self.drop(connection)

    def block(self, connection, is_blocked):
        connection.is_blocked = is_blocked
        if is_blocked:
            self.selector.register(connection.sock, WRITES, lambda _, it=connection: self.touched.add(it))
        else:
            self.selector.unregister(connection.sock)

    def part(self, connection):
        """All was sent: says so, and closes when the client does."""
        if connection.is_read:
            self.drop(connection)
        else:
            connection.sock.shutdown(socket.SHUT_WR)

    # The ending.

    def stop(self):
        """Takes no more clients or requests, and ends the core's input behind those that came."""
        self.wake[0].recv(64)
        if self.is_stopping:
            return
        self.is_stopping = True
        for listener in self.listeners:
            try:
                self.selector.unregister(listener)
            except KeyError:
                pass
        listening.close(self.listeners)
        # (each session is hung up, lest one that ends inside a request makes the core's status 3, with which nothing is saved)
        for connection in self.connections:
            self.end(connection)
        self.core.end_input()

    def conclude(self):
        """Sends what is left, and gives the core's status when it has ended."""
        if not self.is_stopping:
            listening.close(self.listeners)
        for connection in self.connections:
            connection.is_answered = True
            self.touched.add(connection)
        until = time.monotonic() + LINGER
        self.send_touched()
        while any(it.out for it in self.connections) and (left := until - time.monotonic()) > 0:
            for key, events in self.selector.select(left):
                key.data(events)
            self.send_touched()
        for connection in list(self.connections):
            self.drop(connection)
        status = self.core.wait()
        if not self.is_stopping:
            note(f"the core ended by itself, with status {status}")
        return status


def set_up_tcp(sock):
    """Replies are sent at once, and a peer that is gone without a word is noticed."""
    sock.setsockopt(socket.IPPROTO_TCP, socket.TCP_NODELAY, 1)
    sock.setsockopt(socket.SOL_SOCKET, socket.SO_KEEPALIVE, 1)
    if hasattr(socket, "TCP_KEEPIDLE"):
        sock.setsockopt(socket.IPPROTO_TCP, socket.TCP_KEEPIDLE, KEEP_ALIVE)


def refuse(sock):
    try:
        sock.send(FULL)
        sock.shutdown(socket.SHUT_WR)
    except OSError:
        pass
    sock.close()


def fit_files(asked):
    """Raises the limit of open files as far as it goes, and lowers the number of clients to what fits."""
    least = asked.max_clients + FILES_BESIDE
    soft, hard = resource.getrlimit(resource.RLIMIT_NOFILE)
    most = least if hard == resource.RLIM_INFINITY else min(least, hard)
    if soft != resource.RLIM_INFINITY and soft < most:
        resource.setrlimit(resource.RLIMIT_NOFILE, (most, hard))
        soft = most
    if soft != resource.RLIM_INFINITY and soft < least:
        asked.max_clients = max(1, soft - FILES_BESIDE)
        note(f"at most {asked.max_clients} clients, by the limit of open files")


def main(words):
    asked = options.read(words)
    fit_files(asked)
    try:
        listeners = listening.bound(asked)
    except listening.Refused as refused:
        note(f"can't listen on {refused}")
        return NO_ADDRESS
    try:
        core = Core(options.core_words(asked))
    except OSError as error:
        note(f"can't start the core program: {error}")
        listening.close(listeners)
        return options.USAGE
    return Relay(asked, listeners, core).run()
