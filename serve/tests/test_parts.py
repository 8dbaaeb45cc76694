"""Units, numbers, the order of replies, and the relay's own answers, without a process."""
import itertools
import socket
import struct
import unittest
from unittest import mock

from helpers import ToldCore
from relay import connections, core
from relay.answers import answer, is_own
from relay.connections import Connection
from relay.core import Core, Units
from relay.listening import told
from relay.sessions import Sessions


def unit(number, data):
    return struct.pack("<HQ", number, len(data)) + data


class OfUnits(unittest.TestCase):
    def test_they_are_whole_whatever_the_cuts(self):
        replies = [(3, b"+OK\r\n"), (65_535, b""), (3, b"$2\r\nab\r\n")]
        data = b"".join(itertools.starmap(unit, replies))
        for size in range(1, len(data) + 1):
            units = Units()
            found = [it for at in range(0, len(data), size) for it in units.feed(data[at : at + size])]
            self.assertEqual(found, [(number, part, True) for number, part in replies])

    def test_a_long_one_comes_in_parts(self):
        long = bytes(range(256)) * 300
        data, units = unit(1, b"a") + unit(2, long) + unit(1, b"b"), Units()
        found = [it for at in range(0, len(data), 1000) for it in units.feed(data[at : at + 1000])]
        self.assertEqual((found[0], found[-1]), ((1, b"a", True), (1, b"b", True)))
        parts = found[1:-1]
        self.assertEqual([it[2] for it in parts], [False] * (len(parts) - 1) + [True])
        self.assertEqual((b"".join(it[1] for it in parts), {it[0] for it in parts}), (long, {2}))


class OfPieces(unittest.TestCase):
    def test_pieces_of_several_clients_are_one_write(self):
        cat = Core(["cat"])
        cat.piece(0, b"PING\r\n")
        cat.piece(65_535, b"GET a\r\n")
        cat.hang_up(0)
        with mock.patch.object(core.os, "write", side_effect=lambda _, data: len(data)) as write:
            self.assertTrue(cat.write())
        wanted = b"\0\0\6\0\0\0PING\r\n" + b"\xff\xff\7\0\0\0GET a\r\n" + b"\0\0\xff\xff\xff\xff"
        self.assertEqual([bytes(call.args[1]) for call in write.call_args_list], [wanted])
        self.assertEqual((cat.waiting, cat.wait()), (0, 0))


class OfNumbers(unittest.TestCase):
    def test_a_number_is_free_when_its_fence_came(self):
        core_told = ToldCore()
        sessions = Sessions(core_told, 2)
        self.assertEqual((sessions.take("a"), sessions.take("b"), sessions.take("c")), (0, 1, None))
        sessions.leave(0)
        self.assertEqual([it[0] for it in core_told.told], [0, 0, 0])
        self.assertEqual((core_told.told[0][1], core_told.told[2][1]), (None, None))
        token = core_told.told[1][1].removeprefix(b"*2\r\n$4\r\nECHO\r\n")
        for old in (b"+OK\r\n", b"+PONG\r\n", b"$32\r\n" + b"0" * 32 + b"\r\n"):
            self.assertEqual(sessions.unit(0, old), ("a", False))
            self.assertIsNone(sessions.take("c"))
        self.assertEqual(sessions.unit(1, token), ("b", False))
        self.assertEqual(sessions.unit(0, token), ("a", True))
        self.assertEqual(sessions.take("c"), 0)
        self.assertEqual(sessions.unit(0, token), ("c", False))
        self.assertEqual(sessions.unit(7, b""), (None, False))

    def test_tokens_differ(self):
        core_told = ToldCore()
        sessions = Sessions(core_told)
        for _ in range(20):
            sessions.leave(sessions.take("a"))
        self.assertEqual(len({it[1] for it in core_told.told if it[1]}), 20)


class OfReplies(unittest.TestCase):
    def setUp(self):
        self.ours, self.theirs = socket.socketpair()
        self.addCleanup(self.ours.close)
        self.addCleanup(self.theirs.close)
        self.ours.setblocking(False)
        self.connection = Connection(self.ours, 1)

    def test_own_replies_wait_for_those_before(self):
        it = self.connection
        it.give_own(b"1")
        it.asked = 2
        it.give_own(b"4")
        it.asked = 3
        for data, is_end in ((b"2", True), (b"3", False), (b"3", True), (b"5", True)):
            it.give(data, is_end)
        it.give_own(b"6")
        self.assertTrue(it.send())
        self.assertEqual(self.theirs.recv(100), b"1233456")
        self.assertEqual((it.waiting, it.fault), (0, ""))

    def test_more_than_was_asked_for_is_a_fault(self):
        self.connection.give(b"+OK\r\n")
        self.assertIn("didn't ask", self.connection.fault)

    def test_past_the_limit_a_reply_that_begins_is_a_fault(self):
        it = self.connection
        it.asked = 5
        with mock.patch.object(connections, "OUTPUT_LIMIT", 1000):
            it.give(b"x" * 600, False)
            it.give(b"x" * 600, True)
            self.assertEqual(it.fault, "")
            it.give(b"x")
            self.assertIn("doesn't read", it.fault)

    def test_own_replies_count_to_the_limit(self):
        self.connection.asked = 1
        with mock.patch.object(connections, "OUTPUT_LIMIT", 1000):
            for _ in range(40):
                self.connection.give_own(b"x" * 50)
        self.assertIn("doesn't read", self.connection.fault)

    def test_what_a_socket_does_not_take_waits(self):
        it = self.connection
        data = b"".join(bytes([at % 251]) * 3000 for at in range(2000))
        for at in range(0, len(data), 3000):
            it.asked += 1
            it.give(data[at : at + 3000])
        self.assertFalse(it.send())
        got = b""
        while not it.send() or len(got) < len(data):
            got += self.theirs.recv(1 << 20)
        self.assertEqual((got == data, it.waiting), (True, 0))


class OfListeners(unittest.TestCase):
    def line(self, family, *names):
        return told([mock.Mock(family=family, **{"getsockname.return_value": name}) for name in names])

    def test_it_says_who_reaches_them(self):
        alone = "serve: listening on [::1]:7 and /run/it, for this machine alone"
        self.assertEqual(self.line(socket.AF_INET6, ("::1", 7, 0, 0), "/run/it"), alone)
        open_to_all = "serve: listening on 0.0.0.0:7, for every machine that reaches it, without a password"
        self.assertEqual(self.line(socket.AF_INET, ("0.0.0.0", 7)), open_to_all)


class OfAnswers(unittest.TestCase):
    def setUp(self):
        self.client = Connection(None, 9)

    def ask(self, *words):
        self.assertTrue(is_own(list(words)))
        return answer(list(words), self.client, lambda: ["a:1", "b:2"])

    def test_which_are_the_relays(self):
        for line in ("CLIENT", "CLIENT LIST", "CLIENT ID x", "CLIENT SETNAME", "CONFIG SET a b", "CONFIG GET", "COMMAND COUNT"):
            self.assertFalse(is_own(line.encode().split()), line)

    def test_names(self):
        self.assertEqual(self.ask(b"CLIENT", b"GETNAME"), b"$-1\r\n")
        self.assertEqual(self.ask(b"client", b"setname", b"ann"), b"+OK\r\n")
        self.assertEqual(self.ask(b"CLIENT", b"GETNAME"), b"$3\r\nann\r\n")
        self.assertTrue(self.ask(b"CLIENT", b"SETNAME", b"a b").startswith(b"-ERR Client names"))
        self.assertEqual(self.ask(b"CLIENT", b"SETINFO", b"LIB-NAME", b"x"), b"+OK\r\n")
        self.assertEqual(self.ask(b"CLIENT", b"ID"), b":9\r\n")

    def test_hello(self):
        self.assertEqual(self.ask(b"HELLO", b"3"), b"-NOPROTO unsupported protocol version\r\n")
        self.assertTrue(self.ask(b"HELLO").startswith(b"*14\r\n$6\r\nserver\r\n"))
        self.assertTrue(self.ask(b"HELLO", b"2", b"SETNAME", b"bob").startswith(b"*14\r\n"))
        self.assertEqual(self.client.name, b"bob")
        self.assertTrue(self.ask(b"HELLO", b"2", b"AUTH", b"a", b"b").startswith(b"-ERR"))

    def test_settings_and_facts(self):
        self.assertEqual(self.ask(b"CONFIG", b"GET", b"maxmemory"), b"*0\r\n")
        self.assertEqual(self.ask(b"CONFIG", b"GET", b"SAVE"), b"*2\r\n$4\r\nsave\r\n$0\r\n\r\n")
        self.assertTrue(self.ask(b"CONFIG", b"GET", b"*").startswith(b"*6\r\n"))
        self.assertEqual(self.ask(b"INFO", b"server"), b"$10\r\na:1\r\nb:2\r\n\r\n")
        self.assertEqual((self.ask(b"COMMAND"), self.ask(b"COMMAND", b"docs")), (b"*0\r\n", b"*0\r\n"))


if __name__ == "__main__":
    unittest.main()
