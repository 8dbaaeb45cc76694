"""The relay as a process, over the stand-in core and real sockets."""
import contextlib
import io
import os
import random
import re
import signal
import socket
import subprocess
import sys
import tempfile
import threading
import unittest
from unittest import mock

from helpers import PATIENCE, SERVE, STAND_IN, Served, broken_off, request
from relay import options, server

FULL = b"-ERR max number of clients reached\r\n"


def touch(path):
    with open(path, "w", encoding="utf-8"):
        pass


class Serving(unittest.TestCase):
    @classmethod
    def setUpClass(cls):
        cls.served = Served().__enter__()
        cls.addClassCleanup(cls.served.__exit__)

    def setUp(self):
        self.served.client().ask("FLUSHALL")

    def test_clients_share_the_keys(self):
        served = self.served
        first, second = served.client(), served.client()
        self.assertEqual(first.ask("SET", "a", "1"), b"+OK\r\n")
        self.assertEqual(second.ask("INCR", "a"), b":2\r\n")
        first.send(b"GET a\r\nSELECT 3\r\nGET a\r\n")
        self.assertEqual([first.reply() for _ in range(3)], [b"$1\r\n2\r\n", b"+OK\r\n", b"$-1\r\n"])
        self.assertEqual(second.ask("GET", "a"), b"$1\r\n2\r\n")

    def test_it_says_where_it_listens_and_takes_tcp_too(self):
        served = self.served
        found = re.fullmatch(r"serve: listening on 127\.0\.0\.1:(\d+) and (\S+), for this machine alone\n", served.line)
        self.assertEqual((int(found[1]), found[2]), (served.tcp[1], served.path))
        self.assertEqual(served.client(served.tcp).ask("PING"), b"+PONG\r\n")

    def test_many_requests_at_once_and_byte_by_byte(self):
        served = self.served
        client = served.client()
        client.send(b"".join(request("ECHO", at) for at in range(5000)))
        for at in range(5000):
            self.assertEqual(client.reply(), b"$%d\r\n%d\r\n" % (len(str(at)), at))
        for byte in request("SET", "key", "value") + request("GET", "key"):
            client.send(bytes([byte]))
        self.assertEqual([client.reply(), client.reply()], [b"+OK\r\n", b"$5\r\nvalue\r\n"])

    def test_large_values(self):
        served = self.served
        client, value = served.client(), bytes(range(256)) * 20_000
        self.assertEqual(client.ask("SET", "k", value), b"+OK\r\n")
        self.assertEqual(client.ask("GET", "k"), b"$5120000\r\n" + value + b"\r\n")

    def test_transactions_of_one_among_others(self):
        served = self.served
        first, second = served.client(), served.client()
        first.ask("WATCH", "a")
        self.assertEqual([first.ask("MULTI"), first.ask("INCR", "a")], [b"+OK\r\n", b"+QUEUED\r\n"])
        second.ask("SET", "a", "5")
        self.assertEqual(first.ask("EXEC"), b"*-1\r\n")
        first.send(b"MULTI\r\nINCR a\r\nINCR a\r\nEXEC\r\n")
        self.assertEqual([first.reply() for _ in range(4)][3], b"*2\r\n:6\r\n:7\r\n")

    def test_own_replies_stand_where_they_were_asked(self):
        served = self.served
        client, gate = served.client(), served.file("gate")
        ident = client.ask("CLIENT", "ID")
        client.send(request("AWAIT", gate) + request("CLIENT", "ID") + b"PING\r\nHELLO 3\r\nINFO\r\n" + request("ECHO", "x"))
        other = served.client()
        other.send(b"COMMAND\r\n")
        self.assertEqual(other.reply(), b"*0\r\n")
        touch(gate)
        got = [client.reply() for _ in range(6)]
        self.assertEqual(got[:4], [b"+OK\r\n", ident, b"+PONG\r\n", b"-NOPROTO unsupported protocol version\r\n"])
        self.assertIn(b"connected_clients:", got[4])
        self.assertEqual(got[5], b"$1\r\nx\r\n")

    def test_inside_a_transaction_the_core_refuses_what_is_the_relays(self):
        served = self.served
        client = served.client()
        ident = client.ask("CLIENT", "ID")
        client.send(b"MULTI\r\nCLIENT ID\r\nEXEC\r\nCLIENT ID\r\n")
        got = [client.reply() for _ in range(4)]
        self.assertEqual((got[1], got[2][:10], got[3]), (b"-ERR unknown command\r\n", b"-EXECABORT", ident))


class Endings(unittest.TestCase):
    def test_quit_closes_behind_its_reply(self):
        with Served() as served:
            for quits in (b"PING\r\nQUIT\r\nPING\r\n", request("PING") + request("quit"), b"PING\r\nMULTI\r\nquit now\r\n" + b"x" * 100_000):
                client = served.client()
                client.send(quits)
                self.assertEqual(client.rest().replace(b"+PONG\r\n", b"").replace(b"+OK\r\n", b""), b"")
            self.assertEqual(served.client().ask("PING"), b"+PONG\r\n")

    def test_rubbish_is_answered_once_and_closes(self):
        with Served() as served:
            for rubbish in (b"*x\r\n", b"*1\r\n+OK\r\n", b"GET 'a'\r\nPING\r\n"):
                client = served.client()
                client.send(b"PING\r\n" + rubbish)
                got = client.rest()
                self.assertTrue(got.startswith(b"+PONG\r\n-ERR Protocol error"))
                self.assertEqual(got.count(b"\r\n"), 2)

    def test_a_client_that_sends_no_more_gets_its_replies(self):
        with Served() as served:
            client = served.client()
            client.send(b"SET a 1\r\nFILL 3000000\r\nGET a\r\nGET")
            client.sock.shutdown(socket.SHUT_WR)
            self.assertEqual(client.rest(), b"+OK\r\n$3000000\r\n" + b"x" * 3_000_000 + b"\r\n$1\r\n1\r\n")

    def test_a_broken_connection_loses_nobody_elses_replies(self):
        with Served() as served:
            gate = served.file("gate")
            first, second = served.client(served.tcp), served.client()
            first.send(request("AWAIT", gate) + request("FILL", 200_000) * 20 + request("SET", "a", "whole") + b"*2\r\n$3\r\nGE")
            second.send(request("ECHO", "mine") * 100)
            self.assertEqual(served.client().ask("INFO")[:1], b"$")
            broken_off(first)
            touch(gate)
            self.assertEqual([second.reply() for _ in range(100)], [b"$4\r\nmine\r\n"] * 100)
            # (a core that was handed the request before the connection broke has run it)
            self.assertIn(second.ask("GET", "a"), (b"$5\r\nwhole\r\n", b"$-1\r\n"))

    def test_a_new_holder_of_a_number_never_gets_what_the_old_one_asked_for(self):
        # one number, and the fence's
        with Served(changes="from relay import sessions; sessions.Sessions.__init__.__defaults__ = (1,)") as served:
            for turn in range(5):
                gate = served.file(f"gate{turn}")
                old = self.admitted(served)
                old.send(b"SELECT 7\r\n" + request("AWAIT", gate) + b"PING\r\n" * 50 + b"MULTI\r\nPING\r\n")
                self.assertEqual(old.reply(), b"+OK\r\n")
                old.close()
                early = served.client()
                self.assertEqual(early.rest(), FULL)
                touch(gate)
                new = self.admitted(served)
                self.assertEqual([new.ask("ECHO", f"new{turn}"), new.ask("INCR", "n")], [b"$4\r\nnew%d\r\n" % turn, b":%d\r\n" % (turn + 1)])
                new.send(b"QUIT\r\n")
                self.assertEqual(new.rest(), b"+OK\r\n")

    def admitted(self, served):
        """A client that gets a number, which may be free only after a while."""
        for _ in range(10_000):
            client = served.client()
            try:
                if client.ask("PING") == b"+PONG\r\n":
                    return client
            except OSError:
                pass
            client.close()
            served.clients.pop()
        self.fail("no number came free")

    def test_past_the_greatest_number_a_client_is_refused(self):
        with Served("--max-clients", "2") as served:
            first, second = served.client(), served.client()
            self.assertEqual([first.ask("PING"), second.ask("PING")], [b"+PONG\r\n"] * 2)
            self.assertEqual(served.client().rest(), FULL)
            second.send(b"QUIT\r\n")
            self.assertEqual(second.rest(), b"+OK\r\n")
            second.close()
            self.assertEqual(self.admitted(served).ask("PING"), b"+PONG\r\n")
            self.assertEqual(first.ask("PING"), b"+PONG\r\n")

    def test_a_slow_reader_is_dropped_and_nobody_else_waits(self):
        with Served(changes="from relay import connections; connections.OUTPUT_LIMIT = 1 << 20") as served:
            slow, other = served.client(), served.client()
            slow.send(request("FILL", 500_000) * 40)
            for at in range(200):
                self.assertEqual(other.ask("INCR", "n"), b":%d\r\n" % (at + 1))
            with self.assertRaises(OSError):
                # (what it was sent ends early, or by a reset)
                if len(slow.rest()) < 20_000_000:
                    raise ConnectionResetError
            self.assertEqual(served.stop(), 0)
            self.assertIn("client 1 doesn't read its replies", served.notes())

    def test_one_large_reply_is_not_too_much(self):
        with Served(changes="from relay import connections; connections.OUTPUT_LIMIT = 1 << 20") as served:
            slow, other = served.client(), served.client()
            slow.send(request("FILL", 20_000_000))
            self.assertEqual([other.ask("PING") for _ in range(20)], [b"+PONG\r\n"] * 20)
            self.assertEqual(len(slow.reply()), 20_000_013)


class Stopping(unittest.TestCase):
    def test_what_was_asked_is_answered_and_saved(self):
        for number in (signal.SIGTERM, signal.SIGINT):
            with Served() as probe:
                path = probe.file("saved")
                with Served("--save", path) as served:
                    client, cut, gate = served.client(), served.client(), served.file("gate")
                    self.assertEqual(cut.ask("PING"), b"+PONG\r\n")
                    cut.send(b"*2\r\n$3\r\nGET\r\n$9\r\nke")
                    client.send(request("AWAIT", gate) + request("SET", "a", "kept") + request("GET", "a"))
                    # (one more client's reply says that these were taken)
                    self.assertEqual(served.client().ask("CLIENT", "ID"), b":3\r\n")
                    served.signal(number)
                    touch(gate)
                    self.assertEqual(client.rest(), b"+OK\r\n+OK\r\n$4\r\nkept\r\n")
                    self.assertEqual(served.wait(), 0)
                    self.assertFalse(os.path.exists(served.path))
                with Served("--load", path) as again:
                    self.assertEqual(again.client().ask("GET", "a"), b"$4\r\nkept\r\n")

    def test_the_core_that_ends_by_itself_ends_it(self):
        with Served() as served:
            first, second = served.client(), served.client()
            self.assertEqual(second.ask("PING"), b"+PONG\r\n")
            first.send(b"DIE 8\r\n")
            self.assertEqual((first.rest(), second.rest()), (b"", b""))
            self.assertEqual(served.wait(), 8)
            self.assertEqual(served.notes(), "stand-in: ends with status 8\nserve: the core ended by itself, with status 8\n")

    def test_the_core_that_ends_while_requests_wait_for_it(self):
        with Served() as served:
            first, second = served.client(), served.client()

            def push():
                with contextlib.suppress(OSError):
                    while True:
                        first.send(request("SET", "k", b"x" * 100_000))

            pushing = threading.Thread(target=push)
            pushing.start()
            second.send(b"DIE 9\r\n")
            self.assertEqual(second.rest(), b"")
            pushing.join(PATIENCE)
            self.assertEqual((served.wait(), pushing.is_alive()), (9, False))

    def test_a_file_that_is_not_there_is_the_cores_status(self):
        with Served("--load", "/nowhere/file", ready=False) as served:
            self.assertEqual(served.wait(), 6)
            self.assertEqual(served.process.stdout.read(), "")
            self.assertIn("redis-core: file could not be read\n", served.notes())

    def test_an_address_that_is_taken(self):
        with Served() as served:
            for words in (["--port", str(served.tcp[1])], ["--port", "0", "--unix", served.path]):
                ran = run("--core", STAND_IN, *words)
                self.assertEqual(ran.returncode, 71)
                self.assertIn("serve: can't listen on", ran.stderr)
            self.assertEqual(served.client().ask("PING"), b"+PONG\r\n")

    def test_a_socket_that_was_left_behind_is_replaced(self):
        with Served() as served:
            with tempfile.TemporaryDirectory() as room:
                path = os.path.join(room, "left")
                with socket.socket(socket.AF_UNIX) as left:
                    left.bind(path)
                with Served("--unix", path) as other:
                    self.assertEqual(other.client(path).ask("PING"), b"+PONG\r\n")
            self.assertEqual(served.client().ask("PING"), b"+PONG\r\n")


def run(*words):
    return subprocess.run([sys.executable, os.path.join(SERVE, "serve"), *words], capture_output=True, text=True, timeout=PATIENCE)


class Words(unittest.TestCase):
    def test_without_the_core_program_it_says_what_to_do(self):
        ran = run("--core", "/nowhere/core")
        self.assertEqual((ran.returncode, ran.stdout), (64, ""))
        self.assertEqual(ran.stderr, "serve: there is no core program at /nowhere/core: --core names no program\n")

    def test_a_core_that_is_no_program(self):
        with tempfile.NamedTemporaryFile("w") as file:
            file.write("no program")
            file.flush()
            os.chmod(file.name, 0o700)
            with mock.patch.object(options, "core_words", return_value=[file.name]), contextlib.redirect_stderr(io.StringIO()) as told:
                self.assertEqual(server.main(["--port", "0", "--core", file.name]), 64)
        self.assertIn("serve: can't start the core program", told.getvalue())

    def test_wrong_words(self):
        for words in (["--port", "x"], ["--port", "65536"], ["--max-clients", "0"], ["--effort", "101"], ["more"], ["--loa", "x"]):
            told = io.StringIO()
            with self.assertRaises(SystemExit) as ended, contextlib.redirect_stderr(told):
                options.read(["--core", STAND_IN, *words])
            self.assertEqual(ended.exception.code, 64, words)
            self.assertIn("usage: serve", told.getvalue())

    def test_what_the_core_is_told(self):
        told = options.core_words(options.read(["--core", STAND_IN, "--seed", "7", "--load=-a", "--effort=3", "--set-max-intset", "9"]))
        self.assertEqual(told, [STAND_IN, "--max-input", str(2**62), "--seed", "7", "--effort", "3", "--set-max-intset", "9", "--load=-a"])
        drawn = {options.core_words(options.read(["--core", STAND_IN]))[4] for _ in range(5)}
        self.assertEqual(len(drawn), 5)


class Many(unittest.TestCase):
    def test_connections_that_come_and_go_while_others_count(self):
        """200 connections, some broken off in the middle, and four clients that count: nothing is lost, and nobody gets another's."""
        with Served() as served:
            wrong = []

            def count():
                client = served.client()
                for _ in range(250):
                    if not client.ask("INCR", "n").startswith(b":"):
                        wrong.append("INCR")

            def come_and_go(seed):
                dice = random.Random(seed)
                for at in range(25):
                    client = served.client(dice.choice((served.path, served.tcp)))
                    word = f"{seed}.{at}".encode()
                    client.send(request("ECHO", word) * 30)
                    for _ in range(dice.choice((0, 1, 30))):
                        if client.reply() != b"$%d\r\n%s\r\n" % (len(word), word):
                            wrong.append(word)
                    dice.choice((client.close, lambda it=client: broken_off(it)))()

            threads = [threading.Thread(target=count) for _ in range(4)]
            threads += [threading.Thread(target=come_and_go, args=(seed,)) for seed in range(8)]
            for thread in threads:
                thread.start()
            for thread in threads:
                thread.join()
            self.assertEqual(wrong, [])
            self.assertEqual(served.client().ask("GET", "n"), b"$4\r\n1000\r\n")
            self.assertEqual((served.stop(), served.notes()), (0, ""))


if __name__ == "__main__":
    unittest.main()
