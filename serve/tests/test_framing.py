"""Where requests end: as the core says it, whatever the cuts."""
import os
import random
import re
import unittest

from helpers import SERVE, request
from relay.framing import Framer

ROWS = os.path.join(SERVE, "..", "rows", "frame_rows", "stdout")
ROW = re.compile(r"frames (?P<bytes>.*) = (?P<words>.*) kept (?P<kept>\d+), (?P<fault>None|Some.*?) \| the same in pieces: true$")
ESCAPE = re.compile(r"\\(x..|.)")
LETTERS = {"r": "\r", "n": "\n", "0": "\0", "t": "\t", "s": " ", "\\": "\\"}


def unescaped(text):
    def letter(found):
        code = found[1]
        return chr(int(code[1:], 16)) if code[0] == "x" else LETTERS[code]

    return ESCAPE.sub(letter, text).encode("latin-1")


def fed(pieces):
    """The parts of these pieces, neighbours of the core's joined, and the framer."""
    framer, parts = Framer(), []
    for piece in pieces:
        if framer.ended:
            break
        for part in framer.feed(piece):
            if part[0] is not None and parts and parts[-1][0] is not None:
                parts[-1] = (parts[-1][0] + part[0], parts[-1][1] + part[1])
            else:
                parts.append(part)
    return parts, framer


def counted(pieces):
    """How many replies are due, whether no more is looked at, and whether nothing is open."""
    parts, framer = fed(pieces)
    return sum(count for part, count in parts if part is not None), framer.ended, not (framer.rest or framer.words or framer.left)


def cuts(data):
    yield [data]
    yield [data[at : at + 1] for at in range(len(data))]
    yield from ([data[:at], data[at:]] for at in range(1, len(data)))


def cut_at_random(data, dice):
    places = sorted(dice.sample(range(1, len(data)), min(len(data) - 1, dice.randrange(12))))
    return [data[a:b] for a, b in zip([0, *places], [*places, len(data)])]


class Rows(unittest.TestCase):
    def test_requests_and_faults_are_those_of_the_core(self):
        with open(ROWS, encoding="utf-8") as file:
            rows = [found for line in file if (found := ROW.match(line))]
        self.assertGreater(len(rows), 30)
        for row in rows:
            data, words = unescaped(row["bytes"]), row["words"].split(";")[:-1]
            quits = [at for at, text in enumerate(words) if text.split("|")[0].upper() == "QUIT"]
            is_broken = row["fault"] != "None" and not quits
            due = quits[0] + 1 if quits else len(words) + is_broken
            whole = row["kept"] == "0" or bool(quits) or is_broken
            for pieces in cuts(data):
                with self.subTest(row["bytes"], pieces=pieces):
                    count, ended, is_whole = counted(pieces)
                    self.assertEqual((count, ended), (due, bool(quits) or is_broken))
                    self.assertTrue(ended or is_whole == whole)

    def test_long_lines_and_headers(self):
        for data, broken in [
            (b"a" * 65_536 + b"\n", False), (b"a" * 65_536 + b"a\n", True), (b"a" * 65_536, False), (b"a" * 65_537, True),
            (b"*" + b"1" * 65_535, False), (b"*" + b"1" * 65_536, True), (b"*" + b"1" * 65_535 + b"\r\n", True),
            (b"*-" + b"1" * 65_534 + b"\r\n", False), (b"*-" + b"1" * 65_535 + b"\r\n", True),
            (b"*1\r\n$" + b"1" * 65_535, False), (b"*1\r\n$" + b"1" * 65_536, True),
        ]:
            for pieces in ([data], [data[:-1], data[-1:]], [data[:3], data[3:]]):
                with self.subTest(data[:8], size=len(data)):
                    self.assertEqual(counted(pieces)[1], broken)

    def test_the_bytes_of_a_word_are_checked_to_its_end(self):
        for end, broken in [(b"\r\n", False), (b"\rx", True), (b"xy", True), (b"\n\n", True)]:
            data = b"*2\r\n$3\r\nGET\r\n$5\r\nhello" + end
            for pieces in cuts(data):
                with self.subTest(pieces=pieces):
                    self.assertEqual(counted(pieces)[1], broken)


class Own(unittest.TestCase):
    def test_what_the_relay_answers_is_taken_out_whatever_the_cuts(self):
        first, second, third = request("SET", "k", "info"), request("GET", "k"), b"*0\r\n\r\n" + request("INFOS") + request("CLIENT", "KILL", "x")
        data = first + request("hello", 3) + b" client  ID\r\n" + second + third + request("CONFIG", "GET", "save")
        wanted = [(first, 1), (None, [b"hello", b"3"]), (None, [b"client", b"ID"]), (second + third, 3), (None, [b"CONFIG", b"GET", b"save"])]
        for pieces in cuts(data):
            with self.subTest(pieces=pieces):
                parts, framer = fed(pieces)
                self.assertEqual(parts, wanted)
                self.assertEqual(framer.rest, b"")

    def test_inside_a_transaction_nothing_is_taken_out(self):
        inside = request("MULTI") + request("INFO") + b"CLIENT ID\n" + request("EXEC", "x") + request("INFO") + request("EXEC")
        for end in (request("EXEC"), request("DISCARD"), b"exec\n"):
            data = inside.removesuffix(request("EXEC")) + end + request("INFO")
            parts, _ = fed([data])
            self.assertEqual(parts, [(data.removesuffix(request("INFO")), 6), (None, [b"INFO"])])
        parts, _ = fed([request("MULTI", "x") + request("INFO")])
        self.assertEqual(parts, [(request("MULTI", "x"), 1), (None, [b"INFO"])])

    def test_long_ones_are_the_cores(self):
        for data in (request("INFO", "x" * 513), request("COMMAND", "DOCS", *range(15)), request("HELLO", *range(20))):
            self.assertEqual(fed([data])[0], [(data, 1)])

    def test_behind_quit_nothing_is_looked_at(self):
        for quits in (b"quit\r\n", request("QUIT"), request("QUIT", "now"), request("MULTI") + request("QUIT")):
            due = 2 if b"MULTI" in quits else 1
            for pieces in cuts(quits + b"*x\r\nGET a\r\n"):
                with self.subTest(pieces=pieces):
                    parts, framer = fed(pieces)
                    self.assertTrue(framer.ended)
                    self.assertEqual(parts, [(quits, due)])


class Streams(unittest.TestCase):
    def test_a_large_word_is_handed_on_as_it_comes(self):
        framer, data = Framer(), request("SET", "k", "v" * 500_000)
        for at in range(0, len(data), 1000):
            framer.feed(data[at : at + 1000])
            self.assertLess(len(framer.rest), 10)

    def test_random_streams_in_random_pieces(self):
        dice = random.Random(7)
        kinds = [request("GET", "k"), request("INFO"), b"PING\r\n", b"\r\n", b"*-3\r\n", request("CLIENT", "SETNAME", "n"), request("MSET", *["$5\r\n"] * 8),
                 request("MULTI"), request("EXEC"), request("COMMAND"), request("SET", "k", "\r\n" * 70), b"info\n", request("COMMAND", "COUNT")]
        for turn in range(400):
            data = b"".join(dice.choices(kinds, k=dice.randrange(1, 12)))
            if dice.random() < 0.2:
                data += dice.choice([b"*x\r\n", b"'\n", request("QUIT"), b"*1\r\nx", b"*1\r\n$1\r\naa\r\n"])
            with self.subTest(turn=turn, data=data):
                whole, framer = fed([data])
                pieces, other = fed(cut_at_random(data, dice))
                if framer.ended and whole[-1][0] is not None and pieces[-1][0] is not None:
                    # (of a broken stream more is handed on where more came at once)
                    self.assertTrue(whole[-1][0].startswith(pieces[-1][0]))
                    whole[-1], pieces[-1] = (b"", whole[-1][1]), (b"", pieces[-1][1])
                self.assertEqual(pieces, whole)
                self.assertEqual((framer.ended, framer.in_multi), (other.ended, other.in_multi))


if __name__ == "__main__":
    unittest.main()
