"""The files that rdb.py writes."""
import io
import os
import unittest

import rdb

BENCH = os.path.dirname(os.path.dirname(os.path.abspath(__file__)))


class Files(unittest.TestCase):
    def test_the_checksum_is_that_of_redis(self):
        # the check value that crc64.c of Redis is tested by
        self.assertEqual(rdb.crc(0, b"123456789"), 0xE9C6D914C4B8D9CA)

    def test_the_small_file_is_the_one_that_stands_here(self):
        with open(f"{BENCH}/strings.rdb", "rb") as file:
            self.assertEqual(rdb.strings(), file.read())

    def test_the_checksum_of_a_repeated_block_is_that_of_its_bytes(self):
        out = io.BytesIO()
        rdb.long(1, True, out)
        data = out.getvalue()
        self.assertEqual(rdb.crc(0, data[:-8]).to_bytes(8, "little"), data[-8:])

    def test_lengths_in_their_shortest_form(self):
        for length, front in [(63, b"\x3f"), (64, b"\x40\x40"), (16383, b"\x7f\xff"), (16384, b"\x80\0\0\x40\0")]:
            self.assertTrue(rdb.text(b"x" * length).startswith(front + b"x"))


if __name__ == "__main__":
    unittest.main()
