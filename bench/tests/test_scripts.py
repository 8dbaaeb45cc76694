"""What the other scripts read and count."""
import os
import subprocess
import sys
import tempfile
import unittest

import gate_cost
import rows_server
from resp import request

BENCH = os.path.dirname(os.path.dirname(os.path.abspath(__file__)))


class Texts(unittest.TestCase):
    def test_a_request_is_an_array_of_bulk_strings(self):
        self.assertEqual(request(b"GET", b""), b"*2\r\n$3\r\nGET\r\n$0\r\n\r\n")

    def test_the_escapes_of_rows(self):
        self.assertEqual(rows_server.unescaped(r"a\r\n\0\s\e\xff\\"), b"a\r\n\0 \xff\\")

    def test_cases_begin_at_their_headings(self):
        with tempfile.NamedTemporaryFile("w") as file:
            file.write("// a line\ncase one\nask GET a -> $-1\ncase two\n")
            file.flush()
            cases = list(rows_server.cases(file.name))
        self.assertEqual(cases, [["// a line"], ["case one", "ask GET a -> $-1"], ["case two"]])


class Pages(unittest.TestCase):
    def test_trusted_tells_the_lines_that_stand(self):
        ran = subprocess.run([sys.executable, f"{BENCH}/trusted.py"], capture_output=True, text=True)
        self.assertEqual((ran.returncode, ran.stdout), (0, "all as told\n"))

    def test_the_table_of_sip_hash_checks_itself(self):
        ran = subprocess.run([sys.executable, f"{BENCH}/siphash_table.py"], check=True, capture_output=True, text=True)
        with open(f"{BENCH}/../rows/basics_rows/stdout", encoding="utf-8") as file:
            told = [line.split(" = ")[1] for line in file.read().split("\n") if line.startswith("digest sip 1 2 ")]
        made = ["".join(line.strip(" ,").removeprefix("0x").split("_")) for line in ran.stdout.split("\n") if line]
        self.assertEqual(told, made)

    def test_the_gates_cost_is_added_up(self):
        lines = gate_cost.table({(1, "a", "libraries"): 60.0, (2, "a", "tests"): 30.0, (3, "b", "libraries"): 60.0}).split("\n")
        self.assertEqual(lines[2], "| all | 2.0 | 0.5 | 0.0 | 2.5 |")
        self.assertEqual(lines[3], "| a | 1.0 | 0.5 | 0.0 | 1.5 |")


if __name__ == "__main__":
    unittest.main()
