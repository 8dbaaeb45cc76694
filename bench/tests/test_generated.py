"""The rows of generated runs are those of the model in generated.py, and the model's requests are its commands."""
import os
import re
import subprocess
import sys
import tempfile
import unittest

BENCH = os.path.dirname(os.path.dirname(os.path.abspath(__file__)))
ROWS = os.path.join(BENCH, "..", "crates", "top_rows", "stdout")
RUN = re.compile(r"^try words --generate (\d+) --seed (\d+) = 0 \[\] (commands .*)$")


def lines_of(*words):
    command = [sys.executable, f"{BENCH}/generated.py", *words]
    return subprocess.run(command, check=True, capture_output=True, text=True).stdout


class Generated(unittest.TestCase):
    def test_the_rows_are_those_of_the_model(self):
        with open(ROWS, encoding="utf-8") as file:
            runs = {found.groups() for found in map(RUN.match, file) if found}
        self.assertGreaterEqual(len(runs), 2)
        for count, seed, told in runs:
            self.assertEqual(lines_of(count, seed).replace("\n", "\\n"), told)

    def test_a_run_writes_its_commands_as_requests(self):
        with tempfile.TemporaryDirectory() as room:
            lines_of("100", "1", f"{room}/requests")
            with open(f"{room}/requests", "rb") as file:
                requests = file.read()
        self.assertEqual(len(re.findall(rb"(?m)^\*\d+\r$", requests)), 100)


if __name__ == "__main__":
    unittest.main()
