"""Each link between the pages names a file that stands, and each of its headings that it names too."""
import os
import re
import subprocess
import unittest

TOP = os.path.dirname(os.path.dirname(os.path.dirname(os.path.abspath(__file__))))
LINK = re.compile(r"\]\(([^)\s]+)\)")


def anchors(text):
    heads = re.findall(r"(?m)^#+ (.+)$", text)
    return {re.sub(r"[^\w\- ]", "", head.lower()).replace(" ", "-") for head in heads}


def read(path):
    with open(path, encoding="utf-8") as file:
        return file.read()


def pages():
    for at, folders, files in os.walk(TOP):
        folders[:] = [it for it in folders if it not in ("out", ".git")]
        yield from (f"{at}/{file}" for file in files if file.endswith(".md"))


class Links(unittest.TestCase):
    def test_each_names_what_stands(self):
        lost = []
        for page in pages():
            for link in LINK.findall(read(page)):
                path, _, anchor = link.partition("#")
                if "://" in link:
                    continue
                target = os.path.normpath(os.path.join(os.path.dirname(page), path)) if path else page
                if not os.path.exists(target) or anchor and anchor not in anchors(read(target)):
                    lost.append(f"{os.path.relpath(page, TOP)}: {link}")
        self.assertEqual(lost, [])


class Grep(unittest.TestCase):
    def test_it_shows_the_rows_of_a_command(self):
        ran = subprocess.run([f"{TOP}/test", "--grep", "hstrlen"], capture_output=True, text=True)
        self.assertEqual(ran.returncode, 0)
        self.assertIn("crates/top_rows/stdin:", ran.stdout)
        self.assertIn("rows/frame_rows/stdin:", ran.stdout)

    def test_it_says_where_there_is_none(self):
        ran = subprocess.run([f"{TOP}/test", "--grep", "no_row_has_this"], capture_output=True, text=True)
        self.assertEqual((ran.returncode, ran.stdout), (1, ""))


if __name__ == "__main__":
    unittest.main()
