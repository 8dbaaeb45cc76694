"""Which edits fit, and which crates are chosen."""
import os
import tempfile
import unittest

import edits


class Fits(unittest.TestCase):
    def misfit(self, edit, text="let a = 1;\nlet b = 1;\n"):
        with tempfile.TemporaryDirectory() as room:
            os.mkdir(f"{room}/src")
            for name, content in (("src/lib.rt", text), ("it.edit", edit)):
                with open(f"{room}/{name}", "w", encoding="utf-8") as file:
                    file.write(content)
            return edits.misfit(f"{room}/it.edit", room)

    def test_one_that_stands_once_fits(self):
        self.assertIsNone(self.misfit("file: src/lib.rt\nold: a = 1\nnew: a = 2\n"))

    def test_a_later_pair_applies_to_what_the_earlier_made(self):
        self.assertIsNone(self.misfit("file: src/lib.rt\nold: a = 1\nnew: c = 3\nold: c = 3\nnew: c = 4\n"))

    def test_one_that_stands_twice_or_nowhere_does_not(self):
        for old in ("= 1", "a = 2"):
            self.assertIn("stands not once", self.misfit(f"file: src/lib.rt\nold: {old}\nnew: a\n"))

    def test_one_without_its_file_does_not(self):
        self.assertIn("there is no", self.misfit("file: src/other.rt\nold: a\nnew: b\n"))
        self.assertIn("no `file:`", self.misfit("old: a\n"))


class Pages(unittest.TestCase):
    def test_the_page_names_each_edit(self):
        with open(f"{edits.TOP}/edits/README.md", encoding="utf-8") as file:
            self.assertEqual(file.read(), edits.page())


class Chosen(unittest.TestCase):
    def test_the_shares_are_all(self):
        shares = [edits.chosen(["--share", f"{k}/3"]) for k in (1, 2, 3)]
        self.assertEqual(sorted(name for share in shares for name in share), edits.chosen(["--all"]))

    def test_a_crate_without_edits_is_refused(self):
        with self.assertRaises(SystemExit):
            edits.chosen(["no_such_crate"])


if __name__ == "__main__":
    unittest.main()
