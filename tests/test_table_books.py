"""`languages/uca_files.py --book`: a book for the table of a language. It reads small folders in the place of Unicode's and CLDR's (small_cldr.py)."""
import os
import re
import subprocess
import sys

import small_cldr
from program import LIMIT, TOP, UCA, Ended, ProgramTest

# Texts of a language, of its four letters: one has a blank, and two are no texts but patterns.
TEXTS = ["ab", "dad", "cab", "Bad cab", "{0} ab", "[a b c d]"]
# The same weights as in Unicode 15.0.0, so that general.book serves them.
WEIGHTS = {"A": 0x20B3, "B": 0x20CD, "C": 0x20E7, "D": 0x20FD}
LETTERS = "".join(f"{ord(it):04X} ; [.{WEIGHTS[it.upper()]:04X}.0020.{8 if it.isupper() else 2:04X}]\n" for it in "aAbBcCdD")
# Three letters and the end of level 1 where both later levels are plain: a byte for each.
SHORT = re.compile(rb"([0-9A-F]{2}){3}02\n")


class TableBooks(ProgramTest):
    def setUp(self):
        super().setUp()
        texts = "".join(f"<name>{it}</name>" for it in TEXTS)
        self.cldr = {**small_cldr.CLDR, "main/pl.xml": f"<ldml><names>{texts}</names></ldml>", "annotations/pl.xml": "<ldml><annotation>add | bad | cab dab</annotation></ldml>"}
        self.unicode = dict(small_cldr.UNICODE)

    def call(self, tag, into="made"):
        """Runs the script over the folders of this test."""
        small_cldr.write(f"{self.folder}/unicode", self.unicode)
        small_cldr.write(f"{self.folder}/cldr", self.cldr)
        words = [f"{TOP}/languages/uca_files.py", "--uca", UCA, "--unicode", "unicode", "--cldr", "cldr", "--into", into, "--book", tag]
        ran = subprocess.run([sys.executable, *words], cwd=self.folder, capture_output=True, timeout=LIMIT, check=False)
        self.assertNotIn(b"Traceback", ran.stderr)
        return Ended(ran.returncode, ran.stdout, ran.stderr)

    def paths(self, tag, into="made"):
        """The table, the data file and the book of a tag. Their order in keys is that of the letters, so `uca` takes them."""
        found = self.call(tag, into)
        self.assertEqual(found.status, 0, found.err)
        paths = found.out.decode().split()
        self.assertEqual([os.path.basename(it) for it in paths], ["table.txt", "data.txt", "book.txt"])
        return paths

    def keyed(self, paths, line):
        """The compact key of a line."""
        found = self.run_uca("keys", "--compact", paths[2], *paths[:2], given=line)
        self.assertEqual((found.status, found.err), (0, b""))
        return found.out

    def is_short(self, paths):
        """Letters take a byte each, and the order is that of Polish here: a after c."""
        for line in "abc\n", "dda\n":
            self.assertRegex(self.keyed(paths, line), SHORT)
        keys = [self.keyed(paths, f"{it}\n") for it in "bcad"]
        self.assertEqual(sorted(keys), keys)

    def test_chosen_by_texts(self):
        """general.book has two bytes for these letters, which are not where Unicode's table has them."""
        paths = self.paths("pl")
        self.is_short(paths)
        self.assertFalse(SHORT.match(self.keyed([*paths[:2], f"{TOP}/examples/books/general.book"], "abc\n")))

    def test_another_edition(self):
        """general.book is for the table of Unicode 15.0.0 alone. A book for another edition is chosen too."""
        self.unicode["allkeys.txt"] = f"@version 16.0.0\n{small_cldr.SIGNS}{small_cldr.DIGITS}{LETTERS}"
        self.is_short(self.paths("pl"))

    def test_carried_over(self):
        """A language whose letters are short by general.book has its image: there are more starts than the few weights of this table need."""
        self.unicode["allkeys.txt"] = f"@version 15.0.0\n{small_cldr.SIGNS}{small_cldr.DIGITS}{LETTERS}"
        self.cldr["main/de.xml"] = self.cldr["main/pl.xml"]
        paths = self.paths("de")
        self.assertRegex(self.keyed(paths, "abc\n"), SHORT)
        with open(paths[2], "rb") as book, open(f"{TOP}/examples/books/general.book", "rb") as general:
            self.assertEqual(book.read().count(b"\n"), general.read().count(b"\n"))

    def test_no_texts(self):
        """CLDR may have no texts in a language."""
        paths = self.paths("eu")
        self.assertRegex(self.keyed(paths, "a\n"), b"([0-9A-F]{2})+02\n")

    def test_the_same_again(self):
        """The same files make the same book."""
        books = []
        for into in "one", "two":
            with open(self.paths("pl", into)[2], "rb") as file:
                books.append(file.read())
        self.assertEqual(*books)

    def test_errors(self):
        """A broken file of CLDR is an error that names it."""
        self.cldr["annotations/pl.xml"] = "<ldml>"
        found = self.call("pl")
        self.assertEqual((found.status, found.out), (1, b""))
        self.assertIn(b"cldr/annotations/pl.xml: ", found.err)
        self.assertEqual(found.err.count(b"\n"), 1)
