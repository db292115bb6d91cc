"""`uca fingerprint`: the SHA-256 of a text that names what keys are made by."""
import hashlib

from helps import said
from program import DATA, TABLE, TOP, ProgramTest

# What `sha256sum` printed of the text for examples/table.txt and examples/data.txt, after it had printed the sum of each.
VALUES = [
    ("", "e7f57a6e4d62231e80b6600c0dd402ad409c5ac624c44f4db1e4265ba4627407"),
    ("--identical", "57aa1a1867dcae884148b2d4e0179b55e2e76aa563c2a47ef2441b2d030252ec"),
    ("--weighting non-ignorable", "5126fb54de1f1f4e6954a78b739662995c7e533e1dfd15a14a43e96d36545cd1"),
    ("--identical --weighting non-ignorable", "ee2df62493dacb2a89b38ad344000dd14ad965b91dca7e249d5a4a7724c9fa1c"),
]

# What `sha256sum` printed of the text for compact keys: the fingerprint above, and the sum of examples/books/general.book.
COMPACT_VALUES = [
    ("", "ccd5e4f422ee569350143008ed232fa3b6f65f74da9f20fa68497b01ef2df594"),
    ("--identical", "90afd5594c23fd20fe321c2c9c9a336ddb1dd881d6e09dfd75dbcc98a0cb73dc"),
]

SETTINGS = [(weighting, depth) for weighting in ("shifted", "non-ignorable") for depth in ("weights", "identical")]


def fingerprint(table, data, weighting, depth, numbers=()):
    """The line that is printed, worked out from docs/FORMATS.md."""

    def digits(file):
        return hashlib.sha256(file.encode()).hexdigest()

    made_by = ["uca keys 1", "unicode 18.0.0", f"weighting {weighting}", f"depth {depth}", *numbers, f"table {digits(table)}", f"data {digits(data)}"]
    return digits("".join(line + "\n" for line in made_by)) + "\n"


def compact_fingerprint(table, data, book, weighting, depth):
    """The same for compact keys by a book."""
    keys = fingerprint(table, data, weighting, depth)
    text = f"uca compact keys 1\nkeys {keys}book {hashlib.sha256(book.encode()).hexdigest()}\n"
    return hashlib.sha256(text.encode()).hexdigest() + "\n"


def options_of(weighting, depth):
    return ["--weighting", weighting] + ["--identical"] * (depth == "identical")


def example(name):
    with open(f"{TOP}/examples/{name}", encoding="utf-8", newline="") as file:
        return file.read()


class Fingerprints(ProgramTest):
    def test_values_of_sha256sum(self):
        self.write(t=example("table.txt"), d=example("data.txt"))
        for options, printed in VALUES:
            self.expect(f"fingerprint {options} t d", out=printed + "\n")

    def test_settings(self):
        """Each weighting and each depth has a fingerprint of its own."""
        self.write(t=TABLE, d=DATA)
        for weighting, depth in SETTINGS:
            self.expect(["fingerprint", *options_of(weighting, depth), "t", "d"], out=fingerprint(TABLE, DATA, weighting, depth))
        self.assertEqual(len({fingerprint(TABLE, DATA, *setting) for setting in SETTINGS}), 4)

    def test_numbers(self):
        """With numbers by value the text has a line more."""
        self.write(t=TABLE, d=DATA)
        for weighting, depth in SETTINGS:
            printed = fingerprint(TABLE, DATA, weighting, depth, ["numbers by value"])
            self.expect(["fingerprint", "--numeric", *options_of(weighting, depth), "t", "d"], out=printed)

    def test_the_weighting_that_holds(self):
        """The one that is asked for, or else the table's, or else shifted."""
        for setting in "", "non-ignorable", "shifted":
            table = TABLE.replace("@version 1\n", f"@version 1\n@variable {setting}\n" if setting else "@version 1\n")
            self.write(t=table, d=DATA)
            for asked in "", "non-ignorable", "shifted":
                options = f"--weighting {asked}" if asked else ""
                out = fingerprint(table, DATA, asked or setting or "shifted", "weights")
                self.expect(f"fingerprint {options} t d", out=out)

    def test_bytes_that_mean_nothing(self):
        """Comments, empty lines and blanks count, and files of many sizes are read to their ends."""
        for more in "# a comment\n", "\n", " \t\n", "#" * 63 + "\n", "# é\n" * 30000:
            table, data = TABLE + more, DATA + more
            self.write(t=table, d=DATA)
            self.expect("fingerprint t d", out=fingerprint(table, DATA, "shifted", "weights"))
            self.write(t=TABLE, d=data)
            self.expect("fingerprint t d", out=fingerprint(TABLE, data, "shifted", "weights"))

    def test_files_that_are_rejected(self):
        """The table is read first. Nothing is printed."""
        bad = "@data 2\n"
        for table, data, said in [
            (TABLE + "0061 ; [.1C47.0020.0002]\n", bad, f"table line {TABLE.count(chr(10)) + 1}: DuplicateKey\n"),
            ("", bad, "table line 1: Order\n"),
            (TABLE[:-1], bad, f"table line {TABLE.count(chr(10))}: Line\n"),
            (TABLE, bad, "data line 1: Order\n"),
            (TABLE, "", "data line 1: Order\n"),
            (TABLE, DATA[:-1], f"data line {DATA.count(chr(10))}: Line\n"),
        ]:
            self.write(t=table, d=data)
            self.expect("fingerprint t d", status=1, err=said)

    def test_files_that_do_not_open(self):
        self.write(t=TABLE, d=DATA)
        self.expect("fingerprint none d", status=3, err="table: Open\n")
        self.expect("fingerprint t none", status=3, err="data: Open\n")
        self.expect("fingerprint . d", status=3, err="table line 1: Read\n")

    def test_a_file_without_an_end(self):
        """A device that never ends is rejected at its first line, which has no LF, and takes no memory."""
        self.write(t=TABLE, d=DATA)
        self.expect("fingerprint /dev/zero d", status=1, err="table line 1: Limit\n")
        self.expect("fingerprint t /dev/zero", status=1, err="data line 1: Limit\n")

    def test_an_output_that_fails(self):
        self.write(t=TABLE, d=DATA)
        with open("/dev/full", "wb") as full:
            ended = self.run_uca("fingerprint", "t", "d", stdout=full)
        self.assertEqual((ended.status, ended.err), (3, said("output: Write\n")))


class CompactFingerprints(ProgramTest):
    def setUp(self):
        super().setUp()
        self.write(t=TABLE, d=DATA, b="@book 1\n")

    def test_values_of_sha256sum(self):
        self.write(t=example("table.txt"), d=example("data.txt"), b=example("books/general.book"))
        for options, printed in COMPACT_VALUES:
            self.expect(f"fingerprint {options} --compact b t d", out=printed + "\n")

    def test_settings_and_books(self):
        """Each book, each weighting and each depth has a fingerprint of its own."""
        books = ["@book 1\n", "@book 1\n1 0002\n", "@book 1\n4 0002\n", "@book 1\n1 0002\n1 FFFF\n4 0002\n4 FFFE\n", example("books/general.book")]
        printed = set()
        for book in books:
            self.write(b=book)
            for weighting, depth in SETTINGS:
                out = compact_fingerprint(TABLE, DATA, book, weighting, depth)
                self.expect(["fingerprint", *options_of(weighting, depth), "--compact", "b", "t", "d"], out=out)
                printed.add(out)
        self.assertEqual(len(printed), len(books) * 4)

    def test_the_longest_book(self):
        starts = [f"1 {start:04X}\n" for start in range(2, 247)] + [f"4 {start:04X}\n" for start in range(0x1000, 0x10FF)]
        book = "@book 1\n" + "".join(starts)
        self.write(b=book)
        self.expect("fingerprint --compact b t d", out=compact_fingerprint(TABLE, DATA, book, "shifted", "weights"))

    def test_files_that_are_rejected(self):
        """The table is read first, and the book last. Nothing is printed."""
        for table, data, book, said in [
            ("", "", "", "table line 1: Order\n"),
            (TABLE, "", "", "data line 1: Order\n"),
            (TABLE, DATA, "", "book line 1: Order\n"),
            (TABLE, DATA, "@book 1\n1 0001\n", "book line 2: Weight\n"),
            (TABLE, DATA, "@book 1\n1 0002", "book line 2: Line\n"),
        ]:
            self.write(t=table, d=data, b=book)
            self.expect("fingerprint --compact b t d", status=1, err=said)

    def test_files_that_do_not_open(self):
        for words, said in [("none none none", "table"), ("none t none", "data"), ("none t d", "book")]:
            self.expect(f"fingerprint --compact {words}", status=3, err=f"{said}: Open\n")
        self.expect("fingerprint --compact . t d", status=3, err="book line 1: Read\n")

    def test_an_output_that_fails(self):
        with open("/dev/full", "wb") as full:
            ended = self.run_uca("fingerprint", "--compact", "b", "t", "d", stdout=full)
        self.assertEqual((ended.status, ended.err), (3, said("output: Write\n")))
