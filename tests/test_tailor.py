"""`uca tailor` and `uca audit`: the tables and certificates that are written, and what is said of them."""
import os

from program import DATA, TABLE, ProgramTest

# What the file of the certificate held before: more bytes than each certificate has.
OLD = "".join(f"1 {n:04} {n:04} 0001\n" for n in range(1, 10))

# The certificate of a tailoring of the table that moves no weight.
UNMOVED = """1 0209 0209 0001
1 1C47 1C47 0001
1 1C60 1C60 0001
2 0020 0020 0001
2 0024 0024 0002
2 002C 002C 0001
3 0002 0002 0001
3 0008 0008 0001
"""

# The row of a letter directly after the first letter of the table.
ROW = "0078 ; [.1C48.0020.0002]\n"

# The table without room between its letters, and what becomes of it with a letter between them.
NARROW = TABLE.replace("1C60", "1C48")
WIDENED = TABLE.replace("1C60", "1C49") + ROW
MOVED = UNMOVED.replace("1 1C60 1C60", "1 1C48 1C49")

# An accent whose weight is not above those of implicit weights.
ILL_FORMED = TABLE.replace("[.0000.0024.0002]", "[.0000.0020.0002]")

TAILOR = "tailor t d r c"


class Tailorings(ProgramTest):
    def test_tailorings(self):
        """Base, rules, tailored table, certificate, and the primary weight of `b` under both tables."""
        cases = [
            (TABLE, "&a < x", TABLE + ROW, UNMOVED, "1C60", "1C60"),
            (NARROW, "&a < x", WIDENED, MOVED, "1C48", "1C49"),
            (TABLE, "", TABLE, UNMOVED, "1C60", "1C60"),
        ]
        for base, rules, tailored, certificate, weight, tailored_weight in cases:
            self.write(t=base, d=DATA, r=rules, c=OLD)
            self.expect(TAILOR, out=tailored)
            self.assertEqual(self.read("c").decode(), certificate)
            self.write(n=tailored)
            self.expect("audit t d r n c", out="accepted\n")
            for table, of_b in ("t", weight), ("n", tailored_weight):
                self.expect(f"compare --weighting non-ignorable {table} d a b", out="< 1\n")
                self.expect(f"keys --weighting non-ignorable {table} d", "b\n", out=f"{of_b} 0000 0020 0000 0002\n")

    def test_certificates_over_files_that_are_read(self):
        """The arguments, and which file the certificate would be written over. `l` is a link to the table. Nothing is opened."""
        self.write(t=TABLE, d=DATA, r="&a < x")
        os.symlink("t", f"{self.folder}/l")
        os.link(f"{self.folder}/d", f"{self.folder}/h")
        cases = [
            ("t d r t", "table"),
            ("t d r d", "data"),
            ("t d r r", "rules"),
            ("./t d r t", "table"),
            ("t d r ./d", "data"),
            ("t d ./r r", "rules"),
            ("t t t t", "table"),
            ("t d d d", "data"),
            ("./t d t t", "table"),
            ("t ./r r r", "data"),
            ("missing d r r", "rules"),
            ("missing d missing missing", "table"),
            ("l d r t", "table"),
            ("t d r h", "data"),
        ]
        for arguments, role in cases:
            self.expect("tailor " + arguments, status=2, err=f"certificate: SameAs {role}\n")
        self.assertEqual((self.read("t"), self.read("d")), (TABLE.encode(), DATA.encode()))

    def test_rejected_files(self):
        """The certificate that was there stays."""
        cases = [
            (TABLE, "&[before 3]a <<< x <<< y", "tailor: NoRoom 3"),
            (TABLE, r"&\u4E00 < x", "tailor relation 1: Anchor"),
            (TABLE, r"&a < b\u0301\u0300", "tailor relation 1: NeedsPrefix"),
            (TABLE, "&a < x / bbbbbbbbbbbbbbbb &x = y / bbbbbbbbbbbbbbbb", "tailor relation 2: Limit"),
            (TABLE, "&a <<<< x", "rules byte 3: Syntax"),
            (ILL_FORMED, "&a < x", "tailor: BaseIllFormed"),
            ("@version 1\n0020 ; [*FB00.0020.0002]\n0021 ; [*FFFF.0020.0002]\n", r"&\u4E00 = x", "tailor relation 1: ImplicitVariable"),
            ("", "&a < x", "table line 1: Order"),
        ]
        for table, rules, said in cases:
            self.write(t=table, d=DATA, r=rules, c=OLD)
            self.expect(TAILOR, status=1, err=said + "\n")
            self.assertEqual(self.read("c").decode(), OLD)

    def test_files_that_do_not_open(self):
        self.write(t=TABLE, d=DATA, c=OLD)
        self.expect(TAILOR, status=3, err="rules: Open\n")
        self.write(d=None)
        self.expect(TAILOR, status=3, err="data: Open\n")
        self.write(t=None)
        self.expect(TAILOR, status=3, err="table: Open\n")
        self.assertEqual(self.read("c").decode(), OLD)

    def test_certificates_that_cannot_be_made(self):
        self.write(t=TABLE, d=DATA, r="&a < x")
        self.expect("tailor t d r missing/c", status=3, err="certificate: Write\n")


class Audits(ProgramTest):
    BASE = "@version 1\n0061 ; [.1C47.0020.0002]\n0062 ; [.1C60.0020.0002]\n"
    TAILORED = "@version 1\n0061 ; [.1C47.0020.0002]\n0063 ; [.1C48.0020.0002]\n0062 ; [.1C60.0020.0002]\n"
    CERTIFICATE = "1 1C47 1C47 001A\n2 0020 0020 0001\n3 0002 0002 0001\n"
    FILES = {"b": BASE, "d": "@data 1\nccc 0301..0301 230\n", "r": "& a < c", "t": TAILORED, "c": CERTIFICATE}

    def expect_audit(self, **ended):
        self.expect("audit b d r t c", "a\n", **ended)

    def test_verdicts(self):
        self.write(**self.FILES)
        self.expect_audit(out="accepted\n")
        # one file more is changed each time
        changes = [
            ({"r": "& b < c"}, "refused 9 NotPlaced relation 1"),
            ({"r": ""}, "refused 7 RowExtra tailored row 2"),
            ({"c": self.CERTIFICATE.replace("001A", "0001")}, "refused 4 Uncovered base row 2"),
            ({"t": "@version 2\n"}, "refused 3 Header"),
        ]
        for change, verdict in changes:
            self.write(**change)
            self.expect_audit(status=1, out=verdict + "\n")

    def test_rejected_files(self):
        """One file more has an error each time. They are read in the order of the arguments."""
        self.write(**self.FILES)
        changes = [
            ({"c": "?\n", "t": "@version 1\n@version 1\n"}, "tailored line 2: Order"),
            ({"r": "& a < b < é < é"}, "rules byte 15: DuplicateTarget"),
            ({"r": "& a <"}, "rules byte 5: EmptyText"),
            ({"d": "?\n"}, "data line 1: Order"),
            ({"b": "@version 1\n?\n"}, "base line 2: CodePoint"),
        ]
        for change, said in changes:
            self.write(**change)
            self.expect_audit(status=1, err=said + "\n")

    def test_files_that_do_not_open(self):
        """All are opened before one is read, in the order of the arguments."""
        self.write(**self.FILES)
        for name, role in ("c", "certificate"), ("t", "tailored"), ("r", "rules"), ("d", "data"), ("b", "base"):
            self.write(**{name: None})
            self.expect_audit(status=3, err=f"{role}: Open\n")

    def test_long_rules(self):
        """Rules have at most 1,048,576 bytes."""
        self.write(**{**self.FILES, "r": " " * 1_048_600})
        self.expect_audit(status=1, err="rules byte 1048576: Limit\n")
