"""`--numeric`: numbers of ASCII digits compare by their values."""
from program import DATA, TABLE, ProgramTest, key_of
from test_fingerprints import fingerprint

# The ten digits have the weights 1C3D to 1C46.
DIGITS = "".join(f"{0x30 + digit:04X} ; [.{0x1C3D + digit:04X}.0020.0002]\n" for digit in range(10))
NUMBER_TABLE = TABLE.replace("0061 ;", DIGITS + "0061 ;", 1)

BY_VALUE = ["--numeric", "--weighting", "non-ignorable"]


def three_levels(*primaries):
    """The key of elements without an accent and without a capital."""
    return key_of(" ".join(primaries), " ".join(["0020"] * len(primaries)), " ".join(["0002"] * len(primaries)))


class Numbers(ProgramTest):
    def setUp(self):
        super().setUp()
        self.write(t=NUMBER_TABLE, d=DATA)

    def test_keys(self):
        """`a7` is read as `a17`, and so is `a007`. `a10` is read as `a210`."""
        seven, ten = three_levels("1C47", "1C3E", "1C44"), three_levels("1C47", "1C3F", "1C3E", "1C3D")
        self.expect(["keys", *BY_VALUE, "t", "d"], "a7\na007\na10\n", out=seven + seven + ten)

    def test_tables(self):
        """A table has to order numbers. Here the digit 7 is in another key, then its weight is that of 6, and then it has no row.
        As text each table is taken."""
        row = "0037 ; [.1C44.0020.0002]\n"
        rejected = [("0031 0037 ; [.1D00.0020.0002]\n" + row, "table row 9: Digits\n"), (row.replace("1C44", "1C43"), "table row 9: Digits\n"), ("", "table: Digits\n")]
        commands = ["keys t d", "keys --lines --header t d", "keys --compact k t d", "sort t d", "compare t d a a"]
        for rows, err in rejected:
            self.write(t=NUMBER_TABLE.replace(row, rows), k="@book 1\n")
            for command in commands:
                name, rest = command.split(" ", 1)
                self.expect(f"{name} --numeric {rest}", "7\n8\n", status=1, err=err)
                self.assertEqual(self.run_uca(*command.split(), given="7\n8\n").status, 0)
            self.assertEqual(self.run_uca("fingerprint", "--numeric", "t", "d").status, 0)
        self.write(t=NUMBER_TABLE, d="@data 1\nccc 0037..0037 1\n")
        self.expect("sort --numeric t d", "7\n", status=1, err="table row 9: Digits\n")

    def test_keys_without_digits(self):
        lines = "ab\n\nb a\n"
        self.assertEqual(self.run_uca("keys", "--numeric", "t", "d", given=lines), self.run_uca("keys", "t", "d", given=lines))

    def test_keys_with_an_identical_level(self):
        """At an identical level are the code points of the line."""
        key = three_levels("1C47", "1C3E", "1C44").rstrip("\n")
        self.expect(["keys", *BY_VALUE, "--identical", "t", "d"], "a007\n", out=key + " 0000 000061 000030 000030 000037\n")

    def test_headers(self):
        sum_of_files = fingerprint(NUMBER_TABLE, DATA, "non-ignorable", "weights", ["numbers by value"])
        printed = "#uca keys 1 non-ignorable weights " + sum_of_files + "1C3E1C3D000000200020000000020002\t0\n"
        self.expect(["keys", *BY_VALUE, "--lines", "--header", "t", "d"], "0\n", out=printed)

    def test_compact_keys(self):
        """They are those of the keys."""
        self.write(k="@book 1\n")
        lines = "a9\na10\n"
        whole = self.run_uca("keys", *BY_VALUE, "t", "d", given=lines).out
        compact = self.run_uca("compact", "--weighting", "non-ignorable", "k", given=whole).out
        self.expect(["keys", *BY_VALUE, "--compact", "k", "t", "d"], lines, out=compact)

    def test_sort(self):
        lines = "ab\na10\na9\na2\n10a\n9b\na007\na7\n"
        self.expect(["sort", *BY_VALUE, "t", "d"], lines, out="9b\n10a\na2\na007\na7\na9\na10\nab\n")
        self.expect(["sort", "--weighting", "non-ignorable", "t", "d"], "a10\na9\na2\n", out="a10\na2\na9\n")

    def test_compare(self):
        pairs = [("a9", "a10", "< 1"), ("a7", "a007", "= 0"), ("9", "9a", "< 1"), ("99999999", "100000000", "< 1")]
        for left, right, printed in pairs:
            self.expect(["compare", *BY_VALUE, "t", "d", left, right], out=printed + "\n")
        self.expect(["compare", *BY_VALUE, "--identical", "t", "d", "a7", "a007"], out="> 4\n")

    def test_affected(self):
        """A target with digits occurs in what is read: `a9` is read as `a19`."""
        self.write(r="&a < 19", h="@changes 1\ntext 0031 0039\n")
        lines, by_value = "a9\nb\na19\na2\n91\n", "a9\na19\n"
        for options in ["d", "r"], ["--changes", "d", "h"]:
            self.expect(["affected", *options], lines, out="a19\n")
            self.expect(["affected", "--numeric", *options], lines, out=by_value)

    def test_limits(self):
        """The limits of a text are limits of what is read. Of many zeros that is `10`. A million digits take 125,001 more."""
        self.expect(["keys", *BY_VALUE, "t", "d"], "0" * 1_048_577 + "\n", out=three_levels("1C3E", "1C3D"))
        self.expect("keys t d", "0" * 1_048_577 + "\n", status=1, err="input line 1: TooLong\n")
        self.expect("keys --numeric t d", "9" * 1_000_000 + "\n", status=1, err="input line 1: TooLong\n")
        self.expect(["compare", "--numeric", "t", "d", "9" * 60_000, "1" + "0" * 60_000], out="< 1\n")
