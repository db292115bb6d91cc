"""`uca affected`: the lines in which a target of rules occurs."""
from program import ACUTE, DATA, DOT_BELOW, ProgramTest


class Affected(ProgramTest):
    def expect_lines(self, rules, lines, printed, **ended):
        self.write(d=DATA, r=rules)
        self.expect("affected d r", lines, out=printed, **ended)

    def test_affected_lines(self):
        """A target's code points occur in their order, whatever is between. The line is printed as it is, with LF."""
        cases = [
            ("&a < x", "x\nax\na\n\nxa\nX\n", "x\nax\nxa\n"),
            ("&b < ch", "ch\ncah\nhc\nc\nh\n\ncc hh\nbach\n", "ch\ncah\ncc hh\nbach\n"),
            ("&b < bh", "bh\nb\nbach\nhb\n\nBH\nbb h", "bh\nbach\nbb h\n"),
            ("&b < bh", "b\u0301h\n", "b\u0301h\n"),
            ("&a < x &b < y <<< Y", "y\na\nx\nz\nYx\nxyY\n", "y\nx\nYx\nxyY\n"),
            ("&a < b = c &a < d", "d\na\nc\nb", "d\nc\nb\n"),
            ("&a < x", "a\nx", "x\n"),
            ("&a < x", "x\r\na\tx\t\na\r\n", "x\r\na\tx\t\n"),
            ("&a < x", "", ""),
            ("&a < x", "a\nb\n", ""),
            ("&a < xx", "x\nxx\nxax\n", "xx\nxax\n"),
            ("", "a\nx\n\n", ""),
            ("&a <* b-d", "b\na\nc\ne\nd\n", "b\nc\nd\n"),
            ("&a = x / y", "y\nx\n", "x\n"),
        ]
        for rules, lines, printed in cases:
            self.expect_lines(rules, lines, printed)

    def test_a_target_with_an_accent(self):
        """What counts is Normalization Form D: a letter with its accent is one code point or two."""
        marked = "a" + DOT_BELOW + ACUTE
        lines = f"a\ná\na{ACUTE}\n{ACUTE}a\n{marked}\nba{ACUTE}c\n"
        self.expect_lines("&b < á", lines, f"á\na{ACUTE}\n{marked}\nba{ACUTE}c\n")
        lines = f"é\ne\nE{ACUTE}\ne{ACUTE}\ne{ACUTE}{ACUTE}\n{ACUTE}e\n"
        self.expect_lines("&a < é", lines, f"é\ne{ACUTE}\ne{ACUTE}{ACUTE}\n")

    def test_classes_of_the_data_file(self):
        """Without classes no accent stands between others: the target is read as it is written."""
        self.write(d="@data 1\n", r="&a < x")
        self.expect("affected d r", "x\na\n", out="x\n")

    def test_rejected_lines(self):
        self.expect_lines("&a < x", b"x\na\n\xff\nx\n", "x\n", status=1, err="input line 3: Utf8\n")
        self.expect_lines("&a < x", b"\xff", "", status=1, err="input line 1: Utf8\n")

    def test_rejected_files(self):
        """The data file is judged before the rules, and both before the input."""
        self.expect_lines("&a <", b"x\n\xff", "", status=1, err="rules byte 4: EmptyText\n")
        self.expect_lines(b"\xff", b"x\n", "", status=1, err="rules byte 0: Utf8\n")
        self.write(d="@data 1\nccc 0301..0301 0\n")
        self.expect("affected d r", status=1, err="data line 2: Weight\n")
        self.write(d="@data 2\n", r="&a <")
        self.expect("affected d r", b"x\n\xff", status=1, err="data line 1: Order\n")

    def test_files_that_do_not_open(self):
        """Both files are opened before one is read."""
        self.write(r="&a < b")
        self.expect("affected d r", status=3, err="data: Open\n")
        self.expect("affected d missing", status=3, err="data: Open\n")
        for data in DATA, "?\n":
            self.write(d=data, r=None)
            self.expect("affected d r", status=3, err="rules: Open\n")
