"""Rules: which are rejected, by which error and where. docs/FORMATS.md has the grammar and the errors."""
import os
import re

from program import DATA, ProgramTest, as_bytes

HERE = os.path.dirname(os.path.realpath(__file__))

# How many relations rules have at most, and how many bytes.
MOST_RELATIONS, MOST_BYTES = 5000, 1_048_576

# All of ASCII that no text begins with, but `#`, white space and what makes a text empty.
NO_TEXT = '!"$%()*+,-.:;>?@[]^_`{|}~\0\x01\x08\x0e\x1b\x1c\x1f\x7f'


def text_of(field):
    return re.sub(r"\(([0-9A-F]+)\)", lambda it: chr(int(it.group(1), 16)), field)


class Rules(ProgramTest):
    def setUp(self):
        super().setUp()
        self.write(d=DATA)

    def expect_said(self, rules, said):
        """What is said of rules, as `Syntax at 5`; an empty text where they are accepted."""
        self.write(r=rules)
        kind, _, offset = said.partition(" at ")
        self.expect("affected d r", status=1 if said else 0, err=f"rules byte {offset}: {kind}\n" if said else "")

    def test_rejected_rules(self):
        with open(f"{HERE}/rejected_rules.txt", encoding="utf-8") as file:
            cases = [line.rsplit(" | ", 1) for line in file.read().splitlines() if not line.startswith("--")]
        self.assertGreater(len(cases), 200)
        for rules, said in cases:
            self.expect_said(text_of(rules), said)

    def test_bytes_that_are_not_utf8(self):
        cases = [
            (b"&a < \xff", "Utf8 at 5"),
            (b"\x80", "Utf8 at 0"),
            (b"&a < \xc3", "Utf8 at 5"),
            (b"&a < \xc3\xa9\xe2\x80", "Utf8 at 7"),
            (b"&a < \xc0\xaf", "Utf8 at 5"),
            (b"&a < \xed\xa0\x80", "Utf8 at 5"),
            (b"&a < \xf4\x90\x80\x80", "Utf8 at 5"),
            (b"#\xfe", "Utf8 at 1"),
            (b"!\xff", "Utf8 at 1"),
            (b"&a < a ! \xff", "Utf8 at 9"),
            (b"&a < \xc3\xa9", ""),
            (b"&a < \xf4\x8f\xbf\xbf", ""),
        ]
        for rules, said in cases:
            self.expect_said(rules, said)

    def test_characters_that_texts_do_not_have(self):
        """Each begins no text, ends one, and is itself after a backslash."""
        for character in NO_TEXT:
            self.expect_said(f"&a < {character}", "Syntax at 5")
            self.expect_said(f"&a < b{character}", "Syntax at 6")
            self.write(r=f"&a < \\{character}")
            self.expect("affected d r", f"{character}\nb\n", out=f"{character}\n")

    def test_at_most_5000_relations(self):
        """What follows 4,998 relations in 54,980 bytes. The 5,001st relation is rejected at its sign, as soon as that is read. In a
        starred text it is the 5,001st target, at its own position, before its other errors."""
        before = "&a" + "".join(f"<\\U{0x20000 + number:08X}" for number in range(MOST_RELATIONS - 2))
        self.assertEqual(len(before), 54_980)
        cases = [
            ("<x<y", ""),
            ("<x<y<z", "Limit at 54984"),
            ("<x<y<", "Limit at 54984"),
            ("<x<y<*z", "Limit at 54984"),
            ("<x<y<*z- ", "Limit at 54984"),
            ("<x<y<<<<z", "Syntax at 54984"),
            ("<x<y!", "Syntax at 54984"),
            ("<x<y&[before 2]b<z", "Limit at 54996"),
            ("<x<y&[before 2]b<", "Limit at 54996"),
            ("<x<y&[before 2]b!", "Syntax at 54996"),
            ("<x<y<x", "Limit at 54984"),
            ("<*xy", ""),
            ("<*xyz", "Limit at 54984"),
            ("<*xyx", "Limit at 54984"),
            ("<*xxy", "DuplicateTarget at 54983"),
            ("<*w-y", "Limit at 54984"),
            ("<*w-z", "Limit at 54983"),
            ("<*wx-z", "Limit at 54984"),
            ("<*xyz\\u", "Escape at 54985"),
            ("<*xyz/", "Limit at 54984"),
            ("<*\\U00030000-\\U000AFFFF", "Limit at 54992"),
            ("&a<*\\U00030000-\\U000AFFFF", "Limit at 54994"),
        ]
        for more, said in cases:
            self.expect_said(before + more, said)

    def test_long_rules(self):
        """Rules of 1,048,576 bytes are read. With one more they are rejected before all else."""
        cases = [
            (b"#" * MOST_BYTES, ""),
            (b"#" * (MOST_BYTES + 1), "Limit at 1048576"),
            (b"\xff" + b"#" * (MOST_BYTES - 1), "Utf8 at 0"),
            (b"\xff" + b"#" * MOST_BYTES, "Limit at 1048576"),
            (b"!" + b"#" * MOST_BYTES, "Limit at 1048576"),
            (b" " * (MOST_BYTES - 1) + b"!", "Syntax at 1048575"),
            (b" " * (MOST_BYTES - 1) + b"&", "EmptyText at 1048576"),
            (b" " * (MOST_BYTES - 1) + b"&a", "Limit at 1048576"),
            (b" " * (MOST_BYTES - 5) + b"&a<b", ""),
        ]
        for rules, said in cases:
            self.expect_said(rules, said)

    def test_long_texts(self):
        """They are rejected where they begin, when they end. A long starred text is read, and its first error named."""
        cases = [
            ("&a<" + "b" * 16 + "<c", ""),
            ("&a<" + "b" * 17 + "<c", "Limit at 3"),
            ("&a<" + "b" * 1_048_573, "Limit at 3"),
            ("&a<" + "b" * 1_048_572 + "'", "Syntax at 1048575"),
            ("&a<" + "\u1f82" * 349_524, "Limit at 3"),
            ("&a<" + "\u0301" * 16, ""),
            ("&a<" + "\u0301" * 65, "Limit at 3"),
            ("&a<*" + "b" * 1_048_572, "DuplicateTarget at 5"),
            ("&a<*" + "b" * 1_048_571 + "-", "Syntax at 1048575"),
            ("&a<*\U00010000-\U0010ffff#", "Limit at 8"),
            ("&a<*\U00010000-\U00011386#", ""),
            ("&a<*\U00010000-\U00011387#", ""),
            ("&a<*\U00010000-\U00011388#", "Limit at 9"),
        ]
        for rules, said in cases:
            self.expect_said(as_bytes(rules), said)
