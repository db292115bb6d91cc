"""`uca keys`: the keys that it prints."""
from program import A_ACUTE, A_ACUTE_GRAVE, ACUTE, DATA, DOT_BELOW, GRAVE, TABLE, ProgramTest, key_of, many

# A letter and an accent, and the class of the accent.
SHORT_TABLE = """@version 1
0061 ; [.1C47.0020.0002]
0301 ; [.0000.0024.0002]
"""
SHORT_DATA = "@data 1\nccc 0301..0301 230\n"

BY_THREE = "keys --weighting non-ignorable t d"
BY_FOUR = "keys --weighting shifted t d"
KEY_OF_A = "1C47 0000 0020 0000 0002\n"
KEY_OF_A_ACUTE = "1C47 0000 0020 0024 0000 0002 0002\n"


class Keys(ProgramTest):
    def expect_keys(self, arguments, cases):
        for lines, keys in cases:
            self.expect(arguments, lines, out=keys)

    def test_single_code_points(self):
        self.write(t=SHORT_TABLE, d=SHORT_DATA)
        self.expect_keys(
            BY_THREE,
            [
                ("a\n", KEY_OF_A),
                ("á\na\u0301", KEY_OF_A_ACUTE * 2),
                ("\n", "0000 0000\n"),
                ("", ""),
                ("a", KEY_OF_A),
                ("z\n", "FBC0 807A 0000 0020 0000 0002\n"),
            ],
        )
        self.expect(BY_THREE, b"a\n\xff\n", status=1, out=KEY_OF_A, err="input line 2: Utf8\n")

    def test_letters_accents_and_ideographs(self):
        self.write(t=TABLE, d=DATA)
        self.expect_keys(
            BY_THREE,
            [
                ("a\n", KEY_OF_A),
                ("A\n", "1C47 0000 0020 0000 0008\n"),
                ("\n", "0000 0000\n"),
                ("á\n", KEY_OF_A_ACUTE),
                ("a\u0301\n", KEY_OF_A_ACUTE),
                ("\u4E00\n", "FB40 CE00 0000 0020 0000 0002\n"),
                ("\U00020000\n", "FB84 8000 0000 0020 0000 0002\n"),
                ("\U00017000\n", "FB00 8000 0000 0020 0000 0002\n"),
                ("\U0010FFFF\n", "FBE1 FFFF 0000 0020 0000 0002\n"),
                ("a b\n", "1C47 0209 1C60 0000 0020 0020 0020 0000 0002 0002 0002\n"),
            ],
        )
        self.expect_keys(
            BY_FOUR,
            [
                ("\n", "0000 0000 0000\n"),
                ("\u4E00\n", "FB40 CE00 0000 0020 0000 0002 0000 FFFF FFFF\n"),
                ("a b\n", "1C47 1C60 0000 0020 0020 0000 0002 0002 0000 FFFF 0209 FFFF\n"),
                (" \u0301\n", "0000 0000 0000 0209\n"),
            ],
        )

    def test_identical_levels(self):
        """The code points of Normalization Form D come last, six digits each."""
        self.write(t=TABLE, d=DATA)
        acute = KEY_OF_A_ACUTE.rstrip("\n") + " 0000 000061 000301\n"
        keys = KEY_OF_A.rstrip("\n") + " 0000 000061\n" + 2 * acute
        keys += "0000 0000 0000\nFBE1 FFFF 0000 0020 0000 0002 0000 10FFFF\n"
        self.expect(f"{BY_THREE} --identical", "a\ná\na\u0301\n\n\U0010FFFF\n", out=keys)
        keys = "0000 0000 0000 0000\n0000 0000 0000 0209 0000 000020 000301\n"
        self.expect(f"{BY_FOUR} --identical", "\n \u0301", out=keys)

    def test_contractions(self):
        """An accent of a lower class comes between: it does not block, and follows. One of the same class blocks."""
        self.write(t=TABLE + A_ACUTE, d=DATA)
        self.expect_keys(
            BY_THREE,
            [
                ("a" + DOT_BELOW + ACUTE, "1C50 0000 0020 002C 0000 0002 0002\n"),
                ("a" + GRAVE + ACUTE, "1C47 0000 0020 0025 0024 0000 0002 0002 0002\n"),
                ("a" + DOT_BELOW + ACUTE + GRAVE, "1C50 0000 0020 002C 0025 0000 0002 0002 0002\n"),
            ],
        )
        self.write(t=TABLE + A_ACUTE + A_ACUTE_GRAVE)
        self.expect(BY_THREE, "a" + DOT_BELOW + ACUTE + GRAVE, out="1C58 0000 0020 002C 0000 0002 0002\n")

    def test_contractions_of_a_code_point_without_a_row(self):
        """It is not extended by an accent further on."""
        self.write(t=TABLE + "0078 0301 ; [.1C90.0020.0002]\n", d=DATA)
        self.expect_keys(
            BY_THREE,
            [
                ("x" + DOT_BELOW + ACUTE, "FBC0 8078 0000 0020 002C 0024 0000 0002 0002 0002\n"),
                ("x" + ACUTE, "1C90 0000 0020 0000 0002\n"),
            ],
        )

    def test_ranges_of_implicit_weights(self):
        """The lines of a table after its version, a line of the input, and its primary weights."""
        first, second = "@implicitweights 17000..187FF; FB00\n", "@implicitweights 18D00..18D08; FB00\n"
        cases = [
            (first + second, "\U00018D00", "FB00 9D00"),
            (second + first, "\U00018D00", "FB00 9D00"),
            (second + first, "\U00017000", "FB00 8000"),
            (second, "\U00018D00", "FB00 8000"),
            (first + "@implicitweights 18D00..18D08; FB01\n", "\U00018D00", "FB01 8000"),
            (first + second, "\U00018800", "FBC3 8800"),
            ("", "a", "FBC0 8061"),
            ("@implicitweights 10000..17FFF; FB00\n", "\U00017FFF", "FB00 FFFF"),
            ("@implicitweights 10000..17FFF; FB00\n", "\U00010000", "FB00 8000"),
        ]
        for lines, text, primaries in cases:
            self.write(t="@version 1\n" + lines, d=DATA)
            self.expect(BY_THREE, text, out=key_of(primaries, "0020", "0002"))

    def test_long_lines(self):
        """A line has at most 4,194,304 bytes, and a text 1,048,576 code points in Normalization Form D."""
        self.write(t=TABLE, d=DATA)
        cases = [
            (b"\xff" * 4_194_304, "Utf8"),
            (b"\xff" * 4_194_305, "TooLong"),
            (b"a" * 1_048_577, "TooLong"),
            ("á".encode() * 524_289, "TooLong"),
            (ACUTE.encode() * 1_048_577, "TooLong"),
        ]
        for line, kind in cases:
            self.expect(BY_THREE, b"a\n" + line + b"\n", status=1, out=KEY_OF_A, err=f"input line 2: {kind}\n")
        longest = 1_048_576
        self.expect(BY_THREE, "a" * longest, out=key_of(many("1C47", longest), many("0020", longest), many("0002", longest)))

    def test_lines_about_the_length_of_texts_that_are_read_in_pieces(self):
        """A text of at most 524,288 bytes is read piece by piece."""
        self.write(t=TABLE, d=DATA)
        for length in 524_288, 524_289:
            self.expect(BY_THREE, "a" * length, out=key_of(many("1C47", length), many("0020", length), many("0002", length)))

    def test_code_points_that_read_alone_among_others(self):
        """`ab` and `c` with an acute accent are contractions, and the data file gives the letter `d` a class."""
        self.write(
            t=TABLE.replace("0020 ;", "0063 ; [.1C7A.0020.0002]\n0064 ; [.1C8F.0020.0002]\n0061 0062 ; [.1C50.0020.0002]\n0063 0301 ; [.1C80.0020.0002]\n0020 ;"),
            d=DATA.replace("ccc 0300", "ccc 0064..0064 220\nccc 0300"),
        )
        # a line, its weights of three levels, and those of the first and of the fourth level if they are shifted
        cases = [
            ("ac", "1C47 1C7A", "0020 0020", "0002 0002", "1C47 1C7A", "FFFF FFFF"),
            ("cabc", "1C7A 1C50 1C7A", "0020 0020 0020", "0002 0002 0002", "1C7A 1C50 1C7A", "FFFF FFFF FFFF"),
            ("ba", "1C60 1C47", "0020 0020", "0002 0002", "1C60 1C47", "FFFF FFFF"),
            ("a\u0301c", "1C47 1C7A", "0020 0024 0020", "0002 0002 0002", "1C47 1C7A", "FFFF FFFF FFFF"),
            ("\u00E1c", "1C47 1C7A", "0020 0024 0020", "0002 0002 0002", "1C47 1C7A", "FFFF FFFF FFFF"),
            ("cd\u0301", "1C80 1C8F", "0020 0020", "0002 0002", "1C80 1C8F", "FFFF FFFF"),
            ("\uAC00a", "FBC0 9100 FBC0 9161 1C47", "0020 0020 0020", "0002 0002 0002", "FBC0 9100 FBC0 9161 1C47", "FFFF FFFF FFFF FFFF FFFF"),
            ("ac", "1C47 1C7A", "0020 0020", "0002 0002", "1C47 1C7A", "FFFF FFFF"),
        ]
        lines = "".join(f"{it[0]}\n" for it in cases)
        self.expect(BY_THREE, lines, out="".join(key_of(*it[1:4]) for it in cases))
        self.expect(BY_FOUR, lines, out="".join(f"{key_of(it[4], *it[2:4]).rstrip()} 0000 {it[5]}\n" for it in cases))
        # the space is variable, and so no accent follows it
        self.expect(BY_THREE, " \u0301c", out=key_of("0209 1C7A", "0020 0024 0020", "0002 0002 0002"))
        self.expect(BY_FOUR, " \u0301c", out="1C7A 0000 0020 0000 0002 0000 0209 FFFF\n")

    def test_each_class(self):
        """A mark of each class from 1 to 254, and a contraction of a letter with it. A mark between them blocks it unless its class is lower."""
        classes = range(1, 255)
        rows = "".join(
            f"{0xE000 + it:04X} ; [.0000.{0x100 + it:04X}.0002]\n"
            f"{0xF0000 + it:04X} ; [.{0x2000 + it:04X}.0020.0002]\n"
            f"{0xF0000 + it:04X} {0xE000 + it:04X} ; [.{0x3000 + it:04X}.0020.0002]\n"
            for it in classes
        )
        self.write(t="@version 1\n" + rows, d="@data 1\n" + "".join(f"ccc {0xE000 + it:04X}..{0xE000 + it:04X} {it}\n" for it in classes))
        lines, keys = [], []
        for it in classes[1:]:
            lines.append(f"{chr(0xF0000 + it)}{chr(0xE000 + it - 1)}{chr(0xE000 + it)}\n")
            keys.append(key_of(f"{0x3000 + it:04X}", f"0020 {0x100 + it - 1:04X}", "0002 0002"))
        for it in classes[:-1]:
            lines.append(f"{chr(0xF0000 + it)}{chr(0xE000 + it + 1)}{chr(0xE000 + it)}\n")
            keys.append(key_of(f"{0x2000 + it:04X}", f"0020 {0x100 + it + 1:04X} {0x100 + it:04X}", "0002 0002 0002"))
        self.expect(BY_THREE, "".join(lines), out="".join(keys))
        self.expect(BY_FOUR, "".join(lines), out="".join(f"{key.rstrip()} 0000 {many('FFFF', key.count('0002'))}\n" for key in keys))

    def test_each_length_of_a_key_and_of_its_row(self):
        """Keys of 1 to 16 code points, whose rows have 1 to 32 elements."""
        sizes = [(points, elements) for points in range(1, 17) for elements in range(1, 33)]
        point = {it: 0xF0000 + 0x100 * it[0] + it[1] for it in sizes}
        rows = "".join(f"{many(f'{point[it]:04X}', it[0])} ; {'[.1C47.0020.0002]' * it[1]}\n" for it in sizes)
        self.write(t="@version 1\n" + rows, d=DATA)
        lines = "".join(chr(point[it]) * it[0] + "\n" for it in sizes)
        keys = [key_of(*(many(weight, it[1]) for weight in ("1C47", "0020", "0002"))) for it in sizes]
        self.expect(BY_THREE, lines, out="".join(keys))
        self.expect(BY_FOUR, lines, out="".join(f"{key.rstrip()} 0000 {many('FFFF', it[1])}\n" for it, key in zip(sizes, keys)))

    def test_greatest_weights_and_rows_without_primary_weights(self):
        rows = {
            "a": "[.FFFF.0020.0002]",
            "b": "[.0000.FFFF.0002]",
            "c": "[.0000.0000.FFFF]",
            "d": "[.FFFF.FFFF.FFFF]",
            "e": "[.0000.0021.0002][.0000.0022.0003][.0000.0023.0004][.0000.0024.0005][.0000.0025.0006]",
            "f": "[.1C47.0020.0002][.0000.0021.0003][.0000.0022.0004][.0000.0000.0005][.0000.0000.0000]",
        }
        self.write(t="@version 1\n" + "".join(f"{ord(it):04X} ; {row}\n" for it, row in rows.items()), d=DATA)
        # a line, its weights of three levels, and how many elements have FFFF at the fourth
        cases = [
            ("a", "FFFF", "0020", "0002", 1),
            ("b", "", "FFFF", "0002", 1),
            ("c", "", "", "FFFF", 1),
            ("d", "FFFF", "FFFF", "FFFF", 1),
            ("e", "", "0021 0022 0023 0024 0025", "0002 0003 0004 0005 0006", 5),
            ("f", "1C47", "0020 0021 0022", "0002 0003 0004 0005", 4),
            ("abcd", "FFFF FFFF", "0020 FFFF FFFF", "0002 0002 FFFF FFFF", 4),
        ]
        for text, *weights, count in cases:
            self.expect(BY_THREE, text, out=key_of(*weights))
            self.expect(BY_FOUR, text, out=f"{key_of(*weights).rstrip()} 0000 {many('FFFF', count)}\n")

    def test_long_runs_of_accents(self):
        """At most 64 accents stand one after another."""
        self.write(t=TABLE, d=DATA)
        key = key_of("1C47", "0020 " + many("0024", 64), many("0002", 65))
        self.expect(BY_THREE, "\na" + ACUTE * 64 + "\n", out="0000 0000\n" + key)
        self.expect(BY_THREE, "\na" + ACUTE * 65 + "\n", status=1, out="0000 0000\n", err="input line 2: LongRun at 1\n")
        self.expect(BY_THREE, ACUTE * 64, out=key_of("", many("0024", 64), many("0002", 64)))
        self.expect(BY_THREE, ACUTE * 65, status=1, err="input line 1: LongRun at 0\n")

    def test_keys_about_the_size_of_what_is_printed_at_a_time(self):
        """How many `a` each line has, and how many bytes their keys have as they are printed. 65,536 bytes wait before they go out."""
        self.write(t=TABLE, d=DATA)
        for counts, size in ([0, 0, 821], 12_345), ([0, 0, 4367], 65_535), ([0, 4368], 65_540), ([8738], 131_080):
            keys = "".join(key_of(many("1C47", count), many("0020", count), many("0002", count)) for count in counts)
            self.assertEqual(len(keys), size)
            self.expect(BY_THREE, "".join("a" * count + "\n" for count in counts), out=keys)

    def test_a_million_lines(self):
        self.write(t=TABLE, d=DATA)
        self.expect(BY_THREE, "\n" * 1_000_000, out="0000 0000\n" * 1_000_000)
        for more in "\n", "a":
            self.expect(BY_THREE, "\n" * 1_000_000 + more, status=1, out="0000 0000\n" * 1_000_000, err="input line 1000001: Limit\n")


def keyed(count):
    """The line of output of a line of so many `a`."""
    return "1C47" * count + "0000" + "0020" * count + "0000" + "0002" * count + "\t" + "a" * count + "\n"


class KeyedLines(ProgramTest):
    """`uca keys --lines`: the lines after their keys."""

    def test_lines_after_their_keys(self):
        self.write(t=SHORT_TABLE, d=SHORT_DATA)
        arguments = f"{BY_THREE} --lines"
        cases = [
            ("a\n", keyed(1)),
            ("á\na\u0301", "1C47000000200024000000020002\tá\n1C47000000200024000000020002\ta\u0301\n"),
            ("\n", keyed(0)),
            ("", ""),
            ("a", keyed(1)),
            ("a\n\n\na", keyed(1) + 2 * keyed(0) + keyed(1)),
            ("a\t\n", "1C47FBC08009000000200020000000020002\ta\t\n"),
            ("a\r\n", "1C47FBC0800D000000200020000000020002\ta\r\n"),
        ]
        for lines, out in cases:
            self.expect(arguments, lines, out=out)
        self.expect(arguments, b"a\n\xff\na\n", status=1, out=keyed(1), err="input line 2: Utf8\n")
        self.expect(arguments, b"\xff", status=1, err="input line 1: Utf8\n")

    def test_keys_of_four_levels(self):
        """These are also the keys of a table without a setting."""
        self.write(t=TABLE, d=DATA)
        lines = "A b\n\n \u0301\n"
        out = "1C471C600000002000200000000800020000FFFF0209FFFF\tA b\n000000000000\t\n0000000000000209\t \u0301\n"
        for arguments in BY_FOUR, "keys t d":
            self.expect(f"{arguments} --lines", lines, out=out)

    def test_identical_levels(self):
        self.write(t=TABLE, d=DATA)
        out = "1C4700000020000000020000000061\ta\n"
        out += "1C470000002000240000000200020000000061000301\tá\n1C470000002000240000000200020000000061000301\ta\u0301\n"
        out += "000000000000\t\nFBE1FFFF0000002000000002000010FFFF\t\U0010FFFF\n"
        self.expect(f"{BY_THREE} --lines --identical", "a\ná\na\u0301\n\n\U0010FFFF\n", out=out)
        out = "0000000000000000\t\n00000000000002090000000020000301\t \u0301\n"
        self.expect(f"{BY_FOUR} --lines --identical", "\n \u0301", out=out)

    def test_keys_about_the_size_of_what_is_printed_at_a_time(self):
        """With n letters a key has 6n + 4 bytes, of which 256 are printed at a time, and the line of output 13n + 10 bytes, of
        which 65,536 wait before they go out."""
        self.write(t=TABLE, d=DATA)
        for count in 41, 42, 43, 84, 85, 5040, 5041, 5460, 5461, 10_400:
            self.expect(f"{BY_THREE} --lines", "a" * count, out=keyed(count))
