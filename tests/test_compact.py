"""`uca compact` and `uca expand`: stored keys, and their compact keys by a book. And `uca keys --compact`, which makes these at
once."""
import hashlib

from helps import said
from program import DATA, TABLE, TOP, ProgramTest

# Cells of one weight: 1C47, 1C60 and, at level 4, 0209. So level 1 has the cells 0001 to 1C46, 1C47, 1C48 to 1C5F, 1C60,
# 1C61 to 1FFF and 2000 to FFFF, and level 4 has 0001 to 0208, 0209 and 020A to FFFE.
BOOK = "@book 1\n1 1C47\n1 1C48\n1 1C60\n1 1C61\n1 2000\n4 0209\n4 020A\n"

# Options, a key as `uca keys` prints it, and its compact key by this book, worked out by hand. At level 1 the cells have the
# numbers 07 to 0C, and 09 to 0E under shifted; after the letters comes a byte that says which levels follow. Level 2 and
# level 3 have cells of one weight for the accents 0021 to 008E and for the cases 0003 to 0020.
KEYS = [
    # a letter, and then only plain levels: the cell 08 or 0A, and the end 02 or 03
    ("--weighting non-ignorable", "1C47 0000 0020 0000 0002", "0802"),
    ("", "1C47 0000 0020 0000 0002 0000 FFFF", "0A03"),
    ("--weighting shifted", "1C47 0000 0020 0000 0002 0000 FFFF", "0A03"),
    # two letters
    ("--weighting non-ignorable", "1C47 1C60 0000 0020 0020 0000 0002 0002", "080A02"),
    ("", "1C47 1C60 0000 0020 0020 0000 0002 0002 0000 FFFF FFFF", "0A0C03"),
    # no weights
    ("--weighting non-ignorable", "0000 0000", "02"),
    ("", "0000 0000 0000", "03"),
    # two letters, a capital first: level 3 is greater than the plain one. The cell of 0008 is 65 or A5.
    ("--weighting non-ignorable", "1C60 1C47 0000 0020 0020 0000 0008 0002", "0A08036502"),
    ("", "1C60 1C47 0000 0020 0020 0000 0008 0002 0000 FFFF FFFF", "0C0A05A505"),
    # a letter with an accent: level 2 is greater than the plain one, and level 3 is plain. A run of one 0020 before a greater
    # weight is 63 or 8B, and the cell of 0024 is 67 or 8F.
    ("--weighting non-ignorable", "1C47 0000 0020 0024 0000 0002 0002", "0804636701"),
    ("", "1C47 0000 0020 0024 0000 0002 0002 0000 FFFF FFFF", "0A068B8F02"),
    # a capital with an accent: levels 2 and 3 are greater than the plain ones
    ("--weighting non-ignorable", "1C47 0000 0020 0024 0000 0008 0002", "08046367026502"),
    ("", "1C47 0000 0020 0024 0000 0008 0002 0000 FFFF FFFF", "0A068B8F04A505"),
    # 21 letters before an accent: a longest run of 20, which is 50, and a run of one
    ("--weighting non-ignorable", "1C47 " * 21 + "0000 " + "0020 " * 21 + "0024 0000" + " 0002" * 22, "08" * 21 + "0450636701"),
    # a space between two letters: level 4 is less than the plain one. A run of one FFFF before a lesser weight is 03, and the
    # number of the cell of 0209 is 01. Then a run of one FFFF and the end are 02.
    ("", "1C47 1C60 0000 0020 0020 0000 0002 0002 0000 FFFF 0209 FFFF", "0A0C02030102"),
    # a space alone: there is nothing at the plain level 4, so this one is greater
    ("", "0000 0000 0000 0209", "04010100"),
    # a space as a letter: its cell 0001 to 1C46 has more than 256 weights, so the offset 0208 has two bytes
    ("--weighting non-ignorable", "0209 1C60 0000 0020 0020 0000 0002 0002", "0702080A02"),
    # an offset of one byte, 02, in the cell 1C48 to 1C5F, and one of two, 0345, in the cell 2000 to FFFF
    ("--weighting non-ignorable", "1C4A 2345 0000 0020 0020 0000 0002 0002", "09020C034502"),
    # a lesser weight of level 2, whose one cell is 0001 to 001F: 03 before it, 00 for the cell, and the offset 0F
    ("--weighting non-ignorable", "1C47 0000 0010 0000 0002", "080003000F01"),
    # the last two cells of level 2, 008F to 018E and 018F to FFFF, have the bytes 0xD2 and 0xD3; those of level 3, 0021 to
    # 0120 and 0121 to FFFF, have 0x7E and 0x7F
    ("--weighting non-ignorable", "1C47 0000 0020 0090 0190 0000 0002 0002 0002", "080463D201D3000101"),
    ("--weighting non-ignorable", "1C47 1C47 0000 0020 0020 0000 0022 0122", "0808037E017F000100"),
    # an implicit weight: both weights count as one letter
    ("--weighting non-ignorable", "FB40 CE00 0000 0020 0000 0002", "0CDB400CAE0002"),
    ("", "FB40 CE00 0000 0020 0000 0002 0000 FFFF FFFF", "0EDB400EAE0003"),
    # an identical level follows as UTF-8
    ("--identical --weighting non-ignorable", "1C47 0000 0020 0000 0002 0000 000061", "080261"),
    ("--identical", "1C47 0000 0020 0024 0000 0002 0002 0000 FFFF FFFF 0000 000061 000301", "0A068B8F0261CC81"),
    ("--identical", "0000 0000 0000 0000", "03"),
    ("--identical", "0000 0000 0000 0000 000000 00D7FF 00E000 10FFFF", "0300ED9FBFEE8080F48FBFBF"),
]

LINES = "a\nA\nab\na b\nb\nba\n\n \na\u0301\nA\u0301\na\u0300\u0323\na \u0301b\n一\n一a\n\U00020000\n\U00010000\nbaaaaaaaaaaaaaaaaaaaaaaaaaaa\u0301\n"


# By examples/books/neutral.book 1C47 is the offset 47 in the cell 1C00 to 1CFF, which is 23 or 25, and the space 0209 the offset 09
# in the cell 02.
NEUTRAL = [
    ("--weighting non-ignorable", "1C47 0000 0020 0000 0002", "234702"),
    ("", "1C47 0000 0020 0000 0002 0000 FFFF", "254703"),
    ("", "1C47 1C60 0000 0020 0020 0000 0002 0002 0000 FFFF 0209 FFFF", "254725600203020902"),
    # the first cell, and the last one; the only cell of more than 256 weights, 7500 to 7FFF, whose offsets have two bytes
    ("--weighting non-ignorable", "0001 FFFF 0000 0020 0020 0000 0002 0002", "0700FCFF02"),
    ("--weighting non-ignorable", "7FFF 0000 0020 0000 0002", "7C0AFF02"),
]

# What is said where compact keys are long.
LONG = b"help: the compact keys are long by this book: uca-files --book TAG makes one for the table of a language\n"

# Options, a key, its compact key by the book above, how many lines, and whether they are said to be long. They are so from 500 bytes of keys on, and if
# they have more than 1.3 times the bytes of a third of the keys, or of a quarter under shifted.
LENGTHS = [
    # 31 keys of 16 bytes are 496 bytes, and 32 are 512. 7 bytes are more than 1.3 times 16 / 3, which is 6.93.
    ("--weighting non-ignorable", "2345 2345 0000 0020 0020 0000 0002 0002", "0C03450C034502", 31, False),
    ("--weighting non-ignorable", "2345 2345 0000 0020 0020 0000 0002 0002", "0C03450C034502", 32, True),
    # 4 bytes are less than 1.3 times 10 / 3, which is 4.33, and 6 than 1.3 times 14 / 3, which is 6.07
    ("--weighting non-ignorable", "2345 0000 0020 0000 0002", "0C034502", 100, False),
    ("--weighting non-ignorable", "1C4A 2345 0000 0020 0020 0000 0002 0002", "09020C034502", 100, False),
    # 7 bytes are less than 1.3 times 22 / 4, which is 7.15, and 10 are more than 1.3 times 30 / 4, which is 9.75
    ("", "2345 2345 0000 0020 0020 0000 0002 0002 0000 FFFF FFFF", "0E03450E034503", 100, False),
    ("", "2345 2345 2345 0000 0020 0020 0020 0000 0002 0002 0002 0000 FFFF FFFF FFFF", "0E03450E03450E034503", 100, True),
    # nothing is said of an identical level
    ("--identical --weighting non-ignorable", "2345 2345 0000 0020 0020 0000 0002 0002 0000 000078 000078", "0C03450C0345027878", 100, False),
]


class Keys(ProgramTest):
    def setUp(self):
        super().setUp()
        self.write(k=BOOK)

    def test_compact(self):
        for options, key, compact in KEYS:
            digits, words = key.replace(" ", ""), ["compact", *options.split(), "k"]
            self.expect(words, key + "\n", out=compact + "\n")
            self.expect(words, digits, out=compact + "\n")
            self.expect(words, f"{key}\tb 1C60\t1C60\n{digits}\n{digits}\t\n", out=f"{compact}\tb 1C60\t1C60\n{compact}\n{compact}\t\n")

    def test_neutral_book(self):
        for options, key, compact in NEUTRAL:
            self.expect(["compact", *options.split(), f"{TOP}/examples/books/neutral.book"], key + "\n", out=compact + "\n")
            self.expect(["expand", *options.split(), f"{TOP}/examples/books/neutral.book"], compact + "\n", out=key.replace(" ", "") + "\n")

    def test_expand(self):
        for options, key, compact in KEYS:
            digits, words = key.replace(" ", ""), ["expand", *options.split(), "k"]
            self.expect(words, compact + "\n", out=digits + "\n")
            self.expect(words, compact, out=digits + "\n")
            spaced = " ".join(compact)
            self.expect(words, f"{spaced}\tb 1C60\t1C60\n{compact}\n{compact}\t\n", out=f"{digits}\tb 1C60\t1C60\n{digits}\n{digits}\t\n")

    def test_runs_of_each_length(self):
        """One other weight among common ones: an accent at level 2, a capital at level 3, or a space at level 4.

        At level 2 a run of 20 is 0x50. A shorter one is 100 less its length before the accent, and four times its length and one at the end.
        At level 3 a run of 32 is 0x40. A shorter one is 96 less its length before the capital, and twice its length at the end.
        At level 4 a run of 85 is 0xAA. A shorter one is twice its length and one before the space, and twice its length at the end."""
        accents, capitals, spaces = [], [], []
        for count in 0, 1, 7, 8, 9, 15, 16, 17, 24, 31, 32, 33, 48, 63, 64, 65, 100, 190:
            for before in range(count + 1):
                after = count - before
                run = f"{100 - before % 20:02X}" if before % 20 else ""
                levels = "1C47" * count, "0020" * before + "0024" + "0020" * after, "0002" * (count + 1)
                accents.append(("0000".join(levels), "08" * count + "04" + "50" * (before // 20) + run + "67" + "50" * (after // 20) + f"{after % 20 * 4 + 1:02X}"))
                run = f"{96 - before % 32:02X}" if before % 32 else ""
                levels = "1C47" * (count + 1), "0020" * (count + 1), "0002" * before + "0008" + "0002" * after
                capitals.append(("0000".join(levels), "08" * (count + 1) + "03" + "40" * (before // 32) + run + "65" + "40" * (after // 32) + f"{after % 32 * 2:02X}"))
                levels = "1C47" * count, "0020" * count, "0002" * count, "FFFF" * before + "0209" + "FFFF" * after
                order = "02" if after else "04"  # less than the plain level, or the plain level and one weight more
                spaces.append(("0000".join(levels), "0A" * count + order + "AA" * (before // 85) + f"{before % 85 * 2 + 1:02X}01" + "AA" * (after // 85) + f"{after % 85 * 2:02X}"))
        for weighting, cases in ("non-ignorable", accents), ("non-ignorable", capitals), ("shifted", spaces):
            keys, compact = ("".join(case[at] + "\n" for case in cases) for at in (0, 1))
            self.expect(["compact", "--weighting", weighting, "k"], keys, out=compact)
            self.expect(["expand", "--weighting", weighting, "k"], compact, out=keys)

    def test_no_lines(self):
        self.expect("compact k", "", out="")
        self.expect("expand k", "", out="")

    def test_rejected_keys(self):
        """Options, a line and its error. The line before it was printed."""
        good = {"": ("1C4700000020000000020000FFFF\tb\n", "0A03\tb\n"), "--weighting non-ignorable": ("1C470000002000000002\n", "0802\n")}
        cases = [
            ("", "1C6", "NoKey"),
            ("", "1c60 0000 0020 0000 0002 0000 FFFF", "NoKey"),
            ("", "b\t1C60", "NoKey"),
            ("", "1C60 0000 0020 0000 0002 0000 FFFF\r", "NoKey"),
            # a header is no key
            ("", "#uca keys 1 shifted weights " + "0" * 64, "NoKey"),
            # too few levels, too many, and a single byte
            ("", "", "OtherKey"),
            ("", "\tb", "OtherKey"),
            ("", "1C60 0000 0020 0000 0002", "OtherKey"),
            ("", "1C60 0000 0020 0000 0002 0000 FFFF 0000 000062", "OtherKey"),
            ("", "1C60 0000 0020 0000 0002 0000 FF", "OtherKey"),
            ("--weighting non-ignorable", "1C60 0000 0020 0000 0002 0000 FFFF", "OtherKey"),
            ("--weighting non-ignorable", "1C60 0000 0020", "OtherKey"),
        ]
        for options, line, kind in cases:
            before, printed = good[options]
            self.expect(["compact", *options.split(), "k"], before + line + "\n" + before, out=printed, status=1, err=f"input line 2: {kind}\n")
        # the code points are missing, cut after one byte or two, a surrogate, and a number after 10FFFF
        front = "1C60 0000 0020 0000 0002 0000 FFFF"
        for more in "", " 0000 00", " 0000 000062 0000", " 0000 00D800", " 0000 00DFFF", " 0000 110000":
            self.expect("compact --identical k", front + more, status=1, err="input line 1: OtherKey\n")

    def test_rejected_compact_keys(self):
        good = {"": ("0A03\tb\n", "1C4700000020000000020000FFFF\tb\n"), "--weighting non-ignorable": ("0802\n", "1C470000002000000002\n")}
        three = "--weighting non-ignorable"
        cases = [
            ("", "0A0", "NoKey"),
            ("", "0a03", "NoKey"),
            ("", "b\t0A03", "NoKey"),
            # no bytes, no end, and bytes after the key
            ("", "", "NoCompactKey"),
            ("", "0A", "NoCompactKey"),
            ("", "0A0300", "NoCompactKey"),
            (three, "080261", "NoCompactKey"),
            # compact keys of the other weighting
            ("", "0802", "NoCompactKey"),
            (three, "0A03", "NoCompactKey"),
            # the last weight of the cell 1C48 to 1C5F is 1C5F, with the offset 17; there are the cells 07 to 0C
            (three, "091802", "NoCompactKey"),
            (three, "0D000002", "NoCompactKey"),
            # an offset that is cut
            (three, "0C03", "NoCompactKey"),
            # a run with no greater weight after it
            (three, "08046302", "NoCompactKey"),
            # level 2 is written, and is plain; or it is greater than the plain one, and the end before it says less
            (three, "080405", "NoCompactKey"),
            (three, "0800636701", "NoCompactKey"),
            # the end says that level 4 is less than the plain one, and no bytes follow
            ("", "0A02", "NoCompactKey"),
        ]
        for options, line, kind in cases:
            before, printed = good[options]
            self.expect(["expand", *options.split(), "k"], before + line + "\n" + before, out=printed, status=1, err=f"input line 2: {kind}\n")
        # no UTF-8: a byte alone, one that is cut, a surrogate, and a number after 10FFFF
        for more in "80", "CC", "EDA080", "F4908080", "C080":
            self.expect("expand --identical k", "0A03" + more, status=1, err="input line 1: NoCompactKey\n")
        self.expect(f"expand {three} k", "091702", out="1C5F0000002000000002\n")

    def test_rejected_books(self):
        """The input is not read."""
        for command in "compact", "expand":
            self.write(x="1 1C47\n")
            self.expect(f"{command} x", b"\xff", status=1, err="book line 1: Order\n")
            self.write(x="@book 1\n1 1C47\n1 1C47\n")
            self.expect(f"{command} x", b"\xff", status=1, err="book line 3: Order\n")
            self.write(x="@book 1\n1 1c47\n")
            self.expect(f"{command} x", b"\xff", status=1, err="book line 2: Weight\n")
            self.expect(f"{command} missing", b"\xff", status=3, err="book: Open\n")
            self.expect(f"{command} .", b"\xff", status=3, err="book line 1: Read\n")

    def test_streams(self):
        for command, line in ("compact", "0000 0000 0000\n"), ("expand", "03\n"):
            with open("/dev/full", "wb") as full:
                ended = self.run_uca(command, "k", given=line, stdout=full)
            self.assertEqual((ended.status, ended.err), (3, said("output: Write\n")))

    def test_more_than_a_million_lines(self):
        lines, compact = b"1C60000000200000000200000209\n" * 1_000_001, b"0C02010100\n" * 1_000_001
        for command, given, wanted in ("compact", lines, compact), ("expand", compact, lines):
            ended = self.run_uca(command, "k", given=given)
            self.assertEqual((ended.status, ended.err), (0, LONG if command == "compact" else b""))
            self.assertTrue(ended.out == wanted)

    def test_long_compact_keys(self):
        for options, key, compact, count, is_long in LENGTHS:
            said_of_it = LONG if is_long else b""
            self.expect(["compact", *options.split(), "k"], f"{key}\n" * count, out=f"{compact}\n" * count, err=said_of_it)
            self.expect(["expand", *options.split(), "k"], f"{compact}\n" * count, out=f"{key.replace(' ', '')}\n" * count)

    def test_a_long_line(self):
        """A key of 300,000 letters."""
        count = 300_000
        key = "0000".join(weight * count for weight in ("1C60", "0020", "0002", "FFFF")) + "\n"
        compact = "0C" * count + "03\n"
        for command, given, wanted in ("compact", key, compact), ("expand", compact, key):
            ended = self.run_uca(command, "k", given=given * 2)
            self.assertEqual((ended.status, ended.err), (0, b""))
            self.assertTrue(ended.out == wanted.encode() * 2)


class KeysCompact(ProgramTest):
    """`uca keys --compact`."""

    def setUp(self):
        super().setUp()
        self.write(t=TABLE, d=DATA, k=BOOK)

    # options of `keys`, a line, and its compact key: those of KEYS above
    CASES = [
        ("", "a", "0A03"),
        ("--weighting non-ignorable", "a", "0802"),
        ("", "ab", "0A0C03"),
        ("--weighting non-ignorable", "", "02"),
        ("", "", "03"),
        ("", "A\u0301", "0A068B8F04A505"),
        ("", "a b", "0A0C02030102"),
        ("", " ", "04010100"),
        ("--weighting non-ignorable", " b", "0702080A02"),
        ("--weighting non-ignorable", "\u4E00", "0CDB400CAE0002"),
        ("", "\u4E00", "0EDB400EAE0003"),
        ("--identical --weighting non-ignorable", "a", "080261"),
        ("--identical", "a\u0301", "0A068B8F0261CC81"),
        ("--identical", "", "03"),
    ]

    def test_keys(self):
        for options, line, compact in self.CASES:
            self.expect(f"keys --compact k {options} t d", line + "\n", out=compact + "\n")
            self.expect(f"keys --lines {options} --compact k t d", f"{line}\n" * 2, out=f"{compact}\t{line}\n" * 2)

    def test_long_compact_keys(self):
        self.write(x=TABLE + "0078 ; [.2345.0020.0002]\n")
        for count, err in (31, b""), (32, LONG):
            self.expect("keys --compact k --weighting non-ignorable x d", "xx\n" * count, out="0C03450C034502\n" * count, err=err)
        self.expect("keys --compact k --identical --weighting non-ignorable x d", "xx\n" * 100, out="0C03450C0345027878\n" * 100)

    def test_as_two_commands(self):
        """The same as `keys --lines` and then `compact`."""
        for options in "", "--weighting non-ignorable", "--identical", "--identical --weighting non-ignorable":
            keys = self.run_uca("keys", "--lines", *options.split(), "t", "d", given=LINES)
            weighting = options or "--weighting shifted"
            compact = self.run_uca("compact", *weighting.split(), "k", given=keys.out)
            self.assertEqual((keys.status, compact.status), (0, 0))
            self.expect(["keys", *options.split(), "--lines", "--compact", "k", "t", "d"], LINES, out=compact.out)

    def test_header(self):
        sums = [hashlib.sha256(it.encode()).hexdigest() for it in (TABLE, DATA, BOOK)]
        for options, weighting, depth, line in [
            ("", "shifted", "weights", "0A03"),
            ("--lines --weighting non-ignorable", "non-ignorable", "weights", "0802\ta"),
            ("--lines --identical", "shifted", "identical", "0A0361\ta"),
        ]:
            keys = f"uca keys 1\nunicode 18.0.0\nweighting {weighting}\ndepth {depth}\ntable {sums[0]}\ndata {sums[1]}\n"
            text = f"uca compact keys 1\nkeys {hashlib.sha256(keys.encode()).hexdigest()}\nbook {sums[2]}\n"
            header = f"#uca compact 1 {weighting} {depth} {hashlib.sha256(text.encode()).hexdigest()}\n"
            self.expect(f"keys --header --compact k {options} t d", "a\n", out=header + line + "\n")
            self.expect(f"keys --header --compact k {options} t d", "", out=header)

    def test_rejected(self):
        """Lines have the errors of `keys`. The files are read in their order, and then the input."""
        self.expect("keys --compact k --lines t d", b"a\n\xff\na\n", out="0A03\ta\n", status=1, err="input line 2: Utf8\n")
        self.write(x="?\n")
        for header in "", "--header ":
            self.expect(f"keys {header}--compact x t d", b"\xff", status=1, err="book line 1: Order\n")
            self.expect(f"keys {header}--compact x x d", b"\xff", status=1, err="table line 1: Order\n")
            self.expect(f"keys {header}--compact x t x", b"\xff", status=1, err="data line 1: Order\n")
            self.expect(f"keys {header}--compact missing t d", b"\xff", status=3, err="book: Open\n")


class Orders(ProgramTest):
    """Compact keys of what `uca keys` prints, by several books."""

    BOOKS = [BOOK, "@book 1\n", "@book 1\n1 0002\n1 FFFF\n4 0002\n4 FFFE\n", "@book 1\n" + "".join(f"1 {0x1C00 + at:04X}\n" for at in range(245)) + "".join(f"4 {0x200 + at:04X}\n" for at in range(255))]

    def printed(self, *words, given):
        ended = self.run_uca(*words, given=given)
        self.assertEqual((ended.status, ended.err.replace(LONG, b"") if words[0] == "compact" else ended.err), (0, b""))
        return ended.out

    def test_orders(self):
        """Lines are in the order of their compact keys, and the keys come again."""
        self.write(t=TABLE, d=DATA)
        for options in [], ["--weighting", "non-ignorable"], ["--identical"], ["--identical", "--weighting", "non-ignorable"]:
            keys = self.printed("keys", "--lines", *options, "t", "d", given=LINES)
            sorted_lines = self.printed("sort", *options, "t", "d", given=LINES)
            for book in self.BOOKS:
                self.write(k=book)
                compact = self.printed("compact", *options, "k", given=keys)
                by_key = sorted(compact.splitlines(), key=lambda line: bytes.fromhex(line.split(b"\t")[0].decode()))
                self.assertEqual(b"".join(line.split(b"\t", 1)[1] + b"\n" for line in by_key), sorted_lines)
                self.assertEqual(self.printed("expand", *options, "k", given=compact), keys)
                # with and without the lines, the keys are compact alike
                alone = self.printed("keys", *options, "t", "d", given=LINES)
                self.assertEqual(self.printed("compact", *options, "k", given=alone), b"".join(line.split(b"\t")[0] + b"\n" for line in compact.splitlines()))
