"""Table files and data files: each error, and each order of two causes in one line. docs/FORMATS.md has the rules."""
from program import DATA, TABLE, ProgramTest, as_bytes

VERSION = "@version 1\n"
ROW = "0061 ; [.1C47.0020.0002]\n"
RANGE = "@implicitweights 17000..18AFF; FB00\n"


class TableFiles(ProgramTest):
    def expect_said(self, table, said):
        """What is said of a table; an empty text where it is accepted."""
        self.write(t=table, d=DATA)
        self.expect("keys t d", status=1 if said else 0, err=f"table {said}\n" if said else "")

    def expect_each(self, cases):
        for table, said in cases:
            self.expect_said(table, said)

    def test_order(self):
        self.expect_each(
            [
                # no version at the end
                ("", "line 1: Order"),
                ("# nothing\n\n", "line 3: Order"),
                # out of order
                (VERSION * 2, "line 2: Order"),
                ("@variable shifted\n" + VERSION, "line 1: Order"),
                (RANGE, "line 1: Order"),
                (ROW, "line 1: Order"),
                ("\ufeff" + VERSION, "line 1: Order"),
                (VERSION + "@variable shifted\n" * 2, "line 3: Order"),
                (VERSION + RANGE + "@variable shifted\n", "line 3: Order"),
                (VERSION + ROW + "@variable shifted\n", "line 3: Order"),
                (VERSION + ROW + RANGE, "line 3: Order"),
                (VERSION + ROW + VERSION, "line 3: Order"),
                # another first part comes before the order, and the order before what the line takes
                (VERSION + "@reorder x\n" + VERSION, "line 2: Line"),
                (VERSION + "@version\n", "line 2: Order"),
                ("@variable blanked\n", "line 1: Order"),
                ("@implicitweights x\n", "line 1: Order"),
                ("006G\n", "line 1: Order"),
            ]
        )

    def test_header(self):
        self.expect_each(
            [
                # another first part
                ("@\n", "line 1: Line"),
                ("@ version 1\n", "line 1: Line"),
                ("@Version 1\n", "line 1: Line"),
                ("@versions 1\n", "line 1: Line"),
                (VERSION + "@implicitweights17000..18AFF; FB00\n", "line 2: Line"),
                # no version, or no setting
                ("@version\n", "line 1: Line"),
                ("@version 1 2\n", "line 1: Line"),
                ("@version 1_2\n", "line 1: Line"),
                ("@version é\n", "line 1: Line"),
                ("@version 1\r\n", "line 1: Line"),
                ("@version 123456789012345678901234567890123\n", "line 1: Line"),
                (VERSION + "@variable\n", "line 2: Line"),
                (VERSION + "@variable blanked\n", "line 2: Line"),
                (VERSION + "@variable Shifted\n", "line 2: Line"),
                (VERSION + "@variable shifted shifted\n", "line 2: Line"),
                (VERSION + "@variable non-ignorable;\n", "line 2: Line"),
                # the header alone
                (VERSION, ""),
                ("@version abcdefghijklmnopqrstuvwxyz.-0123\n", ""),
            ]
        )

    def test_last_and_first_lines(self):
        self.expect_each(
            [
                # a last line without LF: its own errors first
                ("@version 1", "line 1: Line"),
                ("# nothing", "line 1: Line"),
                (ROW.rstrip("\n"), "line 1: Order"),
                (VERSION + "0061 ; [.1C", "line 2: Weight"),
                (VERSION + ROW.rstrip("\n"), "line 2: Line"),
                # the first line that is rejected
                (VERSION + "0061\n006G ; x\n", "line 2: Line"),
                (VERSION + "\n006G ; x\n0061\n", "line 3: CodePoint"),
                (VERSION + ROW * 2, "line 3: DuplicateKey"),
            ]
        )

    def test_cut_tables(self):
        """With no bytes the version is missing. Up to an LF they are a table. Elsewhere the line that is cut is rejected."""
        self.write(d=DATA)
        for length in range(1, len(TABLE)):
            cut = TABLE[:length]
            self.write(t=cut)
            ended = self.run_uca("keys", "t", "d")
            with self.subTest(length=length):
                if cut.endswith("\n"):
                    self.assertEqual(ended, (0, b"", b""))
                else:
                    line = cut.count("\n") + 1
                    self.assertEqual((ended.status, ended.out), (1, b""))
                    self.assertTrue(ended.err.startswith(f"table line {line}: ".encode()), ended.err)

    def test_ranges(self):
        """What follows `@implicitweights` after a range of FB00."""
        cases = [
            ("", "Line"),
            ("20000..20FFF FB01", "Line"),
            ("20000; FB01", "Line"),
            ("20000.20FFF; FB01", "Line"),
            ("; FB01", "Line"),
            ("..20FFF; FB01", "CodePoint"),
            ("20000..; FB01", "CodePoint"),
            ("20000...20FFF; FB01", "CodePoint"),
            ("20000 .. 20FFF; FB01", "CodePoint"),
            ("20000..20fff; FB01", "CodePoint"),
            ("200..20FFF; FB01", "CodePoint"),
            ("D800..E000; FB01", "CodePoint"),
            ("20000..110000; FB01", "CodePoint"),
            ("20000..20FFF;", "Weight"),
            ("20000..20FFF; FB0", "Weight"),
            ("20000..20FFF; FB001", "Weight"),
            ("20000..20FFF; fb01", "Weight"),
            ("20000..20FFF; FB01 FB01", "Weight"),
            ("20000..20FFF; FB01;", "Weight"),
            ("20FFF..20000; FB01", "Range"),
            ("20000..20FFF; FAFF", "Range"),
            ("20000..20FFF; FB40", "Range"),
            ("20000..28000; FB01", "Range"),
            ("18AFF..18B00; FB01", "Range"),
            ("16000..17000; FB01", "Range"),
            ("17001..17002; FB01", "Range"),
            ("1EFFF..1F000; FB00", "Range"),
            ("10AFF..10AFF; FB00", "Range"),
            ("18A00..18B00; FB01", "Range"),
            # two causes: the first of Line, CodePoint, Weight and Range
            ("2000..20fff FB01", "Line"),
            ("20000; FB0", "Line"),
            ("20000..20fff; FB0", "CodePoint"),
            ("20FFF..20000; FB0", "Weight"),
            ("17000..; fb01", "CodePoint"),
        ]
        for line, kind in cases:
            self.expect_said(f"{VERSION}{RANGE}@implicitweights {line}\n", f"line 3: {kind}")
        # a range of 8000 code points, hexadecimal, and of one more
        self.expect_said(VERSION + "@implicitweights 10000..17FFF; FB00\n", "")
        self.expect_said(VERSION + "@implicitweights 10000..18000; FB00\n", "line 2: Range")

    def test_rows(self):
        """The line after a row of U+0061."""
        cases = [
            ("; [.1C47.0020.0002]", "Line"),
            ("0062", "Line"),
            ("0062 [.1C47.0020.0002]", "CodePoint"),
            ("62 ; [.1C47.0020.0002]", "CodePoint"),
            ("0000062 ; [.1C47.0020.0002]", "CodePoint"),
            ("00e1 ; [.1C47.0020.0002]", "CodePoint"),
            ("D800 ; [.1C47.0020.0002]", "CodePoint"),
            ("DFFF ; [.1C47.0020.0002]", "CodePoint"),
            ("110000 ; [.1C47.0020.0002]", "CodePoint"),
            ("0062,0301 ; [.1C47.0020.0002]", "CodePoint"),
            ("0062 U+0301 ; [.1C47.0020.0002]", "CodePoint"),
            ("0062 ;", "Line"),
            ("0062 ; x", "Line"),
            ("0062 ; [", "Line"),
            ("0062 ; [1C47.0020.0002]", "Line"),
            ("0062 ; [ .1C47.0020.0002]", "Line"),
            ("0062 ; [+1C47.0020.0002]", "Line"),
            ("0062 ; [.1C47.0020.0002]x", "Line"),
            ("0062 ; [.1C47.0020.0002];", "Line"),
            ("0062 ; [.1C47.0020.0002] [", "Line"),
            ("0062 ; [.", "Weight"),
            ("0062 ; [.1C4.0020.0002]", "Weight"),
            ("0062 ; [.1C470.0020.0002]", "Weight"),
            ("0062 ; [.1c47.0020.0002]", "Weight"),
            ("0062 ; [.1C47.0020]", "Weight"),
            ("0062 ; [.1C47.0020.0002", "Weight"),
            ("0062 ; [.1C47.0020.0002.0062]", "Weight"),
            ("0062 ; [.1C47. 0020.0002]", "Weight"),
            ("0062 ; [*1C47*0020*0002]", "Weight"),
            ("0061 ; [.1C47.0020.0002]", "DuplicateKey"),
            ("00061;[*0000.0000.0000]", "DuplicateKey"),
            # two causes: from left to right, and the key that is there already last
            ("006G", "CodePoint"),
            ("006G ; x", "CodePoint"),
            ("0061 ; x", "Line"),
            ("0061 ; [.", "Weight"),
            ("0061", "Line"),
            ("0062 ; [.1C47.0020.0002]x[.", "Line"),
            ("0062 ; [.x[", "Weight"),
        ]
        for line, kind in cases:
            self.expect_said(f"{VERSION}{ROW}{line}\n", f"line 3: {kind}")

    def test_long_keys_and_rows(self):
        """A key has at most 16 code points, and a row 32 elements. What follows both, and what is said."""
        elements = 8 * "[.0001.0001.0001] [.0001.0001.0001]\t[*0001.0001.0001][.0001.0001.0001]"
        cases = [
            ("", "", ""),
            ("", " [.0001.0001.0001]", "line 2: Limit"),
            ("", " x", "line 2: Line"),
            ("", " [.x", "line 2: Weight"),
            ("", " [.0001.0001.0001] x", "line 2: Limit"),
            (" 0061", "", "line 2: Limit"),
            (" 006G", "", "line 2: CodePoint"),
            (" 0061 006G", " x", "line 2: Limit"),
            (" 0061", " [.x", "line 2: Limit"),
        ]
        for point, element, said in cases:
            self.expect_said(f"{VERSION}{' 0061' * 16}{point} ; {elements}{element}\n", said)

    def test_limits(self):
        """At most 256 ranges, 200,000 rows, and 4096 bytes a line."""
        ranges = VERSION + "".join(f"@implicitweights 1{n:03X}0..1{n:03X}8; FB00\n" for n in range(0x100, 0x200))
        cases = [
            ("", ""),
            ("@implicitweights 13000..13000; FB00\n", "line 258: Limit"),
            ("@implicitweights 13001..13000; FB00\n", "line 258: Range"),
            ("@implicitweights 11FF8..12000; FB00\n", "line 258: Range"),
            ("@implicitweights 13000..13000; FB0\n", "line 258: Weight"),
        ]
        for more, said in cases:
            self.expect_said(ranges + more, said)
        rows = VERSION + "".join(f"{n // 500:04X} {n % 500:04X} ; [.0001.0001.0001]\n" for n in range(200_000))
        # a key that is there already is the first cause
        for more, said in ("", ""), (ROW, "line 200002: Limit"), ("0061 0061 ; [.0001.0001.0001]\n", "line 200002: DuplicateKey"):
            self.expect_said(rows + more, said)
        for count, end, said in (4096, "\n", ""), (4097, "\n", "line 2: Limit"), (4096, "", "line 2: Line"), (4097, "", "line 2: Limit"):
            self.expect_said(f"{VERSION}#{'-' * (count - 1)}{end}", said)


class DataFiles(ProgramTest):
    def expect_said(self, data, said):
        """What is said of a data file; an empty text where it is accepted."""
        self.write(t=TABLE, d=data)
        self.expect("keys t d", status=1 if said else 0, err=f"data {said}\n" if said else "")

    def test_order_and_lines(self):
        cases = [
            # the header is missing, comes late or twice, or is not written exactly so
            ("", "line 1: Order"),
            ("# nothing\n\n", "line 3: Order"),
            ("ccc 0300..0314 230\n@data 1\n", "line 1: Order"),
            ("@data 1\n\n@data 1\n", "line 3: Order"),
            ("@data  1\n", "line 1: Order"),
            ("@data 2\n", "line 1: Order"),
            ("@data\n", "line 1: Order"),
            ("@data 1 x\n", "line 1: Order"),
            ("\n\nx\n", "line 3: Order"),
            ("@data 1\r\n", "line 1: Order"),
            # what comes before the LF that is missing
            ("@data 1", "line 1: Line"),
            ("@data 2", "line 1: Order"),
            ("# no header, no LF", "line 1: Line"),
            # the header alone
            ("@data 1\n", ""),
        ]
        for data, said in cases:
            self.expect_said(data, said)

    def test_lines_after_the_header(self):
        cases = [
            ("@data  1\n", "line 2: Line"),
            ("@data 2\n", "line 2: Line"),
            # another first part, or another number of parts
            ("CCC 0300..0314 230\n", "line 2: Line"),
            ("coreother 4E00..9FFF\n", "line 2: Line"),
            ("ccc\n", "line 2: Line"),
            ("ccc 0300..0314\n", "line 2: Line"),
            ("ccc 0300..0314 230 1\n", "line 2: Line"),
            ("core\n", "line 2: Line"),
            ("core 4E00..9FFF 1\n", "line 2: Line"),
            ("other 4E00..9FFF 1\n", "line 2: Line"),
            ("core 4E00 .. 9FFF\n", "line 2: Line"),
            (b"core 4E00\xa09FFF\n", "line 2: Line"),
            # no `..`
            ("core 4E00\n", "line 2: Line"),
            ("core 4E00.9FFF\n", "line 2: Line"),
            ("ccc 0300-0314 230\n", "line 2: Line"),
            # no code point
            ("core ..9FFF\n", "line 2: CodePoint"),
            ("core 4E00..\n", "line 2: CodePoint"),
            ("core 4E00...9FFF\n", "line 2: CodePoint"),
            ("core 4e00..9fff\n", "line 2: CodePoint"),
            ("core 4E0..9FFF\n", "line 2: CodePoint"),
            ("core 0004E00..9FFF\n", "line 2: CodePoint"),
            ("core 4E00..110000\n", "line 2: CodePoint"),
            ("core D800..DFFF\n", "line 2: CodePoint"),
            ("other 4E00..9FFG\n", "line 2: CodePoint"),
            # no class
            ("ccc 0300..0314 0\n", "line 2: Weight"),
            ("ccc 0300..0314 255\n", "line 2: Weight"),
            ("ccc 0300..0314 007\n", "line 2: Weight"),
            ("ccc 0300..0314 1000\n", "line 2: Weight"),
            ("ccc 0300..0314 E6\n", "line 2: Weight"),
            ("ccc 0300..0314 -1\n", "line 2: Weight"),
            # an empty range, or an overlap
            ("ccc 0314..0300 230\n", "line 2: Range"),
            ("core 9FFF..4E00\n", "line 2: Range"),
            ("ccc 0300..0314 230\nccc 0314..0315 230\n", "line 3: Range"),
            ("ccc 0300..0314 230\nccc 0300..0300 1\n", "line 3: Range"),
            ("core 4E00..9FFF\ncore 9FFF..A000\n", "line 3: Range"),
            ("core 4E00..9FFF\nother 9FFF..A000\n", "line 3: Range"),
            ("other 4E00..9FFF\ncore 4E00..4E00\n", "line 3: Range"),
            ("other 4E00..9FFF\nother 0000..4E00\n", "line 3: Range"),
            # two causes in one line: the first of Line, CodePoint, Weight and Range
            ("foo 4e00..9FFF\n", "line 2: Line"),
            ("core 4e00 9FFF\n", "line 2: Line"),
            ("ccc 4E00 255\n", "line 2: Line"),
            ("ccc 9FFF..4e00 255\n", "line 2: CodePoint"),
            ("ccc 9FFF..4E00 255\n", "line 2: Weight"),
            ("ccc 0300..0314 230\nccc 0300..0300 0\n", "line 3: Weight"),
            # what comes before the LF that is missing
            ("core 4E00..9FFF", "line 2: Line"),
            ("core 4E00..9fff", "line 2: CodePoint"),
            ("core 9FFF..4E00", "line 2: Range"),
            # the first line that is rejected
            ("core 9FFF..4E00\nfoo\n", "line 2: Range"),
            ("#\nfoo\ncore 9FFF..4E00\n", "line 3: Line"),
        ]
        for lines, said in cases:
            self.expect_said(b"@data 1\n" + as_bytes(lines), said)

    def test_limits(self):
        """At most 4096 lines of a kind, 4096 bytes a line, and a million lines. A range that overlaps is rejected for that."""
        lines = "@data 1\n" + "".join(
            f"ccc {n:04X}..{n:04X} 1\ncore 1{n:04X}..1{n:04X}\nother 2{n:04X}..2{n:04X}\n" for n in range(0x1000, 0x2000)
        )
        cases = [
            ("", ""),
            ("ccc 3000..3000 1\n", "line 12290: Limit"),
            ("core 3000..3000\n", "line 12290: Limit"),
            ("other 3000..3000\n", "line 12290: Limit"),
            ("ccc 1000..1000 1\n", "line 12290: Range"),
            ("core 21000..21000\n", "line 12290: Range"),
            ("other 3001..3000\n", "line 12290: Range"),
        ]
        for more, said in cases:
            self.expect_said(lines + more, said)
        for count, end, said in (4096, "\n", ""), (4097, "\n", "line 2: Limit"), (4096, "", "line 2: Line"), (4097, "", "line 2: Limit"):
            self.expect_said(f"@data 1\n#{'-' * (count - 1)}{end}", said)
        million = "@data 1\n" + "\n" * 999_999
        # a line more is not looked at
        for more, said in ("", ""), ("x", "line 1000001: Limit"):
            self.expect_said(million + more, said)


class RejectedFiles(ProgramTest):
    """Each command says the same of a table and a data file, and prints nothing, also where the input has an error."""

    COMMANDS = [
        "check t d",
        "keys --weighting non-ignorable t d",
        "keys --lines t d",
        "sort --identical t d",
        "compare t d a b",
        "compare --weighting non-ignorable --identical t d " + "\u0301" * 65 + " a",
    ]

    def expect_each(self, status, said):
        for arguments in self.COMMANDS:
            self.expect(arguments, b"a\n\xff", status=status, err=said + "\n")

    def test_tables(self):
        self.write(d=DATA)
        cases = [
            (VERSION + "0061 ; [.1C", "table line 2: Weight"),
            ("", "table line 1: Order"),
            (VERSION + "0061 ; x\n", "table line 2: Line"),
            ("@version 1", "table line 1: Line"),
            (TABLE + ROW, "table line 10: DuplicateKey"),
        ]
        for table, said in cases:
            self.write(t=table)
            self.expect_each(1, said)

    def test_data_files(self):
        self.write(t=TABLE)
        cases = [
            ("", "data line 1: Order"),
            ("@data 1\nccc 0300..0314 255\n", "data line 2: Weight"),
            ("@data 1\n\ncore 9FFF..4E00\n", "data line 3: Range"),
        ]
        for data, said in cases:
            self.write(d=data)
            self.expect_each(1, said)

    def test_both(self):
        """The table is read first."""
        self.write(t="", d="")
        self.expect_each(1, "table line 1: Order")
        # the names are those of the arguments
        self.write(t=DATA, d=TABLE)
        self.expect_each(1, "table line 1: Line")

    def test_files_that_do_not_open(self):
        """Both are opened before one is read, the table first."""
        self.write(d=DATA)
        self.expect_each(3, "table: Open")
        self.write(d=None)
        self.expect_each(3, "table: Open")
        for table in TABLE, "?\n":
            self.write(t=table)
            self.expect_each(3, "data: Open")
