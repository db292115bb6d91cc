"""`uca changes`, `uca audit-changes`, `uca affected --changes` and `uca rekey`: from one edition of a table to another."""
import os

from helps import said
from program import ACUTE, DATA, DOT_BELOW, GRAVE, TABLE, TOP, ProgramTest
from test_audits import cases_of, edited, unescaped
from test_tailor import ILL_FORMED, MOVED, NARROW, UNMOVED, WIDENED

OLD, NEW = "examples/table.txt examples/data.txt", "examples/editions/table.txt examples/editions/data.txt"

# A letter without an image: it is in no map.
WITHOUT_B = UNMOVED.replace("1 1C60 1C60 0001\n", "")


def content(name):
    with open(f"{TOP}/examples/editions/{name}", "rb") as file:
        return file.read()


def listed(*lines):
    """A file of changes with these lines."""
    return "".join(line + "\n" for line in ("@changes 1", *lines))


def listed_in(field):
    """The file of changes that a field of a case lists."""
    return listed(*(field.split(", ") if field != "." else []))


class Changes(ProgramTest):
    """What changes, and its audit. The certificate comes first, and nothing is written where a table is rejected."""

    def find(self, old, new, data, changes, certificate):
        self.write(t=old, d=DATA, n=new, e=data, c="old\n")
        self.expect("changes t d n e c", out=changes)
        self.assertEqual(self.read("c").decode(), certificate)
        self.write(x=changes)
        self.expect("audit-changes t d n e x c", out="accepted\n")

    def test_found_changes(self):
        cases = cases_of("changes.txt")["found"]
        self.assertGreater(len(cases), 20)
        for old, new, data, field, certificate in cases:
            self.find(edited(TABLE, old), edited(TABLE, new), edited(DATA, data), listed_in(field), edited(UNMOVED, certificate))

    def test_verdicts(self):
        """Each condition at its first position, with and without listed texts and ranges."""
        cases = cases_of("changes.txt")["audited"]
        self.assertGreater(len(cases), 40)
        for old, new, data, field, certificate, verdict in cases:
            self.write(t=edited(TABLE, old), d=DATA, n=edited(TABLE, new), e=edited(DATA, data), x=listed_in(field), c=edited(UNMOVED, certificate))
            self.expect("audit-changes t d n e x c", status=0 if verdict == "accepted" else 1, out=verdict + "\n")

    def test_changes_of_the_table(self):
        """Old table, new table, changes, certificate."""
        swapped = TABLE.replace("1C60", "?").replace("1C47", "1C60").replace("?", "1C47")
        cases = [
            (TABLE, TABLE, listed(), UNMOVED),
            # a letter whose weight moves up
            (TABLE, TABLE.replace("1C60", "1C61"), listed(), UNMOVED.replace("1C60 1C60", "1C60 1C61")),
            # a key that is new, and one that is gone
            (TABLE, TABLE + "0063 ; [.1C70.0020.0002]\n", listed("text 0063"), UNMOVED),
            (TABLE, TABLE.replace("0062 ; [.1C60.0020.0002]\n", ""), listed("text 0062"), WITHOUT_B),
            # a letter that is variable now
            (TABLE, TABLE.replace("[*0209", "[.0209"), listed("text 0020"), UNMOVED.replace("1 0209 0209 0001\n", "")),
            # two old primaries become one, and two change places: the one of more rows has an image
            (TABLE, TABLE.replace("1C60", "1C47"), listed("text 0062"), WITHOUT_B),
            (TABLE, swapped, listed("text 0062"), WITHOUT_B.replace("1C47 1C47", "1C47 1C60")),
            # a table and the table tailored from it
            (NARROW, WIDENED, listed("text 0078"), MOVED),
        ]
        for old, new, changes, certificate in cases:
            self.find(old, new, DATA, changes, certificate)

    def test_the_move_of_most_rows(self):
        """Each element of a row is a vote for where its weight moves. The other rows are listed. A row of many elements is not, where each moves."""

        def rows(first, elements, *counts):
            """A row for each count, which has the elements so many times."""
            return "".join(f"{first + at:04X} ; {elements * count}\n" for at, count in enumerate(counts))

        def texts(first, count):
            return listed(*(f"text {first + at:04X}" for at in range(count)))

        old, new, other = "[.2000.0020.0002]", "[.3000.0020.0002]", "[.3100.0020.0002]"
        accent, tertiary = "[.0000.0024.0002]", "[.0000.0000.0009]"
        cases = [
            # rows of 8 and of 32 elements
            (rows(0x2800, old, 8, 32), rows(0x2800, new, 8, 32), listed(), "3000"),
            # 300 elements, and 270 against them
            (rows(0x2800, old, *[30] * 19), rows(0x2800, new, *[30] * 10) + rows(0x280A, other, *[30] * 9), texts(0x280A, 9), "3000"),
            (rows(0x2800, old, *[30] * 19), rows(0x2800, other, *[30] * 10) + rows(0x280A, new, *[30] * 9), texts(0x280A, 9), "3100"),
            # one row, and two against it that have no vote, since a weight of theirs becomes 0
            (rows(0x2800, old, 1) + rows(0x2801, old + accent, 1, 1), rows(0x2800, new, 1) + rows(0x2801, other + tertiary, 1, 1), texts(0x2801, 2), "3000"),
            (rows(0x2800, old, 1) + rows(0x2801, old + accent, 1, 1), rows(0x2800, other, 1) + rows(0x2801, new + tertiary, 1, 1), texts(0x2801, 2), "3100"),
        ]
        for added, becomes, changes, weight in cases:
            certificate = UNMOVED.replace("1 1C60 1C60 0001\n", f"1 1C60 1C60 0001\n1 2000 {weight} 0001\n")
            self.find(TABLE + added, TABLE + becomes, DATA, changes, certificate)

    def test_changes_of_the_data_file(self):
        cases = [
            ("230", "231", "range 0300..0314"),
            ("0323..0323", "0323..0324", "range 0324..0324"),
            ("core", "other", "range 4E00..9FFF"),
            ("20FFF", "21000", "range 21000..21000"),
        ]
        for old, new, line in cases:
            self.find(TABLE, TABLE, DATA.replace(old, new), listed(line), UNMOVED)
        new = TABLE.replace("18AFF", "18AFE")
        self.find(TABLE, new, DATA, listed("range 18AFF..18AFF"), UNMOVED)

    def test_the_editions_of_the_examples(self):
        """The four files, and then the six."""
        files = [f"{TOP}/{name}" for name in f"{OLD} {NEW}".split()]
        self.expect(["changes", *files, "c"], out=content("changes.txt"))
        self.assertEqual(self.read("c"), content("certificate.txt"))
        self.write(x=content("changes.txt"))
        self.expect(["audit-changes", *files, "x", "c"], out="accepted\n")

    def test_refused_changes(self):
        """New table, new data file, changes, certificate, and the verdict: one for each condition, and two that fail."""
        more = TABLE + "0063 ; [.1C70.0020.0002]\n"
        less = TABLE.replace("0062 ; [.1C60.0020.0002]\n", "")
        cases = [
            (ILL_FORMED, DATA, listed(), UNMOVED, "2 NewIllFormed new row 6"),
            (TABLE.replace("18AFF", "18AFE"), DATA, listed(), UNMOVED, "3 RangeChanged code point 18AFF"),
            (TABLE, DATA, listed(), WITHOUT_B, "4 Uncovered old row 4"),
            (TABLE.replace("1C60", "1C61"), DATA, listed(), UNMOVED, "5 RowChanged old row 4"),
            (less, DATA, listed(), UNMOVED, "6 RowMissing old row 4"),
            (more, DATA, listed(), UNMOVED, "7 RowExtra new row 8"),
            (TABLE, DATA.replace("230", "231"), listed(), UNMOVED, "8 PointChanged code point 0300"),
            (TABLE, DATA.replace("20FFF", "21000"), listed(), UNMOVED, "8 PointChanged code point 21000"),
            (TABLE.replace("18AFF", "18AFE"), DATA, listed(), WITHOUT_B, "3 RangeChanged code point 18AFF"),
            (more, DATA.replace("230", "231"), listed("range 0300..0314"), UNMOVED, "7 RowExtra new row 8"),
            (less, DATA, listed(), WITHOUT_B, "4 Uncovered old row 4"),
        ]
        for new, data, changes, certificate, verdict in cases:
            self.write(t=TABLE, d=DATA, n=new, e=data, x=changes, c=certificate)
            self.expect("audit-changes t d n e x c", status=1, out=f"refused {verdict}\n")
        self.write(t=ILL_FORMED, d=DATA, n=TABLE, e=DATA, x=listed(), c=UNMOVED)
        self.expect("audit-changes t d n e x c", status=1, out="refused 1 OldIllFormed old row 6\n")

    def test_tables_that_are_not_well_formed(self):
        """Nothing is found, and the certificate that was there stays."""
        for old, new, line in (ILL_FORMED, TABLE, "OldIllFormed old row 6"), (TABLE, ILL_FORMED, "NewIllFormed new row 6"):
            self.write(t=old, d=DATA, n=new, e=DATA, c="old\n")
            self.expect("changes t d n e c", status=1, err=f"changes: {line}\n")
            self.assertEqual(self.read("c"), b"old\n")

    def test_tables_that_say_two_weightings(self):
        """Nothing is found, and the certificate that was there stays. A table without `@variable` says shifted."""
        shifted, other = (TABLE.replace("@version 1\n", f"@version 1\n@variable {said}\n") for said in ("shifted", "non-ignorable"))
        for old, new in (TABLE, other), (other, TABLE), (shifted, other), (other, shifted):
            for data in DATA, DATA.replace("230", "231"):
                self.write(t=old, d=DATA, n=new, e=data, x=listed("range 0300..0314"), c="old\n")
                self.expect("changes t d n e c", status=1, err="changes: SettingChanged\n")
                self.assertEqual(self.read("c"), b"old\n")
                self.write(c=UNMOVED)
                self.expect("audit-changes t d n e x c", status=1, out="refused 9 SettingChanged\n")
        for old, new in (TABLE, shifted), (shifted, TABLE), (shifted, shifted), (other, other):
            self.find(old, new, DATA, listed(), UNMOVED)
        # a table that is not well-formed comes first
        self.write(t=other, d=DATA, n=ILL_FORMED, e=DATA, c="old\n")
        self.expect("changes t d n e c", status=1, err="changes: NewIllFormed new row 6\n")

    def test_rejected_files(self):
        """Each file is read in the order of the arguments, up to the first that is rejected."""
        good = {"t": TABLE, "d": DATA, "n": TABLE, "e": DATA, "x": listed(), "c": UNMOVED}
        cases = [
            ("t", "?\n", "old line 1: Order\n"),
            ("d", "@data 2\n", "old-data line 1: Order\n"),
            ("n", "", "new line 1: Order\n"),
            ("e", "", "new-data line 1: Order\n"),
            ("x", "", "changes line 1: Order\n"),
            ("x", listed("range 0061..0061", "text 0061"), "changes line 3: Order\n"),
            ("x", listed("text 61"), "changes line 2: Line\n"),
            ("c", "", "certificate line 1: Map Fixed\n"),
        ]
        for at, (name, text, line) in enumerate(cases):
            # all later files are wrong too
            self.write(**{**good, **{later: bad for later, bad, _ in cases[at:]}, name: text})
            self.expect("audit-changes t d n e x c", status=1, err=line)
            if name in "tdne":
                self.expect("changes t d n e y", status=1, err=line)
                self.assertFalse(os.path.exists(f"{self.folder}/y"))

    def test_files_that_do_not_open(self):
        """All files are opened before one is read."""
        for name, role in zip("tdnexc", ("old", "old-data", "new", "new-data", "changes", "certificate"), strict=True):
            self.write(t="?", d=DATA, n=TABLE, e=DATA, x=listed(), c=UNMOVED)
            self.write(**{name: None})
            self.expect("audit-changes t d n e x c", status=3, err=f"{role}: Open\n")
            if name in "tdne":
                self.expect("changes t d n e y", status=3, err=f"{role}: Open\n")
                self.assertFalse(os.path.exists(f"{self.folder}/y"))

    def test_certificates_over_files_that_are_read(self):
        """Nothing is opened."""
        self.write(t=TABLE, d=DATA, n=TABLE, e=DATA)
        os.symlink("t", f"{self.folder}/l")
        cases = [
            ("t d n e t", "old"),
            ("t d n e ./d", "old-data"),
            ("t d n e n", "new"),
            ("t d n e e", "new-data"),
            ("t d l e t", "old"),
            ("missing d l e t", "new"),
        ]
        for arguments, role in cases:
            self.expect("changes " + arguments, status=2, err=f"certificate: SameAs {role}\n")
        self.assertEqual(self.read("t"), TABLE.encode())

    def test_output_that_fails(self):
        """The certificate is whole before the changes are written."""
        self.write(t=TABLE, d=DATA, n=TABLE, e=DATA)
        with open("/dev/full", "wb") as full:
            ended = self.run_uca("changes", "t", "d", "n", "e", "c", stdout=full)
        self.assertEqual((ended.status, ended.err), (3, said("output: Write\n")))
        self.assertEqual(self.read("c").decode(), UNMOVED)
        self.expect("changes t d n e /no/such/folder/c", status=3, err="certificate: Write\n")


class Affected(ProgramTest):
    """The lines in which a changed text occurs, or which have a code point of a changed range."""

    def expect_lines(self, changes, lines, printed, **ended):
        self.write(d=DATA, x=changes)
        self.expect("affected --changes d x", lines, out=printed, **ended)

    def test_files_of_changes(self):
        """The form of a file, and its first error."""
        cases = cases_of("changes.txt")["read"]
        self.assertGreater(len(cases), 50)
        for file, verdict in cases:
            is_accepted = verdict == "accepted"
            self.expect_lines(unescaped(file), "", "", status=0 if is_accepted else 1, err="" if is_accepted else f"changes {verdict}\n")

    def test_long_lines(self):
        """A line has at most 4,096 bytes."""
        for length, kind in (4096, "Line"), (4097, "Limit"):
            self.expect_lines(listed("x" * length), "", "", status=1, err=f"changes line 2: {kind}\n")

    def test_affected_lines(self):
        sixteen = "text" + 16 * " 0061"
        cases = [
            (listed("text 0061 0301", "text 0F82", "range 31350..323AF"), "a\ná\nàá\n\u0f81\n\u0f82\n\U0003134f\n\U00031350\n\U000323af\n\U000323b0\n",
             "á\nàá\n\u0f82\n\U00031350\n\U000323af\n"),
            (listed("text 0000", "text 10FFFF"), "a\n\0\nb\U0010ffff\n\U0010fffe\n", "\0\nb\U0010ffff\n"),
            (listed("range 0000..10FFFF"), "\0\na\n\n\U0010ffff\n", "\0\na\n\U0010ffff\n"),
            (listed("range D7FF..D7FF", "range E000..E000"), "\ud7fe\n\ud7ff\n\ue000\n\ue001\n", "\ud7ff\n\ue000\n"),
            (listed(sixteen), 15 * "a" + "\n" + 16 * "a" + "\n", 16 * "a" + "\n"),
            (listed("text FFFF", "text 10000"), "\ufffe\n\uffff\n\U00010000\n\U00010001\n", "\uffff\n\U00010000\n"),
            (listed("text 0063 0068", "text 0078"), "ch\ncah\nhc\nc\nax\n\nbach", "ch\ncah\nax\nbach\n"),
            (listed("text 0062 0061", "text 0062 0062"), "ab\nba\nbca\nbcb\nb\n", "ba\nbca\nbcb\n"),
            (listed("range 0062..0063"), "a\nb\nc\nd\nad\nda\ndab\n", "b\nc\ndab\n"),
            (listed("range 10FFFF..10FFFF"), "a\n\U0010ffff\n\U0010fffe\n", "\U0010ffff\n"),
            (listed("text 0061", "range 0061..0061"), "a\nb\n", "a\n"),
            (listed(), "a\nb\n", ""),
            (listed("text 0078"), "x\r\na\tx", "x\r\na\tx\n"),
            (listed("text 0078"), "", ""),
        ]
        for changes, lines, printed in cases:
            self.expect_lines(changes, lines, printed)

    def test_normalization_form_d(self):
        """A line is read in Normalization Form D, by the classes of the data file."""
        marked = "a" + DOT_BELOW + ACUTE
        self.expect_lines(listed("text 0061 0301"), f"á\na\n{marked}\na{ACUTE}{DOT_BELOW}\n{ACUTE}a\n", f"á\n{marked}\na{ACUTE}{DOT_BELOW}\n")
        self.expect_lines(listed("text 0323 0301"), f"a{ACUTE}{DOT_BELOW}\n{ACUTE}a{DOT_BELOW}\n", f"a{ACUTE}{DOT_BELOW}\n")
        self.expect_lines(listed("range 0300..0300"), f"à\ná\n{GRAVE}", f"à\n{GRAVE}\n")

    def test_rejected_input_and_files(self):
        self.expect_lines(listed("text 0078"), b"x\na\n\xff\nx\n", "x\n", status=1, err="input line 3: Utf8\n")
        self.expect_lines("", b"x\n\xff", "", status=1, err="changes line 1: Order\n")
        self.write(d="?\n")
        self.expect("affected --changes d x", b"x\n\xff", status=1, err="data line 1: Order\n")
        self.expect("affected --changes d missing", status=3, err="changes: Open\n")
        self.expect("affected --changes missing x", status=3, err="data: Open\n")
        # a file of changes is no rules
        self.write(d=DATA, x=listed("text 0078"))
        self.expect("affected d x", status=1, err="rules byte 0: Syntax\n")


class Rekey(ProgramTest):
    """Stored keys that are put through the maps of a certificate."""

    MAPS = UNMOVED.replace("1C60 1C60", "1C60 1C61").replace("2 002C 002C", "2 002C 0030").replace("3 0008 0008", "3 0008 0009")

    def setUp(self):
        super().setUp()
        self.write(c=self.MAPS)

    def expect_keys(self, options, lines, printed, **ended):
        self.expect(["rekey", *options.split(), "c"], lines, out=printed, **ended)

    def test_keys(self):
        """Options, a key, and the key that becomes of it. The first space of the third row is a variable weight at level 4."""
        cases = [
            ("", "1C60 0000 0020 0000 0002 0000 FFFF", "1C61 0000 0020 0000 0002 0000 FFFF"),
            ("", "1C47 1C60 0000 0020 0020 002C 0000 0002 0008 0002 0000 FFFF FFFF FFFF", "1C47 1C61 0000 0020 0020 0030 0000 0002 0009 0002 0000 FFFF FFFF FFFF"),
            ("--weighting shifted", "1C60 0000 0020 0000 0002 0000 0209 FFFF", "1C61 0000 0020 0000 0002 0000 0209 FFFF"),
            ("--weighting non-ignorable", "0209 1C60 0000 0020 0020 0000 0002 0008", "0209 1C61 0000 0020 0020 0000 0002 0009"),
            ("--identical", "1C60 0000 0020 0000 0002 0000 FFFF 0000 000062", "1C61 0000 0020 0000 0002 0000 FFFF 0000 000062"),
            ("--identical --weighting non-ignorable", "1C60 0000 0020 0000 0008 0000 001C60 000000", "1C61 0000 0020 0000 0009 0000 001C60 000000"),
            ("", "0000 0000 0000", "0000 0000 0000"),
            ("--weighting non-ignorable", "0000 0000", "0000 0000"),
            ("--identical", "0000 0000 0000 0000", "0000 0000 0000 0000"),
            # the first and the last code points on both sides of the surrogates
            ("--identical", "0000 0000 0000 0000 000000 00D7FF 00E000 10FFFF", "0000 0000 0000 0000 000000 00D7FF 00E000 10FFFF"),
            # an implicit weight is its own image
            ("", "FBC0 8001 0000 0020 0000 0002 0000 FFFF FFFF", "FBC0 8001 0000 0020 0000 0002 0000 FFFF FFFF"),
        ]
        for options, key, moved in cases:
            self.expect_keys(options, key + "\n", moved + "\n")
            self.expect_keys(options, key, moved + "\n")
            digits, new = key.replace(" ", ""), moved.replace(" ", "")
            self.expect_keys(options, f"{digits}\tb 1C60\t1C60\n", f"{new}\tb 1C60\t1C60\n")
            self.expect_keys(options, f"{digits}\n{key}\n{digits}\t\n", f"{new}\n{moved}\n{new}\t\n")

    def test_no_lines(self):
        self.expect_keys("", "", "")

    def test_rejected_lines(self):
        """Options, a line and its error. The lines before it were printed."""
        good, printed = "1C60 0000 0020 0000 0002 0000 FFFF\n", "1C61 0000 0020 0000 0002 0000 FFFF\n"
        cases = [
            ("", "", "NoImage"),
            ("", "\tb", "NoImage"),
            ("", "1C6", "NoKey"),
            ("", "1C60 0000 0020 0000 0002 0000 FFF", "NoKey"),
            ("", "1c60 0000 0020 0000 0002 0000 FFFF", "NoKey"),
            ("", "b\t1C60", "NoKey"),
            ("", "1C60,0000", "NoKey"),
            ("", "1C60 0000 0020 0000 0002 0000 FFFF\r", "NoKey"),
            # no weight of level 1 is 1C61, and none of level 3 is 0020
            ("", "1C61 0000 0020 0000 0002 0000 FFFF", "NoImage"),
            ("", "1C60 0000 0020 0000 0020 0000 FFFF", "NoImage"),
            # too few levels, too many, and a single byte
            ("", "1C60 0000 0020 0000 0002", "NoImage"),
            ("", "1C60 0000 0020 0000 0002 0000 FFFF 0000 000062", "NoImage"),
            ("--weighting non-ignorable", "1C60 0000 0020 0000 0002 0000 FFFF", "NoImage"),
            ("--identical", "1C60 0000 0020 0000 0002 0000 FFFF", "NoImage"),
            ("", "1C60 0000 0020 0000 0002 0000 FF", "NoImage"),
            # the last code point is cut after one byte or two; surrogates; a number after 10FFFF
            ("--identical", "1C60 0000 0020 0000 0002 0000 FFFF 0000 00", "NoImage"),
            ("--identical", "1C60 0000 0020 0000 0002 0000 FFFF 0000 000062 0000", "NoImage"),
            ("--identical --weighting non-ignorable", "1C60 0000 0020 0000 0002 0000 000062 0000", "NoImage"),
            ("--identical", "1C60 0000 0020 0000 0002 0000 FFFF 0000 00D800", "NoImage"),
            ("--identical", "1C60 0000 0020 0000 0002 0000 FFFF 0000 000062 00DFFF", "NoImage"),
            ("--identical", "1C60 0000 0020 0000 0002 0000 FFFF 0000 110000", "NoImage"),
        ]
        for options, line, kind in cases:
            before = good if options == "" else ""
            ended = {"status": 1, "err": f"input line {2 if before else 1}: {kind}\n"}
            self.expect_keys(options, before + line + "\n" + good, printed if before else "", **ended)

    def test_keys_of_the_other_weighting(self):
        """A line with one key, and how it was made. 0100 is a weight with an image, and so are the bytes 01 00 of U+10000."""
        self.write(t=TABLE, d=DATA, c="1 0100 0101 0001\n" + self.MAPS)
        cases = [
            ("b", "shifted", "1C60 0000 0020 0000 0002 0000 FFFF 0000 000062"),
            ("b", "non-ignorable", "1C60 0000 0020 0000 0002 0000 000062"),
            ("\U00010000a", "non-ignorable", "FBC2 8000 1C47 0000 0020 0020 0000 0002 0002 0000 010000 000061"),
            ("\U00010000", "shifted", "FBC2 8000 0000 0020 0000 0002 0000 FFFF FFFF 0000 010000"),
        ]
        for line, weighting, key in cases:
            self.expect(["keys", "--identical", "--weighting", weighting, "t", "d"], line, out=key + "\n")
            other = "shifted" if weighting == "non-ignorable" else "non-ignorable"
            self.expect_keys("--identical --weighting " + other, key, "", status=1, err="input line 1: NoImage\n")

    def test_rejected_certificates(self):
        """Nothing of the input is read."""
        self.write(c="?\n")
        self.expect_keys("", b"\xff", "", status=1, err="certificate line 1: Line\n")
        self.write(c=None)
        self.expect_keys("", b"\xff", "", status=3, err="certificate: Open\n")

    def test_more_than_a_million_lines(self):
        lines, moved = b"1C60000000200000000200000209\n" * 1_000_001, b"1C61000000200000000200000209\n" * 1_000_001
        ended = self.run_uca("rekey", "c", given=lines)
        self.assertEqual((ended.status, ended.err), (0, b""))
        self.assertTrue(ended.out == moved)

    def test_a_long_line(self):
        """A key of 300,000 letters."""
        count = 300_000
        parts = ["{} " * count, "0020 " * count, "0002 " * count, "FFFF " * count]
        key = " 0000 ".join(part.strip() for part in parts)
        old, new = (key.replace("{}", weight) + "\n" for weight in ("1C60", "1C61"))
        ended = self.run_uca("rekey", "c", given=old * 2)
        self.assertEqual((ended.status, ended.err), (0, b""))
        self.assertTrue(ended.out == (new * 2).encode())

    def test_streams(self):
        with open("/dev/full", "wb") as full:
            ended = self.run_uca("rekey", "c", given="1C60 0000 0020 0000 0002 0000 FFFF\n", stdout=full)
        self.assertEqual((ended.status, ended.err), (3, said("output: Write\n")))


class Editions(ProgramTest):
    """Keys of all lines under both editions of the examples."""

    LINES = "a\nÁ\nb c\nch\nbach\nc\nh-d\ne\nd\u0323\u0324\n\U0001f600\nab\n一\n\U00021000\n\U00020000\na\u0323\u0301\n \n\n"
    AFFECTED = "ch\nbach\ne\nd\u0323\u0324\n\U0001f600\n\U00021000\n"

    def keys(self, options, edition, lines):
        table, data = (f"{TOP}/{name}" for name in edition.split())
        ended = self.run_uca("keys", *options, table, data, given=lines)
        self.assertEqual((ended.status, ended.err), (0, b""))
        return ended.out

    def test_keys_that_are_mended(self):
        """What `rekey` makes of old keys is what `keys` prints under the new edition."""
        new_data = f"{TOP}/{NEW.split()[1]}"
        self.write(c=content("certificate.txt"), x=content("changes.txt"))
        self.expect(["affected", "--changes", new_data, "x"], self.LINES, out=self.AFFECTED)
        kept = "".join(line for line in self.LINES.splitlines(True) if line not in self.AFFECTED.splitlines(True))
        for weighting in "shifted", "non-ignorable":
            for depth in [], ["--identical"]:
                settings = ["--weighting", weighting, *depth]
                for lines in [], ["--lines"]:
                    old = self.keys([*settings, *lines], OLD, kept)
                    self.expect(["rekey", *settings, "c"], old, out=self.keys([*settings, *lines], NEW, kept))
