"""The header of key lines: `uca keys --header` writes it. `rekey`, `compact` and `expand` test it, and write another one."""
import hashlib

from helps import said
from program import DATA, TABLE, ProgramTest

MAPS = "1 0209 0209 0001\n1 1C47 1C47 0001\n1 1C60 1C61 0001\n2 0020 0020 0001\n2 0024 0024 0002\n2 002C 002C 0001\n3 0002 0002 0001\n3 0008 0008 0001\n"
OTHER = "0123456789abcdef" * 4
KEY, MOVED = "1C60 0000 0020 0000 0002 0000 FFFF", "1C61 0000 0020 0000 0002 0000 FFFF"


def fingerprint(weighting="shifted", depth="weights", table=TABLE):
    """The SHA-256 of the text that docs/FORMATS.md states."""
    sums = [hashlib.sha256(it.encode()).hexdigest() for it in (table, DATA)]
    text = f"uca keys 1\nunicode 18.0.0\nweighting {weighting}\ndepth {depth}\ntable {sums[0]}\ndata {sums[1]}\n"
    return hashlib.sha256(text.encode()).hexdigest()


def header(weighting="shifted", depth="weights", digits=None):
    return f"#uca keys 1 {weighting} {depth} {digits or fingerprint(weighting, depth)}\n"


class Keys(ProgramTest):
    def setUp(self):
        super().setUp()
        self.write(t=TABLE, d=DATA)

    def test_header(self):
        """The options, the header's weighting and depth, and the key line of `b`."""
        cases = [
            ("", "shifted", "weights", KEY),
            ("--lines", "shifted", "weights", KEY.replace(" ", "") + "\tb"),
            ("--lines --weighting non-ignorable", "non-ignorable", "weights", "1C600000002000000002\tb"),
            ("--identical", "shifted", "identical", KEY + " 0000 000062"),
            ("--lines --identical --weighting non-ignorable", "non-ignorable", "identical", "1C6000000020000000020000000062\tb"),
        ]
        for options, weighting, depth, line in cases:
            self.expect(f"keys --header {options} t d", "b\n", out=header(weighting, depth) + line + "\n")
            self.expect(f"keys {options} t d", "b\n", out=line + "\n")

    def test_setting_of_the_table(self):
        table = TABLE.replace("@version 1\n", "@version 1\n@variable non-ignorable\n")
        self.write(t=table)
        digits = fingerprint("non-ignorable", table=table)
        self.expect("keys --header t d", "b\n", out=header("non-ignorable", digits=digits) + "1C60 0000 0020 0000 0002\n")
        self.expect("fingerprint t d", out=digits + "\n")
        digits = fingerprint("shifted", table=table)
        self.expect("keys --header --weighting shifted t d", "b\n", out=header(digits=digits) + KEY + "\n")

    def test_no_lines_and_rejected_ones(self):
        self.expect("keys --header t d", "", out=header())
        self.expect("keys --header --lines t d", b"b\n\xff\nb\n", out=header() + KEY.replace(" ", "") + "\tb\n", status=1, err="input line 2: Utf8\n")
        self.expect("keys --header t d", b"\xff\n", out=header(), status=1, err="input line 1: Utf8\n")

    def test_rejected_files(self):
        """Nothing is written."""
        self.write(x="?\n")
        self.expect("keys --header x d", "b\n", status=1, err="table line 1: Order\n")
        self.expect("keys --header t x", "b\n", status=1, err="data line 1: Order\n")
        self.expect("keys --header t missing", "b\n", status=3, err="data: Open\n")

    def test_a_full_device(self):
        with open("/dev/full", "wb") as full:
            ended = self.run_uca("keys", "--header", "t", "d", given="b\n", stdout=full)
            self.assertEqual((ended.status, ended.err), (3, said("output: Write\n")))

    def test_order_of_bytes(self):
        """The header stays first where lines are sorted by their bytes. The key of the empty line begins with zeros."""
        lines = self.run_uca("keys", "--header", "--lines", "t", "d", given="b\n\na\n").out.split(b"\n")[:-1]
        self.assertEqual(sorted(lines)[0], lines[0])
        self.assertEqual(len(lines), 4)


class Rekey(ProgramTest):
    def setUp(self):
        super().setUp()
        self.write(t=TABLE, d=DATA, c=MAPS)
        self.ask = f"rekey --from {fingerprint()} --to {OTHER}"

    def test_headers(self):
        new = header(digits=OTHER)
        self.expect(f"{self.ask} c", header() + KEY + "\tb\n", out=new + MOVED + "\tb\n")
        self.expect(f"{self.ask} c", header(), out=new)
        self.expect(f"{self.ask} c", header().rstrip("\n"), out=new)
        self.expect(f"{self.ask} c", header() + KEY, out=new + MOVED + "\n")
        ask = f"rekey --weighting non-ignorable --identical --from {fingerprint('non-ignorable', 'identical')} --to {OTHER} c"
        line = "{}00000020000000020000000062\n"
        self.expect(ask, header("non-ignorable", "identical") + line.format("1C60"), out=header("non-ignorable", "identical", OTHER) + line.format("1C61"))

    def test_what_keys_prints(self):
        made = self.run_uca("keys", "--header", "--lines", "t", "d", given="b\na\n").out.decode()
        self.expect(f"{self.ask} c", made, out=made.replace(fingerprint(), OTHER).replace("1C60", "1C61"))

    def test_other_headers(self):
        """Each is rejected at line 1, and nothing is written."""
        given = [
            "",
            "\n",
            KEY + "\tb\n",
            header("non-ignorable"),
            header("shifted", "identical"),
            header(digits=OTHER),
            header(digits=fingerprint().upper()),
            header().replace("keys 1", "keys 2"),
            header().replace("#uca", "# uca"),
            header().replace("\n", "\r\n"),
            header().replace("\n", " \n"),
            "\n" + header(),
        ]
        for lines in given:
            self.expect(f"{self.ask} c", lines + KEY + "\tb\n" if lines else "", status=1, err="input line 1: Header\n")
        self.expect(f"{self.ask} --identical c", header() + KEY + "\n", status=1, err="input line 1: Header\n")
        self.expect(f"{self.ask} --weighting non-ignorable c", header() + KEY + "\n", status=1, err="input line 1: Header\n")

    def test_headers_that_are_not_asked_for(self):
        """A header never passes as a key, and there is one header."""
        self.expect("rekey c", header() + KEY + "\n", status=1, err="input line 1: NoKey\n")
        self.expect(f"{self.ask} c", header() * 2, out=header(digits=OTHER), status=1, err="input line 2: NoKey\n")

    def test_errors_after_the_header(self):
        new = header(digits=OTHER)
        self.expect(f"{self.ask} c", header() + KEY + "\nx\n", out=new + MOVED + "\n", status=1, err="input line 3: NoKey\n")
        self.expect(f"{self.ask} c", header() + "1C62\n", out=new, status=1, err="input line 2: NoImage\n")
        self.write(x="?\n")
        self.expect(f"{self.ask} x", header(), status=1, err="certificate line 1: Line\n")
        self.expect(f"{self.ask} missing", header(), status=3, err="certificate: Open\n")
        with open("/dev/full", "wb") as full:
            ended = self.run_uca(*self.ask.split(), "c", given=header() + KEY + "\n", stdout=full)
            self.assertEqual((ended.status, ended.err), (3, said("output: Write\n")))

    def test_fingerprints(self):
        """The arguments are judged before a file is opened."""
        for options in f"--from {OTHER}", f"--to {OTHER}", f"--from {OTHER} --to {OTHER[1:]}", f"--from {OTHER.upper()} --to {OTHER}", f"--from {OTHER} --to={OTHER}0":
            self.expect(f"rekey {options} missing", "", status=2, err="fingerprint: unknown\n")


# The book has a cell for 1C60, which is 0A. So the key of `b` is 0A, and 03 says that all later levels are plain. By the
# other book 0A is the cell of 1C47, and the key of `b` is 0C.
BOOK = "@book 1\n1 1C60\n1 1C61\n"
OTHER_BOOK = "@book 1\n1 1C47\n1 1C48\n1 1C60\n1 1C61\n"
COMPACT = "0A03"


def compact_fingerprint(keys, book=BOOK):
    """The SHA-256 of the text that docs/FORMATS.md states."""
    text = f"uca compact keys 1\nkeys {keys}\nbook {hashlib.sha256(book.encode()).hexdigest()}\n"
    return hashlib.sha256(text.encode()).hexdigest()


def compact_header(weighting="shifted", depth="weights", digits=None):
    return f"#uca compact 1 {weighting} {depth} {digits or compact_fingerprint(fingerprint(weighting, depth))}\n"


class Compact(ProgramTest):
    """The header of keys becomes one of compact keys, and the other way round."""

    def setUp(self):
        super().setUp()
        self.write(t=TABLE, d=DATA, k=BOOK, j=OTHER_BOOK)
        self.ask = f"--from {fingerprint()} k"
        self.back = f"--to {fingerprint()} k"

    def test_compact(self):
        new = compact_header()
        self.expect(f"compact {self.ask}", header() + KEY + "\tb\n", out=new + COMPACT + "\tb\n")
        for lines in header(), header().rstrip("\n"):
            self.expect(f"compact {self.ask}", lines, out=new)
        self.expect(f"compact {self.ask}", header() + KEY, out=new + COMPACT + "\n")
        new = compact_header(digits=compact_fingerprint(OTHER, OTHER_BOOK))
        self.expect(f"compact --from {OTHER} j", header(digits=OTHER) + KEY + "\n", out=new + "0C03\n")

    def test_expand(self):
        key = KEY.replace(" ", "")
        self.expect(f"expand {self.back}", compact_header() + COMPACT + "\tb\n", out=header() + key + "\tb\n")
        for lines in compact_header(), compact_header().rstrip("\n"):
            self.expect(f"expand {self.back}", lines, out=header())

    def test_settings(self):
        options = "--weighting non-ignorable --identical"
        old, new = header("non-ignorable", "identical"), compact_header("non-ignorable", "identical")
        key, compact = "1C6000000020000000020000000062", "080262"
        asked = fingerprint("non-ignorable", "identical")
        self.expect(f"compact {options} --from {asked} k", old + key + "\n", out=new + compact + "\n")
        self.expect(f"expand {options} --to {asked} k", new + compact + "\n", out=old + key + "\n")

    def test_what_keys_and_fingerprint_print(self):
        """Three commands name the same compact keys, and the way back is the whole way."""
        made = self.run_uca("keys", "--header", "--lines", "t", "d", given="b\na\n\n").out
        self.expect("fingerprint --compact k t d", out=compact_fingerprint(fingerprint()) + "\n")
        ended = self.run_uca("compact", *self.ask.split(), given=made)
        self.assertEqual((ended.status, ended.out.split(b"\n")[0]), (0, compact_header().rstrip("\n").encode()))
        self.expect("keys --header --lines --compact k t d", "b\na\n\n", out=ended.out)
        self.expect(f"expand {self.back}", ended.out, out=made)

    def test_other_books(self):
        """Compact keys by one book never become keys by another one, which would be those of other texts."""
        made = self.run_uca("keys", "--header", "--lines", "t", "d", given="b\n").out
        compact = self.run_uca("compact", *self.ask.split(), given=made).out
        self.expect(f"expand --to {fingerprint()} j", compact, status=1, err="input line 1: Header\n")
        self.expect("expand j", COMPACT + "\tb\n", out=KEY.replace("1C60", "1C47").replace(" ", "") + "\tb\n")

    def test_other_headers(self):
        """Each is rejected at line 1, and nothing is written. A header of the other kind is one of them."""
        for lines in ["", "\n", KEY + "\n", header("non-ignorable"), header("shifted", "identical"), header(digits=OTHER), header().replace("keys 1", "keys 2"),
                      header().replace("\n", " \n"), compact_header(), compact_header(digits=fingerprint())]:
            self.expect(f"compact {self.ask}", lines + KEY + "\n" if lines else "", status=1, err="input line 1: Header\n")
        for digits in fingerprint(), OTHER, compact_fingerprint(OTHER), compact_fingerprint(fingerprint(), OTHER_BOOK), compact_fingerprint(fingerprint(), ""):
            self.expect(f"expand {self.back}", compact_header(digits=digits) + COMPACT + "\n", status=1, err="input line 1: Header\n")
        for lines in [COMPACT + "\n", compact_header("non-ignorable"), header(), header(digits=compact_fingerprint(fingerprint()))]:
            self.expect(f"expand {self.back}", lines + COMPACT + "\n", status=1, err="input line 1: Header\n")

    def test_headers_that_are_not_asked_for(self):
        """A header never passes as a key, and there is one header."""
        self.expect("compact k", header() + KEY + "\n", status=1, err="input line 1: NoKey\n")
        self.expect("expand k", compact_header() + COMPACT + "\n", status=1, err="input line 1: NoKey\n")
        self.expect(f"compact {self.ask}", header() * 2, out=compact_header(), status=1, err="input line 2: NoKey\n")

    def test_errors_after_the_header(self):
        self.expect(f"compact {self.ask}", header() + KEY + "\nx\n", out=compact_header() + COMPACT + "\n", status=1, err="input line 3: NoKey\n")
        self.expect(f"compact {self.ask}", header() + "1C60\n", out=compact_header(), status=1, err="input line 2: OtherKey\n")
        self.expect(f"expand {self.back}", compact_header() + "FF\n", out=header(), status=1, err="input line 2: NoCompactKey\n")
        self.write(x="?\n")
        self.expect(f"compact --from {OTHER} x", header(), status=1, err="book line 1: Order\n")
        with open("/dev/full", "wb") as full:
            ended = self.run_uca("compact", *self.ask.split(), given=header() + KEY + "\n", stdout=full)
            self.assertEqual((ended.status, ended.err), (3, said("output: Write\n")))

    def test_fingerprints(self):
        """The arguments are judged before a file is opened. The fingerprint of compact keys is no argument."""
        for options in f"compact --from {OTHER[1:]}", f"compact --from {OTHER}0", f"expand --to {OTHER.upper()}", "expand --to=":
            self.expect(f"{options} missing", "", status=2, err="fingerprint: unknown\n")
        for command, other in ("compact", "--to"), ("expand", "--from"):
            ended = self.run_uca(command, other, OTHER, "k", given=header())
            self.assertEqual((ended.status, ended.out), (2, b""))
            self.assertTrue(ended.err.startswith(f"error: unexpected argument '{other}' found\n".encode()), ended.err)
