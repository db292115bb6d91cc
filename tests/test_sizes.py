"""Sizes on both sides of each power of two and of ten. There is memory to spare, so no run may say that it is short of memory.

Lengths of texts and numbers of rows are also round, such as 70,000, and random. `bindings/c/sizes.c` does the same with the calls of the library.
"""
import random

from program import A_ACUTE, ACUTE, DATA, DOT_BELOW, NO_WEIGHTS, TABLE, ProgramTest, key_of, many
from test_numbers import NUMBER_TABLE

BY_THREE = "--weighting non-ignorable t d"

# The options of each weighting and depth.
SETTINGS = [f"--weighting {weighting}{depth}" for weighting in ("non-ignorable", "shifted") for depth in ("", " --identical")]

# Cells of one weight for `b` alone: 08 under non-ignorable, 0A under shifted. The end of a key of plain levels is 02 or 03.
BOOK_OF_B = "@book 1\n1 1C60\n1 1C61\n"

# What each certificate ends with, and what comes before it where level 1 moves no weight.
OF_LEVEL_2, OF_LEVEL_3 = "2 0020 0020 0001\n", "3 0002 0002 0001\n"


def sizes(most):
    """The powers of two and of ten up to this size, and their neighbours."""
    powers = {base**exponent for base in (2, 10) for exponent in range(21)}
    return sorted(it for it in {power + more for power in powers for more in (-1, 0, 1)} if 0 < it <= most)


def many_sizes(most, count):
    """These, one to nine times each power of ten with their neighbours, and so many random ones, as many below each power of two."""
    round_ones = {digit * 10**exponent + more for digit in range(1, 10) for exponent in range(8) for more in (-1, 0, 1)}
    numbers = random.Random(59)
    random_ones = {numbers.randrange(1, 2 << (number % most.bit_length())) for number in range(count)}
    return sorted(it for it in {*sizes(most)} | round_ones | random_ones if 0 < it <= most)


def letter(number):
    """A code point without a row, of a private use plane."""
    return chr(0xF0000 + number)


def rows_of(codes, weights):
    return "".join(f"{code:04X} ; [.{weight:04X}.0020.0002]\n" for code, weight in zip(codes, weights))


def element(level, weight):
    """An element whose first weight that is not 0 is this one, at this level."""
    return f"[.{weight:04X}.0020.0002]" if level == 1 else f"[.0000.{weight:04X}.0002]" if level == 2 else f"[.0000.0000.{weight:04X}]"


def rows_at(level, first, count):
    """So many rows of an element each, with weights at this level side by side."""
    return "".join(f"{0x30000 + number:04X} ; {element(level, first + number)}\n" for number in range(count))


def certificate_of(level, runs):
    """The certificate with these runs at this level, above the weights that stay."""
    return (runs if level == 1 else "") + OF_LEVEL_2 + (runs if level == 2 else "") + OF_LEVEL_3 + (runs if level == 3 else "")


def implicit(base, code):
    """The implicit weights of a code point (UTS #10, section 10.1.3)."""
    return f"{base + (code >> 15):04X} {0x8000 + (code & 0x7FFF):04X}"


def key_in(setting, primary, count, text):
    """The key of so many times one letter, in a setting."""
    levels = [primary, "0020", "0002"] + ["FFFF"] * ("shifted" in setting) + [f"{ord(text):06X}"] * ("identical" in setting)
    return " 0000 ".join(many(weight, count) for weight in levels) + "\n"


def listed(lines):
    """A file of changes with these lines."""
    return "@changes 1\n" + "".join(f"{line}\n" for line in lines)


class Lines(ProgramTest):
    def setUp(self):
        super().setUp()
        self.write(t=TABLE, d=DATA, k=BOOK_OF_B, r="&a < x", x=listed(["text 0078"]))

    def test_numbers_of_lines(self):
        for count in sizes(1_000_000):
            lines = "b\na\n" * (count // 2) + "b\n" * (count % 2)
            self.expect(f"sort {BY_THREE}", lines, out="a\n" * (count // 2) + "b\n" * (count - count // 2))

    def test_numbers_of_lines_without_equal_keys(self):
        """Each line is its number, least first."""
        for count in sizes(100_001):
            lines = [f"{number:06}\n" for number in range(count)]
            self.expect(f"sort {BY_THREE}", "".join(reversed(lines)), out="".join(lines))

    def test_numbers_of_lines_in_each_setting(self):
        for setting in SETTINGS:
            for count in sizes(10_001):
                lines = "b\na\n" * (count // 2) + "b\n" * (count % 2)
                self.expect(f"sort {setting} t d", lines, out="a\n" * (count // 2) + "b\n" * (count - count // 2))
            empty = many("0000", key_in(setting, "1C47", 1, "a").count(" 0000 "))
            self.expect(f"keys {setting} t d", "\n" * 140_000, out=f"{empty}\n" * 140_000)
            self.expect(f"keys {setting} --lines t d", "\n" * 140_000, out=f"{empty.replace(' ', '')}\t\n" * 140_000)
            self.expect(f"keys {setting} --compact k t d", "\n" * 140_000, out=("03\n" if "shifted" in setting else "02\n") * 140_000)

    def test_numbers_of_lines_that_are_affected(self):
        for files in "d r", "--changes d x":
            self.expect(f"affected {files}", "x\na\n" * 500_000, out="x\n" * 500_000)

    def test_lengths_of_lines(self):
        lengths = sizes(1_048_576)
        lines = ["a" * length + "\n" for length in lengths]
        self.expect(f"sort {BY_THREE}", "".join(reversed(lines)), out="".join(lines))
        for files in "d r", "--changes d x":
            self.expect(f"affected {files}", "".join(f"{line[:-1]}x\n{line}" for line in lines[:-3]), out="".join(f"{line[:-1]}x\n" for line in lines[:-3]))
        lengths = sizes(65_537)
        keys = [key_of(*(many(weight, length) for weight in ("1C47", "0020", "0002"))) for length in lengths]
        self.expect(f"keys {BY_THREE}", "".join("a" * length + "\n" for length in lengths), out="".join(keys))

    def test_many_lengths_of_texts(self):
        """Of letters; of letters that have an accent in Normalization Form D; and of code points without weights, whose keys are empty."""
        self.write(t=TABLE + NO_WEIGHTS)
        for text, most, weights in ("a", 131_073, ("1C47", "0020", "0002")), ("\u00e1", 65_537, ("1C47", "0020 0024", "0002 0002")), ("\1", 1_048_576, None):
            lengths = many_sizes(most, 300)
            lines = "".join(text * length + "\n" for length in lengths)
            keys = [key_of(*(many(weight, length) for weight in weights)) if weights else key_of("", "", "") for length in lengths]
            self.expect(f"keys {BY_THREE}", lines, out="".join(keys))
            self.expect(f"sort {BY_THREE}", lines, out=lines)

    def test_many_lengths_of_numbers(self):
        """By value. Before the digits comes how many they are, as 1 to 8, then as 91 to 98, 991 to 998 and so on."""
        self.write(t=NUMBER_TABLE)
        lengths = many_sizes(10_001, 200)
        lines = ["7" * length + "\n" for length in lengths]
        codes = ["9" * ((length - 1) // 8) + str((length - 1) % 8 + 1) for length in lengths]
        counts = [len(code) + length for code, length in zip(codes, lengths)]
        letters = [" ".join(f"{0x1C3D + int(digit):04X}" for digit in code) + " " + many("1C44", length) for code, length in zip(codes, lengths)]
        keys = [key_of(letter, many("0020", count), many("0002", count)) for letter, count in zip(letters, counts)]
        self.expect(f"keys --numeric {BY_THREE}", "".join(lines), out="".join(keys))
        self.expect(f"sort --numeric {BY_THREE}", "".join(reversed(lines)), out="".join(lines))

    def test_letters_of_all_pages(self):
        """One of each 256 code points, from plane 3 on. What is known of code points is kept by such pages."""
        codes = range(0x30001, 0x110000, 0x100)
        lines, text = "".join(f"{chr(code)}\n" for code in codes), "".join(map(chr, codes))
        self.expect(f"keys {BY_THREE}", lines, out="".join(key_of(implicit(0xFBC0, code), "0020", "0002") for code in codes))
        self.expect(f"sort {BY_THREE}", lines, out=lines)
        for right, printed in (text, "= 0\n"), (text + "a", "< 1\n"), ("a" + text, "> 1\n"):
            self.expect(["compare", *BY_THREE.split(), text, right], out=printed)

    def test_lengths_of_lines_in_each_setting(self):
        lines = ["a" * length + "\n" for length in sizes(10_001)]
        for setting in SETTINGS:
            keys = [key_in(setting, "1C47", len(line) - 1, "a") for line in lines]
            self.expect(f"keys {setting} t d", "".join(lines), out="".join(keys))
            keyed = [key.replace(" ", "").replace("\n", f"\t{line}") for key, line in zip(keys, lines)]
            self.expect(f"keys {setting} --lines t d", "".join(lines), out="".join(keyed))
            self.expect(f"sort {setting} t d", "".join(reversed(lines)), out="".join(lines))
            for line in lines:
                self.expect(["compare", *setting.split(), "t", "d", line[:-1], line[1:-1] + "b"], out="< 1\n")

    def test_lengths_of_texts_that_are_compared(self):
        for length in sizes(131_000):
            text = "a" * length
            for right, printed in (text, "= 0\n"), (text[1:] + "b", "< 1\n"), (text + "b", "< 1\n"), ("b" + text[1:], "< 1\n"):
                self.expect(["compare", *BY_THREE.split(), text, right], out=printed)

    def test_numbers_of_accents(self):
        """After a letter, and between a letter and the accent that it has a row with."""
        counts = range(1, 65)
        keys = [key_of("1C47", "0020 " + many("0024", count), many("0002", count + 1)) for count in counts]
        self.expect(f"keys {BY_THREE}", "".join("a" + ACUTE * count + "\n" for count in counts), out="".join(keys))
        self.write(t=TABLE + A_ACUTE)
        keys = [key_of("1C50", "0020 " + many("002C", count), many("0002", count + 1)) for count in counts[:-1]]
        self.expect(f"keys {BY_THREE}", "".join("a" + DOT_BELOW * count + ACUTE + "\n" for count in counts[:-1]), out="".join(keys))


class Tables(ProgramTest):
    def test_numbers_of_rows(self):
        """The first row, the last one, and a code point after it, which has implicit weights."""
        self.write(d=DATA)
        for count in sizes(200_000):
            codes = range(0x30000, 0x30000 + count)
            self.write(t="@version 1\n" + rows_of(codes, (0x1000 + number % 0x8000 for number in range(count))))
            after = 0x30000 + count
            wanted = [f"{0x1000:04X}", f"{0x1000 + (count - 1) % 0x8000:04X}", implicit(0xFBC0, after)]
            self.expect(f"keys {BY_THREE}", f"{chr(codes[0])}\n{chr(codes[-1])}\n{chr(after)}\n", out="".join(key_of(it, "0020", "0002") for it in wanted))

    def test_numbers_of_rows_that_are_checked(self):
        self.write(d=DATA)
        for count in sizes(60_000):
            self.write(t="@version 1\n" + rows_of(range(0x30000, 0x30000 + count), range(1, count + 1)))
            self.expect("check t d", out="well-formed\n")

    def test_numbers_of_long_keys_that_are_checked(self):
        """A letter with two accents has a row, and so has the letter with the first one. Of a last letter that row is missing."""
        self.write(d=DATA)
        for count in sizes(5000):
            rows = "".join(f"{code:04X} 0301 ; [.1000.0020.0002]\n{code:04X} 0301 0300 ; [.1000.0020.0002]\n" for code in range(0x30000, 0x30000 + count))
            self.write(t="@version 1\n" + rows)
            self.expect("check t d", out="well-formed\n")
            self.write(t="@version 1\n" + rows + "0061 0301 0300 ; [.1000.0020.0002]\n")
            self.expect("check t d", status=1, out=f"WF5 row {2 * count + 1}\n")

    def test_numbers_of_keys_that_begin_alike(self):
        """The first of them, the last one, and a text that is no key."""
        self.write(d=DATA)
        for count in sizes(20_000):
            self.write(t=TABLE + "".join(f"0061 {0xF0000 + number:04X} ; [.{0x2000 + number:04X}.0020.0002]\n" for number in range(count)))
            lines = "".join(f"a{letter(number)}\n" for number in (0, count - 1, count))
            keys = [key_of(f"{0x2000 + number:04X}", "0020", "0002") for number in (0, count - 1)]
            keys.append(key_of("1C47 " + implicit(0xFBC0, 0xF0000 + count), "0020 0020", "0002 0002"))
            self.expect(f"keys {BY_THREE}", lines, out="".join(keys))

    def test_numbers_of_ranges(self):
        """The first code point of all, the last one, and the one after it."""
        self.write(d=DATA)
        for count in sizes(256):
            firsts = range(0xF0000, 0xF0000 + 16 * count, 16)
            self.write(t="@version 1\n" + "".join(f"@implicitweights {code:04X}..{code + 8:04X}; FB00\n" for code in firsts))
            last = firsts[-1] + 8
            weights = ["FB00 8000", f"FB00 {0x8000 + last - 0xF0000:04X}", implicit(0xFBC0, last + 1)]
            self.expect(f"keys {BY_THREE}", "".join(f"{chr(code)}\n" for code in (0xF0000, last, last + 1)), out="".join(key_of(it, "0020", "0002") for it in weights))

    def test_lines_of_files(self):
        """Comments of each length in a table and in a data file, and as many lines as these may have."""
        remarks = "".join("#" * length + "\n" for length in sizes(4096))
        for more in remarks, "\n" * 999_000:
            self.write(t=TABLE + more, d=DATA + more)
            self.expect(f"keys {BY_THREE}", "a\n", out=key_of("1C47", "0020", "0002"))


class DataFiles(ProgramTest):
    def test_numbers_of_ranges(self):
        """Han of both kinds: the first, the last, and the code point after it. A long key needs a shorter one if its last code point has a class."""
        for count in sizes(4096):
            core, other = 0xF0000, 0x100000
            codes = [[f"{first + it:04X}" for first in (0xE000, core, other)] for it in range(count)]
            lines = "".join(f"ccc {mark}..{mark} 1\ncore {of_core}..{of_core}\nother {of_other}..{of_other}\n" for mark, of_core, of_other in codes)
            self.write(t="@version 1\n", d="@data 1\n" + lines)
            weights = [(0xFB40, core), (0xFB40, core + count - 1), (0xFBC0, core + count), (0xFB80, other), (0xFB80, other + count - 1), (0xFBC0, other + count)]
            self.expect(f"keys {BY_THREE}", "".join(f"{chr(code)}\n" for _, code in weights), out="".join(key_of(implicit(*it), "0020", "0002") for it in weights))
            for code, status, verdict in (0xE000 + count - 1, 1, "WF5 row 1\n"), (0xE000 + count, 0, "well-formed\n"):
                self.write(t=f"@version 1\n0061 0062 {code:04X} ; [.1C47.0020.0002]\n")
                self.expect("check t d", status=status, out=verdict)


class Rules(ProgramTest):
    def accept(self, table, rules, **named):
        """The table is tailored by the rules, and the audit accepts that."""
        self.write(t=table, d=DATA, r=rules)
        with self.subTest(rules=rules[:40], **named):
            tailored = self.run_uca(*"tailor t d r c".split())
            self.assertEqual((tailored.status, tailored.err), (0, b""))
            self.write(n=tailored.out)
            self.expect("audit t d r n c", out="accepted\n")

    def test_numbers_of_relations(self):
        """Letters after `a`, and before `b`. There are more than places between the two, so the weights above are moved."""
        for count in sizes(5000):
            chain = " < ".join(letter(number) for number in range(count))
            self.accept(TABLE, f"&a < {chain}", count=count)
            self.expect("affected d r", "".join(f"{letter(number)}\n" for number in (0, count - 1, count)), out=f"{letter(0)}\n{letter(count - 1)}\n")
            self.accept(TABLE.replace("@implicit", "@variable shifted\n@implicit"), f"&[before 1] b < {chain}", count=count)

    def test_numbers_of_relations_with_expansions(self):
        for count in sizes(5000):
            self.accept(TABLE, "".join(f"&a <<< {letter(number)} / b\n" for number in range(count)), count=count)

    def test_numbers_of_starred_and_quoted_letters(self):
        for count in sizes(5000):
            self.accept(TABLE, f"&a <* '{''.join(letter(number) for number in range(count))}'", count=count)

    def test_lengths_of_comments(self):
        for length in sizes(1_000_000):
            self.accept(TABLE, f"#{'c' * length}\n&a < x", length=length)

    def test_lengths_of_texts(self):
        """A text has at most 16 code points."""
        self.write(d=DATA)
        for length in sizes(1100):
            text, quoted = "b" * length, f"'{'b' * length}'"
            cases = [("&a<", text, "", text), ("&a<", quoted, "", text), ("&a<", r"\u0062" * length, "", text), ("&", quoted, "<x", "x"), ("&a<x/", quoted, "", "x")]
            for front, written, after, target in cases:
                self.write(r=f"{front}{written}{after}")
                if length > 16:
                    self.expect("affected d r", status=1, err=f"rules byte {len(front)}: Limit\n")
                else:
                    self.expect("affected d r", f"{text}\n{text[1:]}\nx\n", out=f"{target}\n")

    def test_numbers_of_rows(self):
        for count in sizes(5000):
            table = "@version 1\n" + rows_of(range(0x30000, 0x30000 + count), (1 + number % 0x7000 for number in range(count)))
            self.accept(table, "&\U00030000 < x", count=count)

    def test_numbers_of_places_that_have_no_room(self):
        """Letters side by side, and a new one after each: each weight moves by a step more, so the certificate has a run for each."""
        for count in sizes(2500):
            letters = [0x30000 + number for number in range(count)]
            table = "@version 1\n" + rows_of(letters, range(0x1000, 0x1000 + count))
            self.accept(table, "".join(f"&{chr(code)} < {letter(number)}\n" for number, code in enumerate(letters)), count=count)


class PressedDown(ProgramTest):
    """Plans at the end of a level, or below the weight that stays: weights of the base move down."""

    LEVELS = [(1, "<", 0x7FFF), (2, "<<", 0xFFFF), (3, "<<<", 0xFFFF)]

    def expect_plan(self, base, rules, tailored, certificate):
        self.write(t="@version 1\n" + base, d=DATA, r=rules, c="")
        self.expect("tailor t d r c", out="@version 1\n" + tailored)
        self.assertEqual(self.read("c").decode(), certificate)
        self.write(n="@version 1\n" + tailored)
        self.expect("audit t d r n c", out="accepted\n")

    def test_numbers_of_weights(self):
        """A new weight after the last of so many: all of them move by one."""
        for level, sign, last in self.LEVELS:
            for count in sizes(2500 if level == 1 else 150):
                first = last + 1 - count
                rules, runs = f"&{chr(0x30000 + count - 1)} {sign} x", f"{level} {first:04X} {first - 1:04X} {count:04X}\n"
                tailored = rows_at(level, first - 1, count) + f"0078 ; {element(level, last)}\n"
                self.expect_plan(rows_at(level, first, count), rules, tailored, certificate_of(level, runs))

    def test_numbers_of_new_weights(self):
        """So many after the last weight, which moves by as many."""
        for level, sign, last in self.LEVELS:
            for count in sizes(1100 if level == 1 else 150):
                runs = f"{level} {last:04X} {last - count:04X} 0001\n"
                tailored = [(0x61, last - count), *((0xF0000 + number, last - count + 1 + number) for number in range(count))]
                self.expect_plan(
                    f"0061 ; {element(level, last)}\n",
                    "&a" + "".join(f" {sign} {letter(number)}" for number in range(count)),
                    "".join(f"{code:04X} ; {element(level, weight)}\n" for code, weight in tailored),
                    certificate_of(level, runs),
                )

    def test_numbers_of_weights_below_the_one_that_stays(self):
        """Level 2 has 31 places below 0020. The base has a weight at the last of them."""
        for count in range(1, 31):
            below = 0x20 - count
            self.expect_plan(
                "0061 ; [.1C47.0020.0002]\n0062 ; [.1C60.001F.0002]\n",
                "&[before 2]a" + "".join(f" << {letter(number)}" for number in range(count)),
                f"0061 ; [.1C47.0020.0002]\n0062 ; [.1C60.{below - 1:04X}.0002]\n"
                + "".join(f"{0xF0000 + number:04X} ; [.1C47.{below + number:04X}.0002]\n" for number in range(count)),
                f"1 1C47 1C47 0001\n1 1C60 1C60 0001\n2 001F {below - 1:04X} 0001\n{OF_LEVEL_2}{OF_LEVEL_3}",
            )


class Changes(ProgramTest):
    def accept(self, arguments, changes):
        """These changes are found over the files, and the audit accepts them."""
        self.expect(f"changes {arguments} c", out=changes)
        self.write(h=changes)
        self.expect(f"audit-changes {arguments} h c", out="accepted\n")

    def test_numbers_of_letters_that_are_new_or_gone(self):
        """The change is found and accepted, and a line of each stored key is mended. So is the change back."""
        self.write(o=TABLE, d=DATA)
        for count in sizes(20_000):
            letters = range(0x30000, 0x30000 + count)
            self.write(n=TABLE.replace("1C60", "7C60") + rows_of(letters, range(0x1D00, 0x1D00 + count)))
            changes = listed(f"text {code:04X}" for code in letters)
            keys = "1C60 0000 0020 0000 0002\n" * count
            self.accept("o d n d", changes)
            self.expect("rekey --weighting non-ignorable c", keys, out=keys.replace("1C60", "7C60"))
            self.accept("n d o d", changes)
            self.expect("rekey --weighting non-ignorable c", keys.replace("1C60", "7C60"), out=keys)

    def test_numbers_of_rows_and_votes(self):
        """So many rows of one weight have another one in the new table. Each is a vote for this move, and none is listed."""
        self.write(d=DATA)
        head, most = "@version 1\n", 200_000
        old, new = (rows_of(range(0x30000, 0x30000 + most), [weight] * most) for weight in (0x1C60, 0x7C60))
        for count in sorted({*many_sizes(20_000, 60), *sizes(most), most}):
            length = len(old) // most * count
            self.write(o=head + old[:length], n=head + new[:length])
            with self.subTest(count=count):
                self.accept("o d n d", listed([]))
                self.assertEqual(self.read("c").decode(), certificate_of(1, "1 1C60 7C60 0001\n"))

    def test_numbers_of_weights_that_move(self):
        """Each by a step more than the one before it, at all levels. The certificate has a run for each."""
        self.write(d=DATA)
        for count in sizes(2500):
            files, keys = [], []
            for step in 1, 2:
                weights = [[f"{first + number * step:04X}" for first in (0x1, 0x22, 0x4)] for number in range(count)]
                rows = (f"{0x30000 + at:04X} ; [.{p}.0020.0002][.0000.{s}.0002][.0000.0000.{t}]\n" for at, (p, s, t) in enumerate(weights))
                files.append("@version 1\n" + "".join(rows))
                keys.append("".join(key_of(p, f"0020 {s}", f"0002 0002 {t}") for p, s, t in (weights[0], weights[-1])))
            self.write(o=files[0], n=files[1])
            self.accept("o d n d", listed([]))
            self.expect("rekey --weighting non-ignorable c", keys[0], out=keys[1])

    def test_numbers_of_ranges_that_change(self):
        """Of code points that have a class in the new data file alone."""
        for count in sizes(1100):
            codes = range(0xF0000, 0xF0000 + 2 * count, 2)
            self.write(t=TABLE, d="@data 1\n", e="@data 1\n" + "".join(f"ccc {code:04X}..{code:04X} 1\n" for code in codes))
            self.accept("t d t e", listed(f"range {code:04X}..{code:04X}" for code in codes))
            printed = f"{letter(0)}\n{chr(codes[-1])}\n"
            self.expect("affected --changes e h", f"{printed}{letter(1)}\n{chr(codes[-1] + 1)}\n", out=printed)

    def test_numbers_of_texts_and_ranges_that_are_listed(self):
        self.write(d=DATA)
        for count in many_sizes(50_000, 30):
            codes = range(0xF0000, 0xF0000 + 2 * count, 2)
            lines, printed = "".join(f"{chr(code)}\n" for code in (codes[0], codes[-1], codes[-1] + 1)), f"{chr(codes[0])}\n{chr(codes[-1])}\n"
            for changes in [f"text {code:04X}" for code in codes], [f"range {code:04X}..{code:04X}" for code in codes]:
                self.write(x=listed(changes))
                self.expect("affected --changes d x", lines, out=printed)


class StoredKeys(ProgramTest):
    def test_lengths_of_keys_and_lines(self):
        """Keys of so many letters, and lines of so many bytes."""
        self.write(c=certificate_of(1, "1 1C60 7C60 0001\n"))
        for setting in SETTINGS:
            old, new = ("".join(key_in(setting, weight, length, "b") for length in sizes(65_537)) for weight in ("1C60", "7C60"))
            self.expect(f"rekey {setting} c", old, out=new)
        # the key has no weights at levels 2 and 3
        old, new = ("".join(f"{weight}00000000\t{'b' * (length - 13)}\n" for length in sizes(1_048_576) if length > 12) for weight in ("1C60", "7C60"))
        self.expect("rekey --weighting non-ignorable c", old, out=new)

    def test_many_lengths_of_keys(self):
        """Keys of so many letters. A letter has six bytes in a key, and one in its compact key. A mended key has the digits that it had, but for its letters."""
        self.write(t=TABLE, d=DATA, k=BOOK_OF_B, c=certificate_of(1, "1 1C60 7C60 0001\n"))
        lengths = sorted({-(-size // 6) for size in many_sizes(400_000, 200)})
        old, new = ("".join("0000".join(weight * length for weight in (letter, "0020", "0002")) + "\n" for length in lengths) for letter in ("1C60", "7C60"))
        compact = "".join("08" * length + "02\n" for length in lengths)
        self.expect(f"keys --compact k {BY_THREE}", "".join("b" * length + "\n" for length in lengths), out=compact)
        self.expect("compact --weighting non-ignorable k", old, out=compact)
        self.expect("expand --weighting non-ignorable k", compact, out=old)
        self.expect("rekey --weighting non-ignorable c", old, out=new)

    def test_starts_of_books(self):
        """Each weight begins a cell of one of these books, which have 245 starts side by side. All but the last have cells of one weight."""
        for first in range(0x0002, 0x10000, 245):
            starts = range(first, min(first + 245, 0x10000))
            self.write(k="@book 1\n" + "".join(f"1 {it:04X}\n" for it in starts) + "".join(f"4 {it:04X}\n" for it in starts if it < 0xFFFF))
            keys = "".join(f"{weight:04X}0000002000000002\n" for weight in starts[:-1])
            self.expect("compact --weighting non-ignorable k", keys, out="".join(f"{8 + it:02X}02\n" for it in range(len(starts) - 1)))

    def test_numbers_of_runs(self):
        """So many weights of a level move up to its end. The first and the last are those of stored keys."""
        for level, least, last in (1, 0x1, 0x7FFF), (2, 0x21, 0xFFFF), (3, 0x3, 0xFFFF):
            for count in sizes(32_767 if level == 1 else 1100):
                first = last + 1 - count
                self.write(c=certificate_of(level, "".join(f"{level} {least + number:04X} {first + number:04X} 0001\n" for number in range(count))))
                front, after = "0000 " * (level - 1), " 0000" * (3 - level)
                old, new = ("".join(f"{front}{weight:04X}{after}\n" for weight in pair) for pair in ((least, least + count - 1), (first, last)))
                self.expect("rekey --weighting non-ignorable c", old, out=new)
