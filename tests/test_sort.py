"""`uca sort`: lines in the order of their keys. Lines of equal keys keep their order."""
import itertools
import random

from program import ACUTE, DATA, NO_WEIGHTS, TABLE, ProgramTest

BY_THREE = "sort --weighting non-ignorable t d"
BY_FOUR = "sort --weighting shifted t d"

# Letters with their weights of each level, as a digit or a letter that is greater if the weight is. The last two are equivalent.
LETTERS = [
    (" ", "1", "2", "2"),
    ("a", "a", "2", "2"),
    ("A", "a", "2", "8"),
    ("b", "b", "2", "2"),
    ("á", "a", "24", "22"),
    ("a" + ACUTE, "a", "24", "22"),
]


class Sort(ProgramTest):
    def expect_sorted(self, arguments, cases):
        for lines, out in cases:
            self.expect(arguments, lines, out=out)

    def test_few_lines(self):
        """A last line without LF gets one."""
        self.write(t=TABLE, d=DATA)
        self.expect_sorted(
            BY_THREE,
            [
                ("b\ná\na\nb\n", "a\ná\nb\nb\n"),
                ("", ""),
                ("\n", "\n"),
                ("a\n\n", "\na\n"),
                ("a", "a\n"),
                ("b\na", "a\nb\n"),
                ("a\nb", "a\nb\n"),
                ("A\na\nA\na\n", "a\na\nA\nA\n"),
                (f"a{ACUTE}\ná\n", f"a{ACUTE}\ná\n"),
                (f"á\na{ACUTE}\n", f"á\na{ACUTE}\n"),
                (f"b\ná\na{ACUTE}\na\ná\n", f"a\ná\na{ACUTE}\ná\nb\n"),
                (f" {ACUTE}\n \n", f" \n {ACUTE}\n"),
                ("b\nab\na b\naa\n", "a b\naa\nab\nb\n"),
            ],
        )
        # A space counts at the fourth level alone.
        self.expect_sorted(
            BY_FOUR,
            [
                (f" {ACUTE}\n \n", f" {ACUTE}\n \n"),
                (f" \n {ACUTE}\n", f" \n {ACUTE}\n"),
                ("b\nab\na b\naa\n", "aa\na b\nab\nb\n"),
            ],
        )

    def test_lines_that_weigh_the_same(self):
        """By their code points only lines that are canonically equivalent keep their order."""
        self.write(t=TABLE + NO_WEIGHTS, d=DATA)
        lines = f"b\na\u0001\na\ná\na{ACUTE}\n"
        self.expect(BY_THREE, lines, out=f"a\u0001\na\ná\na{ACUTE}\nb\n")
        self.expect(f"{BY_THREE} --identical", lines, out=f"a\na\u0001\ná\na{ACUTE}\nb\n")
        self.expect(f"{BY_FOUR} --identical", f" {ACUTE}\n \n", out=f" \n {ACUTE}\n")

    def test_rejected_lines(self):
        """Nothing is printed."""
        self.write(t=TABLE, d=DATA)
        cases = [
            (b"b\na\n\xff\n", 3),
            (b"b\na\n\xff", 3),
            (b"b\na\na\xffa\nb\na\n", 3),
            (b"\n\n\xc3\n\xa1\n", 3),
            (b"a\n\nb\xff\n\xfe\n", 3),
            (b"\xff\na\n", 1),
            (b"\xff", 1),
        ]
        for lines, number in cases:
            self.expect(BY_THREE, lines, status=1, err=f"input line {number}: Utf8\n")

    def test_long_runs_of_accents(self):
        """At most 64 accents stand one after another. A later line that is not UTF-8 is not looked at."""
        self.write(t=TABLE, d=DATA)
        short, long = ACUTE * 64, ACUTE * 65
        self.expect(BY_THREE, f"b\na\na{short}\n", out=f"a\na{short}\nb\n")
        for before, said in ("", "input line 1: LongRun at 0"), ("b\na\na", "input line 3: LongRun at 1"), ("b\n", "input line 2: LongRun at 0"):
            for after in b"\n", b"\n\xff\n":
                self.expect(BY_THREE, (before + long).encode() + after, status=1, err=said + "\n")

    def test_a_long_line(self):
        self.write(t=TABLE, d=DATA)
        for length, kind in (4_194_304, "Utf8"), (4_194_305, "TooLong"):
            self.expect(BY_THREE, b"a\n" + b"\xff" * length + b"\n", status=1, err=f"input line 2: {kind}\n")

    def test_lines_about_the_size_of_what_is_printed_at_a_time(self):
        self.write(t=TABLE, d=DATA)
        for size in 12_345, 16_383, 16_384, 16_385, 32_769:
            line = "a" * (size - 1) + "\n"
            self.expect(BY_THREE, line + "\n", out="\n" + line)

    def test_many_lines(self):
        """All lines of four letters, by three levels."""
        self.write(t=TABLE, d=DATA)
        lines = ["".join(letters) for letters in itertools.product(*[[it[0] for it in LETTERS]] * 4)]
        keys = {
            "".join(it[0] for it in letters): [[it[level] for it in letters] for level in (1, 2, 3)]
            for letters in itertools.product(LETTERS, repeat=4)
        }
        joined = {line: ["".join(level) for level in key] for line, key in keys.items()}
        for seed in range(4):
            random.Random(seed).shuffle(lines)
            out = sorted(lines, key=lambda line: joined[line])
            self.expect(BY_THREE, "\n".join(lines), out="".join(f"{line}\n" for line in out))
