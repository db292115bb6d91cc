"""`uca compare`: how two texts compare, and at which level they differ."""
from program import A_ACUTE, ACUTE, DATA, DOT_BELOW, NO_WEIGHTS, TABLE, ProgramTest

BY_THREE = ["--weighting", "non-ignorable"]
BY_FOUR = ["--weighting", "shifted"]


class Comparisons(ProgramTest):
    def expect_pairs(self, options, pairs):
        for left, right, printed in pairs:
            self.expect(["compare", *options, "t", "d", "--", left, right], out=printed + "\n")

    def test_two_texts(self):
        self.write(t=TABLE, d=DATA)
        self.expect_pairs(
            BY_THREE,
            [
                ("Aa", "ab", "< 1"),
                ("a", "b", "< 1"),
                ("b", "a", "> 1"),
                ("", "a", "< 1"),
                ("a", "", "> 1"),
                ("", "", "= 0"),
                ("a", "a", "= 0"),
                ("á", "a", "> 2"),
                ("a", "á", "< 2"),
                ("a", "A", "< 3"),
                ("A", "a", "> 3"),
                ("á", "a" + ACUTE, "= 0"),
                ("\u4E00", "\u4E01", "< 1"),
                ("a b", "ab", "< 1"),
                (" " + ACUTE, " ", "> 2"),
            ],
        )
        self.expect_pairs(
            BY_FOUR,
            [
                ("a b", "ab", "< 4"),
                ("ab", "a b", "> 4"),
                (" a", "b", "< 1"),
                (" " + ACUTE, " ", "= 0"),
                ("a", "a", "= 0"),
            ],
        )

    def test_texts_that_weigh_the_same(self):
        self.write(t=TABLE + NO_WEIGHTS, d=DATA)
        self.expect_pairs(BY_THREE, [("a", "a\u0001", "= 0")])
        pairs = [("a", "a\u0001", "< 4"), ("á", "a" + ACUTE, "= 0"), ("a", "b", "< 1")]
        self.expect_pairs([*BY_THREE, "--identical"], pairs)
        self.expect_pairs([*BY_FOUR, "--identical"], [(" " + ACUTE, " ", "> 5")])

    def test_texts_with_a_contraction(self):
        """`a` and an acute accent have one element together, also if a dot below comes between."""
        self.write(t=TABLE + A_ACUTE, d=DATA)
        self.expect_pairs(
            BY_THREE,
            [
                ("á", "a", "> 1"),
                ("á", "b", "< 1"),
                ("a" + ACUTE + DOT_BELOW, "a" + DOT_BELOW + ACUTE, "= 0"),
                ("a" + DOT_BELOW + ACUTE, "á", "> 2"),
                ("a" + DOT_BELOW, "a" + DOT_BELOW + ACUTE, "< 1"),
            ],
        )

    def test_rejected_texts(self):
        """At most 64 accents stand one after another. The left text is judged first."""
        self.write(t=TABLE, d=DATA)
        short, long, later = ACUTE * 64, ACUTE * 65, "a" + ACUTE * 65
        pairs = [
            (long, "a", "left: LongRun at 0"),
            ("a", long, "right: LongRun at 0"),
            (long, long, "left: LongRun at 0"),
            (later, "a", "left: LongRun at 1"),
            (short, later, "right: LongRun at 1"),
            (later, long, "left: LongRun at 1"),
            (long, later, "left: LongRun at 0"),
        ]
        for options in BY_THREE, BY_FOUR:
            self.expect_pairs(options, [(short, short, "= 0")])
            for left, right, said in pairs:
                self.expect(["compare", *options, "t", "d", left, right], status=1, err=said + "\n")
