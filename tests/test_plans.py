"""`uca tailor`: plans that were worked out by hand, from docs/TAILORINGS.md. Each is accepted by the audit."""
from program import A_ACUTE, DATA, TABLE, ProgramTest
from test_tailor import UNMOVED


def changed(text, *changes):
    """A text with some parts replaced. It has each of them once."""
    for old, new in changes:
        if text.count(old) != 1:
            raise ValueError(f"{old} is not there once")
        text = text.replace(old, new)
    return text


class PlansTest(ProgramTest):
    def expect_plan(self, base, rules, tailored, certificate):
        """The plan is this one, and the audit accepts it."""
        self.write(t=base, d=DATA, r=rules, c="")
        self.expect("tailor t d r c", out=tailored)
        self.assertEqual(self.read("c").decode(), certificate)
        self.write(n=tailored)
        self.expect("audit t d r n c", out="accepted\n")

    def expect_no_room(self, base, rules, level):
        self.write(t=base, d=DATA, r=rules, c="old")
        self.expect("tailor t d r c", status=1, err=f"tailor: NoRoom {level}\n")
        self.assertEqual(self.read("c"), b"old")


class WorkedPlans(PlansTest):
    """Changes of the base, rules, changes of the tailored table, its new rows, and changes of the certificate."""

    def expect_each(self, cases):
        for base, rules, rows, added, runs in cases:
            new_rows = "".join(row + "\n" for row in added)
            self.expect_plan(changed(TABLE, *base), rules, changed(TABLE, *base, *rows) + new_rows, changed(UNMOVED, *runs))

    def test_anchors_that_are_replaced_base_keys(self):
        """A later relation reads the new row of `b`. The old weight of `b` stays listed."""
        self.expect_each(
            [
                # `c` comes between `a` and `b`, so `b` has the second weight after `a`
                (
                    [],
                    "&a < b &A < c &b <<< d",
                    [("1C60.0020", "1C49.0020")],
                    ["0063 ; [.1C48.0020.0002]", "0064 ; [.1C49.0020.0003]"],
                    [],
                ),
                # `b` before a letter that gets the new weight, and in an expansion
                (
                    [],
                    "&a < b &bA < c / b",
                    [("1C60.0020", "1C49.0020")],
                    ["0063 ; [.1C49.0020.0002][.1C48.0020.0002][.1C49.0020.0002]"],
                    [],
                ),
                # `b` comes directly before `a`, at the first position of level 1 above the space
                (
                    [],
                    r"&\u0020 < x &[before 1]a < b << c &b < d",
                    [("1C60.0020", "020B.0020")],
                    ["0078 ; [*020A.0020.0002]", "0063 ; [.020B.0021.0002]", "0064 ; [.020C.0020.0002]"],
                    [],
                ),
                # an accent is replaced by a letter, and is no accent in an anchor after that
                (
                    [],
                    r"&a < \u0301 &b\u0301 << x",
                    [("0301 ; [.0000.0024.0002]", "0301 ; [.1C48.0020.0002]")],
                    ["0078 ; [.1C60.0020.0002][.1C48.0021.0002]"],
                    [],
                ),
            ]
        )

    def test_weights_of_levels_2_and_3_that_move(self):
        self.expect_each(
            [
                # level 2, up: the weight after 0024 is taken
                (
                    [],
                    r"&\u0301 << x",
                    [("0000.0025.0002", "0000.0026.0002")],
                    ["0078 ; [.0000.0025.0002]"],
                    [("2 0024 0024 0002", "2 0024 0024 0001\n2 0025 0026 0001")],
                ),
                # level 2, up by two: the accent after that does not have to move
                (
                    [("002C", "0028")],
                    r"&\u0301 << x << y",
                    [("0000.0025.0002", "0000.0027.0002")],
                    ["0078 ; [.0000.0025.0002]", "0079 ; [.0000.0026.0002]"],
                    [("2 0024 0024 0002\n2 002C 002C", "2 0024 0024 0001\n2 0025 0027 0001\n2 0028 0028")],
                ),
                # level 2, down: 001F is the last weight below 0020
                (
                    [("1C60.0020", "1C60.001F")],
                    "&[before 2]a << x",
                    [("1C60.001F", "1C60.001E")],
                    ["0078 ; [.1C47.001F.0002]"],
                    [("2 0020", "2 001F 001E 0001\n2 0020")],
                ),
                # level 2, down: FFFF is the last weight of all
                (
                    [("0025", "FFFE"), ("002C", "FFFF")],
                    r"&\u0300 << x",
                    [("FFFE", "FFFD")],
                    ["0078 ; [.0000.FFFE.0002]"],
                    [("2 0024 0024 0002\n2 002C 002C", "2 0024 0024 0001\n2 FFFE FFFD 0001\n2 FFFF FFFF")],
                ),
                # level 3, up by two
                (
                    [("0020.0008", "0020.0003")],
                    "&a <<< x <<< y",
                    [("0020.0003", "0020.0005")],
                    ["0078 ; [.1C47.0020.0003]", "0079 ; [.1C47.0020.0004]"],
                    [("3 0008 0008", "3 0003 0005")],
                ),
                # level 3, down
                (
                    [("0020.0008", "0020.FFFF")],
                    "&A <<< x",
                    [("0020.FFFF", "0020.FFFE")],
                    ["0078 ; [.1C47.0020.FFFF]"],
                    [("3 0008 0008", "3 FFFF FFFE")],
                ),
                # all levels at a time
                (
                    [("1C60", "1C48"), ("0020.0008", "0020.0003")],
                    r"&a < x &\u0301 << y &a <<< z",
                    [("1C48", "1C49"), ("0020.0003", "0020.0004"), ("0000.0025.0002", "0000.0026.0002")],
                    ["0078 ; [.1C48.0020.0002]", "0079 ; [.0000.0025.0002]", "007A ; [.1C47.0020.0003]"],
                    [
                        ("1 1C60 1C60", "1 1C48 1C49"),
                        ("2 0024 0024 0002", "2 0024 0024 0001\n2 0025 0026 0001"),
                        ("3 0008 0008", "3 0003 0004"),
                    ],
                ),
            ]
        )

    def test_variables(self):
        """A target of a variable anchor is variable. All variable primaries stay together."""
        self.expect_each(
            [
                # before the space, which is the first weight of level 1; after it at level 3, and an anchor that is new
                (
                    [],
                    r"&[before 1]\u0020 < x &\u0020 <<< y &x << z",
                    [],
                    ["0078 ; [*0001.0020.0002]", "0079 ; [*0209.0020.0003]", "007A ; [*0001.0021.0002]"],
                    [],
                ),
                # after the space, where `a` has the next weight: both letters move
                (
                    [("0209", "1C46")],
                    r"&\u0020 < x",
                    [("1C47.0020.0002", "1C48.0020.0002"), ("1C47.0020.0008", "1C48.0020.0008")],
                    ["0078 ; [*1C47.0020.0002]"],
                    [("1 0209 0209", "1 1C46 1C46"), ("1 1C47 1C47", "1 1C47 1C48")],
                ),
                # a base key becomes variable
                ([], r"&\u0020 < b", [(".1C60", "*020A")], [], []),
                # the space becomes a letter, and the anchor of a later relation
                (
                    [],
                    r"&a < \u0020 &\u0020 << x",
                    [("0020 ; [*0209.0020.0002]", "0020 ; [.1C48.0020.0002]")],
                    ["0078 ; [.1C48.0021.0002]"],
                    [],
                ),
                # variable elements before the one with the new weight, and in an expansion
                (
                    [],
                    r"&\u0020a < x / \u0020\u0301",
                    [],
                    ["0078 ; [*0209.0020.0002][.1C48.0020.0002][*0209.0020.0002][.0000.0024.0002]"],
                    [],
                ),
            ]
        )


class WorkedTailoring(PlansTest):
    """A contraction as an anchor, a capital, a relation before, a variable anchor, and a text in which two marks change places."""

    BASE = TABLE + A_ACUTE
    RULES = "&á < x <<< X &[before 2]b << y &\\u0020 <<< z &a\\u0323\\u0301 << w"
    TAILORED = BASE + """0078 ; [.1C51.0020.0002]
0058 ; [.1C51.0020.0004]
0079 ; [.1C60.0001.0002]
007A ; [*0209.0020.0003]
0077 ; [.1C50.0020.0002][.0000.002D.0002]
"""
    CERTIFICATE = changed(UNMOVED, ("1 1C60", "1 1C50 1C50 0001\n1 1C60"))

    def test_the_plan(self):
        self.expect_plan(self.BASE, self.RULES, self.TAILORED, self.CERTIFICATE)

    def test_keys(self):
        """A text of all targets, and one in which the contraction has a mark between its two code points."""
        self.expect_plan(self.BASE, self.RULES, self.TAILORED, self.CERTIFICATE)
        lines = "xXyzw\na\u0323\u0301 b\n"
        self.expect(
            "keys --weighting non-ignorable n d",
            lines,
            out="1C51 1C51 1C60 0209 1C50 0000 0020 0020 0001 0020 0020 002D 0000 0002 0004 0002 0003 0002 0002\n"
            "1C50 0209 1C60 0000 0020 002C 0020 0020 0000 0002 0002 0002 0002\n",
        )
        self.expect(
            "keys --weighting shifted n d",
            lines,
            out="1C51 1C51 1C60 1C50 0000 0020 0020 0001 0020 002D 0000 0002 0004 0002 0002 0002 0000 FFFF FFFF FFFF 0209 FFFF FFFF\n"
            "1C50 1C60 0000 0020 002C 0020 0000 0002 0002 0002 0000 FFFF FFFF 0209 FFFF\n",
        )

    def test_relations(self):
        """Each anchor and its target, and the two that come in between."""
        self.expect_plan(self.BASE, self.RULES, self.TAILORED, self.CERTIFICATE)
        pairs = [
            ("á", "x", "< 1"),
            ("x", "X", "< 3"),
            ("y", "b", "< 2"),
            (" ", "z", "< 3"),
            ("a\u0323\u0301", "w", "< 2"),
            ("á", "w", "< 2"),
            ("w", "x", "< 1"),
            ("b", "X", "> 1"),
        ]
        for left, right, printed in pairs:
            self.expect(["compare", "--weighting", "non-ignorable", "n", "d", left, right], out=printed + "\n")


class Room(PlansTest):
    """Levels 2 and 3, whose positions below and above the weight that stays are all taken, or all but one."""

    # an element with a weight of each level
    ELEMENTS = {2: "[.1000.{:04X}.0002]", 3: "[.1000.0020.{:04X}]"}

    def rows(self, level, first, last, by=0):
        """The letter `a`, which has the weights that stay, and a row of each weight, moved by so much. Its key is U+30000 plus the old weight."""
        element = self.ELEMENTS[level]
        rows = [f"{0x30000 + weight:04X} ; {element.format(weight + by)}\n" for weight in range(first, last + 1)]
        return "@version 1\n0061 ; [.1000.0020.0002]\n" + "".join(rows)

    @staticmethod
    def certificate(two="2 0020 0020 0001\n", three="3 0002 0002 0001\n"):
        return "1 1000 1000 0001\n" + two + three

    def expect_moved(self, level, first, last, by, rules, weight, **runs):
        """All weights of the base but the one that stays move by so much, and the target has this weight."""
        target = f"0078 ; {self.ELEMENTS[level].format(weight)}\n"
        self.expect_plan(self.rows(level, first, last), rules, self.rows(level, first, last, by) + target, self.certificate(**runs))

    def test_above(self):
        """Level 2 has 65,503 positions above 0020, and level 3 has 65,533 above 0002. The weights of the base move up, or down."""
        self.expect_moved(2, 0x21, 0xFFFE, 1, "&a << x", 0x0021, two="2 0020 0020 0001\n2 0021 0022 FFDE\n")
        self.expect_moved(2, 0x22, 0xFFFF, 0, "&a << x", 0x0021, two="2 0020 0020 0001\n2 0022 0022 FFDE\n")
        self.expect_moved(2, 0x22, 0xFFFF, -1, r"&\U0003FFFF << x", 0xFFFF, two="2 0020 0020 0001\n2 0022 0021 FFDE\n")
        self.expect_moved(3, 0x03, 0xFFFE, 1, "&a <<< x", 0x0003, three="3 0002 0002 0001\n3 0003 0004 FFFC\n")
        self.expect_moved(3, 0x04, 0xFFFF, -1, r"&\U0003FFFF <<< x", 0xFFFF, three="3 0002 0002 0001\n3 0004 0003 FFFC\n")

    def test_below(self):
        """Level 2 has 31 positions below 0020, and level 3 has one below 0002."""
        self.expect_moved(2, 0x01, 0x1E, 0, "&[before 2]a << x", 0x001F, two="2 0001 0001 001E\n2 0020 0020 0001\n")
        self.expect_moved(2, 0x02, 0x1F, -1, "&[before 2]a << x", 0x001F, two="2 0002 0001 001E\n2 0020 0020 0001\n")
        self.expect_moved(2, 0x01, 0x1E, 1, r"&[before 2]\U00030001 << x", 0x0001, two="2 0001 0002 001E\n2 0020 0020 0001\n")

    def test_no_room(self):
        """One weight more than positions. The other side of the level is empty, so what counts is one side alone."""
        cases = [
            (2, 0x21, 0xFFFF, "&a << x"),
            (2, 0x21, 0xFFFF, r"&\U0003FFFF << x"),
            (2, 0x21, 0xFFFF, r"&[before 2]\U00030021 << x"),
            (2, 0x01, 0x1F, "&[before 2]a << x"),
            (2, 0x01, 0x1F, r"&\U0003001F << x"),
            (2, 0x01, 0x1F, r"&[before 2]\U00030001 << x"),
            (3, 0x03, 0xFFFF, "&a <<< x"),
            (3, 0x03, 0xFFFF, r"&\U0003FFFF <<< x"),
            (3, 0x01, 0x01, "&[before 3]a <<< x"),
            (3, 0x01, 0x01, r"&\U00030001 <<< x"),
            (3, 0x01, 0x01, r"&[before 3]\U00030001 <<< x"),
        ]
        for level, first, last, rules in cases:
            self.expect_no_room(self.rows(level, first, last), rules, level)

    def test_sides(self):
        """A side that is full does not stop a new weight on the other side. A replaced row leaves its weight in the list."""
        self.expect_moved(2, 0x01, 0x1F, 0, "&a << x", 0x0021, two="2 0001 0001 0020\n")
        self.expect_moved(3, 0x01, 0x01, 0, "&a <<< x", 0x0003, three="3 0001 0001 0002\n")
        self.expect_moved(3, 0x03, 0xFFFF, 0, "&[before 3]a <<< x", 0x0001, three="3 0002 0002 FFFE\n")
        self.expect_no_room(self.rows(2, 0x01, 0x1F), r"&a < \U00030001 &[before 2]a << x", 2)

    def test_the_lowest_level(self):
        """Two levels without room: the lower one is named. So it is where the relation of the higher one comes first."""
        more = "".join(chr(0xF0000 + number) for number in range(32))
        self.expect_no_room(TABLE, f"&[before 2]a <<* {more} &[before 3]a <<< x <<< y", 2)
        self.expect_no_room(TABLE, f"&[before 3]a <<< x <<< y &[before 2]a <<* {more}", 2)
        self.expect_no_room(TABLE, f"&[before 3]a <<< x <<< y &[before 2]a <<* {more[1:]}", 3)


class LargePlan(PlansTest):
    """652 relations over 300 letters that are apart, 100 letters at the end of level 1, and a variable space."""

    APART, AT_END, AFTER_END = 300, 100, 50

    @staticmethod
    def old_letter(number):
        return chr(0x30000 + number)

    @staticmethod
    def end_letter(number):
        return chr(0x40000 + number)

    @staticmethod
    def before(number):
        return chr(0xF0000 + number)

    @staticmethod
    def after(number):
        return chr(0xF1000 + number)

    @staticmethod
    def after_end(number):
        return chr(0xF2000 + number)

    @staticmethod
    def table(rows):
        """A table of letters and their primaries. The space and its target are variable."""
        lines = [f"{ord(text):04X} ; [{'*' if text in ' v' else '.'}{weight:04X}.0020.0002]\n" for text, weight in rows]
        return "@version 1\n@variable shifted\n" + "".join(lines)

    def base_rows(self):
        yield " ", 0x0100
        for number in range(self.APART):
            yield self.old_letter(number), 0x1000 + 0x10 * number
        for number in range(self.AT_END):
            yield self.end_letter(number), 0x8000 - self.AT_END + number

    def rules(self):
        """Letters before and after each letter, a variable target, letters after the last one, and one among the last."""
        yield from (f"&[before 1]{self.old_letter(number)}<{self.before(number)}" for number in range(self.APART))
        yield from (f"&{self.old_letter(number)}<{self.after(number)}\n" for number in range(self.APART))
        yield "&' '<v"
        yield from (f"&{self.end_letter(self.AT_END - 1)}<{self.after_end(number)}" for number in range(self.AFTER_END))
        yield f"&{self.end_letter(49)}<w"

    def tailored_rows(self):
        """A letter keeps its weight if it is apart. The last letters are pressed down by those that come after them: 51, or 50."""
        yield from ((text, weight) for text, weight in self.base_rows() if weight < 0x7000)
        yield from ((self.end_letter(number), 0x8000 - self.AT_END + number - 51) for number in range(50))
        yield from ((self.end_letter(number), 0x8000 - self.AT_END + number - 50) for number in range(50, self.AT_END))
        # the first has the space's target before it, and each other one a letter and its target
        yield self.before(0), 0x0102
        yield from ((self.before(number), 0x1000 + 0x10 * (number - 1) + 2) for number in range(1, self.APART))
        yield from ((self.after(number), 0x1000 + 0x10 * number + 1) for number in range(self.APART))
        yield "v", 0x0101
        # each later one is nearer to the last letter
        yield from ((self.after_end(number), 0x7FFF - number) for number in range(self.AFTER_END))
        yield "w", 0x8000 - self.AT_END + 49 - 50

    def certificate(self):
        yield "1 0100 0100 0001\n"
        yield from (f"1 {0x1000 + 0x10 * number:04X} {0x1000 + 0x10 * number:04X} 0001\n" for number in range(self.APART))
        yield "1 7F9C 7F69 0032\n1 7FCE 7F9C 0032\n2 0020 0020 0001\n3 0002 0002 0001\n"

    def in_order(self):
        """All letters in the order that the rules ask for. Variable ones come first: they have no weight at levels 1 to 3."""
        yield from [" ", "v"]
        for number in range(self.APART):
            yield from [self.before(number), self.old_letter(number), self.after(number)]
        yield from map(self.end_letter, range(50))
        yield "w"
        yield from map(self.end_letter, range(50, self.AT_END))
        yield from map(self.after_end, reversed(range(self.AFTER_END)))

    def test_the_plan(self):
        base, rules = self.table(self.base_rows()), "".join(self.rules())
        self.assertEqual(rules.count("<"), 652)
        self.expect_plan(base, rules, self.table(self.tailored_rows()), "".join(self.certificate()))
        lines = [f"{text}\n" for text in self.in_order()]
        self.expect("sort n d", "".join(reversed(lines)), out="".join(lines))
