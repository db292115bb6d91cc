"""Which of several causes is named, where rules and certificates are at their limits. docs/FORMATS.md has the order of causes."""
from program import DATA, ProgramTest

# How many relations rules have at most, and how many runs a level of a certificate has.
MOST_RELATIONS, MOST_RUNS = 5000, 0xFFFF


def letter(number):
    """A code point of a private use plane, which has four bytes and decomposes to itself."""
    return chr(0xF0000 + number)


def letters(count, first=0):
    return "".join(letter(first + number) for number in range(count))


class RulesTest(ProgramTest):
    def setUp(self):
        super().setUp()
        self.write(d=DATA)

    def expect_said(self, rules, said, lines="", printed=""):
        """What is said of rules, as `Syntax at 5`. If they are accepted, that is an empty text, and some lines are printed."""
        self.write(r=rules)
        kind, _, offset = said.partition(" at ")
        self.expect("affected d r", lines, status=1 if said else 0, out=printed, err=f"rules byte {offset}: {kind}\n" if said else "")


class StrengthsAtTheLimit(RulesTest):
    """After `[before n]` the sign has another strength. If it is the sign of relation 5,001, that is the first cause."""

    # the signs, those of other strengths than a reset has, and those of its own
    OTHERS = {1: ["<<", "<<<", "="], 2: ["<", "<<<", "="], 3: ["<", "<<", "="]}
    OWN = {1: "<", 2: "<<", 3: "<<<"}

    def rules_of(self, count, more):
        """As many relations, in five bytes each after the two of the first reset, and what follows. The offset of its sign is last."""
        before = "&a" + "".join(f"<{letter(number)}" for number in range(count))
        return before + more, 2 + 5 * count + len("&[before 1]b")

    def test_the_last_relation(self):
        for n, signs in self.OTHERS.items():
            for sign in signs:
                for star in "", "*":
                    rules, at = self.rules_of(MOST_RELATIONS - 1, f"&[before {n}]b{sign}{star}x")
                    self.expect_said(rules, f"BeforeStrength at {at}")

    def test_one_relation_more(self):
        for n, signs in self.OTHERS.items():
            for sign in [*signs, self.OWN[n]]:
                for more in "x", "*x", "":
                    rules, at = self.rules_of(MOST_RELATIONS, f"&[before {n}]b{sign}{more}")
                    self.expect_said(rules, f"Limit at {at}")

    def test_what_comes_before_both(self):
        """Four `<`, and a character where no sign can begin."""
        for more in "<<<<x", "!", "x!":
            rules, at = self.rules_of(MOST_RELATIONS, f"&[before 2]b{more}")
            self.expect_said(rules, f"Syntax at {at + more.startswith('x')}")

    def test_signs_of_its_own(self):
        """Relation 5,000 is accepted. A second target of its starred text is relation 5,001, and is at its own position."""
        for n, sign in self.OWN.items():
            rules, at = self.rules_of(MOST_RELATIONS - 1, f"&[before {n}]b{sign}x")
            self.expect_said(rules, "", "x\ny\n", "x\n")
            self.expect_said(rules + "<y", f"Limit at {at + len(sign) + 1}")
            rules, at = self.rules_of(MOST_RELATIONS - 1, f"&[before {n}]b{sign}*xy")
            self.expect_said(rules, f"Limit at {at + len(sign) + 2}")


class HeldTexts(RulesTest):
    """5,000 relations with 10,000 anchors and expansions, each with a code point of its own. Only the last target changes."""

    MARK = "\U00100000"

    def held(self, number):
        """The anchor of an even number, and the expansion of an odd one."""
        return letter(number)

    def rules_with(self, last, filler=""):
        """The rules, and the byte offset of the last target. The filler stands before each anchor and each expansion."""
        parts = []
        for number in range(MOST_RELATIONS):
            target = chr(ord(self.MARK) + number) if number + 1 < MOST_RELATIONS else last
            parts.append((f"&{filler}{self.held(2 * number)}<", f"{target}/{filler}{self.held(2 * number + 1)}"))
        rules = "".join(front + rest for front, rest in parts)
        return rules, len((rules[: -len(parts[-1][1])]).encode())

    def test_a_last_target_that_no_text_has(self):
        rules, _ = self.rules_with("x")
        self.assertEqual(len(rules.encode()), 15 * MOST_RELATIONS - 3)
        lines = f"x\n{self.MARK}\n{self.held(0)}\n{self.held(9999)}\n"
        self.expect_said(rules, "", lines, f"x\n{self.MARK}\n")

    def test_a_last_target_that_one_text_has(self):
        """The first anchor and expansion, some between, and those of the last relation itself."""
        for number in 0, 1, 4999, 5000, 9997, 9998, 9999:
            rules, at = self.rules_with(self.held(number))
            self.assertEqual(at, 15 * (MOST_RELATIONS - 1) + 6)
            self.expect_said(rules, f"LateTarget at {at}")

    def test_long_texts(self):
        """15 letters before each: a target that has all of them before a mark occurs in one text only, and with another mark in none."""
        filler = "abcdefghijklmno"
        for number in 0, 9999:
            rules, at = self.rules_with(filler + self.held(number), filler)
            self.expect_said(rules, f"LateTarget at {at}")
        last = filler + "p"
        self.expect_said(self.rules_with(last, filler)[0], "", f"{last}\n{filler}\n", f"{last}\n")

    def test_a_text_that_is_an_earlier_target(self):
        """An anchor that an earlier relation placed is not held, so what occurs in it may still be a target. All others are held."""
        before, _ = self.rules_with("x")
        before = before.replace(self.MARK, "xy", 1).rsplit("&", 1)[0]
        at = len(before.encode())
        self.expect_said(before + "&xy<y", "", "y\nxy\n", "y\nxy\n")
        self.expect_said(before + "&xz<z", f"LateTarget at {at + 4}")
        self.expect_said(before + "&xy<xy", f"DuplicateTarget at {at + 4}")
        self.expect_said(before + f"&xy<{self.held(1)}", f"LateTarget at {at + 4}")


class LongQuotedPieces(RulesTest):
    """A starred text whose targets are in quotes: each is at its own character, and they are judged when the text has ended."""

    FRONT = "&a<*'"

    def place(self, number):
        """The byte offset of a target, counted from 1, after targets of four bytes."""
        return len(self.FRONT) + 4 * (number - 1)

    def test_5000_targets(self):
        rules = self.FRONT + letters(MOST_RELATIONS) + "'"
        lines = "".join(f"{letter(number)}\n" for number in range(MOST_RELATIONS))
        self.expect_said(rules, "", f"a\n{lines}{letter(MOST_RELATIONS)}\n", lines)

    def test_one_target_more(self):
        at = self.place(MOST_RELATIONS + 1)
        for more in letter(MOST_RELATIONS), letter(0), "a", "''", "-", "\\":
            self.expect_said(f"{self.FRONT}{letters(MOST_RELATIONS)}{more}'", f"Limit at {at}")
        # a piece of 1,048,004 bytes
        piece = letters(MOST_RELATIONS + 1) * 52 + letters(1949)
        self.assertEqual(len(piece.encode()), 1_048_004)
        self.expect_said(f"{self.FRONT}{piece}'", f"Limit at {at}")

    def test_the_last_target(self):
        """It is that of an earlier relation, it is late, or it is accepted. An apostrophe is at the first of its two."""
        at = self.place(MOST_RELATIONS)
        cases = [
            (letter(0), f"DuplicateTarget at {at}"),
            (letter(MOST_RELATIONS - 2), f"DuplicateTarget at {at}"),
            ("a", f"LateTarget at {at}"),
            ("''", ""),
            ("-", ""),
            ("\\", ""),
            ("&", ""),
            (" ", ""),
        ]
        for last, said in cases:
            rules = f"{self.FRONT}{letters(MOST_RELATIONS - 1)}{last}'"
            line = f"{last[:1]}\n"
            self.expect_said(rules, said, line, "" if said else line)

    def test_the_first_target_with_a_cause(self):
        """Three wrong targets: the first of them is named."""
        for first, kind in ("a", "LateTarget"), (letter(0), "DuplicateTarget"):
            wrong = f"{self.FRONT}{letters(2500)}{first}{letters(2500, 2500)}{letter(1)}a'"
            self.expect_said(wrong, f"{kind} at {self.place(2501)}")

    def test_pieces_without_an_end(self):
        """The apostrophe is named, whatever the targets are: they have not been judged."""
        for inside in letters(MOST_RELATIONS), letters(MOST_RELATIONS + 1), letters(2) * 2500, "a" * 5001, letters(10) + "''":
            self.expect_said(self.FRONT + inside, f"Syntax at {len(self.FRONT) - 1}")

    def test_what_follows_the_piece(self):
        """A range from its last letter, a second piece, and what ends the text."""
        piece = f"{self.FRONT}{letters(MOST_RELATIONS - 2)}"
        end = len(piece.encode())
        cases = [
            ("b'-c", ""),
            ("b'-d", f"Limit at {end + 3}"),
            ("b'-e", f"Limit at {end + 2}"),
            ("b'c", ""),
            ("b''c", f"Syntax at {len(self.FRONT) - 1}"),
            ("b'\\'", ""),
            ("b'\\'d", f"Limit at {end + 4}"),
            ("b'''", ""),
            ("b''''", f"Syntax at {len(self.FRONT) - 1}"),
            ("b'/c", f"Syntax at {end + 2}"),
            ("b'<c", ""),
            ("b'<c<d", f"Limit at {end + 4}"),
            ("b'-b", f"Syntax at {end + 2}"),
            ("b'!", f"Syntax at {end + 2}"),
        ]
        for more, said in cases:
            self.expect_said(piece + more, said)


class Certificates(ProgramTest):
    """A level of a certificate at its limit. `rekey` reads nothing but the certificate and its input."""

    def runs(self, level, count):
        return "".join(f"{level} {weight:04X} {weight:04X} 0001\n" for weight in range(1, count + 1))

    def expect_said(self, certificate, said):
        """What is said of a certificate; an empty text where it is accepted. Then a key with these weights stays as it is."""
        self.write(c=certificate)
        key = "0000 0020 0000 0002\n"
        self.expect(
            "rekey --weighting non-ignorable c",
            key,
            status=1 if said else 0,
            out="" if said else key,
            err=f"certificate {said}\n" if said else "",
        )

    def test_65_535_runs(self):
        self.expect_said(self.runs(2, MOST_RUNS) + "3 0002 0002 0001\n", "")
        self.expect_said("2 0020 0020 0001\n" + self.runs(3, MOST_RUNS), "")

    def test_one_run_more(self):
        """The line after 65,535 runs of level 2: `Line` comes first, then `Order`, `Limit`, and last what the runs say."""
        full, line = self.runs(2, MOST_RUNS), MOST_RUNS + 1
        cases = [
            ("2 FFFF FFFF 0001\n", f"line {line}: Limit"),
            ("2 0000 0000 0000\n", f"line {line}: Limit"),
            ("2 FFFF FFFF 0001", f"line {line}: Line"),
            ("2 FFFF FFFF 00001\n", f"line {line}: Line"),
            ("1 0001 0001 0001\n", f"line {line}: Order"),
            ("1 0001 0001 0001", f"line {line}: Line"),
            ("3 0002 0002 0001\n2 0001 0001 0001\n", f"line {line + 1}: Order"),
            ("3 0002 0002 0001\n2 0001 0001 0001", f"line {line + 1}: Line"),
            ("3 0002 0002 0001\n1 0001 0001 0001\n", f"line {line + 1}: Order"),
            ("2 FFFF FFFF 0001\n1 0001 0001 0001\n", f"line {line}: Limit"),
            ("3 0000 0000 0000\n", f"line {line}: Map Empty"),
            ("3 0002 0003 0001\n", f"line {line + 1}: Map Fixed"),
        ]
        for more, said in cases:
            self.expect_said(full + more, said)

    def test_a_level_that_is_full_and_left(self):
        """Level 1 has 65,535 runs, and 32,767 of them are within its weights. A line of it after one of level 2 is out of order."""
        full = self.runs(1, MOST_RUNS)
        self.expect_said(full + "1 0001 0001 0001\n", f"line {MOST_RUNS + 1}: Limit")
        self.expect_said(full + "2 0020 0020 0001\n1 0001 0001 0001\n", f"line {MOST_RUNS + 2}: Order")
        self.expect_said(full + "2 0020 0020 0001\n3 0002 0002 0001\n", "line 32768: Map OutOfRange")
