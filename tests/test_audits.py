"""`uca audit` and `uca tailor`: verdicts, plans, and plans at the limits."""
import os
import re

from program import DATA, TABLE, ProgramTest
from readers import read_table

HERE = os.path.dirname(os.path.realpath(__file__))

# The files of the first audit, which is accepted.
RULES = "&a < x"
TAILORED = TABLE + "0078 ; [.1C48.0020.0002]\n"
CERTIFICATE = """1 0209 0209 0001
1 1C47 1C47 0001
1 1C60 1C60 0001
2 0020 0020 0001
2 0024 0024 0002
2 002C 002C 0001
3 0002 0002 0001
3 0008 0008 0001
"""

# What is different in a certificate of a base without primaries below 8000, and without accents and capitals.
NO_PRIMARIES = "-1 0209, -1 1C47, -1 1C60, -2 0024, -2 002C, -3 0008"


def cases_of(name):
    """The lines of a file of cases that are no remarks, by the part that they are in."""
    parts, part = {"": []}, ""
    with open(f"{HERE}/{name}", encoding="utf-8") as file:
        for line in file.read().split("\n"):
            if line.startswith("== "):
                part = line[3:]
                parts[part] = []
            elif line and not line.startswith("--"):
                parts[part].append(line.split(" | "))
    return parts


def unescaped(text):
    return re.sub(r"\\(.)", lambda it: {"n": "\n", "t": "\t", "r": "\r", "0": "\0"}.get(it.group(1), it.group(1)), text)


def changed(text, change):
    """A text with one change."""
    if change.startswith("+"):
        return text + change[1:] + "\n"
    old, sign, new = change.partition(" => ")
    front, found, rest = text.partition(old if sign else change[1:])
    if not found:
        raise ValueError(f"nothing to change: {change}")
    return front + unescaped(new) + rest if sign else front + rest.partition("\n")[2]


def edited(text, field):
    """A text with the changes of a field, or the text that it has."""
    if field.startswith("@version"):
        return unescaped(field)
    for change in field.split(", ") if field != "." else []:
        text = changed(text, change)
    return text


class Verdicts(ProgramTest):
    def test_verdicts(self):
        cases = cases_of("audits.txt")[""]
        self.assertGreater(len(cases), 100)
        for base, rules, tailored, certificate, verdict in cases:
            self.write(
                b=edited(TABLE, base),
                d=DATA,
                r=RULES if rules == "." else rules,
                t=edited(TAILORED, tailored),
                c=edited(CERTIFICATE, certificate),
            )
            self.expect("audit b d r t c", status=0 if verdict == "accepted" else 1, out=verdict + "\n")


class UntouchedTexts(ProgramTest):
    """What acceptance means for texts: how they compare under both tables, and their keys."""

    WAYS = [
        ["--weighting", weighting, *identical]
        for weighting in ("non-ignorable", "shifted")
        for identical in ([], ["--identical"])
    ]

    def compared(self, way, table, left, right):
        ended = self.run_uca("compare", *way, table, "d", "--", left, right)
        self.assertEqual((ended.status, ended.err), (0, b""))
        return ended.out.decode().rstrip("\n")

    def keys(self, way, table, texts):
        ended = self.run_uca("keys", *way, table, "d", given="".join(f"{text}\n" for text in texts))
        self.assertEqual((ended.status, ended.err), (0, b""))
        return ended.out

    def said_of(self, left, right):
        """Whether the texts are untouched, how they compare under both tables, and whether their keys stay."""
        touched = self.run_uca("affected", "d", "r", given=f"{left}\n{right}\n").out
        before, after = ([self.compared(way, table, left, right) for way in self.WAYS] for table in "bt")
        if not touched:
            self.assertEqual(before, after)
        stay = all(self.keys(way, "b", [left, right]) == self.keys(way, "t", [left, right]) for way in self.WAYS)
        return f"{'touched' if touched else 'untouched'}, {before[0]}, {after[0]}, {'stay' if stay else 'differ'}"

    def test_untouched_texts(self):
        for base, rules, tailored, certificate, pair, said in cases_of("untouched.txt")[""]:
            self.write(
                b=edited(TABLE, base),
                d=DATA,
                r=RULES if rules == "." else rules,
                t=edited(TAILORED, tailored),
                c=edited(CERTIFICATE, certificate),
            )
            self.expect("audit b d r t c", out="accepted\n")
            with self.subTest(pair=pair, rules=rules):
                self.assertEqual(self.said_of(*pair.split(" / ")), said)


class Plans(ProgramTest):
    def expect_plan(self, base, rules, tailored, certificate):
        """The plan is this one, and the audit accepts it."""
        self.write(b=base, d=DATA, r=rules, c="")
        self.expect("tailor b d r c", out=read_table(tailored.encode())[1])
        self.assertEqual(self.read("c").decode(), certificate)
        self.write(t=tailored)
        self.expect("audit b d r t c", out="accepted\n")

    def expect_no_plan(self, base, rules, said):
        self.write(b=base, d=DATA, r=rules, c="old")
        said = f"tailor {said}" if said.startswith("relation") else f"tailor: {said}"
        self.expect("tailor b d r c", status=1, err=said + "\n")
        self.assertEqual(self.read("c"), b"old")

    def test_plans(self):
        parts = cases_of("plans.txt")
        for base, rules, tailored, certificate in parts["planned"]:
            self.expect_plan(edited(TABLE, base), rules, edited(TAILORED, tailored), edited(CERTIFICATE, certificate))
        for base, rules, added in parts["unmoved"]:
            self.expect_plan(unescaped(base), rules, unescaped(base + added), edited(CERTIFICATE, NO_PRIMARIES))
        for base, rules, said in parts["rejected"]:
            self.expect_no_plan(edited(TABLE, base), rules, said)

    def test_the_last_position_of_level_1(self):
        """A base with a row of each primary. The plan takes the last position that is left, or finds none."""
        rules, moved = r"&\U00010001 < x", "1 0001 0001 0001\n1 0002 0003 7FFD\n2 0020 0020 0001\n3 0002 0002 0001\n"

        def base_to(end):
            return "@version 1\n" + "".join(f"{0x10000 + weight:04X} ; [.{weight:04X}.0020.0002]\n" for weight in range(1, end))

        rows = "".join(f"{0x10000 + weight:04X} ; [.{weight + (weight > 1):04X}.0020.0002]\n" for weight in range(1, 0x7FFF))
        self.expect_plan(base_to(0x7FFF), rules, "@version 1\n" + rows + "0078 ; [.0002.0020.0002]\n", moved)
        self.expect_no_plan(base_to(0x8000), rules, "NoRoom 1")

    def test_200_000_rows(self):
        """Targets that are base keys add no row. Other causes in a relation come before, and room is looked for later."""
        row = "{:04X} ; [.0001.0020.0002]\n".format

        def base_of(letters):
            return "@version 1\n" + "".join(map(row, [0x61, 0x62, 0x63, *range(0x10000, 0x10000 + letters)]))

        cases = [
            (199_997, "&a < b", ""),
            (199_997, "&a < x", "relation 1: Limit"),
            (199_997, "&a < b < x", "relation 2: Limit"),
            (199_997, r"&\u4E00 < x", "relation 1: Anchor"),
            (199_997, r"&a < x\u0301\u0300", "relation 1: NeedsPrefix"),
            (199_997, "&[before 3]a <<< b <<< c", "NoRoom 3"),
            (199_997, "&[before 3]a <<< b <<< c < x", "relation 3: Limit"),
            (199_996, "&a < x", ""),
            (199_996, "&a < b < x < c", ""),
            (199_996, "&a < x < b < y", "relation 3: Limit"),
        ]
        for letters, rules, said in cases:
            base = base_of(letters)
            if said:
                self.expect_no_plan(base, rules, said)
            else:
                self.write(b=base, d=DATA, r=rules)
                ended = self.run_uca("tailor", "b", "d", "r", "c")
                with self.subTest(rules=rules):
                    # a line for each row, and the version
                    self.assertEqual((ended.status, ended.out.count(b"\n"), ended.err), (0, 200_001, b""))
