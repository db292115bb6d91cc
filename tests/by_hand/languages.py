#!/usr/bin/env python3
"""Tests languages/languages.py: CLDR's relations, the tables and the rules beside ICU, and its errors.

    tests/by_hand/languages.py               all collations of CLDR (six minutes with --jobs 4, on four processors)
    tests/by_hand/languages.py --quick       some of them, over fewer lines
    tests/by_hand/languages.py sv zh         these alone
    tests/by_hand/languages.py --page        writes the table of docs/LANGUAGES.md again

- Each wrong tag and each broken file of CLDR gets the error that it should, and nothing is printed.
- CLDR's own test of the root is in order under the table of `und`.
- The rules of Korean and Japanese in two parts are accepted. The changes that keep Cyrillic letters in a Russian table list no Cyrillic line.
- For each collation `languages/languages.py table` makes a table. All relations of CLDR hold under it (relations.py): this needs no ICU.
- With `--numeric`, numbers come in the order of their values under each of these tables and under Unicode's. That of
  emoji alone has keys that begin with a digit: keycaps.
- Beside ICU: the row of docs/LANGUAGES.md is the same in this run. The page says what the columns are. Without `gcc` and `libicu-dev` this part is not run.

It needs Debian's unicode-data and unicode-cldr-core. The last line is `N passed, M failed`, and how many were not run.
"""
import argparse
import bisect
import os
import re
import subprocess
import sys
import tempfile
import textwrap
import xml.etree.ElementTree
from concurrent.futures import ProcessPoolExecutor
from typing import NamedTuple

HERE = os.path.dirname(os.path.realpath(__file__))
TOP = os.path.dirname(os.path.dirname(HERE))
sys.dont_write_bytecode = True
sys.path[:0] = [f"{TOP}/languages", HERE]
import language_errors
import language_lines
import languages
import packages
from cldr_rules import CldrError, Relation, escaped, imported_name, items_of, nfd, rules_text
from language_names import collation_names
from language_tables import Made
from language_tags import read_tag
from profile_rules import LEFT_OUT, Table
from relations import Relations

NEEDS, WANTS = ["unicode-data", "unicode-cldr-core"], ["gcc", "libicu-dev"]
PAGE = f"{TOP}/docs/LANGUAGES.md"
BEGIN, END = "<!-- made by tests/by_hand/languages.py -->", "<!-- end -->"
QUICK = ["da", "de-u-co-phonebk", "el", "ja", "ko", "my", "sv", "und-u-co-eor", "zh", "el-u-kf-upper", "en-u-kr-grek-digit"]
# Tags with settings, and of other languages and regions.
SETTINGS = ["da-u-kf-false", "el-u-kf-upper", "en-u-ka-shifted", "en-u-kf-lower", "en-u-kr-grek-digit", "ja-u-kf-lower", "ja-u-kf-upper", "ja-u-kr-latn-kana"]
SETTINGS += ["ru-u-kf-upper", "sv-u-kf-upper", "und-u-kr-zzzz-latn-symbol", "vi-u-kf-lower", "yue", "zh-Hant-TW", "zh-u-kr-latn-hani"]
# Numbers by their values.
DIGITS, NUMBERS = "0123456789", [f"{it}a" for it in (0, 1, 2, 9, 10, 19, 99, 100, 12_345_678, 123_456_789, 10**20, 10**20 + 1)]
# An order with keys that begin with a digit.
KEYCAPS, NO_ORDER = ["und-u-co-emoji"], "the table does not order numbers"
LOCALES, TOOL = languages.CLDR, f"{TOP}/languages/languages.py"
# CLDR 41 is of Unicode 14. These have other weights since Unicode 15, and the last two have weights in CLDR alone.
OTHERS = {0x0F82, 0x0F83, 0x101FD, 0x1D89, 0x2B739, 0xFFFE, 0xFFFF}
TESTS = (("CollationTest_CLDR_NON_IGNORABLE_SHORT.txt", "non-ignorable"), ("CollationTest_CLDR_SHIFTED_SHORT.txt", "shifted"))


class Sizes(NamedTuple):
    """How many lines: of the language's letters, of several scripts, and real ones."""

    made: int = 1000
    mixed: int = 500
    real: int = 1000


# For the locales of large orders.
LARGE, MANY = ("ja", "ko", "zh", "zh_Hant"), Sizes(20_000, 2000, 20_000)


class Setup(NamedTuple):
    """What each collation is tried with. `icu` is the program that prints the keys of ICU, if there is one."""

    uca: str
    table: str
    data: str
    icu: str
    sizes: Sizes


class Row(NamedTuple):
    """A row of the page."""

    name: str
    language: str
    relations: int
    listed: int
    made: str
    made_own: str
    real: int
    real_own: str
    rules: str
    left_out: str

    def line(self):
        return "| " + " | ".join(str(it) for it in (f"`{self.name}`", *self[1:])) + " |"


TABLE_HEAD = [
    "| Tag | Language | Relations | Listed | Same rules | ICU's own | Real lines | ICU's own | By `rules` | What these leave out |",
    "|---|---|--:|--:|--:|--:|--:|--:|--:|---|",
]


class Tried(NamedTuple):
    """What came of a collation: checks as pairs of what holds and a line, and the row of the page."""

    name: str
    checks: list[tuple[bool, str]]
    row: Row | None


# ---- Collations


def all_names():
    """The tags of all collations of CLDR, and some others."""
    return [tag for _, tag in collation_names(LOCALES)] + SETTINGS


def language_of(tag):
    """The English name of a tag's language, with what else it has."""
    root = xml.etree.ElementTree.parse(os.path.join(LOCALES, "main", "en.xml")).getroot()
    known = {it.get("type"): it.text for it in root.iter("language") if it.get("alt") is None}
    language, _, more = tag.locale.partition("_")
    more = [more.replace("_", " "), tag.text.partition("-u-")[2].removeprefix("co-").replace("-", " ")]
    return ("the root" if language == "root" else known[language]) + (f" ({', '.join(filter(None, more))})" if any(more) else "")


# ---- Keys and orders


def keys_of(setup, table, lines, weighting="non-ignorable"):
    """The printed key of each line."""
    out, said = languages.run([setup.uca, "keys", "--weighting", weighting, table, setup.data], "".join(f"{it}\n" for it in lines))
    if said:
        raise CldrError(f"uca keys: {said}")
    return dict(zip(lines, out.split("\n")[:-1], strict=True))


def icu_keys(setup, tag, rules, weighting, lines):
    """ICU's key of each line; None if it has no such collation. `rules` is a file, or `own`."""
    out, said = languages.run([setup.icu, tag.text, rules, weighting], "".join(f"{it}\n" for it in lines))
    if said:
        raise CldrError(f"ICU: {said}")
    head, *keys = out.split("\n")[:-1]
    actual = head.partition(" ")[2]
    is_there = rules != "own" or (f"collation={tag.kind}" in actual if tag.kind not in (None, "standard") else actual != "root")
    return dict(zip(lines, keys, strict=True)) if is_there or not has_rules(tag) else None


def has_rules(tag):
    """Whether CLDR has relations or settings for a tag, apart from those of the root."""
    return bool(rules_text(LOCALES, tag.name).strip())


def elsewhere(lines, ours, theirs):
    """How many lines have to move so that the first order becomes the second, or else weigh as much as the line before in one order alone."""
    if theirs is None:
        return "not in ICU"
    left, right = (sorted(lines, key=lambda it, keys=keys: (keys[it], nfd(it))) for keys in (ours, theirs))
    places, ends = {it: at for at, it in enumerate(right)}, []
    for it in left:  # the longest rising list of places
        at = bisect.bisect_left(ends, places[it])
        ends[at : at + 1] = [places[it]]
    count = len(lines) - len(ends)
    return str(count or sum((ours[a] == ours[b]) != (theirs[a] == theirs[b]) for a, b in zip(left, left[1:])))


def whole_rules(name):
    """The rules of a collation with those that it imports: ICU would take these from its own edition of CLDR."""
    return re.sub(r"\[(import [^]]+)\]", lambda it: whole_rules(imported_name(it[1])), rules_text(LOCALES, name, True))


# ---- Numbers


def orders_numbers(rows):
    """Whether each digit has one element that is not variable, their primaries rise, and no other key has a digit."""
    own = [rows.get(it, []) for it in DIGITS]
    if any(len(it) != 1 or it[0].variable for it in own):
        return False
    weights = [0, *(it[0].primary for it in own)]
    is_alone = all(len(key) == 1 or not set(key) & set(DIGITS) for key in rows)
    return is_alone and all(below < above for below, above in zip(weights, weights[1:]))


def numbers_by_value(setup, table):
    """What is wrong with numbers under a table; nothing if they come in the order of their values. A table that does not order
    them is an error of `uca sort`."""
    text = "".join(f"{it}\n" for it in NUMBERS)
    turned = "".join(f"{it}\n" for it in reversed(NUMBERS))
    out, said = languages.run([setup.uca, "sort", "--numeric", table, setup.data], turned)
    if not orders_numbers(Table(table).rows):
        return NO_ORDER if "Digits" in said else "uca sort --numeric takes the table"
    return said or ("" if out == text else "uca sort --numeric has another order")


# ---- A collation


class Tries:
    """All tries of a collation."""

    def __init__(self, setup, name, folder):
        self.setup, self.folder, self.tag = setup, folder, read_tag(LOCALES, name)
        self.options = argparse.Namespace(uca=setup.uca, cldr=LOCALES)
        self.checks, self.table, self.listed = [], "", 0
        self.items = list(items_of(LOCALES, self.tag.name, True))
        self.relations = sum(isinstance(it, Relation) for it in self.items)

    def see(self, holds, said):
        self.checks.append((holds, f"{self.tag.text}: {said}"))

    def make(self):
        """Makes the table and has it judged."""
        self.made = Made(self.tag, self.setup.table, self.setup.data, LOCALES, True)
        judged = languages.changed(self.options, self.folder, "".join(f"{it}\n" for it in self.made.lines()), self.setup.table, self.setup.data)
        self.see(not judged.error, judged.error or "the table is well-formed, and its changes are accepted")
        self.table = "" if judged.error else judged.table
        if self.table:
            with open(os.path.join(self.folder, "changes"), encoding="utf-8") as file:
                self.listed = sum(1 for _ in file) - 1
        return self.table

    def relations_hold(self):
        """The relations of CLDR under the table."""
        others = [it for it in Table(self.setup.table).rows if len(it) == 1]
        keys = lambda lines: keys_of(self.setup, self.table, lines)
        counts = Relations(self.items, keys, others, self.made.rules.first_case).count()
        self.see(not counts.failed, f"{counts.hold} relations hold, {len(counts.failed)} do not, {counts.not_tried} were not tried {'; '.join(counts.failed[:3])}")

    def numbers(self):
        wrong = numbers_by_value(self.setup, self.table)
        if self.tag.text in KEYCAPS:
            self.see(wrong == NO_ORDER, "keycaps begin with a digit, so the table does not order numbers")
        else:
            self.see(not wrong, wrong or "numbers come in the order of their values")

    def same_rules(self, left_out):
        """The name of a file with the text of the rules for ICU, without the settings that are left out."""
        text = escaped(whole_rules(self.tag.name))
        words = "|".join(word for what, word in LEFT_OUT.items() if what in left_out)
        return languages.write(os.path.join(self.folder, "icu_rules"), re.sub(rf"\[({words}) [^]]*\]", "", text) if words else text)

    def beside_icu(self):
        """The row of the page. ICU cannot read rules with the settings of a tag beside them."""
        setup, weighting, name = self.setup, self.made.rules.weighting, self.tag.name
        sizes = MANY if setup.sizes == Sizes() and self.tag.locale in LARGE else setup.sizes
        letters, special = language_lines.letters(LOCALES, name), language_lines.named_by(self.items)
        made = language_lines.made(name, letters, special, sizes.made)
        mixed = sorted({*made, *language_lines.mixed(name, letters, sizes.mixed)})
        real = language_lines.real(LOCALES, name, sizes.real)
        ours = keys_of(setup, self.table, sorted({*mixed, *real}), weighting)
        same, rules, left_out = "", "", ""
        if {*self.tag.settings} <= {"kb"}:
            same = elsewhere(mixed, ours, icu_keys(setup, self.tag, self.same_rules(["accents from the end"]), weighting, mixed))
            rules, left_out = self.by_rules(made)
        own = [elsewhere(it, ours, icu_keys(setup, self.tag, "own", weighting, it)) for it in (mixed, real)]
        return Row(self.tag.text, language_of(self.tag), self.relations, self.listed, same, own[0], len(real), own[1], rules, left_out)

    def by_rules(self, made):
        """What comes of the rules that `languages/languages.py rules` prints, and what they leave out."""
        setup, translation = self.setup, languages.translated(self.options, self.tag.name, Table(self.setup.table))
        if translation is None:
            return "", "all: too many"
        folder = os.path.join(self.folder, "rules")
        os.mkdir(folder)
        judged = languages.planned(self.options, folder, languages.rules_of(self.tag.text, translation), setup.table, setup.data)
        left_out = "; ".join(translation.left_out)
        if judged.error:
            return judged.error, left_out
        ours = keys_of(setup, judged.table, made, translation.weighting)
        return elsewhere(made, ours, icu_keys(setup, self.tag, self.same_rules(translation.left_out), translation.weighting, made)), left_out


def tried(setup, name):
    """Tries a collation. An error of it is a failed check."""
    with tempfile.TemporaryDirectory() as folder:
        row, tries = None, None
        try:
            tries = Tries(setup, name, folder)
            if tries.make():
                tries.relations_hold()
                tries.numbers()
                row = tries.beside_icu() if setup.icu else None
        except CldrError as error:
            return Tried(name, [*(tries.checks if tries else []), (False, f"{name}: {error}")], None)
    return Tried(name, tries.checks, row)


# ---- CLDR's own test of the root


def points_of(line):
    """The text of a line of the test; nothing if it has a surrogate, an end of a line, or a character of another order."""
    codes = [int(it, 16) for it in line.split(";")[0].split()]
    return "" if any(0xD800 <= it <= 0xDFFF or it in (0x0A, 0x0D) or it in OTHERS for it in codes) else "".join(map(chr, codes))


def root_in_order(setup, table, name, weighting):
    """The lines of a file that are below the line before, and how many lines there are."""
    with open(os.path.join(LOCALES, "uca", name), encoding="utf-8") as file:
        lines = [points_of(it) for it in file if it.strip() and not it.startswith("#")]
    lines = [it for it in lines if it]
    out, said = languages.run([setup.uca, "keys", "--weighting", weighting, table, setup.data], "".join(f"{it}\n" for it in lines))
    keys = out.split("\n")[:-1]
    if said or len(keys) != len(lines):
        return [said or "some lines have no key"], 0
    return [one for one, below, above in zip(lines[1:], keys, keys[1:]) if above < below], len(lines)


# ---- Two tailorings in a row


def in_parts(setup, folder, name, see):
    """Plans and audits the parts of the rules of a locale in a row. The relations have to hold under the last table; of Japanese some are left out."""
    options, table = argparse.Namespace(uca=setup.uca, cldr=LOCALES), setup.table
    count = len(languages.parts_of(items_of(LOCALES, name)))
    for part in range(1, count + 1):
        inside = os.path.join(folder, f"{name}_{part}")
        os.mkdir(inside)
        rules = languages.rules_of(name, languages.translated(options, name, Table(table), part))
        judged = languages.planned(options, inside, rules, table, setup.data)
        if judged.error:
            see(False, f"{name}: part {part} of {count}: {judged.error}")
            return
        table = judged.table
    counts = Relations(list(items_of(LOCALES, name)), lambda lines: keys_of(setup, table, lines), []).count()
    see(count > 1 and (not counts.failed or name == "ja"), f"{name}: {count} parts are accepted; {counts.hold} relations hold, {len(counts.failed)} do not")


# ---- Changes that keep a script


def letters_stay(setup, folder, see):
    """From Unicode's table to that of Russian: the changes that keep Cyrillic list no line of Cyrillic letters alone, and the others do."""
    text = "".join(f"{it}\n" for it in Made(read_tag(LOCALES, "ru"), setup.table, setup.data, LOCALES).lines())
    new, certificate = languages.write(os.path.join(folder, "russian"), text), os.path.join(folder, "certificate")
    lines = [it for it in language_lines.real(LOCALES, "ru", 20_000) if re.fullmatch("[А-Яа-яЁё0-9 -]+", it)]
    files = [languages.with_setting(folder, text, setup.table), setup.data, new, setup.data]
    for what, words in (("keep Cyrl", [TOOL, "--uca", setup.uca, "keep", "Cyrl", *files[:3], certificate]), ("uca changes", [setup.uca, "changes", *files, certificate])):
        out, said = languages.run(words)
        changes = languages.write(os.path.join(folder, "changes"), out)
        accepted, _ = languages.run([setup.uca, "audit-changes", *files, changes, certificate])
        affected, _ = languages.run([setup.uca, "affected", "--changes", setup.data, changes], "".join(f"{it}\n" for it in lines))
        count = affected.count("\n")
        is_right = count == 0 if what == "keep Cyrl" else count > len(lines) // 2
        see(not said and accepted == "accepted\n" and is_right, f"ru by {what}: {accepted.strip() or said}, {count} of {len(lines)} Cyrillic lines are affected")


# ---- The page


def parts_of_page():
    with open(PAGE, encoding="utf-8") as file:
        text = file.read()
    before, rest = text.split(BEGIN + "\n")
    inside, after = rest.split(END + "\n")
    return before, inside, after


def version_line(setup):
    """What was compared with what."""
    with open(setup.table, encoding="utf-8") as file:
        edition = re.search(r"^@version (\S+)", file.read(), re.M)[1]
    with open(os.path.join(LOCALES, "dtd", "ldml.dtd"), encoding="utf-8") as file:
        version = re.search(r'cldrVersion CDATA #FIXED "([^"]+)"', file.read())
    icu = languages.run([setup.icu, "und", "own", "shifted"])[0].split()[0]
    return f"CLDR {version[1] if version else '?'}, the table of Unicode {edition}, ICU {icu}."


def summary(rows):
    """What the table comes to: how many of the compared orders have no line elsewhere."""

    def zeros(field):
        found = [getattr(row, field) for row in rows if getattr(row, field) not in ("", "not in ICU")]
        return f"{found.count('0')} of {len(found)}"

    text = f"{len(rows)} orders. No line is elsewhere in {zeros('made')} tables beside ICU with the same rules, and in {zeros('made_own')} beside ICU's own order. "
    text += f"No real line is elsewhere in {zeros('real_own')}. By `rules` it is so in {zeros('rules')}."
    return "\n".join(textwrap.wrap(text, 120))


def write_page(setup, rows):
    before, _, after = parts_of_page()
    lines = [version_line(setup), "", *TABLE_HEAD, *(it.line() for it in rows), "", summary(rows)]
    languages.write(PAGE, before + BEGIN + "\n" + "\n".join(lines) + "\n" + END + "\n" + after)


# ---- All of it


class Seen:
    """Counts what holds, and prints it."""

    def __init__(self):
        self.counts = {True: 0, False: 0}

    def __call__(self, holds, said):
        print(f"{'ok  ' if holds else 'NOT '}{said}", flush=True)
        self.counts[bool(holds)] += 1


def built_icu(folder):
    """The program beside this script that prints ICU's keys, or nothing if it cannot be built here."""
    to = os.path.join(folder, "icu_lines")
    words = ["gcc", "-std=gnu11", "-O2", "-o", to, f"{HERE}/icu_lines.c", "-licui18n", "-licuuc"]
    try:
        return to if subprocess.run(words, stderr=subprocess.DEVNULL, check=False).returncode == 0 else ""
    except FileNotFoundError:
        return ""


def set_up(options, folder):
    files = languages.unicode_files
    table = languages.write_by(files.print_table, os.path.join(folder, "table"), os.path.join(files.FOLDER, "allkeys.txt"))
    data = languages.write_by(files.print_data, os.path.join(folder, "data"), files.FOLDER)
    return Setup(os.path.abspath(options.uca), table, data, built_icu(folder), Sizes(300, 300, 500) if options.quick else Sizes())


def root_test(setup, folder, see):
    """CLDR's own test of the root."""
    text = "".join(f"{it}\n" for it in Made(read_tag(LOCALES, "und"), setup.table, setup.data, LOCALES).lines())
    table = languages.write(os.path.join(folder, "root"), text)
    for name, weighting in TESTS:
        found, count = root_in_order(setup, table, name, weighting)
        see(not found and count, f"{name}: {count} lines, {len(found)} below the line before")


def main():
    parser = argparse.ArgumentParser(description=__doc__.split("\n", maxsplit=1)[0])
    parser.add_argument("names", nargs="*", metavar="TAG", help="these collations alone")
    parser.add_argument("--uca", default=f"{TOP}/crates/uca/out/uca", help="the program")
    parser.add_argument("--quick", action="store_true", help="some collations, over fewer lines")
    parser.add_argument("--page", action="store_true", help="writes the table of docs/LANGUAGES.md")
    parser.add_argument("--jobs", type=int, default=3, help="how many collations are tried at once (3)")
    options = parser.parse_args()
    packages.stop_without(NEEDS)
    see, rows = Seen(), []
    with tempfile.TemporaryDirectory() as folder:
        setup = set_up(options, folder)
        written = parts_of_page()[1].split("\n")
        if not options.names:
            language_errors.test(setup, see)
            root_test(setup, folder, see)
            wrong = numbers_by_value(setup, setup.table)
            see(not wrong, f"Unicode's table: {wrong or 'numbers come in the order of their values'}")
            in_parts(setup, folder, "ko", see)
            in_parts(setup, folder, "ja", see)
            letters_stay(setup, folder, see)
        names = options.names or (QUICK if options.quick else all_names())
        with ProcessPoolExecutor(options.jobs) as pool:
            for it in pool.map(tried, [setup] * len(names), names):
                for holds, said in it.checks:
                    see(holds, said)
                if it.row:
                    rows.append(it.row)
                    if options.page or options.quick:
                        print("   ", it.row.line(), flush=True)
                    else:
                        see(it.row.line() in written, f"docs/LANGUAGES.md has the row {it.row.line()}")
        if options.page and not options.names and setup.icu:
            write_page(setup, rows)
    skipped = 0 if setup.icu else len(names)
    print(f"{see.counts[True]} passed, {see.counts[False]} failed" + (f", {skipped} not run" if skipped else ""))
    sys.exit(1 if see.counts[False] else 0)


if __name__ == "__main__":
    main()
