"""Whether CLDR's relations hold under a table, by the keys that `uca` makes. Part of tests/by_hand/languages.py. It trusts neither the maker of the table nor ICU.

The target of a relation differs from its anchor first at the level of its sign, on its side. If the anchor has one weight at each level, no other character with
one weight at each level comes between. A relation is not tried in four cases. Its anchor is a position such as `[last regular]`, or the place before a group. Its anchor has new weights later on. Its
target comes again. Both are one text in Normalization Form D.
"""
import bisect
import re
import unicodedata
from typing import NamedTuple

from cldr_rules import Relation, Reset
from profile_rules import holds as occurs
from language_tables import FIRST
from script_order import CASES

LEVELS = 3
# Large kana and narrow signs count as capitals (UTS #35 Part 5, section 3.14).
CAPITALS = re.compile("HALFWIDTH (?!KATAKANA LETTER SMALL)|(HIRAGANA|KATAKANA) LETTER (?!SMALL)")


class Text(NamedTuple):
    """A text as a relation names it: what it is after, and what its elements are followed by, do not count."""

    text: str
    prefix: str = ""
    expansion: str = ""


class Said(NamedTuple):
    """A relation of CLDR. The anchor is None at a position."""

    anchor: Text | None
    target: Text
    strength: int
    is_before: bool


class Counts(NamedTuple):
    hold: int
    not_tried: int
    failed: list[str]


def case_of_text(text):
    """0 for capitals alone, 1 where some characters are capitals, 2 for all others. Marks do not count."""
    letters = [it for it in text if not unicodedata.combining(it)]
    capitals = [it.isupper() or bool(CAPITALS.match(unicodedata.name(it, ""))) for it in letters]
    return 2 if not any(capitals) else 0 if all(capitals) else 1


def said_by(items):
    """What the relations say; differences at level 4 are none."""
    found, anchor, before = [], None, 0
    for item in items:
        if isinstance(item, Reset):
            anchor, before = None if item.is_position or item.text[0] == FIRST else Text(item.text), item.before
        elif isinstance(item, Relation):
            target = Text(item.target, item.prefix, item.expansion)
            found.append(Said(anchor, target, item.strength % 4, bool(before)))
            anchor, before = target, 0
    return found


def levels_of(line):
    """The weights of each level of a printed key."""
    found = [[]]
    for weight in line.split():
        if weight == "0000":
            found.append([])
        else:
            found[-1].append(weight)
    return [tuple(it) for it in found]


class Relations:
    """The relations of a locale, over the keys of its table. `keys` makes the printed keys of texts, and `others` are characters of the given table."""

    def __init__(self, items, keys, others, first_case=""):
        self.said, self.first_case = said_by(items), first_case
        self.last = {it.target.prefix + it.target.text: at for at, it in enumerate(self.said)}
        texts = {it for said in self.said for one in (said.anchor, said.target) if one for it in (one.prefix + one.text, one.prefix, one.expansion)}
        self.texts = sorted(it for it in texts if it and "\n" not in it)
        others = [it for it in others if it not in self.last and "\n" not in it]
        self.keys = {text: levels_of(line) for text, line in keys([*self.texts, *others]).items()}
        single = [it for it in others if all(len(level) <= 1 for level in self.keys[it])]
        self.others = [sorted({tuple(self.keys[it][: level + 1]) for it in single}) for level in range(LEVELS)]

    def levels(self, named):
        """The level lists of a text without those of its prefix and of its expansion; None if they are not there."""
        found = self.keys.get(named.prefix + named.text)
        for part, is_prefix in ((named.prefix, True), (named.expansion, False)):
            for level, inside in enumerate(self.keys[part] if part and found else []):
                now = found[level]
                if len(inside) and (now[: len(inside)] if is_prefix else now[-len(inside) :]) != inside:
                    return None
                cut = now[len(inside) :] if is_prefix else now[: len(now) - len(inside)]
                found = [*found[:level], cut, *found[level + 1 :]]
        return found

    def is_tried(self, at, said):
        """Whether both texts have in the end the weights that the relation speaks of."""
        if said.anchor is None or self.last[said.target.prefix + said.target.text] != at:
            return False
        anchor = said.anchor.prefix + said.anchor.text
        if self.last.get(anchor, -1) > at or anchor == said.target.prefix + said.target.text:
            return False
        return len(anchor) == 1 or anchor in self.last or not any(occurs(anchor, it.target.text) for it in self.said[at:])

    def wrong(self, said):
        """What is wrong with a relation, or nothing."""
        left, right = self.levels(said.anchor), self.levels(said.target)
        if left is None or right is None:
            return "a prefix or an expansion is not there"
        level = next((it + 1 for it in range(LEVELS) if left[it] != right[it]), 0)
        if level != (LEVELS if self.are_apart(said) else said.strength):
            return f"they differ at level {level}"
        if level and (left > right) != self.is_above(said):
            return "they are the other way round"
        low, high = sorted((left, right))
        is_single = all(len(it) <= 1 for it in left) and not said.target.expansion and not self.are_apart(said)
        if level and is_single and self.between(low, high, level):
            return "another character is between"
        return ""

    def are_apart(self, said):
        """Whether the case of the letters decides, and not the rule: then others may come between."""
        return bool(self.first_case) and said.strength in (0, LEVELS) and case_of_text(said.anchor.text) != case_of_text(said.target.text)

    def is_above(self, said):
        """Whether the anchor comes after the target."""
        if self.are_apart(said):
            return CASES[self.first_case].index(case_of_text(said.anchor.text)) > CASES[self.first_case].index(case_of_text(said.target.text))
        return said.is_before

    def between(self, low, high, level):
        """Whether a character that no rule names is between, up to this level."""
        others = self.others[level - 1]
        at = bisect.bisect_right(others, tuple(low[:level]))
        return at < len(others) and others[at] < tuple(high[:level])

    def count(self):
        tried = [it for at, it in enumerate(self.said) if self.is_tried(at, it)]
        wrong = [(it, self.wrong(it)) for it in tried]
        failed = [f"{it.anchor.text!r} {'<' * it.strength or '='} {it.target.text!r}: {why}" for it, why in wrong if why]
        return Counts(len(tried) - len(failed), len(self.said) - len(tried), failed)
