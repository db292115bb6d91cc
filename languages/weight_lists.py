"""A weight table as three lists of weights that have no numbers yet. Part of languages/languages.py.

A Draft reads a table, is changed, and writes a new table. A new weight goes directly after that of its anchor, or before it, as `uca tailor` does it. Numbers
are given at the end: weights of the old table keep theirs where there is room, and none falls. So old weights that stay in their order have a rising map, and
`uca changes` finds it. Nothing here is trusted: `uca check`, `uca changes` and `uca audit-changes` judge what comes out.
"""
import re
from collections.abc import Iterable, Iterator

from cldr_rules import CldrError

IMPLICIT = 0x8000  # primaries from here on are those of implicit weights (UTS #10, section 10.1.3), and stay
CORE, OTHER, UNASSIGNED = 0xFB40, 0xFB80, 0xFBC0  # the leads of implicit weights
PLAIN = (0x20, 2)  # what a letter without accents weighs at level 2, and in lower case at level 3
MOST_ROWS = 200_000  # that `uca` reads
ELEMENT = re.compile(r"\[([.*])([0-9A-F]{4})\.([0-9A-F]{4})\.([0-9A-F]{4})\]")


class Weight:
    """A weight of one level. `old` is its number in the old table. `group` is its script or group of characters, at level 1.

    A Han weight may be written as two: a lead that it has in common with its neighbours, and a `second` one. `fixed` names both where they are to be those of
    the character's implicit weights, under another lead.
    """

    __slots__ = ("before", "after", "old", "number", "lead", "second", "group", "is_han", "fixed")

    def __init__(self, old: int | None = None, group: str = "", is_han: bool = False, fixed: tuple[int, int] | None = None):
        self.before = self.after = self.lead = self.second = None
        self.old, self.number, self.group, self.is_han, self.fixed = old, old, group, is_han, fixed


class Level:
    """The weights of a level in their order, as a linked list between two ends."""

    def __init__(self, olds: Iterable[int]):
        self.first, self.last, self.by_old = Weight(), Weight(), {}
        self.first.after, self.last.before = self.last, self.first
        for old in sorted(olds):
            self.by_old[old] = self.insert(Weight(old), self.last)

    def insert(self, weight: Weight, at: Weight) -> Weight:
        """Puts a weight directly before another one."""
        weight.before, weight.after = at.before, at
        at.before.after = at.before = weight
        return weight

    def move(self, weight: Weight, at: Weight):
        weight.before.after, weight.after.before = weight.after, weight.before
        self.insert(weight, at)

    def __iter__(self) -> Iterator[Weight]:
        at = self.first.after
        while at is not self.last:
            yield at
            at = at.after


class Element:
    """Three weights, each None for 0. A primary from 8000 up is a number."""

    __slots__ = ("is_variable", "weights")

    def __init__(self, is_variable: bool, weights: list):
        self.is_variable, self.weights = is_variable, weights

    def copy(self):
        return Element(self.is_variable, list(self.weights))


def give_numbers(weights: list[Weight], low: int, high: int):
    """Rising numbers: an old weight keeps its own where it can, and takes a higher one where new weights before it need room."""
    at = low - 1
    for weight in weights:
        at = weight.number = max(at + 1, weight.old or 0)
    at = high + 1
    for weight in reversed(weights):
        at = weight.number = min(weight.number, at - 1)
    if weights and weights[0].number < low:
        raise CldrError(f"there is no room for {len(weights)} weights from {low:04X} to {high:04X}")


def read_rows(path: str) -> tuple[list[str], list[tuple[str, list[tuple[bool, int, int, int]]]]]:
    """The lines at the head of a table, and its rows. Their format is that which `uca check` has judged."""
    head, rows = [], []
    with open(path, encoding="utf-8") as file:
        for line in (it.split("#")[0].strip() for it in file):
            key, sign, elements = line.partition(";")
            if line.startswith("@"):
                head.append(line)
            elif sign:
                row = [(mark == "*", *(int(it, 16) for it in weights)) for mark, *weights in ELEMENT.findall(elements)]
                rows.append(("".join(chr(int(it, 16)) for it in key.split()), row))
    return head, rows


class Draft:
    """The rows of a table while they are changed."""

    def __init__(self, table: str, data: str):
        self.rows, self.longest = {}, {}
        self.listed = {}  # the keys of rules: the target of each, and which of its elements are those of the target
        self.shared, self.made = {}, set()  # weights below a plain one; elements that were made
        self.classes, self.leads = {}, {}  # combining classes, and the lead of each Han character
        self.han = {}  # the weight of each Han character that no rule names
        self.read_data(data)
        self.head, parsed = read_rows(table)
        found = [{element[1 + level] for _, row in parsed for element in row} - {0} for level in range(3)]
        self.levels = [Level({it for it in found[0] if it < IMPLICIT}), Level(found[1] | {PLAIN[0]}), Level(found[2] | {PLAIN[1]})]
        self.plain = [self.levels[1].by_old[PLAIN[0]], self.levels[2].by_old[PLAIN[1]]]
        for key, row in parsed:
            self.put(key, [Element(it[0], [self.old(level, weight) for level, weight in enumerate(it[1:])]) for it in row])
        self.old_rows = dict(self.rows)

    def read_data(self, path: str):
        with open(path, encoding="utf-8") as file:
            for kind, *words in (line.split("#")[0].split() or [""] for line in file):
                if kind in ("ccc", "core", "other"):
                    first, last = (int(it, 16) for it in words[0].split(".."))
                    one = int(words[1]) if kind == "ccc" else CORE if kind == "core" else OTHER
                    (self.classes if kind == "ccc" else self.leads).update(dict.fromkeys(range(first, last + 1), one))

    def old(self, level: int, weight: int):
        return weight if level == 0 and weight >= IMPLICIT else self.levels[level].by_old[weight] if weight else None

    # ---- Reading (UTS #10, section 7.2)

    def put(self, key: str, row: list[Element]):
        self.rows[key] = row
        self.longest[key[0]] = max(self.longest.get(key[0], 1), len(key))

    def element(self, primary) -> Element:
        """A letter without accents, in lower case."""
        return Element(False, [primary, *self.plain])

    def lead_of(self, code: int) -> int:
        """The first of the implicit weights of a code point."""
        for line in self.head:
            found = re.fullmatch(r"@implicitweights ([0-9A-F]+)\.\.([0-9A-F]+); *([0-9A-F]{4})", line)
            if found and int(found[1], 16) <= code <= int(found[2], 16):
                raise CldrError(f"rules name U+{code:04X}, whose weights are implicit under a lead of its own")
        return self.leads.get(code, UNASSIGNED) + (code >> 15)

    def implicit(self, character: str) -> list[Element]:
        code = ord(character)
        return [self.element(self.lead_of(code)), Element(False, [code & 0x7FFF | IMPLICIT, None, None])]

    def read(self, text: str) -> list[Element]:
        """The elements of a text in Normalization Form D: the longest key at each position, and marks after it that are not blocked."""
        found, rest = [], list(text)
        while rest:
            most = min(self.longest.get(rest[0], 1), len(rest))
            size = next((it for it in range(most, 0, -1) if "".join(rest[:it]) in self.rows), 0)
            if size:
                key, rest = self.extended("".join(rest[:size]), rest[size:])
                found += [it.copy() for it in self.rows[key]]
            else:
                found += self.implicit(rest.pop(0))
        return found

    def read_old(self, text: str) -> list[Element]:
        """The elements of a text in the table as it was before all rules."""
        now, self.rows = self.rows, self.old_rows
        try:
            return self.read(text)
        finally:
            self.rows = now

    def extended(self, key: str, rest: list[str]) -> tuple[str, list[str]]:
        """The key with the non-starters after it that make a longer one, and what is left of the rest."""
        at = last = 0
        while at < len(rest) and (now := self.classes.get(ord(rest[at]), 0)):
            if now > last and key + rest[at] in self.rows:
                key += rest.pop(at)
            else:
                last, at = now, at + 1
        return key, rest

    # ---- New weights

    def placed(self, anchor: list[Element], strength: int, is_before: bool) -> list[Element]:
        """The anchor's elements with a new weight at a level, in the last element that has a weight up to this level."""
        made, level = [it.copy() for it in anchor], self.levels[strength - 1]
        if len(made) == 1 and not any(made[0].weights) and strength > 1:
            made[0].weights[strength - 1] = level.insert(Weight(), level.last)  # after all that is ignorable before this level: the greatest weight of all
            return made
        while made and not any(made[-1].weights[:strength]):
            made.pop()
        if not made or isinstance(made[-1].weights[strength - 1], int):
            raise CldrError(f"a relation at level {strength} whose anchor has no weight there that can be changed")
        weights = made[-1].weights
        for weaker in range(strength, 3):
            weights[weaker] = self.plain[weaker - 1] if weights[weaker] else None
        self.renew(made, strength, is_before)
        self.made.add(as_key(made))
        return made

    def renew(self, made: list[Element], strength: int, is_before: bool):
        """Puts a new weight next to that of the last element. Below a weight there may be one number left, so texts of other letters share the weight there."""
        weights, level = made[-1].weights, self.levels[strength - 1]
        weight = weights[strength - 1]
        shared = self.shared.get((strength, weight)) if is_before else None
        if shared and shared is weight.before:
            weights[strength - 1] = shared
            if as_key(made) not in self.made:
                return
        at = weight if is_before else weight.after if weight else level.first.after
        new = Weight(group=weight.group if weight else "", is_han=bool(weight and weight.is_han))
        weights[strength - 1] = level.insert(new, at)
        if is_before:
            self.shared[strength, weight] = new

    # ---- Writing

    def number(self, single: set[Weight]):
        """Gives all weights their numbers. A Han weight that is not `single` becomes two."""
        give_numbers(self.with_leads(single), 1, IMPLICIT - 1)
        for level, plain in zip(self.levels[1:], self.plain):
            weights = list(level)
            at = weights.index(plain)
            plain.number = plain.old
            give_numbers(weights[:at], 1, plain.old - 1)
            give_numbers(weights[at + 1 :], plain.old + 1, 0xFFFF)

    def with_leads(self, single: set[Weight]) -> list[Weight]:
        """The weights of level 1 that need a number of their own. Neighbouring Han weights become one lead, and take their second weights."""
        order, lead, members = [], None, []
        for weight in self.levels[0]:
            if not weight.is_han or weight in single:
                order.append(weight)
                continue
            fixed = weight.fixed and weight.fixed[0]
            if lead is None or order[-1] is not lead or len(members) == 0x8000 or fixed != (members[-1].fixed and members[-1].fixed[0]):
                lead, members = Weight(), []
                order.append(lead)
            weight.lead, weight.second = lead, weight.fixed[1] if weight.fixed else IMPLICIT + len(members)
            members.append(weight)
        return order

    def lines(self, single: set[Weight]) -> Iterator[str]:
        """The new table. It has at most as many rows as `uca` reads."""
        self.number(single)
        if len(self.rows) > MOST_ROWS:
            raise CldrError(f"the table would have {len(self.rows)} rows: uca reads at most {MOST_ROWS}")
        yield from self.head
        for key, row in self.rows.items():
            yield " ".join(f"{ord(it):04X}" for it in key) + " ; " + "".join(map(written, row))


def as_key(row: list[Element]) -> tuple:
    return tuple(tuple(it.weights) for it in row)


def written(element: Element) -> str:
    """An element, and a second one where its primary weight is two."""
    numbers = [it if isinstance(it, int) else (it.lead or it).number if it else 0 for it in element.weights]
    second = getattr(element.weights[0], "second", None)
    more = f"[.{second:04X}.{PLAIN[0]:04X}.{PLAIN[1]:04X}]" if second else ""
    return "[{}{:04X}.{:04X}.{:04X}]".format("*" if element.is_variable else ".", *numbers) + more
