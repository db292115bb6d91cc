"""Writes the rules of CLDR as rules of the profile that `uca` reads (docs/FORMATS.md), over a given table. Part of languages/languages.py."""
import string
import unicodedata
from dataclasses import dataclass
from typing import NamedTuple

from cldr_rules import WHITE, Relation, Reset, Setting, members, nfd

SIGNS = {0: "=", 1: "<", 2: "<<", 3: "<<<"}
IMPLICIT = 0x8000  # primaries from here on are those of implicit weights
MOST_RELATIONS, MOST_CODE_POINTS = 5000, 16
MOST_ROUNDS = 1  # rows that the beginnings of further rows ask for; there may be no end of these

# Settings that ask for nothing which `uca` does not do anyway.
DONE = ("normalization on", "strength 3", "caseFirst off", "reorder others")

# What is said of settings that the profile cannot say, and their first words.
LEFT_OUT = {"script order": "reorder", "accents from the end": "backwards"}


class Element(NamedTuple):
    variable: bool
    primary: int
    secondary: int
    tertiary: int


class Placed(NamedTuple):
    """A relation of the profile: a target after its anchor, or before it where `before` is not 0."""

    anchor: str
    strength: int
    target: str
    expansion: str = ""
    before: int = 0


# ---- The table


class Table:
    """The rows of a weight table whose keys are in Normalization Form D: only these are ever matched."""

    def __init__(self, path):
        self.rows = {}
        with open(path, encoding="utf-8") as file:
            for line in file:
                key, sign, elements = line.split("#")[0].partition(";")
                if sign and not key.startswith("@"):
                    text = "".join(chr(int(code, 16)) for code in key.split())
                    if nfd(text) == text:
                        self.rows[text] = [self.element(it) for it in elements.strip()[1:-1].split("][")]

    @staticmethod
    def element(text):
        return Element(text[0] == "*", *(int(weight, 16) for weight in text[1:].split(".")))

    def position(self, name):
        """A text at a logical position such as `last regular`: one that has a row of one element. None if there is none."""
        end, _, group = name.partition(" ")
        tests = {
            "tertiary ignorable": lambda it: it[1:] == (0, 0, 0),
            "secondary ignorable": lambda it: it[1:3] == (0, 0) and it.tertiary,
            "primary ignorable": lambda it: it.primary == 0 and it.secondary,
            "variable": lambda it: it.primary and it.variable,
            "regular": lambda it: 0 < it.primary < IMPLICIT and not it.variable,
        }
        if group not in tests:
            return None
        found = [(row[0], key) for key, row in self.rows.items() if len(key) == len(row) == 1 and tests[group](row[0])]
        return {"first": min, "last": max}[end](found)[1] if found else None

    def same(self, anchor, strength):
        """Other keys of one code point whose elements are those of the anchor, at the levels up to the strength."""
        wanted = [it[1 : 1 + strength] for it in self.rows.get(anchor, [])]
        for key, row in self.rows.items():
            if wanted and key != anchor and len(key) == 1 and [it[1 : 1 + strength] for it in row] == wanted:
                yield key

    def below(self, anchor, strength):
        """The keys of one code point with the next lower weight at the level of the strength, and equal ones at those before it."""
        row = self.rows.get(anchor, [])
        if len(row) != 1:
            return []
        weights = row[0][1 : 1 + strength]
        found = [(other[0][1 : 1 + strength], key) for key, other in self.rows.items() if len(key) == len(other) == 1]
        found = [(it, key) for it, key in found if it[:-1] == weights[:-1] and it < weights]
        return [key for it, key in found if it == max(found)[0]]

    def are_next(self, first, second):
        """Whether two keys have one element each, with primaries that no other key has or lies between."""
        ends = [self.rows.get(it, []) for it in (first, second)]
        if any(len(row) != 1 or not row[0].primary for row in ends):
            return False
        low, high = ends[0][0].primary, ends[1][0].primary
        return not any(low <= it.primary <= high for key, row in self.rows.items() if key not in (first, second) for it in row)


def parts(text, keys):
    """The keys that a text is read as, from left to right: the longest of each position, or one code point."""
    found = []
    while text:
        size = next((n for n in range(len(text), 1, -1) if text[:n] in keys), 1)
        found.append(text[:size])
        text = text[size:]
    return found


def holds(text, target):
    """Whether the code points of a target occur in a text in their order."""
    rest = iter(text)
    return all(character in rest for character in target)


# ---- From items to relations


@dataclass
class Chain:
    """How far a chain has come: the anchor of its next relation (None where that is unknown), and the expansion of the last one."""

    anchor: str | None = None
    before: int = 0
    expansion: str = ""
    position: str = ""
    is_empty: bool = False


class Translation:
    """The relations of a locale over a table, and what had to be left out of its rules."""

    def __init__(self, items, table):
        self.table, self.left_out, self.relations, self.weighting = table, [], [], "non-ignorable"
        self.suppressed = []
        self.is_upper_first = False
        self.read(items)
        self.suppress()
        if self.is_upper_first:
            self.put_upper_first()
        self.drop_repeated()
        self.mend_late()
        self.swap_beginnings()
        if self.add_beginnings():
            self.move_late()

    def leave_out(self, what):
        if what not in self.left_out:
            self.left_out.append(what)

    # Items

    def read(self, items):
        chain = Chain()
        for item in items:
            if isinstance(item, Setting):
                self.setting(item.name)
            elif isinstance(item, Reset):
                chain = self.reset(item)
            elif chain.anchor is None or chain.is_empty and item.strength:
                chain.anchor = None
                self.leave_out(f"relations after [{chain.position}]")
            elif chain.expansion not in ("", item.expansion):
                self.leave_out("relations after an expansion")
            else:
                self.relation(item, chain)

    def reset(self, item):
        if item.text[:1] == "\ufdd1":  # CLDR's root has such a place before each group
            return Chain(None, position=f"the place before {item.text[1:]}")
        if not item.is_position:
            return Chain(item.text, item.before)
        anchor = self.table.position(item.text)
        is_empty = anchor is not None and not any(self.table.rows[anchor][0][1:])
        return Chain(anchor, item.before, position=item.text, is_empty=is_empty)

    def setting(self, name):
        word, _, rest = name.partition(" ")
        if name in DONE or word == "optimize":
            return
        if word == "alternate":
            self.weighting = rest
        elif word == "suppressContractions":
            self.suppressed += members(rest.strip("[]"))
        elif name == "caseFirst upper":
            self.is_upper_first = True
        else:
            self.leave_out(next((what for what, it in LEFT_OUT.items() if it == word), f"[{name}]"))

    def relation(self, item, chain):
        if item.prefix:
            self.leave_out("relations with a prefix")
        elif item.strength == 4:
            self.leave_out("relations at level 4")
        elif max(map(len, (chain.anchor, item.target, item.expansion))) > MOST_CODE_POINTS:
            self.leave_out("texts of more than 16 code points")
        else:
            # The anchor is read with its expansion, so an equal one is there already.
            expansion = "" if chain.expansion else item.expansion
            self.relations.append(Placed(chain.anchor, item.strength, item.target, expansion, chain.before))
            chain.anchor, chain.before, chain.expansion = item.target, 0, item.expansion

    # Contractions that the rules take away: each becomes a row of the elements of its characters.

    def suppress(self):
        targets = {it.target for it in self.relations}
        keys = [key for key in self.table.rows if len(key) > 1 and key[0] in self.suppressed and key not in targets]
        self.relations[:0] = [Placed(key[0], 0, key, key[1:]) for key in keys]

    # Upper case first: each letter a to z after its upper-case letter, and so the letters of the rules.

    def put_upper_first(self):
        found, at = [], 0
        while at < len(self.relations):
            end = at + 1
            while end < len(self.relations) and self.relations[end].strength == 3 and self.relations[end].anchor == self.relations[end - 1].target:
                end += 1
            group = self.relations[at:end]
            found += sorted_by_case(group) if group[0].strength in (1, 2) else group
            at = end
        self.relations = [Placed(it.upper(), 3, it) for it in string.ascii_lowercase] + re_anchored(found, self.relations)

    # A target that comes again is where it comes last.

    def drop_repeated(self):
        seen, kept = {it.target: at for at, it in enumerate(self.relations)}, []
        moved = {}
        for at, it in enumerate(self.relations):
            if it.anchor in moved and seen[it.anchor] > at:
                dropped = moved[it.anchor]
                strength = min(it.strength or 4, dropped.strength or 4) % 4
                it = it._replace(anchor=dropped.anchor, strength=strength, before=dropped.before)
            if seen[it.target] > at:
                moved[it.target] = it
            else:
                kept.append(it)
        self.relations = kept

    # Late targets: `&a < b` after `&ab < c`.

    def is_late(self, relation, at):
        """Whether a target occurs in the anchor or the expansion of a relation at this position, its own or that of a later one."""
        earlier = {it.target for it in self.relations[:at]}
        later = [relation.target, *(it.target for it in self.relations[at + 1 :])]
        texts = [text for text in (relation.anchor, relation.expansion) if text and text not in earlier]
        return any(holds(text, target) for text in texts for target in later)

    def mend_late(self):
        """Says it another way, or else moves the relation to the end, or else leaves it out."""
        at, moved = 0, set()
        while at < len(self.relations):
            it = self.relations[at]
            if not self.is_late(it, at):
                at += 1
            elif other := next((way for way in self.other_ways(it, at) if not self.is_late(way, at)), None):
                self.relations[at] = other
            elif it.target not in moved and not holds(it.anchor + it.expansion, it.target):
                moved.add(it.target)
                self.relations.append(self.relations.pop(at))
            else:
                self.relations.pop(at)
                self.leave_out(f"{written(it.anchor)} {SIGNS[it.strength]} {written(it.target)}")
        if moved:
            self.leave_out(f"the old weights of {len(moved)} anchors")

    def other_ways(self, it, at):
        """Other relations that give the target of a relation the same weights."""
        if it.strength == 0:
            first, *rest = parts(it.anchor, {*self.table.rows, *(one.target for one in self.relations[:at])})
            yield it._replace(anchor=first, expansion="".join(rest) + it.expansion)
        elif not it.expansion and not it.before:
            targets = {one.target for one in self.relations}
            keys = [*self.table.same(it.anchor, it.strength), *(self.table.below(it.anchor, it.strength) if it.anchor in targets else [])]
            yield from (it._replace(anchor=key) for key in keys if key not in targets)
            if self.table.are_next(it.anchor, it.target):
                yield Placed(it.target, it.strength, it.anchor, before=it.strength)

    # Beginnings of long targets (well-formedness, condition 5)

    def swap_beginnings(self):
        """Where the beginning of a long target is the next target of its chain, puts it first, and the long one before it."""
        for at, (it, after) in enumerate(zip(self.relations, self.relations[1:])):
            if after.anchor == it.target and after.target in self.beginnings(it.target, self.table.rows) and not it.expansion:
                self.relations[at] = it._replace(target=after.target)
                self.relations[at + 1] = Placed(after.target, after.strength, it.target, before=after.strength)

    def add_beginnings(self):
        """Adds the beginning of each long target that ends in a non-starter, and what keeps the order of other texts, if any is missing."""
        keys, made, added = set(self.table.rows), [], []
        for it in self.relations:
            for beginning in self.beginnings(it.target, keys):
                made.append(self.as_now(beginning, keys))
                keys.add(beginning)
                added.append(beginning)
            made.append(it)
            keys.add(it.target)
        before = keys - set(added)
        count = len(self.relations)
        self.relations = made + [self.as_now(text, before) for text in sorted(self.further(added, keys, before), key=len)]
        return len(self.relations) > count

    def move_late(self):
        """Moves relations after the added rows that occur in their anchors, which read as before then too."""
        at, moved = 0, set()
        while at < len(self.relations):
            it = self.relations[at]
            if it.target in moved or not self.is_late(it, at):
                at += 1
            else:
                moved.add(it.target)
                self.relations.append(self.relations.pop(at))

    def further(self, added, keys, before):
        """The further rows that added ones ask for: without them a key that begins inside an added row would be parted."""
        index = {}
        for key in before:
            index.setdefault(key[0], []).append(key)
        waiting, found = [(it, 0) for it in added], []
        while waiting:
            beginning, depth = waiting.pop(0)
            for text, key in continuations(beginning, index):
                if text not in keys and len(text) <= MOST_CODE_POINTS and parts(text, before)[-1] == key:
                    more = self.beginnings(text, keys)
                    waiting += [(it, depth + 1) for it in more if depth < MOST_ROUNDS]
                    found += [*more, text]
                    keys.update([*more, text])
        return found

    @staticmethod
    def beginnings(target, keys):
        """The beginnings that are missing for a target, shortest first."""
        found = []
        while len(target) > 2 and unicodedata.combining(target[-1]) and target[:-1] not in keys:
            target = target[:-1]
            found.insert(0, target)
        return found

    @staticmethod
    def as_now(text, keys):
        """The relation that gives a text the elements which it has without a row of its own."""
        first = parts(text, keys - {text})[0]
        return Placed(first, 0, text, text[len(first) :])


def case_of(text):
    """0 for an upper-case text, 1 for a mixed one, 2 for others."""
    has_upper, has_lower = (any(test(character) for character in text) for test in (str.isupper, str.islower))
    return 0 if has_upper and not has_lower else 1 if has_upper else 2


def sorted_by_case(group):
    """A relation and those of the third level that follow it, with the upper-case targets first."""
    targets = sorted((it.target for it in group), key=case_of)
    anchors = [group[0].anchor, *targets]
    return [it._replace(anchor=anchor, target=target) for it, anchor, target in zip(group, anchors, targets)]


def re_anchored(relations, before):
    """Relations whose order in a chain has changed, each after the target that is now before it in the chain."""
    made = []
    for it, was in zip(relations, before):
        follows = made and before[len(made) - 1].target == was.anchor
        made.append(it._replace(anchor=made[-1].target) if follows else it)
    return made


def continuations(beginning, index):
    """The texts in which a row for a beginning parts a key, each with that key: the end of the beginning begins it."""
    for at in range(1, len(beginning)):
        end = beginning[at:]
        yield from ((beginning[:at] + key, key) for key in index.get(end[0], ()) if key.startswith(end) and key != end)


# ---- Writing


def written(text):
    """A text of rules: letters, digits and marks as they are, the rest escaped."""
    composed = unicodedata.normalize("NFC", text)
    return "".join(written_character(it, at) for at, it in enumerate(composed if nfd(composed) == text else text))


def written_character(character, at):
    category = unicodedata.category(character)
    is_plain = character.isalnum() if character < "\x80" else category[0] in "LNSP" or category[0] == "M" and at
    if is_plain and character not in WHITE:
        return character
    return f"\\u{ord(character):04X}" if ord(character) < 0x10000 else f"\\U{ord(character):08X}"


def chains(relations):
    """The relations as lines, each a reset and what follows it."""
    line, last = "", None
    for it in relations:
        if it.anchor != last or it.before or len(line) > 110:
            if line:
                yield line
            line = "&" + (f"[before {it.before}] " if it.before else "") + written(it.anchor)
        line += f" {SIGNS[it.strength]} {written(it.target)}" + (f" / {written(it.expansion)}" if it.expansion else "")
        last = it.target
    if line:
        yield line
