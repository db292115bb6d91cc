"""Makes the weight table of a language from Unicode's table and CLDR's rules. Part of languages/languages.py."""
from collections.abc import Iterator
from itertools import chain

import han_order
import script_order
from cldr_rules import CldrError, Relation, Reset, Setting, items_of, kind_and_rules, members, nfd
from language_tags import Tag, rootless, script_codes
from profile_rules import MOST_CODE_POINTS, MOST_ROUNDS, Translation, continuations, parts
from weight_lists import Draft, Element, Weight

# Settings that ask for nothing which a table or `uca` does not do anyway.
DONE = ("normalization on", "strength 3")
# Which elements of Unicode's table are at a logical position such as `last primary ignorable`, by whether they have each weight.
POSITIONS = {"tertiary ignorable": (False, False, False), "secondary ignorable": (False, False, True), "primary ignorable": (False, True, True)}
FIRST = "\ufdd1"  # CLDR's root has such a place before each group: U+FDD1 and a character of it
WEIGHTINGS = {"noignore": "non-ignorable", "shifted": "shifted"}
FIRST_CASES = {"off": "", "upper": "upper", "lower": "lower"}
# The script, as the head of each table names it: by its place of before, since fingerprints depend on each byte of a table.
MAKER = "tools/languages.py"


class Rules:
    """Takes the rules of a locale one by one. Each changes the rows as they are then."""

    def __init__(self, draft: Draft):
        self.draft = draft
        self.codes: list[str] = []
        self.first_case, self.weighting, self.is_backwards = "", "non-ignorable", False
        self.anchor: list[Element] | None = None
        self.before = self.relations = 0
        self.prefixes: dict[str, str] = {}  # of keys that are a prefix and a target

    def take(self, item: Setting | Reset | Relation):
        if isinstance(item, Setting):
            self.setting(*item.name.partition(" ")[::2])
        elif isinstance(item, Reset):
            self.before = item.before
            self.anchor = self.position(item.text) if item.is_position else self.group(item.text[1:]) if item.text[:1] == FIRST else self.draft.read(item.text)
        else:
            self.relation(item)

    def setting(self, word: str, value: str):
        if word == "reorder":
            self.codes = value.split()
        elif word == "caseFirst" and value in FIRST_CASES:
            self.first_case = FIRST_CASES[value]
        elif word == "alternate" and value in WEIGHTINGS.values():
            self.weighting = value
        elif word == "backwards":
            self.is_backwards = True
        elif word == "suppressContractions":
            firsts = set(members(value.strip("[]")))
            for key in [it for it in self.draft.rows if len(it) > 1 and it[0] in firsts]:
                del self.draft.rows[key]
        elif word != "optimize" and f"{word} {value}" not in DONE:
            raise CldrError(f"[{word} {value}] is a setting that a table cannot have")

    def position(self, name: str) -> list[Element]:
        """The elements at a logical position. Where no character is there, an element without weights is."""
        end, _, group = name.partition(" ")
        if name == "last regular":
            return [self.draft.element(self.draft.first_han)]
        if end not in ("first", "last") or group not in POSITIONS:
            raise CldrError(f"[{name}] is a position that is not known here")
        rows = (row[0] for key, row in self.draft.rows.items() if len(key) == len(row) == 1)
        found = [it for it in rows if tuple(map(bool, it.weights)) == POSITIONS[group]]
        if not found:
            return [Element(False, [None, None, None])]
        return [(min if end == "first" else max)(found, key=lambda it: [weight.old or 0 if weight else 0 for weight in it.weights]).copy()]

    def group(self, character: str) -> list[Element]:
        """A place before the group or script of a character, at the end of the one before it."""
        row = self.draft.rows.get(character)
        if not row or not isinstance(row[0].weights[0], Weight):
            raise CldrError(f"U+FDD1 comes before {character!r}, which has no weight of its own")
        level, group = self.draft.levels[0], row[0].weights[0].group
        first = next(it for it in level if it.group == group)
        return [self.draft.element(level.insert(Weight(group=first.before.group or group), first))]

    def relation(self, item: Relation):
        """A difference at level 4 is none: CLDR's collations look at three levels."""
        strength, draft = item.strength % 4, self.draft
        if self.anchor is None or not item.target:
            raise CldrError(f"a relation has no {'target' if self.anchor else 'anchor'}")
        if self.before not in (0, strength):
            raise CldrError(f"[before {self.before}] is followed by a relation at level {strength}")
        try:
            made = draft.placed(self.anchor, strength, bool(self.before)) if strength else [it.copy() for it in self.anchor]
        except CldrError as error:
            raise CldrError(f"before U+{ord(item.target[0]):04X}: {error}") from error
        self.anchor, self.before = made, 0
        self.relations += 1
        row = [it.copy() for it in chain(made, draft.read(item.expansion))]
        first = 0
        if item.prefix:
            self.prefixes[item.prefix + item.target] = item.prefix
            before = draft.read(item.prefix)
            row, first = before + row, len(before)
        draft.listed[item.prefix + item.target] = item.target, slice(first, first + len(made))
        draft.put(item.prefix + item.target, row)

    def contract(self):
        """A target with a prefix is a key of both (UTS #35 Part 5, section 3.10). It has the elements that the prefix has in the end, and then those of the target."""
        for key, prefix in self.prefixes.items():
            old, now = self.draft.rows[key], self.draft.read(prefix)
            self.draft.put(key, now + old[len(now) :])


# ---- Well-formedness


def add_beginnings(draft: Draft):
    """The beginnings of keys that end in a non-starter (UTS #10, section 9.2, WF5), and keys that keep what other texts are read as. All have the elements that their texts have now."""
    before, keys, added, index = set(draft.rows), set(draft.rows), [], {}
    for key in [it for it in draft.rows if len(it) > 1 and nfd(it) == it]:
        index.setdefault(key[0], []).append(key)
        new = Translation.beginnings(key, keys)
        added += new
        keys.update(new)
    found = further(added, keys, before, index)
    for text, row in [(it, draft.read(it)) for it in chain(added, found)]:
        draft.put(text, row)


def further(added: list[str], keys: set[str], before: set[str], index: dict[str, list[str]]) -> list[str]:
    """The keys that added ones ask for: without them a key that begins inside an added one would be parted."""
    waiting, found = [(it, 0) for it in added], []
    for beginning, depth in waiting:  # which gets longer
        for text, key in continuations(beginning, index):
            if text not in keys and len(text) <= MOST_CODE_POINTS and parts(text, before)[-1] == key:
                more = Translation.beginnings(text, keys)
                waiting += [(it, depth + 1) for it in more if depth < MOST_ROUNDS]
                found += [*more, text]
                keys.update(found[-len(more) - 1 :])
    return found


# ---- The table


class Made:
    """The table of a tag. It is an error if the tag, or a rule, asks for what a table cannot say."""

    def __init__(self, tag: Tag, table: str, data: str, cldr: str, is_short: bool = False, unicode: str = script_order.UNICODE):
        self.tag, self.unicode = tag, unicode
        self.kind = kind_and_rules(cldr, tag.name, is_short)[0]
        items = list(items_of(cldr, tag.name, is_short))
        self.draft = Draft(table, data)
        script_order.set_groups(self.draft, script_order.scripts(unicode))
        script_order.make_root(self.draft)
        han_order.begin(self.draft)
        self.rules = Rules(self.draft)
        for item in items:
            self.rules.take(item)
        self.settings(cldr)
        self.finish()

    def settings(self, cldr: str):
        """What the tag says comes in the place of what the rules say."""
        rules, given = self.rules, self.tag.settings
        if rules.is_backwards and "kb" not in given:
            raise CldrError(
                f"{self.tag.text}: its accents count from the end, which a table cannot say. {self.tag.text.partition('-u-')[0]}-u-kb-false is the order without this"
            )
        rules.first_case = given.get("kf", rules.first_case).replace("false", "")
        rules.weighting = WEIGHTINGS.get(given.get("ka"), rules.weighting)
        rules.codes = script_codes(cldr, given["kr"]) if "kr" in given else rules.codes

    def finish(self):
        """Changes what does not depend on single rules."""
        draft, rules = self.draft, self.rules
        if rules.first_case:
            script_order.put_case_first(draft, rules.first_case)
        rules.contract()
        add_beginnings(draft)
        order = script_order.reordered(draft, rules.codes)
        if order[-1] != script_order.HAN:
            is_radical = self.kind == "unihan"
            han_order.add_rest(draft, han_order.by_radical(draft, self.unicode) if is_radical else han_order.by_code(draft), not is_radical)
            han_order.follow(draft)
        script_order.reorder(draft, order)

    def lines(self) -> Iterator[str]:
        """The table, with comments at its head."""
        version, *rest = self.draft.lines(han_order.single(self.draft, self.kind))
        yield f"# The order of {self.tag.text}, made from Unicode's table and CLDR's files by {MAKER}."
        if not self.tag.has_rules:
            yield f"# {rootless(self.tag)}"
        yield version
        yield f"@variable {self.rules.weighting}"
        yield from (it for it in rest if not it.startswith("@variable"))


def table_of(tag: Tag, table: str, data: str, cldr: str, is_short: bool = False, unicode: str = script_order.UNICODE) -> str:
    return "".join(f"{it}\n" for it in Made(tag, table, data, cldr, is_short, unicode).lines())
