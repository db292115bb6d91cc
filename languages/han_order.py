"""Where Han characters come in a Draft. Part of languages/languages.py.

Rules list Han after all scripts (CLDR's `[last regular]`). Where the script order puts Han before other scripts, those that no rule lists need rows too. A few
thousand Han get one weight each. There is no room for more, so the others get two: a lead that they share, and a second weight from 8000 up.
"""
import bz2
import os
import re

from cldr_rules import CldrError
from script_order import HAN, UNICODE
from weight_lists import CORE, IMPLICIT, UNASSIGNED, Draft, Element, Weight

SOURCES = "Unihan_IRGSources.txt.bz2"
# The Han that are used most are in the first levels of GB2312 (simplified) and of Big5 (traditional): their encodings, and the first bytes.
SIMPLIFIED, TRADITIONAL = ("gb2312", range(0xB0, 0xD8)), ("big5", range(0xA4, 0xC7))
LEADS = 64  # room for the leads of Han that no rule lists


def begin(draft: Draft):
    """A place after all old primary weights, where listed Han begin."""
    draft.first_han = draft.levels[0].insert(Weight(group=HAN, is_han=True), draft.levels[0].last)


def by_code(draft: Draft) -> list[int]:
    """All Han in the order of their implicit weights. Characters that a later edition adds move no others."""
    return sorted(draft.leads, key=lambda it: (draft.leads[it], it))


def by_radical(draft: Draft, folder: str = UNICODE) -> list[int]:
    """All Han by radical, whether it is simplified, and strokes (UAX #38, kRSUnicode), as CLDR's root has them; then by block and code point."""
    found = {}
    try:
        with bz2.open(os.path.join(folder, SOURCES), "rt", encoding="utf-8") as file:
            for code, radical, marks, strokes in re.findall(r"^U\+(\w+)\tkRSUnicode\t(\d+)('*)\.(-?\d+)", file.read(), re.M):
                found[int(code, 16)] = int(radical), len(marks), max(0, int(strokes))
    except OSError as error:
        raise CldrError(f"{SOURCES}: {error.strerror}. Debian has it in the package unicode-data: apt install unicode-data") from error

    def block(code):
        return 0 if 0x4E00 <= code <= 0x9FFF else 1 if 0xF900 <= code <= 0xFAFF else 2

    return sorted(draft.leads, key=lambda it: (found.get(it, (999, 0, 0)), block(it), it))


def has_weights(draft: Draft, character: str) -> bool:
    """Whether it has a row that is not made of implicit weights alone."""
    return any(not isinstance(it.weights[0], int) for it in draft.rows.get(character, ()))


def add_rest(draft: Draft, order: list[int], is_fixed: bool):
    """Rows for all Han that have none of their own, after those that have one. Where they are fixed, their second weights are those of their implicit weights."""
    level = draft.levels[0]
    for code in order:
        if not has_weights(draft, chr(code)):
            fixed = (draft.lead_of(code), code & 0x7FFF | IMPLICIT) if is_fixed else None
            draft.han[code] = level.insert(Weight(group=HAN, is_han=True, fixed=fixed), level.last)
            draft.put(chr(code), [draft.element(draft.han[code])])


def follow(draft: Draft):
    """Rows that are made of the implicit weights of a Han character, such as that of a radical, get the weights that the character has now."""
    for key, row in draft.rows.items():
        made, rest = [], list(row)
        while rest:
            first = rest.pop(0)
            code = code_of(first, rest[0]) if rest else None
            one = draft.rows.get(chr(code)) if code is not None else None
            if one and len(one) == 1 and chr(code) != key:
                rest.pop(0)
                first = Element(False, [one[0].weights[0], *first.weights[1:]])
            made.append(first)
        draft.rows[key] = made


def code_of(first: Element, second: Element) -> int | None:
    """The Han character whose implicit weights two elements are."""
    lead, trail = first.weights[0], second.weights[0]
    if isinstance(lead, int) and isinstance(trail, int) and CORE <= lead < UNASSIGNED:
        return (lead & 0x3F) << 15 | trail & 0x7FFF
    return None


def common(kind: str) -> set[str]:
    """The Han that are used most, by the kind of collation."""
    encoding, firsts = TRADITIONAL if kind in ("stroke", "zhuyin", "big5han") else SIMPLIFIED
    found = (bytes((first, second)).decode(encoding, errors="ignore") for first in firsts for second in range(0x40, 0xFF))
    return {it for it in found if len(it) == 1}


def single(draft: Draft, kind: str) -> set[Weight]:
    """The Han weights that stay one weight: all that rules list where there is room, else those that are used most."""
    rest = set(draft.han.values())
    listed = {it for it in draft.levels[0] if it.is_han and it not in rest}
    others = sum(not it.is_han for it in draft.levels[0])
    if others + len(listed) + LEADS < IMPLICIT:
        return listed
    rows = (draft.rows.get(it) for it in common(kind))
    return {row[0].weights[0] for row in rows if row and len(row) == 1} & listed
