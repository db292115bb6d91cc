"""The order of scripts, CLDR's root, and upper or lower case first, over a Draft. Part of languages/languages.py.

In Unicode's table the primary weights of each script stand together. Before the letters come groups of signs. CLDR's root is that table with some changes
(UTS #35 Part 5, section 2). Numbers that are no digits stand after the currency signs. ₨ and ﷼ are currency signs, and U+10A7F is punctuation. Only spaces and
punctuation are variable. CLDR also has weights for U+FFFE and U+FFFF, which are no characters: these are not made.
"""
import os
import unicodedata
from itertools import pairwise

from cldr_rules import CldrError
from weight_lists import Draft, Element, Weight

UNICODE = "/usr/share/unicode"
SPECIAL = ("space", "punct", "symbol", "currency", "digit")
# The first character of each group before the letters, in the order of Unicode's table. Digits end with 9.
FIRSTS = {" ": "space", "_": "punct", "`": "symbol", "\u09f4": "number", "\u02d0": "modifier", "\u00a4": "currency", "0": "digit"}
CURRENCIES = "\u20a8\ufdfc"  # Unicode's table sorts these as their letters
INDICATOR = "\U00010a7f"  # Unicode's table has it among the numbers
KANA, HAN = "Kana", "Hani"
# The tertiary weights of capitals, and of large kana and narrow signs, which count as capitals (UTS #10, table 17, and UTS #35 Part 5, section 3.14)
UPPER = {0x08, 0x09, 0x0A, 0x0B, 0x0C, 0x0E, 0x11, 0x12, 0x1D}
CASES = {"upper": (0, 1, 2), "lower": (2, 1, 0)}  # capitals are 0, mixed texts 1, and all others 2


# ---- Groups


def fields_of(folder: str, name: str):
    """The fields of each line of a file of Unicode."""
    try:
        with open(os.path.join(folder, name), encoding="utf-8") as file:
            for line in file:
                fields = [it.strip() for it in line.split("#")[0].split(";")]
                if len(fields) > 1:
                    yield fields
    except OSError as error:
        raise CldrError(f"{name}: {error.strerror}. Debian has it in the package unicode-data: apt install unicode-data") from error


def scripts(folder: str = UNICODE) -> dict[int, str]:
    """The code of the script of each code point, such as `Latn`. Hiragana and Katakana sort together, so they are one."""
    codes = {fields[2]: fields[1] for fields in fields_of(folder, "PropertyValueAliases.txt") if fields[0] == "sc"}
    found = {}
    for field, name in fields_of(folder, "Scripts.txt"):
        first, _, last = field.partition("..")
        code = KANA if codes[name] == "Hira" else codes[name]
        found.update(dict.fromkeys(range(int(first, 16), int(last or first, 16) + 1), code))
    return found


def first_weights(draft: Draft) -> dict[Weight, str]:
    """The first weight of each group before the letters. It is an error if they do not come in the order of Unicode's table."""
    found = {}
    for character, group in FIRSTS.items():
        row = draft.rows.get(character)
        if not row or len(row) != 1 or not isinstance(row[0].weights[0], Weight):
            raise CldrError(f"the table has no weight of U+{ord(character):04X}: is it Unicode's own?")
        found[row[0].weights[0]] = group
    if any(one.old >= other.old for one, other in pairwise(found)):
        raise CldrError(f"the groups {', '.join(FIRSTS.values())} do not come in this order in the table: is it Unicode's own?")
    return found


def set_groups(draft: Draft, script: dict[int, str]):
    """Gives each old primary weight its group. After the digits it is the script of the characters that have it alone; without such it is that before it."""
    codes: dict[Weight, set[str]] = {}
    for key, row in draft.rows.items():
        if len(key) == len(row) == 1 and isinstance(row[0].weights[0], Weight):
            codes.setdefault(row[0].weights[0], set()).add(script.get(ord(key), ""))
    firsts, now, is_letter = first_weights(draft), "space", False
    nine = draft.rows["9"][0].weights[0]
    for weight in draft.levels[0]:
        found = codes.get(weight, set()) - {"", "Zyyy", "Zinh"}
        if is_letter and found and now not in found:
            now = min(found)
        now = firsts.get(weight, now)
        weight.group = now
        is_letter = is_letter or weight is nine


# ---- The order of groups


def order_of(codes: list[str], groups: list[str]) -> list[str]:
    """All groups in the order that these codes ask for (UTS #35 Part 5, section 3.12): groups of signs first, and all others after those that are named."""
    wanted = [KANA if it in ("Hira", "Hrkt") else "others" if it == "Zzzz" else it for it in codes]
    for at, it in enumerate(wanted):
        if it in wanted[:at]:
            raise CldrError(f"the script order names {it} twice")
        if it not in groups and it not in ("others", HAN):
            raise CldrError(f"the script order names {it}: the table has no letters of it with weights of their own")
    rest = [it for it in groups if it not in SPECIAL and it not in wanted] + ([] if HAN in wanted else [HAN])
    wanted = wanted if "others" in wanted else [*wanted, "others"]
    signs = [it for it in SPECIAL if it not in wanted]
    return signs + [it for code in wanted for it in (rest if code == "others" else [code])]


def make_root(draft: Draft):
    """The changes of CLDR's root."""
    if INDICATOR in draft.rows:
        draft.rows[INDICATOR][0].weights[0].group = "punct"
    for row in draft.rows.values():
        for element in row:
            element.is_variable = element.is_variable and element.weights[0].group in ("space", "punct")
    for weight in draft.levels[0]:
        weight.group = {"modifier": "symbol", "number": "digit"}.get(weight.group, weight.group)
    for character in CURRENCIES:
        draft.put(character, [draft.element(draft.levels[0].insert(Weight(group="currency"), draft.levels[0].last))])


def groups_of(draft: Draft) -> dict[str, list[Weight]]:
    """The weights of level 1, by their groups."""
    found: dict[str, list[Weight]] = {it: [] for it in SPECIAL}
    for weight in draft.levels[0]:
        found.setdefault(weight.group, []).append(weight)
    return found


def reordered(draft: Draft, codes: list[str]) -> list[str]:
    """All groups in the order that these codes ask for."""
    return order_of(codes, [it for it in groups_of(draft) if it != HAN])


def reorder(draft: Draft, order: list[str]):
    """Puts the groups of level 1 in this order."""
    groups = groups_of(draft)
    for name in order:
        for weight in groups.get(name, ()):
            draft.levels[0].move(weight, draft.levels[0].last)


# ---- Upper or lower case first


def case_of(element: Element) -> int:
    """The case of an element of the old table, by its tertiary weight."""
    weight = element.weights[2]
    return 0 if weight and weight.old in UPPER else 2


def cases_of(draft: Draft, key: str, row: list[Element]) -> list[int]:
    """The case of each element of a row. The elements of a rule's target have the cases of its letters in the old table, and the last one that of all the rest."""
    cases = [case_of(it) for it in row]
    if key in draft.listed:
        target, own = draft.listed[key]
        letters = [case_of(it) for it in draft.read_old(target) if it.weights[0]]
        count = sum(bool(it.weights[0]) for it in row[own])
        if 0 < count < len(letters):
            rest = set(letters[count - 1 :])
            letters = [*letters[: count - 1], rest.pop() if len(rest) == 1 else 1]
        left = iter(letters)
        cases[own] = [next(left, 2) if it.weights[0] else 2 for it in row[own]]
    return cases


def put_case_first(draft: Draft, first: str):
    """Upper or lower case first (UTS #35 Part 5, section 3.14). Elements of the first case stay. Of letters with capitals, those of the other cases get new tertiary weights."""
    level, order = draft.levels[2], CASES[first]
    pairs = [pair for key, row in draft.rows.items() for pair in zip(row, cases_of(draft, key, row))]
    cases = [(it, it.weights[0] or it.weights[1], case) for it, case in pairs if any(it.weights[:2]) and it.weights[2]]
    cased = {letter for _, letter, case in cases if case < 2}
    moved = [(it, case) for it, letter, case in cases if letter in cased and case != order[0]]
    wanted, copies = {(case, it.weights[2]) for it, case in moved}, {}
    # a mark of level 3 alone weighs more than all others there (UTS #10, section 9.2, WF2)
    marks = {it.weights[2] for row in draft.rows.values() for it in row if not any(it.weights[:2]) and it.weights[2]}
    weights = list(level)
    at = next((it for it in weights if it in marks), level.last)
    for case in order[1:]:
        for weight in weights:
            if (case, weight) in wanted:
                copies[case, weight] = level.insert(Weight(), at)
    for element, case in moved:
        element.weights[2] = copies[case, element.weights[2]]
