"""The labels of an index, such as A to Z and then Å Ä Ö, from CLDR's files. Part of languages/languages.py.

A label begins a bucket, which goes up to the next label. A table of Chinese has labels of its own: rows of U+FDD0 and a character. Where the scripts of two
labels differ, the bucket ends after the script of the first one. So does the last bucket.
"""
import html
import os
import re
from collections.abc import Iterator
from itertools import pairwise

import script_order
from cldr_rules import CldrError, chain, members, nfd
from language_tags import Tag
from weight_lists import IMPLICIT, Draft, Weight

OWN = "\ufdd0"  # begins the labels that a table has
STROKES = 0x2800  # and a number of strokes
NO_BUCKET = "\u2026"
FIRST_HAN = "\u4e00"  # the first in the order of implicit weights
LATIN = "ABCDEFGHIJKLMNOPQRSTUVWXYZ"
Letters = tuple[int, ...]


def listed(folder: str, locale: str) -> list[str]:
    """The labels that CLDR lists for a locale, or for the nearest of its parents that has some."""
    for name in chain(locale):
        path = os.path.join(folder, "main", name + ".xml")
        if os.path.exists(path):
            with open(path, encoding="utf-8") as file:
                found = re.search(r'<exemplarCharacters type="index"[^>]*>\[([^<]*)\]<', file.read())
            if found and "\u2191" not in found[1]:
                return members(html.unescape(found[1]))
    raise CldrError(f"{folder}: there is no file main/root.xml of CLDR with the labels of an index")


def own_labels(draft: Draft) -> list[str]:
    """The labels that a table has. With those of pinyin, words in Latin letters have a bucket too."""
    found = [it for it in draft.rows if len(it) == 2 and it[0] == OWN]
    return found + (list(LATIN) if OWN + "A" in found else [])


def shown(text: str) -> str:
    """What stands over the bucket of a label."""
    last = ord(text[-1])
    return f"{last - STROKES}\u5283" if text[0] == OWN and STROKES < last <= STROKES + 0xFF else text.removeprefix(OWN)


def letters_of(draft: Draft, text: str) -> Letters:
    """Level 1 of a text in the numbers of the table."""
    found = (it.weights[0] for it in draft.read(nfd(text)))
    return tuple(it.old if isinstance(it, Weight) else it for it in found if it)


def script_of(text: str, scripts: dict[int, str]) -> str:
    return script_order.HAN if text[0] == OWN else scripts.get(ord(nfd(text)[0]), "")


def first_letters(draft: Draft, scripts: dict[int, str]) -> list[tuple[int, str, str]]:
    """The first primary weight of each character that has a script, with the script and the character, in the order of the weights."""
    found = ((letters_of(draft, key)[:1], scripts.get(ord(key), "Zyyy"), key) for key in draft.rows if len(key) == 1)
    return sorted((letters[0], script, key) for letters, script, key in found if letters and script not in ("Zyyy", "Zinh"))


def ends(rising: list[str], draft: Draft, scripts: dict[int, str]) -> Iterator[str]:
    """Where labels of a script are followed by those of another one, or by none: the first character after the script."""
    letters = first_letters(draft, scripts)
    last = {script: weight for weight, script, _ in letters}
    for label, after in pairwise([*rising, ""]):
        script = script_of(label, scripts)
        if not after or script != script_of(after, scripts):
            yield next((key for weight, _, key in letters if last.get(script, IMPLICIT) < weight < IMPLICIT), FIRST_HAN)


def index_labels(tag: Tag, table: str, data: str, cldr: str, unicode: str = script_order.UNICODE) -> Iterator[tuple[str, str]]:
    """Where each bucket begins, and its label. A label of several characters counts if the table sorts them as one letter."""
    draft, scripts = Draft(table, data), script_order.scripts(unicode)
    found = {}
    for label in own_labels(draft) or listed(cldr, tag.locale):
        letters = letters_of(draft, label)
        if letters and (label[0] == OWN or len(label) == 1 or letters != tuple(it for one in label for it in letters_of(draft, one))):
            found.setdefault(letters, label)
    rising = [found[it] for it in sorted(found)]
    yield from ((it, shown(it)) for it in rising)
    starts = set(found)
    yield from ((it, NO_BUCKET) for it in dict.fromkeys(ends(rising, draft, scripts)) if letters_of(draft, it) not in starts)
