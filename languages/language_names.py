"""All languages and variants that CLDR has an order for, by plain names. Part of languages/uca_files.py."""
import os
from collections.abc import Iterator

from cldr_rules import collations, has_rules, kind_and_rules
from language_tags import SHORT_KINDS, parsed

# What CLDR's names of collations are called here. Others keep the names of the tag.
PLAIN = {
    "phonebook": "phone book",
    "dictionary": "dictionary",
    "traditional": "traditional",
    "pinyin": "by pinyin",
    "stroke": "by strokes",
    "zhuyin": "by zhuyin",
    "unihan": "by radicals",
    "big5han": "in the order of Big5",
    "gb2312han": "in the order of GB2312",
    "search": "for search",
    "searchjl": "for search by first consonants",
    "eor": "European rules",
    "compat": "as it was earlier",
    "digits-after": "digits after letters",
}
ROOT = "CLDR's root"


def kinds_of(cldr: str, locale: str) -> Iterator[tuple[str, str]]:
    """The collations of a locale's file, each as the end of its tag and its kind. The first is the default one. A table cannot count accents from the end, so such a
    collation has `kb-false`."""
    default, rules = kind_and_rules(cldr, locale)
    yield "-u-kb-false" if "[backwards 2]" in rules else "", default
    for kind in sorted({it for it in collations(cldr, locale)[0] if not it.startswith("private-")} - {default}):
        yield f"-u-co-{SHORT_KINDS.get(kind, kind)}", kind


def english(cldr: str) -> dict[str, str]:
    """The English names of languages and scripts, by their codes."""
    root = parsed(cldr, os.path.join("main", "en.xml"))
    return {it.get("type"): it.text for name in ("script", "language") for it in root.iter(name) if it.get("alt") is None}


def name_of(locale: str, names: dict[str, str]) -> str:
    """The English name of a locale: its own one, or that of its language with its script or its variant."""
    if locale == "root":
        return ROOT
    before, _, last = locale.rpartition("_")
    return names.get(locale) or f"{name_of(before, names)}, {names.get(last, last)}" if before else names.get(locale, locale)


def languages_of(cldr: str, folder: str) -> list[str]:
    return sorted(it.removesuffix(".xml") for it in os.listdir(os.path.join(cldr, folder)))


def collation_names(cldr: str) -> Iterator[tuple[str, str]]:
    """The names and tags of all collations of CLDR."""
    names = english(cldr)
    for locale in languages_of(cldr, "collation"):
        for end, kind in kinds_of(cldr, locale):
            is_plain = kind in ("standard", "reformed") and "co" not in end
            more = "accents from the beginning" if "kb" in end else "" if is_plain else PLAIN.get(kind, kind)
            yield ", ".join(filter(None, [name_of(locale, names), more])), ("und" if locale == "root" else locale.replace("_", "-")) + end


def all_names(cldr: str) -> Iterator[tuple[str, str]]:
    """The names and tags of all collations of CLDR, and of the other languages that it knows: most of these have the root's order."""
    yield from collation_names(cldr)
    names, have = english(cldr), languages_of(cldr, "collation")
    for locale in languages_of(cldr, "main"):
        if "_" not in locale and locale not in have:
            more = PLAIN[kind_and_rules(cldr, locale)[0]] if has_rules(cldr, locale) else "as the root"
            yield f"{name_of(locale, names)}, {more}", locale
