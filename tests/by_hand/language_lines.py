"""Lines of a language for tests/by_hand/languages.py: made of its letters, of several scripts, and real ones out of CLDR. They are the same in each run."""
import html
import os
import random
import re
import unicodedata
import xml.etree.ElementTree

from cldr_rules import Relation, Reset, chain, locale_and_kind, members

# Letters of several scripts, digits and signs. The order of scripts shows in them.
MIXED = "aAbzZéßøαΑωΩавгяЯאבתابيगहकগকกฮあいアンー가각힣բեգա中文字語的日本國学0159٣५ -.,!?$€£+=<>©→№½²"
FOLDERS = ("main", "annotations", "annotationsDerived", "subdivisions")
MOST = 80  # characters of a real line


def exemplars(folder, locale, kind):
    """The letters that CLDR lists for a language, of the kind that None or `auxiliary` names; none of the root."""
    for it in chain(locale):
        path = os.path.join(folder, "main", it + ".xml")
        if it != "root" and os.path.exists(path):
            with open(path, encoding="utf-8") as file:
                found = re.findall(r"<exemplarCharacters((?: [^>]*)?)>([^<]*)<", file.read())
            for given, text in found:
                if re.findall(r'type="(\w+)"', given) == ([kind] if kind else []) and "↑" not in text:
                    return [text for text in members(html.unescape(text)) if all(unicodedata.category(c)[0] in "LMN" for c in text)]
    return []


def letters(folder, name):
    locale = locale_and_kind(name)[0]
    return exemplars(folder, locale, None) * 2 + exemplars(folder, locale, "auxiliary")


def named_by(items):
    """The texts that rules name, but for those with a control character, which cannot be part of a line, and those without a character."""
    texts = {it.text for it in items if isinstance(it, Reset) and not it.is_position}
    texts |= {it.prefix + it.target for it in items if isinstance(it, Relation)}
    return sorted(text for text in texts if not any(unicodedata.category(c) in ("Cc", "Cn", "Co") for c in text))


def from_pieces(chance, piece, count):
    """Lines: half of them of random pieces, half of one stem with a piece inside."""
    stems, lines = [[piece() for _ in range(chance.randint(1, 4))] for _ in range(20)], set()
    for _ in range(20 * count):
        if len(lines) < count // 2:
            lines.add("".join(piece() for _ in range(chance.randint(1, 6))))
        else:
            stem, at = chance.choice(stems), chance.randint(0, 4)
            lines.add("".join([*stem[:at], piece(), *stem[at:]]))
        if len(lines) == count:
            break
    return {it for it in lines if it.strip()}


def made(name, given, special, count):
    """Lines of a language's letters, their capitals, and the texts that its rules name."""
    chance = random.Random(name)
    pieces = sorted({*given, *(it.upper() for it in given)}) or special or list("abcdefghijklmnopqrstuvwxyz")
    return sorted(from_pieces(chance, lambda: chance.choice(special if special and chance.random() < 0.4 else pieces), count))


def mixed(name, given, count):
    """Lines of the language's letters and of others."""
    chance, pieces = random.Random(name + " mixed"), sorted({*given, *(it.upper() for it in given)})
    return sorted(from_pieces(chance, lambda: chance.choice(pieces if pieces and chance.random() < 0.3 else MIXED), count))


def real(folder, name, count):
    """Texts of CLDR's own files in a language: names of languages, places, units and signs."""
    locale, found = locale_and_kind(name)[0], set()
    for path in (os.path.join(folder, it, f"{one}.xml") for it in FOLDERS for one in chain(locale) if one != "root"):
        if os.path.exists(path):
            for it in xml.etree.ElementTree.parse(path).iter():
                found.update(text.strip() for text in (it.text or "").split("|"))
    kept = sorted(text for text in found if 0 < len(text) < MOST and "\n" not in text and "↑" not in text)
    random.Random(name).shuffle(kept)
    return sorted(kept[:count])
