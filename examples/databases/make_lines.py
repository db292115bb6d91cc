#!/usr/bin/env python3
"""Prints made-up lines to sort: names and words of many languages, some of them in two spellings.

    examples/databases/make_lines.py COUNT > lines.txt

The same COUNT gives the same lines each time. There are capitals, accents as one code point and as two, blanks, hyphens, quotes,
backslashes, tabs and carriage returns, empty lines, and texts that occur more than once.
"""
import argparse
import random
import sys
import unicodedata

WORDS = """
    abhor bach bhang Bhopal Bhutan
    Ana Åsa Ægir Ärla Björn Bùi Čapek Chávez Çelik Đorđe Émile Eve Fjällräven François García Gödel Göteborg Håkon Ibáñez İpek Jürgen
    Krüger Łódź Lübeck Maçã Małgorzata Müller Nguyễn Ñandú O'Neill Öland Ørsted Pérez Québec Řehoř résumé Sørensen Şahin São Škoda
    Straße Tórshavn Ústí Václav Věra Wałęsa Žižka Zürich cafe café cafés Cafe côté cote coté côte deluge naïve co-op coop
    resume rôle über ünder zebra Αθήνα Ελένη Θεσσαλονίκη Борис Київ Москва Ёлка שלום ירושלים القاهرة محمد दिल्ली हिन्दी ไทย กรุงเทพ
    東京 大阪 日本語 漢字 서울 부산 𠀋 ﬁn ½ Ⅻ 2026 007 C++ a\\b "x" tab\there cr\rhere \\. e\u0301te
"""
WORDS = [word for line in WORDS.split("\n") for word in line.split(" ") if word]
BETWEEN = [" ", " ", " ", "-", ", ", "", " \u00ad", "/"]


def made_line(source):
    """One line: one to four words, some of them in capitals, some lines decomposed."""
    text = source.choice(WORDS)
    for _ in range(source.randrange(4)):
        text += source.choice(BETWEEN) + source.choice(WORDS)
    kind = source.randrange(12)
    if kind == 0:
        return text.upper()
    if kind == 1:
        return text.lower()
    if kind == 2 and source.randrange(50) == 0:
        return ""
    if kind == 2:
        return unicodedata.normalize("NFD", text)
    if kind < 6:
        return f"{text} {source.randrange(100000)}"
    return text


def main():
    parser = argparse.ArgumentParser(description=__doc__, formatter_class=argparse.RawDescriptionHelpFormatter)
    parser.add_argument("count", type=int, metavar="COUNT", help="how many lines")
    count = parser.parse_args().count
    sys.stdout.reconfigure(encoding="utf-8", newline="\n")
    source = random.Random(10)
    for _ in range(count):
        sys.stdout.write(made_line(source) + "\n")


if __name__ == "__main__":
    main()
