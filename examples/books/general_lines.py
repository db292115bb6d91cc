#!/usr/bin/env python3
"""Prints words and names of many languages: the lines by which general.book was chosen.

    examples/books/general_lines.py > lines.txt
    examples/books/general_lines.py --odd > odd.txt        every second line, from the first on; --even: the others

First there are words of nine languages from Debian's lists of words, as many of each. Then there are the names that iso-codes has: countries, languages,
currencies and scripts, in English and in each language that it has them in. Then there are Han characters, about as often as Unihan counted them in Chinese texts.
The last are numbers. The same editions of these packages always give the same lines.
"""
import argparse
import bz2
import gettext
import glob
import json
import re
import signal
import sys

# The lists of words, by the packages that bring them.
LISTS = {
    "wamerican": "american-english",
    "wngerman": "ngerman",
    "wfrench": "french",
    "wspanish": "spanish",
    "wpolish": "polish",
    "wportuguese": "portuguese",
    "wswedish": "swedish",
    "wdanish": "danish",
    "wcatalan": "catalan",
}
WORDS, CODES, LOCALES = "/usr/share/dict", "/usr/share/iso-codes/json", "/usr/share/locale"
READINGS = "/usr/share/unicode/Unihan_Readings.txt.bz2"

# What is named, and which fields of its rows are names.
NAMES = {
    "iso_3166-1": ("name", "official_name", "common_name"),
    "iso_3166-3": ("name",),
    "iso_639-2": ("name", "common_name"),
    "iso_639-5": ("name",),
    "iso_4217": ("name",),
    "iso_15924": ("name",),
}

# How many words there are of each list, how many numbers, and which part of the counted Han characters.
WORDS_OF_A_LIST, NUMBERS, HAN_PART = 4_000, 2_000, 60


def content(name, package):
    try:
        with open(name, "rb") as file:
            return file.read()
    except OSError as error:
        sys.exit(f"{name}: {error.strerror}. Debian has it in the package {package}.")


def list_of_words(path, package):
    """A list of words in UTF-8, or else in ISO 8859-1, as that of wswedish is."""
    found = content(path, package)
    try:
        return found.decode().split()
    except UnicodeDecodeError:
        return found.decode("iso-8859-1").split()


def words():
    """As many words of each list, at even distances."""
    for package, name in LISTS.items():
        found = list_of_words(f"{WORDS}/{name}", package)
        yield from (found[at * len(found) // WORDS_OF_A_LIST] for at in range(WORDS_OF_A_LIST))


def names():
    """The names in English, and then those in each language that differ from them."""
    for kind, fields in NAMES.items():
        (rows,) = json.loads(content(f"{CODES}/{kind}.json", "iso-codes")).values()
        english = dict.fromkeys(row[field] for row in rows for field in fields if field in row)
        yield from english
        paths = sorted(glob.glob(f"{LOCALES}/*/LC_MESSAGES/{kind}.mo"))
        if not paths:
            sys.exit(f"{LOCALES}: there are no translations of {kind}. Debian has them in the package iso-codes.")
        for path in paths:
            with open(path, "rb") as file:
                language = gettext.GNUTranslations(file)
            yield from (said for said in map(language.gettext, english) if said not in english)


def han():
    """A line for each Han character that Unihan counts in Chinese texts, by its readings: the character as often as its part."""
    text = bz2.decompress(content(READINGS, "unicode-data")).decode()
    for code, counted in re.findall(r"^U\+([0-9A-F]+)\tkHanyuPinlu\t(.*)$", text, re.M):
        total = sum(map(int, re.findall(r"\((\d+)\)", counted)))
        yield chr(int(code, 16)) * max(1, total // HAN_PART)


def main():
    signal.signal(signal.SIGPIPE, signal.SIG_DFL)
    sys.stdout.reconfigure(encoding="utf-8", newline="\n")
    parser = argparse.ArgumentParser(description=__doc__.split("\n")[0], epilog="examples/books/README.md says more.")
    half = parser.add_mutually_exclusive_group()
    half.add_argument("--odd", action="store_true", help="every second line, from the first on")
    half.add_argument("--even", action="store_true", help="every second line, from the second on")
    given = parser.parse_args()
    lines = [*words(), *names(), *han(), *map(str, range(NUMBERS))]
    sys.stdout.writelines(f"{line}\n" for line in lines[int(given.even) :: 2 if given.odd or given.even else 1])


if __name__ == "__main__":
    main()
