"""What the checks of bindings share: how they run commands, the files of examples/ and their fingerprints, and lists of words. Part of bindings.py."""
import hashlib
import os
import random
import re
import shutil
import subprocess
import sys

import packages

TOP = os.path.dirname(os.path.dirname(os.path.dirname(os.path.realpath(__file__))))
C, PYTHON, EXAMPLES = f"{TOP}/bindings/c", f"{TOP}/bindings/python", f"{TOP}/examples"
ARCHIVES = [f"{TOP}/crates/{it}/out/lib{it}.a" for it in ("uca_c", "uca_command_in_memory")]
LINES = ["lines.txt", "words_danish.txt", "words_spanish.txt", "words_swedish.txt"]
# A weighting, and a depth as the extension of SQLite takes it.
SETTINGS = [[], ["non-ignorable"], ["shifted"], ["non-ignorable", "identical"], ["shifted", "identical"]]
SETTINGS += [["shifted", "numeric"], ["non-ignorable", "identical numeric"]]
# Lines with numbers, which the files of examples/ do not have.
NUMBERED = "a10\na9\na09\n\u00e12b10\n7\n007\n0\na99999999\na100000000\na 1\n12345678901234567890\n".encode()


class NotHere(Exception):
    """Something that a check needs is not here."""


def need(*commands):
    for it in commands:
        if not shutil.which(it):
            raise NotHere(f"there is no {it}")


def run(words, **named):
    """What a command prints. It fails if its status is not 0."""
    ran = subprocess.run(words, stdout=subprocess.PIPE, stderr=subprocess.PIPE, **named)
    if ran.returncode:
        raise AssertionError(f"{' '.join(words)}: status {ran.returncode}\n{(ran.stdout + ran.stderr).decode(errors='replace')[-2000:]}")
    return ran.stdout


def same(found, wanted, what):
    if found != wanted:
        raise AssertionError(f"{what}: {found!r:.300}\n  in place of {wanted!r:.300}")


def content(path):
    with open(path, "rb") as it:
        return it.read()


def options(setting):
    return [*(["--weighting", setting[0]] if setting else []), *(f"--{it}" for it in " ".join(setting[1:]).split())]


def numbered(lines):
    """The lines of a file of examples/, and lines with numbers."""
    return content(f"{EXAMPLES}/{lines}") + NUMBERED


def files_for(work, setting):
    """The files of examples/. Where numbers are ordered by value, the table has the ten digits too."""
    table = f"{EXAMPLES}/table.txt"
    if "numeric" in " ".join(setting):
        table = f"{work}/with_digits.txt"
        with open(table, "wb") as it:
            it.write(content(f"{EXAMPLES}/table.txt") + DIGITS.encode())
    return [table, f"{EXAMPLES}/data.txt"]


def fingerprint_of(table, data, weighting="shifted", depth="weights", book=None):
    """The fingerprint of files and settings, as uca.h says: of compact keys if there is a book."""
    sums = [hashlib.sha256(content(it)).hexdigest() for it in (table, data)]
    its_depth = "depth identical\n" if "identical" in depth else "depth weights\n"
    its_depth += "numbers by value\n" if "numeric" in depth else ""
    text = f"uca keys 1\nunicode 18.0.0\nweighting {weighting}\n{its_depth}table {sums[0]}\ndata {sums[1]}\n"
    keys = hashlib.sha256(text.encode()).hexdigest()
    if book is None:
        return keys
    return hashlib.sha256(f"uca compact keys 1\nkeys {keys}\nbook {hashlib.sha256(content(book)).hexdigest()}\n".encode()).hexdigest()


TABLE, TAILORED, DATA = (f"{EXAMPLES}/{it}.txt" for it in ("table", "tailored", "data"))
BOOK = f"{EXAMPLES}/books/general.book"
USED, OTHER = (fingerprint_of(it, DATA) for it in (TABLE, TAILORED))
COMPACT = fingerprint_of(TABLE, DATA, book=BOOK)
# The next edition: `e` is a letter, `ch` is none any more, and each of a to d has a weight more.
NEW_TABLE, NEW_DATA, CHANGES, CERTIFICATE = (f"{EXAMPLES}/editions/{it}.txt" for it in ("table", "data", "changes", "certificate"))
EDITIONS = [TABLE, DATA, NEW_TABLE, NEW_DATA, CHANGES, CERTIFICATE]
NEXT = fingerprint_of(NEW_TABLE, NEW_DATA)
NEXT_COMPACT = fingerprint_of(NEW_TABLE, NEW_DATA, book=BOOK)
# The letters a and b have cells of one weight, and so has the space.
SMALL_BOOK = "@book 1\n1 1C47\n1 1C48\n1 1C60\n1 1C61\n1 2000\n4 0209\n4 020A\n"


def small_book(folder):
    """The path of a small book in a folder."""
    with open(f"{folder}/small.book", "w", encoding="utf-8") as it:
        it.write(SMALL_BOOK)
    return it.name


def quoted(text):
    """The text in a statement of SQL."""
    return "'" + text.replace("'", "''") + "'"


PHONE_BOOK = "de-u-co-phonebk"


def keep_language(folder, tag, table, data=DATA, edition="15.0.0-cldr41", book=None):
    """Puts the files of a language where an administrator keeps them."""
    place = f"{folder}/{edition}/{tag}"
    os.makedirs(place, mode=0o755)
    for file, name in ((table, "table.txt"), (data, "data.txt"), (book, "book.txt")):
        if file:
            shutil.copyfile(file, f"{place}/{name}")
            os.chmod(f"{place}/{name}", 0o644)
    return place


def keep_languages(folder):
    """A phone book whose bz comes before bh, and two editions of Polish, whose bh comes before bz."""
    keep_language(folder, PHONE_BOOK, TAILORED, book=BOOK)
    for edition in ("15.0.0-cldr41", "16.0.0-cldr46"):
        keep_language(folder, "pl", TABLE, edition=edition)


# Calls without a fingerprint, and what they make by the small book and without one: hexadecimal digits.
MADE_BY_BOOK = [
    ("uca_key('')", "03", "000000000000"),
    ("uca_key('a')", "0A03", "1C4700000020000000020000FFFF"),
    ("uca_key('Á')", "0A068B8F04A505", "1C470000002000240000000800020000FFFFFFFF"),
    ("uca_key('b a')", "0C0A02030102", "1C601C470000002000200000000200020000FFFF0209FFFF"),
    ("uca_key('Á', 1)", "0A00", "1C47"),
    ("uca_key('A', 2)", "0A01", "1C4700000020"),
    ("uca_key('Á', 2)", "0A068B8F00", "1C47000000200024"),
    ("uca_range_low('Á', 1)", "0A00", "1C47"),
    ("uca_range_high('Á', 1)", "0A07", "1C470001"),
    ("uca_range_low('Á', 2)", "0A068B8F00", "1C47000000200024"),
    ("uca_range_high('Á', 2)", "0A068B8F05", "1C470000002000240001"),
    ("uca_range_high('A', 2)", "0A06", "1C47000000200001"),
    ("uca_prefix_low('b Á')", "0C0A", "1C601C47"),
    ("uca_prefix_high('b Á')", "0C0AFF", "1C601C47FFFF"),
    ("uca_prefix_low('')", "", ""),
    ("uca_prefix_high('')", "FF", "FFFF"),
]


def with_fingerprint(call, fingerprint):
    """The call, which names its files by this fingerprint: uca_key('a', 1) is uca_key('a', FINGERPRINT, 1)."""
    return re.sub(r"^(\w+\((?:CAST\([^()]*\)|[^,()]*))", lambda it: f"{it[1]}, '{fingerprint}'", call)


# Texts of an index on keys, and what some ranges have of them, in order.
LOOKED_THROUGH = "('a'), ('Á'), ('ab'), ('A-'), ('-'), ('Abc'), ('b'), ('ch')"
LOOKUPS = [("uca_range_{}('A', 1)", "a A- Á"), ("uca_prefix_{}('Ab')", "ab Abc"), ("uca_prefix_{}('c')", ""), ("uca_prefix_{}('')", "- a A- Á ab Abc b ch"),
           ("uca_prefix_{}(' ')", "- a A- Á ab Abc b ch"), ("uca_range_{}(' ', 1)", "-"), ("uca_range_{}('A', 2)", "a A-")]
# Texts that go into a unique index on keys through so many levels, and one that does not.
UNIQUES = [(1, "('a'), ('b'), ('ab')", "('Á')"), (1, "('a'), (' '), (NULL), (NULL)", "('')"), (2, "('a'), ('á'), ('b')", "('A')")]
# Rows of the ten digits, whose weights rise from 1C3D on. In the next edition the digit 2 has another weight.
DIGITS = "".join(f"003{it} ; [.1C{0x3D + it:02X}.0020.0002]\n" for it in range(10))
VOLUMES = "('Band 10'), ('Band 2'), ('Band 1'), ('Band 02'), ('Band 1a'), ('Band 100')"
IN_VALUES = "Band 1,Band 1a,Band 02,Band 2,Band 10,Band 100"
DIGIT_MAPS = ["1 0209 0209 0001", "1 020D 020D 0001", "1 1AA0 1AA0 0001", "1 1C3D 1C3D 0002", "1 1C40 1C40 0008"]
DIGIT_MAPS += [f"1 {it} {it} 0001" for it in ("1C60", "1C7A", "1C7B", "1C8F", "1D18")]
DIGIT_MAPS += ["2 0020 0020 0001", "2 0024 0024 0002", "2 002C 002C 0001", "3 0002 0002 0001", "3 0008 0008 0001"]


def digit_files(folder):
    """The six files of an upgrade of the digits, in this folder."""
    old = content(TABLE).decode() + DIGITS
    new = old.replace("@version 1", "@version 2").replace("0032 ; [.1C3F.0020.0002", "0032 ; [.1C3F.0020.0008")
    maps = "".join(it + "\n" for it in DIGIT_MAPS)
    for name, text in (("old", old), ("new", new), ("changes", "@changes 1\ntext 0032\n"), ("maps", maps)):
        with open(f"{folder}/{name}.txt", "w", encoding="utf-8") as it:
            it.write(text)
    return [f"{folder}/old.txt", DATA, f"{folder}/new.txt", DATA, f"{folder}/changes.txt", f"{folder}/maps.txt"]


# Texts that the next edition does not affect, and their whole keys by both editions, under shifted: hexadecimal digits.
MENDED = [
    ("", "000000000000", "000000000000"),
    ("a", "1C4700000020000000020000FFFF", "1C4800000020000000020000FFFF"),
    ("Á", "1C470000002000240000000800020000FFFFFFFF", "1C480000002000240000000800020000FFFFFFFF"),
    ("b a", "1C601C470000002000200000000200020000FFFF0209FFFF", "1C611C480000002000200000000200020000FFFF0209FFFF"),
    ("hc", "1D181C7A0000002000200000000200020000FFFFFFFF", "1D181C7B0000002000200000000200020000FFFFFFFF"),
    ("一", "FB40CE0000000020000000020000FFFFFFFF", "FB40CE0000000020000000020000FFFFFFFF"),
]
AFFECTED = ["ch", "c-h", "bach", "e", "bed", "é", "\U0001f600", "a\u0324", "\U00021000"]


def compacted(program, keys, book):
    """What `uca compact` prints of what `uca keys` prints, under shifted."""
    return run([program, "compact", "--weighting", "shifted", book], input=keys)


def list_of_words(path):
    """A list of words in UTF-8, or else in ISO 8859-1, as that of wswedish is."""
    found = content(path)
    try:
        return found.decode().split()
    except UnicodeDecodeError:
        return found.decode("iso-8859-1").split()


def words(count):
    """So many words, as many of each language as there are, shuffled."""
    lists = []
    for name in packages.LISTS.values():
        path = f"{packages.WORDS}/{name}"
        if not os.path.exists(path):
            raise NotHere(f"there is no {path}")
        lists.append(list_of_words(path))
    chosen = random.Random(1)
    found = {word for it in lists for word in chosen.sample(it, min(len(it), count // len(lists) + 1000))}
    return chosen.sample(sorted(found), count)


def unicode_files(work, program):
    """Unicode's table and data file, and the table that is tailored for Danish."""
    if not os.path.exists(program):
        raise NotHere(f"there is no {program}")
    if not os.path.exists(packages.NEW_KEYS):
        raise NotHere(f"there is no {packages.NEW_KEYS}")
    for kind in ("table", "data"):
        made = run([sys.executable, f"{TOP}/languages/unicode_files.py", kind])
        with open(f"{work}/{kind}.txt", "wb") as it:
            it.write(made)
    made = run([program, "tailor", f"{work}/table.txt", f"{work}/data.txt", f"{EXAMPLES}/rules_danish.txt", f"{work}/certificate.txt"])
    with open(f"{work}/tailored.txt", "wb") as it:
        it.write(made)
    return f"{work}/data.txt", [f"{work}/table.txt", f"{work}/tailored.txt"]


def found_lines(lookups):
    """One line for each list of numbers."""
    return "".join(" ".join(map(str, numbers)) + "\n" for _, lists in lookups for numbers in lists)
