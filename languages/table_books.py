"""Makes a book for the table of a language, so that compact keys by this table are short. Part of languages/uca_files.py.

A book fits the table whose weights it names. examples/books/general.book fits Unicode's own. Where a language leaves the letters in their order, `uca changes` and
`uca book` make the book that fits its table. It is taken where the language's own letters are short by it, as those of Latin languages are. For all others a book
is chosen by texts that CLDR has in the language. Lines of English and numbers are among them, since most lists have some.

The same table and the same files of Unicode and CLDR always give the same book. languages/uca_files.py makes none of files of another edition than the table's.
"""
import io
import os
import re
import sys
import tempfile
import xml.etree.ElementTree

import languages
import unicode_files
from cldr_rules import CldrError, chain

BOOKS = f"{os.path.dirname(os.path.dirname(os.path.realpath(__file__)))}/examples/books"
sys.path.append(BOOKS)
import choose_book

# The book for Unicode's own table of this edition.
GENERAL, EDITION = f"{BOOKS}/general.book", "15.0.0"
# Letters are short if so many of them take at most so many bytes.
LETTERS, BYTES = 8, 9

# Where CLDR has texts in a language, and what is no text: patterns, lists of characters, and what a locale takes from its parent.
FOLDERS, NO_TEXT, LONGEST = ("main", "annotations"), re.compile(r"[{}\[\]#¤↑\n]"), 80
# A locale with fewer texts takes those of its parents too.
FEWEST = 300
# For so many lines of the language there is one of English, and for so many one of the numbers below 2,000.
ENGLISH, NUMBER, NUMBERS = 4, 16, 2_000


# ---- Lines


def texts_in(path):
    """The texts of a file of CLDR, none where there is no such file. Words for a sign are apart."""
    try:
        root = xml.etree.ElementTree.parse(path).getroot()
    except FileNotFoundError:
        return set()
    except (OSError, xml.etree.ElementTree.ParseError) as error:
        raise CldrError(f"{path}: {error}") from error
    found = {text.strip() for it in root.iter() for text in (it.text or "").split(" | ")}
    return {it for it in found if 0 < len(it) <= LONGEST and not NO_TEXT.search(it)}


def lines_of(folder, locale):
    """The texts that CLDR has in a language: names of languages, places, days and units, and words for signs."""
    found = set()
    for it in chain(locale):
        if it != "root" and len(found) < FEWEST:
            found = found.union(*(texts_in(os.path.join(folder, one, f"{it}.xml")) for one in FOLDERS))
    return sorted(found)


def evenly(lines, count):
    """So many of some lines, at even distances, or all of them if there are fewer."""
    count = min(count, len(lines))
    return [lines[at * len(lines) // count] for at in range(count)]


def with_others(lines, english):
    """The lines of a language, with English ones and numbers among them."""
    count = max(len(lines), FEWEST)
    return [*lines, *evenly(english, count // ENGLISH), *evenly([*map(str, range(NUMBERS))], count // NUMBER)]


# ---- Books


def sample_of(options, table, data, lines):
    """What choose_book.py counts in the shifted keys of these lines: they serve for both weightings."""
    out, said = languages.run([languages.program(options), "keys", "--weighting", "shifted", table, data], "".join(f"{it}\n" for it in lines))
    if said:
        raise CldrError(f"{table}: {said}")
    return choose_book.read_sample(io.BytesIO(out.encode()), "shifted")


def chosen(sample, table):
    """The text of a book by the lines of a sample, for both weightings."""
    return choose_book.book_by(sample, "both", choose_book.OTHERS, *choose_book.table_weights(table))[0]


def image(options, folder, table, data):
    """The text of general.book for a table, by the changes from Unicode's own. It is empty where these are of another edition, or cannot be had."""
    base = languages.write_by(unicode_files.print_table, os.path.join(folder, "unicode"), os.path.join(options.unicode, "allkeys.txt"))
    with open(base, encoding="utf-8") as own, open(table, encoding="utf-8") as file:
        if not re.search(f"^@version {re.escape(EDITION)}$", own.read(), re.M):
            return ""
        base = languages.with_setting(folder, file.read(), base)
    base_data = languages.write_by(unicode_files.print_data, os.path.join(folder, "data"), options.unicode)
    program, certificate = languages.program(options), os.path.join(folder, "certificate")
    _, said = languages.run([program, "changes", base, base_data, table, data, certificate])
    return "" if said else languages.run([program, "book", certificate, GENERAL])[0]


def serves(book, sample):
    """Whether the letters of a sample are short by a book."""
    counts = sample.counts(1)
    return LETTERS * choose_book.bytes_of(counts, choose_book.starts_in(book, 1), 1) <= BYTES * sum(counts.values())


def write_book(options, tag, table, data, to, lines=None):
    """Writes a book for the table of a tag. The options name the program (`uca`) and the folders of CLDR's and Unicode's files (`cldr`, `unicode`). Other lines than
    those of the language can be given."""
    own = lines_of(options.cldr, tag.locale) if lines is None else lines
    with tempfile.TemporaryDirectory() as folder:
        book = image(options, folder, table, data)
    if not book or own and not serves(book, sample_of(options, table, data, own)):
        book = chosen(sample_of(options, table, data, with_others(own, lines_of(options.cldr, "en"))), table)
    languages.write(to, book)
