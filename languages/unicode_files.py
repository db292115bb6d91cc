#!/usr/bin/env python3
"""Makes the files that `uca` reads from what Unicode publishes.

    languages/unicode_files.py table > table.txt
    languages/unicode_files.py data > data.txt

Both come from the files of Debian's package unicode-data in /usr/share/unicode, so they are of one edition. `--folder FOLDER` names another folder
with Unicode's files, and `table ALLKEYS` another `allkeys.txt`.

`table` prints a weight table: `allkeys.txt` with rows added after its own. As it is published it is not well-formed (UTS #10, section 9.2, WF5),
since the rows of two keys are missing. These are added, and four more that keep what the file says of the signs after them. `--weighting WEIGHTING` writes a weighting
into it, as tables of languages have one: `uca changes` takes two tables of one weighting.

`data` prints a data file: combining classes and Han ranges, from DerivedCombiningClass.txt, PropList.txt and Blocks.txt. Without these files it takes both from
Python's `unicodedata`, and says so on standard error: that may be another edition. docs/UNICODE.md says more.
"""
import argparse
import os
import re
import signal
import sys
import unicodedata

FOLDER = "/usr/share/unicode"
SOURCES = ("DerivedCombiningClass.txt", "PropList.txt", "Blocks.txt")

# The blocks whose unified ideographs are core Han (UTS #10, section 10.1.3).
CORE_BLOCKS = ("CJK Unified Ideographs", "CJK Compatibility Ideographs")
# The unified ideographs in the second block, for Python's `unicodedata`, which knows no blocks.
COMPATIBLE = {0xFA0E, 0xFA0F, 0xFA11, 0xFA13, 0xFA14, 0xFA1F, 0xFA21, 0xFA23, 0xFA24, 0xFA27, 0xFA28, 0xFA29}

# The two beginnings of Tibetan vowel signs that have no row: the letter, and the sign U+0F71 after it.
LETTERS, SIGN = ("0FB2", "0FB3"), "0F71"


def content(name):
    try:
        with open(name, encoding="utf-8") as file:
            return file.read()
    except OSError as error:
        sys.exit(f"{name}: {error.strerror}. Debian has it in the package unicode-data: apt install unicode-data")
    except UnicodeDecodeError:
        sys.exit(f"{name} is not in UTF-8, so it is no file of Unicode.")


def fields_of(text):
    """The fields of each line of a file of Unicode, without its comment."""
    for line in text.split("\n"):
        fields = [field.strip() for field in line.split("#")[0].split(";")]
        if len(fields) > 1:
            yield fields


def ends_of(field):
    """The ends of `FIRST..LAST`, or of one code point."""
    first, _, last = field.partition("..")
    return int(first, 16), int(last or first, 16)


def ranges(values):
    """The runs of neighbours with one value, as triples, from pairs of a code point and its value in order."""
    first = last = value = None
    for code, now in values:
        if now == value and last is not None and code == last + 1:
            last = code
            continue
        if value is not None:
            yield first, last, value
        first, last, value = code, code, now
    if value is not None:
        yield first, last, value


# ---- The data file


def place(folder, name):
    """Where a file of Unicode is: in the folder, or in its folder `extracted`, as Unicode publishes DerivedCombiningClass.txt."""
    extracted = os.path.join(folder, "extracted", name)
    return extracted if os.path.exists(extracted) else os.path.join(folder, name)


def published_data(folder):
    """The combining classes, the kinds of Han and the edition, from Unicode's files."""
    combining, properties, blocks = (content(place(folder, name)) for name in SOURCES)
    classes = {}
    for field, number in fields_of(combining):
        first, last = ends_of(field)
        if number != "0":
            classes.update(dict.fromkeys(range(first, last + 1), int(number)))
    core = [ends_of(field) for field, name in fields_of(blocks) if name in CORE_BLOCKS]
    han = {}
    for field, name in fields_of(properties):
        first, last = ends_of(field)
        if name == "Unified_Ideograph":
            for code in range(first, last + 1):
                han[code] = "core" if any(low <= code <= high for low, high in core) else "other"
    edition = re.search(r"PropList-([0-9.]+[0-9])", properties)
    return classes, han, f"Unicode {edition[1] if edition else '(no edition is named)'}"


def python_han(code):
    """Whether a code point is core Han or another unified ideograph, by its name."""
    if code in COMPATIBLE:
        return "core"
    if not unicodedata.name(chr(code), "").startswith("CJK UNIFIED IDEOGRAPH-"):
        return None
    return "core" if 0x4E00 <= code <= 0x9FFF else "other"


def python_data():
    """The same from Python."""
    codes = [code for code in range(0x110000) if not 0xD800 <= code <= 0xDFFF]
    classes = {code: unicodedata.combining(chr(code)) for code in codes if unicodedata.combining(chr(code))}
    han = {code: python_han(code) for code in codes if python_han(code)}
    return classes, han, f"Unicode {unicodedata.unidata_version}, from Python's unicodedata"


def print_data(folder):
    if all(os.path.exists(place(folder, name)) for name in SOURCES):
        classes, han, edition = published_data(folder)
    else:
        classes, han, edition = python_data()
        print(f"no files of Unicode in {folder} (Debian: unicode-data): the data are those of {edition}", file=sys.stderr)
    print(f"@data 1\n# Combining classes and Han ranges of {edition}")
    for first, last, value in ranges(sorted(classes.items())):
        print(f"ccc {first:04X}..{last:04X} {value}")
    for first, last, kind in ranges(sorted(han.items())):
        print(f"{kind} {first:04X}..{last:04X}")


# ---- The table


def rows_of(text):
    """The elements of each key of a table, as texts."""
    found = (fields for fields in fields_of(text) if not fields[0].startswith("@"))
    return {fields[0]: fields[1] for fields in found}


def missing(rows):
    """The rows that are missing: a letter and the sign, and these with each vowel that follows the sign in a key."""
    signs = [SIGN] + [key for key in rows if key.startswith(SIGN + " ")]
    for letter in LETTERS:
        if f"{letter} {SIGN}" not in rows and f"{letter} {SIGN} 0F80" in rows:
            for key in signs:
                if f"{letter} {key}" not in rows:
                    yield f"{letter} {key} ; {rows[letter]}{rows[key]}\n"


def print_table(name, weighting=""):
    published = content(name)
    if weighting:
        published = re.sub("^(@version .*\n)", rf"\1@variable {weighting}\n", published, count=1, flags=re.M)
    sys.stdout.write(published + ("" if published.endswith("\n") else "\n"))
    sys.stdout.writelines(missing(rows_of(published)))


def main():
    # A reader such as `head` may close the pipe.
    signal.signal(signal.SIGPIPE, signal.SIG_DFL)
    parser = argparse.ArgumentParser(description=__doc__.split("\n")[0], epilog="docs/UNICODE.md says more.")
    parser.add_argument("what", choices=("table", "data"))
    parser.add_argument("--folder", default=FOLDER, help=f"the folder with Unicode's files ({FOLDER})")
    parser.add_argument("--weighting", choices=("non-ignorable", "shifted"), default="", help="for `table`, the weighting that is written into it")
    parser.add_argument("allkeys", nargs="?", help="for `table`, another allkeys.txt than that of the folder")
    options = parser.parse_args()
    if options.what == "data":
        print_data(options.folder)
    else:
        print_table(options.allkeys or os.path.join(options.folder, "allkeys.txt"), options.weighting)


if __name__ == "__main__":
    main()
