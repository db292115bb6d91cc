"""Tests of the module, over a small table. Expected keys and orders are worked out by hand."""
import array
import concurrent.futures
import contextlib
import copy
import ctypes.util
import functools
import gc
import hashlib
import itertools
import mmap
import multiprocessing
import os
import pickle
import random
import re
import subprocess
import sys
import tempfile
import threading
import types
import typing
import unittest
import unittest.mock

import uca

TABLE = b"""@version 1
@implicitweights 17000..18AFF; FB00
0020 ; [*0209.0020.0002]
0061 ; [.1C47.0020.0002]
0041 ; [.1C47.0020.0008]
0062 ; [.1C60.0020.0002]
0300 ; [.0000.0025.0002]
0301 ; [.0000.0024.0002]
0323 ; [.0000.002C.0002]
"""

DATA = b"""@data 1
ccc 0300..0314 230
ccc 0323..0323 220
core 4E00..9FFF
other 20000..20FFF
"""

#: Its blank is a letter, unless another weighting is named.
NON_IGNORABLE = TABLE.replace(b"@version 1\n", b"@version 1\n@variable non-ignorable\n")

#: The letters a and b have cells of one weight, and so has the space.
BOOK = b"""@book 1
1 1C47
1 1C48
1 1C60
1 1C61
1 2000
4 0209
4 020A
"""

#: The next edition: b moves up, and the new letter c has its weight. U+0324 is a new accent of the class 220.
NEW_TABLE = TABLE.replace(b"@version 1", b"@version 2").replace(b"0062 ; [.1C60", b"0062 ; [.1C61").replace(b"0300 ;", b"0063 ; [.1C60.0020.0002]\n0300 ;")
NEW_DATA = DATA.replace(b"0323..0323", b"0323..0324")
CHANGES = b"@changes 1\ntext 0063\nrange 0324..0324\n"
CERTIFICATE = b"""1 0209 0209 0001
1 1C47 1C47 0001
1 1C60 1C61 0001
2 0020 0020 0001
2 0024 0024 0002
2 002C 002C 0001
3 0002 0002 0001
3 0008 0008 0001
"""
EDITIONS = (TABLE, DATA, NEW_TABLE, NEW_DATA, CHANGES, CERTIFICATE)

#: The ten digits, whose weights rise from 1C3D on. In the next edition the digit 2 has another weight at level 3.
NUMBERS = TABLE + b"".join(b"003%d ; [.1C%02X.0020.0002]\n" % (it, 0x3D + it) for it in range(10))
NEW_NUMBERS = NUMBERS.replace(b"@version 1", b"@version 2").replace(b"0032 ; [.1C3F.0020.0002", b"0032 ; [.1C3F.0020.0008")
NUMBERS_CERTIFICATE = b"""1 0209 0209 0001
1 1C3D 1C3D 0002
1 1C40 1C40 0008
1 1C60 1C60 0001
2 0020 0020 0001
2 0024 0024 0002
2 002C 002C 0001
3 0002 0002 0001
3 0008 0008 0001
"""
NUMBER_EDITIONS = (NUMBERS, DATA, NEW_NUMBERS, DATA, b"@changes 1\ntext 0032\n", NUMBERS_CERTIFICATE)

#: The beginning of a program that stands for a Python without the interpreter's lock: the module is told so, and its calls of the library let
#: other threads run meanwhile.
WITHOUT_LOCK = """
import ctypes, sysconfig
found = sysconfig.get_config_var
sysconfig.get_config_var = lambda name: name == "Py_GIL_DISABLED" or found(name)
ctypes.PyDLL = ctypes.CDLL
import uca
assert not uca._HAS_INTERPRETER_LOCK
"""


def hexadecimal(words):
    return bytes.fromhex(words)


def fingerprint_of(table, data, weighting, depth, numeric=False):
    """The fingerprint as uca.h says it."""
    sums = [hashlib.sha256(it).hexdigest() for it in (table, data)]
    numbers = ["numbers by value"] if numeric else []
    lines = ["uca keys 1", "unicode 18.0.0", f"weighting {weighting}", f"depth {depth}", *numbers]
    lines += [f"table {sums[0]}", f"data {sums[1]}"]
    return hashlib.sha256("".join(it + "\n" for it in lines).encode()).hexdigest()


def compact_fingerprint_of(keys, book):
    """The fingerprint of compact keys as uca.h says it, from that of the whole keys."""
    lines = ["uca compact keys 1", f"keys {keys}", f"book {hashlib.sha256(book).hexdigest()}"]
    return hashlib.sha256("".join(it + "\n" for it in lines).encode()).hexdigest()


@contextlib.contextmanager
def files(table=TABLE, data=DATA, book=BOOK):
    """The paths of the table and the data file, in a folder that is removed. The folder has the book too."""
    with tempfile.TemporaryDirectory() as folder:
        *paths, book_path = [os.path.join(folder, name) for name in ("table.txt", "data.txt", "my.book")]
        for path, content in zip([*paths, book_path], (table, data, book)):
            write(path, content)
        yield paths


def book_beside(path):
    """The path of the book that is beside a file."""
    return os.path.join(os.path.dirname(path), "my.book")


def write(path, content):
    with open(path, "wb") as it:
        it.write(content)


def ran(program, *arguments, **environment):
    """A run of a program of Python, which finds the module of these tests."""
    folders = [os.path.dirname(os.path.dirname(uca.__file__)), os.path.dirname(os.path.abspath(__file__))]
    environment = {**os.environ, "PYTHONPATH": os.pathsep.join(folders), **environment}
    return subprocess.run([sys.executable, "-c", program, *arguments], stdout=subprocess.PIPE, stderr=subprocess.PIPE, env=environment, timeout=60)


class Keys(unittest.TestCase):
    def setUp(self):
        self.collator = uca.Collator(TABLE, DATA, "non-ignorable")
        self.addCleanup(self.collator.close)

    def test_values(self):
        for text, key in [
            ("", "0000 0000"),
            ("a", "1C47 0000 0020 0000 0002"),
            ("\u00e1", "1C47 0000 0020 0024 0000 0002 0002"),
            ("a\u0301", "1C47 0000 0020 0024 0000 0002 0002"),
            (b"ab", "1C47 1C60 0000 0020 0020 0000 0002 0002"),
        ]:
            with self.subTest(text=text):
                self.assertEqual(self.collator.key(text), hexadecimal(key))

    def test_long_key_and_then_short(self):
        self.assertEqual(len(self.collator.key("a" * 1000)), 6004)
        self.assertEqual(self.collator.key("a"), hexadecimal("1C47 0000 0020 0000 0002"))

    def test_sorted(self):
        self.assertEqual(sorted(["b", "\u00e1", "A", "a", "ab"], key=self.collator.key), ["a", "A", "\u00e1", "ab", "b"])

    def test_compare(self):
        for left, right, found in [
            ("Aa", "ab", (-1, 1)),
            ("\u00e1", "a", (1, 2)),
            ("a", "A", (-1, 3)),
            ("\u00e1", "a\u0301", (0, 0)),
        ]:
            with self.subTest(left=left, right=right):
                self.assertEqual(self.collator.compare(left, right), found)
                self.assertEqual(uca.compare_keys(self.collator.key(left), self.collator.key(right), 3), found)

    def test_rejected_texts(self):
        for text, kind in [(b"\xff", "Utf8"), ("\ud800", "Utf8"), ("a" + "\u0301" * 65, "LongRun"), ("a" * 1048577, "TooLong")]:
            with self.subTest(kind=kind):
                with self.assertRaises(uca.TextError) as caught:
                    self.collator.key(text)
                self.assertEqual(caught.exception.kind, kind)
                with self.assertRaises(uca.TextError) as caught:
                    self.collator.compare("a", text)
                self.assertEqual(caught.exception.kind, kind)
        self.assertEqual(len(self.collator.key("a" + "\u0301" * 64)), 2 + 2 + 130 + 2 + 130)

    def test_all_lengths(self):
        for length in [*range(70), *(2**it + more for it in range(6, 18) for more in (-1, 0, 1))]:
            key = b"\x1c\x47" * length + b"\0\0" + b"\0\x20" * length + b"\0\0" + b"\0\x02" * length
            self.assertEqual(self.collator.key(b"a" * length), key)

    def test_keys_that_are_longer_than_their_room(self):
        table = TABLE + b"0063 ; " + b"[.1C7A.0020.0002]" * 18 + b"\n"
        with uca.Collator(table, DATA, "non-ignorable") as collator:
            self.assertEqual(collator.key("c" * 300), b"\x1c\x7a" * 5400 + b"\0\0" + b"\0\x20" * 5400 + b"\0\0" + b"\0\x02" * 5400)


#: whole and compact keys by the book, for each weighting and depth
COMPACT_KEYS = [
    ("shifted", False, "", "0000 0000 0000", "03"),
    ("shifted", False, "a", "1C47 0000 0020 0000 0002 0000 FFFF", "0A 03"),
    ("shifted", False, "ab", "1C47 1C60 0000 0020 0020 0000 0002 0002 0000 FFFF FFFF", "0A 0C 03"),
    ("shifted", False, "\u00e1", "1C47 0000 0020 0024 0000 0002 0002 0000 FFFF FFFF", "0A 06 8B 8F 02"),
    ("shifted", False, "A", "1C47 0000 0020 0000 0008 0000 FFFF", "0A 05 A5 01"),
    ("shifted", False, " ", "0000 0000 0000 0209", "04 01 01 00"),
    ("shifted", True, "a", "1C47 0000 0020 0000 0002 0000 FFFF 0000 000061", "0A 03 61"),
    ("non-ignorable", False, "a", "1C47 0000 0020 0000 0002", "08 02"),
    ("non-ignorable", False, "\u00e1", "1C47 0000 0020 0024 0000 0002 0002", "08 04 63 67 01"),
]


class CompactKeys(unittest.TestCase):
    """Keys by a book."""

    def setUp(self):
        self.collator = uca.Collator(TABLE, DATA, "shifted", book=BOOK)
        self.addCleanup(self.collator.close)

    def test_values(self):
        for weighting, identical, text, whole, compact in COMPACT_KEYS:
            with self.subTest(text=text, weighting=weighting), uca.Collator(TABLE, DATA, weighting, identical, book=BOOK) as collator:
                self.assertEqual(collator.key(text), hexadecimal(compact))
                for of in (bytes, bytearray, memoryview):
                    self.assertEqual(collator.compact(of(hexadecimal(whole))), hexadecimal(compact))
                    self.assertEqual(collator.expand(of(hexadecimal(compact))), hexadecimal(whole))

    def test_sorted(self):
        texts = ["b", "\u00e1", "A", "a", "ab", "a b", " ", ""]
        with uca.Collator(TABLE, DATA) as whole:
            self.assertEqual(sorted(texts, key=self.collator.key), sorted(texts, key=whole.key))
            for left, right in itertools.product(texts, repeat=2):
                self.assertEqual(self.collator.compare(left, right), whole.compare(left, right))

    def test_all_lengths(self):
        for length in [*range(70), *(2**it + more for it in range(6, 18) for more in (-1, 0, 1))]:
            key = b"\x0a" * length + b"\x03"
            self.assertEqual(self.collator.key(b"a" * length), key)
            self.assertEqual(self.collator.compact(self.collator.expand(key)), key)

    def test_rejected_texts(self):
        for text, kind in [(b"\xff", "Utf8"), ("a" + "\u0301" * 65, "LongRun"), ("a" * 1048577, "TooLong")]:
            calls = [lambda: self.collator.key(text), lambda: self.collator.key(text, 1), lambda: self.collator.range(text), lambda: self.collator.prefix_range(text)]
            for call in calls:
                with self.assertRaises(uca.TextError) as caught:
                    call()
                self.assertEqual(caught.exception.kind, kind)

    def test_bytes_that_are_no_keys(self):
        for call, given, kind in [
            (self.collator.expand, "", "NoCompactKey"),
            (self.collator.expand, "0A", "NoCompactKey"),
            (self.collator.expand, "0A 03 03", "NoCompactKey"),
            (self.collator.expand, "0A 00", "NoCompactKey"),
            (self.collator.compact, "", "OtherKey"),
            (self.collator.compact, "1C", "OtherKey"),
            (self.collator.compact, "1C47 0000 0020 0000 0002", "OtherKey"),
        ]:
            with self.subTest(given=given), self.assertRaises(uca.StoredKeyError) as caught:
                call(hexadecimal(given))
            self.assertEqual((caught.exception.kind, str(caught.exception)), (kind, f"key: {kind}"))
        for call in (self.collator.expand, self.collator.compact):
            for given in ("0A03", 5, None, [10, 3], array.array("i", [97])):
                self.assertRaises(TypeError, call, given)

    def test_no_book(self):
        with uca.Collator(TABLE, DATA) as collator:
            for call in (collator.compact, collator.expand):
                with self.assertRaises(uca.NoBookError) as caught:
                    call(b"\x0a\x03")
                self.assertEqual(str(caught.exception), "the collator has no book")

    def test_closed(self):
        self.collator.close()
        for call in (self.collator.key, self.collator.range, self.collator.prefix_range, self.collator.expand, self.collator.compact):
            self.assertRaises(uca.ClosedError, call, b"a")

    def test_rejected_books(self):
        for book, line, kind in [
            (b"", 1, "Order"),
            (b"@book 1\n1 1C48\n1 1C47\n", 3, "Order"),
            (b"@book 1\n2 1C47\n", 2, "Line"),
            (b"@book 1\n1 1c47\n", 2, "Weight"),
            (b"@book 1\n" + b"".join(b"1 %04X\n" % it for it in range(2, 248)), 247, "Limit"),
        ]:
            for of in (bytes, bytearray):
                with self.subTest(line=line, kind=kind), self.assertRaises(uca.FileError) as caught:
                    uca.Collator(TABLE, DATA, book=of(book))
                error = caught.exception
                self.assertEqual((error.role, error.line, error.kind, str(error)), ("book", line, kind, f"book: line {line}: {kind}"))
        for table, data, role in [(b"x", DATA, "table"), (TABLE, b"x", "data")]:
            with self.assertRaises(uca.FileError) as caught:
                uca.Collator(table, data, book=b"x")
            self.assertEqual(caught.exception.role, role)
        self.assertRaises(TypeError, uca.Collator, TABLE, DATA, book=5)
        self.assertRaises(FileNotFoundError, uca.Collator, TABLE, DATA, book="")

    def test_fingerprints(self):
        whole = fingerprint_of(TABLE, DATA, "shifted", "weights")
        kept = compact_fingerprint_of(whole, BOOK)
        self.assertEqual(self.collator.fingerprint, kept)
        with uca.Collator(TABLE, DATA, book=BOOK, fingerprint=kept) as collator:
            self.assertEqual(collator.fingerprint, kept)
        other = BOOK.replace(b"1 2000\n", b"")
        for book, found in [(None, whole), (other, compact_fingerprint_of(whole, other))]:
            with self.assertRaises(uca.FingerprintError) as caught:
                uca.Collator(TABLE, DATA, book=book, fingerprint=kept)
            self.assertEqual((caught.exception.wanted, caught.exception.found), (kept, found))
        self.assertRaises(uca.FingerprintError, uca.Collator, TABLE, DATA, "non-ignorable", book=BOOK, fingerprint=kept)
        self.assertRaises(uca.FingerprintError, uca.Collator, TABLE, DATA, book=BOOK, fingerprint=whole)
        self.assertRaises(uca.FileError, uca.Collator, TABLE, DATA, book=b"", fingerprint=kept)


#: both ends of ranges: of the keys with the same letters (1), the same letters and accents (2), and the same letters at the beginning (None)
WHOLE_RANGES = [
    ("a", 1, "1C47", "1C47 0001"),
    ("\u00c1", 1, "1C47", "1C47 0001"),
    ("", 1, "", "0001"),
    ("a", 2, "1C47 0000 0020", "1C47 0000 0020 0001"),
    ("\u00c1", 2, "1C47 0000 0020 0024", "1C47 0000 0020 0024 0001"),
    ("ab", None, "1C47 1C60", "1C47 1C60 FFFF"),
    ("", None, "", "FFFF"),
]
COMPACT_RANGES = [
    ("a", 1, "0A 00", "0A 07"),
    ("\u00c1", 1, "0A 00", "0A 07"),
    ("", 1, "00", "07"),
    ("a", 2, "0A 01", "0A 06"),
    ("A", 2, "0A 01", "0A 06"),
    ("\u00c1", 2, "0A 06 8B 8F 00", "0A 06 8B 8F 05"),
    ("", 2, "01", "06"),
    ("ab", None, "0A 0C", "0A 0C FF"),
    ("", None, "", "FF"),
]


def read_by_value(text):
    """What is read of a text with numeric=True, as uca.h says it."""

    def written(found):
        digits = found[0].lstrip("0") or "0"
        nines, last = divmod(len(digits) - 1, 8)
        return "9" * nines + str(last + 1) + digits

    return re.sub("[0-9]+", written, text)


class Beginnings(unittest.TestCase):
    """The first bytes of keys, and how many bytes keys have at most."""

    def collators(self):
        """A collator of whole keys and one of compact keys, each with its key of "ab" by hand."""
        yield from [
            (uca.Collator(TABLE, DATA, "non-ignorable"), hexadecimal("1C47 1C60 0000 0020 0020 0000 0002 0002")),
            (uca.Collator(TABLE, DATA, "shifted", book=BOOK), hexadecimal("0A 0C 03")),
        ]

    def test_values(self):
        for collator, key in self.collators():
            for length in [*range(len(key) + 3), 1000, sys.maxsize]:
                for text in ("ab", b"ab", bytearray(b"ab")):
                    self.assertEqual(collator.key_beginning(text, length), key[:length])
            self.assertEqual(collator.key_beginning("", 0), b"")

    def test_long_keys(self):
        # A letter of 18 weights: its key has more bytes than the first room for it.
        table = TABLE + b"0063 ; " + b"[.1C7A.0020.0002]" * 18 + b"\n"
        key = b"\x1c\x7a" * 5400 + b"\0\0" + b"\0\x20" * 5400 + b"\0\0" + b"\0\x02" * 5400
        with uca.Collator(table, DATA, "non-ignorable") as collator:
            for length in (0, 1, 8, 2463, 2464, 2465, len(key) - 1, len(key), len(key) + 1, sys.maxsize):
                self.assertEqual(collator.key_beginning("c" * 300, length), key[:length])

    def test_bounds(self):
        # 518 times the length and 8 more; with a book twice that and one more; at most the greatest size_t
        for (collator, _), bounds in zip(self.collators(), [(8, 526, 1044, 518_000_008), (17, 1053, 2089, 1_036_000_017)]):
            self.assertEqual(tuple(map(collator.key_bound, (0, 1, 2, 1_000_000))), bounds)
            self.assertEqual(collator.key_bound(sys.maxsize), 2 * sys.maxsize + 1)

    def test_other_lengths(self):
        for collator, _ in self.collators():
            for call in (collator.key_bound, lambda length: collator.key_beginning("a", length)):
                for length in (-1, sys.maxsize + 1, 2**64):
                    self.assertRaises(ValueError, call, length)
                for length in ("1", 1.0, None):
                    self.assertRaises(TypeError, call, length)

    def test_rejected_texts(self):
        for collator, _ in self.collators():
            for text, kind, position in [(b"a\xff", "Utf8", 1), ("a" + "\u0301" * 65, "LongRun", 1), ("a" * 1048577, "TooLong", None)]:
                for length in (0, 8):
                    with self.assertRaises(uca.TextError) as caught:
                        collator.key_beginning(text, length)
                    self.assertEqual((caught.exception.kind, caught.exception.position), (kind, position))
            self.assertRaises(TypeError, collator.key_beginning, 5, 1)

    def test_closed(self):
        for collator, _ in self.collators():
            collator.close()
            self.assertRaises(uca.ClosedError, collator.key_beginning, "a", 1)
            self.assertRaises(uca.ClosedError, collator.key_bound, 1)


class Orders(unittest.TestCase):
    """The order of any texts and bytes."""

    def setUp(self):
        self.collator = uca.Collator(TABLE, DATA, "non-ignorable")
        self.addCleanup(self.collator.close)

    def test_values(self):
        # accepted texts by their weights, and then all others by their bytes: 61 62 FF, 61 CC 81 and so on, ED A0 80 of a lone surrogate, F8, FF
        in_order = ["", "a", "A", "\u00e1", "ab", "b", b"ab\xff", "a" + "\u0301" * 65, "\ud800", b"\xf8", b"\xff", b"\xffa"]
        for left, right in itertools.product(range(len(in_order)), repeat=2):
            wanted = (left > right) - (left < right)
            self.assertEqual(self.collator.order(in_order[left], in_order[right]), wanted, (left, right))
        shuffled = random.Random(1).sample(in_order, len(in_order))
        self.assertEqual(sorted(shuffled, key=functools.cmp_to_key(self.collator.order)), in_order)

    def test_equal_texts(self):
        for left, right in [("\u00e1", "a\u0301"), ("a", b"a"), (b"\xff", bytearray(b"\xff")), ("\ud800", b"\xed\xa0\x80")]:
            self.assertEqual(self.collator.order(left, right), 0)

    def test_errors(self):
        for left, right in [(5, "a"), ("a", None), (array.array("i", [97]), "a")]:
            self.assertRaises(TypeError, self.collator.order, left, right)
        self.collator.close()
        self.assertRaises(uca.ClosedError, self.collator.order, "a", b"\xff")


class Numbers(unittest.TestCase):
    """Numbers by their values: "a10" is read as "a210", and "007" as "17"."""

    def setUp(self):
        self.collator = uca.Collator(NUMBERS, DATA, "non-ignorable", numeric=True)
        self.addCleanup(self.collator.close)

    def test_values(self):
        for text, key in [
            ("ab", "1C47 1C60 0000 0020 0020 0000 0002 0002"),
            ("7", "1C3E 1C44 0000 0020 0020 0000 0002 0002"),
            ("007", "1C3E 1C44 0000 0020 0020 0000 0002 0002"),
            ("a10", "1C47 1C3F 1C3E 1C3D 0000 0020 0020 0020 0020 0000 0002 0002 0002 0002"),
            (b"\xc3\xa17", "1C47 1C3E 1C44 0000 0020 0024 0020 0020 0000 0002 0002 0002 0002"),
        ]:
            with self.subTest(text=text):
                self.assertEqual(self.collator.key(text), hexadecimal(key))
        with uca.Collator(NUMBERS, DATA, "non-ignorable") as as_text:
            self.assertEqual(as_text.key("007"), hexadecimal("1C3D 1C3D 1C44 0000 0020 0020 0020 0000 0002 0002 0002"))

    def test_texts_that_are_read(self):
        read = [read_by_value(it) for it in ("a10", "007", "0a9b", "9" * 17)]
        self.assertEqual(read, ["a210", "17", "10a19b", "991" + "9" * 17])
        chosen = random.Random(1)
        texts = ["".join(chosen.choices("0000112789ab\u0301\u00e1 -", k=chosen.randint(0, 40))) for _ in range(2000)]
        with uca.Collator(NUMBERS, DATA, "non-ignorable") as as_text:
            for text in [*texts, *("7" * length for length in range(1, 200))]:
                self.assertEqual(self.collator.key(text), as_text.key(read_by_value(text)), text)
            for left, right in zip(texts, texts[1:]):
                found = as_text.compare(read_by_value(left), read_by_value(right))
                self.assertEqual(self.collator.compare(left, right), found)

    def test_sorted(self):
        volumes = ["Band 10", "Band 2", "Band 1", "Band 02", "Band 100", "Band"]
        in_order = ["Band", "Band 1", "Band 2", "Band 02", "Band 10", "Band 100"]
        self.assertEqual(sorted(volumes, key=self.collator.key), in_order)
        with uca.Collator(NUMBERS, DATA, "non-ignorable", True, numeric=True) as identical:
            in_order[2:4] = ["Band 02", "Band 2"]
            self.assertEqual(sorted(volumes, key=identical.key), in_order)
        with uca.Collator(NUMBERS, DATA, "non-ignorable", numeric=False) as as_text:
            in_order = ["Band", "Band 02", "Band 1", "Band 10", "Band 100", "Band 2"]
            self.assertEqual(sorted(volumes, key=as_text.key), in_order)

    def test_compare(self):
        for left, right, found, identical in [
            ("Band 9", "Band 10", (-1, 1), (-1, 1)),
            ("a7", "a007", (0, 0), (1, 4)),
            ("a2\u0301", "a2", (1, 2), (1, 2)),
            ("\u00e112", "a\u030112", (0, 0), (0, 0)),
        ]:
            with self.subTest(left=left), uca.Collator(NUMBERS, DATA, "non-ignorable", True, numeric=True) as deep:
                self.assertEqual(self.collator.compare(left, right), found)
                self.assertEqual(deep.compare(left, right), identical)

    def test_limits(self):
        self.assertEqual(self.collator.key("0" * 5_000_000), hexadecimal("1C3E 1C3D 0000 0020 0020 0000 0002 0002"))
        for text, kind in [("9" * 1_048_576, "TooLong"), ("1" + "\u0301" * 65, "LongRun"), (b"1\xff", "Utf8")]:
            with self.assertRaises(uca.TextError) as caught:
                self.collator.key(text)
            self.assertEqual(caught.exception.kind, kind)
        with uca.Collator(NUMBERS, DATA, "non-ignorable", True, numeric=True) as identical:
            self.assertEqual(len(identical.key("0" * 2_000_000)), 4 + 2 + 4 + 2 + 4 + 2 + 3 * 2_000_000)

    def test_ranges(self):
        texts = ["a1", "a01", "a1b", "a10", "a100", "a2", "a"]
        for book in (None, BOOK):
            with uca.Collator(NUMBERS, DATA, numeric=True, book=book) as collator:
                for (low, high), found in [
                    (collator.prefix_range("a1"), ["a1", "a01", "a1b"]),
                    (collator.range("a1"), ["a1", "a01"]),
                    (collator.range("a010", levels=2), ["a10"]),
                ]:
                    self.assertEqual([it for it in texts if low <= collator.key(it) < high], found)

    def test_compact_keys(self):
        with uca.Collator(NUMBERS, DATA, "non-ignorable", numeric=True, book=BOOK) as compact:
            for text in ("7", "a10", "ab", "\u00e1007"):
                self.assertEqual(compact.expand(compact.key(text)), self.collator.key(text))
                self.assertEqual(compact.compact(self.collator.key(text)), compact.key(text))

    def test_fingerprints(self):
        for weighting, identical in itertools.product(("non-ignorable", "shifted"), (False, True)):
            depth = "identical" if identical else "weights"
            kept = fingerprint_of(NUMBERS, DATA, weighting, depth, numeric=True)
            with uca.Collator(NUMBERS, DATA, weighting, identical, numeric=True, fingerprint=kept) as collator:
                self.assertEqual(collator.fingerprint, kept)
            as_text = fingerprint_of(NUMBERS, DATA, weighting, depth)
            for numeric, wanted, found in [(False, kept, as_text), (True, as_text, kept)]:
                with self.assertRaises(uca.FingerprintError) as caught:
                    uca.Collator(NUMBERS, DATA, weighting, identical, numeric=numeric, fingerprint=wanted)
                self.assertEqual((caught.exception.wanted, caught.exception.found), (wanted, found))
        with uca.Collator(NUMBERS, DATA, book=BOOK, numeric=True) as compact:
            whole = fingerprint_of(NUMBERS, DATA, "shifted", "weights", numeric=True)
            self.assertEqual(compact.fingerprint, compact_fingerprint_of(whole, BOOK))

    def test_copies(self):
        with files(table=NUMBERS) as paths:
            for book in (None, book_beside(paths[0])):
                with uca.Collator(*paths, "non-ignorable", numeric=True, book=book) as collator:
                    for it in copies(collator):
                        self.assertEqual((it.key("a10"), it.fingerprint), (collator.key("a10"), collator.fingerprint))
                        self.assertEqual(it.compare("a9", "a10"), (-1, 1))
                        it.close()

    def test_upgrades(self):
        for asked in itertools.product((None, "shifted", "non-ignorable"), (False, True)):
            old, new = (uca.Collator(*NUMBER_EDITIONS[at : at + 2], *asked, numeric=True) for at in (0, 2))
            with old, new:
                kept = old.fingerprint
                with uca.Upgrade(*NUMBER_EDITIONS, *asked, numeric=True, fingerprint=kept) as upgrade:
                    self.assertEqual((upgrade.old_fingerprint, upgrade.new_fingerprint), (kept, new.fingerprint))
                    for text in ("", "a", "7", "007", "A 7b0", "\u00e11"):
                        self.assertIs(upgrade.affected(text), False)
                        self.assertEqual(upgrade.rekey(old.key(text)), new.key(text))
                    for text in ("2", "10", "a 34"):
                        self.assertIs(upgrade.affected(text), True)
                self.assertRaises(uca.FingerprintError, uca.Upgrade, *NUMBER_EDITIONS, *asked, fingerprint=kept)
        with uca.Upgrade(*NUMBER_EDITIONS) as as_text:
            self.assertEqual([as_text.affected(it) for it in ("2", "10", "a 34")], [True, False, False])

    def test_values_of_the_setting(self):
        for numeric in ("no", 1, None):
            self.assertRaises(TypeError, uca.Collator, NUMBERS, DATA, numeric=numeric)
            self.assertRaises(TypeError, uca.Upgrade, *EDITIONS, numeric=numeric)
        self.assertRaises(TypeError, uca.Collator, NUMBERS, DATA, None, False, True)


class Ranges(unittest.TestCase):
    """Ranges of keys, and keys through some levels."""

    def collators(self):
        for book, ranges in ((None, WHOLE_RANGES), (BOOK, COMPACT_RANGES)):
            with uca.Collator(TABLE, DATA, "shifted", book=book) as collator:
                yield collator, ranges

    def test_values(self):
        for collator, ranges in self.collators():
            for text, levels, low, high in ranges:
                ends = hexadecimal(low), hexadecimal(high)
                if levels is None:
                    self.assertEqual(collator.prefix_range(text), ends)
                else:
                    self.assertEqual(collator.range(text, levels), ends)
                    self.assertEqual(collator.range(text, levels=levels).high, ends[1])
                    self.assertEqual(collator.key(text, levels), ends[0])
                    self.assertEqual(collator.key(text, levels=levels), ends[0])
            self.assertEqual(collator.range("a"), collator.range("a", 1))

    def test_texts_that_are_found(self):
        texts = ["", " ", "a", "A", "\u00e1", "\u00c1", "a ", "ab", "Ab", "\u00e1b", "abb", "b", "ba", "\u4e00", "a\u4e00"]
        letters = [("a", ["a", "A", "\u00e1", "\u00c1", "a "]), ("", ["", " "]), ("\u00c1b", ["ab", "Ab", "\u00e1b"])]
        accents = [("a", ["a", "A", "a "]), ("\u00c1", ["\u00e1", "\u00c1"])]
        for collator, _ in self.collators():
            for text, found, levels in [*((*it, 1) for it in letters), *((*it, 2) for it in accents)]:
                low, high = collator.range(text, levels)
                self.assertEqual([it for it in texts if low <= collator.key(it) < high], found)
                self.assertEqual([it for it in texts if collator.key(it, levels) == collator.key(text, levels)], found)
            for text, found in [("ab", ["ab", "Ab", "\u00e1b", "abb"]), ("b", ["b", "ba"]), ("", texts), ("\u4e00", ["\u4e00"])]:
                low, high = collator.prefix_range(text)
                self.assertEqual([it for it in texts if low <= collator.key(it) < high], found)

    def test_other_levels(self):
        for collator, _ in self.collators():
            for call in (collator.key, collator.range):
                for levels in (0, 3, -1, 2**64):
                    self.assertRaises(ValueError, call, "a", levels)
                for levels in ("1", 1.0, b"1"):
                    self.assertRaises(TypeError, call, "a", levels)
            self.assertRaises(TypeError, collator.range, "a", None)


class Upgrades(unittest.TestCase):
    """From TABLE and DATA to NEW_TABLE and NEW_DATA. The letter b is the only one whose weight moves."""

    KEYS = [
        ("", "0000 0000", "0000 0000"),
        ("a", "1C47 0000 0020 0000 0002", "1C47 0000 0020 0000 0002"),
        ("b", "1C60 0000 0020 0000 0002", "1C61 0000 0020 0000 0002"),
        ("\u00e1b", "1C47 1C60 0000 0020 0024 0020 0000 0002 0002 0002", "1C47 1C61 0000 0020 0024 0020 0000 0002 0002 0002"),
        ("\u4e00", "FB40 CE00 0000 0020 0000 0002", "FB40 CE00 0000 0020 0000 0002"),
    ]

    def setUp(self):
        self.upgrade = uca.Upgrade(*EDITIONS, weighting="non-ignorable")
        self.addCleanup(self.upgrade.close)

    def test_keys(self):
        for text, old, new in self.KEYS:
            with self.subTest(text=text):
                self.assertIs(self.upgrade.affected(text), False)
                self.assertEqual(self.upgrade.rekey(hexadecimal(old)), hexadecimal(new))

    def test_keys_are_those_of_collators(self):
        texts = ["", "a", "b", "A b", "\u00e1b", "b" * 5000, "ba\u0323\u0301", "\u4e00", "\U00020000", "d"]
        for weighting, identical in itertools.product((None, "shifted", "non-ignorable"), (False, True)):
            settings = {"weighting": weighting, "identical": identical}
            with uca.Collator(TABLE, DATA, **settings) as old, uca.Collator(NEW_TABLE, NEW_DATA, **settings) as new:
                with uca.Upgrade(*EDITIONS, **settings, fingerprint=old.fingerprint) as upgrade:
                    self.assertEqual([upgrade.affected(it) for it in texts], [False] * len(texts))
                    self.assertEqual([upgrade.rekey(old.key(it)) for it in texts], [new.key(it) for it in texts])
                    self.assertEqual((upgrade.old_fingerprint, upgrade.new_fingerprint), (old.fingerprint, new.fingerprint))

    def test_affected(self):
        for text, affected in [("c", True), ("acb", True), (b"c", True), ("a\u0324", True), ("C", False), ("d", False), ("\u00e7", True), ("", False)]:
            with self.subTest(text=text):
                self.assertIs(self.upgrade.affected(text), affected)

    def test_compact_keys(self):
        texts = ["a", "b", "\u00e1b", "A b", "\u4e00"]
        with uca.Collator(TABLE, DATA, book=BOOK) as old, uca.Collator(NEW_TABLE, NEW_DATA, book=BOOK) as new, uca.Upgrade(*EDITIONS) as upgrade:
            self.assertEqual([new.compact(upgrade.rekey(old.expand(old.key(it)))) for it in texts], [new.key(it) for it in texts])

    def test_rejected_texts(self):
        for text, kind in [(b"\xff", "Utf8"), ("a" * (2**20 + 1), "TooLong"), ("a" + "\u0301" * 65, "LongRun"), ("\ud800", "Utf8")]:
            with self.subTest(kind=kind):
                with self.assertRaises(uca.TextError) as caught:
                    self.upgrade.affected(text)
                self.assertEqual(caught.exception.kind, kind)

    def test_bytes_that_are_no_keys(self):
        for key in (b"", b"\x1c", hexadecimal("1C47 0000 0020"), hexadecimal("1C50 0000 0020 0000 0002"), hexadecimal("1C47 0000 0021 0000 0002")):
            with self.subTest(key=key):
                with self.assertRaises(uca.StoredKeyError) as caught:
                    self.upgrade.rekey(key)
                self.assertEqual(caught.exception.kind, "NoImage")

    def test_values(self):
        key = hexadecimal("1C60 0000 0020 0000 0002")
        for it in (bytearray(key), memoryview(key), array.array("B", key)):
            self.assertEqual(self.upgrade.rekey(it), hexadecimal("1C61 0000 0020 0000 0002"))
        for it in ("b", 5, None, array.array("H", [1])):
            self.assertRaises(TypeError, self.upgrade.rekey, it)
        for it in (5, None, ["c"]):
            self.assertRaises(TypeError, self.upgrade.affected, it)

    def test_rejected_files(self):
        for at, content, role, line, kind in [
            (0, b"@version 1\n0061 ; [.1C", "old table", 2, "Weight"),
            (1, b"", "old data", 1, "Order"),
            (2, b"", "new table", 1, "Order"),
            (3, b"@data 1\n\nccc 0300..0314 300\n", "new data", 3, "Weight"),
            (4, b"@changes 1\ntext 0063\ntext 0062\n", "changes", 3, "Order"),
            (5, CERTIFICATE.replace(b"1C61", b"1C46"), "certificate", 3, "Map NotRising"),
            (5, CERTIFICATE.replace(b"1C61", b"8000"), "certificate", 3, "Map OutOfRange"),
            (5, CERTIFICATE.replace(b"1C61 0001", b"1C61 0000"), "certificate", 3, "Map Empty"),
            (5, b"", "certificate", 1, "Map Fixed"),
            (5, CERTIFICATE[:-1], "certificate", 8, "Line"),
        ]:
            with self.subTest(role=role, kind=kind):
                with self.assertRaises(uca.FileError) as caught:
                    uca.Upgrade(*EDITIONS[:at], content, *EDITIONS[at + 1 :])
                error = caught.exception
                self.assertEqual((error.role, error.line, error.kind), (role, line, kind))

    def test_first_rejected_file(self):
        for at in range(6):
            with self.assertRaises(uca.FileError) as caught:
                uca.Upgrade(*EDITIONS[:at], *[b"x"] * (6 - at))
            self.assertEqual(caught.exception.role, ["old table", "old data", "new table", "new data", "changes", "certificate"][at])

    def test_audit(self):
        for at, old, new, found, said in [
            (4, b"text 0063\n", b"", ("RowExtra", "new row", 5), "RowExtra new row 5"),
            (4, b"range 0324..0324\n", b"", ("PointChanged", "code point", 0x324), "PointChanged code point 0324"),
            (5, b"1 1C60 1C61", b"1 1C60 1C62", ("RowChanged", "old row", 4), "RowChanged old row 4"),
            (5, b"3 0008 0008 0001\n", b"", ("Uncovered", "old row", 3), "Uncovered old row 3"),
            (2, b"@version 2\n", b"@version 2\n@variable non-ignorable\n", ("SettingChanged", "", 0), "SettingChanged"),
            (2, b"0063 ; [.1C60.0020", b"0063 ; [.1C60.0000", ("NewIllFormed", "new row", 5), "NewIllFormed new row 5"),
        ]:
            with self.subTest(said=said):
                with self.assertRaises(uca.AuditError) as caught:
                    uca.Upgrade(*EDITIONS[:at], EDITIONS[at].replace(old, new), *EDITIONS[at + 1 :])
                error = caught.exception
                self.assertEqual((error.condition, error.place, error.number), found)
                self.assertEqual(str(error), said)

    def test_fingerprints(self):
        old, new = (fingerprint_of(*it, "shifted", "weights") for it in ((TABLE, DATA), (NEW_TABLE, NEW_DATA)))
        with uca.Upgrade(*EDITIONS, fingerprint=old) as upgrade:
            self.assertEqual((upgrade.old_fingerprint, upgrade.new_fingerprint), (old, new))
        self.assertEqual((upgrade.old_fingerprint, upgrade.new_fingerprint), (old, new))
        for more, wanted in [({}, new), ({"identical": True}, old), ({"weighting": "non-ignorable"}, old), ({}, "0" * 64)]:
            with self.assertRaises(uca.FingerprintError) as caught:
                uca.Upgrade(*EDITIONS, **more, fingerprint=wanted)
            self.assertEqual(caught.exception.wanted, wanted)
        self.assertRaises(TypeError, uca.Upgrade, *EDITIONS, fingerprint=None)
        self.assertRaises(ValueError, uca.Upgrade, *EDITIONS, fingerprint="")
        self.assertRaises(ValueError, uca.Upgrade, *EDITIONS, weighting="blanked")
        self.assertRaises(TypeError, uca.Upgrade, *EDITIONS, identical=1)

    def test_paths(self):
        with tempfile.TemporaryDirectory() as folder:
            paths = [os.path.join(folder, str(it)) for it in range(6)]
            for path, content in zip(paths, EDITIONS):
                write(path, content)
            with uca.Upgrade(*paths, weighting="non-ignorable") as upgrade:
                self.assertEqual(upgrade.rekey(hexadecimal("1C60 0000 0020 0000 0002")), hexadecimal("1C61 0000 0020 0000 0002"))
            os.remove(paths[4])
            self.assertRaises(FileNotFoundError, uca.Upgrade, *paths)

    def test_closed(self):
        with uca.Upgrade(*EDITIONS) as upgrade:
            self.assertTrue(upgrade.is_open)
        self.assertFalse(upgrade.is_open)
        upgrade.close()
        self.assertRaises(uca.ClosedError, upgrade.affected, "a")
        self.assertRaises(uca.ClosedError, upgrade.rekey, b"")
        never = uca.Upgrade.__new__(uca.Upgrade)
        never.close()
        self.assertRaises(uca.ClosedError, never.affected, "a")
        self.assertRaises(uca.ClosedError, lambda: never.old_fingerprint)

    def test_opened_once(self):
        self.assertRaises(RuntimeError, self.upgrade.__init__, *EDITIONS)
        self.assertEqual(self.upgrade.rekey(hexadecimal("1C60 0000 0020 0000 0002")), hexadecimal("1C61 0000 0020 0000 0002"))

    def test_memory_is_given_back(self):
        closed = []
        close = uca._Upgrade.close_unused
        self.addCleanup(setattr, uca._Upgrade, "close_unused", close)
        uca._Upgrade.close_unused = staticmethod(lambda it: (closed.append(it.is_open), close(it)))
        upgrade = uca.Upgrade(*EDITIONS)
        self.assertRaises(uca.FileError, uca.Upgrade, *EDITIONS[:5], b"x")
        self.assertRaises(uca.FingerprintError, uca.Upgrade, *EDITIONS, fingerprint="0" * 64)
        gc.collect()
        self.assertEqual(closed, [False, True])
        del upgrade
        gc.collect()
        self.assertEqual(closed, [False, True, True])

    def test_not_copied(self):
        for it in (pickle.dumps, copy.copy, copy.deepcopy):
            self.assertRaises(TypeError, it, self.upgrade)

    def test_threads(self):
        found = []

        def work(old, new, text, affected):
            for _ in range(1000):
                found.append(self.upgrade.rekey(old) == new and self.upgrade.affected(text) is affected)

        keys = [(hexadecimal(old), hexadecimal(new), text, False) for text, old, new in self.KEYS[1:3]]
        keys.append((hexadecimal("1C60" * 500 + "0000 0000"), hexadecimal("1C61" * 500 + "0000 0000"), "c" * 500, True))
        threads = [threading.Thread(target=work, args=it) for it in keys]
        for it in threads:
            it.start()
        for it in threads:
            it.join()
        self.assertEqual((len(found), all(found)), (3000, True))

    def test_without_the_interpreters_lock(self):
        program = """
import threading
from test_uca import EDITIONS

upgrade, wrong = uca.Upgrade(*EDITIONS, weighting="non-ignorable"), []

def work(letter, old, new):
    for length in range(1, 1500):
        key, wanted = (bytes.fromhex(it * length + "00000000") for it in (old, new))
        if upgrade.rekey(key) != wanted or upgrade.affected(letter * length):
            wrong.append(length)

threads = [threading.Thread(target=work, args=it) for it in (("a", "1C47", "1C47"), ("b", "1C60", "1C61"))]
for it in threads:
    it.start()
for it in threads:
    it.join()
print(wrong)
"""
        run = ran(WITHOUT_LOCK + program)
        self.assertEqual((run.stdout.decode(), run.stderr.decode()), ("[]\n", ""))

    def test_end_of_the_interpreter(self):
        program = """
import builtins, sys
import uca
from test_uca import EDITIONS

builtins.kept, sys.kept, kept = (uca.Upgrade(*EDITIONS) for _ in range(3))
"""
        run = ran(program)
        self.assertEqual((run.returncode, run.stdout, run.stderr), (0, b"", b""))


#: A table of two letters, rules that put c between them, and what they make.
LETTERS = b"@version 1\n0061 ; [.1C47.0020.0002]\n0062 ; [.1C60.0020.0002]\n"
RULES = b"& a < c"
TAILORED = LETTERS + b"0063 ; [.1C48.0020.0002]\n"
PLAN = b"1 1C47 1C47 0001\n1 1C60 1C60 0001\n2 0020 0020 0001\n3 0002 0002 0001\n"


class Commands(unittest.TestCase):
    def test_tailor(self):
        self.assertEqual(uca.tailor(LETTERS, b"@data 1\n", RULES), uca.Tailoring(TAILORED, PLAN))
        with self.assertRaises(uca.CommandError) as caught:
            uca.tailor(LETTERS, b"@data 1\n", b"& a <")
        self.assertEqual((caught.exception.status, caught.exception.message), (1, "rules byte 5: EmptyText"))

    def test_audit(self):
        self.assertEqual(uca.audit(LETTERS, b"@data 1\n", RULES, TAILORED, PLAN), (True, "accepted"))
        self.assertEqual(uca.audit(LETTERS, b"@data 1\n", b"& b < c", TAILORED, PLAN), (False, "refused 9 NotPlaced relation 1"))
        self.assertTrue(uca.audit(LETTERS, b"@data 1\n", RULES, TAILORED, PLAN))
        self.assertFalse(uca.audit(LETTERS, b"@data 1\n", b"& b < c", TAILORED, PLAN))
        with self.assertRaises(uca.CommandError) as caught:
            uca.audit(b"?\n", b"@data 1\n", RULES, TAILORED, PLAN)
        self.assertEqual(str(caught.exception), "base line 1: Order")
        with self.assertRaises(uca.CommandError) as caught:
            uca.audit(LETTERS, b"?\n", RULES, TAILORED, PLAN)
        self.assertEqual((caught.exception.status, str(caught.exception)), (1, "data line 1: Order"))

    def test_changes(self):
        self.assertEqual(uca.find_changes(*EDITIONS[:4]), uca.Changes(CHANGES, CERTIFICATE))
        self.assertEqual(uca.audit_changes(*EDITIONS), (True, "accepted"))
        self.assertEqual(uca.audit_changes(*EDITIONS[:4], b"@changes 1\nrange 0324..0324\n", CERTIFICATE), (False, "refused 7 RowExtra new row 5"))
        with self.assertRaises(uca.CommandError) as caught:
            uca.find_changes(TABLE, DATA, b"?\n", DATA)
        self.assertEqual((caught.exception.status, str(caught.exception)), (1, "new line 1: Order"))

    def test_a_tailoring_is_an_upgrade(self):
        changes = uca.find_changes(LETTERS, DATA, TAILORED, DATA)
        with uca.Upgrade(LETTERS, DATA, TAILORED, DATA, *changes) as upgrade, uca.Collator(LETTERS, DATA) as old, uca.Collator(TAILORED, DATA) as new:
            self.assertTrue(upgrade.affected("abc"))
            for text in ("", "ab", "b\u0301d"):
                self.assertFalse(upgrade.affected(text))
                self.assertEqual(upgrade.rekey(old.key(text)), new.key(text))

    def test_run(self):
        known = {"t": TABLE, "d": DATA}
        self.assertEqual(uca.run(["sort", "t", "d"], known, b"b\na\n"), (0, b"a\nb\n", "", None))
        missing = uca.run(["sort", "t", "d"], {"t": TABLE})
        self.assertEqual(missing._replace(errors=missing.errors.split("\n")[0]), (3, b"", "data: Open", None))
        self.assertTrue(missing.errors.startswith("data: Open\nhelp: d: "))
        self.assertTrue(uca.run(["--version"], {}).output.startswith(b"uca 0.1.0 "))
        self.assertEqual(uca.run(["tailor", "t", "d", "r", "any"], {"t": LETTERS, "d": DATA, "r": RULES}), (0, TAILORED, "", PLAN))
        self.assertEqual(uca.run([], {}).status, uca.run(["none"], {}).status)
        with files() as (table, data):
            self.assertEqual(uca.run(["check", "t", "d"], {"t": table, "d": data}).output, b"well-formed\n")

    def test_more_than_there_is_room_for(self):
        """The keys of these lines have more bytes than there is room for at first."""
        lines = b"ab\n" * 30000
        keys = uca.run(["keys", "t", "d"], {"t": TABLE, "d": DATA}, lines)
        self.assertEqual((keys.status, len(set(keys.output.split(b"\n"))), keys.output.count(b"\n")), (0, 2, 30000))
        self.assertGreater(len(keys.output), 2 * (len(lines) + len(TABLE) + len(DATA)) + 65536)

    def test_values(self):
        for arguments, given, kind in ((["a\0b"], {}, ValueError), ([b"a"], {}, TypeError), (["x"], {"a\0b": b""}, ValueError)):
            self.assertRaises(kind, uca.run, arguments, given)
        self.assertRaises(ValueError, uca.run, ["x"], {str(it): b"" for it in range(7)})
        self.assertRaises(TypeError, uca.run, ["x"], {}, "text")
        self.assertRaises(TypeError, uca.run, "check", {})

    def test_lone_surrogates(self):
        # the e with an accent has two bytes, so the surrogate begins at byte 3
        for arguments, given, position in ((["sort", "\ud800", "d"], {}, 0), (["check", "t\u00e9\udfff"], {}, 3), (["check"], {"t\ud800": b""}, 1)):
            with self.assertRaises(uca.TextError) as caught:
                uca.run(arguments, given)
            self.assertEqual((caught.exception.kind, caught.exception.position, caught.exception.side), ("Utf8", position, ""))

    def test_threads(self):
        def sort(_):
            return uca.run(["sort", "t", "d"], {"t": TABLE, "d": DATA}, b"b\na\n" * 1000).output

        with concurrent.futures.ThreadPoolExecutor(4) as pool:
            self.assertEqual(set(pool.map(sort, range(40))), {b"a\n" * 1000 + b"b\n" * 1000})


class Positions(unittest.TestCase):
    """Where a rejected text has its error."""

    def rejected(self, call, *given):
        with self.assertRaises(uca.TextError) as caught:
            call(*given)
        return caught.exception.kind, caught.exception.position, caught.exception.side

    def test_texts(self):
        marks = "b\u00e1" + 64 * "\u0301"
        with uca.Collator(TABLE, DATA) as collator:
            self.assertEqual(self.rejected(collator.key, b"ab\xff"), ("Utf8", 2, ""))
            self.assertEqual(self.rejected(collator.key, "\ud800"), ("Utf8", 0, ""))
            self.assertEqual(self.rejected(collator.key, marks), ("LongRun", 2, ""))
            self.assertEqual(self.rejected(collator.key, "a" * 1048577), ("TooLong", None, ""))
            self.assertEqual(self.rejected(collator.range, b"ab\xff"), ("Utf8", 2, ""))
            self.assertEqual(self.rejected(collator.compare, "a", b"ab\xff"), ("Utf8", 2, "right"))
            self.assertEqual(self.rejected(collator.compare, marks, b"ab\xff"), ("LongRun", 2, "left"))
        with uca.Upgrade(*EDITIONS) as upgrade:
            # U+0324 is a non-starter by the new files alone
            run, collator = "b" + 65 * "\u0324", uca.Collator(NEW_TABLE, NEW_DATA)
            for text, kind, position in ((b"ab\xff", "Utf8", 2), ("\ud800", "Utf8", 0), (marks, "LongRun", 2), (run, "LongRun", 1), ("a" * 1048577, "TooLong", None)):
                self.assertEqual(self.rejected(upgrade.affected, text), (kind, None, ""))
                self.assertEqual((collator.check(text).kind, collator.check(text).position), (kind, position))

    def test_checks(self):
        marks = 64 * "\u0301"
        for collator in (uca.Collator(TABLE, DATA), uca.Collator(TABLE, DATA, "non-ignorable", book=BOOK)):
            for text in ("", "a", "\u00e1" + marks[1:], "\0", b"ab", bytearray(b"ab"), "a" * 1048576):
                self.assertIsNone(collator.check(text))
            for text, kind, position in [
                (b"\xff", "Utf8", 0),
                (b"ab\xc3", "Utf8", 2),
                (b"\xc3\xa1\xed\xa0\x80", "Utf8", 2),
                ("a\ud800", "Utf8", 1),
                ("a\u0301" + marks, "LongRun", 1),
                ("b\u00e1" + marks, "LongRun", 2),
                ("a" * 1048577, "TooLong", None),
            ]:
                found = collator.check(text)
                self.assertIs(type(found), uca.TextError)
                self.assertEqual((found.kind, found.position, found.side), (kind, position, ""))
                self.assertEqual(self.rejected(collator.key, text), (kind, position, ""))
            for text in (5, None, array.array("i", [97])):
                self.assertRaises(TypeError, collator.check, text)
            with unittest.mock.patch.object(uca._library, "uca_check_text", lambda *given: 6):
                self.assertRaises(MemoryError, collator.check, "a")
            collator.close()
            self.assertRaises(uca.ClosedError, collator.check, "a")

    def test_tables_that_do_not_order_numbers(self):
        shared = NUMBERS + b"0031 0301 ; [.1C50.0020.0002]\n"
        row = shared.count(b" ; ")
        for table, book, found in [(TABLE, None, 0), (shared, None, row), (shared, BOOK, row)]:
            with self.assertRaises(uca.DigitsError) as raised:
                uca.Collator(table, DATA, numeric=True, book=book)
            self.assertEqual((raised.exception.role, raised.exception.row), ("table", found))
            self.assertEqual(str(raised.exception), f"table: row {found}: Digits" if found else "table: Digits")
            uca.Collator(table, DATA, book=book).close()
        for files, role, found in [(EDITIONS, "old table", 0), ((NUMBERS, DATA, shared, *NUMBER_EDITIONS[3:]), "new table", row)]:
            with self.assertRaises(uca.DigitsError) as raised:
                uca.Upgrade(*files, numeric=True)
            self.assertEqual((raised.exception.role, raised.exception.row), (role, found))

    def test_check_of_numbers(self):
        # "9" is read as "19", so the run begins one code point later
        with uca.Collator(NUMBERS, DATA, numeric=True) as collator:
            self.assertEqual(str(collator.check("9" + 65 * "\u0301")), "text: LongRun at 2")


class Values(unittest.TestCase):
    """What texts, keys, files and settings are made of."""

    def setUp(self):
        self.collator = uca.Collator(TABLE, DATA, "non-ignorable")
        self.addCleanup(self.collator.close)

    def test_buffers_of_bytes(self):
        wanted = self.collator.key("ab")
        for text in [
            b"ab",
            bytearray(b"ab"),
            memoryview(b"ab"),
            memoryview(b"a-b-")[::2],
            memoryview(b"ab").cast("c"),
            array.array("b", b"ab"),
            (ctypes.c_char * 2)(*b"ab"),
        ]:
            with self.subTest(text=text):
                self.assertEqual(self.collator.key(text), wanted)
                self.assertEqual(self.collator.compare(text, "ab"), (0, 0))
                self.assertEqual(self.collator.compare("aa", text), (-1, 1))

    def test_other_values(self):
        items = [array.array("i", [97]), memoryview(array.array("H", [97, 98])), memoryview(bytes(4)).cast("B", (2, 2))]
        for text in [5, 0, True, None, 1.5, [97, 98], ("a",), range(3), *items]:
            with self.subTest(text=text):
                for call in [
                    lambda: self.collator.key(text),
                    lambda: self.collator.compare("a", text),
                    lambda: self.collator.compare(text, "a"),
                    lambda: uca.compare_keys(text, b"", 3),
                    lambda: uca.compare_keys(b"", text, 3),
                    lambda: uca.Collator(text, DATA),
                    lambda: uca.Collator(TABLE, text),
                ]:
                    self.assertRaises(TypeError, call)

    def test_subclasses_are_what_they_hold(self):
        class Text(str):
            def encode(self, *arguments):
                return b"b"

        class Bytes(bytes):
            def __len__(self):
                return 10**9

            def __bytes__(self):
                return b"b"

        self.assertEqual(self.collator.key(Text("a")), self.collator.key("a"))
        self.assertEqual(self.collator.key(Bytes(b"a")), self.collator.key("a"))
        self.assertEqual(uca.compare_keys(Bytes(b"a"), b"a", 3), (0, 0))

    def test_keys_that_are_buffers(self):
        left, right = self.collator.key("a"), self.collator.key("b")
        for of in (bytearray, memoryview, lambda it: memoryview(it + it)[: len(it)]):
            self.assertEqual(uca.compare_keys(of(left), right, 3), (-1, 1))
            self.assertEqual(uca.compare_keys(right, of(left), 3), (1, 1))
        self.assertRaises(TypeError, uca.compare_keys, "a", b"a", 3)

    def test_levels(self):
        for levels in (3.0, "3", None):
            self.assertRaises(TypeError, uca.compare_keys, b"", b"", levels)
        for levels in (-1, 256):
            self.assertRaises(ValueError, uca.compare_keys, b"", b"", levels)

    def test_files_that_are_buffers(self):
        wanted = self.collator.key("ab")
        with files() as paths, open(paths[0], "rb") as file, mmap.mmap(file.fileno(), 0, access=mmap.ACCESS_READ) as mapped:
            for table, data in [(bytearray(TABLE), memoryview(DATA)), (mapped, DATA)]:
                with uca.Collator(table, data, "non-ignorable") as collator:
                    self.assertEqual(collator.key("ab"), wanted)
                    self.assertEqual(collator.fingerprint, self.collator.fingerprint)

    def test_other_settings(self):
        for weighting in ("blanked", "", "SHIFTED", False, 0):
            self.assertRaises(ValueError, uca.Collator, TABLE, DATA, weighting)
        for identical in ("no", 1, None):
            self.assertRaises(TypeError, uca.Collator, TABLE, DATA, None, identical)


class Sharing(unittest.TestCase):
    """Several users of one collator. test_stress.py does the same for longer."""

    def setUp(self):
        self.collator = uca.Collator(TABLE, DATA, "non-ignorable")
        self.addCleanup(self.collator.close)

    def test_threads(self):
        found = []

        def work(text, key):
            found.extend(self.collator.key(text) == key for _ in range(1000))

        keys = [("a", hexadecimal("1C47 0000 0020 0000 0002")), ("b", hexadecimal("1C60 0000 0020 0000 0002"))]
        threads = [threading.Thread(target=work, args=it) for it in keys]
        for it in threads:
            it.start()
        for it in threads:
            it.join()
        self.assertEqual((len(found), all(found)), (2000, True))

    def between_all_steps(self, call, other):
        """What the call returns, if the other call is made before each step of the module, as a thread or a handler may do."""
        steps = itertools.count(1)

        def trace(frame, event, argument):
            if frame.f_code.co_filename != uca.__file__:
                return None
            frame.f_trace_opcodes = True
            if event in ("line", "opcode"):
                other(next(steps))
            return trace

        before = sys.gettrace()
        sys.settrace(trace)
        try:
            found = call()
        finally:
            sys.settrace(before)
        self.assertGreater(next(steps), 5)
        return found

    def test_calls_between_all_steps_of_a_call(self):
        with uca.Collator(TABLE, DATA, "non-ignorable") as alone:
            texts = [("a" if length % 2 else "b") * length for length in range(0, 4000, 97)]
            keys = {it: alone.key(it) for it in texts}
            comparisons = {it: alone.compare(it, "ba") for it in texts}
        others = itertools.cycle(texts)
        wrong = []

        def other(step):
            text = next(others)
            if self.collator.key(text) != keys[text] or self.collator.compare(text, "ba") != comparisons[text]:
                wrong.append((step, text))

        for text in texts:
            self.assertEqual(self.between_all_steps(lambda: self.collator.key(text), other), keys[text])
            self.assertEqual(self.between_all_steps(lambda: self.collator.compare(text, "ba"), other), comparisons[text])
        self.assertEqual(wrong, [])

    def test_calls_between_all_steps_with_a_book(self):
        def made(collator, text):
            return collator.key(text), collator.key_beginning(text, 900), collator.range(text), collator.expand(collator.key(text))

        texts = ["\u00e1" * length for length in range(0, 1000, 97)]
        with uca.Collator(TABLE, DATA, book=BOOK) as alone:
            wanted = {it: made(alone, it) for it in texts}
        others, wrong = itertools.cycle(texts), []
        with uca.Collator(TABLE, DATA, book=BOOK) as collator:

            def other(step):
                text = next(others)
                if made(collator, text) != wanted[text]:
                    wrong.append((step, text))

            for text in texts:
                self.assertEqual(self.between_all_steps(lambda: made(collator, text), other), wanted[text])
        self.assertEqual(wrong, [])

    def close_between_all_steps(self, table, called):
        with uca.Collator(table, DATA, "non-ignorable") as alone:
            wanted = called(alone)
        outcomes = set()
        for last in range(1, 500):
            collator = uca.Collator(table, DATA, "non-ignorable")
            steps = []

            def other(step):
                steps.append(step)
                if step == last:
                    collator.close()

            try:
                self.assertEqual(self.between_all_steps(lambda: called(collator), other), wanted)
                outcomes.add("result")
            except uca.ClosedError:
                outcomes.add("closed")
            if last > max(steps):
                break
        self.assertEqual(outcomes, {"result", "closed"})
        self.assertGreater(last, max(steps))

    def test_close_between_all_steps_of_a_call(self):
        # a letter of 18 weights, so that a key does not fit into its first room
        table = TABLE + b"0063 ; " + b"[.1C7A.0020.0002]" * 18 + b"\n"
        self.close_between_all_steps(TABLE, lambda it: it.key("a" * 5000))
        self.close_between_all_steps(table, lambda it: it.key("c" * 300))
        self.close_between_all_steps(table, lambda it: it.key_beginning("c" * 300, 20000))
        self.close_between_all_steps(TABLE, lambda it: it.order("a", b"\xff"))
        self.close_between_all_steps(TABLE, lambda it: it.check("a"))
        self.close_between_all_steps(TABLE, lambda it: it.key_bound(1))
        self.close_between_all_steps(TABLE, lambda it: it.share().key("a"))

    def test_fork(self):
        program = """
import os, uca
from test_uca import DATA, TABLE

collator = uca.Collator(TABLE, DATA, "non-ignorable")
key = collator.key("a")
for _ in range(10):
    child = os.fork()
    is_same = collator.key("a") == key and len(collator.key("\u00e1" * 5000)) == 50004
    if child == 0:
        collator.close()
        os._exit(0 if is_same else 1)
    print(is_same, os.waitpid(child, 0)[1])
"""
        run = ran(program)
        self.assertEqual((run.stdout.decode(), run.stderr), ("True 0\n" * 10, b""))


class Shares(unittest.TestCase):
    """Collators that share a table."""

    def test_values(self):
        for weighting, identical, text, whole, compact in COMPACT_KEYS:
            for book, key in ((None, whole), (BOOK, compact)):
                with uca.Collator(TABLE, DATA, weighting, identical, book=book) as first:
                    kept, other = first.fingerprint, first.share()
                # the first one is closed, and the other one is open
                self.assertFalse(first.is_open)
                self.assertEqual((other.is_open, other.fingerprint, other.key(text)), (True, kept, hexadecimal(key)))
                last = other.share()
                other.close()
                self.assertEqual((last.key(text), last.compare("a", "b"), last.order("b", "a")), (hexadecimal(key), (-1, 1), 1))
                last.close()

    def test_closed(self):
        collator = uca.Collator(TABLE, DATA)
        other = collator.share()
        other.close()
        self.assertTrue(collator.is_open)
        collator.close()
        for it in (collator, other):
            self.assertRaises(uca.ClosedError, it.share)
        self.assertRaises(uca.ClosedError, uca.Collator.__new__(uca.Collator).share)

    def test_no_memory(self):
        with uca.Collator(TABLE, DATA) as collator, unittest.mock.patch.object(uca._library, "uca_share", lambda *given: 6):
            self.assertRaises(MemoryError, collator.share)

    def test_subclasses_and_copies(self):
        with files() as paths, Named("mine", paths) as named, named.share() as shared, uca.Collator(TABLE, DATA).share() as of_bytes:
            self.assertIs(type(shared), uca.Collator)
            self.assertEqual(vars(shared).keys(), {"_collator"})
            for it in (pickle.loads(pickle.dumps(shared)), copy.copy(shared)):
                self.assertEqual((it.fingerprint, it.key("a")), (named.fingerprint, named.key("a")))
                it.close()
            self.assertRaises(TypeError, pickle.dumps, of_bytes)
            self.assertRaises(RuntimeError, shared.__init__, *paths)

    def test_memory_is_given_back(self):
        closed = []
        close = uca._Collator.close_unused
        self.addCleanup(setattr, uca._Collator, "close_unused", close)
        uca._Collator.close_unused = staticmethod(lambda it: (closed.append(it.is_open), close(it)))
        collator = uca.Collator(TABLE, DATA)
        other = collator.share()
        del collator
        gc.collect()
        self.assertEqual((closed, other.key("")), ([True], bytes(6)))
        del other
        gc.collect()
        self.assertEqual(closed, [True, True])

    def test_threads(self):
        first = uca.Collator(TABLE, DATA, "non-ignorable")
        keys = {"a" * it: b"\x1c\x47" * it + b"\0\0" + b"\0\x20" * it + b"\0\0" + b"\0\x02" * it for it in range(100)}

        def work(collator):
            with collator:
                return all(collator.key(text) == key for _ in range(20) for text, key in keys.items())

        shared = [first.share() for _ in range(8)]
        first.close()
        with concurrent.futures.ThreadPoolExecutor(8) as pool:
            self.assertEqual(list(pool.map(work, shared)), [True] * 8)


class Settings(unittest.TestCase):
    def test_shifted_is_the_default(self):
        for weighting in (None, "shifted"):
            with uca.Collator(TABLE, DATA, weighting) as collator:
                self.assertEqual(collator.key("a "), hexadecimal("1C47 0000 0020 0000 0002 0000 FFFF 0209"))
                self.assertEqual(collator.compare("ab", "a b").level, 4)

    def test_table_says_non_ignorable(self):
        table = TABLE.replace(b"@version 1\n", b"@version 1\n@variable non-ignorable\n")
        with uca.Collator(table, DATA) as collator:
            self.assertEqual(collator.key(" "), hexadecimal("0209 0000 0020 0000 0002"))

    def test_identical(self):
        with uca.Collator(TABLE, DATA, "non-ignorable", identical=True) as collator:
            self.assertEqual(collator.key("a"), hexadecimal("1C47 0000 0020 0000 0002 0000 000061"))
            self.assertEqual(collator.compare("\u0323\u0301", "\u0301\u0323"), (0, 0))

    def test_other_weighting(self):
        for weighting in ("blanked", "", 1, b"shifted", [], {}):
            with self.assertRaisesRegex(ValueError, '^weighting is None, "non-ignorable" or "shifted"$'):
                uca.Collator(TABLE, DATA, weighting)
            with self.assertRaisesRegex(ValueError, '^weighting is None, "non-ignorable" or "shifted"$'):
                uca.Upgrade(*EDITIONS, weighting)


class Opening(unittest.TestCase):
    def test_rejected_files(self):
        for table, data, role, line, kind in [
            (b"@version 1\n0061 ; [.1C", DATA, "table", 2, "Weight"),
            (b"", DATA, "table", 1, "Order"),
            (TABLE, b"@data 1\n\nccc 0300..0314 300\n", "data", 3, "Weight"),
        ]:
            with self.subTest(role=role, line=line):
                with self.assertRaises(uca.FileError) as caught:
                    uca.Collator(table, data)
                error = caught.exception
                self.assertEqual((error.role, error.line, error.kind), (role, line, kind))

    def test_paths(self):
        with files() as paths, uca.Collator(*paths, weighting="non-ignorable") as collator:
            self.assertEqual(collator.key("b"), hexadecimal("1C60 0000 0020 0000 0002"))

    def test_closed(self):
        with uca.Collator(TABLE, DATA) as collator:
            self.assertTrue(collator.is_open)
        self.assertFalse(collator.is_open)
        collator.close()
        with self.assertRaises(uca.ClosedError):
            collator.key("a")
        with self.assertRaises(uca.ClosedError):
            collator.compare("a", "b")

    def test_many_collators(self):
        collators = [uca.Collator(TABLE, DATA, "non-ignorable") for _ in range(100)]
        self.assertEqual({it.key("a") for it in collators}, {hexadecimal("1C47 0000 0020 0000 0002")})
        del collators
        gc.collect()

    def test_opened_once(self):
        collator = uca.Collator(TABLE, DATA, "non-ignorable")
        kept = collator.fingerprint
        for _ in range(2):
            self.assertRaises(RuntimeError, collator.__init__, TABLE, DATA, "shifted")
            self.assertEqual(collator.fingerprint, kept)
            collator.close()
            self.assertFalse(collator.is_open)

    def test_memory_is_given_back(self):
        closed = []
        close = uca._Collator.close_unused
        self.addCleanup(setattr, uca._Collator, "close_unused", close)
        uca._Collator.close_unused = staticmethod(lambda it: (closed.append(it.is_open), close(it)))
        collator = uca.Collator(TABLE, DATA)
        self.assertRaises(RuntimeError, collator.__init__, TABLE, DATA)
        gc.collect()
        self.assertEqual(closed, [True])
        self.assertRaises(uca.FileError, uca.Collator, TABLE, b"x")
        gc.collect()
        self.assertEqual(closed, [True, False])
        del collator
        gc.collect()
        self.assertEqual(closed, [True, False, True])

    def test_never_opened(self):
        class Late(uca.Collator):
            def __init__(self):
                pass

        collator = Late()
        self.assertFalse(collator.is_open)
        collator.close()
        self.assertRaises(uca.ClosedError, collator.key, "a")
        self.assertRaises(uca.ClosedError, collator.compare, "a", "b")
        self.assertRaises(uca.ClosedError, lambda: collator.fingerprint)
        self.assertRaises(uca.ClosedError, pickle.dumps, collator)
        uca.Collator.__init__(collator, TABLE, DATA, "non-ignorable")
        self.assertEqual(collator.key("a"), hexadecimal("1C47 0000 0020 0000 0002"))

    def test_not_opened_after_all(self):
        found = []
        before = sys.unraisablehook
        self.addCleanup(setattr, sys, "unraisablehook", before)
        sys.unraisablehook = found.append
        for arguments in [(), (TABLE,), (b"", DATA), (TABLE, b"x"), (TABLE, DATA, "blanked"), ("none.txt", DATA)]:
            self.assertRaises((TypeError, ValueError, OSError), uca.Collator, *arguments)
        gc.collect()
        self.assertEqual(found, [])

    def test_end_of_the_interpreter(self):
        program = """
import atexit, builtins, sys, threading
import uca
from test_uca import DATA, TABLE

class Cycle:
    def __init__(self):
        self.itself, self.collator = self, uca.Collator(TABLE, DATA)

builtins.kept, sys.kept, sys.modules["kept"], kept = Cycle(), Cycle(), Cycle(), Cycle()
atexit.register(kept.collator.key, "a")
threading.Thread(target=lambda: [kept.collator.key("a" * 1000) for _ in range(10**7)], daemon=True).start()
"""
        for before in 3 * ["", WITHOUT_LOCK]:
            run = ran(before + program)
            self.assertEqual((run.returncode, run.stdout, run.stderr), (0, b"", b""))


class OfLanguage(uca.Collator):
    """A subclass with the arguments of the class."""


#: A command in the place of uca-files. It keeps its arguments, and does what the tests write into the file "script".
STAND_IN = """#!/bin/sh
for it; do echo "$it"; done > "${0%/*}/arguments"
. "${0%/*}/script"
"""


class Languages(unittest.TestCase):
    def setUp(self):
        folder = tempfile.TemporaryDirectory(prefix="a b ")
        self.addCleanup(folder.cleanup)
        self.folder = folder.name
        for name, content in [("table.txt", NON_IGNORABLE), ("data.txt", DATA), ("book.txt", BOOK), ("uca-files", STAND_IN.encode())]:
            with open(self.path(name), "wb") as it:
                it.write(content)
        os.chmod(self.path("uca-files"), 0o755)
        self.set_files("table.txt", "data.txt")
        changed = unittest.mock.patch.dict(os.environ, {"UCA_FILES": self.path("uca-files")})
        changed.start()
        self.addCleanup(changed.stop)

    def path(self, name):
        return os.path.join(self.folder, name)

    def set_script(self, script):
        with open(self.path("script"), "w", encoding="utf-8") as it:
            it.write(script)

    def set_files(self, *names):
        self.set_script("".join(f"printf '%s\\n' '{self.path(it)}'\n" for it in names))

    def given(self):
        """The arguments of the command, or none if it was not run."""
        if not os.path.exists(self.path("arguments")):
            return None
        with open(self.path("arguments"), encoding="utf-8") as it:
            return it.read().split("\n")[:-1]

    def check_error(self, wanted, *tag, **settings):
        with self.assertRaisesRegex(uca.LanguageError, wanted) as caught:
            uca.Collator.of_language(*tag or ("pl",), **settings)
        self.assertEqual((caught.exception.tag, caught.exception.message), ((tag or ("pl",))[0], str(caught.exception)))
        self.assertEqual(repr(copy.copy(caught.exception)), repr(caught.exception))

    def test_weightings(self):
        for weighting, wanted in [(None, "0209 0000 0020 0000 0002"), ("shifted", "0000 0000 0000 0209")]:
            with uca.Collator.of_language("pl", weighting=weighting) as collator:
                self.assertEqual(collator.key(" "), hexadecimal(wanted))
            self.assertEqual(self.given(), ["pl"])
        with uca.Collator.of_language("pl") as collator, uca.Collator(NON_IGNORABLE, DATA) as wanted:
            self.assertEqual(collator.fingerprint, wanted.fingerprint)

    def test_settings(self):
        self.set_files("table.txt", "data.txt", "book.txt")
        with uca.Collator.of_language("de-u-co-phonebk", book=True, edition="15.0.0-cldr41") as collator:
            self.assertEqual(collator.key("a"), b"\x08\x02")
            kept = collator.fingerprint
        self.assertEqual(self.given(), ["--book", "--edition=15.0.0-cldr41", "de-u-co-phonebk"])
        uca.Collator.of_language("pl", book=True, fingerprint=kept).close()
        self.assertRaises(uca.FingerprintError, uca.Collator.of_language, "pl", book=True, weighting="shifted", fingerprint=kept)
        self.set_files("table.txt", "data.txt")
        self.assertRaises(uca.FingerprintError, uca.Collator.of_language, "pl", fingerprint=kept)
        self.assertRaises(uca.DigitsError, uca.Collator.of_language, "pl", numeric=True)
        with uca.Collator.of_language("pl", identical=True) as collator:
            self.assertEqual(collator.key("a"), hexadecimal("1C47 0000 0020 0000 0002 0000 000061"))

    def test_errors_of_the_command(self):
        self.set_script("echo 'zz is no language' >&2; exit 1")
        self.check_error("^zz is no language$", "zz")
        self.set_script("exit 3")
        self.check_error("ended with the status 3$")
        for script in ["", "echo /a", "echo a; echo b", "printf '/a\\n/b\\n/c\\n'"]:
            self.set_script(script)
            self.check_error("did not print the 2 paths of a language$")
        self.set_files("table.txt", "data.txt")
        self.check_error("did not print the 3 paths of a language$", book=True)
        self.set_files("table.txt", "none.txt")
        self.assertRaises(FileNotFoundError, uca.Collator.of_language, "pl")
        self.set_files("data.txt", "table.txt")
        self.assertRaises(uca.FileError, uca.Collator.of_language, "pl")

    def test_commands_that_are_not_there(self):
        with unittest.mock.patch.dict(os.environ, {"UCA_FILES": self.path("none")}):
            self.check_error("^the command .*none is not run .*: install it, or name it in UCA_FILES$")
        with unittest.mock.patch.dict(os.environ, {"UCA_FILES": self.path("table.txt")}):
            self.check_error("Permission denied")
        with unittest.mock.patch.dict(os.environ, {"UCA_FILES": "", "PATH": self.folder}):
            self.set_script("echo 'found by its name' >&2; exit 1")
            self.check_error("^found by its name$")

    def test_what_is_no_tag(self):
        for tag in ["", "-pl", "--list", "--into=/", "../pl", "a/b", "a.b", "a b", "pl\n", "pl\0", "$(touch arguments)", "ł", "pl;id", "\ud800"]:
            self.check_error("is no tag of a language", tag)
        for tag in [None, b"pl", 1, ["pl"]]:
            self.assertRaises(TypeError, uca.Collator.of_language, tag)
        self.assertRaises(TypeError, uca.Collator.of_language, "pl", book="book.txt")
        self.assertRaises(TypeError, uca.Collator.of_language, "pl", edition=15)
        self.assertRaises(TypeError, uca.Collator.of_language, "pl", "shifted")
        self.assertIsNone(self.given())
        self.check_error("is not run", edition="a\0b")

    def test_what_the_command_says(self):
        with open(self.path("script"), "a", encoding="utf-8") as it:
            it.write("echo 'eu has no rules of its own' >&2\n")
        with self.assertWarnsRegex(uca.LanguageWarning, "^eu has no rules of its own$") as caught:
            uca.Collator.of_language("eu").close()
        self.assertEqual(caught.filename, __file__)

    def test_copies_run_no_command(self):
        with OfLanguage.of_language("pl") as collator:
            self.assertIs(type(collator), OfLanguage)
            os.remove(self.path("uca-files"))
            for it in copies(collator):
                self.assertEqual((it.key("a b"), it.fingerprint), (collator.key("a b"), collator.fingerprint))
                it.close()


class Fingerprints(unittest.TestCase):
    def test_values(self):
        non_ignorable = TABLE.replace(b"@version 1\n", b"@version 1\n@variable non-ignorable\n")
        for table, weighting, identical, wanted in [
            (TABLE, None, False, ("shifted", "weights")),
            (TABLE, "shifted", False, ("shifted", "weights")),
            (TABLE, "non-ignorable", True, ("non-ignorable", "identical")),
            (non_ignorable, None, False, ("non-ignorable", "weights")),
            (non_ignorable, "shifted", True, ("shifted", "identical")),
        ]:
            with self.subTest(weighting=weighting, wanted=wanted), uca.Collator(table, DATA, weighting, identical) as collator:
                self.assertEqual(collator.fingerprint, fingerprint_of(table, DATA, *wanted))
                collator.close()
                self.assertEqual(collator.fingerprint, fingerprint_of(table, DATA, *wanted))

    def test_wanted(self):
        kept = fingerprint_of(TABLE, DATA, "shifted", "weights")
        for weighting in (None, "shifted"):
            with uca.Collator(TABLE, DATA, weighting, fingerprint=kept) as collator:
                self.assertEqual(collator.fingerprint, kept)
        for arguments in [
            (TABLE, DATA, "non-ignorable"),
            (TABLE, DATA, "shifted", True),
            (TABLE + b"# a comment\n", DATA),
            (TABLE, DATA + b"# a comment\n"),
            (TABLE.replace(b"1C60", b"1C61"), DATA),
        ]:
            with self.assertRaises(uca.FingerprintError) as caught:
                uca.Collator(*arguments, fingerprint=kept)
            with uca.Collator(*arguments) as collator:
                self.assertEqual((caught.exception.wanted, caught.exception.found), (kept, collator.fingerprint))
            self.assertIn(f"{caught.exception.found}, and {kept} is wanted", str(caught.exception))

    def test_none_is_no_fingerprint(self):
        kept = fingerprint_of(TABLE, DATA, "shifted", "weights")
        for wrong in (None, kept.encode(), 0):
            self.assertRaises(TypeError, uca.Collator, TABLE, DATA, fingerprint=wrong)
        for wrong in ("", kept[1:], kept + "\n", kept.upper()):
            with self.assertRaises(ValueError) as caught:
                uca.Collator(TABLE, DATA, fingerprint=wrong)
            self.assertNotIsInstance(caught.exception, uca.UcaError)
        self.assertRaises(uca.FileError, uca.Collator, b"", DATA, fingerprint=kept)


class Named(uca.Collator):
    """A subclass with attributes and arguments of its own."""

    def __init__(self, name, paths):
        super().__init__(*paths, identical=True)
        self.name = name


class Slots(Named):
    """A subclass with slots too."""

    __slots__ = ("limit", "unset", "__hidden")

    def __init__(self, name, paths):
        super().__init__(name, paths)
        self.limit, self.__hidden = 3, [name]

    def attributes(self):
        return self.name, self.limit, self.__hidden, hasattr(self, "unset")


class Wider(Slots):
    """A subclass of that one, with a single slot."""

    __slots__ = "width"

    def __init__(self, name, paths):
        super().__init__(name, paths)
        self.width = 5

    def attributes(self):
        return (*super().attributes(), self.width)


def copies(collator):
    """The collator after each way of copying."""
    for protocol in range(pickle.HIGHEST_PROTOCOL + 1):
        yield pickle.loads(pickle.dumps(collator, protocol))
    yield copy.copy(collator)
    yield copy.deepcopy([collator])[0]


class Copies(unittest.TestCase):
    def test_copies_are_others(self):
        with files() as paths, uca.Collator(*paths, "non-ignorable") as collator:
            for it in copies(collator):
                self.assertEqual((it.key("a b"), it.fingerprint), (collator.key("a b"), collator.fingerprint))
                it.close()
                self.assertTrue(collator.is_open)
            copied = copy.copy(collator)
            collator.close()
            self.assertEqual(copied.key("a"), hexadecimal("1C47 0000 0020 0000 0002"))
            copied.close()

    def test_copies_with_a_book(self):
        with files() as paths, uca.Collator(*paths, book=book_beside(paths[0])) as collator:
            for it in copies(collator):
                self.assertEqual((it.key("a"), it.fingerprint), (b"\x0a\x03", collator.fingerprint))
                it.close()
            state = collator.__getstate__()
            for change, error in changes(book_beside(paths[0]), b"4 020D\n"):
                change()
                for it in copies(collator):
                    self.check_failed(it, error)
                self.assertRaises(error, collator.__setstate__, state)
                self.assertEqual(collator.key("a"), b"\x0a\x03")

    def test_copies_that_were_made_before_there_were_books(self):
        with files() as paths, uca.Collator(*paths) as collator:
            copied = uca.Collator.__new__(uca.Collator)
            copied.__setstate__({"_collator": (*paths, None, False, collator.fingerprint)})
            self.assertEqual((copied.key("a"), copied.fingerprint), (collator.key("a"), collator.fingerprint))
            copied.close()

    def test_copies_that_were_made_before_there_were_numbers(self):
        with files() as paths, uca.Collator(*paths, book=book_beside(paths[0])) as collator:
            copied = uca.Collator.__new__(uca.Collator)
            copied.__setstate__({"_collator": (*paths, None, False, collator.fingerprint, book_beside(paths[0]))})
            self.assertEqual((copied.key("a"), copied.fingerprint), (collator.key("a"), collator.fingerprint))
            copied.close()

    def test_a_copy_that_is_collected(self):
        with files() as paths, uca.Collator(*paths) as collator:
            for it in copies(collator):
                del it
                gc.collect()
                self.assertEqual(collator.key("a"), hexadecimal("1C47 0000 0020 0000 0002 0000 FFFF"))

    def test_subclass(self):
        with files() as paths, Named("names", paths) as collator:
            for it in copies(collator):
                self.assertEqual((type(it), it.name, it.fingerprint), (Named, "names", collator.fingerprint))
                it.close()

    def test_slots(self):
        for kind in (Slots, Wider):
            with files() as paths, kind("names", paths) as collator:
                self.assertEqual(collator.attributes()[:4], ("names", 3, ["names"], False))
                for it in copies(collator):
                    self.assertEqual((type(it), it.attributes(), it.fingerprint), (kind, collator.attributes(), collator.fingerprint))
                    it.close()

    def test_other_files(self):
        for number in (0, 1):
            with files() as paths, Named("names", paths) as collator:
                key, state = collator.key("a"), collator.__getstate__()
                for change, error in changes(paths[number]):
                    change()
                    for it in copies(collator):
                        self.assertEqual(it.name, "names")
                        self.check_failed(it, error)
                    self.assertRaises(error, collator.__setstate__, state)
                    self.assertEqual(collator.key("a"), key)

    def test_no_memory_for_a_copy(self):
        with files() as paths, uca.Collator(*paths) as collator:
            with unittest.mock.patch.object(uca, "_check_files", side_effect=MemoryError):
                failed = list(copies(collator))
            for it in failed:
                self.check_failed(it, MemoryError)

    def check_failed(self, collator, error):
        """Each use of a copy that could not be opened raises the error, and another one each time."""
        uses = [lambda: collator.key("a"), lambda: collator.compare("a", "b"), lambda: collator.fingerprint, collator.__getstate__]
        uses += [lambda: collator.range("a"), lambda: collator.prefix_range("a"), lambda: collator.expand(b""), lambda: collator.compact(b"")]
        uses += [lambda: pickle.dumps(collator), lambda: copy.copy(collator)]
        raised = []
        for use in uses + uses:
            self.assertFalse(collator.is_open)
            with self.assertRaises(error) as caught:
                use()
            raised.append(caught.exception)
            collator.close()
        self.assertEqual(len({id(it) for it in raised}), len(raised))
        self.assertIsNone(collator._collator.error.__traceback__)  # it would keep the files in memory
        for it in raised:
            self.assertIs(type(it), error)
            self.assertEqual((it.args, str(it), it.__context__), (raised[0].args, str(raised[0]), None))
            self.assertEqual(str(pickle.loads(pickle.dumps(it))), str(it))
        self.assertRaises(RuntimeError, uca.Collator.__init__, collator, TABLE, DATA)

    def test_other_folder(self):
        before = os.getcwd()
        self.addCleanup(os.chdir, before)
        with files() as paths:
            os.chdir(os.path.dirname(paths[0]))
            collator = uca.Collator(*(os.path.basename(it) for it in paths))
            os.chdir(before)
            with collator, pickle.loads(pickle.dumps(collator)) as it:
                self.assertEqual(it.key("a"), collator.key("a"))

    def test_not_copied(self):
        with files() as paths:
            for arguments in [(TABLE, DATA), (TABLE, paths[1]), (paths[0], bytearray(DATA)), (*paths, BOOK)]:
                with uca.Collator(*arguments[:2], book=(*arguments, None)[2]) as collator:
                    for call in (pickle.dumps, copy.copy, copy.deepcopy):
                        self.assertRaises(TypeError, call, collator)
                    self.assertEqual(len(collator.key("a")), 14 if len(arguments) == 2 else 2)
            collator = uca.Collator(*paths)
            collator.close()
            for call in (pickle.dumps, copy.copy, copy.deepcopy):
                self.assertRaises(uca.ClosedError, call, collator)

    def test_set_state_of_an_open_one(self):
        with files() as paths, uca.Collator(*paths) as collator, uca.Collator(*paths, "non-ignorable") as other:
            kept = collator.fingerprint
            self.assertRaises(RuntimeError, collator.__setstate__, other.__getstate__())
            self.assertEqual((collator.fingerprint, len(collator.key("a"))), (kept, 14))


def changes(path, more=b"# a comment\n"):
    """Changes of a file, each with the error of opening it then. One of them adds a line."""
    with open(path, "rb") as it:
        content = it.read()
    yield lambda: write(path, content + more), uca.FingerprintError
    yield lambda: write(path, b"x"), uca.FileError
    yield lambda: os.remove(path), FileNotFoundError


def open_rejected_files():
    uca.Collator(b"", b"")


def make_key(text):
    with uca.Collator(TABLE, DATA) as collator:
        return collator.key(text)


def use_closed():
    collator = uca.Collator(TABLE, DATA)
    collator.close()
    collator.key("a")


def keep(collator):
    """An initializer of a pool."""
    keep.collator = collator


def make_key_by_kept(text):
    return keep.collator.key(text)


def open_others():
    uca.Collator(TABLE, DATA, fingerprint="0" * 64)


class Errors(unittest.TestCase):
    def test_pickled(self):
        other_files = uca.FingerprintError("0" * 64, "1" * 64)
        errors = [uca.FileError("table", 3, "Line"), uca.TextError("Utf8"), uca.StoredKeyError("OtherKey"), uca.NoBookError(), uca.ClosedError()]
        errors += [uca.AuditError("RowExtra", "new row", 5), uca.TextError("LongRun", 2, "left"), uca.CommandError(1, "table line 1: Order")]
        for error in [*errors, other_files, uca.UcaError("x")]:
            for protocol in range(pickle.HIGHEST_PROTOCOL + 1):
                for found in (pickle.loads(pickle.dumps(error, protocol)), copy.copy(error), copy.deepcopy(error)):
                    self.assertIs(type(found), type(error))
                    self.assertEqual((vars(found), str(found)), (vars(error), str(error)))

    def test_messages(self):
        self.assertEqual(str(uca.FileError("table", 3, "Line")), "table: line 3: Line")
        self.assertEqual(str(uca.TextError("TooLong")), "text: TooLong")
        self.assertEqual(str(uca.TextError("Utf8", 3)), "text: Utf8 at 3")
        self.assertEqual(str(uca.TextError("LongRun", 2, "right")), "right text: LongRun at 2")
        self.assertEqual(str(uca.CommandError(3, "data: Open")), "data: Open")
        self.assertEqual(str(uca.ClosedError()), "the collator or the upgrade is closed")

    def test_errors_of_other_processes(self):
        with files() as paths, concurrent.futures.ProcessPoolExecutor(1, mp_context=multiprocessing.get_context("spawn")) as pool:
            with self.assertRaises(uca.FileError) as caught:
                pool.submit(open_rejected_files).result(timeout=60)
            self.assertEqual((caught.exception.role, caught.exception.line, caught.exception.kind), ("table", 1, "Order"))
            with self.assertRaises(uca.TextError) as caught:
                pool.submit(make_key, b"\xff").result(timeout=60)
            self.assertEqual(caught.exception.kind, "Utf8")
            self.assertRaises(uca.ClosedError, pool.submit(use_closed).result, timeout=60)
            self.assertRaises(uca.FingerprintError, pool.submit(open_others).result, timeout=60)
            with uca.Collator(*paths) as collator:
                self.assertEqual(pool.submit(collator.key, "a").result(timeout=60), collator.key("a"))

    def check_pool(self, key_of):
        """A pool raises the error of each change of a file, and goes on."""
        with files() as paths, uca.Collator(*paths) as collator:
            for change, error in changes(paths[0]):
                change()
                self.assertRaises(error, key_of, collator)
            write(paths[0], TABLE)
            self.assertEqual(key_of(collator), collator.key("a"))

    def test_changed_files_and_an_executor(self):
        with concurrent.futures.ProcessPoolExecutor(1, mp_context=multiprocessing.get_context("spawn")) as pool:
            self.check_pool(lambda collator: pool.submit(collator.key, "a").result(timeout=60))

    def test_changed_files_and_a_pool(self):
        with multiprocessing.get_context("spawn").Pool(1) as pool:
            self.check_pool(lambda collator: pool.apply_async(collator.key, ("a",)).get(timeout=60))

    def test_changed_files_and_an_initializer(self):
        def key_of(collator):
            with multiprocessing.get_context("spawn").Pool(1, keep, [collator]) as pool:
                return pool.apply_async(make_key_by_kept, ("a",)).get(timeout=60)

        self.check_pool(key_of)


class Library(unittest.TestCase):
    def said(self, **environment):
        """The last line of an import that fails."""
        run = ran("import uca", **environment)
        self.assertNotEqual(run.returncode, 0)
        return run.stderr.decode().splitlines()[-1]

    def test_missing(self):
        said = self.said(UCA_LIBRARY="/none/libuca.so.1")
        for it in ("ImportError: ", "/none/libuca.so.1", "UCA_LIBRARY", "install", "ldconfig"):
            self.assertIn(it, said)

    def test_another_library(self):
        said = self.said(UCA_LIBRARY=ctypes.util.find_library("c") or "libc.so.6")
        for it in ("ImportError: ", "uca_abi", "UCA_LIBRARY", "install"):
            self.assertIn(it, said)

    def test_older(self):
        first = ["uca_abi", "uca_version", "uca_collator_size", "uca_open", "uca_key", "uca_compare", "uca_compare_keys", "uca_close"]
        later = ["uca_open_compact", "uca_compact_fingerprint", "uca_share", "uca_key_beginning", "uca_key_bound", "uca_compact", "uca_expand"]
        later += ["uca_range", "uca_check_text", "uca_order", "uca_upgrade_size", "uca_open_upgrade", "uca_affected", "uca_rekey", "uca_upgrade_fingerprints", "uca_close_upgrade", "uca_run"]
        for calls, missing in [(first + later, "uca_fingerprint"), *((["uca_fingerprint", *first, *later[:it]], later[it]) for it in range(len(later)))]:
            with self.assertRaises(ImportError) as caught:
                uca._declare(types.SimpleNamespace(**{it: lambda: None for it in calls}), "/old/libuca.so.1")
            for it in ("/old/libuca.so.1", missing, "older", "install"):
                self.assertIn(it, str(caught.exception))


    def test_without_numbers(self):
        older = types.SimpleNamespace(uca_fingerprint=lambda *given: 3)
        with self.assertRaises(ImportError) as caught:
            uca._need_numbers(older, "/old/libuca.so.1")
        for it in ("/old/libuca.so.1", "numbers by value", "older", "install"):
            self.assertIn(it, str(caught.exception))
        uca._need_numbers(uca._library, "")


class Module(unittest.TestCase):
    def test_names(self):
        public = {name for name, it in vars(uca).items() if getattr(it, "__module__", None) == "uca" and not name.startswith("_")}
        self.assertEqual(set(uca.__all__), public | {"library_version"})

    @unittest.skipIf(sys.version_info < (3, 9), "os.PathLike has no items")
    def test_hints(self):
        members = [it for kind in (uca.Collator, uca.Upgrade) for it in vars(kind).values() if callable(it)]
        properties = [it.fget for kind in (uca.Collator, uca.Upgrade) for it in vars(kind).values() if isinstance(it, property)]
        for it in [uca.compare_keys, uca.Comparison, *properties, *members]:
            self.assertTrue(typing.get_type_hints(it))

    def test_docstrings(self):
        for name in uca.__all__:
            if name != "library_version":
                self.assertTrue(getattr(uca, name).__doc__, name)


if __name__ == "__main__":
    unittest.main()
