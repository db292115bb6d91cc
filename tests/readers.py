"""Readers of table files, data files and certificates, written by docs/FORMATS.md apart from the program.

Each returns the first error of a file, as a line and a kind, or None. `read_table` also returns the canonical text.
"""
import re

CODE_POINT = re.compile(rb"[0-9A-F]{4,6}")
WEIGHT = re.compile(rb"[0-9A-F]{4}")
VERSION = re.compile(rb"[0-9A-Za-z.-]{1,32}")
CLASS = re.compile(rb"[1-9][0-9]{0,2}")
ELEMENT = re.compile(rb"\[([.*])([0-9A-F]{4})\.([0-9A-F]{4})\.([0-9A-F]{4})\]")
RUN = re.compile(rb"([123]) ([0-9A-F]{4}) ([0-9A-F]{4}) ([0-9A-F]{4})")
BLANKS = b" \t"


class Wrong(Exception):
    """A line has an error of this kind."""


def need(is_so, kind):
    if not is_so:
        raise Wrong(kind)


def lines_of(file):
    """The lines, and whether an LF ends the last one."""
    *lines, rest = file.split(b"\n")
    return (lines, True) if not rest else ([*lines, rest], False)


def first_error(file, judge, end):
    """The first wrong line and its first error, by what judges a line and what is said at the end, if anything."""
    lines, is_ended = lines_of(file)
    for number, line in enumerate(lines, 1):
        try:
            judge(line)
            need(is_ended or number < len(lines), "Line")
        except Wrong as error:
            return number, str(error)
    kind = end()
    return (len(lines) + 1, kind) if kind else None


def code_point(digits):
    need(CODE_POINT.fullmatch(digits), "CodePoint")
    point = int(digits, 16)
    need(point <= 0x10FFFF and not 0xD800 <= point <= 0xDFFF, "CodePoint")
    return point


def ends_of(text):
    first, dots, last = text.partition(b"..")
    need(dots, "Line")
    return first, last


def meaning_of(line):
    """A line without its comment and outer blanks."""
    return line.partition(b"#")[0].strip(BLANKS)


class Table:
    def __init__(self):
        self.version = self.setting = None
        self.ranges, self.rows, self.keys = [], [], set()

    def judge(self, line):
        text = meaning_of(line)
        if text.startswith(b"@"):
            word = re.split(rb"[ \t]", text, maxsplit=1)[0]
            need(word in (b"@version", b"@variable", b"@implicitweights"), "Line")
            self.header(word, text[len(word) :].strip(BLANKS))
        elif text:
            self.row(text)

    def header(self, word, rest):
        if word == b"@version":
            need(self.version is None, "Order")
            need(VERSION.fullmatch(rest), "Line")
            self.version = rest
        elif word == b"@variable":
            need(self.version is not None and self.setting is None and not self.ranges and not self.rows, "Order")
            need(rest in (b"non-ignorable", b"shifted"), "Line")
            self.setting = rest
        else:
            need(self.version is not None and not self.rows, "Order")
            self.implicit(rest)

    def implicit(self, text):
        ends, sign, lead = text.partition(b";")
        need(sign, "Line")
        first, last = map(code_point, ends_of(ends.strip(BLANKS)))
        lead = lead.strip(BLANKS)
        need(WEIGHT.fullmatch(lead), "Weight")
        lead = int(lead, 16)
        need(first <= last and 0xFB00 <= lead <= 0xFB3F, "Range")
        need(all(last < other[0] or other[1] < first for other in self.ranges), "Range")
        own = [(first, last), *(other[:2] for other in self.ranges if other[2] == lead)]
        need(max(it[1] for it in own) - min(it[0] for it in own) < 0x8000, "Range")
        self.ranges.append((first, last, lead))

    def row(self, text):
        need(self.version is not None, "Order")
        key, at = [], 0
        while True:
            at = len(text) - len(text[at:].lstrip(BLANKS))
            if text[at : at + 1] in (b";", b""):
                break
            word = re.match(rb"[^ \t;]*", text[at:]).group()
            key.append(code_point(word))
            need(len(key) <= 16, "Limit")
            at += len(word)
        need(key and text[at : at + 1] == b";", "Line")
        elements = self.elements(text[at + 1 :])
        need(tuple(key) not in self.keys, "DuplicateKey")
        self.keys.add(tuple(key))
        self.rows.append((key, elements))

    def elements(self, text):
        found, text = [], text.strip(BLANKS)
        while text or not found:
            need(text[:2] in (b"[.", b"[*"), "Line")
            element = ELEMENT.match(text)
            need(element, "Weight")
            found.append(element.group())
            need(len(found) <= 32, "Limit")
            text = text[element.end() :].lstrip(BLANKS)
        return found

    def text(self):
        lines = [b"@version " + self.version]
        lines += [b"@variable " + self.setting] if self.setting else []
        lines += [b"@implicitweights %04X..%04X; %04X" % it for it in self.ranges]
        lines += [b" ".join(b"%04X" % point for point in key) + b" ; " + b"".join(elements) for key, elements in self.rows]
        return b"".join(line + b"\n" for line in lines)


def read_table(file):
    """The first error of a table file, or None and its canonical text."""
    table = Table()
    error = first_error(file, table.judge, lambda: "Order" if table.version is None else None)
    return (error, None) if error else (None, table.text())


def read_data(file):
    """The first error of a data file, or None."""
    ranges, state = {b"ccc": [], b"han": []}, {"begun": False}

    def judge(line):
        text = meaning_of(line)
        if not text:
            return
        need((text == b"@data 1") != state["begun"], "Order")
        if not state["begun"]:
            state["begun"] = True
            return
        kind, *words = re.split(rb"[ \t]+", text)
        need(len(words) == {b"ccc": 2, b"core": 1, b"other": 1}.get(kind), "Line")
        first, last = map(code_point, ends_of(words[0]))
        if kind == b"ccc":
            need(CLASS.fullmatch(words[1]) and int(words[1]) <= 254, "Weight")
        others = ranges[b"ccc" if kind == b"ccc" else b"han"]
        need(first <= last and all(last < other[0] or other[1] < first for other in others), "Range")
        others.append((first, last))

    return first_error(file, judge, lambda: None if state["begun"] else "Order")


def map_error(level, runs):
    """The error of the first run of a map that has one, with its line, or of the map, with None; or None."""
    most, before = 0x7FFF if level == 1 else 0xFFFF, (0, 0)
    for line, old, new, count in runs:
        if count == 0:
            return line, "Map Empty"
        if min(old, new) == 0 or max(old, new) + count - 1 > most:
            return line, "Map OutOfRange"
        if old <= before[0] or new <= before[1]:
            return line, "Map NotRising"
        before = old + count - 1, new + count - 1
    fixed = {1: None, 2: 0x20, 3: 0x02}[level]
    if fixed and not any(old <= fixed < old + count and old == new for _, old, new, count in runs):
        return None, "Map Fixed"
    return None


def read_certificate(file):
    """The first error of a certificate, or None."""
    runs = {1: [], 2: [], 3: []}

    def judge(line):
        run = RUN.fullmatch(line)
        need(run, "Line")
        level, *numbers = (int(it, 16) for it in run.groups())
        need(not any(runs[later] for later in range(level + 1, 4)), "Order")
        runs[level].append((sum(map(len, runs.values())) + 1, *numbers))

    error = first_error(file, judge, lambda: None)
    if error:
        return error
    for level in runs:
        found = map_error(level, runs[level])
        if found:
            return found[0] or len(lines_of(file)[0]) + 1, found[1]
    return None
