"""CLDR's collation files: which rules a locale has, and what their text says (UTS #35 Part 5, section 3). Part of languages/languages.py."""
import os
import re
import unicodedata
import xml.etree.ElementTree
from typing import NamedTuple

WHITE = set("\t\n\x0b\x0c\r \x85\u200e\u200f\u2028\u2029")
ENDS_OF_COMMENTS = set("\n\x0c\r\x85\u2028\u2029")
STRENGTHS = {"<": 1, "<<": 2, "<<<": 3, "<<<<": 4, "=": 0, ";": 2, ",": 3}

ELEMENTS = {"ldml", "identity", "version", "language", "script", "territory", "variant", "collations", "defaultCollation", "collation", "cr"}  # of a file
MOST_ITEMS = 200_000  # settings, resets and relations of a collation: a table has at most so many rows
MOST_IMPORTS = 100

# Names of collations in locale identifiers that differ from those in the files (UTS #35, key "co").
KINDS = {"phonebk": "phonebook", "trad": "traditional", "dict": "dictionary", "gb2312": "gb2312han"}
# The parents that are not found by cutting off the last part of a name. Cantonese has those of ICU and of later editions of CLDR.
PARENTS = {"nb": "no", "nn": "no", "sr_Latn": "root", "bs_Cyrl": "root", "ff_Adlm": "root", "yue": "zh_Hant", "yue_Hans": "zh"}


class CldrError(Exception):
    """What is wrong with a language tag, with CLDR's files or with what is asked of them, in words for the user."""


class Setting(NamedTuple):
    """A bracket that is not part of a reset, without the brackets."""

    name: str


class Reset(NamedTuple):
    """`&`, perhaps `[before n]`, and a text or the name of a position such as `last regular`."""

    before: int
    text: str
    is_position: bool


class Relation(NamedTuple):
    """A sign and a text, perhaps with a prefix before it and an expansion after it. Strength 0 is `=`."""

    strength: int
    prefix: str
    target: str
    expansion: str


def nfd(text):
    return unicodedata.normalize("NFD", text)


# ---- The files


def locale_and_kind(name):
    """`de-u-co-phonebk` is the collation `phonebook` of `de`; without `-u-co-` the kind is None."""
    locale, _, kind = name.partition("-u-co-")
    return locale.replace("-", "_").replace("und", "root"), KINDS.get(kind, kind) or None


def chain(locale):
    """A locale and its parents, the root last."""
    while locale and locale != "root":
        yield locale
        locale = PARENTS.get(locale) or locale.rpartition("_")[0]
    yield "root"


def collations(folder, locale, is_short=False):
    """The rules of each kind in a locale's file, and the kind that it takes by default. Where a kind has a short list too, `is_short` chooses it."""
    path = os.path.join(folder, "collation", locale + ".xml")
    if not os.path.exists(path):
        return {}, None
    try:
        root = xml.etree.ElementTree.parse(path).getroot()
    except (OSError, xml.etree.ElementTree.ParseError) as error:
        raise CldrError(f"{path}: {error}") from error
    unknown, found = {it.tag for it in root.iter()} - ELEMENTS, {}
    if unknown:
        raise CldrError(f"{path}: <{min(unknown)}> is not known")
    for it in root.iter("collation"):
        if it.get("alt") is None or is_short and it.get("alt") == "short":
            found[it.get("type")] = "".join(cr.text or "" for cr in it.iter("cr"))
    default = root.find("collations/defaultCollation")
    return found, None if default is None else default.text


def rules_text(folder, name, is_short=False):
    """The rules of a locale such as `sv` or `de-u-co-phonebk`; the kind is that of the locale where none is named."""
    return kind_and_rules(folder, name, is_short)[1]


def has_rules(folder, locale):
    """Whether CLDR has a file of collations for a locale or for one of its parents but the root."""
    return locale == "root" or any(os.path.exists(os.path.join(folder, "collation", f"{it}.xml")) for it in chain(locale) if it != "root")


def kind_and_rules(folder, name, is_short=False):
    """The kind of collation of a locale, and its rules."""
    locale, kind = locale_and_kind(name)
    if not os.path.exists(os.path.join(folder, "collation", "root.xml")):
        raise CldrError(f"{folder}: there is no file collation/root.xml of CLDR. Debian has it in the package unicode-cldr-core: apt install unicode-cldr-core")
    if not has_rules(folder, locale):
        raise CldrError(f"{name}: CLDR has no collation of this name: name a language by its code, such as pl")
    read = [collations(folder, it, is_short) for it in chain(locale)]
    kind = kind or next((default for _, default in read if default), "standard")
    text = next((found[kind] for found, _ in read if kind in found), None)
    if text is None:
        raise CldrError(f"{name}: CLDR has no such collation")
    return kind, text


def version(folder):
    """The version of CLDR's files."""
    path = os.path.join(folder, "dtd", "ldml.dtd")
    with open(path, encoding="utf-8") as file:
        found = re.search(r'cldrVersion CDATA #FIXED "([0-9.]+)"', file.read())
    if not found:
        raise CldrError(f"{path} names no version of CLDR")
    return found[1]


# ---- The text of rules


def add_range(found, last):
    """Adds the characters after the last one that was found, up to the end of a range."""
    first = ord(found[-1]) + 1
    if ord(last) < first - 1:
        raise ValueError(f"the range {found[-1]}-{last} goes down")
    if len(found) + ord(last) - first > MOST_ITEMS:
        raise ValueError(f"more than {MOST_ITEMS} characters in ranges")
    found += map(chr, range(first, ord(last) + 1))


def read_members(text):
    """The members of a set, without its brackets."""
    found, at, is_range = [], 0, False
    while at < len(text):
        character, size = text[at], 1
        if character in WHITE or character in "[]":
            at += 1
            continue
        if character == "-" and found and not is_range:
            is_range, at = True, at + 1
            continue
        if character == "{":
            end = text.index("}", at)
            character, size = escaped(text[at + 1 : end]), end + 1 - at
        elif character == "\\":
            character, size = escape(text, at)
        if is_range:
            add_range(found, character)
        else:
            found.append(character)
        is_range, at = False, at + size
    return found


def members(text):
    """The members of a set such as `[a-c {ch} \\u0300]`, without its brackets (UTS #35 Part 1, section 5.3)."""
    try:
        return read_members(text)
    except (IndexError, ValueError, TypeError) as error:
        raise CldrError(f"the set [{text[:30]}] cannot be read: {error}") from error


def escape(text, at):
    """The character of a backslash, and how many characters that takes."""
    digits = {"u": 4, "U": 8}.get(text[at + 1], 0)
    if digits:
        if len(text) < at + 2 + digits:
            raise ValueError("an escape without its digits")
        return chr(int(text[at + 2 : at + 2 + digits], 16)), 2 + digits
    return text[at + 1], 2


def escaped(text):
    """A text whose backslashes are taken for what they mean."""
    made, at = "", 0
    while at < len(text):
        character, size = escape(text, at) if text[at] == "\\" else (text[at], 1)
        made, at = made + character, at + size
    return made


def is_syntax(character):
    """Whether a character has to be quoted: of ASCII all but letters and digits."""
    return character < "\x80" and not character.isalnum()


class Reader:
    """Reads rules from left to right."""

    def __init__(self, text):
        self.text, self.at = text, 0

    def skip(self):
        """Goes past white space and comments."""
        while self.at < len(self.text):
            if self.text[self.at] == "#":
                while self.at < len(self.text) and self.text[self.at] not in ENDS_OF_COMMENTS:
                    self.at += 1
            elif self.text[self.at] in WHITE:
                self.at += 1
            else:
                return

    def next(self):
        self.skip()
        return self.text[self.at : self.at + 1]

    def bracket(self):
        """What is between `[` and its `]`."""
        begin, depth = self.at + 1, 0
        while True:
            depth += {"[": 1, "]": -1}.get(self.text[self.at], 0)
            self.at += 1
            if depth == 0:
                return " ".join(self.text[begin : self.at - 1].split())

    def sign(self):
        """A sign such as `<<`, and whether a star follows."""
        begin = self.at
        while self.text[self.at : self.at + 1] == self.text[begin] and (self.text[begin] == "<" or self.at == begin):
            self.at += 1
        star = self.text[self.at : self.at + 1] == "*"
        sign = self.text[begin : self.at]
        self.at += star
        return sign, star

    def quoted(self):
        """The characters of a quote, from its apostrophe on."""
        if self.text[self.at : self.at + 2] == "''":
            self.at += 2
            return "'"
        end = self.text.index("'", self.at + 1)
        inside, self.at = self.text[self.at + 1 : end], end + 1
        return escaped(inside)  # CLDR means its escapes inside quotes too

    def characters(self):
        """The characters of a text, each with whether it was written as itself."""
        found = []
        self.skip()
        while self.at < len(self.text):
            character = self.text[self.at]
            if character == "'":
                found += [(it, False) for it in self.quoted()]
            elif character == "\\":
                character, size = escape(self.text, self.at)
                found.append((character, False))
                self.at += size
            elif character in WHITE or is_syntax(character) and character != "-":
                break
            else:
                found.append((character, True))
                self.at += 1
        return found

    def plain(self):
        return "".join(character for character, _ in self.characters())

    def starred(self):
        """The targets of a starred text: each character, and all of a range."""
        found, is_range = [], False
        for character, is_plain in self.characters():
            if is_range:
                add_range(found, character)
                is_range = False
            elif character == "-" and is_plain:
                is_range = True
            else:
                found.append(character)
        return found

    def after(self, sign):
        """The text after a sign that may be there, such as `/`."""
        if self.next() != sign:
            return ""
        self.at += 1
        return self.plain()

    def reset(self):
        self.at += 1
        before = 0
        if self.next() == "[":
            name = self.bracket()
            if not name.startswith("before "):
                return Reset(0, name, True)
            before = int(name.removeprefix("before "))
            if self.next() == "[":
                return Reset(before, self.bracket(), True)
        return Reset(before, nfd(self.plain()), False)

    def relations(self):
        sign, star = self.sign()
        if star:
            return [Relation(STRENGTHS[sign], "", nfd(target), "") for target in self.starred()]
        first = self.plain()
        second = self.after("|")
        prefix, target = (first, second) if second else ("", first)
        return [Relation(STRENGTHS[sign], nfd(prefix), nfd(target), nfd(self.after("/")))]

    def items(self):
        """Settings, resets and relations, in their order."""
        while sign := self.next():
            if sign == "[":
                yield Setting(self.bracket())
            elif sign == "&":
                yield self.reset()
            elif sign in "<=;,":
                yield from self.relations()
            else:
                raise CldrError(f"rules that this script cannot read: {self.text[self.at : self.at + 20]!r}")


def imported_name(setting):
    """The collation that a setting such as `import sv` names; none for another setting."""
    word, _, name = setting.partition(" ")
    if word != "import":
        return ""
    if not re.fullmatch("[A-Za-z0-9-]+", name):
        raise CldrError(f"[{setting}] names no collation")
    return name if "-u-co-" in name else name + "-u-co-standard"


def read_items(folder, name, is_short):
    """The settings, resets and relations of a locale's own rules. Text that ends too early is an error."""
    try:
        yield from Reader(rules_text(folder, name, is_short)).items()
    except (IndexError, ValueError, KeyError, TypeError) as error:
        raise CldrError(f"{name}: the rules of CLDR cannot be read: {error}") from error


def with_imports(folder, name, is_short, importing=()):
    """The items of a locale; after each import come those that it imports."""
    if name in importing:
        raise CldrError(f"{name}: its rules import themselves: {' > '.join((*importing, name))}")
    for item in read_items(folder, name, is_short):
        yield item
        imported = imported_name(item.name) if isinstance(item, Setting) else ""
        if imported:
            yield from with_imports(folder, imported, is_short, (*importing, name))


def items_of(folder, name, is_short=False):
    """The settings, resets and relations of a locale; those of an import take its place."""
    imports = 0
    for count, item in enumerate(with_imports(folder, name, is_short)):
        is_import = isinstance(item, Setting) and bool(imported_name(item.name))
        imports += is_import
        if count == MOST_ITEMS or imports > MOST_IMPORTS:
            raise CldrError(f"{name}: its rules are more than {MOST_ITEMS} settings, resets and relations, or more than {MOST_IMPORTS} imports")
        if not is_import:
            yield item
