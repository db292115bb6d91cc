"""Tries from_keys.py beside ICU, and its errors. Part of run_all.py: the example `from_keys`.

It needs Debian's g++, libicu-dev, unicode-cldr-core, sqlite3 and wfrench.
"""
import bisect
import os
import random
import sys
import unicodedata

HERE = os.path.dirname(os.path.realpath(__file__))
TOP = os.path.dirname(os.path.dirname(HERE))
sys.path[:0] = [f"{TOP}/languages", f"{TOP}/tests/by_hand"]

import language_lines  # noqa: E402

CLDR, FRENCH = "/usr/share/unicode/cldr/common", "/usr/share/dict/french"
SCRIPT, LANGUAGES = f"{HERE}/from_keys.py", f"{TOP}/languages/languages.py"
ACCENTED = "aàâeéèêëoôuùûcçn"
NEEDLES = ("e", "et", "ca", "ie", "ét", "oeu", "ann", "ÉCO", "ss", "f")
# The tag of each index that is tried, and ICU's name of the locale.
INDEXES = [("en", "en"), ("de", "de"), ("sv", "sv"), ("cs", "cs"), ("el", "el"), ("ru", "ru"), ("ja", "ja"), ("ko", "ko"), ("zh", "zh@collation=pinyin")]
INDEXES += [("zh-Hant", "zh_Hant@collation=stroke"), ("zh-u-co-zhuyin", "zh_Hant@collation=zhuyin")]
REAL = 3000


def as_lines(texts):
    return "".join(f"{it}\n" for it in texts).encode()


def to_move(texts, ours, theirs):
    """How many texts have to move so that the order of some keys becomes that of others; equal keys go by code points."""
    left, right = (sorted(texts, key=lambda it, keys=keys: (keys[it], unicodedata.normalize("NFD", it))) for keys in (ours, theirs))
    places, found = {it: at for at, it in enumerate(right)}, []
    for it in left:  # the longest rising list of places
        at = bisect.bisect_left(found, places[it])
        found[at : at + 1] = [places[it]]
    return len(texts) - len(found)


class Tries:
    """Tables, the programs that call ICU, and key lines."""

    def __init__(self, bench):
        self.bench = bench
        for source, compiler, name in (("icu_from_keys.cpp", "g++", "icu_from_keys"), ("icu_lines.c", "gcc", "icu_lines")):
            bench.run([compiler, "-O1", "-o", bench.path(name), f"{TOP}/tests/by_hand/{source}", "-licui18n", "-licuuc"])
        self.tables = {}

    def table(self, tag):
        """The table of a language, with the short lists of Chinese that ICU has."""
        if tag not in self.tables:
            self.tables[tag] = self.bench.path(f"{tag}.txt")
            words = [sys.executable, LANGUAGES, "--uca", self.bench.given.uca, "table", "--short", tag, self.bench.table, self.bench.data]
            self.bench.run(words, out=self.tables[tag])
        return self.tables[tag]

    def keyed(self, name, tag, texts, *options):
        """A file with the key lines of texts, under the order of a language."""
        path = self.bench.path(name)
        words = ["uca", "keys", "--lines", "--header", "--weighting", "non-ignorable", *options, self.table(tag), self.bench.data]
        self.bench.run(words, lines=as_lines(texts), out=path)
        return path

    def script(self, *words, path=None):
        """What from_keys.py prints, over a file of key lines."""
        return self.bench.run([sys.executable, SCRIPT, *words], lines=self.bench.content(path) if path else b"")

    def icu(self, *words, lines):
        return self.bench.run([self.bench.path("icu_from_keys"), *words], lines=lines).decode().split("\n")[:-1]

    def rejects(self, what, wanted, words, text=b""):
        """The script ends with an error that says what it should."""
        path = self.bench.path("wrong.tsv")
        with open(path, "wb") as file:
            file.write(text)
        try:
            self.script(*words, path=path)
            said = "no error"
        except Exception as error:  # Failed of run_all.py
            said = str(error)
        self.bench.check(f"from_keys: {what} is rejected", wanted in said, "" if wanted in said else said[-200:])


def keys_by_text(lines):
    """The key of each text, from key lines with a header."""
    rows = (it.split("\t", 1) for it in lines.decode().split("\n")[1:-1])
    return {text: bytes.fromhex(key) for key, text in rows}


def french_words():
    """Words of Debian's list and made ones, which often differ in accents alone."""
    chance = random.Random(1)
    with open(FRENCH, encoding="utf-8") as file:
        words = {it.strip() for it in file if it.strip()}
    made = {"".join(chance.choice(ACCENTED) for _ in range(chance.randint(1, 5))) for _ in range(5000)}
    return sorted({*chance.sample(sorted(words), 40_000), *made})


def try_turn(tries):
    """Accents from the end, beside ICU's order of French in Canada."""
    texts, bench = french_words(), tries.bench
    path = tries.keyed("french.tsv", "fr-CA-u-kb-false", texts)
    turned = tries.script("turn", path=path)
    theirs = bench.run([bench.path("icu_lines"), "fr-CA", "own", "non-ignorable"], lines=as_lines(texts)).decode().split("\n")[1:-1]
    theirs = dict(zip(texts, theirs, strict=True))
    plain = to_move(texts, keys_by_text(bench.content(path)), theirs)
    moved = to_move(texts, keys_by_text(turned), theirs)
    bench.check("from_keys: turned keys are in ICU's order of fr-CA", moved == 0 and plain > 0, f"{len(texts):,} words, {moved} to move; {plain} without")
    back = bench.path("turned.tsv")
    with open(back, "wb") as file:
        file.write(turned)
    bench.check("from_keys: keys that are turned twice are as they were", tries.script("turn", path=back) == bench.content(path))
    rejects_turned(bench, bench.content(path), turned)


def rejects_turned(bench, keys, turned):
    """`uca rekey` takes the keys, and rejects them once they are turned. Its certificate moves nothing."""
    certificate, own = bench.path("same.certificate"), keys.split(b"\n")[0].decode().split()[-1]
    bench.uca("changes", bench.table, bench.data, bench.table, bench.data, certificate)
    words = ["rekey", "--weighting", "non-ignorable", "--from", own, "--to", own, certificate]
    bench.check("from_keys: uca rekey takes the keys", bench.uca(*words, lines=keys) == keys)
    try:
        bench.uca(*words, lines=turned)
        said = "no error"
    except Exception as error:  # Failed of run_all.py
        said = str(error)
    bench.check("from_keys: uca rekey rejects turned keys", "input line 1: Header" in said, said[-60:])


def try_merge(tries):
    """Fields in turn, beside both ways of ICU."""
    chance, words, bench = random.Random(2), french_words(), tries.bench
    few = [chance.choice(words) for _ in range(150)]
    pairs = sorted({(chance.choice(few), chance.choice(few if chance.random() < 0.7 else words)) for _ in range(12_000)})
    paths = [tries.keyed(f"field_{at}.tsv", "fr-CA-u-kb-false", [it[at] for it in pairs]) for at in range(2)]
    ours = keys_by_text(tries.script("merge", *paths))
    texts = ["\t".join(it) for it in pairs]
    for how, call in (("merge", "ucol_mergeSortkeys"), ("joined", "U+FFFE between them")):
        theirs = dict(zip(texts, tries.icu(how, "fr", lines=as_lines(texts)), strict=True))
        moved = to_move(texts, ours, theirs)
        bench.check(f"from_keys: merged keys are in the order of {call}", moved == 0, f"{len(texts):,} pairs, {moved} to move")
    first = keys_by_text(bench.content(paths[0]))
    one = to_move(texts, {text: first[pair[0]] for text, pair in zip(texts, pairs)}, theirs)
    bench.check("from_keys: the first field alone gives another order", one > 0, f"{one} to move")


def try_find(tries):
    """Search at level 1, beside usearch, and the same in SQLite. A part of a character, such as f in ﬁ, is found by keys alone."""
    chance, bench = random.Random(3), tries.bench
    texts = sorted({*chance.sample(french_words(), 4000), "cœur", "Œuvre", "ﬁn", "Straße", "cafe\u0301", "æther"})
    path = tries.keyed("words.tsv", "fr", texts)
    missed, more, count = 0, set(), 0
    for needle in NEEDLES:
        found = set(keys_by_text(tries.script("find", tries.keyed("needle.tsv", "fr", [needle]), path=path)))
        theirs = {it for it, is_found in zip(texts, tries.icu("find", "fr", lines=as_lines(f"{needle}\t{it}" for it in texts))) if is_found == "1"}
        missed, more, count = missed + len(theirs - found), more | (found - theirs), count + len(found)
        bench.check(f"from_keys: SQLite finds the same for {needle}", sqlite_finds(tries, path, needle) == found, f"{len(found):,} texts")
    has_parts = all(any(it in text for it in "œŒæÆﬁß") for text in more)
    bench.check("from_keys: what usearch finds is found", missed == 0 and count > 1000, f"{len(NEEDLES)} needles in {len(texts):,} words, {count:,} found, {missed} missed")
    bench.check("from_keys: what is found beyond it is a part of a character", has_parts and more, f"in {len(more)} words")


def sqlite_finds(tries, path, needle):
    """The texts that SQLite finds by the column of letters."""
    bench, database, rows = tries.bench, tries.bench.path("letters.db"), tries.bench.path("letters.tsv")
    if not os.path.exists(database):
        text = tries.script("letters", path=path).split(b"\n", 1)[1]
        with open(rows, "wb") as file:
            file.write(text)
        bench.run(["sqlite3", database, "create table words (letters text, key text, word text)", ".mode tabs", f".import {rows} words"])
    wanted = tries.script("letters", path=bench.path("needle.tsv")).decode().split("\n")[1].split("\t")[0]
    return set(bench.run(["sqlite3", database, f"select word from words where instr(letters, '{wanted}') > 0"]).decode().split("\n")[:-1])


def try_buckets(tries):
    """Buckets of an index, beside AlphabeticIndex, over CLDR's own texts."""
    bench = tries.bench
    for tag, locale in INDEXES:
        texts = language_lines.real(CLDR, tag, REAL)
        labels, words = bench.path("labels.tsv"), [sys.executable, LANGUAGES, "--uca", bench.given.uca, "labels"]
        bench.run([*words, tag, tries.table(tag), bench.data], out=labels)
        starts = [it.split("\t")[0] for it in bench.content(labels).decode().split("\n")[:-1]]
        keyed = tries.keyed("labels.keys", tag, starts)
        out = tries.script("buckets", labels, keyed, path=tries.keyed("texts.tsv", tag, texts)).decode().split("\n")[:-1]
        ours = [it.split("\t")[0] for it in out]
        theirs = tries.icu("buckets", locale, lines=as_lines(texts))
        wrong = [(text, one, other) for text, one, other in zip(texts, ours, theirs, strict=True) if one != other]
        bench.check(f"from_keys: the buckets of {tag} are those of AlphabeticIndex", not wrong, f"{len(set(ours))} buckets, {len(texts):,} lines, {len(wrong)} in another {wrong[:3] or ''}")


def try_errors(tries):
    """What the script rejects."""
    weights = tries.keyed("some.tsv", "fr", ["a", "b"])
    content = tries.bench.content(weights)
    header, first, second = content.split(b"\n")[:3]
    other = tries.keyed("other.tsv", "fr-CA-u-kb-false", ["a", "b"])
    tries.rejects("a file without a header", "is no header", ["turn"], first + b"\n")
    tries.rejects("an identical level", "without an identical level", ["turn"], tries.bench.content(tries.keyed("identical.tsv", "fr", ["a"], "--identical")))
    tries.rejects("a key of other levels", "key of 3 levels", ["turn"], header + b"\n1C470000\ta\n")
    tries.rejects("a line without a tab", "no line KEY TAB TEXT", ["letters"], header + b"\n1C47000000200000\n")
    tries.rejects("a key that is no hexadecimal", "no line KEY TAB TEXT", ["letters"], header + b"\n1c47000000200000\ta\n")
    tries.rejects("a merge of keys of two tables", "other files or settings", ["merge", weights, other])
    tries.rejects("a search by another table", "other files or settings", ["find", other], content)
    one = tries.bench.path("one.tsv")
    for what, wanted, text in (
        ("a merge of files of other lengths", "has fewer lines", header + b"\n" + first + b"\n"),
        ("a key with 0001 in a merge", "one.tsv, line 3: this key has the weight 0001", b"\n".join([header, first, b"1C47000000200000" + b"0001\tb", b""])),
    ):
        with open(one, "wb") as file:
            file.write(text)
        tries.rejects(what, wanted, ["merge", weights, one])
    tries.rejects("a needle of two lines", "a needle is one key", ["find", weights], content)
    with open(one, "wb") as file:
        file.write(header + b"\n00000000\t\n")
    tries.rejects("a needle without letters", "a needle is one key", ["find", one], content)
    labels = tries.bench.path("labels.tsv")
    with open(labels, "wb") as file:
        file.write(b"a\tA\n")
    tries.rejects("a label that is not listed", "a label that", ["buckets", labels, weights], content)


def try_all(bench):
    """All of it."""
    tries = Tries(bench)
    for it in (try_errors, try_turn, try_merge, try_find, try_buckets):
        it(tries)
