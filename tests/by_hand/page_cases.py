"""The commands that page.py compares: real lists, all commands over small files, and odd or broken files."""
import os
import random
import re
from typing import NamedTuple

CLDR = "/usr/share/unicode/cldr/common/main"

# A book for the small table of examples/.
BOOK = "@book 1\n1 1C47\n1 1C48\n4 0209\n4 020A\n"


class Case(NamedTuple):
    """A command over files, which are named by the paths that have their bytes."""

    words: list
    files: dict
    input: str = ""


def names_of_cldr():
    """Names of countries, languages and scripts in all languages of CLDR, in an order without a meaning."""
    found = []
    for name in sorted(os.listdir(CLDR)) if os.path.isdir(CLDR) else []:
        with open(f"{CLDR}/{name}", encoding="utf-8") as it:
            found += re.findall(r"<(?:territory|language|script)[^>]*>([^<]+)<", it.read())[:150]
    random.Random(1).shuffle(found)
    return "".join(f"{it}\n" for it in found[:20000] if it.strip())


def hostile():
    """Files that are odd or broken, by their names."""
    mixed = random.Random(2)
    noise = bytes(mixed.randrange(256) for _ in range(5000))
    letters = "abcdefghijklmnopqrstuvwxyz"
    rules = "&z" + "".join(f" < q{letters[i % 26]}{letters[i // 26 % 26]}{letters[i // 676]}" for i in range(5000))
    lines = {
        "empty": "",
        "nul": "a\0b\n\0\n",
        "no_end": "b\na",
        "marks": "a" + "\u0301" * 65 + "\n",
        "long": "é" * 500000 + "\n",
        "many": "".join(f"{i * 7919 % 300007:x}\n" for i in range(100000)),
        "too_many_lines": "a\n" * 1000001,
        "crlf": "b\r\na\r\n",
        "planes": "\U0001f600\n\U0010ffff\nǆ\n한글\n中\n",
        "relations": rules,
        "too_many": rules + " < qqqqq",
        "nothing": "# no rules\n",
        "syntax": "&z < å <<<< Å",
        "escape": r"&z < \ud800",
        "late": "&ab < c &a < b",
        "quote": "&z < 'a",
        "bom": "\ufeff&z < a",
    }
    return {**{name: text.encode() for name, text in lines.items()}, "noise": noise, "bad_utf8": b"a\n\xff\n"}


def real_cases(table, data):
    """Commands over Unicode's table and real lists."""
    files = {"table.txt": table, "data.txt": data}
    for weighting in ("shifted", "non-ignorable"):
        for command in (["keys"], ["keys", "--identical"], ["keys", "--numeric"], ["keys", "--lines", "--header"], ["sort"], ["sort", "--identical"], ["sort", "--numeric"], ["fingerprint"]):
            words = [*command, "--weighting", weighting, *files]
            yield Case(words, files, "" if command == ["fingerprint"] else "names")
    yield Case(["check", *files], files)
    for left, right in (("cote", "côté"), ("a b", "ab"), ("é", "e\u0301"), ("", "a"), ("x\ny", "x")):
        yield Case(["compare", *files, left, right], files)
    for language in ("danish", "spanish", "swedish"):
        rules = {**files, "rules.txt": f"examples/rules_{language}.txt"}
        yield Case(["tailor", *rules, "certificate.txt"], rules)
        yield Case(["affected", "data.txt", "rules.txt"], rules, "names")


def small_cases():
    """All other commands, over the files of examples/."""
    at = lambda name: f"examples/{name}"
    files = {"table.txt": at("table.txt"), "data.txt": at("data.txt")}
    rules = {**files, "rules.txt": at("rules.txt")}
    audit = {**rules, "tailored.txt": at("tailored.txt"), "certificate.txt": at("certificate.txt")}
    old = {"old.txt": at("table.txt"), "old-data.txt": at("data.txt"), "new.txt": at("editions/table.txt"), "new-data.txt": at("editions/data.txt")}
    changes = {"changes.txt": at("editions/changes.txt"), "certificate.txt": at("editions/certificate.txt")}
    yield Case(["audit", *audit], audit)
    yield Case(["audit", *[*audit][::-1]], audit)
    yield Case(["tailor", *rules, "rules.txt"], rules)
    yield Case(["changes", *old, "c.txt"], old)
    yield Case(["audit-changes", *old, *changes], {**old, **changes})
    yield Case(["affected", "--changes", "data.txt", "changes.txt"], {"data.txt": at("data.txt"), **changes}, at("lines.txt"))
    for words in (["keys", "--weighting", "odd", *files], ["check", "table.txt"], ["check", "no.txt", "data.txt"]):
        yield Case(words, files)
    for words in ([], ["--help"], ["--version"], ["help", "tailor"], ["nonsense"]):
        yield Case(words, {})


def stored_cases(fingerprint):
    """Keys of the small table that were stored, as MADE_BY_PROGRAM has them: `headed` has a header of this fingerprint, and `compacted` compact keys."""
    files = {"table.txt": "examples/table.txt", "data.txt": "examples/data.txt", "book.txt": "book"}
    certificate, book = {"certificate.txt": "examples/editions/certificate.txt"}, {"book.txt": "book"}
    other = "0" * 64
    for at_from in (["--from", fingerprint], ["--from", other]):
        yield Case(["rekey", *at_from, "--to", other, *certificate], certificate, "headed")
        yield Case(["compact", *at_from, *book], book, "headed")
    for name in ("keys", "headed", "compacted", "noise", "empty"):
        yield Case(["rekey", *certificate], certificate, name)
        yield Case(["rekey", "--weighting", "non-ignorable", "--identical", *certificate], certificate, name)
        yield Case(["compact", *book], book, name)
        yield Case(["expand", *book], book, name)
    yield Case(["book", *certificate, *book], {**certificate, **book})
    yield Case(["keys", "--compact", "book.txt", *[*files][:2]], files, "examples/lines.txt")
    yield Case(["keys", "--compact", "book.txt", "--lines", "--header", "--identical", *[*files][:2]], files, "examples/lines.txt")
    yield Case(["fingerprint", "--compact", "book.txt", *[*files][:2]], files)


# What the program makes before: the names of files, and the arguments before the table and the data file.
MADE_BY_PROGRAM = {"keys": ["keys"], "headed": ["keys", "--lines", "--header"], "compacted": ["keys", "--lines", "--compact", "book"]}


def hostile_cases():
    files = {"table.txt": "examples/table.txt", "data.txt": "examples/data.txt"}
    for name in hostile():
        for command in ("keys", "sort"):
            yield Case([command, *files], files, name)
        yield Case(["check", *files], {**files, "table.txt": name})
        yield Case(["check", *files], {**files, "data.txt": name})
        rules = {**files, "rules.txt": name}
        yield Case(["tailor", *rules, "certificate.txt"], rules)
        yield Case(["affected", "data.txt", "rules.txt"], rules, "examples/lines.txt")
        audit = {**rules, "tailored.txt": "examples/tailored.txt", "certificate.txt": name}
        yield Case(["audit", *audit], audit)


def all_cases(fingerprint):
    yield from real_cases("made/table.txt", "made/data.txt")
    yield from small_cases()
    yield from stored_cases(fingerprint)
    yield from hostile_cases()
