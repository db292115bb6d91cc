#!/usr/bin/env python3
"""Makes the weight table of a language, or rules for it, from CLDR's own files.

    languages/languages.py table ru table.txt data.txt > russian.txt
    languages/languages.py rules sv table.txt > swedish.rules
    languages/languages.py keep Cyrl table.txt data.txt russian.txt russian.certificate > russian.changes

`table TAG TABLE DATA` prints a whole table, from Unicode's own and its data file, which languages/unicode_files.py makes. The tag names a locale, such as `sv`, and
perhaps a collation and settings (UTS #35 Part 5, section 3.3): `de-u-co-phonebk`, `da-u-kf-lower`, `en-u-kr-grek-ka-shifted`. The table is printed once `uca`
says that it is well-formed, and accepts the changes from Unicode's table to it. With --short the lists of Chinese are the short ones, which ICU has too.

`rules TAG TABLE` prints rules of a locale or of one of its collations, in the profile that `uca` reads (docs/FORMATS.md). They fit the table that is given: a
comment at the head names what CLDR says and the profile cannot. The rules are planned and audited before they are printed. Where they are more than 5,000 relations, --part prints a part: --part 2 is for the table that part 1 made.

`keep SCRIPT TABLE DATA NEW CERTIFICATE` prints changes from one table to another, and writes their certificate. Like `uca changes` does, but the letters of the
script stay, and the letters that they pass are listed. `uca audit-changes` accepts them before they are printed.

`labels TAG TABLE DATA` prints the labels of an index, from CLDR and the table of the language: where each bucket begins, a tab, and its label. docs/FROM_KEYS.md uses
it.

Whatever else a tag has is an error: nothing is printed, and the status is 1.

Debian's packages: unicode-cldr-core has the files of CLDR, unicode-data those of Unicode. The program is crates/uca/out/uca, which tools/build.py builds, or else
the command `uca`. docs/LANGUAGES.md says more.
"""
import argparse
import contextlib
import io
import os
import re
import shutil
import subprocess
import sys
import tempfile
from typing import NamedTuple

sys.dont_write_bytecode = True
import script_order
import unicode_files
from cldr_rules import CldrError, Relation, Reset, items_of
from index_labels import index_labels
from kept_changes import kept_changes
from language_tables import MAKER, table_of
from language_tags import read_tag, rootless, script_codes
from profile_rules import MOST_RELATIONS, Table, Translation, chains
from weight_lists import read_rows

TOP = os.path.dirname(os.path.dirname(os.path.realpath(__file__)))
CLDR = "/usr/share/unicode/cldr/common"


# ---- Running the program


class Judged(NamedTuple):
    """The name of a new table that was audited, or the line of the error in its place."""

    table: str
    error: str


def program(options):
    built, installed = f"{TOP}/crates/uca/out/uca", f"{TOP}/../../bin/uca" if TOP.endswith("/share/uca") else ""
    found = options.uca or next((it for it in (built, installed) if os.path.exists(it)), None) or shutil.which("uca")
    if not found:
        raise CldrError("there is no program crates/uca/out/uca or uca: what is made is judged by it before it is printed")
    if not shutil.which(found):
        raise CldrError(f"{found} is no program that can be run: --uca names the program uca")
    return found


def run(words, lines=""):
    """What a command prints, and its errors."""
    done = subprocess.run(words, input=lines.encode(), stdout=subprocess.PIPE, stderr=subprocess.PIPE, check=False)
    return done.stdout.decode(), done.stderr.decode().partition("\nhelp: ")[0].strip()


def write(path, text):
    with open(path, "w", encoding="utf-8") as file:
        file.write(text)
    return path


def planned(options, folder, rules, table, data):
    """Plans rules over a table and audits what was made: the audit believes neither this script nor the planner."""
    names = {it: os.path.join(folder, it) for it in ("rules", "certificate", "tailored")}
    write(names["rules"], rules)
    out, said = run([program(options), "tailor", table, data, names["rules"], names["certificate"]])
    if said:
        return Judged("", said)
    write(names["tailored"], out)
    out, said = run([program(options), "audit", table, data, names["rules"], names["tailored"], names["certificate"]])
    return Judged(names["tailored"], "" if out == "accepted\n" else out.strip() or said)


def with_setting(folder, text, table):
    """The given table, with the weighting that a new one names. Tables of two weightings have no changes: all keys differ."""
    setting = re.search("^@variable .*\n", text, re.M)
    with open(table, encoding="utf-8") as file:
        old = file.read()
    if not setting or setting[0] in old:
        return table
    return write(os.path.join(folder, "base"), re.sub("^(@version .*\n)", lambda it: it[0] + setting[0], re.sub("^@variable .*\n", "", old, flags=re.M), flags=re.M))


def changed(options, folder, text, table, data):
    """Judges a whole table: it is well-formed, and the changes from the given one are found and accepted."""
    table = with_setting(folder, text, table)
    uca, new, certificate = program(options), os.path.join(folder, "new"), os.path.join(folder, "certificate")
    write(new, text)
    out, said = run([uca, "check", new, data])
    if out != "well-formed\n":
        return Judged("", out.strip() or said)
    out, said = run([uca, "changes", table, data, new, data, certificate])
    if said:
        return Judged("", said)
    changes = write(os.path.join(folder, "changes"), out)
    out, said = run([uca, "audit-changes", table, data, new, data, changes, certificate])
    return Judged(new, "" if out == "accepted\n" else out.strip() or said)


def check_table(options, table, data):
    """Judges a table that is given and its data file, so that the reader of rows may trust their format."""
    out, said = run([program(options), "check", table, data])
    if out != "well-formed\n":
        raise CldrError(f"the table that is given, {table}: {out.strip() or said}")


def write_by(call, path, *given):
    """Writes to a file what a call of unicode_files prints."""
    printed = io.StringIO()
    with contextlib.redirect_stdout(printed):
        call(*given)
    return write(path, printed.getvalue())


# ---- Rules


def parts_of(items):
    """The items in parts of at most as many relations as `uca` takes. A part that begins inside a chain goes on after the target before it."""
    found, count, last = [[]], 0, ""
    for item in items:
        if isinstance(item, Relation):
            if count == MOST_RELATIONS:
                found.append([Reset(0, last, False)])
                count = 0
            count += 1
            last = item.prefix + item.target
        found[-1].append(item)
    return found


def translated(options, name, table, part=None):
    """The relations of a locale over a table, or of one of its parts. A locale of several parts without a part is not translated: None."""
    parts = parts_of(items_of(options.cldr, name))
    if part is not None and not 1 <= part <= len(parts):
        raise CldrError(f"{name}: there is no part {part}: it has {len(parts)}")
    return Translation(parts[(part or 1) - 1], table) if part or len(parts) == 1 else None


def head(name, translation):
    """The comment at the head of rules."""
    yield f"# The order of {name}, made from CLDR's files by {MAKER}."
    if translation.weighting != "non-ignorable":
        yield f"# CLDR takes the weighting {translation.weighting} with it."
    if translation.is_upper_first:
        yield "# Upper case first, for the letters a to z and those of the rules."
    if translation.left_out:
        yield "# Left out: " + "; ".join(translation.left_out) + "."


def rules_of(name, translation):
    return "\n".join([*head(name, translation), *chains(translation.relations)]) + "\n"


def print_rules(options):
    tag = read_tag(options.cldr, options.tag, ("co",))
    with tempfile.TemporaryDirectory() as folder:
        data = write_by(unicode_files.print_data, os.path.join(folder, "data"), unicode_files.FOLDER)
        check_table(options, options.table, data)
        translation = translated(options, tag.name, Table(options.table), options.part)
        if translation is None:
            raise CldrError(f"{tag.text}: more than {MOST_RELATIONS} relations, which is more than uca takes at once: take a part by --part 1, or `languages/languages.py table`")
        rules = rules_of(tag.text, translation)
        error = planned(options, folder, rules, options.table, data).error
    if error:
        raise CldrError(f"{tag.text}: {error}")
    tell(rootless(tag))
    sys.stdout.write(rules)


# ---- Tables


def check_given(options):
    """Judges the given table and data file."""
    check_table(options, options.table, options.data)


def tell(sentence):
    """Says a sentence on standard error, where there is one."""
    if sentence:
        print(sentence, file=sys.stderr)


def judged_table(options, tag, table, data, is_short=False, unicode=unicode_files.FOLDER):
    """The text of a tag's table, once the program has accepted it."""
    text = table_of(tag, table, data, options.cldr, is_short, unicode)
    with tempfile.TemporaryDirectory() as folder:
        error = changed(options, folder, text, table, data).error
    if error:
        raise CldrError(f"{tag.text}: {error}")
    return text


def print_table(options):
    tag = read_tag(options.cldr, options.tag)
    check_given(options)
    text = judged_table(options, tag, options.table, options.data, options.short)
    tell(rootless(tag))
    sys.stdout.write(text)


# ---- Changes that keep a script


def print_kept(options):
    script = script_codes(options.cldr, options.script)
    for given in (options.table, options.new):
        check_table(options, given, options.data)
    of = script_order.scripts()
    old, new = (dict(read_rows(it)[1]) for it in (options.table, options.new))
    letters = {it for it in old if len(it) == 1 and of.get(ord(it)) in script}
    if not letters:
        raise CldrError(f"the table has no letters of {options.script}")
    changes, certificate = kept_changes(old, new, letters)
    with tempfile.TemporaryDirectory() as folder:
        names = [write(os.path.join(folder, name), text) for name, text in (("changes", changes), ("certificate", certificate))]
        out, said = run([program(options), "audit-changes", options.table, options.data, options.new, options.data, *names])
    if "SettingChanged" in out:
        raise CldrError("the tables name two weightings: make the first one by `languages/unicode_files.py table --weighting non-ignorable`")
    if out != "accepted\n":
        raise CldrError(f"{options.script}: {out.strip() or said}")
    write(options.certificate, certificate)
    sys.stdout.write(changes)


# ---- Labels of an index


def print_labels(options):
    tag = read_tag(options.cldr, options.tag)
    check_given(options)
    for text, label in list(index_labels(tag, options.table, options.data, options.cldr)):
        sys.stdout.write(f"{text}\t{label}\n")


def main():
    parser = argparse.ArgumentParser(description=__doc__.split("\n", maxsplit=1)[0], epilog="docs/LANGUAGES.md says more.")
    parser.add_argument("--cldr", default=CLDR, help=f"the folder of CLDR's files ({CLDR})")
    parser.add_argument("--uca", help="the program")
    commands = parser.add_subparsers(dest="command", required=True)
    table = commands.add_parser("table", help="prints the table of a language")
    rules = commands.add_parser("rules", help="prints rules of a language")
    keep = commands.add_parser("keep", help="prints changes that keep the letters of a script")
    labels = commands.add_parser("labels", help="prints the labels of an index")
    for command in (table, rules, labels):
        command.add_argument("tag", help="a language tag, such as sv or de-u-co-phonebk")
    keep.add_argument("script", help="the code of a script, such as Cyrl")
    for command in (table, rules, keep):
        command.add_argument("table", help="Unicode's table")
    labels.add_argument("table", help="the table of the language")
    for command in (table, keep, labels):
        command.add_argument("data", help="the data file")
    rules.add_argument("--part", type=int, help="a part of more than 5,000 relations: part 2 is for the table that part 1 made")
    table.add_argument("--short", action="store_true", help="the short lists of Chinese")
    keep.add_argument("new", help="the new table")
    keep.add_argument("certificate", help="the file of the certificate, which is replaced")
    options = parser.parse_args()
    try:
        {"rules": print_rules, "table": print_table, "keep": print_kept, "labels": print_labels}[options.command](options)
    except (CldrError, OSError) as error:
        sys.exit(str(error))


if __name__ == "__main__":
    main()
