#!/usr/bin/env python3
"""Measures tailorings: time and peak memory of reading rules, of `uca tailor`, and of `uca audit`.

    tools/build.py                     # proves and builds crates/uca/out/uca
    bench/tailorings.py rules          # from the top of the repository, as the others
    bench/tailorings.py tailor         # planning, beside reading the same three files
    bench/tailorings.py audit          # audits, beside reading the same five files

The script makes its own files. Compare rows of one output alone.

`rules` puts the program of `rules.rt.txt` into a copy of the repository, as bench/compare.py does it. With `--program FILE` a program that was built
before is run, and nothing is built; `--keep FILE` keeps the one that is built; `--rules FOLDER` keeps the rules. Rules, each as large as may be in one way:

- nothing: no rules, the start of the program;
- chain: 5,000 relations of one code point in one chain;
- anchors: 5,000 relations of 16 code points, each after an anchor of 16 code points of its own. All texts begin with the
  same 15 code points, so that each is compared with each to its end;
- expansions: the same, each with an expansion of 16 code points of its own;
- starred: 5,000 relations of one starred text;
- range: a starred text that names a million code points (5,000 are read);
- letters: one text of 1,048,572 letters, which is rejected;
- decomposed: one text of 349,524 code points of three bytes, each of them four in Normalization Form D;
- comment: a comment of 1,048,576 bytes.

For `tailor` and `audit` a base of so many rows has primaries with room between any two. The first 16,000 rows have an even primary of their own; the
others are pairs of such elements. Each relation puts a target after a letter of its own, in that room. So the certificate changes no weight and has one
run for each primary. The tailored table has the targets after the base rows. Kinds of relations:

- letters: targets of one code point after anchors of one;
- texts: targets and anchors of 16 code points, and expansions of 16;
- secondary, tertiary: targets that differ at these levels from one letter, each nearer than those before it;
- chain: all in one chain, each target the next one's anchor, above all primaries of the base;
- pressed, for `tailor` alone: as letters, but the base's primaries are side by side, so each new weight moves all after it.

Reading alone is the same run with a last file that is rejected when all files are read. Such rules end in a sign too many, and the last line of such a
certificate lacks its LF. A run counts only if it says what it should. With `--audit` the table of `uca tailor` counts only if `uca audit` accepts it.
"""

import argparse
import os
import shutil
import subprocess
import sys
import tempfile

sys.dont_write_bytecode = True
import compare
import figures

CRATE = "uca_rule_figures"
USES = "uca_weights uca_values uca_table uca_rules"
COUNT = 5000
FRONT = "\u4e00" * 15

KINDS = {"audit": ("letters", "texts", "secondary", "tertiary", "chain")}
KINDS["tailor"] = KINDS["audit"] + ("pressed",)

# Code points without decompositions, for the texts of the rules.
LETTERS = 0x20000
TARGETS = 0x80000
PRIMARIES = 16000


# ---- Reading rules


def anchored(relation):
    """A chain for each number below 5,000: `relation` gives its rules of three code points of its own."""
    return "\n".join(relation(*(FRONT + chr(first + number) for first in (0x20000, 0x24000, 0x28000))) for number in range(COUNT))


def rules():
    """Rules of each kind, and what is said of them."""
    read = "%d relations" % COUNT
    return (
        ("nothing", "", "0 relations"),
        ("chain", "&a" + "".join("<" + chr(0x20000 + number) for number in range(COUNT)), read),
        ("anchors", anchored(lambda anchor, target, _: "&%s<%s" % (anchor, target)), read),
        ("expansions", anchored(lambda anchor, target, expansion: "&%s<%s/%s" % (anchor, target, expansion)), read),
        ("starred", "&a<*" + "".join(chr(0x20000 + number) for number in range(COUNT)), read),
        ("range", "&a<*\U00010000-\U0010ffff", "byte 8: Limit"),
        ("letters", "&a<" + "b" * 1048572, "byte 3: Limit"),
        ("decomposed", "&a<" + "\u1f82" * 349524, "byte 3: Limit"),
        ("comment", "#" * 1048576, "0 relations"),
    )


def measure_rules(options, folder):
    copy = os.path.join(folder, "copy")
    os.makedirs(copy)
    program = options.program or compare.built(copy, CRATE, USES, "rules.rt.txt")
    if options.keep:
        shutil.copy(program, options.keep)
    data, empty = figures.write(folder, "data", figures.data_text()), figures.write(folder, "empty", "")
    place, out = options.rules or folder, os.path.join(folder, "out")
    report = figures.Report()
    report.head("reading rules", "%-12s %10s %10s %10s", ("rules", "bytes", "seconds", "peak, MB"))
    for name, text, wanted in rules():
        path = figures.write(place, name + ".txt", text)
        seconds, peak, complaint = measured(options, [program, data, path], lambda said: said == wanted, empty, out)
        report.row((name, os.path.getsize(path), "%.3f" % seconds, "%.1f" % (peak / 1024)), complaint)
    return report.failed


# ---- Files of tailorings


def element(primary, secondary=0x20, tertiary=2):
    return "[.%04X.%04X.%04X]" % (primary, secondary, tertiary)


def letter(index):
    """A letter of the base with a primary of its own."""
    return LETTERS + index


def primary(index, step=2):
    return step * (index % PRIMARIES + 1)


def base_row(index, step):
    elements = element(primary(index, step))
    if index >= PRIMARIES:
        elements += element(primary(index // PRIMARIES, step))
    return "%04X ; %s" % (letter(index), elements)


def text(points):
    return "".join(map(chr, points))


def relation(kind, number):
    """Rules of the relation with this number, the code points of its target, and the elements of its target."""
    target = [TARGETS + number]
    if kind in ("letters", "pressed"):
        return "&%s<%s" % (text([letter(number)]), text(target)), target, element(primary(number) + 1)
    if kind == "texts":
        front = [letter(number + place) for place in range(15)]
        target = [TARGETS] * 15 + target
        anchor, expansion = front + [letter(number)], front + [letter(number + 1)]
        elements = [element(primary(number + place)) for place in range(15)]
        placed = elements + [element(primary(number) + 1)] + elements + [element(primary(number + 1))]
        return "&%s<%s/%s" % (text(anchor), text(target), text(expansion)), target, "".join(placed)
    if kind == "secondary":
        return "&%s<<%s" % (text([letter(0)]), text(target)), target, element(primary(0), 0xFFFE - number)
    if kind == "tertiary":
        return "&%s<<<%s" % (text([letter(0)]), text(target)), target, element(primary(0), 0x20, 0xFFFE - number)
    reset = "&%s" % text([letter(0)]) if number == 0 else ""
    return "%s<%s" % (reset, text(target)), target, element(0x6000 + number)


def files(folder, rows, kind, relations):
    """The five files by their names, and two that are rejected when they are read. Where the kind is pressed, the table that is tailored fits no audit."""
    listed = [base_row(index, 1 if kind == "pressed" else 2) for index in range(rows)]
    head = "@version 1\n"
    primaries = [primary(index) for index in range(min(rows, PRIMARIES))]
    if kind == "chain":
        # The chain is above all primaries of the base.
        listed = [row for row, weight in zip(listed, primaries) if weight < 0x6000]
        primaries = [weight for weight in primaries if weight < 0x6000]
    chains, targets = [], []
    for number in range(relations):
        rule, points, elements = relation(kind, number)
        chains.append(rule)
        targets.append("%s ; %s" % (" ".join("%04X" % point for point in points), elements))
    if kind == "chain":
        chains[0] = chains[0].replace(text([letter(0)]), text([letter(len(primaries) - 1)]))
    lines = ["1 %04X %04X 0001" % (weight, weight) for weight in primaries] + ["2 0020 0020 0001", "3 0002 0002 0001"]
    contents = {
        "base": head + "\n".join(listed) + "\n",
        "data": "@data 1\n",
        "rules": "\n".join(chains),
        "tailored": head + "\n".join(listed + targets) + "\n",
        "certificate": "\n".join(lines) + "\n",
        "broken rules": "\n".join(chains) + "<!",
        "broken certificate": "\n".join(lines),
    }
    return {name: figures.write(folder, name, content) for name, content in contents.items()}, len(lines)


# ---- Running


def measured(options, words, is_right, empty, out):
    """The least time and the greatest peak of some runs, and a complaint if one says something else."""
    seconds, peak = [], []
    for _ in range(options.runs):
        time, memory, complaint = figures.run(words[0], words[1:], empty, out, options.limit)
        with open(out, encoding="utf-8") as written:
            said = complaint or written.read().strip()
        if not is_right(said):
            return time, memory, "it says %s" % said[:200]
        seconds.append(time)
        peak.append(memory)
    return min(seconds), max(peak), None


def runs_of(command, names, lines, certificate):
    """The arguments of a run that only reads and of a whole run, each with whether what it says is right."""
    if command == "tailor":
        three, are_read = [names[it] for it in ("base", "data")], lambda said: said.startswith("status 1:")
        return (three + [names["broken rules"], certificate], are_read), (three + [names["rules"], certificate], lambda said: said.startswith("@version "))
    four, rejected = [names[it] for it in ("base", "data", "rules", "tailored")], "status 1: certificate line %d: Line" % lines
    return (four + [names["broken certificate"]], lambda said: said.split("\n")[0] == rejected), (four + [names["certificate"]], lambda said: said == "accepted")


def rejected_by_audit(options, names, certificate, out):
    """What an audit says of what was written, if it does not accept it."""
    words = [options.binary, "audit"] + [names[it] for it in ("base", "data", "rules")] + [out, certificate]
    said = subprocess.run(words, stdout=subprocess.PIPE, check=False).stdout.decode().strip()
    return None if said == "accepted" else "audit: " + said


def measure_command(options, folder):
    """Measures `uca tailor` or `uca audit`."""
    command, certificate = options.command, os.path.join(folder, "made certificate")
    empty, out = figures.write(folder, "empty", ""), os.path.join(folder, "out")
    report = figures.Report()
    head = ("rows", "relations", "kind", "read, s", command + ", s", "ratio", "read, MB", command + ", MB", "ratio")
    report.head({"tailor": "planning", "audit": "audits"}[command], "%8s %10s %-10s %10s %10s %8s %10s %10s %8s", head)
    for rows, relations in options.sizes:
        for kind in options.kinds:
            names, lines = files(folder, rows, kind, relations)
            (broken, is_rejected), (words, is_done) = runs_of(command, names, lines, certificate)
            read, read_peak, first = measured(options, [options.binary, command] + broken, is_rejected, empty, out)
            whole, peak, second = measured(options, [options.binary, command] + words, is_done, empty, out)
            if command == "tailor" and options.audit and not second:
                second = rejected_by_audit(options, names, certificate, out)
            row = (rows, relations, kind, "%.3f" % read, "%.3f" % whole, "%.2f" % (whole / read))
            report.row(row + ("%.1f" % (read_peak / 1024), "%.1f" % (peak / 1024), "%.2f" % (peak / max(read_peak, 1))), first, second)
    return report.failed


def size(word):
    rows, relations = word.split(":")
    return int(rows), int(relations)


def main():
    parser = argparse.ArgumentParser(description=__doc__.split("\n")[0])
    commands = parser.add_subparsers(dest="command", required=True)
    for name in ("rules", "tailor", "audit"):
        command = commands.add_parser(name)
        command.add_argument("--runs", type=int, default=3, help="how often each is run; the least time and the greatest peak count")
        command.add_argument("--limit", type=float, default=120, help="seconds after which a run is stopped")
        if name == "rules":
            command.add_argument("--program", help="a program that was built before")
            command.add_argument("--keep", help="where the program that is built is kept")
            command.add_argument("--rules", help="a folder that is there, in which the rules are kept")
            continue
        command.add_argument("--binary", default="crates/uca/out/uca", help="the program")
        command.add_argument("--sizes", type=size, nargs="+", default=[(33000, 1000), (195000, 5000)], help="ROWS:RELATIONS")
        command.add_argument("--kinds", nargs="+", default=list(KINDS[name]), choices=KINDS[name])
        if name == "tailor":
            command.add_argument("--audit", action="store_true", help="audit what was written")
    options = parser.parse_args()
    with tempfile.TemporaryDirectory() as folder:
        failed = (measure_rules if options.command == "rules" else measure_command)(options, folder)
    sys.exit(1 if failed else 0)


if __name__ == "__main__":
    main()
