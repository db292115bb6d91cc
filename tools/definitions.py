#!/usr/bin/env python3
"""Tells public definitions from private ones, and holds each to its place.

    tools/definitions.py            exits with 1 if a definition stands in the wrong place
    tools/definitions.py CRATE ..   lists the files of definitions of these crates, the public ones first

A definition is public if the contract of a public call cites it, or the declaration of a public type or trait, or another public
definition. Public ones stand in crates/CRATE/specs, and all others in crates/CRATE/specs/inside. The place is one of whole files: a
file with one public definition is public. A law is a public call too. Of a type count its public fields and the type of its
`Value`: a caller sees neither its private fields nor what holds of them.

What counts is read from the text, with no prover. A call is public if it is `pub` and so is its module, or if a `pub use` names it,
or if C can call it.
"""
import os
import re
import sys

import script_help

TOP = os.path.dirname(os.path.dirname(os.path.realpath(__file__)))
INSIDE = "inside"
# `use Rattle.CRATE.specs.Module.{names}`, also where it takes the module whole or by another name
USE = re.compile(r"\bRattle\.(uca_\w+)\.specs\.(\w+(?:\.\w+)*)(?:\.\{([^}]*)\}| as (\w+))?")
ITEM = re.compile(r"(pub )?(?:const |unsafe |extern \"C\" )*(fn|struct|enum|trait|type|const|static) (\w+)")


def text_of(path):
    with open(path, encoding="utf-8") as it:
        return it.read()


def files_below(folder, ending):
    return sorted(f"{at}/{name}" for at, _, names in os.walk(folder) for name in names if name.endswith(ending))


def uses_of(text):
    """The modules of definitions that a text takes names of, as (crate, path), with these names."""
    found = {}
    for crate, path, names, alias in USE.findall(text):
        if not path.startswith("declared."):
            listed = [it.split(" as ")[-1].strip() for it in names.split(",")] if names else [alias or path.rsplit(".", 1)[-1]]
            found.setdefault((crate, path), set()).update(it for it in listed if it)
    return found


def is_cited(name, text):
    return re.search(rf"(?<![\w'-]){re.escape(name)}(?![\w'-])", text) is not None


def block_of(lines, at):
    """The lines of an item from its first one to the one that closes it, and whether that is the end of a body."""
    indent = re.match(r" *", lines[at])[0]
    for end in range(at, len(lines)):
        line = lines[end].split("//")[0].rstrip()
        if line.startswith(f"{indent}}}") or line.endswith(";") and re.match(r" *", line)[0] == indent or end == at and line.endswith("}"):
            return lines[at : end + 1]
        if end > at and line.endswith(";") and not any(it.rstrip().endswith("{") and it.startswith(indent) and not it.startswith(f"{indent} ") for it in lines[at:end]):
            return lines[at : end + 1]
    return lines[at:]


def contract_of(block):
    """The lines of a function without its body."""
    indent = re.match(r" *", block[0])[0]
    for at, line in enumerate(block):
        if line.rstrip() == f"{indent}{{" or line.rstrip().endswith(" {") and line.startswith(indent) and not line.startswith(f"{indent} "):
            return block[: at + 1]
    return block


def public_text(text, is_open, named):
    """What a module says in public: contracts of its public calls, and declarations of its public types and traits.
    `is_open`: whether the module is public; `named`: what a `pub use` of the crate names."""
    lines, said, at = text.split("\n"), [], 0
    is_public = lambda name: is_open or name in named
    while at < len(lines):
        line = lines[at]
        if re.match(r"(unsafe )?impl\b", line):
            block = block_of(lines, at)
            said += impl_text(block, is_public)
            at += len(block)
        elif (item := ITEM.match(line)) and item[1]:
            block = block_of(lines, at)
            if is_public(item[3]) or "no_mangle" in lines[at - 1]:
                said += declared(item[2], block)
            at += len(block)
        else:
            at += 1
    return "\n".join(it.split("//")[0] for it in said)


def declared(kind, block):
    """What the declaration of a public item says to a caller."""
    if kind == "fn":
        return contract_of(block)
    return [it for it in block if kind != "struct" or re.match(r"(    )?pub ", it)]


def impl_text(block, is_public):
    """What an impl says in public: contracts of its public calls, or the ghost members of a trait's."""
    head = re.sub(r"<[^<>]*>", "", re.sub(r"<[^<>]*>", "", re.sub(r"<[^<>]*(<[^<>]*>[^<>]*)*>", "", block[0])))
    of_trait = re.match(r"(?:unsafe )?impl\s+\S*?(\w+)\s+for\s+&?(?:mut )?(\w+)", head)
    whose = of_trait[2] if of_trait else (re.match(r"(?:unsafe )?impl\s+(\w+)", head) or [None, ""])[1]
    if not is_public(whose):
        return []
    said, at = [], 1
    while at < len(block):
        item = ITEM.match(block[at].strip())
        if item and item[2] == "fn":
            function = block_of(block, at)
            said += contract_of(function) if item[1] or of_trait else []
            at += len(function)
        elif of_trait and re.match(r" *ghost (?!use)", block[at]):
            member = block_of(block, at)
            said += [] if re.match(r" *ghost (invariant|view)\b", block[at]) else member
            at += len(member)
        else:
            at += 1
    return said


def modules_of(folder):
    """The modules of a crate: the file of each, and whether it is public. And the names that a `pub use` names."""
    found, named = {}, set()

    def walk(path, below, is_open):
        text = text_of(path)
        found[path] = is_open
        if is_open:
            for names in re.findall(r"^pub use [^;]*?(\w+|\{[^}]*\});", text, re.M):
                named.update(re.findall(r"\w+", names))
        for is_pub, name in re.findall(r"^(pub )?mod (\w+);", text, re.M):
            inner = next((it for it in (f"{below}/{name}.rt", f"{below}/{name}/mod.rt") if os.path.isfile(it)), None)
            if inner:
                walk(inner, f"{below}/{name}", is_open and bool(is_pub))

    walk(f"{folder}/src/lib.rt", f"{folder}/src", True)
    return found, named


def cited_by_calls(crates):
    """The modules of definitions that public calls and types cite, each with one file that does."""
    cited = {}
    for crate in crates:
        modules, named = modules_of(f"{TOP}/crates/{crate}")
        for path, is_open in modules.items():
            text = text_of(path)
            said = public_text(text, is_open, named)
            for module, names in uses_of(text).items():
                if any(is_cited(it, said) for it in names):
                    cited.setdefault(module, path)
    return cited


def closed(cited, files):
    """These modules, and all that their files use."""
    todo = list(cited)
    while todo:
        module = todo.pop()
        for other in uses_of(text_of(files[module])) if module in files else ():
            if other not in cited:
                cited[other] = files[module]
                todo.append(other)
    return cited


def lists_alone(text):
    """Whether a file only lists the modules of a folder."""
    return all(re.match(r"pub mod |--|\s*$", it) for it in text.split("\n"))


def definitions(crates):
    """The file of each module of definitions."""
    found = {}
    for crate in crates:
        folder = f"{TOP}/crates/{crate}/specs"
        for path in files_below(folder, ".antt"):
            if not lists_alone(text_of(path)):
                found[crate, os.path.relpath(path, folder)[: -len(".antt")].replace("/", ".")] = path
    return found


def libraries():
    crates = f"{TOP}/crates"
    return sorted(it for it in os.listdir(crates) if it.startswith("uca_") and os.path.isfile(f"{crates}/{it}/src/lib.rt"))


def main(names):
    crates = libraries()
    if unknown := {*names} - {*crates}:
        sys.exit(f"there is no library {', '.join(sorted(unknown))}")
    files = definitions(crates)
    cited = closed(cited_by_calls(crates), files)
    inside = {it for it in files if INSIDE in it[1].split(".")}
    if names:
        for crate, path in sorted((it for it in files if it[0] in names), key=lambda it: (it not in cited, it)):
            by = os.path.relpath(cited[crate, path], TOP) if (crate, path) in cited else ""
            print(f"{'public ' if by else 'private'} {crate} {path}  {by}".rstrip())
        return 0
    wrong = sorted(files.keys() & cited.keys() & inside), sorted(files.keys() - cited.keys() - inside)
    for it in wrong[0]:
        print(f"{os.path.relpath(files[it], TOP)} is cited by {os.path.relpath(cited[it], TOP)}, which is public: it does not belong in {INSIDE}/")
    for it in wrong[1]:
        print(f"{os.path.relpath(files[it], TOP)} is cited by no public contract: it belongs in {INSIDE}/")
    print(f"{len(files) - len(wrong[0]) - len(wrong[1])} passed, {len(wrong[0]) + len(wrong[1])} failed")
    return 1 if any(wrong) else 0


if __name__ == "__main__":
    if script_help.is_asked(__doc__, sys.argv[1:]):
        sys.exit()
    sys.exit(main(sys.argv[1:]))
