#!/usr/bin/env python3
"""Prints the manual page of uca, made from the program's help texts, or that of uca-files, made from the head and the help of that script.

    tools/pages/man_page.py [--program PATH] > man/uca.1
    tools/pages/man_page.py --files > man/uca-files.1
    tools/pages/man_page.py --check        compares both with what it would print; the last line is `N passed, M failed`

The names, usages, texts and options are those of tests/help, and the version is that of docs/FORMATS.md. With `--program` they are what this program prints.
The sections after them come from man/sections.roff, which is written by hand.
Debian's help2man makes a page of one help text; this page has a section for each command. tools/pages/packaging.py checks that
man/uca.1 is what this script prints for the built program.
"""
import ast
import re
import sys
import textwrap

from command_help import FILES, TOP, files_items, helps_of, printed, program_of, stored_helps, stored_version

import script_help  # command_help has put its folder on the path

DATE = "2026-11-25"


def plain(text):
    """A text in which no character means anything to roff."""
    for character, escape in [("\\", r"\e"), ("-", r"\-"), ("^", r"\(ha"), ("~", r"\(ti"), ("'", r"\(aq"), ('"', r"\(dq")]:
        text = text.replace(character, escape)
    return text


def prose(text):
    """A text as lines of at most 80 characters, in which the text between backticks is bold."""
    parts = text.split("`")
    text = "".join(rf"\fB{plain(part)}\fR" if at % 2 else plain(part) for at, part in enumerate(parts))
    lines = textwrap.wrap(text, 80, break_on_hyphens=False, break_long_words=False)
    return "\n".join(rf"\&{line}" if line.startswith(".") else line for line in lines)


def paragraphs(lines):
    """The paragraphs of a text: an empty line ends each."""
    texts = "\n".join(lines).strip("\n").split("\n\n")
    return [it for text in texts if text for it in (".PP", prose(text))]


def usage(text):
    """A usage: `<TABLE>` and the `LINES` of standard input in italics, all else in bold."""
    words = []
    for word in text.split():
        name = re.fullmatch(r"<([\w-]+)>|LINES", word)
        words.append(rf"\fI{plain(name[1] or word)}\fR" if name else word if word == "[OPTIONS]" else rf"\fB{plain(word)}\fR")
    return " ".join(words)


def option(name):
    """The name of an option: `--weighting <W>` with its value in italics."""
    return ", ".join(usage(part) for part in name.split(", "))


def items(pairs, name_of):
    return [line for name, text in pairs for line in (".TP", name_of(name), prose(f"{text}."))]


def last_words(lines):
    """What a help ends with: an example, or an indented line, on its own line; any other line as a paragraph."""
    made = []
    for line in lines:
        found = re.match(r"(Examples?:|)\s+(.*)", line)
        heading = [".PP", found[1]] if found and found[1] else []
        made += [*heading, ".PP", ".RS 4", ".EX", plain(found[2]), ".EE", ".RE"] if found else [".PP", prose(line)]
    return made


def command_section(name, text, help_text):
    made = [f".SS uca {plain(name)}", prose(f"{text}."), ".PP", usage(help_text.usage), *paragraphs(help_text.about)]
    made += items(help_text.lists["Arguments"], usage)
    made += items([it for it in help_text.lists["Options"] if "--help" not in it[0]], option)
    return made + last_words(help_text.last)


def page(whole, commands, version):
    name, number = version.split()[:2]
    made = [
        '.\\" Written by tools/pages/man_page.py from the help of the program. Do not edit.',
        f'.TH UCA 1 {DATE} "{name} {number}" "User Commands"',
        *(".SH NAME", r"uca \- sort text in any language, and make sort keys"),
        ".SH SYNOPSIS",
        "\n.br\n".join(usage(it.usage) for it in commands.values()),
        *(".SH DESCRIPTION", *paragraphs(whole.about)[1:]),
        *last_words(whole.last),
        ".SH OPTIONS",
        *items(whole.lists["Options"], option),
        *(".SH COMMANDS", r"Each command also has the option \fB\-\-help\fR."),
    ]
    for command, text in whole.lists["Commands"]:
        if command in commands:
            made += command_section(command, text, commands[command])
        else:
            made += [f".SS uca {plain(command)}", prose(f"{text}.")]
    sections = text_of(f"{TOP}/man/sections.roff")
    return "\n".join(made) + "\n" + sections + ".SH VERSION\n" + prose(version) + "\n"


# ---- The page of uca-files


def block(text):
    """A paragraph; or a list of calls, which are indented, with what each does."""
    if not text.startswith("    "):
        return [".PP", prose(" ".join(text.split("\n")))]
    return items([re.split("  +", line.strip(), maxsplit=1) for line in text.split("\n")], lambda call: rf"\fB{plain(call)}\fR")


def files_option(name):
    """The name of an option, with its value in italics."""
    return re.sub(r"[A-Z]{3,}", lambda it: rf"\fI{it[0]}\fR", re.sub(r"-+[a-z]+", lambda it: rf"\fB{plain(it[0])}\fR", name))


def files_page(version):
    title, *blocks = ast.get_docstring(ast.parse(text_of(FILES))).split("\n\n")
    name, number = version.split()[:2]
    made = [
        '.\\" Written by tools/pages/man_page.py from languages/uca_files.py. Do not edit.',
        f'.TH UCA-FILES 1 {DATE} "{name} {number}" "User Commands"',
        *(".SH NAME", rf"uca\-files \- {plain(title[0].lower() + title[1:].rstrip('.'))}"),
        *(".SH SYNOPSIS", r"\fBuca\-files\fR [\fIOPTION\fR..] \fITAG\fR.."),
        *(".SH DESCRIPTION", *(line for it in blocks for line in block(it))),
        *(".SH OPTIONS", *items(files_items(), files_option)),
        *(".SH SEE ALSO", r"\fBuca\fR(1)"),
    ]
    return "\n".join(made) + "\n"


def check():
    pages = {"uca.1": page(*stored_helps(), stored_version()), "uca-files.1": files_page(stored_version())}
    others = [name for name, text in pages.items() if text_of(f"{TOP}/man/{name}") != text]
    for name in others:
        print(f"man/{name} is not what tools/pages/man_page.py prints")
    print(f"{len(pages) - len(others)} passed, {len(others)} failed")
    return 1 if others else 0


def text_of(path):
    with open(path, encoding="utf-8") as file:
        return file.read()


def main(words):
    if words == ["--check"]:
        return check()
    if words == ["--files"]:
        print(files_page(stored_version()), end="")
        return 0
    if words:
        program, others = program_of(words)
        if others:
            script_help.stop(__doc__)
        print(page(*helps_of(program), printed(program, "--version").strip()), end="")
    else:
        print(page(*stored_helps(), stored_version()), end="")
    return 0


if __name__ == "__main__":
    if script_help.is_asked(__doc__, sys.argv[1:]):
        sys.exit()
    sys.exit(main(sys.argv[1:]))
