#!/usr/bin/env python3
"""Finds long sentences and words that this project does not use, in its pages and in the comments of its code.

    tools/pages/plain_english.py [FILE..]       in any folder of the repository; all files, unless some are named

It reads Markdown pages outside of code, doc comments (`///` and `//!` of .rt files, `--` of .antt files), and docstrings of Python
without their indented lines. A sentence has at most 30 words, where code counts as one word. A cell of a table, an item of a list and
a heading each end a sentence. In .rt and .antt files no comment begins with "The same", since it says nothing alone. Their heads are more than the name
of a thing, such as "The audit." Each finding is one line, `FILE:LINE: ..`. A file passes if it has none. The last line is `N passed, M failed`.
"""
import ast
import glob
import itertools
import os
import re
import sys

TOP = os.path.dirname(os.path.dirname(os.path.dirname(os.path.realpath(__file__))))
sys.path.append(f"{TOP}/tools")
import script_help

MOST_WORDS = 30
CODE = "CODE"

# What is not written, and what is. Code is not looked at, so names keep these words.
OTHER_WORDS = [
    (r"behind", "after"),
    (r"faults?|faulty", "error"),
    (r"refus\w+", "reject, rejected"),
    (r"answer\w*", "return, proof"),
    (r"growth", "how it grows"),
    (r"(?<!closed )forms?(?= of (a |the )?(file|CODE|allkeys))", "format"),
    (r"stands? nearest", "is next to"),
    (r"(a|its|the) yes", "acceptance"),
    (r"want of", "lack of"),
    (r"of which|of whom", "two sentences"),
    (r"one after the other", "in turn"),
    (r"what becomes? of|what became of", "how it changed"),
    (r"the same of", "the same for"),
    (r"never so|first so many", "a number"),
    (r"words?(?= (of|on) the command line)|(?<=wrong )words|(?<=their )words(?= are (read|rejected))", "argument"),
    (r"(handed|hands) in", "give"),
    (r"^(nothing of|not that)", "no guarantee"),
]


def without_code(text):
    """The text without its code blocks and comments, with as many lines."""
    text = re.sub(r"^ *```.*?^ *```$|<!--.*?-->", lambda it: "\n" * it[0].count("\n"), text, flags=re.M | re.S)
    text = re.sub(r"`[^`\n]+`", CODE, text)
    text = re.sub(r"!?\[([^\]]*)\]\([^)]*\)", r"\1", text)
    return text.replace("*", "").replace("&nbsp;", " ")


def blocks_of(text):
    """The paragraphs, items, headings and cells, each as a list of lines with their numbers."""
    block = []
    for number, line in enumerate([*without_code(text).split("\n"), ""], 1):
        is_start = re.match(r"\s*(- |\d+\. |#|\||>)", line)
        if block and (is_start or not line.strip()):
            yield block
            block = []
        if re.match(r"\s*\|", line):
            yield from ([(number, cell)] for cell in line.strip().strip("|").split("|"))
        elif re.match(r"\s*#", line):
            yield [(number, line.strip("# "))]
        elif line.strip():
            block.append((number, re.sub(r"^\s*(- |\d+\. |>)", "", line)))


def sentences_of(text):
    """Each sentence, with the line that it begins in."""
    for block in blocks_of(text):
        words = [(number, word) for number, line in block for word in line.split()]
        sentence = []
        for at, (number, word) in enumerate(words):
            sentence.append((number, word))
            after = words[at + 1][1] if at + 1 < len(words) else ""
            ends = re.search(r"[.!?][)\"”]*$", word) and not re.match(r"[a-z]", after)
            if ends or not after:
                yield sentence[0][0], " ".join(it for _, it in sentence)
                sentence = []


def findings_of(text):
    """The line of each finding, and what it is."""
    for number, sentence in sentences_of(text):
        count = len(re.findall(r"\S*\w\S*", sentence))
        if count > MOST_WORDS:
            yield number, f"{count} words: {sentence[:60]}.."
        for pattern, better in OTHER_WORDS:
            for found in re.finditer(rf"(?<!\w)({pattern})(?!\w)", sentence, re.I):
                yield number, f"`{found[0]}` ({better}): {sentence[max(0, found.start() - 30):found.end() + 30]}"


# How a line of a comment begins, that of the head of a file too.
MARKS = {".rt": r"\s*//[/!]?(.*)", ".antt": r"\s*--(.*)"}


def comments_of(text, mark):
    """Each comment that takes whole lines: the number of its first line, that line, and what it says."""
    lines = [(number, line, re.fullmatch(mark, line)) for number, line in enumerate(text.split("\n"), 1)]
    for is_comment, group in itertools.groupby(lines, lambda it: bool(it[2])):
        group = list(group)
        if is_comment:
            yield *group[0][:2], " ".join(found[1].strip() for _, _, found in group).strip()


def empty_comments(name, text):
    """The line of each comment that says nothing alone, and what it is."""
    kind = os.path.splitext(name)[1]
    for at, (number, line, said) in enumerate(comments_of(text, MARKS[kind]) if kind in MARKS else ()):
        is_head = line.startswith("//!") if kind == ".rt" else at == 0
        if is_head and re.fullmatch(r"The \S+( \S+)?\.", said):
            yield number, f"the head only names a thing: {said}"
        elif re.match(r"The same\b", said):
            yield number, f"it begins with `The same`: {said[:60]}"


COMMENTS = {".rt": r"\s*//[/!] ?(.*)", ".txt": r"\s*//[/!] ?(.*)", ".antt": r"\s*-- ?(.*)"}


def docstrings_of(text):
    """The docstrings of a Python file, on their lines, without what is indented in them."""
    lines = [""] * (text.count("\n") + 1)
    for node in ast.walk(ast.parse(text)):
        has_one = isinstance(node, (ast.Module, ast.ClassDef, ast.FunctionDef)) and ast.get_docstring(node)
        if has_one:
            margin = " " * node.body[0].col_offset
            for at, line in enumerate(node.body[0].value.value.split("\n"), node.body[0].lineno - 1):
                line = line.removeprefix(margin)
                lines[at] = "" if line.startswith("    ") else line
    return "\n".join(lines)


def text_of(name):
    try:
        with open(f"{TOP}/{name}", encoding="utf-8") as file:
            return file.read()
    except (OSError, UnicodeDecodeError) as error:
        sys.exit(f"{name}: {getattr(error, 'strerror', None) or 'this is no text in UTF-8'}")


def prose_of(name):
    """What a file says to a reader, with as many lines."""
    text, kind = text_of(name), os.path.splitext(name)[1]
    if kind == ".py":
        return docstrings_of(text)
    if kind not in COMMENTS:
        return text
    found = [re.fullmatch(COMMENTS[kind], line) for line in text.split("\n")]
    return "\n".join(it[1] if it else "" for it in found)


def all_files():
    patterns = ["*.md", "docs/*.md", "bench/*.md", "examples/**/*.md", "tools/**/*.py", "languages/*.py", "tests/by_hand/*.py", "bench/*.py", "bench/*.rt.txt", "examples/**/*.py"]
    patterns += [f"crates/*/{it}" for it in ("src/**/*.rt", "specs/**/*.antt", "proofs/**/*.antt")]
    return sorted(os.path.relpath(it, TOP) for pattern in patterns for it in glob.glob(f"{TOP}/{pattern}", recursive=True))


def main(names):
    passed = failed = 0
    for name in [os.path.relpath(it, TOP) for it in names] or all_files():
        found = [*findings_of(prose_of(name)), *empty_comments(name, text_of(name))]
        for number, what in found:
            print(f"{name}:{number}: {what}")
        passed, failed = (passed, failed + 1) if found else (passed + 1, failed)
    print(f"{passed} passed, {failed} failed")
    return 1 if failed else 0


if __name__ == "__main__":
    if script_help.is_asked(__doc__, sys.argv[1:]):
        sys.exit()
    sys.exit(main(sys.argv[1:]))
