#!/usr/bin/env python3
"""What can be had from keys alone. It reads key lines with a header, as `uca keys --lines --header` prints them.

    examples/databases/from_keys.py turn < KEYS                      level 2 from the end, as French of Canada has it; once more turns it back
    examples/databases/from_keys.py merge KEYS KEYS.. > MERGED       one key for the fields of each row, from a file for each field
    examples/databases/from_keys.py find NEEDLE < KEYS               the lines in whose texts the letters of the needle's one key stand side by side
    examples/databases/from_keys.py letters < KEYS                   before each line the letters of its key, to be searched in a database
    examples/databases/from_keys.py buckets LABELS KEYS < KEYS       before each text the label of its bucket; the first KEYS are those of the labels

All files of a call need one header: keys of other files or settings do not mix. Keys with an identical level are an error. After an error the status
is 1, and what was printed is not whole. docs/FROM_KEYS.md says more.
"""
import bisect
import re
import signal
import sys

HEADER = re.compile(r"#(?:turned )?uca keys 1 (shifted|non-ignorable) weights [0-9a-f]{64}")
LEVELS = {"shifted": 4, "non-ignorable": 3}
BETWEEN = "0001"  # less than each weight, and greater than 0000, the end of a level
REST = "\u2026"  # the label of texts that no bucket has


class WrongKeys(Exception):
    """What is wrong with key lines, in words for the user."""


# ---- Key lines


class Keys:
    """The header of key lines, and their keys and texts. A key is a list of levels, each a list of weights in hexadecimal."""

    def __init__(self, file, name, header=""):
        self.file, self.name = file, name
        self.header = file.readline().decode().rstrip("\n")
        found = HEADER.fullmatch(self.header)
        if not found:
            raise WrongKeys(f"{name}: the first line is no header of `uca keys --lines --header` without an identical level")
        if header and self.header != header:
            raise WrongKeys(f"{name}: these keys were made by other files or settings: {self.header}, and not {header}")
        self.count = LEVELS[found[1]]

    def __iter__(self):
        for number, line in enumerate(self.file, 2):
            key, tab, text = line.rstrip(b"\n").partition(b"\t")
            levels = levels_of(key.decode()) if tab and re.fullmatch(b"(?:[0-9A-F]{4})*", key) else []
            if len(levels) != self.count:
                raise WrongKeys(f"{self.name}, line {number}: this is no line KEY TAB TEXT with a key of {self.count} levels")
            yield levels, text


def levels_of(key):
    """The levels of a key."""
    found = [[]]
    for at in range(0, len(key), 4):
        if key[at : at + 4] == "0000":
            found.append([])
        else:
            found[-1].append(key[at : at + 4])
    return found


def key_of(levels):
    return "0000".join(map("".join, levels)).encode()


def opened(path, header=""):
    return Keys(open(path, "rb"), path, header)


def put(*fields):
    sys.stdout.buffer.write(b"\t".join(fields) + b"\n")


# ---- Accents from the end


def turn():
    """Level 2 in reverse. Keys compare by it from its last weight on."""
    keys = Keys(sys.stdin.buffer, "the input")
    put((keys.header.replace("#turned ", "#") if keys.header.startswith("#turned ") else f"#turned {keys.header[1:]}").encode())
    for levels, text in keys:
        put(key_of([levels[0], levels[1][::-1], *levels[2:]]), text)


# ---- Fields in turn


def merged(fields):
    """One key of several: at each level the lists of the fields, with a weight between them that is below all others."""
    return [[it for number, levels in enumerate(fields) for it in ([BETWEEN] if number else []) + levels[level]] for level in range(len(fields[0]))]


def merge(paths):
    """The merged keys of the lines of several files, and their texts."""
    first = opened(paths[0])
    files = [first, *(opened(path, first.header) for path in paths[1:])]
    put(f"#merged of {len(files)} {first.header[1:]}".encode())
    for number, rows in enumerate(zip_all(files), 2):
        for (levels, _), file in zip(rows, files):
            if any(BETWEEN in level for level in levels):
                raise WrongKeys(f"{file.name}, line {number}: this key has the weight {BETWEEN}, which merged keys have between their fields")
        put(key_of(merged([levels for levels, _ in rows])), *(text for _, text in rows))


def zip_all(files):
    """The rows of several files, which need equally many lines."""
    rows = [iter(it) for it in files]
    while True:
        found = [next(it, None) for it in rows]
        if None in found:
            if any(found):
                raise WrongKeys(f"{files[found.index(None)].name} has fewer lines than {files[next(at for at, it in enumerate(found) if it)].name}")
            return
        yield found


# ---- Letters


def occurs(needle, letters):
    """Whether some weights stand side by side in others."""
    wanted, inside = "".join(needle), "".join(letters)
    at = inside.find(wanted)
    while at % 4 and at > 0:
        at = inside.find(wanted, at + 1)
    return at >= 0


def find(path):
    """The lines that have the letters of one key."""
    keys = Keys(sys.stdin.buffer, "the input")
    needles = [levels[0] for levels, _ in opened(path, keys.header)]
    if len(needles) != 1 or not needles[0]:
        raise WrongKeys(f"{path}: a needle is one key, which has letters")
    put(keys.header.encode())
    for levels, text in keys:
        if occurs(needles[0], levels[0]):
            put(key_of(levels), text)


def letters():
    """Level 1 of each key, with a blank before and after each weight."""
    keys = Keys(sys.stdin.buffer, "the input")
    put(f"#letters of {keys.header[1:]}".encode())
    for levels, text in keys:
        put(f" {' '.join(levels[0])} ".encode(), key_of(levels), text)


# ---- Buckets of an index


def starts_of(labels, path, header):
    """Where each bucket begins: the letters of its label. Of labels with the same letters the first one counts."""
    with open(labels, "rb") as file:
        shown = dict(line.rstrip(b"\n").split(b"\t") for line in file)
    found = {}
    for levels, text in opened(path, header):
        if text not in shown or not levels[0]:
            raise WrongKeys(f"{path}: a label that {labels} does not have, or one without letters: {text.decode()}")
        found.setdefault(tuple(levels[0]), shown[text])
    return sorted(found.items())


def buckets(labels, path):
    """The label of each text: the last one whose letters do not come after those of the text."""
    keys = Keys(sys.stdin.buffer, "the input")
    starts = starts_of(labels, path, keys.header)
    for levels, text in keys:
        at = bisect.bisect_right(starts, tuple(levels[0]), key=lambda it: it[0])
        put(starts[at - 1][1] if at else REST.encode(), text)


def main(words):
    calls = {"turn": (turn, 0, 0), "merge": (lambda *paths: merge(paths), 2, 99), "find": (find, 1, 1), "letters": (letters, 0, 0), "buckets": (buckets, 2, 2)}
    call, least, most = calls.get(words[0] if words else "", (None, 0, 0))
    if words[:1] in (["-h"], ["--help"]):
        print(__doc__)
        return
    if not call or not least <= len(words) - 1 <= most:
        print(__doc__, file=sys.stderr)
        sys.exit(2)
    try:
        call(*words[1:])
    except (WrongKeys, OSError, ValueError) as error:
        sys.stdout.buffer.flush()
        sys.exit(f"from_keys.py: {error}")


if __name__ == "__main__":
    signal.signal(signal.SIGPIPE, signal.SIG_DFL)  # who reads may stop, as `head` does
    main(sys.argv[1:])
