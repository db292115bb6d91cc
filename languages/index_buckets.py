"""Lines in the order of a table, each with the label of its bucket in an index. Part of languages/uca_files.py."""
import bisect
import subprocess
from collections.abc import Iterator

from cldr_rules import CldrError
from index_labels import NO_BUCKET


def piped(words: list[str], lines: bytes) -> bytes:
    """What the program prints for lines."""
    done = subprocess.run(words, input=lines, stdout=subprocess.PIPE, stderr=subprocess.PIPE, check=False)
    if done.returncode:
        raise CldrError(done.stderr.decode().strip())
    return done.stdout


def letters_of(key: bytes) -> bytes:
    """Level 1 of a key in hexadecimal."""
    at = next(at for at in range(0, len(key), 4) if key[at : at + 4] == b"0000")
    return key[:at]


def keyed(uca: str, files: tuple[str, str], lines: bytes) -> Iterator[tuple[bytes, bytes]]:
    """The letters of each line's key, and the line."""
    for row in piped([uca, "keys", "--lines", *files], lines).split(b"\n")[:-1]:
        key, _, line = row.partition(b"\t")
        yield letters_of(key), line


def buckets(uca: str, files: tuple[str, str], labels: list[tuple[str, str]], lines: bytes) -> Iterator[tuple[bytes, bytes]]:
    """The label of its bucket and the line, for each line in order: that of the last label whose letters do not come after its own. The labels are those of index_labels."""
    starts = [letters for letters, _ in keyed(uca, files, "".join(f"{text}\n" for text, _ in labels).encode())]
    names = [*(label.encode() for _, label in labels), NO_BUCKET.encode()]  # a line before the first label takes the last of these
    for letters, line in keyed(uca, files, piped([uca, "sort", *files], lines)):
        yield names[bisect.bisect_right(starts, letters) - 1], line
