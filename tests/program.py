"""Runs of the built program over files in a folder of their own."""
import os
import subprocess
import tempfile
import unittest
from typing import NamedTuple

from helps import said

TOP = os.path.dirname(os.path.dirname(os.path.realpath(__file__)))

# The program under test: that of the gate, unless the environment names another.
UCA = os.environ.get("UCA") or f"{TOP}/crates/uca/out/uca"

# No run takes longer, in seconds.
LIMIT = 120

# From so many bytes on an output that is not what was wanted is not printed.
LONG_OUTPUT = 10_000

# Letters, accents and a variable space, in canonical text.
TABLE = """@version 1
@implicitweights 17000..18AFF; FB00
0020 ; [*0209.0020.0002]
0061 ; [.1C47.0020.0002]
0041 ; [.1C47.0020.0008]
0062 ; [.1C60.0020.0002]
0300 ; [.0000.0025.0002]
0301 ; [.0000.0024.0002]
0323 ; [.0000.002C.0002]
"""

# Classes of accents, and two ranges of Han.
DATA = """@data 1
ccc 0300..0314 230
ccc 0323..0323 220
core 4E00..9FFF
other 20000..20FFF
"""

# A contraction of `a` with an acute accent, and with a grave accent after it.
A_ACUTE = "0061 0301 ; [.1C50.0020.0002]\n"
A_ACUTE_GRAVE = "0061 0301 0300 ; [.1C58.0020.0002]\n"

# A row without weights: a text with this code point has the same weights as the text without it.
NO_WEIGHTS = "0001 ; [.0000.0000.0000]\n"

ACUTE, GRAVE, DOT_BELOW = "\u0301", "\u0300", "\u0323"


class Ended(NamedTuple):
    """What came of a run."""

    status: int
    out: bytes
    err: bytes


def as_bytes(text):
    return text if isinstance(text, bytes) else text.encode()


def many(text, count):
    """The text this many times, with blanks between."""
    return " ".join([text] * count)


def key_of(primaries, secondaries, tertiaries):
    """A key of three levels as `uca keys` prints it, with the weights of each level."""
    return " ".join(filter(None, [primaries, "0000", secondaries, "0000", tertiaries])) + "\n"


class ProgramTest(unittest.TestCase):
    """Tests of runs. Each has a folder of its own, in which the program runs."""

    def setUp(self):
        folder = tempfile.TemporaryDirectory(prefix="uca-")
        self.addCleanup(folder.cleanup)
        self.folder = folder.name

    def write(self, **files):
        """Writes files; `t` is the file of the name t. A file of None is removed."""
        for name, text in files.items():
            path = f"{self.folder}/{name}"
            if text is not None:
                with open(path, "wb") as file:
                    file.write(as_bytes(text))
            elif os.path.exists(path):
                os.remove(path)

    def read(self, name):
        with open(f"{self.folder}/{name}", "rb") as file:
            return file.read()

    def run_uca(self, *arguments, given=b"", **streams):
        """Runs the program. Its standard input is what is given."""
        streams = {"stdout": subprocess.PIPE, "stderr": subprocess.PIPE, **streams}
        ran = subprocess.run([UCA, *arguments], input=as_bytes(given), cwd=self.folder, timeout=LIMIT, **streams)
        return Ended(ran.returncode, ran.stdout, ran.stderr)

    def expect(self, arguments, given=b"", status=0, out=b"", err=b""):
        """A run ends so. The arguments are a list, or a line that is cut at its blanks. What is said after an error line is added to it."""
        words = arguments.split() if isinstance(arguments, str) else arguments
        wanted = Ended(status, as_bytes(out), said(err, words))
        with self.subTest(arguments=words, given=given[:80]):
            found = self.run_uca(*words, given=given)
            if len(found.out) + len(wanted.out) < LONG_OUTPUT:
                self.assertEqual(found, wanted)
            elif found != wanted:
                pairs = zip(found.out.split(b"\n"), wanted.out.split(b"\n"))
                line = next((number for number, (one, other) in enumerate(pairs, 1) if one != other), 0)
                self.fail(f"status {found.status}, {found.err[:200]}, and {len(found.out)} bytes in place of {len(wanted.out)}: another line {line}")
