"""Standard input, standard output and standard error that are closed, full, or no stream."""
import os
import subprocess
import unittest

from helps import said
from program import DATA, TABLE, UCA, Ended, ProgramTest

KEY_OF_A = b"1C47 0000 0020 0000 0002 0000 FFFF\n"


class Streams(ProgramTest):
    def setUp(self):
        super().setUp()
        self.write(t=TABLE, d=DATA)

    @unittest.skipUnless(os.path.exists("/dev/full"), "there is no /dev/full")
    def test_full_output(self):
        """Help that does not go out changes neither the status nor standard error."""
        for arguments, wanted in ("keys", (3, said("output: Write\n"))), ("sort", (3, said("output: Write\n"))), ("--help", (0, b"")):
            words = [arguments] if arguments.startswith("-") else [arguments, "t", "d"]
            with open("/dev/full", "wb") as full:
                ended = self.run_uca(*words, given="a\n", stdout=full)
            with self.subTest(arguments=arguments):
                self.assertEqual((ended.status, ended.err), wanted)

    @unittest.skipUnless(os.path.exists("/dev/full"), "there is no /dev/full")
    def test_full_standard_error(self):
        """The status is the same."""
        with open("/dev/full", "wb") as full:
            self.assertEqual(self.run_uca("keys", "missing", "d", stderr=full).status, 3)
            self.assertEqual(self.run_uca("keys", "t", stderr=full).status, 2)

    def test_closed_pipe(self):
        """A reader of the output that ends early."""
        read, write = os.pipe()
        os.close(read)
        with os.fdopen(write, "wb") as out:
            ended = self.run_uca("keys", "t", "d", given="a\n", stdout=out)
        self.assertEqual((ended.status, ended.err), (3, said("output: Write\n")))

    def test_input_that_cannot_be_read(self):
        """A folder as standard input."""
        for command in "keys", "sort":
            with self.subTest(command=command):
                folder = os.open(self.folder, os.O_RDONLY)
                try:
                    ran = subprocess.run([UCA, command, "t", "d"], stdin=folder, cwd=self.folder, capture_output=True)
                finally:
                    os.close(folder)
                self.assertEqual((ran.returncode, ran.stdout, ran.stderr), (3, b"", said("input line 1: Read\n")))

    def test_files_that_cannot_be_read(self):
        """A folder in place of a file."""
        os.mkdir(f"{self.folder}/folder")
        self.expect("check folder d", status=3, err="table line 1: Read\n")
        self.expect("check t folder", status=3, err="data line 1: Read\n")
        self.expect("affected d folder", status=3, err="rules: Read\n")

    def test_what_was_printed_before_an_error(self):
        self.expect("keys t d", b"a\n\xff\n", status=1, out=KEY_OF_A, err="input line 2: Utf8\n")

    def closed(self, *numbers):
        """Closes these of the standard streams before the program begins."""

        def close():
            for number in numbers:
                os.close(number)

        return close

    def test_closed_streams(self):
        """No file takes the number of a closed stream. Reading and writing a closed stream fails."""
        self.write(r="&a < x", c="old")
        cases = [
            ("keys t d", [0], Ended(3, b"", said("input line 1: Read\n"))),
            ("check t d", [0], Ended(0, b"well-formed\n", b"")),
            ("keys t d", [1], Ended(3, b"", said("output: Write\n"))),
            ("keys missing d", [2], Ended(3, b"", b"")),
            ("tailor t d r c", [1], Ended(3, b"", said("output: Write\n"))),
            ("tailor t d r c", [0, 1, 2], Ended(3, b"", b"")),
        ]
        for arguments, numbers, wanted in cases:
            with self.subTest(arguments=arguments, numbers=numbers):
                self.assertEqual(self.run_uca(*arguments.split(), given="a\n", preexec_fn=self.closed(*numbers)), wanted)
        self.assertEqual(self.read("c"), b"1 0209 0209 0001\n1 1C47 1C47 0001\n1 1C60 1C60 0001\n2 0020 0020 0001\n2 0024 0024 0002\n"
                         b"2 002C 002C 0001\n3 0002 0002 0001\n3 0008 0008 0001\n")

    def test_an_argument_that_is_not_utf8(self):
        ended = self.run_uca(b"keys", b"\xff", b"d")
        self.assertEqual(ended, (4, b"", b"memory\nhelp: give the program more memory. Or is an argument not UTF-8?\n"))
