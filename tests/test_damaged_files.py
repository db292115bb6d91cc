"""Table files, data files and certificates that are damaged or random. The readers of readers.py say which are accepted, and name
the line and the error of each other one."""
import random

from helps import said
from program import DATA, TABLE, ProgramTest
from readers import read_certificate, read_data, read_table

# Each kind of line of a table file, of a data file and of a certificate.
TABLE_FILE = b"""# letters
@version 1.0-a
@variable shifted
@implicitweights 17000..18AFF; FB00
@implicitweights 1B170..1B2FF; FB02

0020 ; [*0209.0020.0002]
0061 ; [.1C47.0020.0002] # a
0061 0301\t;\t[.1C47.0020.0002][.0000.0024.0002]
10FFFF ; [.0000.0000.0000]
"""
DATA_FILE = b"""# accents
@data 1
ccc 0300..0314 230

ccc 0323..0323 220 # below
core 4E00..9FFF
core 0030..0039
other 20000..20FFF
"""
CERTIFICATE = b"""1 0209 0209 0001
1 1C47 1C48 0010
1 1C60 1C70 0001
2 0020 0020 0001
2 0024 0025 0002
3 0002 0002 0001
3 0008 000A 0001
"""

# Bytes that are put in.
PUT_IN = b" \t\n#;.@[]*019AFGaz-\r\x00\xff"


def damaged(file, count, seed):
    """The file; with one byte dropped, doubled or changed at each position; and with several changes at random."""
    numbers = random.Random(seed)
    yield file
    for at in range(len(file)):
        yield file[:at] + file[at + 1 :]
        yield file[:at] + file[at : at + 1] + file[at:]
        yield file[:at] + bytes([numbers.choice(PUT_IN)]) + file[at + 1 :]
    for _ in range(count):
        made = bytearray(file)
        for _ in range(numbers.randrange(1, 5)):
            at = numbers.randrange(len(made))
            made[at : at + numbers.randrange(2)] = bytes(numbers.choice(PUT_IN) for _ in range(numbers.randrange(3)))
        yield bytes(made)
    for _ in range(count // 4):
        yield bytes(numbers.choice(PUT_IN) for _ in range(numbers.randrange(40)))


def line_of(role, error):
    """The line of an error."""
    return f"{role} line {error[0]}: {error[1]}\n".encode() if error else b""


class DamagedFiles(ProgramTest):
    def judge(self, name, file, arguments, wanted):
        """The error of a run over a file is this one. Returns what the run printed."""
        self.write(**{name: file})
        ended = self.run_uca(*arguments.split())
        wanted = said(wanted, arguments.split())
        if ended.err != wanted or wanted and (ended.status, ended.out) != (1, b""):
            self.fail(f"{file!r}: {ended}, and not {wanted}")
        return ended

    def test_tables(self):
        """The table of a file that is accepted has the canonical text that the file's lines say, where it is well-formed."""
        self.write(d=DATA, r="")
        accepted = 0
        for file in damaged(TABLE_FILE, 300, 1):
            error, text = read_table(file)
            self.judge("t", file, "keys t d", line_of("table", error))
            if error is None:
                ended = self.run_uca("tailor", "t", "d", "r", "c")
                self.assertIn(ended.err, (b"", said("tailor: BaseIllFormed\n")))
                if not ended.err:
                    accepted += 1
                    self.assertEqual(ended.out, text)
        self.assertGreater(accepted, 100)

    def test_data_files(self):
        self.write(t=TABLE)
        errors = [read_data(file) for file in damaged(DATA_FILE, 300, 2)]
        for file, error in zip(damaged(DATA_FILE, 300, 2), errors):
            self.judge("d", file, "keys t d", line_of("data", error))
        self.assertGreater(errors.count(None), 100)

    def test_certificates(self):
        """The other files of an audit are read before."""
        self.write(t=TABLE, d=DATA, r="", n=TABLE)
        accepted = 0
        for file in damaged(CERTIFICATE, 300, 3):
            error = read_certificate(file)
            accepted += error is None
            self.judge("c", file, "audit t d r n c", line_of("certificate", error))
        self.assertGreater(accepted, 10)

    def test_as_many_runs_as_weights(self):
        """A level has at most 65,535 runs."""
        self.write(t=TABLE, d=DATA, r="", n=TABLE)
        runs = "".join(f"2 {weight:04X} {weight:04X} 0001\n" for weight in range(1, 0x10000))
        self.judge("c", runs + "3 0002 0002 0001\n", "audit t d r n c", b"")
        self.judge("c", runs + "2 FFFF FFFF 0001\n", "audit t d r n c", b"certificate line 65536: Limit\n")
