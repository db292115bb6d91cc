"""`uca check`: whether a table is well-formed (UTS #10, section 9.2)."""
from program import A_ACUTE, A_ACUTE_GRAVE, DATA, TABLE, ProgramTest


class WellFormed(ProgramTest):
    def expect_verdict(self, table, verdict, data=DATA):
        self.write(t=table, d=data)
        status = 0 if verdict == "well-formed" else 1
        # The input does not matter.
        self.expect("check t d", b"\xff", status=status, out=verdict + "\n")

    def test_another_row(self):
        """A row of the table, counted from 1, the line in place of it, and the verdict."""
        cases = [
            (2, "0061 ; [.1C47.0020.0002]", "well-formed"),
            (2, "0061 ; [.1C47.0000.0002]", "WF1 row 2"),
            (6, "0301 ; [.0000.0020.0002]", "WF2 row 6"),
            (2, "0061 ; [.1C47.0030.0002]", "WF2 row 5"),
            (1, "0020 ; [*0000.0030.0002]", "WF3 row 1"),
        ]
        for row, line, verdict in cases:
            lines = TABLE.splitlines()
            # Two lines come before the first row.
            lines[row + 1] = line
            self.expect_verdict("\n".join(lines) + "\n", verdict)

    def test_more_rows(self):
        """What follows the table, and the verdict."""
        cases = [
            ("", "well-formed"),
            (A_ACUTE_GRAVE, "WF5 row 8"),
            (A_ACUTE, "well-formed"),
            (A_ACUTE + A_ACUTE_GRAVE, "well-formed"),
            (A_ACUTE_GRAVE + A_ACUTE, "well-formed"),
            ("0021 ; [*1C50.0020.0002]\n", "WF4 row 2"),
            ("4E00 ; [.FB40.0020.0002][.CE00.0000.0000]\n", "well-formed"),
            ("4E00 ; [.FB40.0020.0002][.0000.0030.0002][.CE00.0000.0000]\n", "WF1 row 8"),
        ]
        for rows, verdict in cases:
            self.expect_verdict(TABLE + rows, verdict)
        self.expect_verdict("@version 1\n", "well-formed")

    def test_the_classes_of_the_data_file(self):
        """A grave accent is a non-starter by its class in the data file alone."""
        self.expect_verdict(TABLE + A_ACUTE_GRAVE, "well-formed", "@data 1\n")
        self.expect_verdict(TABLE + A_ACUTE_GRAVE, "WF5 row 8", "@data 1\nccc 0300..0300 1\n")
