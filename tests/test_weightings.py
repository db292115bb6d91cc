"""The weighting by which a run goes: what is asked for, or else what the table says, or else shifted."""
from program import DATA, ProgramTest

# A variable space and two letters.
ROWS = """0020 ; [*0209.0020.0002]
0061 ; [.1C47.0020.0002]
0062 ; [.1C60.0020.0002]
"""

# What is printed by each: the key of `a` and a space, the lines in the order of their keys, and how `a b` and `ab` compare. By
# primary weights the space comes before the letters. Shifted it counts at the fourth level alone.
PRINTED = {
    "non-ignorable": ("1C47 0209 0000 0020 0020 0000 0002 0002\n", "a b\naa\nab\nb\n", "< 1\n"),
    "shifted": ("1C47 0000 0020 0000 0002 0000 FFFF 0209\n", "aa\na b\nab\nb\n", "< 4\n"),
}


class Weightings(ProgramTest):
    def test_the_weighting_that_holds(self):
        for setting in "", "@variable non-ignorable", "@variable shifted":
            self.write(t=f"@version 1\n{setting}\n{ROWS}", d=DATA)
            for asked in "", "non-ignorable", "shifted":
                options = f"--weighting {asked}" if asked else ""
                key, lines, compared = PRINTED[asked or setting.removeprefix("@variable ") or "shifted"]
                self.expect(f"keys {options} t d", "a \n", out=key)
                self.expect(f"sort {options} t d", "ab\na b\naa\nb\n", out=lines)
                self.expect(["compare", *options.split(), "t", "d", "a b", "ab"], out=compared)

    def test_unknown_weightings(self):
        """No file is opened, but the other arguments are judged before."""
        for arguments in "keys --weighting x t d", "sort --weighting Shifted t d", "keys --weighting= t d", "compare --weighting=shift t d a b":
            self.expect(arguments, status=2, err="weighting: unknown\n")
