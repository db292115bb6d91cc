"""Each allocation fails, alone and with all after it, also those of `unicode_normalization` and `clap`, which take memory by themselves.

`tests/by_hand/refusals.py` says how a run may end then, and lets reads, writes and openings fail too. It needs a C compiler: without one these tests are not
run.
"""
import os
import shutil
import sys
import tempfile
import unittest

from program import TOP, UCA

sys.path.append(f"{TOP}/tests/by_hand")
import refusals

# Lines, texts and rules that are brought to Normalization Form D; and arguments for which `clap` makes a text.
NORMALIZED = (
    "keys --lines table.txt data.txt",
    "sort --identical --weighting non-ignorable table.txt data.txt",
    "compare table.txt data.txt \u1ea1\u0301ch a\u0323\u0301c-h",
    "tailor table.txt data.txt spellings.txt made.txt",
    "affected data.txt rules.txt",
)
TOLD = ("tailor --help", "keys --weighting none table.txt data.txt", "audit table.txt")


@unittest.skipUnless(shutil.which("cc"), "there is no C compiler cc")
class Allocations(unittest.TestCase):
    def judge(self, lines):
        cases = {words: it for words, *it in reversed(refusals.CASES)}
        with tempfile.TemporaryDirectory(prefix="uca-") as folder:
            trials = refusals.Trials(UCA, folder)
            for words in lines:
                trials.judge_all(refusals.Case(words, *cases[words], trials.files), "aA")
        self.assertEqual(trials.wrong, 0, "what ended otherwise is printed above")
        self.assertGreater(trials.failed["a"], 100 * len(lines))

    def test_texts_that_are_normalized(self):
        self.judge(NORMALIZED)

    def test_texts_of_help_and_errors(self):
        self.judge(TOLD)
