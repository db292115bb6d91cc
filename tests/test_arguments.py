"""The arguments: help, version, which lines are taken, and what they ask for."""
import os
import random
import re

from helps import said
from program import DATA, TABLE, ProgramTest

HELP = os.path.join(os.path.dirname(os.path.realpath(__file__)), "help")
COMMANDS = ["check", "keys", "sort", "compare", "tailor", "audit", "affected", "changes", "audit-changes", "rekey", "compact", "expand", "book", "fingerprint"]
MORE = "For more information, try '--help'.\n"


def help_of(name):
    with open(f"{HELP}/{name}.txt", encoding="utf-8") as file:
        return file.read()


class Help(ProgramTest):
    def test_help(self):
        for arguments in "--help", "-h", "help":
            self.expect(arguments, out=help_of("uca"))
        for command in COMMANDS:
            for arguments in f"{command} --help", f"help {command}":
                self.expect(arguments, out=help_of(command))

    def test_version(self):
        """It names the program's version, the edition of Unicode by which it normalizes, and the logic of its proofs."""
        text = "uca 0.1.0 (normalization of Unicode 18.0.0, proved in Rattle's logic dac8208d650f15bf)\n"
        for arguments in "--version", "-V", "--version keys t d":
            self.expect(arguments, out=text)

    def test_errors(self):
        def missing(name, usage):
            return f"error: the following required arguments were not provided:\n  <{name}>\n\nUsage: uca {usage}\n\n"

        def unexpected(argument, usage):
            tip = f"  tip: to pass '{argument}' as a value, use '-- {argument}'\n\n" if argument.startswith("-") else ""
            return f"error: unexpected argument '{argument}' found\n\n{tip}Usage: uca {usage}\n\n"

        def twice(option, usage):
            return f"error: the argument '{option}' cannot be used multiple times\n\nUsage: uca {usage}\n\n"

        none = "error: 'uca' requires a subcommand but one was not provided\n"
        none += f"  [subcommands: {', '.join(COMMANDS)}, help]\n\nUsage: uca <COMMAND>\n\n"
        other = "error: unrecognized subcommand 'other'\n\nUsage: uca <COMMAND>\n\n"
        languages = "\n       For <TABLE> <DATA> of Polish, write $(uca-files pl)"
        keys, sort = (f"{name} [OPTIONS] <TABLE> <DATA> < LINES{languages}" for name in ("keys", "sort"))
        compare = f"compare [OPTIONS] <TABLE> <DATA> <LEFT> <RIGHT>{languages}"
        tailor = "tailor <TABLE> <DATA> <RULES> <CERTIFICATE>"
        affected = "affected [OPTIONS] <DATA> <RULES> < LINES"
        rekey, compact, expand = "rekey [OPTIONS] <CERTIFICATE> < LINES", "compact [OPTIONS] <BOOK> < LINES", "expand [OPTIONS] <BOOK> < LINES"
        changes = "changes <OLD> <OLD-DATA> <NEW> <NEW-DATA> <CERTIFICATE>"
        similar = "error: unrecognized subcommand 'change'\n\n  tip: a similar subcommand exists: 'changes'\n\nUsage: uca <COMMAND>\n\n"
        cases = [
            ("", none),
            ("other t d", other),
            ("help other", other),
            ("keys t", missing("DATA", keys)),
            ("tailor t d r", missing("CERTIFICATE", tailor)),
            ("affected d", missing("RULES", affected)),
            ("changes o d n e", missing("CERTIFICATE", changes)),
            ("rekey", missing("CERTIFICATE", rekey)),
            ("change o d n e c", similar),
            ("keys t d l", unexpected("l", keys)),
            ("sort t d pl_PL", unexpected("pl_PL", sort)),
            ("sort --locale pl t d", unexpected("--locale", sort)),
            ("compare t d a b pl", unexpected("pl", compare)),
            ("tailor t d r c l", unexpected("l", tailor)),
            ("keys --quiet t d", unexpected("--quiet", keys)),
            ("sort --lines t d", unexpected("--lines", sort)),
            ("changes --changes o d n e c", unexpected("--changes", changes)),
            ("rekey --lines c", unexpected("--lines", rekey)),
            ("rekey --numeric c", unexpected("--numeric", rekey)),
            ("compact", missing("BOOK", compact)),
            ("expand", missing("BOOK", expand)),
            ("compact b b", unexpected("b", compact)),
            ("expand --lines b", unexpected("--lines", expand)),
            ("book c", missing("BOOK", "book <CERTIFICATE> <BOOK>")),
            ("book --identical c b", unexpected("--identical", "book <CERTIFICATE> <BOOK>")),
            ("fingerprint t", missing("DATA", "fingerprint <TABLE> <DATA>")),
            ("fingerprint --lines t d", unexpected("--lines", "fingerprint [OPTIONS] <TABLE> <DATA>")),
            ("sort --weighting x --weighting x t d", twice("--weighting <W>", sort)),
            ("sort --identical --identical t d", twice("--identical", sort)),
            ("affected --changes --changes d c", twice("--changes", affected)),
            ("keys --weighting", "error: a value is required for '--weighting <W>' but none was supplied\n\n"),
        ]
        for arguments, said in cases:
            self.expect(arguments, status=2, err=said + MORE)


class Model:
    """What a line of arguments asks for, worked out apart from the program."""

    # How many names and texts a command takes, and which options.
    TAKES = {
        "check": (2, []),
        "keys": (2, ["--weighting", "--identical", "--numeric", "--lines", "--header", "--compact"]),
        "sort": (2, ["--weighting", "--identical", "--numeric"]),
        "compare": (4, ["--weighting", "--identical", "--numeric"]),
        "tailor": (4, []),
        "audit": (5, []),
        "affected": (2, ["--changes", "--numeric"]),
        "changes": (5, []),
        "audit-changes": (6, []),
        "rekey": (1, ["--weighting", "--identical", "--from", "--to"]),
        "compact": (1, ["--weighting", "--identical", "--from"]),
        "expand": (1, ["--weighting", "--identical", "--to"]),
        "book": (2, []),
        "fingerprint": (2, ["--weighting", "--identical", "--numeric", "--compact"]),
    }

    def __init__(self, line):
        self.command, *words = line or [""]
        self.texts, self.options = [], {}
        self.is_taken = self.command in self.TAKES and self.takes(words)
        self.is_weighting_known = self.options.get("--weighting") in (None, "shifted", "non-ignorable")
        fingerprints = [self.options[name] for name in ("--from", "--to") if name in self.options]
        are_together = self.command != "rekey" or len(fingerprints) != 1
        self.are_fingerprints_known = are_together and all(re.fullmatch("[0-9a-f]{64}", it) for it in fingerprints)

    def takes(self, words):
        count, options = self.TAKES[self.command]
        words, are_texts = list(words), False
        while words:
            word = words.pop(0)
            name, equals, value = word.partition("=")
            if are_texts or word == "-" or not word.startswith("-"):
                self.texts.append(word)
            elif word == "--":
                are_texts = True
            elif name not in options or name in self.options:
                return False
            elif name in ("--weighting", "--from", "--to", "--compact"):
                # a value may not look like an option, but for the single hyphen
                if not equals and (not words or words[0].startswith("-") and words[0] != "-"):
                    return False
                self.options[name] = value if equals else words.pop(0)
            elif equals:
                return False
            else:
                self.options[name] = None
        return len(self.texts) == count

    def plainly(self):
        """The same in another spelling: all options first, then `--`, then the names and texts."""
        options = [f"{name}={value}" if value is not None else name for name, value in sorted(self.options.items())]
        return [self.command, *options, "--", *self.texts]


LINES = """check t d
keys t d
keys --weighting shifted t d --identical --lines
keys --header t d
keys --numeric t d --identical
keys t --compact k d --lines
sort --weighting=non-ignorable --identical t d
compare t d a b
compare --identical t d --weighting non-ignorable -- -a --b
tailor t d r -- c
audit b d r t c
affected d r
affected --changes d h
affected d r --numeric
changes b d t d c
audit-changes b d t d h c
rekey --weighting shifted c --identical
rekey --from {0} c --to={0}
compact --weighting non-ignorable k
compact --from {0} k
expand k --identical --to={0}
book c k
fingerprint --identical t --weighting=shifted d
fingerprint t --compact k d""".format("0123456789abcdef" * 4).splitlines()

PUT_IN = """check keys sort compare tailor audit affected changes audit-changes rekey compact expand book fingerprint help order t - -- ---
--weighting --weighting= --weighting=shifted --weightings shifted non-ignorable Shifted --identical --identical= --numeric --lines --linest
--changes --changes= --change --header --compact --compact= --from --to={} -i -h --help -V --version é =""".format("0123456789abcdef" * 4).split()


class Lines(ProgramTest):
    def setUp(self):
        super().setUp()
        # so that a line that is taken opens no file by chance
        self.write(t=TABLE, d=DATA, b=TABLE, r="", c="", h="@changes 1\n", k="@book 1\n")

    def judge(self, line):
        """A line is taken, or rejected, as the model says. One that is taken asks for the same in another spelling."""
        model = Model(line)
        ended = self.run_uca(*line, given="a b\n")
        with self.subTest(line=line):
            if model.is_taken and not model.is_weighting_known:
                self.assertEqual(ended, (2, b"", said("weighting: unknown\n")))
            elif model.is_taken and not model.are_fingerprints_known:
                self.assertEqual(ended, (2, b"", said("fingerprint: unknown\n")))
            elif model.is_taken:
                self.assertFalse(ended.err.startswith(b"error: "), ended)
                self.assertEqual(ended, self.run_uca(*model.plainly(), given="a b\n"))
            elif ended.status == 2:
                self.assertEqual(ended.out, b"")
                self.assertTrue(ended.err.startswith(b"error: ") and ended.err.endswith(MORE.encode()), ended)
            else:
                self.assertEqual((ended.status, ended.err), (0, b""))
                self.assertTrue(b"Usage: uca" in ended.out or ended.out.startswith(b"uca 0.1.0 ("), ended)
        return model.is_taken

    def test_changed_lines(self):
        """Lines that are taken, their beginnings, and all that one other part makes of them, in place of one or after it."""
        taken = 0
        for line in map(str.split, LINES):
            self.assertTrue(self.judge(line))
            for place in range(len(line)):
                self.judge(line[:place])
                for word in PUT_IN:
                    taken += self.judge([*line[:place], word, *line[place + 1 :]])
                    taken += self.judge([*line[: place + 1], word, *line[place + 1 :]])
        self.assertGreater(taken, 500)

    def test_random_lines(self):
        numbers = random.Random(5)
        texts = ["t", "d", "", "-", "--identical"]
        for _ in range(400):
            command = numbers.choice(COMMANDS)
            count = Model.TAKES[command][0] + numbers.randrange(3)
            self.judge([command, *(numbers.choice(PUT_IN if numbers.randrange(4) == 0 else texts) for _ in range(count))])

    def test_names_in_help(self):
        """A name is printed as it is. An error about a file whose name has an LF has no help."""
        for name in "\u00e9 '\"$(x)\t", "x" * 5000, "a\nb":
            self.expect(["check", name, "d"], status=3, err="table: Open\n")
            self.expect(["tailor", "t", "d", name, name], status=2, err="certificate: SameAs rules\n")

    def test_names_that_look_like_options(self):
        """After `--` all are names or texts."""
        for name in "--weighting", "--identical", "--lines", "--changes", "help":
            with open(f"{self.folder}/{name}", "w", encoding="utf-8") as file:
                file.write(DATA)
            key = "1C47 0000 0020 0000 0002 0000 FFFF\n"
            self.expect(["keys", "t", "--", name], "a\n", out=key)
        self.expect(["compare", "t", "d", "--", "", "--b"], out="< 1\n")
        self.expect(["compare", "t", "d", "help", "sort"], out="< 1\n")
