"""`languages/uca_files.py`: the files of a language are made once and kept. It reads small folders in the place of Unicode's and CLDR's (small_cldr.py)."""
import hashlib
import os
import resource
import shutil
import signal
import subprocess
import sys
import time

import small_cldr
from program import LIMIT, TOP, UCA, Ended, ProgramTest

# Runs the script with two folders, the first arguments, in the place of those of the packages.
SCRIPT = f"""import sys
sys.path.insert(0, {TOP + '/languages'!r})
import languages, unicode_files
unicode_files.FOLDER, languages.CLDR = sys.argv[1:3]
del sys.argv[1:3]
import uca_files
uca_files.main()"""
EDITION, NEXT = "15.0.0-cldr41", "15.0.0-cldr42"
NEXT_DTD = small_cldr.CLDR["dtd/ldml.dtd"].replace("41", "42")
ROOT_ORDER = "eu: CLDR has no rules of its own for this language, so its order is that of the root (und)\n"

# Lines, and their order in each language, by the rules of small_cldr.py. Blanks come before letters.
LINES = ["d", "A", "c", "aa", "b", "a b", "a"]
ORDERS = {
    "pl": ["b", "c", "a", "A", "a b", "aa", "d"],
    "PL": ["b", "c", "a", "A", "a b", "aa", "d"],
    "de": ["a", "A", "a b", "aa", "b", "c", "d"],
    "de_DE": ["a", "A", "a b", "aa", "b", "c", "d"],
    "de-u-co-phonebk": ["a", "A", "a b", "aa", "c", "d", "b"],
    "de-u-kf-upper": ["A", "a", "a b", "aa", "b", "c", "d"],
    "de-u-ka-shifted": ["a", "A", "aa", "a b", "b", "c", "d"],
    "iw": ["a", "A", "a b", "aa", "b", "d", "c"],
    "zh": ["b", "c", "d", "a", "A", "a b", "aa"],
    "zh-SG": ["b", "c", "d", "a", "A", "a b", "aa"],
    "zh-TW": ["b", "a", "A", "a b", "aa", "c", "d"],
    "eu": ["a", "A", "a b", "aa", "b", "c", "d"],
    "root": ["a", "A", "a b", "aa", "b", "c", "d"],
}
# The tags under which they are kept, where CLDR names them otherwise.
OTHERWISE = {"PL": "pl", "de_DE": "de-DE", "iw": "he", "zh-TW": "zh-Hant-TW", "root": "und"}

# Arguments that are wrong, the status, and what the sentence has.
WRONG = [
    ([], 2, "a language is named by its tag"),
    (["--list", "pl"], 2, "too many: pl"),
    (["--labels", "pl", "de"], 2, "too many: de"),
    (["--labels", "--list", "pl"], 2, "not allowed with"),
    (["--locale", "pl"], 2, "unrecognized arguments"),
    (["xx"], 1, "`xx` is no language of CLDR"),
    (["../pl"], 1, "is no language tag"),
    (["de-u-co-../../pl"], 1, "is no language tag"),
    (["de-u-co-trad"], 1, "no such collation"),
    (["de-u-kn"], 1, "`kn` cannot be had"),
    (["de-POSIX"], 1, "`POSIX` is neither a script nor a region"),
    (["de-DE-POSIX"], 1, "`POSIX` is neither a script nor a region"),
    (["--cldr", "other", "pl"], 2, "name a folder for it by --into"),
    (["--unicode", "other", "--buckets", "pl"], 2, "name a folder for it by --into"),
    (["--edition", NEXT, "pl"], 1, f"the edition {NEXT} is not kept, and what is installed is {EDITION}"),
    (["--into", "a b", "pl"], 1, "a shell would not leave this path whole, because of ' '"),
    (["--into", "a*", "pl"], 1, "because of '*'"),
    (["--uca", "/none", "pl"], 1, "/none is no program that can be run"),
]


class UcaFiles(ProgramTest):
    def setUp(self):
        super().setUp()
        small_cldr.write(f"{self.folder}/unicode", small_cldr.UNICODE)
        small_cldr.write(f"{self.folder}/cldr", small_cldr.CLDR)
        self.home = f"{self.folder}/home"

    def words(self, arguments, installed=("unicode", "cldr")):
        return [sys.executable, "-c", SCRIPT, *installed, *([] if "--uca" in arguments else ["--uca", UCA]), *arguments]

    def streams(self, **others):
        """How each call is run: its files are kept in a folder of the test."""
        environment = {**os.environ, "XDG_DATA_HOME": self.home, "XDG_DATA_DIRS": f"{self.folder}/system", **others}
        return {"cwd": self.folder, "env": environment, "stdout": subprocess.PIPE, "stderr": subprocess.PIPE}

    def call(self, *arguments, given=b"", installed=("unicode", "cldr"), **others):
        """Runs the script. No error is a traceback."""
        ran = subprocess.run(self.words(arguments, installed), input=given, timeout=LIMIT, **{**self.streams(), **others})
        self.assertNotIn(b"Traceback", ran.stderr)
        return Ended(ran.returncode, ran.stdout, ran.stderr)

    def paths(self, tag, edition=EDITION, home=None):
        """The paths of the files of a tag, as they are printed."""
        return [f"{home or self.home}/uca/{edition}/{tag}/{name}" for name in ("table.txt", "data.txt")]

    def made(self, *arguments, err=b"", **others):
        """The paths that a call prints, which ends well."""
        found = self.call(*arguments, **others)
        self.assertEqual((found.status, found.err), (0, err), arguments)
        return found.out.decode().splitlines()

    def fails(self, *arguments, status=1, said, **others):
        """A call ends with an error that says so, and prints nothing."""
        found = self.call(*arguments, **others)
        with self.subTest(arguments=arguments):
            self.assertEqual((found.status, found.out), (status, b""))
            self.assertIn(said, found.err.decode())
        return found

    def nothing_is_left(self, folder=None):
        """No hidden folder is left among those that are kept."""
        folder = folder or f"{self.home}/uca"
        self.assertEqual([it for it in os.listdir(folder) if it.startswith(".")] if os.path.exists(folder) else [], [])

    def contents(self, paths):
        return [self.read(os.path.relpath(it, self.folder)) for it in paths]

    def test_orders(self):
        for tag, wanted in ORDERS.items():
            with self.subTest(tag=tag):
                found = self.made(tag, err=ROOT_ORDER.encode() if tag == "eu" else b"")
                self.assertEqual(found, self.paths(OTHERWISE.get(tag, tag)))
                self.expect(["check", *found], out="well-formed\n")
                self.expect(["sort", *found], given="".join(f"{it}\n" for it in LINES), out="".join(f"{it}\n" for it in wanted))
        self.assertEqual(self.made("eu", err=ROOT_ORDER.encode()), self.paths("eu"))
        self.nothing_is_left()

    def test_several_tags(self):
        self.assertEqual(self.made("pl", "de"), self.paths("pl") + self.paths("de"))
        self.fails("pl", "xx", said="`xx` is no language")

    def test_wrong_arguments(self):
        for arguments, status, said in WRONG:
            self.fails(*arguments, status=status, said=said)
        self.nothing_is_left()
        self.assertEqual([it for it in os.listdir(self.folder) if it in ("a b", "a*")], [])

    def test_missing_packages(self):
        """The sentence names those packages whose files are missing."""
        none = {"installed": ("none", "none")}
        self.fails("pl", said="there is no none/allkeys.txt: apt install unicode-data unicode-cldr-core, or name the folders with such files by --unicode and --cldr, with --into FOLDER\n", **none)
        self.fails("pl", installed=("none", "cldr"), said="apt install unicode-data, or")
        self.fails("pl", installed=("unicode", "none"), said="apt install unicode-cldr-core, or")
        self.made("pl", "de")
        self.assertEqual(self.made("pl", **none), self.paths("pl"))
        self.fails("PL", said="apt install unicode-data unicode-cldr-core, or name the folders with such files by --unicode and --cldr, with --into FOLDER. These tags are kept: de, pl\n", **none)

    def test_kept_files_stay(self):
        """Other rules, or another edition, change nothing of what is kept."""
        before = self.contents(self.made("pl"))
        small_cldr.write(f"{self.folder}/cldr", {"collation/pl.xml": small_cldr.collation(standard="&d < a"), "dtd/ldml.dtd": NEXT_DTD})
        self.assertEqual(self.contents(self.made("pl")), before)
        self.assertEqual(self.made("--edition", NEXT, "pl"), self.paths("pl", NEXT))
        self.assertEqual(self.contents(self.paths("pl")), before)
        self.fails("pl", said=f"keeps several editions, {EDITION}, {NEXT}: name one by --edition")
        for edition in (EDITION, NEXT):
            self.assertEqual(self.made("--edition", edition, "pl"), self.paths("pl", edition))
        self.fails("--edition", "14.0.0-cldr41", "pl", said="the edition 14.0.0-cldr41 is not kept")
        self.assertEqual(self.made("de"), self.paths("de", NEXT))

    def test_files_that_are_lost(self):
        table, data = self.made("pl")
        os.remove(data)
        self.fails("pl", said=f"{data} is not there: take the folder {os.path.dirname(table)} away")

    def test_folders(self):
        """The folder that is named; a relative one; the administrator's, which is read and not written; the home without a variable."""
        self.assertEqual(self.made("--into", "system/uca", "pl"), self.paths("pl", home=f"{self.folder}/system"))
        self.assertEqual(self.made("pl"), self.paths("pl", home=f"{self.folder}/system"))
        self.assertFalse(os.path.exists(self.home))
        self.assertEqual(self.made("de"), self.paths("de"))
        self.assertEqual(self.made("--into", "other", "de"), [it.replace(f"{self.home}/uca", f"{self.folder}/other") for it in self.paths("de")])
        for variable in ("", "relative"):
            found = self.call("de", **self.streams(XDG_DATA_HOME=variable, HOME=f"{self.folder}/user"))
            self.assertEqual(found.out.decode().splitlines(), self.paths("de", home=f"{self.folder}/user/.local/share"))
        self.write(file="")
        self.fails("--into", "file/x", "pl", said="Not a directory")

    def test_no_home(self):
        """Nothing is made in a folder of the administrator in its place."""
        for home in ("", "relative", "./here"):
            self.fails("pl", said=f"the home folder is {home!r}, which is no absolute path", **self.streams(XDG_DATA_HOME="", HOME=home))
        self.fails("--list", said="no absolute path", **self.streams(XDG_DATA_HOME="", XDG_DATA_DIRS="", HOME="relative"))
        self.assertFalse(os.path.exists(f"{self.folder}/system"))

    def test_folders_that_cannot_be_read(self):
        """They may keep the tag, so it is not made anew. A link to itself has no rights that root could have. tests/by_hand/uca_files.py has another user."""
        os.makedirs(f"{self.folder}/system")
        os.symlink("uca", f"{self.folder}/system/uca")
        self.fails("pl", said=f"{self.folder}/system/uca: Too many levels of symbolic links")
        os.makedirs(f"{self.folder}/other/{EDITION}")
        os.symlink("pl", f"{self.folder}/other/{EDITION}/pl")
        self.fails("--into", "other", "pl", said=f"{self.folder}/other/{EDITION}/pl: Too many levels")
        self.assertFalse(os.path.exists(self.home))

    def test_rights(self):
        """What is made by --into is there for all users. What is made for one user has the rights that this user gives."""
        for words, folder, rights in ((["--into", "system/uca"], f"{self.folder}/system", (0o755, 0o444)), ([], self.home, (0o700, 0o400))):
            self.made(*words, "--book", "pl", preexec_fn=lambda: os.umask(0o077))
            for at, _, names in os.walk(folder):
                self.assertEqual([os.stat(it).st_mode & 0o777 for it in (at, *(f"{at}/{name}" for name in names))], [rights[0], *[rights[1]] * len(names)])
            os.rename(folder, f"{folder}.seen")

    def test_a_link_to_nothing(self):
        os.makedirs(f"{self.home}/uca/{EDITION}")
        os.symlink("none", f"{self.home}/uca/{EDITION}/pl")
        self.fails("pl", said=f"{self.home}/uca/{EDITION}/pl: Not a directory\n")
        self.nothing_is_left()

    def test_own_folders(self):
        """Folders that are named ask for their edition, whatever is kept."""
        self.assertEqual(self.made("--into", "own", "pl"), [f"{self.folder}/own/{EDITION}/pl/{it}" for it in ("table.txt", "data.txt")])
        small_cldr.write(f"{self.folder}/newer", {**small_cldr.CLDR, "dtd/ldml.dtd": NEXT_DTD})
        found = self.made("--into", "own", "--cldr", "newer", "pl")
        self.assertEqual(found, [f"{self.folder}/own/{NEXT}/pl/{it}" for it in ("table.txt", "data.txt")])
        self.fails("--into", "own", "--cldr", "newer", "--edition", "1.0-cldr1", "pl", said=f"the edition 1.0-cldr1 is not kept, and what is installed is {NEXT}")
        self.fails("--into", "own", "--cldr", "none", "pl", said="there is no none/collation/root.xml")

    def test_packages_of_another_edition(self):
        """A book or labels for what is kept are not made of them."""
        self.made("pl")
        shutil.copytree(f"{self.folder}/cldr", f"{self.folder}/older")
        small_cldr.write(f"{self.folder}/cldr", {"dtd/ldml.dtd": NEXT_DTD})
        self.assertEqual(self.made("pl"), self.paths("pl"))
        for option, what in (("--book", "a book"), ("--labels", "an index"), ("--buckets", "an index")):
            self.fails(option, "pl", said=f"{what} for {EDITION} cannot be made of {NEXT}: name folders of its edition")
        self.assertFalse(os.path.exists(f"{os.path.dirname(self.paths('pl')[0])}/book.txt"))
        named = ["--unicode", "unicode", "--cldr", "older", "--into", f"{self.home}/uca"]
        self.assertEqual(self.call("--labels", *named, "pl").out[:4], b"B\tB\n")
        book = self.made("--book", *named, "pl")
        self.assertEqual(self.made("--book", "pl"), book)

    def test_damaged_tables(self):
        table, _ = self.made("pl")
        for text in (b"0061 ; [.0000.0020.0002]\n", b"\xff\n"):
            os.chmod(table, 0o644)
            with open(table, "ab") as file:
                file.write(text)
            self.assertEqual(self.made("pl")[0], table)
            for option in ("--labels", "--buckets"):
                self.fails(option, "pl", said=f"the table that is given, {table}: ")

    def test_two_names(self):
        """A tag that is kept under the name of one edition and under that of another is kept twice."""
        paths = self.made("iw")
        self.assertEqual(paths, self.paths("he"))
        older = self.paths("iw", "14.0.0-cldr40")
        shutil.copytree(os.path.dirname(paths[0]), os.path.dirname(older[0]))
        self.fails("iw", said="keeps several editions, 14.0.0-cldr40, 15.0.0-cldr41: name one by --edition")
        self.assertEqual(self.made("--edition", "14.0.0-cldr40", "iw"), older)
        self.assertEqual(self.made("--edition", EDITION, "iw"), paths)
        self.assertEqual(self.made("iw", installed=("none", "none")), older)

    def test_list_goes_on(self):
        """What cannot be read is named after the list."""
        table, _ = self.made("pl")
        self.write(**{"home/uca/14.0.0-cldr40": "", "home/uca/notes": ""})
        os.symlink("16.0.0-cldr46", f"{self.home}/uca/16.0.0-cldr46")
        found = self.call("--list")
        self.assertEqual((found.status, found.out.split(b"\t")[:2]), (1, [b"pl", EDITION.encode()]))
        self.assertEqual(found.out.count(b"\n"), 1)
        said = ["14.0.0-cldr40: Not a directory", "16.0.0-cldr46: Too many levels of symbolic links"]
        self.assertEqual(found.err.decode().splitlines(), [f"{self.home}/uca/{it}" for it in said])

    def test_a_reader_that_stops(self):
        """The call ends quietly, as by the signal SIGPIPE."""
        for words in (["--names"], ["pl"]):
            reader, writer = os.pipe()
            os.close(reader)
            self.assertEqual(self.call(*words, stdout=writer), Ended(141, None, b""))
            os.close(writer)

    def test_list(self):
        """The fingerprint is worked out from docs/FORMATS.md."""
        paths = self.made("pl")
        self.made("--into", "system/uca", "de-u-ka-shifted")
        lines = []
        for tag, files, weighting in (("pl", paths, "non-ignorable"), ("de-u-ka-shifted", self.paths("de-u-ka-shifted", home=f"{self.folder}/system"), "shifted")):
            table, data = (hashlib.sha256(it).hexdigest() for it in self.contents(files))
            text = f"uca keys 1\nunicode 18.0.0\nweighting {weighting}\ndepth weights\ntable {table}\ndata {data}\n"
            lines.append(f"{tag}\t{EDITION}\t{hashlib.sha256(text.encode()).hexdigest()}\t{os.path.dirname(files[0])}\n")
        self.assertEqual(self.call("--list"), Ended(0, "".join(lines).encode(), b""))

    def test_names(self):
        wanted = """Basque, as the root: eu
CLDR's root: und
English, as the root: en
Chinese, by pinyin: zh
German, phone book: de-u-co-phonebk
German: de
Hebrew: he
Polish: pl
Traditional Chinese, by strokes: zh-Hant
"""
        found = self.call("--names")
        self.assertEqual(sorted(found.out.decode().splitlines()), sorted(wanted.splitlines()))

    def test_labels_and_buckets(self):
        """In Polish here a comes after c. `0` comes before all labels."""
        self.assertEqual(self.call("--labels", "pl").out.decode().split("\n")[:4], ["B\tB", "C\tC", "A\tA", "D\tD"])
        found = self.call("--buckets", "pl", given="".join(f"{it}\n" for it in [*LINES, "0", "Ab"]).encode())
        wanted = ["…\t0", "B\tb", "C\tc", "A\ta", "A\tA", "A\ta b", "A\tAb", "A\taa", "D\td"]
        self.assertEqual(found, Ended(0, "".join(f"{it}\n" for it in wanted).encode(), b""))
        self.fails("--buckets", "pl", given=b"a\n\xff\n", said="input line 2: Utf8")
        self.fails("--buckets", "pl", given=b"\xff\n" + b"a\n" * 200_000, said="input line 1: Utf8")
        found = self.call("--labels", "eu")
        self.assertEqual((found.out.split(b"\n")[0], found.err.decode()), (b"A\tA", ROOT_ORDER))
        self.assertEqual(self.call("--buckets", "eu", given=b"b\n"), Ended(0, b"B\tb\n", ROOT_ORDER.encode()))
        self.assertEqual(self.call("--buckets", "pl", given=b""), Ended(0, b"", b""))

    def test_calls_at_once(self):
        """All print the same paths. The files are those of one call, and are whole."""
        calls = [subprocess.Popen(self.words(["pl"]), **self.streams()) for _ in range(4)]
        found = [(*it.communicate(timeout=LIMIT), it.returncode) for it in calls]
        self.assertEqual(found, [("".join(f"{it}\n" for it in self.paths("pl")).encode(), b"", 0)] * len(calls))
        self.expect(["check", *self.paths("pl")], out="well-formed\n")
        self.nothing_is_left()

    def test_kills(self):
        """A call that is killed leaves all files, or none at their place."""
        begun = time.time()
        whole = self.contents(self.made("pl"))
        taken = time.time() - begun
        for part in range(1, 12):
            streams = self.streams(XDG_DATA_HOME=f"{self.folder}/{part}")
            ran = subprocess.Popen(self.words(["pl"]), **streams)
            try:
                ran.wait(taken * part / 10)
            except subprocess.TimeoutExpired:
                ran.send_signal(signal.SIGKILL)
            ran.communicate()
            paths = self.paths("pl", home=f"{self.folder}/{part}")
            if part == 1:
                self.assertEqual(self.call("pl", **streams).status, 0)
            if part == 1 or os.path.exists(os.path.dirname(paths[0])):
                self.assertEqual(self.contents(paths), whole)

    def test_old_folders_of_killed_calls(self):
        """They are taken away a day later, and not before."""
        for name, days in (("new", 0), ("old", 2)):
            os.makedirs(f"{self.home}/uca/.making-{name}/made")
            os.utime(f"{self.home}/uca/.making-{name}", (time.time() - 86_400 * days,) * 2)
        self.made("pl")
        self.assertEqual([it for it in sorted(os.listdir(f"{self.home}/uca")) if it.startswith(".")], [".making-new"])

    def test_full_disk(self):
        """No file can have more bytes than these. What is kept is whole, or is not there."""
        self.made("de")
        size = len(self.contents(self.paths("de"))[0])
        for limit in (1, 50, size // 2, size - 1):
            found = self.fails("pl", said=f"{self.home}/uca: File too large\n", preexec_fn=lambda limit=limit: resource.setrlimit(resource.RLIMIT_FSIZE, (limit, limit)))
            self.assertEqual(found.err.count(b"\n"), 1)
            self.assertFalse(os.path.exists(os.path.dirname(self.paths("pl")[0])))
            self.nothing_is_left()
        with open("/dev/full", "wb") as full:
            found = self.call("de", stdout=full)
        self.assertEqual((found.status, found.err), (1, b"the output: No space left on device\n"))
