"""Scripts say their usage, and end in a sentence where arguments or files are missing: with no traceback, and no line of the shell."""
import glob
import os
import subprocess
import unittest
from concurrent.futures import ThreadPoolExecutor

from program import LIMIT, TOP, UCA

NONE, FOLDERS = "/none/none", ("tools", "languages", "examples", "packaging", "page")

# The name of a script that is installed under another one.
COMMANDS = {"languages/uca_files.py": "uca-files"}

# Scripts that do their work without an argument. Some of it takes long, so here they are only asked for help.
ALONE = {
    "tools/build.py",
    "tools/check.py",
    "tools/pages/completions.py",
    "tools/pages/crates_page.py",
    "tools/definitions.py",
    "tools/gate.py",
    "tools/gate_times.py",
    "tools/install.sh",
    "tools/pages/library_page.py",
    "tools/pages/man_page.py",
    "tools/pages/packaging.py",
    "tools/pages/pages.py",
    "tools/pages/plain_english.py",
    "tools/tidy.py",
    "tools/try_edits.py",
    "examples/books/general_lines.py",
    "examples/databases/run_all.py",
    "packaging/debian.py",
    "packaging/release.py",
    "packaging/rust_crate.py",
    "packaging/wheel.py",
    "page/make.py",
}

# This one reads variables and standard input alone.
WITHOUT_FILES = {"examples/databases/upgraded_keys.sh"}

# Calls with a file, a crate or a page that is not there.
MISSING = [
    "tools/build.py none",
    "tools/check.py none",
    "tools/pages/completions.py none",
    "tools/pages/crates_page.py none",
    "tools/definitions.py none",
    "tools/install.sh none",
    "languages/languages.py --uca UCA table sv NONE NONE",
    "languages/languages.py --uca UCA rules sv NONE",
    "languages/languages.py --uca UCA keep Cyrl NONE NONE NONE NONE",
    "languages/languages.py --uca UCA labels sv NONE NONE",
    "languages/languages.py --uca NONE table sv NONE NONE",
    "tools/pages/library_page.py none",
    "tools/pages/man_page.py --program NONE",
    "tools/pages/packaging.py --program NONE",
    "tools/pages/pages.py NONE",
    "tools/pages/plain_english.py NONE",
    "tools/slowest.py none",
    "tools/tidy.py none",
    "tools/try_edits.py none",
    "languages/uca_files.py --uca UCA --into /dev/null --unicode NONE pl",
    "languages/uca_files.py --cldr NONE --names",
    "languages/unicode_files.py table NONE",
    "languages/unicode_files.py table --folder NONE",
    "examples/books/choose_book.py NONE",
    "examples/books/general_lines.py NONE",
    "examples/databases/dask_sort.py NONE NONE NONE NONE",
    "examples/databases/from_keys.py find NONE",
    "examples/databases/from_keys.py merge NONE NONE",
    "examples/databases/from_keys.py buckets NONE NONE",
    "examples/databases/load_compact_postgresql.sh NONE NONE NONE NONE",
    "examples/databases/load_compact_sqlite.sh NONE NONE NONE NONE NONE",
    "examples/databases/load_postgresql.sh NONE NONE NONE",
    "examples/databases/load_sqlite.sh NONE NONE NONE NONE",
    "examples/databases/make_lines.py none",
    "examples/databases/mend_postgresql.sh NONE NONE NONE NONE NONE",
    "examples/databases/mend_sqlite.sh NONE NONE NONE NONE NONE NONE",
    "examples/databases/sort_parts.sh NONE NONE NONE 10",
    "examples/databases/upgrade_postgresql.sh texts NONE NONE NONE NONE NONE NONE",
    "examples/databases/upgrade_sqlite.sh texts NONE NONE NONE NONE NONE NONE NONE",
    "packaging/debian.py none",
    "page/make.py none",
]


def scripts():
    """The names of all files that can be run, in the folders of scripts."""
    found = [it for folder in FOLDERS for it in glob.glob(f"{folder}/**/*.*", root_dir=TOP, recursive=True)]
    return sorted(it for it in found if it.endswith((".py", ".sh")) and os.access(f"{TOP}/{it}", os.X_OK))


def named(name):
    """How a script names itself."""
    return COMMANDS.get(name) or os.path.basename(name)


def ran(words):
    """A call of a script. The program is on the path, and there is no standard input."""
    given = [{"UCA": UCA, "NONE": NONE}.get(it, it) for it in words.split()]
    environment = {**os.environ, "PATH": f"{os.path.dirname(UCA)}:{os.environ['PATH']}"}
    environment.pop("PREFIX", None)
    return subprocess.run([f"{TOP}/{given[0]}", *given[1:]], stdin=subprocess.DEVNULL, capture_output=True, encoding="utf-8", errors="replace", env=environment, timeout=LIMIT, check=False)


def all_ran(calls):
    """Each call with what came of it. Some run side by side."""
    with ThreadPoolExecutor() as pool:
        return [*zip(calls, pool.map(ran, calls))]


class Usages(unittest.TestCase):
    def ends_well(self, done):
        for it in ("Traceback", "unbound variable", "syntax error"):
            self.assertNotIn(it, done.stdout + done.stderr)

    def test_help(self):
        """--help names the script, on standard output alone."""
        names = scripts()
        self.assertGreater(len(names), 30)
        for call, done in all_ran([f"{name} --help" for name in names]):
            name = call.split()[0]
            with self.subTest(script=name):
                self.assertEqual((done.returncode, done.stderr), (0, ""))
                self.assertIn(named(name), done.stdout)

    def test_no_arguments(self):
        """A script that needs arguments says its usage, on standard error alone."""
        for name, done in all_ran(sorted({*scripts()} - ALONE)):
            with self.subTest(script=name):
                self.ends_well(done)
                self.assertEqual((done.returncode, done.stdout), (2, ""))
                self.assertIn(named(name), done.stderr)

    def test_missing(self):
        """Where a file is not there, the status is not 0, and an error says something. Each script that needs arguments is tried."""
        self.assertEqual({*scripts()} - ALONE - {it.split()[0] for it in MISSING} - WITHOUT_FILES, set())
        for words, done in all_ran(MISSING):
            with self.subTest(call=words):
                self.ends_well(done)
                self.assertNotEqual(done.returncode, 0)
                self.assertNotEqual(done.stderr, "")
