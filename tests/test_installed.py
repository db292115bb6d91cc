"""What `tools/install.sh` installs is whole: scripts have the modules that they import and start, and pages have what they lead to and show."""
import ast
import os
import re
import subprocess
import sys
import tempfile
import unittest

from program import TOP, UCA

# Modules of packages that a script asks for at its head, as examples/databases/README.md says.
OF_PACKAGES = {"dask_sort.py": {"distributed"}}

# A link or a picture of a page, without its anchor. One to another site has a colon.
LINKS = re.compile(r"\]\(([^)#:\s]+)(?:#[^)]*)?\)|\b(?:src|href)=\"([^\"#:]+)")


def imported(path):
    """The modules that a script imports."""
    with open(path, encoding="utf-8") as file:
        nodes = [*ast.walk(ast.parse(file.read()))]
    names = {it.name for node in nodes if isinstance(node, ast.Import) for it in node.names}
    names |= {node.module for node in nodes if isinstance(node, ast.ImportFrom) and node.module}
    return {name.split(".")[0] for name in names}


def is_python(path):
    with open(path, "rb") as file:
        return path.endswith(".py") or re.match(rb"#!.*python", file.readline())


class Installed(unittest.TestCase):
    @classmethod
    def setUpClass(cls):
        folder = tempfile.TemporaryDirectory(prefix="uca-")
        cls.addClassCleanup(folder.cleanup)
        subprocess.run([f"{TOP}/tools/install.sh", folder.name], env={**os.environ, "PROGRAM": UCA, "DESTDIR": ""}, stdout=subprocess.DEVNULL, check=True)
        cls.prefix = os.path.realpath(folder.name)
        cls.top, cls.own = (f"{cls.prefix}/share/{it}" for it in ("doc/uca", "uca"))
        # a command that is a link counts as the script that it leads to
        cls.files = sorted({os.path.realpath(f"{at}/{name}") for at, _, names in os.walk(cls.prefix) for name in names})

    def test_scripts(self):
        """Each module that a script imports is Python's own, or is installed beside it."""
        scripts = [it for it in self.files if is_python(it)]
        self.assertGreater(len(scripts), 15)
        for path in scripts:
            folder, name = os.path.split(path)
            others = imported(path) - sys.stdlib_module_names - OF_PACKAGES.get(name, set())
            places = (folder, f"{self.own}/examples/books")
            lacking = sorted(it for it in others if not any(f"{at}/{it}.py" in self.files for at in places))
            with self.subTest(script=os.path.relpath(path, self.prefix)):
                self.assertEqual(lacking, [])

    def test_start(self):
        """Each script starts where it is installed, and so does the command `uca-files`. Nothing is written there."""
        scripts = [it for it in self.files if it.endswith((".py", ".sh")) and os.access(it, os.X_OK)]
        self.assertGreater(len(scripts), 15)
        for path in [f"{self.prefix}/bin/uca-files", *scripts]:
            with self.subTest(script=os.path.relpath(path, self.prefix)):
                done = subprocess.run([path, "--help"], cwd="/", capture_output=True, text=True, check=False)
                self.assertEqual((done.returncode, done.stderr), (0, ""))
                self.assertNotEqual(done.stdout, "")
        modules = sorted(it.removesuffix(".py") for it in os.listdir(f"{self.own}/languages"))
        subprocess.run([sys.executable, "-B", "-c", f"import {', '.join(modules)}"], cwd=f"{self.own}/languages", check=True)
        self.assertFalse([it for it, _, _ in os.walk(self.prefix) if it.endswith("__pycache__")])

    def test_own_folder(self):
        """What a command needs is not in the folder of documents: Debian lets an administrator take that away. No module is there twice."""
        modules = [os.path.basename(it) for it in self.files if it.endswith(".py")]
        self.assertEqual(sorted(modules), sorted({*modules}))
        self.assertTrue(os.path.realpath(f"{self.prefix}/bin/uca-files").startswith(f"{self.own}/"))
        self.assertEqual(os.path.realpath(f"{self.top}/languages"), f"{self.own}/languages")
        self.assertEqual(os.path.realpath(f"{self.top}/examples/books/general.book"), f"{self.own}/examples/books/general.book")

    def test_pages(self):
        """Each relative link and each picture of a page leads to a file or a folder that is installed."""
        count = 0
        for path in (it for it in self.files if it.endswith(".md")):
            with open(path, encoding="utf-8") as file:
                links = {one or other for one, other in LINKS.findall(file.read())}
            places = {it: os.path.normpath(f"{os.path.dirname(path)}/{it}") for it in links}
            lacking = sorted(it for it, place in places.items() if not (f"{place}/".startswith(f"{self.top}/") and os.path.exists(place)))
            count += len(links)
            with self.subTest(page=os.path.relpath(path, self.top)):
                self.assertEqual(lacking, [])
        self.assertGreater(count, 80)
