"""Checks of the module for Python. Part of bindings.py."""
import os
import shutil
import subprocess
import sys
import zipfile

from bindings_shared import BOOK, C, LINES, NotHere, PYTHON, SETTINGS, content, files_for, fingerprint_of, found_lines, need, numbered, options, run, same

# Programs over the lines of standard input. The arguments are a table, a data file, a weighting, a depth, a fingerprint and a book; empty ones are none.
COLLATOR = """
import sys, uca
table, data, weighting, depth, fingerprint, book, *texts = sys.argv[1:]
settings = {"weighting": weighting or None, "identical": "identical" in depth, "numeric": "numeric" in depth}
collator = uca.Collator(table, data, **settings, book=book or None, fingerprint=fingerprint)
lines = sys.stdin.buffer.read().removesuffix(b"\\n").split(b"\\n")
"""
SORTER = COLLATOR + """
sys.stdout.buffer.write(b"".join(it + b"\\n" for it in sorted(lines, key=collator.key)))
"""
# Prints all keys, and then what lookups by some texts find.
LOOKER = COLLATOR + """
keys = [collator.key(it) for it in lines]
for it in keys:
    print(it.hex().upper())
for text in texts:
    ranges = [collator.prefix_range(text), collator.range(text, levels=1), collator.range(text, levels=2)]
    for low, high in ranges:
        print(" ".join(str(number) for number, key in enumerate(keys, 1) if low <= key < high))
"""


def sorted_like(program):
    """Lines sorted by the keys of the module, whole or compact, are in the order of `uca sort`, and the fingerprint is that of the files."""

    def check(work):
        if not os.path.exists(program):
            raise NotHere(f"there is no {program}")
        for lines in LINES:
            for setting in SETTINGS:
                files = files_for(work, setting)
                wanted = run([program, "sort", *options(setting), *files], input=numbered(lines))
                weighting, depth = (*setting, "weights")[:2] if setting else ("", "weights")
                for book in (None, BOOK):
                    words = [sys.executable, "-c", SORTER, *files, weighting, depth, fingerprint_of(*files, weighting or "shifted", depth, book), book or ""]
                    found = run(words, input=numbered(lines), env=python_environment())
                    same(found, wanted, f"order of {lines}, {setting}, {book}")

    return check


def python_environment():
    return {**os.environ, "PYTHONPATH": PYTHON, "UCA_LIBRARY": f"{C}/out/libuca.so.1", "PYTHONDONTWRITEBYTECODE": "1"}


def python(work):
    run([sys.executable, "-W", "error", "-m", "unittest", "discover", "-s", f"{PYTHON}/tests"], env=python_environment())


def python_valgrind(work):
    """The module's tests of rooms for keys, threads, signals and forks. Each read and write outside of what malloc gave is an error."""
    need("valgrind")
    # Not of leaks and undefined values, since CPython itself has both when it ends.
    words = ["valgrind", "-q", "--error-exitcode=9", "--leak-check=no", "--undef-value-errors=no", "--fair-sched=yes", sys.executable]
    environment = {**python_environment(), "PYTHONMALLOC": "malloc", "UCA_STRESS_SECONDS": "4"}
    tried = [f"test_uca.{it}" for it in ("Keys", "CompactKeys", "Beginnings", "Orders", "Shares", "Ranges", "Values", "Sharing", "Upgrades")]
    run([*words, "-m", "unittest", *tried, "test_stress"], env=environment, cwd=f"{PYTHON}/tests")


def python_with_wheel():
    """A Python that can build a wheel without a network."""
    for it in (sys.executable, "/usr/bin/python3"):
        if os.path.exists(it) and not subprocess.run([it, "-c", "import setuptools, wheel, pip"], stderr=subprocess.DEVNULL).returncode:
            return it
    raise NotHere("no Python here has pip, setuptools and wheel")


def wheel(work):
    """A wheel has the library inside, and the module in it passes the tests."""
    python = python_with_wheel()
    pip = [python, "-m", "pip", "-q", "--disable-pip-version-check", "--no-cache-dir"]
    source, wheels, folder = (f"{work}/wheel/{it}" for it in ("source", "wheels", "installed"))
    shutil.copytree(PYTHON, source, ignore=shutil.ignore_patterns("build", "*.egg-info", "__pycache__"))
    run([*pip, "wheel", "--no-index", "--no-deps", "--no-build-isolation", "-w", wheels, source], env=python_environment())
    made = os.listdir(wheels)
    same(len(made), 1, f"wheels {made}")
    if "uca/libuca.so.1" not in zipfile.ZipFile(f"{wheels}/{made[0]}").namelist():
        raise AssertionError(f"{made[0]} has no library inside")
    run([*pip, "install", "--no-index", "--no-deps", "--target", folder, f"{wheels}/{made[0]}"])
    environment = {**python_environment(), "PYTHONPATH": folder, "UCA_LIBRARY": "", "UCA_STRESS_SECONDS": "1"}
    run([python, "-W", "error", "-m", "unittest", "discover", "-s", f"{PYTHON}/tests"], env=environment, cwd=wheels)


def python_words(work, table, data, book, keys, order, lookups):
    arguments = [table, data, "shifted", "weights", fingerprint_of(table, data, book=book), book or ""]
    given = {"input": content(f"{work}/words.txt"), "env": python_environment()}
    same(run([sys.executable, "-c", SORTER, *arguments], **given).decode(), order, f"order over {table} by {book}")
    found = run([sys.executable, "-c", LOOKER, *arguments, *(text for text, _ in lookups)], **given).decode()
    same(found, keys + found_lines(lookups), f"keys and lookups over {table} by {book}")
