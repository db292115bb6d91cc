#!/usr/bin/env python3
"""Compiles and runs the examples of docs/OTHER_LANGUAGES.md. It installs nothing.

    tests/by_hand/other_languages.py [--uca PATH]        crates/uca/out/uca, unless another program is named

First prove and build the static library: `tools/build.py uca_c uca_command_in_memory`. The script installs the library for C to a temporary folder, and takes each file of the page from it. Each
program sorts files of examples/, and has to print what `uca sort` prints. It has to end with an error, and print nothing, for a table that is rejected, and for a line
that is not UTF-8.

It needs Debian's packages gcc, make and pkgconf. An example is run where its language is: golang-go, a JDK of version 22 or a later one, perl. The last line is
`N passed, M failed`, and how many were not run if there are any.
"""
import argparse
import glob
import os
import re
import shutil
import subprocess
import sys
import tempfile

import packages

TOP = os.path.dirname(os.path.dirname(os.path.dirname(os.path.realpath(__file__))))
PAGE, EXAMPLES = "docs/OTHER_LANGUAGES.md", f"{TOP}/examples"

NEEDS = ["gcc", "make", "pkgconf"]
WANTS = ["golang-go"]

LINES = ["lines.txt", "words_danish.txt", "words_spanish.txt", "words_swedish.txt"]
BAD_TABLE, OLDEST_JAVA = b"@version 1\n61 ; [.1C47.0020.0002]\n", 22


class NotHere(Exception):
    """A language is not here."""


def run(words, **named):
    ran = subprocess.run(words, stdout=subprocess.PIPE, stderr=subprocess.PIPE, **named, check=False)
    if ran.returncode:
        raise AssertionError(f"{' '.join(words)}: status {ran.returncode}\n{(ran.stdout + ran.stderr).decode(errors='replace')[-2000:]}")
    return ran.stdout


def files_of_page():
    """Each file that the page shows, by its name."""
    with open(f"{TOP}/{PAGE}", encoding="utf-8") as file:
        return dict(re.findall(r"^File `([^`\n]+)`:\n\n```[a-z]*\n(.*?)^```$", file.read(), re.M | re.S))


def installed(work):
    """The environment in which the library is found that is installed to a folder."""
    prefix, library = f"{work}/prefix", f"{TOP}/bindings/c"
    run(["make", "-s", "-C", library])
    run(["make", "-s", "-C", library, "install", f"PREFIX={prefix}"])
    return {**os.environ, "PKG_CONFIG_PATH": f"{prefix}/lib/pkgconfig", "LD_LIBRARY_PATH": f"{prefix}/lib", "HOME": work, "GOPATH": f"{work}/gopath", "GOPROXY": "off"}


def go(folder, environment):
    if not shutil.which("go"):
        raise NotHere("there is no go (Debian's golang-go)")
    run(["go", "vet", "."], cwd=folder, env=environment)
    run(["go", "build", "-o", "sort_lines", "."], cwd=folder, env=environment)
    return [f"{folder}/sort_lines"]


def java(folder, _):
    for it in [shutil.which("java"), *sorted(glob.glob("/usr/lib/jvm/*/bin/java"))]:
        said = subprocess.run([it, "-version"], stderr=subprocess.PIPE, text=True, check=False).stderr if it and os.path.exists(f"{os.path.dirname(os.path.realpath(it))}/javac") else ""
        found = re.search(r'version "(\d+)', said)
        if found and int(found[1]) >= OLDEST_JAVA:
            run([f"{os.path.dirname(os.path.realpath(it))}/javac", "-Xlint:all,-restricted", "-Werror", "-d", f"{folder}/classes", f"{folder}/SortLines.java"])
            return [it, "--enable-native-access=ALL-UNNAMED", "-cp", f"{folder}/classes", "SortLines"]
    raise NotHere(f"there is no JDK of version {OLDEST_JAVA} or a later one")


def perl(folder, environment):
    if not shutil.which("perl") or subprocess.run(["perl", "-MExtUtils::MakeMaker", "-e", "1"], stderr=subprocess.DEVNULL, check=False).returncode:
        raise NotHere("there is no perl with its modules")
    run(["perl", "Makefile.PL"], cwd=folder, env=environment)
    run(["make", "-s"], cwd=folder, env=environment)
    return ["perl", f"-Mblib={folder}", f"{folder}/sort_lines.pl"]


def sorts(words, environment, program, table, data):
    """The program prints each file in the order of `uca sort`."""
    for name in LINES:
        with open(f"{EXAMPLES}/{name}", "rb") as file:
            lines = file.read()
        wanted = run([program, "sort", table, data], input=lines)
        found = run([*words, table, data], input=lines, env=environment)
        if found != wanted:
            raise AssertionError(f"{name}: {found!r:.300}\n  in place of {wanted!r:.300}")


def rejects(words, environment, table, data, lines):
    """The program ends with an error, and prints nothing."""
    ran = subprocess.run([*words, table, data], input=lines, env=environment, stdout=subprocess.PIPE, stderr=subprocess.PIPE, check=False)
    if ran.returncode in (0, -6, -11) or ran.stdout or not ran.stderr:
        raise AssertionError(f"status {ran.returncode}, {ran.stdout!r:.300}, {ran.stderr!r:.300}")


def checks_of(name, build, work, environment, program):
    """The checks of a language: what each is, and a call."""
    table, data = f"{EXAMPLES}/table.txt", f"{EXAMPLES}/data.txt"
    words = build(f"{work}/{name}", environment)
    bad = f"{work}/bad_table.txt"
    with open(bad, "wb") as file:
        file.write(BAD_TABLE)
    return {
        "sorts as uca does": lambda: sorts(words, environment, program, table, data),
        "sorts by another table": lambda: sorts(words, environment, program, f"{EXAMPLES}/tailored.txt", data),
        "rejects a table": lambda: rejects(words, environment, bad, data, b"a\n"),
        "rejects what is not UTF-8": lambda: rejects(words, environment, table, data, b"b\na\xFF\n"),
        "rejects a long run of marks": lambda: rejects(words, environment, table, data, ("a" + 65 * "\u0301" + "\n").encode()),
    }


def main():
    parser = argparse.ArgumentParser(description=__doc__, formatter_class=argparse.RawDescriptionHelpFormatter)
    parser.add_argument("--uca", default=f"{TOP}/crates/uca/out/uca", help="the program")
    program = os.path.abspath(parser.parse_args().uca)
    packages.stop_without(NEEDS)
    passed = failed = skipped = 0
    with tempfile.TemporaryDirectory(prefix="uca-languages-") as work:
        environment = installed(work)
        for path, text in files_of_page().items():
            os.makedirs(os.path.dirname(f"{work}/{path}"), exist_ok=True)
            with open(f"{work}/{path}", "w", encoding="utf-8") as file:
                file.write(text)
        for name, build in (("go", go), ("java", java), ("perl", perl)):
            try:
                checks = checks_of(name, build, work, environment, program)
            except NotHere as error:
                print(f"{name}: not run: {error}", flush=True)
                skipped += 1
                continue
            except AssertionError as error:
                print(f"failed: {name}: {error}", flush=True)
                failed += 1
                continue
            for what, check in checks.items():
                try:
                    check()
                    passed += 1
                except AssertionError as error:
                    failed += 1
                    print(f"failed: {name} {what}: {error}", flush=True)
    print(f"{passed} passed, {failed} failed" + (f", {skipped} not run" if skipped else ""))
    return 1 if failed else 0


if __name__ == "__main__":
    sys.dont_write_bytecode = True
    sys.exit(main())
