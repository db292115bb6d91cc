#!/usr/bin/env python3
"""Makes the wheel of the module for Python, with the library and the licenses inside.

    packaging/wheel.py [--out FOLDER]        dist/, unless another folder is named

The wheel has the tag of manylinux 2.17, if that is true: the library may need no other library than libc.so.6, and no symbol of a later glibc. Else nothing is made.
The library is proved and built first, as far as it is not (tools/build.py). It needs Debian's packages gcc, make, binutils, python3-setuptools and python3-wheel.
The last line names the file.
"""
import argparse
import os
import re
import shutil
import subprocess
import sys
import tempfile

import made

TAG, GLIBC = "manylinux_2_17_x86_64", (2, 17)


def python_with_setuptools():
    """A Python that can make wheels."""
    for it in (sys.executable, "/usr/bin/python3"):
        if os.path.exists(it) and not subprocess.run([it, "-c", "import setuptools, wheel"], stderr=subprocess.DEVNULL, check=False).returncode:
            return it
    print("install Debian's python3-setuptools and python3-wheel first", file=sys.stderr)
    sys.exit(2)


def false_tag(library):
    """Why the tag is not true of a library, or an empty text."""
    said = made.run("objdump", "-p", library)
    others = {*re.findall(r"^ +NEEDED +(\S+)$", said, re.M)} - {"libc.so.6"}
    versions = {tuple(map(int, it.split("."))) for it in re.findall(r"\bGLIBC_([0-9.]+)", said)}
    later = sorted(it for it in versions if it > GLIBC)
    return f"it needs {', '.join(sorted(others))}" if others else f"it needs symbols of glibc {later}" if later else ""


def make(out):
    """Makes the wheel, and returns the name of its file."""
    os.umask(0o022)
    made.stop_without("gcc", "make", "binutils")
    python = python_with_setuptools()
    made.build("uca_c", "uca_command_in_memory")
    with tempfile.TemporaryDirectory(prefix="uca-wheel-") as work:
        bindings = made.copy_of_bindings(work)
        for name in made.LICENSES:
            made.put(f"{made.TOP}/{name}", f"{work}/staged/{name}")
        library = f"{work}/libuca.so.1"
        made.put(f"{bindings}/c/out/libuca.so.1", library, 0o755)
        made.run("strip", "--strip-unneeded", library)
        if why := false_tag(library):
            sys.exit(f"the tag {TAG} is not true of the library: {why}")
        made.settle(work)
        words = ["setup.py", "-q", "bdist_wheel", "--plat-name", TAG, "--dist-dir", f"{work}/wheels"]
        made.run(python, *words, cwd=f"{bindings}/python", stderr=subprocess.DEVNULL, more={"UCA_LIBRARY": library})
        (name,) = os.listdir(f"{work}/wheels")
        os.makedirs(out, exist_ok=True)
        shutil.copyfile(f"{work}/wheels/{name}", f"{out}/{name}")
    return name


def main():
    parser = argparse.ArgumentParser(description=__doc__, formatter_class=argparse.RawDescriptionHelpFormatter)
    parser.add_argument("--out", default=made.DIST, metavar="FOLDER", help="the folder of the wheel")
    given = parser.parse_args()
    print(f"{given.out}/{make(os.path.abspath(given.out))}")


if __name__ == "__main__":
    sys.dont_write_bytecode = True
    main()
