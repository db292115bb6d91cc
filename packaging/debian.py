#!/usr/bin/env python3
"""Makes the packages for Debian and what comes from it.

    packaging/debian.py [--out FOLDER] [NAME ..]        dist/, and all packages, unless others are named

| Package | What it has |
|---|---|
| uca | the program, `uca-files`, manual pages, completions, and the pages for users |
| libuca1 | the library for C, libuca.so.1 |
| libuca-dev | uca.h, libuca.a and uca.pc |
| python3-uca | the module for Python |
| libsqlite3-mod-uca | the extension of SQLite |
| postgresql-15-uca | the extension of PostgreSQL 15 |

The program and the library are proved and built first, as far as they are not (tools/build.py). No rights are needed. It needs Debian's packages gcc, make, binutils
and dpkg-dev, and for the last two packages libsqlite3-dev and postgresql-server-dev-15. A line for each package that is made names its file.
"""
import argparse
import dataclasses
import glob
import gzip
import hashlib
import os
import re
import shutil
import sys
import tempfile
from typing import Callable

import made

REVISION = "1"
ARCHITECTURE, TRIPLET = "amd64", "x86_64-linux-gnu"
MAINTAINER = "The uca authors <uca@example.org>"
SERVER = "15"
ANY_PYTHON = "#!/usr/bin/env python3\n"

WHAT_IT_IS = """Sort keys and comparison of texts in any language, by a table of weights
such as Unicode's allkeys.txt. The library has machine-checked proofs that
its keys are those of the Unicode Collation Algorithm (UTS #10)."""


@dataclasses.dataclass
class Package:
    """A package: its name and section, what it says of itself, what it needs, and the call that fills its folder."""

    name: str
    section: str
    title: str
    description: str
    fill: Callable
    depends: str = ""
    recommends: str = ""
    suggests: str = ""
    architecture: str = ARCHITECTURE
    multi_arch: str = ""
    # the files whose libraries are added to what it needs
    binaries: tuple = ()
    # more files for dpkg, by their names: a text, and whether it is run
    control: dict = dataclasses.field(default_factory=dict)


def full_version():
    return f"{made.version()}-{REVISION}"


def fill_program(root, _):
    """What tools/install.sh installs, at Debian's places. The licenses are in Debian's file of copyright, to which the links of pages lead. Scripts are run by
    Debian's Python, whichever is first on the path."""
    made.run(f"{made.TOP}/tools/install.sh", "/usr", more={"DESTDIR": root})
    documents = f"{root}/usr/share/doc/uca"
    os.remove(f"{documents}/installed_files")
    made.run("strip", "--strip-unneeded", f"{root}/usr/bin/uca")
    move(f"{root}/usr/share/zsh/site-functions", f"{root}/usr/share/zsh/vendor-completions")
    for path in glob.glob(f"{root}/usr/share/uca/**/*.py", recursive=True):
        with open(path, encoding="utf-8") as file:
            text = file.read()
        if text.startswith(ANY_PYTHON):
            made.write(path, text.replace(ANY_PYTHON, "#!/usr/bin/python3\n", 1), os.stat(path).st_mode & 0o777)
    for name in made.LICENSES:
        os.remove(f"{documents}/{name}")
    for name in ("LICENSE", "NOTICE"):
        os.symlink("copyright", f"{documents}/{name}")
    for name in ("uca", "uca-files"):
        compress(f"{root}/usr/share/man/man1/{name}.1")


def move(old, new):
    """Moves a file or a folder, and takes away the folder that it leaves empty."""
    os.makedirs(os.path.dirname(new), exist_ok=True)
    shutil.move(old, new)
    if not os.listdir(os.path.dirname(old)):
        os.rmdir(os.path.dirname(old))


def compress(path):
    """Puts PATH.gz in the place of a file."""
    with open(path, "rb") as file:
        content = file.read()
    with open(f"{path}.gz", "wb") as file:
        file.write(gzip.compress(content, 9, mtime=0))
    os.remove(path)


def fill_from_library(*names):
    """The call that takes these of the files which bindings/c's Makefile installs. The shared library loses the names that only a debugger needs."""

    def fill(root, bindings):
        with tempfile.TemporaryDirectory(prefix="uca-library-") as whole:
            made.run("make", "-s", "-C", f"{bindings}/c", "install", "PREFIX=/usr", f"LIBDIR=/usr/lib/{TRIPLET}", f"DESTDIR={whole}")
            for name in names:
                source, target = f"{whole}/usr/{name}", f"{root}/usr/{name}"
                os.makedirs(os.path.dirname(target), exist_ok=True)
                shutil.copy(source, target, follow_symlinks=False)
                if name.endswith(".so.1"):
                    os.chmod(target, 0o644)
                    made.run("strip", "--strip-unneeded", target)

    return fill


def fill_python(root, bindings):
    for name in ("__init__.py", "py.typed"):
        made.put(f"{bindings}/python/uca/{name}", f"{root}/usr/lib/python3/dist-packages/uca/{name}")


def fill_sqlite(root, bindings):
    made.stop_without("libsqlite3-dev")
    made.run("make", "-s", "-C", f"{bindings}/sqlite")
    target = f"{root}/usr/lib/{TRIPLET}/sqlite3/uca.so"
    made.put(f"{bindings}/sqlite/out/uca.so", target)
    made.run("strip", "--strip-unneeded", target)


def fill_postgresql(root, bindings):
    made.stop_without("postgresql-server-dev-15")
    words = ["make", "-s", "-C", f"{bindings}/postgresql", f"PG_CONFIG=/usr/lib/postgresql/{SERVER}/bin/pg_config"]
    made.run(*words, f"COPT=-ffile-prefix-map={os.path.dirname(bindings)}=.")
    made.run(*words, "install", f"DESTDIR={root}")
    made.run("strip", "--strip-unneeded", f"{root}/usr/lib/postgresql/{SERVER}/lib/uca.so")


# dpkg removes only what it installed, so the compiled files of a module are made and removed by Debian's own scripts.
COMPILES = "#!/bin/sh\nset -e\nif command -v py3compile > /dev/null 2>&1; then\n    py3compile -p python3-uca\nfi\n"
CLEANS = """#!/bin/sh
set -e
if command -v py3clean > /dev/null 2>&1; then
    py3clean -p python3-uca
else
    rm -rf /usr/lib/python3/dist-packages/uca/__pycache__
fi
"""

PACKAGES = [
    Package(
        "uca",
        "text",
        "sort text and make sort keys by the Unicode Collation Algorithm",
        """The weights come from a table that the user keeps, such as Unicode's
allkeys.txt, and rules can change the order. Machine-checked proofs say
that keys, sorting, tailorings and audits do what UTS #10 says.
.
uca-files makes the table of a language, once, from the packages
unicode-data and unicode-cldr-core.""",
        fill_program,
        binaries=("usr/bin/uca",),
        # the program needs none of them, and uca-files all
        recommends="python3 (>= 3.10), unicode-data, unicode-cldr-core",
    ),
    Package(
        "libuca1",
        "libs",
        "Unicode collation with proved contracts, shared library",
        WHAT_IT_IS,
        fill_from_library(f"lib/{TRIPLET}/libuca.so.1"),
        binaries=(f"usr/lib/{TRIPLET}/libuca.so.1",),
        multi_arch="same",
        control={"triggers": ("activate-noawait ldconfig\n", False), "shlibs": (f"libuca 1 libuca1 (>= {made.version()})\n", False)},
    ),
    Package(
        "libuca-dev",
        "libdevel",
        "Unicode collation with proved contracts, development files",
        f"{WHAT_IT_IS}\n.\nThis package has the header uca.h, the static library, and uca.pc for\npkg-config.",
        fill_from_library("include/uca.h", *(f"lib/{TRIPLET}/{it}" for it in ("libuca.a", "libuca.so", "pkgconfig/uca.pc"))),
        depends=f"libuca1 (= {full_version()})",
        multi_arch="same",
    ),
    Package(
        "python3-uca",
        "python",
        "Unicode collation with proved contracts, module for Python 3",
        f"{WHAT_IT_IS}\n.\nThe module calls the library by ctypes.",
        fill_python,
        depends=f"libuca1 (>= {made.version()}), python3 (>= 3.8)",
        architecture="all",
        control={"postinst": (COMPILES, True), "prerm": (CLEANS, True)},
    ),
    Package(
        "libsqlite3-mod-uca",
        "libs",
        "Unicode collation with proved contracts, extension of SQLite",
        f"{WHAT_IT_IS}\n.\nIn SQLite: .load /usr/lib/{TRIPLET}/sqlite3/uca",
        fill_sqlite,
        depends="libsqlite3-0 (>= 3.34)",
        suggests="uca",
        binaries=(f"usr/lib/{TRIPLET}/sqlite3/uca.so",),
    ),
    Package(
        f"postgresql-{SERVER}-uca",
        "database",
        f"Unicode collation with proved contracts, extension of PostgreSQL {SERVER}",
        f"{WHAT_IT_IS}\n.\nThe server reads the table when it starts: see the page BINDINGS.md.",
        fill_postgresql,
        depends=f"postgresql-{SERVER}",
        suggests="uca",
        binaries=(f"usr/lib/postgresql/{SERVER}/lib/uca.so",),
    ),
]


def copyright_text():
    """What Debian wants to know of the licenses: the MIT license as it stands, and where Debian has the other one."""
    indented = lambda text: "".join(f" {line}\n" if line.strip() else " .\n" for line in text.strip().split("\n"))
    mit = made.text_of("LICENSE-MIT").split("\n\n", 2)[2]
    return f"""Format: https://www.debian.org/doc/packaging-manuals/copyright-format/1.0/
Upstream-Name: uca
Comment:
{indented(made.text_of("NOTICE"))}
Files: *
Copyright: 2026 The uca authors
License: Expat or Apache-2.0

License: Expat
{indented(mit)}
License: Apache-2.0
 On Debian systems, the full text of the Apache License, Version 2.0 is in
 /usr/share/common-licenses/Apache-2.0.
"""


def changelog_text():
    return (
        f"uca ({full_version()}) unstable; urgency=medium\n\n  * The changes are in /usr/share/doc/uca/CHANGELOG.md of the package uca.\n\n"
        f" -- {MAINTAINER}  {made.RELEASED:%a, %d %b %Y %H:%M:%S +0000}\n"
    )


def add_documents(root, package):
    """The page of licenses, the changes, and the page of the calls for those packages that have calls."""
    documents = f"{root}/usr/share/doc/{package.name}"
    made.write(f"{documents}/copyright", copyright_text())
    made.write(f"{documents}/changelog.Debian", changelog_text())
    compress(f"{documents}/changelog.Debian")
    if package.name != "uca" and package.name != "libuca1":
        made.put(f"{made.TOP}/docs/BINDINGS.md", f"{documents}/BINDINGS.md")


def libraries_of(root, package):
    """The packages of the libraries that its binaries are linked with, as Debian's own script finds them."""
    if not package.binaries:
        return ""
    with tempfile.TemporaryDirectory(prefix="uca-control-") as work:
        made.write(f"{work}/debian/control", f"Source: uca\n\nPackage: {package.name}\nArchitecture: any\n")
        words = ["dpkg-shlibdeps", "-O", "--ignore-missing-info", *(f"-e{root}/{it}" for it in package.binaries)]
        return re.search(r"^shlibs:Depends=(.*)$", made.run(*words, cwd=work), re.M)[1]


def installed_size(root):
    """In KiB, as Debian counts: each file is rounded up, and all else counts 1."""
    sizes = 0
    for at, folders, names in os.walk(root):
        for name in [*folders, *names]:
            path = f"{at}/{name}"
            sizes += -(-os.path.getsize(path) // 1024) if os.path.isfile(path) and not os.path.islink(path) else 1
    return sizes


def control_text(root, package):
    needs = ", ".join(it for it in (package.depends, libraries_of(root, package)) if it)
    fields = {
        "Package": package.name,
        "Source": "uca" if package.name != "uca" else "",
        "Version": full_version(),
        "Architecture": package.architecture,
        "Maintainer": MAINTAINER,
        "Installed-Size": str(installed_size(root)),
        "Depends": needs,
        "Recommends": package.recommends,
        "Suggests": package.suggests,
        "Section": package.section,
        "Priority": "optional",
        "Multi-Arch": package.multi_arch,
    }
    lines = [f"{name}: {text}\n" for name, text in fields.items() if text]
    return "".join(lines) + f"Description: {package.title}\n" + "".join(f" {line}\n" for line in package.description.split("\n"))


def sums(root):
    """The sums of all installed files, as dpkg keeps them."""
    found = []
    for at, folders, names in os.walk(root):
        folders.sort()
        for path in (f"{at}/{name}" for name in sorted(names)):
            if not os.path.islink(path):
                with open(path, "rb") as file:
                    found.append(f"{hashlib.md5(file.read()).hexdigest()}  {os.path.relpath(path, root)}\n")
    return "".join(found)


def pack(package, bindings, work, out):
    """Makes the file of a package in the folder `out`, and returns its name."""
    root = f"{work}/{package.name}"
    os.makedirs(root)
    package.fill(root, bindings)
    add_documents(root, package)
    control = {"control": (control_text(root, package), False), "md5sums": (sums(root), False), **package.control}
    for name, (text, is_run) in control.items():
        made.write(f"{root}/DEBIAN/{name}", text, 0o755 if is_run else 0o644)
    made.settle(root)
    name = f"{package.name}_{full_version()}_{package.architecture}.deb"
    made.run("dpkg-deb", "--root-owner-group", "-Zxz", "--build", root, f"{out}/{name}")
    return name


def make(names, out):
    """Makes these packages, and returns the names of their files."""
    os.umask(0o022)
    made.stop_without("gcc", "make", "binutils", "dpkg-dev")
    has_library = {*names} != {"uca"}
    made.build(*(["uca"] if "uca" in names else []), *(["uca_c", "uca_command_in_memory"] if has_library else []))
    os.makedirs(out, exist_ok=True)
    with tempfile.TemporaryDirectory(prefix="uca-debian-") as work:
        bindings = made.copy_of_bindings(work) if has_library else ""
        return [pack(it, bindings, work, out) for it in PACKAGES if it.name in names]


def main():
    parser = argparse.ArgumentParser(description=__doc__, formatter_class=argparse.RawDescriptionHelpFormatter)
    known = [it.name for it in PACKAGES]
    parser.add_argument("names", nargs="*", metavar="NAME", help=", ".join(known))
    parser.add_argument("--out", default=made.DIST, metavar="FOLDER", help="the folder of the packages")
    given = parser.parse_args()
    if unknown := {*given.names} - {*known}:
        parser.error(f"no package is named {', '.join(sorted(unknown))}: they are {', '.join(known)}")
    for name in make(given.names or known, os.path.abspath(given.out)):
        print(f"{given.out}/{name}")


if __name__ == "__main__":
    sys.dont_write_bytecode = True
    main()
