"""Which of Debian's packages are here: each by a command or a file that it brings."""
import os
import shutil
import sys

OLD_KEYS = "/usr/share/perl/5.36/Unicode/Collate/allkeys.txt"
NEW_KEYS = "/usr/share/unicode/allkeys.txt"
WORDS = "/usr/share/dict"

# The lists of words, by their packages.
LISTS = {
    "wamerican-large": "american-english-large",
    "wngerman": "ngerman",
    "wfrench": "french",
    "wspanish": "spanish",
    "wpolish": "polish",
    "wportuguese": "portuguese",
    "wswedish": "swedish",
    "wdanish": "danish",
    "wcatalan": "catalan",
}

BRINGS = {
    "gcc": "gcc",
    "g++": "g++",
    "make": "make",
    "pkgconf": "pkg-config",
    "valgrind": "valgrind",
    "sqlite3": "sqlite3",
    "libsqlite3-dev": "/usr/include/sqlite3ext.h",
    "postgresql": "psql",
    "postgresql-server-dev-15": "/usr/include/postgresql/15/server/postgres.h",
    "perl-modules-5.36": OLD_KEYS,
    "unicode-data": NEW_KEYS,
    "unicode-cldr-core": "/usr/share/unicode/cldr/common/collation/root.xml",
    "libicu-dev": "/usr/include/unicode/ucol.h",
    "dpkg-dev": "dpkg-shlibdeps",
    "lintian": "lintian",
    "mmdebstrap": "mmdebstrap",
    "cargo": "cargo",
    "golang-go": "go",
    "iso-codes": "/usr/share/iso-codes/json/iso_3166-1.json",
    "chromium": "chromium",
    "chromium-driver": "chromedriver",
    "firefox-esr": "firefox-esr",
    "nodejs": "node",
    "binaryen": "wasm-opt",
    "wamerican": f"{WORDS}/american-english",
    **{package: f"{WORDS}/{name}" for package, name in LISTS.items()},
}


def missing(names):
    """Those of some packages that are not here."""
    is_here = lambda it: os.path.exists(it) if it.startswith("/") else shutil.which(it)
    return [it for it in names if not is_here(BRINGS[it])]


def stop_without(names):
    """Ends the script with status 2 where one of these packages is not here."""
    if lacking := missing(names):
        print(f"not run: install Debian's {', '.join(lacking)}")
        sys.exit(2)
