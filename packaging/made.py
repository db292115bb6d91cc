"""What the scripts of this folder share: the version, the built files, and folders whose content is the same each time.

The same sources and the same tools give the same bytes, in any folder and at any time. So each file gets the date of the version and one of two modes, and
what is compiled is compiled in a copy, which does not know where it is.
"""
import datetime
import os
import re
import shutil
import subprocess
import sys

TOP = os.path.dirname(os.path.dirname(os.path.realpath(__file__)))
DIST = f"{TOP}/dist"

# The day of the version. All files in the packages have this date.
RELEASED = datetime.datetime(2026, 11, 28, 12, tzinfo=datetime.timezone.utc)
SECONDS = int(RELEASED.timestamp())

LICENSES = ["LICENSE", "LICENSE-MIT", "LICENSE-APACHE", "NOTICE"]
PROGRAM, ARCHIVES = "crates/uca/out/uca", ["crates/uca_c/out/libuca_c.a", "crates/uca_command_in_memory/out/libuca_command_in_memory.a"]

# Debian's packages, by a command or a file that each brings.
BRINGS = {
    "gcc": "gcc",
    "make": "make",
    "binutils": "strip",
    "dpkg-dev": "dpkg-shlibdeps",
    "libsqlite3-dev": "/usr/include/sqlite3ext.h",
    "postgresql-server-dev-15": "/usr/include/postgresql/15/server/postgres.h",
}


def text_of(path):
    with open(f"{TOP}/{path}", encoding="utf-8") as file:
        return file.read()


def version():
    """The version of the library, which the other versions have to be."""
    return re.search(r"^VERSION = (\S+)$", text_of("bindings/c/Makefile"), re.M)[1]


def stop_without(*packages):
    """Ends the script with status 2 where one of these packages of Debian is not here."""
    is_here = lambda it: os.path.exists(it) if it.startswith("/") else shutil.which(it)
    lacking = [it for it in packages if not is_here(BRINGS[it])]
    if lacking:
        print(f"install Debian's {', '.join(lacking)} first", file=sys.stderr)
        sys.exit(2)


def environment():
    """The environment of each command: it has no settings of this user's, and the date of the version."""
    kept = {name: os.environ[name] for name in ("PATH", "HOME", "CARGO_HOME", "RUSTUP_HOME", "TMPDIR") if name in os.environ}
    fixed = {"LC_ALL": "C.UTF-8", "TZ": "UTC", "SOURCE_DATE_EPOCH": str(SECONDS), "DPKG_DEB_THREADS_MAX": "1", "PYTHONHASHSEED": "0"}
    return {**kept, **fixed}


def run(*words, **named):
    """What a command prints. A command that fails ends the script."""
    ran = subprocess.run([*map(str, words)], stdout=subprocess.PIPE, env={**environment(), **named.pop("more", {})}, check=False, **named)
    if ran.returncode:
        sys.exit(f"{' '.join(map(str, words))}: status {ran.returncode}\n{ran.stdout.decode(errors='replace')}")
    return ran.stdout.decode()


def build(*crates):
    """Proves and builds these crates, as far as they are not built from the sources as they are now."""
    if subprocess.run([f"{TOP}/tools/build.py", *crates], stdout=sys.stderr, check=False).returncode:
        sys.exit(1)


def copy_of_bindings(work):
    """A copy of bindings/ in a folder, with the library made there. Its compilers are told to write no name of the folder."""
    staged = f"{work}/staged"
    for archive in ARCHIVES:
        os.makedirs(f"{staged}/{os.path.dirname(archive)}")
        shutil.copy(f"{TOP}/{archive}", f"{staged}/{archive}")
    built = ("out", "build", "target", "dist", "__pycache__", "*.egg-info", "*.o", "*.so")
    shutil.copytree(f"{TOP}/bindings", f"{staged}/bindings", ignore=shutil.ignore_patterns(*built))
    run("make", "-s", "-C", f"{staged}/bindings/c", f"CFLAGS=-O2 -ffile-prefix-map={staged}=.")
    return f"{staged}/bindings"


def put(source, target, mode=0o644):
    """Copies a file, and makes the folders that it needs."""
    os.makedirs(os.path.dirname(target), exist_ok=True)
    shutil.copyfile(source, target)
    os.chmod(target, mode)


def write(target, text, mode=0o644):
    """Writes a text to a file, and makes the folders that it needs."""
    os.makedirs(os.path.dirname(target), exist_ok=True)
    with open(target, "w", encoding="utf-8", newline="\n") as file:
        file.write(text)
    os.chmod(target, mode)


def settle(folder):
    """Gives all files of a folder the date of the version, and modes that depend on no user's settings."""
    for at, folders, names in os.walk(folder, topdown=False):
        for path in (f"{at}/{name}" for name in [*names, *folders]):
            # a folder is done already, but for a link to one
            if os.path.islink(path):
                os.utime(path, (SECONDS, SECONDS), follow_symlinks=False)
            elif os.path.isfile(path):
                os.chmod(path, 0o755 if os.stat(path).st_mode & 0o100 else 0o644)
                os.utime(path, (SECONDS, SECONDS))
        os.chmod(at, 0o755)
        os.utime(at, (SECONDS, SECONDS))
