#!/usr/bin/env python3
"""Makes all packages, and installs and uses each where nothing else of uca is. It installs nothing on this machine.

    tests/by_hand/package_installs.py [--uca PATH] [--root FOLDER] [PART ..]

First prove and build the program and the library: `tools/build.py uca uca_c uca_command_in_memory`. The parts are

- `release`: packaging/release.py makes the same bytes twice: here, and in a copy of the repository at another place, with other times, another umask and another user's
  settings. All versions are one. Debian's lintian finds nothing but what LINTIAN_KNOWN says.
- `debian`: the packages in a fresh Debian system, which mmdebstrap makes in a temporary folder. The program alone comes first, without a network. Then it comes by the
  first screen of README, with what it recommends. Within a minute names are in the order of Polish, and then lines in those of Chinese and of German phone books. The
  other packages come with what they need: C by pkg-config, Python with all tests of the module, SQLite, and a server of PostgreSQL. Each makes the keys of `uca keys`.
  After purging no file is left.
- `wheel`: the wheel in a virtual environment, without a network: all tests of the module, its licenses, its version and its tag.
- `crate`: the crate for Rust, without a network: its tests, `cargo clippy`, the documentation, the programs of docs/BINDINGS.md, and two programs that use it.

`debian` needs to be run as root, and a network for Debian's own packages. --root names a folder that mmdebstrap has filled before, which is copied. The program that the
packages have is always the one in crates/uca/out, and --uca names the one that they are compared with. The last line is `N passed, M failed`, and how many parts were
not run if there are any.
"""
import argparse
import contextlib
import glob
import os
import re
import resource
import shutil
import subprocess
import sys
import tempfile
import time
import zipfile

import packages

TOP = os.path.dirname(os.path.dirname(os.path.dirname(os.path.realpath(__file__))))
sys.path.append(f"{TOP}/tools/pages")
import pages  # noqa: E402

EXAMPLES, TRIPLET = f"{TOP}/examples", "x86_64-linux-gnu"

NEEDS = ["gcc", "make", "dpkg-dev", "libsqlite3-dev", "postgresql-server-dev-15", "cargo"]
WANTS = ["mmdebstrap", "lintian"]

LINES = ["lines.txt", "words_danish.txt", "words_spanish.txt", "words_swedish.txt"]
PACKAGES = ["uca", "libuca1", "libuca-dev", "python3-uca", "libsqlite3-mod-uca", "postgresql-15-uca"]
MIRROR, SUITE = "http://deb.debian.org/debian", "bookworm"
# what the use of the packages needs beside what they depend on
USERS = ["gcc", "libc6-dev", "pkg-config", "sqlite3", "man-db"]

# Lines in the order of a language. By pinyin these are bei, da and zhong. In German phone books ü is ue, and in dictionaries u.
ORDERED = {"zh": ["北京", "大学", "中国"], "de-u-co-phonebk": ["Mueller", "Müller", "Muffel", "Muhr"], "de": ["Mueller", "Muffel", "Muhr", "Müller"]}
MOST_SECONDS = 60

# Tags of lintian that stay, and why.
LINTIAN_KNOWN = {
    "initial-upload-closes-no-bugs": "these packages are not uploaded to Debian",
    "wrong-name-for-upstream-changelog": "README.md has a link to CHANGELOG.md",
}


class NotHere(Exception):
    """Something that a part needs is not here."""


def run(words, **named):
    """What a command prints. It fails if its status is not 0."""
    ran = subprocess.run(words, stdout=subprocess.PIPE, stderr=subprocess.PIPE, check=False, **named)
    if ran.returncode:
        raise AssertionError(f"{' '.join(words)}: status {ran.returncode}\n{(ran.stdout + ran.stderr).decode(errors='replace')[-3000:]}")
    return ran.stdout


def same(found, wanted, what):
    if found != wanted:
        raise AssertionError(f"{what}: {found!r:.500}\n  in place of {wanted!r:.500}")


def holds(fact, what):
    if not fact:
        raise AssertionError(what)


def content(path):
    with open(path, "rb") as file:
        return file.read()


def write(path, text, mode=0o644):
    os.makedirs(os.path.dirname(path), exist_ok=True)
    with open(path, "w", encoding="utf-8") as file:
        file.write(text)
    os.chmod(path, mode)


class Tests:
    """The parts, and what they share: the program to compare with, a temporary folder, and the packages once they are made."""

    def __init__(self, program, work, root):
        self.program, self.work, self.root = program, work, root
        self.dist, self.passed, self.failed, self.skipped = f"{work}/dist", 0, 0, 0

    def check(self, name, call, *given):
        try:
            call(*given)
            self.passed += 1
        except AssertionError as error:
            self.failed += 1
            print(f"failed: {name}: {error}", flush=True)

    def file(self, pattern):
        """The one file of the release that a pattern names."""
        found = glob.glob(f"{self.dist}/{pattern}")
        same(len(found), 1, f"files like {pattern}")
        return found[0]

    def keys(self, name):
        """What `uca keys` prints of a file of examples/."""
        return run([self.program, "keys", f"{EXAMPLES}/table.txt", f"{EXAMPLES}/data.txt"], input=content(f"{EXAMPLES}/{name}"))

    def sorted_lines(self, name):
        return run([self.program, "sort", f"{EXAMPLES}/table.txt", f"{EXAMPLES}/data.txt"], input=content(f"{EXAMPLES}/{name}"))


# ---- The release


def made_release(tests):
    """Makes the packages that all parts use."""
    run([f"{TOP}/packaging/release.py", "--out", tests.dist])
    run(["sha256sum", "--check", "--strict", "--quiet", "SHA256SUMS"], cwd=tests.dist)
    listed = {line.split()[1] for line in content(f"{tests.dist}/SHA256SUMS").decode().splitlines()}
    same({*os.listdir(tests.dist)}, listed | {"SHA256SUMS"}, "the files of the release")
    same(len(listed), len(PACKAGES) + 2, "how many files the release has")


def copy_of_repository(folder):
    """Copies the repository without what is proved. The copy takes the program and the library as they are built."""
    names = run(["git", "ls-files", "--cached", "--others", "--exclude-standard", "-z"], cwd=TOP).decode().split("\0")
    for name in names:
        if name and os.path.exists(f"{TOP}/{name}") and not name.startswith(("crates/", "edits/")):
            os.makedirs(os.path.dirname(f"{folder}/{name}"), exist_ok=True)
            shutil.copyfile(f"{TOP}/{name}", f"{folder}/{name}")
            os.chmod(f"{folder}/{name}", 0o700 if os.access(f"{TOP}/{name}", os.X_OK) else 0o600)
    for name in ("crates/uca/out/uca", "crates/uca_c/out/libuca_c.a", "crates/uca_command_in_memory/out/libuca_command_in_memory.a"):
        os.makedirs(os.path.dirname(f"{folder}/{name}"))
        shutil.copy(f"{TOP}/{name}", f"{folder}/{name}")
    write(f"{folder}/tools/build.py", "#!/bin/sh\n", 0o755)


def same_bytes(tests):
    """Another place, another time, another umask and other settings make the same packages."""
    other = f"{tests.work}/another place"
    copy_of_repository(other)
    settings = {"TZ": "Asia/Tokyo", "LC_ALL": "C", "CFLAGS": "-O0", "SOURCE_DATE_EPOCH": "1", "DEB_BUILD_OPTIONS": "parallel=4"}
    words = ["sh", "-c", 'umask 077 && exec "$1" --out "$2"', "sh", f"{other}/packaging/release.py", f"{tests.work}/again"]
    run(words, env={**os.environ, **settings}, cwd="/")
    same(content(f"{tests.work}/again/SHA256SUMS").decode(), content(f"{tests.dist}/SHA256SUMS").decode(), "the sums")


def replaced_release(tests):
    """A release takes the place of an earlier one, and of nothing else."""
    folder = f"{tests.work}/replaced"
    write(f"{folder}/mine", "")
    ran = subprocess.run([f"{TOP}/packaging/release.py", "--out", folder], stdout=subprocess.PIPE, stderr=subprocess.PIPE, text=True, check=False)
    holds(ran.returncode == 1 and "files of no release: mine" in ran.stderr and os.listdir(folder) == ["mine"], ran.stderr)


def one_version(tests):
    """The program, the library, the module, the crate and the packages have one version."""
    found = {
        "the program": run([tests.program, "--version"]).decode().split()[1],
        "bindings/c/Makefile": re.search(r"^VERSION = (\S+)$", content(f"{TOP}/bindings/c/Makefile").decode(), re.M)[1],
        "the module": re.search(r'^__version__ = "(\S+)"$', content(f"{TOP}/bindings/python/uca/__init__.py").decode(), re.M)[1],
        "the crate": re.search(r'^version = "(\S+)"$', content(f"{TOP}/bindings/rust/Cargo.toml").decode(), re.M)[1],
        "README.md": re.search(r"/uca_(\S+)-1_amd64\.deb$", content(f"{TOP}/README.md").decode(), re.M)[1],
        "CHANGELOG.md": re.search(r"^## (\d[^,\s]*)", content(f"{TOP}/CHANGELOG.md").decode(), re.M)[1],
        **{it: os.path.basename(tests.file(f"{it}_*.deb")).split("_")[1].rsplit("-", 1)[0] for it in PACKAGES},
    }
    same(len({*found.values()}), 1, f"versions {found}")


# Instructions that came after the first processors of x86-64: SSE3 to SSE4.2, and those whose names begin with v.
LATER = re.compile(
    r"addsub|h(add|sub)p|movddup|movs[hl]dup|lddqu|pabs|palignr|ph(add|sub|min)|pmaddubsw|pmulhrsw|pshufb|psign|blend|dpp|extractps|insertps|movntdqa|mpsadbw|packusdw|"
    r"pblend|pcmp([ei]str|eqq|gtq)|p(extr|insr)[bdq]|pmaxs[bd]|pmaxu[wd]|pmins[bd]|pminu[wd]|pmov[sz]x|pmul(dq|ld)|ptest|round[ps][sd]|crc32|popcnt|lzcnt|v"
)


def any_processor(tests):
    """The library has instructions of all processors of x86-64 alone."""
    with zipfile.ZipFile(tests.file("uca-*.whl")) as whole:
        library = whole.extract("uca/libuca.so.1", tests.work)
    lines = run(["objdump", "-d", "--no-show-raw-insn", library]).decode().splitlines()
    names = {line.split("\t")[1].split()[0] for line in lines if "\t" in line}
    holds(len(names) > 50, f"instructions: {sorted(names)}")
    same(sorted(it for it in names if LATER.match(it)), [], "instructions of later processors")


def lintian(tests):
    if not shutil.which("lintian"):
        raise NotHere("there is no lintian (Debian's lintian)")
    ran = subprocess.run(["lintian", "--allow-root", "--fail-on", "none", *glob.glob(f"{tests.dist}/*.deb")], stdout=subprocess.PIPE, text=True, check=True)
    found = [it for it in ran.stdout.splitlines() if not it.startswith(("N:", "I:")) and it.split()[2] not in LINTIAN_KNOWN]
    holds(not found, "\n".join(found))


def release(tests):
    tests.check("one version", one_version, tests)
    tests.check("the same bytes elsewhere", same_bytes, tests)
    tests.check("no other files are replaced", replaced_release, tests)
    tests.check("any processor", any_processor, tests)
    tests.check("lintian", lintian, tests)


# ---- Debian


class System:
    """A Debian system in a folder. What runs in it ends with the call, and so do its mounts."""

    def __init__(self, folder):
        self.folder = folder

    def run(self, command, network=False, given=None):
        """What a command of the shell prints, in the system."""
        inside = f'mount -t proc proc "$1/proc" && mount --rbind /dev "$1/dev" && mount -t tmpfs tmpfs "$1/run" && exec chroot "$1" /bin/sh -ec "$2"'
        words = ["unshare", "--mount", "--pid", "--fork", "--kill-child", *([] if network else ["--net"])]
        kept = {"PATH": "/usr/sbin:/usr/bin:/sbin:/bin", "LC_ALL": "C.UTF-8", "DEBIAN_FRONTEND": "noninteractive", "HOME": "/root"}
        return run([*words, "sh", "-ec", inside, "sh", self.folder, command], env=kept, input=given)

    def files(self):
        """The files of the system, but for what changes by itself and what the test has put there."""
        found = set()
        for at, folders, names in os.walk(self.folder):
            below = at[len(self.folder) :]
            folders[:] = [it for it in folders if f"{below}/{it}" not in ("/proc", "/dev", "/sys", "/run", "/tmp", "/test", "/var", "/root")]
            found |= {f"{below}/{name}" for name in [*names, *folders]}
        return found


def fresh_system(tests):
    if os.geteuid() != 0:
        raise NotHere("only root can make a Debian system")
    folder = f"{tests.work}/root"
    if tests.root:
        run(["cp", "-a", tests.root, folder])
    elif not shutil.which("mmdebstrap"):
        raise NotHere("there is no mmdebstrap (Debian's mmdebstrap)")
    else:
        run(["mmdebstrap", "--mode=root", "--variant=apt", SUITE, folder, MIRROR])
    shutil.copy("/etc/resolv.conf", f"{folder}/etc/resolv.conf")
    # no package starts a server
    write(f"{folder}/usr/sbin/policy-rc.d", "#!/bin/sh\nexit 101\n", 0o755)
    shutil.copytree(tests.dist, f"{folder}/test/debs")
    shutil.copytree(EXAMPLES, f"{folder}/test/examples")
    shutil.copytree(f"{TOP}/bindings/python/tests", f"{folder}/test/python")
    shutil.copy(f"{TOP}/bindings/c/keys.c", f"{folder}/test/keys.c")
    # the server of PostgreSQL runs as another user
    run(["chmod", "-R", "a+rX", f"{folder}/test"])
    return System(folder)


FILES = "/test/examples/table.txt /test/examples/data.txt"


def program_in(system, tests):
    """The program alone, installed without a network: its keys, and the files beside it."""
    for name in LINES:
        same(system.run(f"uca keys {FILES}", given=content(f"{EXAMPLES}/{name}")), tests.keys(name), f"keys of {name}")
    same(system.run("uca --version"), run([tests.program, "--version"]), "the version")
    system.run("cd /usr/share/doc/uca && uca check examples/table.txt examples/data.txt && test -x languages/unicode_files.py && test -f docs/FORMATS.md")
    same(lost_links(f"{system.folder}/usr/share/doc/uca"), [], "links of pages that lead nowhere")
    same(system.run("bash -c '. /usr/share/bash-completion/completions/uca && complete -p uca'").decode().split()[-1], "uca", "the completion")
    holds(b".TH UCA 1" in system.run("zcat /usr/share/man/man1/uca.1.gz"), "the manual page")
    for name in ("zsh/vendor-completions/_uca", "fish/vendor_completions.d/uca.fish"):
        system.run(f"test -s /usr/share/{name}")


def library_in(system, tests):
    """The library for C by pkg-config, both as a shared and as a static one."""
    system.run("cc -std=c11 -Wall -Werror -D_POSIX_C_SOURCE=200809L -o /tmp/shared /test/keys.c $(pkg-config --cflags --libs uca)")
    system.run(f"cc -std=c11 -Wall -Werror -D_POSIX_C_SOURCE=200809L -o /tmp/static /test/keys.c /usr/lib/{TRIPLET}/libuca.a")
    holds(b"libuca.so.1" in system.run("ldd /tmp/shared") and b"libuca" not in system.run("ldd /tmp/static"), "how the programs are linked")
    for program in ("shared", "static"):
        for name in LINES:
            same(system.run(f"/tmp/{program} {FILES}", given=content(f"{EXAMPLES}/{name}")), tests.keys(name), f"keys of {name}, {program}")


PYTHON_KEYS = """import sys, uca
collator = uca.Collator(*sys.argv[1:])
for line in sys.stdin.buffer.read().removesuffix(b"\\n").split(b"\\n"):
    key = collator.key(line).hex().upper()
    print(" ".join(key[it : it + 4] for it in range(0, len(key), 4)))
"""


def python_in(system, tests):
    """The module for Python passes its tests, and makes the same keys."""
    system.run("cd /test/python && python3 -W error -m unittest -q test_uca")
    write(f"{system.folder}/test/keys.py", PYTHON_KEYS)
    for name in LINES:
        same(system.run(f"python3 /test/keys.py {FILES}", given=content(f"{EXAMPLES}/{name}")), tests.keys(name), f"keys of {name}")


def sqlite_in(system, tests):
    statements = f""".load /usr/lib/{TRIPLET}/sqlite3/uca
SELECT uca_load('/test/examples/table.txt', '/test/examples/data.txt');
SELECT hex(uca_key('ch', uca_load('/test/examples/table.txt', '/test/examples/data.txt')));
"""
    found = system.run("sqlite3 -batch", given=statements.encode()).decode().split()
    wanted = run([tests.program, "fingerprint", f"{EXAMPLES}/table.txt", f"{EXAMPLES}/data.txt"]).decode().split()
    same(found, [*wanted, key_of(tests, "ch")], "what SQLite prints")


def key_of(tests, text):
    said = run([tests.program, "keys", f"{EXAMPLES}/table.txt", f"{EXAMPLES}/data.txt"], input=f"{text}\n".encode())
    return said.decode().replace(" ", "").strip()


def postgresql_in(system, tests):
    settings = "uca.table_file = '/test/examples/table.txt'\nuca.data_file = '/test/examples/data.txt'\n"
    said = by_server(system, settings, "CREATE EXTENSION uca; SELECT upper(encode(uca_key('ch'), 'hex')); DROP EXTENSION uca;")
    same(said, [key_of(tests, "ch")], "what PostgreSQL prints")


def by_server(system, settings, statements):
    """The lines that psql prints, by a server with these settings."""
    path = f"{system.folder}/etc/postgresql/15/main/conf.d/uca.conf"
    write(path, f"shared_preload_libraries = 'uca'\n{settings}")
    write(f"{system.folder}/test/statements.sql", statements)
    start = "mkdir -p /run/postgresql && chown postgres:postgres /run/postgresql && pg_ctlcluster 15 main start"
    said = system.run(f"{start} && su postgres -c 'psql -qAt -v ON_ERROR_STOP=1 -f /test/statements.sql' && pg_ctlcluster 15 main stop")
    os.remove(path)
    return said.decode().split()


def by_language_in(system, _):
    """The first examples of docs/BINDINGS.md: Chinese in two lines of Python, and a phone book in PostgreSQL by one setting."""
    page = content(f"{TOP}/docs/BINDINGS.md").decode()
    program, settings, statements = (re.search(rf"^```{it}\n(.*?)^```", page, re.M | re.S)[1] for it in ("python language", "conf postgresql", "sql postgresql"))
    write(f"{system.folder}/test/chinese.py", program)
    same(system.run("python3 /test/chinese.py").decode().strip(), re.search(r"# (\[.*\])$", program, re.M)[1], "Chinese in Python")
    system.run(re.search(r"^sudo (uca-files --into \S+ \S+)$", page, re.M)[1])
    same(by_server(system, settings, statements), re.findall(r"^-- (.*)$", statements, re.M), "a phone book in PostgreSQL")
    # what an administrator made is no package's
    system.run("rm -r /usr/local/share/uca")


def manual_in(system, _):
    for name in ("uca", "uca-files"):
        holds(name.encode() in system.run(f"man -w {name}") and b"NAME" in system.run(f"man {name}"), f"the manual page of {name}")


def lost_links(folder):
    """The relative links and pictures of the pages in a folder that lead to no file there."""
    found = []
    for at, _, names in os.walk(folder):
        for page in (f"{at}/{it}" for it in names if it.endswith(".md")):
            links = re.findall(r"\]\(([^)#:\s]+)", content(page).decode())
            found += [f"{page}: {it}" for it in links if not os.path.exists(f"{os.path.dirname(page)}/{it}")]
    return found


def processor_time():
    """What the commands that this script ran have taken, in seconds."""
    spent = resource.getrusage(resource.RUSAGE_CHILDREN)
    return spent.ru_utime + spent.ru_stime


def first_screen_in(system, _):
    """The first screen of README, as it stands there: apt installs the package with what it recommends, and names are in order within a minute. What
    counts is processor time, since other work on the machine may take longer. The time on the clock is printed."""
    begun, spent = time.monotonic(), processor_time()
    install = re.search(r"^sudo (apt install \./uca_\S+\.deb)$", content(f"{TOP}/README.md").decode(), re.M)[1]
    system.run(f"cd /test/debs && {install} -y -q", network=True)
    commands = pages.commands_of("README.md", "console unicode")
    said = system.run("mkdir /tmp/first && cd /tmp/first\n" + "".join(f"{command}\n" for command, _ in commands)).decode()
    seconds, spent = time.monotonic() - begun, processor_time() - spent
    same(said, "".join(f"{output}\n" for _, output in commands if output), "what README's first example prints")
    print(f"README's first screen took {seconds:.0f} s, and {spent:.0f} s of processor time", flush=True)
    holds(spent < MOST_SECONDS, f"README's first screen took {spent:.0f} s of processor time")


def languages_in(system, _):
    """Chinese and German, by the same line with another tag, and without a network."""
    for tag, lines in ORDERED.items():
        said = system.run(f"uca sort $(uca-files {tag})", given="".join(f"{it}\n" for it in reversed(lines)).encode())
        same(said.decode().split(), lines, f"the order of {tag}")
    same(system.run("uca check $(uca-files und)"), b"well-formed\n", "the table of CLDR's root")
    same(system.run("head -n 1 /usr/bin/uca-files"), b"#!/usr/bin/python3\n", "the Python of uca-files, also where another one is first on the path")


def debian(tests):
    system = fresh_system(tests)
    system.run("apt-get update -q", network=True)
    before = system.files()
    install = "apt-get install -y -q --no-install-recommends"
    tests.check("uca is installed", lambda: system.run(f"{install} /test/debs/uca_*.deb"))
    tests.check("uca", program_in, system, tests)
    tests.check("uca is purged", lambda: system.run("apt-get purge -y -q uca"))
    tests.check("nothing is left of uca", lambda: same(system.files(), before, "files"))
    tests.check("README's first screen", first_screen_in, system, tests)
    tests.check("README's words for other languages", languages_in, system, tests)
    debs = " ".join(f"/test/debs/{it}_*.deb" for it in PACKAGES)
    tests.check("all are installed", lambda: system.run(f"{install} {debs} {' '.join(USERS)}", network=True))
    rows = {"library for C": library_in, "Python": python_in, "SQLite": sqlite_in, "PostgreSQL": postgresql_in, "languages by their tags": by_language_in}
    rows["manual pages"] = manual_in
    for name, call in rows.items():
        tests.check(name, call, system, tests)
    tests.check("all are purged", lambda: system.run(f"apt-get purge -y -q {' '.join(PACKAGES)}"))
    # CLDR has a folder `uca` of its own
    left = {it for it in system.files() - before if re.search(r"(^|[^a-z])(lib)?uca([^a-z]|$)", it) and not it.startswith("/usr/share/unicode/")}
    tests.check("nothing is left of all", lambda: same(left, set(), "files"))


# ---- The wheel


def wheel_content(tests):
    file = tests.file("uca-*.whl")
    version = os.path.basename(file).split("-")[1]
    same(os.path.basename(file), f"uca-{version}-py3-none-manylinux_2_17_x86_64.whl", "the name")
    names = zipfile.ZipFile(file).namelist()
    for name in ("LICENSE", "LICENSE-MIT", "LICENSE-APACHE", "NOTICE"):
        found = [it for it in names if re.fullmatch(rf"uca-{version}\.dist-info/(licenses/)?{name}", it)]
        same(len(found), 1, f"how many {name}")
        same(zipfile.ZipFile(file).read(found[0]), content(f"{TOP}/{name}"), name)
    holds("uca/libuca.so.1" in names and "uca/py.typed" in names, f"{names}")


def wheel_used(tests):
    """The module passes its tests in a virtual environment, where it is the only module."""
    folder = f"{tests.work}/environment"
    run([sys.executable, "-m", "venv", folder])
    kept = {it: text for it, text in os.environ.items() if it not in ("PYTHONPATH", "UCA_LIBRARY", "LD_LIBRARY_PATH")}
    run([f"{folder}/bin/pip", "install", "-q", "--no-index", "--disable-pip-version-check", tests.file("uca-*.whl")], env=kept)
    run([f"{folder}/bin/pip", "check"], env=kept)
    run([f"{folder}/bin/python", "-W", "error", "-m", "unittest", "discover", "-q", "-s", f"{TOP}/bindings/python/tests"], env=kept, cwd=folder)
    program = "import importlib.metadata as m, uca; v = m.version('uca'); print(uca.__version__ == v, '.'.join(map(str, uca.library_version)) == v)"
    same(run([f"{folder}/bin/python", "-c", program], env=kept, cwd=folder), b"True True\n", "the versions")
    write(f"{folder}/keys.py", PYTHON_KEYS)
    for name in LINES:
        words = [f"{folder}/bin/python", f"{folder}/keys.py", f"{EXAMPLES}/table.txt", f"{EXAMPLES}/data.txt"]
        same(run(words, env=kept, cwd=folder, input=content(f"{EXAMPLES}/{name}")), tests.keys(name), f"keys of {name}")


def wheel(tests):
    tests.check("what the wheel has", wheel_content, tests)
    tests.check("the wheel in a virtual environment", wheel_used, tests)


# ---- The crate


def without_network(words):
    return ["unshare", "--net", *words] if os.geteuid() == 0 else words


def cargo(tests, *words, cwd, **more):
    """Runs cargo with a home of its own, which has nothing of a registry, and without a network."""
    home = os.environ.get("CARGO_HOME") or os.path.expanduser("~/.cargo")
    kept = {it: text for it, text in os.environ.items() if not it.startswith("UCA_")}
    kept["RUSTUP_HOME"] = os.environ.get("RUSTUP_HOME") or os.path.join(os.path.dirname(home), ".rustup")
    settings = {"CARGO_HOME": f"{tests.work}/cargo", "CARGO_NET_OFFLINE": "true", "CARGO_TARGET_DIR": f"{tests.work}/target", "RUSTFLAGS": "-D warnings", "RUSTDOCFLAGS": "-D warnings"}
    return run(without_network(["cargo", *words]), cwd=cwd, env={**kept, **settings, **more})


def crate_of_repository(tests):
    """The crate as it stands in the repository: its tests, those of its header and its pages too."""
    run(["make", "-s", "-C", f"{TOP}/bindings/c"])
    folder = f"{TOP}/bindings/rust"
    cargo(tests, "test", "-q", cwd=folder)
    cargo(tests, "clippy", "-q", "--all-targets", "--", "-D", "warnings", cwd=folder)
    cargo(tests, "fmt", "--check", cwd=folder)
    cargo(tests, "doc", "-q", "--no-deps", cwd=folder)


def unpacked_crate(tests):
    folder = f"{tests.work}/unpacked"
    if not os.path.isdir(folder):
        os.makedirs(folder)
        run(["tar", "-xf", tests.file("uca-*.crate"), "--strip-components=1", "-C", folder])
    return folder


def crate_content(tests):
    folder = unpacked_crate(tests)
    for name in ("LICENSE", "LICENSE-MIT", "LICENSE-APACHE", "NOTICE"):
        same(content(f"{folder}/{name}"), content(f"{TOP}/{name}"), name)
    cargo(tests, "test", "-q", cwd=folder)


USER = """use std::io::{Read, Write};
fn main() -> Result<(), Box<dyn std::error::Error>> {
    let files: Vec<_> = std::env::args().skip(1).map(std::fs::read).collect::<Result<_, _>>()?;
    let mut collator = uca::Collator::options().open(&files[0], &files[1])?;
    let mut input = String::new();
    std::io::stdin().read_to_string(&mut input)?;
    let mut lines: Vec<&str> = input.lines().collect();
    collator.sort(&mut lines)?;
    lines.iter().try_for_each(|it| writeln!(std::io::stdout(), "{it}"))?;
    Ok(())
}
"""


def crate_used(tests):
    """A program that names the unpacked crate by its path sorts as `uca sort` does."""
    folder = f"{tests.work}/user"
    write(f"{folder}/Cargo.toml", f'[package]\nname = "user"\nversion = "0.0.0"\nedition = "2021"\n[dependencies]\nuca = {{ path = "{unpacked_crate(tests)}" }}\n')
    write(f"{folder}/src/main.rs", USER)
    cargo(tests, "build", "-q", "--release", cwd=folder)
    for name in LINES:
        words = [f"{tests.work}/target/release/user", f"{EXAMPLES}/table.txt", f"{EXAMPLES}/data.txt"]
        same(run(words, input=content(f"{EXAMPLES}/{name}")), tests.sorted_lines(name), f"lines of {name}")


def crate_page(tests):
    """The programs of docs/BINDINGS.md print what their comments show, in a folder that the page's commands make from nothing."""
    folder = f"{tests.work}/page"
    page = content(f"{TOP}/docs/BINDINGS.md").decode()
    programs = re.findall(r"```rust\n(.*?)```", page, re.S)
    same(len(programs), 2, "programs")
    commands = re.search(r"```sh\n(cargo new upgrade\n.*?)```", page, re.S).group(1)
    os.makedirs(folder)
    shutil.copy(tests.file("uca-*.crate"), folder)
    for command in commands.replace("/usr/share/doc/uca/examples", EXAMPLES).splitlines():
        words = command.split()
        if words[0] == "cd":
            folder = f"{folder}/{words[1]}"
        elif words[0] == "cargo":
            cargo(tests, *words[1:], cwd=folder)
        else:
            run(words, cwd=folder)
    files = {"UCA_FILES": f"{TOP}/languages/uca_files.py", "XDG_DATA_HOME": f"{tests.work}/home"}
    for program in [*programs, *re.findall(r"```rust language\n(.*?)```", page, re.S)]:
        write(f"{folder}/src/main.rs", program)
        said = cargo(tests, "run", "-q", "--offline", cwd=folder, **files).decode()
        same(said.splitlines(), re.findall(r"// (\S.*)", program), "what a program of the page prints")


def crate_example(tests):
    """The example of an upgrade prints the keys that `uca keys --lines` prints with the new edition."""
    old, new = ([f"{folder}/table.txt", f"{folder}/data.txt"] for folder in (EXAMPLES, f"{EXAMPLES}/editions"))
    found = [f"{EXAMPLES}/editions/{it}.txt" for it in ("changes", "certificate")]
    cargo(tests, "build", "-q", "--example", "new_keys", cwd=unpacked_crate(tests))
    kept = run([tests.program, "fingerprint", *old]).decode().strip()
    for name in LINES:
        lines = content(f"{EXAMPLES}/{name}")
        stored = run([tests.program, "keys", "--lines", *old], input=lines)
        made = run([f"{tests.work}/target/debug/examples/new_keys", kept, *old, *new, *found], input=stored)
        same(made, run([tests.program, "keys", "--lines", *new], input=lines), f"keys of {name}")


def crate_without_library(tests):
    """Where there is no library, the build says where it was looked for."""
    try:
        cargo(tests, "build", "-q", cwd=unpacked_crate(tests), UCA_LIB_DIR=f"{tests.work}/nowhere")
    except AssertionError as error:
        holds("There is no libuca.a" in str(error) and "UCA_LIB_DIR" in str(error), f"{error}")
    else:
        raise AssertionError("it was built without a library")


def crate(tests):
    tests.check("the crate of the repository", crate_of_repository, tests)
    tests.check("what the crate has", crate_content, tests)
    tests.check("a program over the crate", crate_used, tests)
    tests.check("the page's programs", crate_page, tests)
    tests.check("the example of an upgrade", crate_example, tests)
    tests.check("no library", crate_without_library, tests)


PARTS = {"release": release, "debian": debian, "wheel": wheel, "crate": crate}


def main():
    parser = argparse.ArgumentParser(description=__doc__, formatter_class=argparse.RawDescriptionHelpFormatter)
    parser.add_argument("parts", nargs="*", metavar="PART", help=", ".join(PARTS))
    parser.add_argument("--uca", default=f"{TOP}/crates/uca/out/uca", help="the program that the packages are compared with")
    parser.add_argument("--root", metavar="FOLDER", help="a folder that mmdebstrap has filled")
    given = parser.parse_args()
    if unknown := {*given.parts} - {*PARTS}:
        parser.error(f"no part is named {', '.join(sorted(unknown))}: they are {', '.join(PARTS)}")
    packages.stop_without(NEEDS)
    with tempfile.TemporaryDirectory(prefix="uca-packages-") as work:
        tests = Tests(os.path.abspath(given.uca), work, given.root)
        tests.check("the release is made", made_release, tests)
        for name in (given.parts or PARTS) if not tests.failed else []:
            try:
                PARTS[name](tests)
            except NotHere as error:
                tests.skipped += 1
                print(f"{name}: not run: {error}", flush=True)
    print(f"{tests.passed} passed, {tests.failed} failed" + (f", {tests.skipped} not run" if tests.skipped else ""))
    return 1 if tests.failed else 0


if __name__ == "__main__":
    sys.dont_write_bytecode = True
    sys.exit(main())
