#!/usr/bin/env python3
"""Checks the file of a certificate that `uca tailor` makes: with real files, links, devices, permissions and full disks.

    tests/by_hand/certificates.py [--uca PATH]        crates/uca/out/uca, unless another program is named

Each case has a folder of its own, with the files of examples/. After a run the script compares the exit status, both outputs,
and each file of the folder. Of a file it looks at the kind, the permission bits, the bytes, and whether it is the same file as
before. So it sees what was replaced, what stayed, and that no temporary file is left. The cases are

- certificates that name a file that is read: by the same name, another path, a hard link or a symbolic link;
- new files, old files that are replaced, links to them, devices, and pipes;
- failures: no such folder, a folder, files and folders that cannot be written, a file that takes 100 bytes, `/dev/full`;
- standard streams that are closed or full;
- the other commands, which make no file.

Run by root, it runs the program as the user `nobody`, since root may write everywhere. It needs no package but Python and
the C library. The last line is `N passed, M failed`.
"""
import argparse
import os
import resource
import shutil
import signal
import stat
import subprocess
import sys
import tempfile

TOP = os.path.dirname(os.path.dirname(os.path.dirname(os.path.realpath(__file__))))
sys.path.append(f"{TOP}/tests")
from helps import without_help

NEEDS, WANTS = [], []
FILES = ["table.txt", "data.txt", "rules.txt"]
NOBODY = 65534
OLD = b"an old certificate\n"
MADE = "made.txt"
TEMPORARY = "uca-certificate-%d.tmp"


def example(name):
    with open(f"{TOP}/examples/{name}", "rb") as it:
        return it.read()


TABLE, CERTIFICATE = example("tailored.txt"), example("certificate.txt")


class Room:
    """A folder with the files of a case, and the program that runs there."""

    def __init__(self, program, folder):
        self.program, self.folder = program, folder
        for name in FILES:
            self.write(name, example(name))

    def path(self, name):
        return os.path.join(self.folder, name)

    def write(self, name, text, mode=0o644):
        with open(self.path(name), "wb") as it:
            it.write(text)
        os.chmod(self.path(name), mode)

    def files(self):
        """All files of the folder and of those in it: kind and permission bits, number, and bytes or the name that a link leads to."""
        found = {}
        for at, folders, names in os.walk(self.folder):
            for name in folders + names:
                path = os.path.join(at, name)
                about = os.lstat(path)
                kind = stat.S_IFMT(about.st_mode)
                text = os.readlink(path) if kind == stat.S_IFLNK else b""
                if kind == stat.S_IFREG:
                    os.chmod(path, about.st_mode | 0o400)
                    with open(path, "rb") as it:
                        text = it.read()
                    os.chmod(path, stat.S_IMODE(about.st_mode))
                found[os.path.relpath(path, self.folder)] = (about.st_mode, about.st_ino, text)
        return found

    def give(self):
        """Gives the folder to the user who runs the program."""
        if os.geteuid() == 0:
            for at, folders, names in os.walk(self.folder):
                for path in [at, *(os.path.join(at, name) for name in folders + names)]:
                    os.chown(path, NOBODY, NOBODY, follow_symlinks=False)

    def run(self, arguments, prepare=None, **streams):
        user = {"user": NOBODY, "group": NOBODY, "extra_groups": []} if os.geteuid() == 0 else {}
        streams = {"stdin": subprocess.DEVNULL, "stdout": subprocess.PIPE, "stderr": subprocess.PIPE, **user, **streams}
        return subprocess.run([self.program, *arguments], cwd=self.folder, preexec_fn=prepare, timeout=60, check=False, **streams)


class Cases:
    """Runs cases in turn, and counts them."""

    def __init__(self, program):
        self.program, self.passed, self.failed = program, 0, 0

    def count(self, name, wrong):
        self.passed += not wrong
        self.failed += bool(wrong)
        for line in wrong:
            print(f"{name}: {line}", flush=True)

    def case(self, name, arguments, end, prepare=None, changed=None, ready=None, late=None, **streams):
        """One run. `end`: status, standard output, standard error. `changed`: the files that differ after it, with their
        permission bits and bytes; all others have to be as before. `ready` and `late` change the folder before and after."""
        with tempfile.TemporaryDirectory(prefix="uca-certificates-", dir=os.path.dirname(self.program)) as folder:
            room = Room(self.program, folder)
            os.chmod(folder, 0o755)
            if ready:
                ready(room)
            room.give()
            before = room.files()
            streams = {key: value(room) if callable(value) else value for key, value in streams.items()}
            ran = room.run([it.replace("HERE", folder) for it in arguments], prepare, **streams)
            told = without_help((ran.stderr or b"").decode("utf-8", "replace")).encode()
            wrong = [] if (ran.returncode, ran.stdout or b"", told) == end else [f"ended with {ran.returncode}, {ran.stdout!r}, {ran.stderr!r}"]
            wrong += self.differences(before, room.files(), changed or {})
            if late:
                late(room)
            self.count(name, wrong)

    @staticmethod
    def differences(before, after, changed):
        wrong = [f"{name} is gone" for name in before if name not in after]
        for name, (mode, number, text) in after.items():
            if name in changed:
                wanted_mode, wanted_text = changed[name]
                if (stat.S_IMODE(mode), text) != (wanted_mode, wanted_text) or not stat.S_ISREG(mode):
                    wrong.append(f"{name} has mode {stat.S_IMODE(mode):o} and the bytes {text!r}")
            elif name not in before:
                wrong.append(f"{name} was made")
            elif before[name] != (mode, number, text):
                wrong.append(f"{name} has changed")
        return wrong + [f"{name} was not made" for name in changed if name not in after]


def tailor(certificate, table="table.txt", data="data.txt", rules="rules.txt"):
    return ["tailor", table, data, rules, certificate]


def same(role):
    return 2, b"", f"certificate: SameAs {role}\n".encode()


DONE = (0, TABLE, b"")
UNMADE = (3, b"", b"certificate: Write\n")
NO_OUTPUT = (3, b"", b"output: Write\n")


def of_one_file(cases):
    """The certificate would be written over a file that is read."""
    for role, name in zip(("table", "data", "rules"), FILES):
        for given in (name, f"./{name}", f"sub/../{name}", f"HERE/{name}"):
            cases.case(f"{given} for {name}", tailor(given), same(role), ready=lambda room: os.mkdir(room.path("sub")))
        hard = lambda room, name=name: os.link(room.path(name), room.path("other.txt"))
        soft = lambda room, name=name: os.symlink(name, room.path("other.txt"))
        cases.case(f"a hard link to {name}", tailor("other.txt"), same(role), ready=hard)
        cases.case(f"a symbolic link to {name}", tailor("other.txt"), same(role), ready=soft)
        read = [*FILES]
        read[FILES.index(name)] = "other.txt"
        cases.case(f"{name} for a symbolic link to it", tailor(name, *read), same(role), ready=soft)
        unread = lambda room, name=name: os.chmod(room.path(name), 0)
        cases.case(f"{name}, which cannot be read", tailor(name), same(role), ready=unread)
        gone = lambda room, name=name: os.remove(room.path(name))
        cases.case(f"{name}, which is not there", tailor(name), same(role), ready=gone)
    cases.case("all names the same", tailor("data.txt", "data.txt", "data.txt", "data.txt"), same("table"))
    cases.case("data and rules the same", tailor("rules.txt", data="rules.txt"), same("data"))
    cases.case("standard input from the certificate", tailor("rules.txt", rules="/dev/stdin"), same("rules"), stdin=lambda room: open(room.path("rules.txt"), "rb"))
    cases.case("a copy of the rules", tailor("copy.txt"), DONE, changed={"copy.txt": (0o644, CERTIFICATE)}, ready=lambda room: room.write("copy.txt", example("rules.txt")))


def mask(bits):
    return lambda: os.umask(bits)


def whole(cases):
    """Certificates that are made."""
    for bits in (0o022, 0o077, 0o002):
        cases.case(f"a new file under the mask {bits:o}", tailor(MADE), DONE, prepare=mask(bits), changed={MADE: (0o666 & ~bits, CERTIFICATE)})
    for mode in (0o600, 0o640, 0o644, 0o666):
        old = lambda room, mode=mode: room.write(MADE, OLD, mode)
        cases.case(f"an old file of the bits {mode:o}", tailor(MADE), DONE, changed={MADE: (mode, CERTIFICATE)}, ready=old)
        cases.case(f"the same under another mask, {mode:o}", tailor(MADE), DONE, prepare=mask(0o077), changed={MADE: (mode, CERTIFICATE)}, ready=old)
    cases.case("a path", tailor("sub/made.txt"), DONE, prepare=mask(0o022), changed={"sub/made.txt": (0o644, CERTIFICATE)}, ready=lambda room: os.mkdir(room.path("sub")))
    cases.case("a whole path", tailor("HERE/made.txt"), DONE, prepare=mask(0o022), changed={MADE: (0o644, CERTIFICATE)})
    longest = "m" * 255
    cases.case("the longest name", tailor(longest), DONE, prepare=mask(0o022), changed={longest: (0o644, CERTIFICATE)})
    cases.case("a device", tailor("/dev/null"), DONE)

    def link(room):
        os.mkdir(room.path("sub"))
        room.write("sub/real.txt", OLD)
        os.symlink("sub/real.txt", room.path("link.txt"))

    cases.case("a symbolic link", tailor("link.txt"), DONE, changed={"sub/real.txt": (0o644, CERTIFICATE)}, ready=link)

    def hard(room):
        room.write(MADE, OLD)
        os.link(room.path(MADE), room.path("kept.txt"))

    cases.case("one of two hard links", tailor(MADE), DONE, changed={MADE: (0o644, CERTIFICATE)}, ready=hard)
    taken = lambda room: [room.write(TEMPORARY % number, OLD) for number in range(3)]
    cases.case("temporary names that are taken", tailor(MADE), DONE, prepare=mask(0o022), changed={MADE: (0o644, CERTIFICATE)}, ready=taken)


def pipe(cases):
    """A certificate that goes into a pipe."""
    reader, writer = os.pipe()
    if os.geteuid() == 0:
        os.fchown(writer, NOBODY, NOBODY)
    cases.case("a pipe", tailor(f"/dev/fd/{writer}"), DONE, pass_fds=(writer,))
    os.close(writer)
    with open(reader, "rb") as it:
        cases.count("the bytes in a pipe", [] if it.read() == CERTIFICATE else ["another certificate"])


def small_files():
    resource.setrlimit(resource.RLIMIT_FSIZE, (100, 100))
    signal.signal(signal.SIGXFSZ, signal.SIG_IGN)


def unmade(cases):
    """Certificates that cannot be made: no file changes."""
    old = lambda room: room.write(MADE, OLD)
    cases.case("no such folder", tailor("no/made.txt"), UNMADE)
    cases.case("a folder", tailor("sub"), UNMADE, ready=lambda room: os.mkdir(room.path("sub")))
    cases.case("the folder itself", tailor("."), UNMADE)
    cases.case("no name", tailor(""), UNMADE)
    cases.case("a name that ends as a folder's", tailor("made.txt/"), UNMADE)
    cases.case("a name that is too long", tailor("m" * 256), UNMADE)
    cases.case("a file as a folder", tailor("data.txt/made.txt"), UNMADE)
    cases.case("a full device", tailor("/dev/full"), UNMADE)
    cases.case("a link that leads nowhere", tailor("link.txt"), UNMADE, ready=lambda room: os.symlink("no.txt", room.path("link.txt")))
    cases.case("a link to itself", tailor("link.txt"), UNMADE, ready=lambda room: os.symlink("link.txt", room.path("link.txt")))
    cases.case("a new file that takes 100 bytes", tailor(MADE), UNMADE, prepare=small_files)
    cases.case("a file that takes 100 bytes in place of an old one", tailor(MADE), UNMADE, prepare=small_files, ready=old)
    cases.case("an old file that cannot be written", tailor(MADE), UNMADE, ready=lambda room: room.write(MADE, OLD, 0o444))
    taken = lambda room: [room.write(TEMPORARY % number, OLD) for number in range(100)]
    cases.case("all temporary names taken", tailor(MADE), UNMADE, ready=taken)

    def closed(room):
        os.mkdir(room.path("sub"))
        room.write("sub/made.txt", OLD)
        os.chmod(room.path("sub"), 0o555)

    opened = lambda room: os.chmod(room.path("sub"), 0o755)
    cases.case("a new file in a folder that cannot be written", tailor("sub/new.txt"), UNMADE, ready=closed, late=opened)
    cases.case("an old file in a folder that cannot be written", tailor("sub/made.txt"), UNMADE, ready=closed, late=opened)
    cases.case("rules that are rejected", tailor(MADE, rules="data.txt"), (1, b"", b"rules byte 0: Syntax\n"), ready=old)
    cases.case("a table that is not there", tailor(MADE, table="no.txt"), (3, b"", b"table: Open\n"), ready=old)


def closing(*descriptors):
    def close():
        for descriptor in descriptors:
            os.close(descriptor)

    return close


def streams(cases):
    """Standard streams that are closed or full, or go to the certificate."""
    made = {MADE: (0o644, CERTIFICATE)}
    old = lambda room: room.write(MADE, OLD)
    cases.case("a full standard output", tailor(MADE), NO_OUTPUT, changed=made, ready=old, stdout=lambda room: open("/dev/full", "wb"))
    cases.case("a closed standard output", tailor(MADE), NO_OUTPUT, changed=made, ready=old, prepare=closing(1))
    cases.case("a closed standard input", tailor(MADE), DONE, changed=made, ready=old, prepare=closing(0))
    cases.case("a closed standard error", tailor(MADE), DONE, changed=made, ready=old, prepare=closing(2))
    cases.case("all closed", tailor(MADE), (3, b"", b""), changed=made, ready=old, prepare=closing(0, 1, 2))
    cases.case("a closed standard input that is read", ["keys", *FILES[:2]], (3, b"", b"input line 1: Read\n"), prepare=closing(0))
    cases.case("standard output to the certificate", tailor(MADE), (3, b"", b"certificate: Write\n"), ready=old, stdout=lambda room: open(room.path(MADE), "r+b"))


def others(cases):
    """The other commands make no file, in a folder where none can be made either."""
    audited = lambda room: [room.write(name, example(name)) for name in ("tailored.txt", "certificate.txt")]
    audit = ["audit", *FILES, "tailored.txt", "certificate.txt"]
    keys = b"1C47 0000 0020 0000 0002 0000 FFFF\n"
    given = lambda room: open(room.path("line"), "rb")
    for mode in (0o755, 0o555):

        def ready(room, mode=mode):
            audited(room)
            room.write("line", b"a\n")
            os.chmod(room.folder, mode)

        late = lambda room: os.chmod(room.folder, 0o755)
        for arguments, out in (
            (["check", *FILES[:2]], b"well-formed\n"),
            (["keys", *FILES[:2]], keys),
            (["sort", *FILES[:2]], b"a\n"),
            (["compare", *FILES[:2], "a", "a"], b"= 0\n"),
            (audit, b"accepted\n"),
            (["audit", "table.txt", "data.txt", "rules.txt", "tailored.txt", "table.txt"], None),
        ):
            end = (0, out, b"") if out else (1, b"", b"certificate line 1: Line\n")
            cases.case(" ".join(arguments), arguments, end, ready=ready, late=late, stdin=given)


def main():
    parser = argparse.ArgumentParser(description=__doc__.split("\n", maxsplit=1)[0])
    parser.add_argument("--uca", default=f"{TOP}/crates/uca/out/uca", help="the program, crates/uca/out/uca unless named")
    program = parser.parse_args().uca
    if not os.path.exists(program):
        sys.exit(f"there is no {program}: run tools/build.py first")
    with tempfile.TemporaryDirectory(prefix="uca-certificates-") as folder:
        os.chmod(folder, 0o755)
        copy = shutil.copy(program, f"{folder}/uca")
        os.chmod(copy, 0o755)
        cases = Cases(copy)
        for group in (of_one_file, whole, pipe, unmade, streams, others):
            group(cases)
    print(f"{cases.passed} passed, {cases.failed} failed")
    return 1 if cases.failed else 0


if __name__ == "__main__":
    sys.exit(main())
