"""Checks of the library for C: its calls, its header, its installation, and the programs of docs/BINDINGS.md. Part of bindings.py."""
import os
import re
import shlex
import subprocess
import sys

from bindings_python import python_environment
from bindings_shared import C, DIGITS, LINES, NotHere, SETTINGS, TOP, content, files_for, need, numbered, options, run, same

sys.path.append(f"{TOP}/tests")
import helps

FLAGS = ["-std=c11", "-Wall", "-Wextra", "-Wpedantic", "-Werror", "-D_POSIX_C_SOURCE=200809L", f"-I{C}/include"]


def make(work):
    need("make", "gcc")
    run(["make", "-s", "-C", C, "all", "check"])


def valgrind(work):
    need("valgrind")
    for program in ("calls", "memory"):
        run(["valgrind", "-q", "--error-exitcode=9", "--leak-check=full", "--show-leak-kinds=all", "--errors-for-leak-kinds=all", f"{C}/out/{program}"])
    # Threads whose collators share a table, and threads that share a collator under a lock, do not race.
    run(["valgrind", "-q", "--tool=helgrind", "--error-exitcode=9", f"{C}/out/calls"])


SANITIZERS = ["-g", "-fsanitize=address,undefined", "-fno-sanitize-recover=all"]


def sanitizers(work):
    need("gcc")
    run(["gcc", *FLAGS, "-pthread", *SANITIZERS, "-o", f"{work}/calls", f"{C}/calls.c", f"{C}/out/libuca.a"])
    run([f"{work}/calls"])


# A program in C++ over uca.h. It opens a collator, and prints why no upgrade is opened.
CPP = """#include "uca.h"
int main()
{
    uca_collator collator = UCA_CLOSED_COLLATOR;
    uca_upgrade upgrade = UCA_CLOSED_UPGRADE;
    uca_settings settings = UCA_DEFAULT_SETTINGS;
    uca_bytes table = {UCA_BYTES_OF("@version 1\\nDIGITS0061 ; [.1C47.0020.0002]\\n")}, data = {UCA_BYTES_OF("@data 1\\n")};
    uca_error error;
    uca_upgrade_error upgrade_error;
    char line[128];
    settings.numeric = true;
    bool is_open = uca_open_with(&collator, table, data, &settings, &error) == UCA_OK;
    uint32_t status = uca_open_upgrade_with(&upgrade, table, data, table, data, data, data, &settings, &upgrade_error);
    uca_upgrade_error_text(status, &upgrade_error, line, sizeof line);
    puts(line);
    uca_close(&collator);
    uca_close_upgrade(&upgrade);
    return is_open && uca_abi() == UCA_ABI ? 0 : 1;
}
"""


def header(work):
    need("g++")
    with open(f"{work}/header.cpp", "w", encoding="utf-8") as it:
        it.write(CPP.replace("DIGITS", DIGITS.replace("\n", "\\n")))
    run(["g++", "-Wall", "-Wextra", "-Werror", f"-I{C}/include", "-o", f"{work}/header", f"{work}/header.cpp", f"{C}/out/libuca.a"])
    same(run([f"{work}/header"]), b"file of changes line 1: Order\n", "the header in C++")


def declared_calls():
    """The calls of the library, as uca.h declares them."""
    return re.findall(r"^(?:uint32_t|size_t|void) (uca_\w+)\(", content(f"{C}/include/uca.h").decode(), re.M)


def exports(work):
    need("nm")
    declared = declared_calls()
    found = [it.split()[-1].split("@")[0] for it in run(["nm", "-D", "--defined-only", f"{C}/out/libuca.so.1"]).decode().splitlines()]
    same(sorted(it for it in found if it != "UCA_1"), sorted(declared), "exported names")


# Names that make, the shell, pkg-config or LD_LIBRARY_PATH takes for others.
NAMES = ["plain$x", "plain$$", "plain$(x)", "plain`true`", 'plain"x', "plain\\x", "plain#x", "plain:x", "plain;x"]


def installed(work):
    """What make made is installed where there is no rt, in folders with blanks in their names, and taken away again."""
    need("make", "gcc", "pkg-config")
    prefix, stage = f"{work}/a prefix", f"{work}/a stage"
    path = os.pathsep.join(it for it in os.environ["PATH"].split(os.pathsep) if not os.path.exists(f"{it}/rt"))
    make_it = ["env", f"PATH={path}", "make", "-s", "-C", C]
    run([*make_it, "install", f"PREFIX={prefix}"])
    environment = {**os.environ, "PKG_CONFIG_PATH": f"{prefix}/lib/pkgconfig:{stage}{prefix}/lib 64/pkgconfig"}
    said = shlex.split(run(["pkg-config", "--cflags", "--libs", "uca"], env=environment).decode())
    run(["gcc", "-std=c11", "-D_POSIX_C_SOURCE=200809L", "-pthread", "-o", f"{work}/shared", f"{C}/calls.c", *said])
    run([f"{work}/shared"], env={**os.environ, "LD_LIBRARY_PATH": f"{prefix}/lib"})
    run([*make_it, "uninstall", f"PREFIX={prefix}"])
    places = [f"PREFIX={prefix}", f"LIBDIR={prefix}/lib 64", f"DESTDIR={stage}"]
    run([*make_it, "install", *places])
    said = shlex.split(run(["pkg-config", "--cflags", "--libs", "uca"], env=environment).decode())
    same(said, [f"-I{prefix}/include", f"-L{prefix}/lib 64", "-luca"], "what pkg-config says of another LIBDIR")
    run([*make_it, "uninstall", *places])
    same([it for folder in (prefix, stage) for _, _, files in os.walk(folder) for it in files], [], "files after uninstall")
    for wrong in (["PREFIX=usr"], [f"PREFIX={prefix}", "LIBDIR=lib"], [f"PREFIX={prefix}", f"OUT={work}/nothing"]):
        if not subprocess.run([*make_it, "install", *wrong], stderr=subprocess.DEVNULL).returncode:
            raise AssertionError(f"make install {wrong} has no error")
    for name in NAMES:
        for place in ("PREFIX", "LIBDIR", "DESTDIR"):
            for goal in ("install", "uninstall"):
                places = {"PREFIX": f"{work}/plain", place: f"{work}/{name}"}
                ran = subprocess.run([*make_it, goal, *(f"{it}={at}" for it, at in places.items())], capture_output=True, text=True)
                if not ran.returncode or "PREFIX, LIBDIR and DESTDIR may have none of" not in ran.stderr:
                    raise AssertionError(f"make {goal} {places}: status {ran.returncode}: {ran.stderr}")
    same([it for it in os.listdir(work) if it.startswith("plain")], [], "folders of names that are rejected")


def stored_run(work):
    """The stored run of the program `uca`, by the program `keys`."""
    data = f"{TOP}/crates/uca/data"
    found = run([f"{C}/out/keys", f"{data}/table.txt", f"{data}/data.txt", "non-ignorable"], input=content(f"{TOP}/crates/uca/stdin"))
    same(found, content(f"{TOP}/crates/uca/stdout"), "keys")


# Changes of the page's program for a new edition, and what it prints to standard error then.
ACCENTS = "a" + 65 * "\u0324"
NEW_EDITION_ERRORS = [
    ([('.word = "ch"', '.word = "c\\xff"')], "position 1: c\ufffd: the text is not UTF-8\n"),
    # U+0324 is a non-starter of the new edition alone, so the old one makes a key
    ([('.word = "ch"', f'.word = "{ACCENTS}"'), ("key[256]", "key[4096]")], f"position 1: {ACCENTS}: the text has more than 64 non-starters in a row in Normalization Form D\n"),
    ([("key[256]", "key[13]")], "d: there is too little room\n"),
    ([('"examples/table.txt"', '"examples/none.txt"')], "examples/none.txt is not read: it is not there, or it is too large\n"),
    ([('"examples/table.txt"', '"examples/data.txt"')], "line 1: Line: uca_open: the table is rejected\n"),
    ([('"examples/editions/table.txt"', '"examples/data.txt"')], "uca_find_changes: status 1\n" + helps.said("new line 1: Line\n", ["changes", *"old old-data new new-data certificate".split()]).decode()),
    ([("certificate[1 << 20]", "certificate[8]")], "uca_find_changes: status 258\n"),
    ([("changes, lengths.out,", "changes, 10,")], "uca_open_upgrade: file of changes line 1: Line\n"),
    # no change lists the eighth old row, that of `ch`, whose weight has no image
    ([("changes, lengths.out,", "changes, 11,")], "uca_open_upgrade: refused 4 Uncovered old row 8\n"),
    ([("uca_close(&old);", "uca_close(&old);\n    kept[0] ^= 1;")], "the keys are of other files or settings\n"),
]


def c_program(work, program, *flags):
    """The status of a program in C, what it prints, and its errors, at the top of the repository."""
    with open(f"{work}/page.c", "w", encoding="utf-8") as it:
        it.write(program)
    run(["gcc", *FLAGS, *flags, "-o", f"{work}/page", f"{work}/page.c", f"{C}/out/libuca.a"])
    ran = subprocess.run([f"{work}/page"], capture_output=True, cwd=TOP)
    return ran.returncode, ran.stdout.decode(), ran.stderr.decode(errors="replace")


def page(work):
    """The programs of docs/BINDINGS.md, and that of docs/STORED_KEYS.md in Python. They show what they print in their comments, or after them."""
    need("gcc")
    text, stored = (content(f"{TOP}/docs/{it}.md").decode() for it in ("BINDINGS", "STORED_KEYS"))
    calls = declared_calls()
    same([it for it in calls if not re.search(rf"\b{it}\b", text)], [], "calls that the page does not name")
    same(re.findall(r"have (\d+) calls for C", text), [str(len(calls))], "how many calls the page says")
    for program, printed in re.findall(r"```c\n(.*?)```(?:\n\nIt prints:\n\n```\n(.*?)```)?", text, re.S):
        wanted = printed or "".join(re.findall(r"/\* ([0-9A-F]+) \*/", program)[:1])
        for flags in ([], SANITIZERS):
            same(c_program(work, program, *flags), (0, wanted, ""), f"the page's program {program}")
        if "uca_open_upgrade" in program:
            page_errors(work, program)
    for program in re.findall(r"```python\n(.*?)```", text + stored, re.S):
        said = run([sys.executable, "-c", program], env=python_environment(), cwd=TOP).decode()
        same(said.splitlines(), re.findall(r"# (\S.*)", program), f"the page's program {program}")


def page_errors(work, program):
    """The page's program for a new edition prints each error, and no key."""
    for changes, error in NEW_EDITION_ERRORS:
        changed = program
        for old, new in changes:
            same(changed.count(old), 1, f"how many {old}")
            changed = changed.replace(old, new)
        same(c_program(work, changed, *SANITIZERS), (1, "", error), f"the page's program with {changes}")


def keys_like(program):
    """The keys of the program `keys` are those of `uca keys`."""

    def check(work):
        if not os.path.exists(program):
            raise NotHere(f"there is no {program}")
        for lines in LINES:
            for setting in SETTINGS:
                files = files_for(work, setting)
                wanted = run([program, "keys", *options(setting), *files], input=numbered(lines))
                found = run([f"{C}/out/keys", *files, *" ".join(setting).split()], input=numbered(lines))
                same(found, wanted, f"keys of {lines}, {setting}")

    return check


def c_words(work, table, data, book, keys, order, lookups):
    if not book:
        found = run([f"{C}/out/keys", table, data, "shifted"], input=content(f"{work}/words.txt"))
        same(found.decode().replace(" ", ""), keys, f"keys over {table}")
