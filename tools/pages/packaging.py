#!/usr/bin/env python3
"""Checks what is installed: the manual page, the completions of three shells, tools/install.sh, and the version.

    tools/pages/packaging.py [--program PATH]

The manual page and each completion name the commands and options that the program's help names, and no others. They are what
tools/pages/man_page.py and tools/pages/completions.py write. The page renders without a warning. Each completion is run by its shell. tools/install.sh puts all files
into a temporary folder, lists them, and takes them away again; the program there runs. The gate's tests/test_installed.py looks at the scripts and pages.
`uca --version` names the logic of this machine's kit, and docs/FORMATS.md shows its line.

Debian packages: man-db, mandoc, zsh and fish (bash and coreutils are always there). A check that needs a missing one is not run, and
the script says so. The last line is `N passed, M failed`.
"""
import os
import re
import shutil
import subprocess
import sys
import tempfile

from command_help import TOP, helps_of, printed, program_of
from completion_shells import Zsh, bash_offers, fish_offers

import script_help  # command_help has put its folder on the path

PACKAGES = {"man": "man-db", "mandoc": "mandoc", "zsh": "zsh", "fish": "fish"}
WEIGHTINGS = {"non-ignorable", "shifted"}
FILES = {"data.txt", "table.txt", "my table.txt", "rules"}
INSTALLED = [
    "bin/uca",
    "bin/uca-files",
    "share/man/man1/uca.1",
    "share/man/man1/uca-files.1",
    "share/bash-completion/completions/uca",
    "share/zsh/site-functions/_uca",
    "share/fish/vendor_completions.d/uca.fish",
    "share/bash-completion/completions/uca-files",
    "share/zsh/site-functions/_uca-files",
    "share/fish/vendor_completions.d/uca-files.fish",
    *(f"share/doc/uca/{it}" for it in ["LICENSE", "LICENSE-MIT", "LICENSE-APACHE", "NOTICE", "README.md", "CHANGELOG.md", "SECURITY.md"]),
    *(f"share/doc/uca/{it}" for it in ["docs/FORMATS.md", "docs/MESSAGES.md", "examples/table.txt", "languages/unicode_files.py", "installed_files"]),
    "share/uca/languages/uca_files.py",
    "share/uca/examples/books/general.book",
]

# Pages for those who change uca, which are not installed.
FOR_DEVELOPERS = ["CONTRIBUTING.md", "docs/ARCHITECTURE.md", "docs/RECIPES.md", "docs/GATE.md"]

# Arguments and variables that tools/install.sh rejects, and what it says of them.
REJECTED = [
    (["PREFIX={room}/e"], {}, "a folder alone"),
    ([""], {}, "begins with /"),
    (["e"], {}, "begins with /"),
    (["--prefix"], {}, "no option"),
    (["--uninstall", "PREFIX={room}/e"], {}, "a folder alone"),
    (["{room}/e", "{room}/e"], {}, "one PREFIX"),
    ([], {"PREFIX": "{room}/e"}, "as an argument"),
]

# How each completion names the commands, and the long options.
NAMES = {
    "uca.bash": (r'commands="([a-z -]+)"', r"(?<![\w-])--([a-z][\w-]*)"),
    "_uca": (r"^ +'([a-z-]+):", r"(?<![\w-])--([a-z][\w-]*)"),
    "uca.fish": (r"-n __fish_use_subcommand -a ([\w-]+)", r"^complete .* -l (\w+)"),
}

# Lines and what is offered at their ends. Where nothing is typed yet, options that a shell offers too do not count.
LINES = [
    ("uca keys --weighting ", WEIGHTINGS),
    ("uca sort --weighting=", WEIGHTINGS),
    ("uca compare --weighting=sh", {"shifted"}),
    ("uca keys t", {"table.txt"}),
    ("uca keys m", {"my table.txt"}),
    ("uca check table.txt ", FILES),
    ("uca check table.txt data.txt ", set()),
    ("uca compare --weighting shifted table.txt ", FILES),
    ("uca compare --weighting shifted table.txt data.txt ", set()),
    ("uca tailor table.txt data.txt rules ", FILES),
    ("uca tailor table.txt data.txt rules new ", set()),
    ("uca audit table.txt data.txt rules new ", FILES),
    ("uca affected --ch", {"--changes"}),
    ("uca affected --changes table.txt ", FILES),
    ("uca changes table.txt data.txt table.txt data.txt ", FILES),
    ("uca audit-changes table.txt data.txt table.txt data.txt new ", FILES),
    ("uca audit-changes table.txt data.txt table.txt data.txt new newer ", set()),
    ("uca rekey --weighting shifted ", FILES),
    ("uca rekey new ", set()),
    ("uca rekey --from ", set()),
    ("uca rekey --from x --to y ", FILES),
    ("uca rekey --from x --to y new ", set()),
    ("uca compact --weighting ", WEIGHTINGS),
    ("uca compact --identical ", FILES),
    ("uca compact --", {"--weighting", "--identical", "--from", "--help"}),
    ("uca expand --", {"--weighting", "--identical", "--to", "--help"}),
    ("uca expand my.book ", set()),
    ("uca book new ", FILES),
    ("uca book new my.book ", set()),
    ("uca keys --he", {"--header", "--help"}),
    ("uca fingerprint --identical table.txt ", FILES),
    ("uca fingerprint table.txt data.txt ", set()),
    ("uca sort table.txt data.txt < ", FILES),
    ("uca keys -- table.txt ", FILES),
    ("uca help ke", {"keys"}),
    ("uca help keys ", set()),
    ("uca sort --identical --i", set()),
]

# fish counts the file of a redirection as an argument.
LINES_BUT_FISH = [("uca sort < table.txt table.txt ", FILES)]


# Those of uca-files. The tags are those that --names lists by a stand-in, and no language of CLDR.
FILES_LINES = [
    ("uca-files --la", {"--labels"}),
    ("uca-files --u", {"--unicode", "--uca"}),
    ("uca-files --into ru", {"rules"}),
    ("uca-files xx-", {"xx-u-co-yyy"}),
    ("uca-files --book xx-", {"xx-u-co-yyy"}),
]
NAMES_STAND_IN = "#!/bin/sh\n[ \"$1\" = --names ] && echo 'Plain, of two: xx-u-co-yyy' && echo 'Other: zz'\n"


class Counts:
    """How many checks passed and failed. One that fails is printed."""

    def __init__(self):
        self.passed = self.failed = 0

    def check(self, what, holds, more=""):
        if holds:
            self.passed += 1
        else:
            self.failed += 1
            print(f"failed: {what} {more}".rstrip())

    def same(self, what, given, wanted):
        self.check(what, given == wanted, f"\n  has    {sorted(given)}\n  wanted {sorted(wanted)}")


def is_there(command):
    found = shutil.which(command) is not None
    if not found:
        print(f"not run, since there is no {command} (Debian package {PACKAGES[command]})")
    return found


def unescaped(text):
    return re.sub(r"\\f[BIR]", "", text).replace("\\-", "-")


def options_in(text):
    """The option names at the heads of items."""
    heads = re.findall(r"^\.TP\n(.*)$", text, re.M)
    return {word for head in heads for word in re.findall(r"(?<![\w-])--?[a-zA-Z][\w-]*", unescaped(head))}


def check_man_page(counts, program, whole, helps):
    """The page has a section for each command and each option, and no other; it is what the script prints. The page of uca-files renders too."""
    path = f"{TOP}/man/uca.1"
    with open(path, encoding="utf-8") as file:
        page = file.read()
    sections = {unescaped(name): text for name, text in re.findall(r"^\.SS uca (\S+)\n(.*?)(?=^\.S[SH] )", page, re.M | re.S)}
    counts.same("man/uca.1: commands", set(sections), set(whole.names("Commands")))
    for name, text in helps.items():
        counts.same(f"man/uca.1: options of {name}", options_in(sections.get(name, "")), text.options() - {"-h", "--help"})
    top = re.search(r"^\.SH OPTIONS\n(.*?)(?=^\.SH )", page, re.M | re.S)
    counts.same("man/uca.1: options", options_in(top[1] if top else ""), whole.options())
    made = subprocess.run([sys.executable, f"{TOP}/tools/pages/man_page.py", "--program", program], stdout=subprocess.PIPE, text=True, check=False).stdout
    counts.check("man/uca.1 is what tools/pages/man_page.py prints", made == page)
    locale = {**os.environ, "LC_ALL": "C.UTF-8", "MANWIDTH": "80"}
    for command in (["man", "--warnings", "-l"], ["mandoc", "-Tlint", "-Wwarning"]):
        for name in ("uca.1", "uca-files.1") if is_there(command[0]) else ():
            ran = subprocess.run([*command, f"{TOP}/man/{name}"], stdout=subprocess.PIPE, stderr=subprocess.PIPE, text=True, env=locale, check=False)
            said = ran.stdout if command[0] == "mandoc" else ran.stderr
            counts.check(f"{command[0]} renders man/{name}", ran.returncode == 0 and not said, said)


def check_shell(counts, name, offers, room, whole, helps):
    """A shell offers each command, each option of each command, and what the table of lines says."""
    commands = set(whole.names("Commands"))
    counts.same(f"{name}: `uca `", {it for it in offers("uca ", room) if not it.startswith("-")}, commands)
    counts.same(f"{name}: `uca -`", offers("uca -", room), whole.options())
    for command, text in helps.items():
        counts.same(f"{name}: `uca {command} -`", offers(f"uca {command} -", room), text.options())
    lines = LINES + ([("uca help ", commands)] if "help" in commands else []) + ([] if name == "fish" else LINES_BUT_FISH)
    for line, wanted in lines:
        given = offers(line, room)
        if line.endswith(" "):
            given = {it for it in given if not it.startswith("-")}
        counts.same(f"{name}: `{line}`", given, wanted)
    for line, wanted in FILES_LINES:
        counts.same(f"{name}: `{line}`", offers(line, room), wanted)


def check_names(counts, whole, helps):
    """Each completion has the names of all commands and options in its text, also where its shell is not installed."""
    options = {it[2:] for text in [whole, *helps.values()] for it in text.options() if it.startswith("--")}
    for name, (commands_in, options_in_text) in NAMES.items():
        with open(f"{TOP}/completions/{name}", encoding="utf-8") as file:
            text = file.read()
        commands = {it for found in re.findall(commands_in, text, re.M) for it in found.split()}
        counts.same(f"completions/{name}: commands", commands, set(whole.names("Commands")))
        counts.same(f"completions/{name}: options", set(re.findall(options_in_text, text, re.M)), options)


def put_stand_in(folder):
    """Puts a command `uca-files` into a folder, and the folder on the path. The command needs no files of CLDR."""
    os.environ["PATH"] = f"{folder}:{os.environ['PATH']}"
    with open(f"{folder}/uca-files", "w", encoding="utf-8") as file:
        file.write(NAMES_STAND_IN)
    os.chmod(f"{folder}/uca-files", 0o755)


def check_completions(counts, whole, helps):
    check_names(counts, whole, helps)
    ran = subprocess.run([sys.executable, f"{TOP}/tools/pages/completions.py", "--check"], stdout=subprocess.PIPE, text=True, check=False)
    counts.check("completions/ is what tools/pages/completions.py writes", ran.returncode == 0, ran.stdout)
    with tempfile.TemporaryDirectory(prefix="uca-room-") as room, tempfile.TemporaryDirectory(prefix="uca-commands-") as commands:
        for name in FILES - {"rules"}:
            open(f"{room}/{name}", "w", encoding="utf-8").close()
        os.mkdir(f"{room}/rules")
        put_stand_in(commands)
        check_shell(counts, "bash", bash_offers, room, whole, helps)
        if is_there("fish"):
            check_shell(counts, "fish", fish_offers, room, whole, helps)
        if is_there("zsh"):
            zsh = Zsh(room)
            check_shell(counts, "zsh", zsh.offers, room, whole, helps)
            zsh.close()


def install(*arguments, **variables):
    run = ["sh", f"{TOP}/tools/install.sh", *arguments]
    return subprocess.run(run, stdout=subprocess.PIPE, stderr=subprocess.STDOUT, text=True, env={**os.environ, **variables}, check=False)


def check_installed(counts, folder):
    """All files are there, and the program prints keys with the files that were installed beside it."""
    for name in INSTALLED:
        counts.check(f"install.sh: {name}", os.path.isfile(f"{folder}/{name}"))
    for name in ["bin/uca", "bin/uca-files", "share/doc/uca/languages/unicode_files.py"]:
        counts.check(f"install.sh: {name} may be run", os.access(f"{folder}/{name}", os.X_OK))
    examples = f"{folder}/share/doc/uca/examples"
    if os.access(f"{folder}/bin/uca", os.X_OK):
        run = [f"{folder}/bin/uca", "sort", f"{examples}/table.txt", f"{examples}/data.txt"]
        ran = subprocess.run(run, input="b\na\n", stdout=subprocess.PIPE, text=True, check=False)
        counts.check("the installed program sorts", ran.stdout == "a\nb\n")


def files_below(folder):
    """The files below a folder, and the links to folders."""
    found = [f"{at}/{it}" for at, folders, names in os.walk(folder) for it in [*names, *(one for one in folders if os.path.islink(f"{at}/{one}"))]]
    return sorted(os.path.relpath(it, folder) for it in found)


def check_listed(counts, folder, printed_lines):
    """Each file that is there is listed, both by what the script prints and by the file that it keeps. No page for developers is there."""
    listed = f"{folder}/share/doc/uca/installed_files"
    with open(listed, encoding="utf-8") as file:
        names = file.read().splitlines()
    counts.same("install.sh: the files that it keeps a list of", {*names, os.path.relpath(listed, folder)}, {*files_below(folder)})
    counts.same("install.sh: the files that it prints", {*printed_lines}, {f"{folder}/{it}" for it in names})
    counts.check("install.sh: no file twice", len({*names}) == len(names))
    for name in FOR_DEVELOPERS:
        counts.check(f"install.sh: no {name}", not os.path.exists(f"{folder}/share/doc/uca/{name}"))


def check_uninstall(counts, program, room):
    """What was installed is taken away, and nothing else. An installation takes the place of an earlier one."""
    folder, others = f"{room}/with blanks", ["share/doc/uca/mine", "share/uca/15.0.0-cldr41/pl/table.txt"]
    install(folder, PROGRAM=program)
    with open(f"{folder}/share/doc/uca/installed_files", "a", encoding="utf-8") as file:
        file.write("share/doc/uca/old/page.md\n")
    for name in [*others, "share/doc/uca/old/page.md"]:
        os.makedirs(os.path.dirname(f"{folder}/{name}"), exist_ok=True)
        open(f"{folder}/{name}", "w", encoding="utf-8").close()
    ran = install(folder, PROGRAM=program)
    counts.check("install.sh takes the place of an earlier one", ran.returncode == 0 and not os.path.exists(f"{folder}/share/doc/uca/old"), ran.stdout)
    ran = install("--uninstall", folder)
    counts.check("install.sh --uninstall ends well", ran.returncode == 0 and f"{folder}/bin/uca\n" in ran.stdout, ran.stdout)
    counts.same("install.sh --uninstall leaves", {*files_below(folder)}, {*others})
    ran = install("--uninstall", folder)
    counts.check("install.sh --uninstall of nothing fails", ran.returncode == 1 and "nothing is known" in ran.stdout, ran.stdout)
    with open(f"{folder}/share/doc/uca/installed_files", "w", encoding="utf-8") as file:
        file.write("../outside\n")
    open(f"{room}/outside", "w", encoding="utf-8").close()
    ran = install("--uninstall", folder)
    counts.check("install.sh --uninstall takes nothing elsewhere", ran.returncode == 1 and os.path.exists(f"{room}/outside"), ran.stdout)


def check_rejected(counts, program, room):
    """Arguments that name no folder are rejected, and nothing is installed."""
    for arguments, variables, said in REJECTED:
        filled = [it.format(room=room) for it in arguments]
        ran = install(*filled, PROGRAM=program, DESTDIR=f"{room}/rejected", **{name: it.format(room=room) for name, it in variables.items()})
        is_rejected = ran.returncode == 2 and said in ran.stdout and "usage:" in ran.stdout
        counts.check(f"install.sh rejects {arguments} {variables}", is_rejected and not os.path.exists(f"{room}/rejected"), ran.stdout)


def check_install(counts, program):
    """Only PREFIX, PREFIX below DESTDIR, no program, and taking away. The default PREFIX is only used once DESTDIR is known to be respected."""
    with tempfile.TemporaryDirectory(prefix="uca-install-") as room:
        ran = install(f"{room}/a", PROGRAM=program)
        counts.check("install.sh PREFIX ends well", ran.returncode == 0, ran.stdout)
        check_installed(counts, f"{room}/a")
        check_listed(counts, f"{room}/a", ran.stdout.splitlines())
        check_uninstall(counts, program, room)
        check_rejected(counts, program, room)
        ran = install(f"{room}/b", PROGRAM=program, DESTDIR=f"{room}/staged")
        respected = ran.returncode == 0 and os.path.isdir(f"{room}/staged{room}/b") and not os.path.exists(f"{room}/b")
        counts.check("install.sh respects DESTDIR", respected, ran.stdout)
        if respected:
            ran = install(PROGRAM=program, DESTDIR=f"{room}/c")
            counts.check("install.sh with the default PREFIX ends well", ran.returncode == 0, ran.stdout)
            check_installed(counts, f"{room}/c/usr/local")
        ran = install(f"{room}/d", PROGRAM=f"{room}/none")
        counts.check("install.sh without a program fails", ran.returncode == 1 and "tools/build.py" in ran.stdout, ran.stdout)
        counts.check("install.sh without a program installs nothing", not os.path.exists(f"{room}/d"))


def check_version(counts, program):
    """The version is one line. It names the logic that `rt version` names, in which the program was proved."""
    said = printed(program, "--version")
    logic = subprocess.run(["rt", "version"], stdout=subprocess.PIPE, text=True, check=True).stdout.splitlines()[0].split()[-1]
    counts.check("`uca --version`: one line", said.count("\n") == 1 and said.endswith("\n"), said)
    counts.check(f"`uca --version`: the logic {logic}", said.endswith(f"proved in Rattle's logic {logic})\n"), said)
    counts.check("`uca -V` is `uca --version`", printed(program, "-V") == said)
    with open(f"{TOP}/docs/FORMATS.md", encoding="utf-8") as file:
        counts.check("docs/FORMATS.md shows the version", f"$ uca --version\n{said}" in file.read(), said)


def main(arguments):
    program, others = program_of(arguments)
    if others:
        script_help.stop(__doc__)
    counts = Counts()
    whole, helps = helps_of(program)
    check_version(counts, program)
    check_man_page(counts, program, whole, helps)
    check_completions(counts, whole, helps)
    check_install(counts, program)
    print(f"{counts.passed} passed, {counts.failed} failed")
    return 1 if counts.failed else 0


if __name__ == "__main__":
    if script_help.is_asked(__doc__, sys.argv[1:]):
        sys.exit()
    sys.exit(main(sys.argv[1:]))
