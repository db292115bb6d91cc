"""What the scripts of this folder share about the program's help: its parts, read from what `--help` prints. Also those of uca-files."""
import os
import re
import subprocess
import sys

TOP = os.path.dirname(os.path.dirname(os.path.dirname(os.path.realpath(__file__))))
sys.path.append(f"{TOP}/tools")
PROGRAM, FILES = f"{TOP}/crates/uca/out/uca", f"{TOP}/languages/uca_files.py"
HEADINGS = ["Usage", "Arguments", "Commands", "Options"]


def program_of(arguments):
    """The program, which `--program PATH` may name, and the other arguments."""
    program = PROGRAM
    if arguments[:1] == ["--program"] and len(arguments) > 1:
        program, arguments = os.path.abspath(arguments[1]), arguments[2:]
    if not os.path.exists(program):
        sys.exit(f"there is no {program}: run tools/build.py first")
    return program, arguments


def printed(program, *arguments):
    """What the program prints to standard output."""
    ran = subprocess.run([program, *arguments], stdout=subprocess.PIPE, encoding="utf-8", check=True)
    return ran.stdout


class Help:
    """One help text: what it says, the usage, the items of each list as pairs of a name and a text, and what comes last."""

    def __init__(self, text):
        self.about, self.last, self.usage = [], [], ""
        self.lists = {heading: [] for heading in HEADINGS}
        heading = None
        for line in text.splitlines():
            found = re.match(r"(\w+):(?: (.*))?$", line)
            if found and found[1] in HEADINGS:
                heading = found[1]
                self.usage = found[2] if heading == "Usage" else self.usage
            elif line.startswith(" ") and heading in self.lists:
                self.add_to_list(self.lists[heading], line)
            elif heading is None:
                self.about.append(line)
            elif line:
                self.last.append(line)
                heading = "last"

    @staticmethod
    def add_to_list(items, line):
        """Adds an item, or a line of the text of the last item. Texts that begin on a new line begin at column 10."""
        if line.startswith(" " * 10):
            name, text = items.pop()
            items.append((name, f"{text} {line.strip()}".strip()))
        else:
            name, _, text = line.strip().partition("  ")
            items.append((name, text.strip()))

    def names(self, heading):
        return [name for name, _ in self.lists[heading]]

    def options(self):
        """The option names, `-h` and `--help` as two."""
        return {word for name in self.names("Options") for word in re.findall(r"(?<![\w-])--?[a-zA-Z][\w-]*", name)}


def helps_by(text_of):
    """The help of the program, and that of each command except `help`, which has none. A text is that of a command, or of the program for None."""
    whole = Help(text_of(None))
    return whole, {name: Help(text_of(name)) for name in whole.names("Commands") if name != "help"}


def helps_of(program):
    """The helps that the program prints."""
    return helps_by(lambda name: printed(program, *([name] if name else []), "--help"))


def stored_text(command):
    """The help of a command, or of the program, in tests/help."""
    with open(f"{TOP}/tests/help/{command or 'uca'}.txt", encoding="utf-8") as file:
        return file.read()


def stored_version():
    """The line that `uca --version` prints, as docs/FORMATS.md shows it; tools/pages/packaging.py compares it with what the program prints."""
    with open(f"{TOP}/docs/FORMATS.md", encoding="utf-8") as file:
        return re.search(r"^\$ uca --version\n(.*)$", file.read(), re.M)[1]


def stored_helps():
    """The helps of tests/help, which tests/run.py compares with what the program prints."""
    return helps_by(stored_text)


def files_items():
    """The argument of uca-files and its options but for help: each name, which a value may follow, and a text."""
    wide = {**os.environ, "COLUMNS": "1000"}
    said = subprocess.run([sys.executable, FILES, "--help"], stdout=subprocess.PIPE, encoding="utf-8", env=wide, check=True).stdout
    found = [re.fullmatch(r"  (-\S.*?|[A-Z]+)  +(\S.*)", line) for line in said.split("\n")]
    return [it.groups() for it in found if it and "--help" not in it[1]]
