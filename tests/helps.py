"""What standard error has: the line of an error, and after it a line that says what to do, where there is a way out.

Tests give the line of the error. The line after it is made here, of the table below and of the names in the arguments.
"""
import re

# The files that a command names, in the order of its arguments. With --changes `affected` names changes in place of rules.
ROLES = {
    "check": "table data",
    "keys": "table data",
    "sort": "table data",
    "compare": "table data",
    "tailor": "table data rules certificate",
    "audit": "base data rules tailored certificate",
    "affected": "data rules",
    "changes": "old old-data new new-data certificate",
    "audit-changes": "old old-data new new-data changes certificate",
    "rekey": "certificate",
    "compact": "book",
    "expand": "book",
    "book": "certificate book",
    "fingerprint": "table data",
}

# The options that have a value.
VALUED = ("--weighting", "--from", "--to", "--compact")

# What a file is read as.
TABLE, DATA = "{} is read as a table, which begins with @version.", "{} is read as a data file, which begins with @data 1."
READINGS = {
    **dict.fromkeys(("table", "base", "tailored", "old", "new"), TABLE),
    **dict.fromkeys(("data", "old-data", "new-data"), DATA),
    "rules": "{} is read as rules, which begin with &.",
    "certificate": "{} is read as a certificate, such as uca tailor and uca changes write.",
    "changes": "{} is read as changes, which begin with @changes 1.",
    "book": "{} is read as a book, which begins with @book 1.",
}

# What is said of memory, of texts, and of files that are something else.
MEMORY = "give the program more memory, or a smaller input"
INPUT = "give standard input a file or a pipe, such as < lines.txt"
TOO_LONG = "split the text: it has at most 1,048,576 code points, an input line 4,194,304 bytes"
LONG_RUN = "look for damaged text there: at most 64 combining marks come in a row"
IS_BEGUN = "Is it another file, is it empty, or does it have CR LF or a byte order mark?"
ILL_FORMED = "uca check says which row is not well-formed. docs/UNICODE.md mends Unicode's table"

# The line of an error, and what is said after it. {name} is the name of the file, and {read_as} what it is read as.
HELPS = [
    (r"input line \d+: Utf8", "the line is not UTF-8. If the input is in LATIN1, iconv -f LATIN1 -t UTF-8 converts it"),
    (r"(?:input line \d+|left|right): LongRun at \d+", LONG_RUN),
    (r"input line \d+: Read", INPUT),
    (r"input line \d+: Limit", "split the input: it has at most 1,000,000 lines. examples/databases/sort_parts.sh sorts more"),
    (r"input line \d+: NoKey", r"a key is pairs of upper-case hexadecimal digits, up to the first tab, without \x. A header begins with # and needs --from or --to"),
    (r"input line \d+: NoImage", "if the key was made with this --weighting and --identical, make it again from its text"),
    (r"input line \d+: OtherKey", "give --weighting and --identical as they were when the keys were made"),
    (r"input line \d+: NoCompactKey", "give the book, --weighting and --identical by which the keys were compacted"),
    (r"input line \d+: Header", "the first line says what made the keys: give its weighting, depth and fingerprint"),
    (r"(?:input line \d+|left|right): TooLong", TOO_LONG),
    (r"(?P<role>certificate) line \d+: (?:Line|Order|Limit|Map \w+)", "{read_as} Is it another file?"),
    (r"(?P<role>[\w-]+) line \d+: Order", "{read_as} " + IS_BEGUN),
    (r"(?P<role>[\w-]+) line \d+: Line", r"{read_as} Is it another file? Each line ends in LF, the last one too. tr -d '\r' removes CR"),
    (r"(?P<role>[\w-]+) line \d+: CodePoint", "{name}: a code point is four to six upper-case hexadecimal digits, such as 0061"),
    (r"(?P<role>(?:old-|new-)?data) line \d+: Weight", "{name}: a class is a number from 1 to 254. Leave out a line of class 0"),
    (r"(?P<role>[\w-]+) line \d+: Weight", "{name}: an element has three weights of four upper-case hexadecimal digits: [.1C47.0020.0002]"),
    (r"(?P<role>[\w-]+) line \d+: DuplicateKey", "{name}: an earlier row has the same code points: delete one of the two"),
    (r"(?P<role>[\w-]+) line \d+: Range", "{name}: a range is not empty and overlaps no other: docs/FORMATS.md has more"),
    (r"(?P<role>[\w-]+) line \d+: Limit", "{name}: it is too large, or this line is: docs/FORMATS.md has the limits"),
    (r"(?P<role>[\w-]+)(?: line \d+)?: Read", "{name}: is it a folder? It cannot be read"),
    (r"(?P<role>rules) byte 0: Syntax", "{read_as} Settings such as [import de] are not read. Is it another file, or does it begin with a byte order mark?"),
    (r"rules byte \d+: Syntax", "uca reads no |, no <<<< and no brackets but [before 1] to [before 3]. Quote punctuation and blanks, as in 'ice cream'. Write & or a sign such as < before each text"),
    (r"rules byte \d+: EmptyText", "write the text after &, a sign or /. Or take the blank out of a sign: <<<, not << <"),
    (r"rules byte \d+: Escape", r"write all digits: \u and four of them, as in \u00E9, or \U and eight"),
    (r"rules byte \d+: BeforeStrength", "after [before 1] the first sign is <, after [before 2] <<, and after [before 3] <<<"),
    (r"rules byte \d+: DuplicateTarget", r"an earlier relation has this target: delete one of the two. \u00E9 and e\u0301 are one text"),
    (r"rules byte \d+: LateTarget", "put this relation first, or use another anchor"),
    (r"(?P<role>rules) byte \d+: Limit", "{name}: at most 16 code points a text, 5,000 relations, and 1,048,576 bytes. Is it another file?"),
    (r"(?P<role>rules) byte \d+: Utf8", "{name}: rules are UTF-8. If it is in LATIN1, iconv -f LATIN1 -t UTF-8 converts it"),
    (r"(?P<role>table)(?: row \d+)?: Digits", "{name}: it does not order numbers by value: leave out --numeric, or correct the rows of digits"),
    (r"output: Write", "is the disk full, or did what reads the output end early, such as head?"),
    (r"(?P<role>certificate): Write", "{name}: check its folder, your rights and the disk"),
    (r"certificate: SameAs (?P<role>[\w-]+)", "{name}: this command reads it. Give the certificate another name"),
    (r"(?P<role>table|data): Open", "{name}: there is no such file, or you may not read it. For a language write $(uca-files TAG), such as $(uca-files pl)"),
    (r"(?P<role>rules): Open", "{name}: there is no such file, or you may not read it. RULES is the name of a file, not the rules"),
    (r"(?P<role>[\w-]+): Open", "{name}: there is no such file, or you may not read it"),
    (r"tailor: BaseIllFormed|changes: (?:Old|New)IllFormed (?:old|new) row \d+", ILL_FORMED),
    (r"tailor relation \d+: Anchor", "use an anchor that has a row, and a weight at this level"),
    (r"tailor relation \d+: NeedsPrefix", "write a relation for the beginning of the target first"),
    (r"tailor relation \d+: Limit", "shorten the expansions"),
    (r"tailor relation \d+: ImplicitVariable", "give the anchor or the expansion a row"),
    (r"tailor: NoRoom \d", "use fewer relations at this level"),
    (r"changes: SettingChanged", "give both tables the same @variable line, or make all keys again"),
    (r"weighting: unknown", "the weightings are non-ignorable and shifted"),
    (r"fingerprint: unknown", "a fingerprint is 64 lower-case hexadecimal digits. rekey takes both --from and --to"),
    (r"memory|.*: Memory", MEMORY),
]


def names_of(words):
    """The names of files in the arguments, by their roles."""
    command, *rest = words
    roles, names, rest = ROLES[command].split(), {}, iter(rest)
    for word in rest:
        option, equals, value = word.partition("=")
        if option in VALUED:
            names[option.strip("-")] = value if equals else next(rest)
        elif word == "-" or not word.startswith("-"):
            names[roles.pop(0) if roles else "text"] = word
    names.setdefault("book", names.get("compact"))
    names.setdefault("changes", names.get("rules"))
    return names


def said(line, words=()):
    """What standard error has, in bytes: this line of an error, and what is said after it. The arguments name the files."""
    line = line if isinstance(line, bytes) else line.encode()
    for pattern, text in HELPS:
        if found := re.fullmatch(f"(?:{pattern})\n", line.decode()):
            role = found.groupdict().get("role")
            name = names_of(words)[role] if role else ""
            if "\n" in name:
                return line
            read_as = READINGS.get(role, "").format(name)
            return line + f"help: {text.format(name=name, read_as=read_as)}\n".encode()
    return line


def without_help(text):
    """What standard error has but for the line of help at its end, or for as much of that line as went out."""
    return re.sub(r"(?<=\n)(?:help: [^\n]*\n?|help:?|hel|he|h)\Z", "", text)
