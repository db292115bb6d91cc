"""Wrong tags and broken files of CLDR: each gets its error, and nothing is printed. Part of tests/by_hand/languages.py."""
import os
import shutil
import subprocess
import sys
import tempfile

HERE = os.path.dirname(os.path.realpath(__file__))
TOOL = f"{os.path.dirname(os.path.dirname(HERE))}/languages/languages.py"
CLDR = "/usr/share/unicode/cldr/common"

# A tag, the commands that reject it, and what the error says.
BOTH, RULES, TABLE = ("rules", "table"), ("rules",), ("table",)
TAGS = [
    ("es-u-kn", BOTH, "`kn` cannot be had"),
    ("es-u-kn-true", BOTH, "`kn` cannot be had"),
    ("es-u-kf-upper", RULES, "`kf` cannot be had by rules"),
    ("es-u-kr-latn", RULES, "`kr` cannot be had by rules"),
    ("es-u-ka-shifted", RULES, "`ka` cannot be had by rules"),
    ("es-u-kf-small", TABLE, "`small` is no value of kf"),
    ("es-u-kf", TABLE, "`kf` is no value of kf"),
    ("es-u-ka-blanked", TABLE, "`blanked` is no value of ka"),
    ("es-u-kr-latx", TABLE, "`latx` is no script"),
    ("es-u-kr-latn-latn", TABLE, "names Latn twice"),
    ("es-u-kr-tang", TABLE, "names Tang: the table has no letters"),
    ("es-u-kb-true", TABLE, "`true` is no value of kb"),
    ("es-u-kv-space", BOTH, "`kv` cannot be had"),
    ("es-u-ks-level1", BOTH, "`ks` cannot be had"),
    ("es-u-co-trad-co-search", BOTH, "`co` cannot come at this place"),
    ("es-u-co-none", BOTH, "has no such collation"),
    ("es-u", BOTH, "`u` is neither a script nor a region"),
    ("es-u-", BOTH, "is no language tag"),
    ("es-t-ja", BOTH, "`t` is neither a script nor a region"),
    ("pl-nonsense", BOTH, "`nonsense` is neither a script nor a region"),
    ("de_phonebook", BOTH, "`phonebook` is neither a script nor a region"),
    ("sr-Latx", BOTH, "`Latx` is no script of CLDR"),
    ("de-XX", BOTH, "`XX` is no region of CLDR"),
    ("xx", BOTH, "`xx` is no language of CLDR"),
    ("eu-u-co-trad", BOTH, "has no such collation"),
    ("", BOTH, "is no language tag"),
    ("fr-CA", TABLE, "fr-CA-u-kb-false is the order without this"),
]

MOST_ROWS = 200_000


def characters(count):
    """A range of so many characters of three planes that have no rows."""
    sizes = [min(max(count - before, 0), 0xFFFE) for before in (0, 0xFFFE, 2 * 0xFFFE)]
    return "".join(f"\\U{first:08X}-\\U{first + size - 1:08X}" for first, size in zip((0xF0000, 0x100000, 0x50000), sizes) if size)


ALL = characters(3 * 0xFFFE)
LAUGHS = "<!DOCTYPE ldml [<!ENTITY a0 'aaaaaaaaaa'>" + "".join(f"<!ENTITY a{n + 1} '{f'&a{n};' * 10}'>" for n in range(9)) + "]>"
# The rules of a language in a broken file, or the file as it is, and what the error says.
FILES = [
    ("<collation type='standard'><cr>&amp;a &lt; x</cr><other/></collation>", "<other> is not known"),
    ("<collation type='standard'><other><cr>&amp;a &lt; x</cr></other></collation>", "<other> is not known"),
    ("<collations><alias source='da'/></collations>", "<alias> is not known"),
    ("<collation type='standard'><cr>&amp;a &lt; &none;</cr></collation>", "undefined entity"),
    ("<collation type='standard'><cr>&amp;a &lt; x</cr>", "mismatched tag"),
    ("[import sv]", "import themselves"),
    ("[import sv-u-co-none]", "has no such collation"),
    ("[import xx] &a < x", "xx-u-co-standard: CLDR has no collation of this name"),
    ("[import] &a < x", "[import] names no collation"),
    ("[import ../../sv] &a < x", "[import ../../sv] names no collation"),
    ("[numericOrdering on] &a < x", "is a setting that a table cannot have"),
    ("[strength 1] &a < x", "is a setting that a table cannot have"),
    ("[reorder Latn", "cannot be read"),
    ("[reorder Latx] &a < x", "Latx"),
    ("[caseFirst sideways] &a < x", "sideways"),
    ("[alternate blanked] &a < x", "blanked"),
    ("&[last implicit] < x", "is a position that is not known here"),
    ("&a < 'x", "cannot be read"),
    ("&a < \\u12", "cannot be read"),
    ("&a < x ! y", "cannot read: '! y'"),
    ("< x", "no anchor"),
    ("&a <", "no target"),
    ("&\u4e00 < x", "whose anchor has no weight there that can be changed"),
    ("&a <* c-a", "the range c-a goes down"),
    ("&a <* \\u0100-\\U0010FFFF", "more than 200000 characters in ranges"),
    ("[suppressContractions [a{b]] &a < x", "the set [a{b] cannot be read"),
    ("[suppressContractions [{ab}-c]] &a < x", "the set [{ab}-c] cannot be read"),
    ("&[before 2]a < x", "[before 2] is followed by a relation at level 1"),
    ("&[before 4]a < x", "[before 4] is followed by a relation at level 1"),
    ("&[before x]a < x", "cannot be read"),
    (f"&a =* {ALL}", "rows: uca reads at most 200000"),
    (f"&a =* {ALL} &b =* {ALL}", "more than 200000 settings, resets and relations"),
    (f"&a <* {ALL}", "there is no room"),
    ("&[before 3]a <<< x &[before 3]x <<< y", "there is no room"),
]


# Whole files of collations, and what the error says. The locale is `sv`.
FOLDERS = [
    ({"sv": "[import da]"}, "da-u-co-standard: CLDR has no collation of this name"),
    ({"sv": "[import da]", "da": "[import nb]", "nb": "&a < x [import sv]"}, "themselves: sv > da-u-co-standard > nb-u-co-standard > sv-u-co-standard > da-u-co-standard"),
    ({"sv": "[import a0]", **{f"a{n}": f"[import a{n + 1}][import a{n + 1}]" for n in range(30)}, "a30": "&a < x"}, "more than 100 imports"),
    ({"sv": "[import a0]", **{f"a{n}": f"[import a{n + 1}]" for n in range(200)}}, "more than 100 imports"),
    ({"sv": "[import da]", "da": "<ldml><collations><collation type='standard'><cr>&amp;a &lt; x</cr></collation>"}, "da.xml: no element found"),
    ({"sv": f"{LAUGHS}<ldml><collations><collation type='standard'><cr>&a9;</cr></collation></collations></ldml>"}, "sv.xml: limit on input amplification"),
    ({"sv": "<ldml><collations><collation type='standard'><cr>\udcff</cr></collation></collations></ldml>"}, "sv.xml: not well-formed"),
]


def as_file(text):
    """The whole file of a collation."""
    if text.startswith(("<ldml", "<!")):
        return text
    inside = text if text.startswith("<coll") else f"<collation type='standard'><cr><![CDATA[{text}]]></cr></collation>"
    return f"<ldml><collations>{inside}</collations></ldml>"


def cldr_folder(folder, files):
    """A folder of CLDR that has these collations and that of the root."""
    os.makedirs(f"{folder}/collation")
    for part in ("validity", "supplemental", "main", "dtd", "collation/root.xml"):
        os.symlink(f"{CLDR}/{part}", f"{folder}/{part}")
    for name, text in files.items():
        with open(f"{folder}/collation/{name}.xml", "w", encoding="utf-8", errors="surrogateescape") as file:
            file.write(as_file(text))
    return folder


def rejects(setup, see, words, wanted):
    """Whether the script ends with status 1, prints nothing, and has one line of error that says what it should."""
    done = subprocess.run([sys.executable, TOOL, "--uca", setup.uca, *words], stdout=subprocess.PIPE, stderr=subprocess.PIPE, encoding="utf-8", check=False)
    said = done.stderr.strip()
    holds = done.returncode == 1 and not done.stdout and wanted in said and "\n" not in said
    shown = [it for it in words if not it.startswith("/")]
    see(holds, f"error of {' '.join(shown)} ({wanted})" + ("" if holds else f": status {done.returncode}, {len(done.stdout)} characters, {said[-300:]}"))


def missing_files(setup, see, folder):
    """Files and folders of CLDR that are missing, or of another kind."""
    words = ["--cldr", folder, "table", "sv", setup.table, setup.data]
    for name, wanted in (("collation/root.xml", "there is no file collation/root.xml"), ("validity", "validity/language.xml: there is no such file")):
        cldr_folder(folder, {"sv": "&a < x"})
        os.remove(f"{folder}/{name}")
        rejects(setup, see, words, wanted)
        shutil.rmtree(folder)
    cldr_folder(folder, {})
    os.mkdir(f"{folder}/collation/sv.xml")
    rejects(setup, see, words, "sv.xml: [Errno 21]")
    shutil.rmtree(folder)
    rejects(setup, see, words, "supplementalMetadata.xml: there is no such file")
    rejects(setup, see, ["table", "sv", "/none", setup.data], "the table that is given")
    rejects(setup, see, ["table", "sv", setup.table, "/none"], "the table that is given")


def most_rows(setup, see, folder):
    """A table of as many rows as `uca` reads is made, and one of a row more is not."""
    words = [sys.executable, TOOL, "--uca", setup.uca, "--cldr"]
    rows = lambda count: subprocess.run([*words, cldr_folder(f"{folder}/{count}", {"sv": f"&a =* {characters(count)}"}), "table", "sv", setup.table, setup.data], capture_output=True, check=False)
    given = rows(1).stdout.count(b" ; ") - 1
    most, more = rows(MOST_ROWS - given), rows(MOST_ROWS - given + 1)
    see(most.returncode == 0 and most.stdout.count(b" ; ") == MOST_ROWS, f"a table of {MOST_ROWS} rows: {most.stderr.decode()[-200:] or 'made'}")
    said = more.stderr.decode().strip()
    see(more.returncode == 1 and not more.stdout and said == f"the table would have {MOST_ROWS + 1} rows: uca reads at most {MOST_ROWS}", f"a row more: {said[-200:]}")


def test(setup, see):
    for tag, commands, wanted in TAGS:
        for command in commands:
            rejects(setup, see, [command, tag, setup.table, *([setup.data] if command == "table" else [])], wanted)
    with tempfile.TemporaryDirectory() as room:
        for at, (files, wanted) in enumerate([*(({"sv": text}, wanted) for text, wanted in FILES), *FOLDERS]):
            folder = cldr_folder(f"{room}/{at}", files)
            rejects(setup, see, ["--cldr", folder, "table", "sv", setup.table, setup.data], wanted)
            shutil.rmtree(folder)
        for files, wanted in FOLDERS:
            folder = cldr_folder(f"{room}/rules", files)
            rejects(setup, see, ["--cldr", folder, "rules", "sv", setup.table], wanted)
            shutil.rmtree(folder)
        missing_files(setup, see, f"{room}/missing")
        most_rows(setup, see, room)
