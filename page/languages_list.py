"""Makes the rules and the tables of CLDR's languages for the page, and the list of them (made/languages.json).

Each language has its rules where languages/languages.py can make them, and else its table. A table takes seconds and megabytes, so only these and a few
others are made, unless `tables` is asked for. A table with upper case first is made for the languages of UPPER. docs/LANGUAGES.md says what these tables
and rules have of CLDR's order, and what they lack.
"""
import json
import os
import subprocess
import sys
from concurrent.futures import ThreadPoolExecutor

TOP = os.path.dirname(os.path.dirname(os.path.realpath(__file__)))
import languages
from language_names import collation_names

TOOL = f"{TOP}/languages/languages.py"
TABLES = ["und", "sv", "de"]
UPPER = ["und", "sv", "el", "ru"]


def made_by(words, path):
    """Writes what languages/languages.py prints for these arguments, and returns whether it printed something."""
    done = subprocess.run([sys.executable, TOOL, *words], stdout=subprocess.PIPE, stderr=subprocess.PIPE, check=False)
    if done.returncode:
        return False
    lines = done.stdout.splitlines(keepends=True)
    is_table = words[0] == "table"
    with open(path, "wb") as it:
        it.writelines(line.split(b"#")[0].rstrip() + b"\n" if is_table else line for line in lines if not (is_table and line.startswith(b"#")))
    return True


def has_relations(path):
    """Whether rules have more than comments."""
    with open(path, encoding="utf-8") as it:
        return any(line.strip() and not line.startswith("#") for line in it)


def make_one(made, tag, name, tables):
    """Makes the files of a language, and returns its entry in the list."""
    files, entry = [f"{made}/table.txt", f"{made}/data.txt"], {"tag": tag, "name": name}
    rules, table, upper = (f"languages/{tag}{it}" for it in (".rules", ".txt", ".upper.txt"))
    is_plain = "-kb-" not in tag
    if is_plain and made_by(["rules", tag, files[0]], f"{made}/{rules}") and has_relations(f"{made}/{rules}"):
        entry["rules"] = rules
    if ("rules" not in entry or tables or tag in TABLES) and made_by(["table", tag, *files], f"{made}/{table}"):
        entry["table"] = table
    own = "-u-" in tag
    if (tables and is_plain or tag in UPPER) and made_by(["table", f"{tag}{'' if own else '-u'}-kf-upper", *files], f"{made}/{upper}"):
        entry["upper"] = upper
    print(f"{tag}: {', '.join(it for it in ('rules', 'table', 'upper') if it in entry) or 'nothing'}", flush=True)
    return entry


def make(made, tags, jobs, tables=False):
    """Makes the files of these languages, or of all, so many side by side, and writes the list of all that are there."""
    os.makedirs(f"{made}/languages", exist_ok=True)
    names, path = {tag: name for name, tag in collation_names(languages.CLDR)}, f"{made}/languages.json"
    if unknown := {*tags} - {*names}:
        sys.exit(f"CLDR has no collation {', '.join(sorted(unknown))}: languages/uca_files.py --names lists them")
    with ThreadPoolExecutor(jobs) as pool:
        entries = [*pool.map(lambda tag: make_one(made, tag, names[tag], tables), tags or names)]
    if tags and os.path.exists(path):
        with open(path, encoding="utf-8") as it:
            entries += [old for old in json.load(it) if old["tag"] not in tags]
    entries = sorted((it for it in entries if len(it) > 2), key=lambda it: it["name"])
    with open(path, "w", encoding="utf-8") as it:
        json.dump(entries, it, ensure_ascii=False, indent=0)
    print(f"languages.json: {len(entries)} languages")
