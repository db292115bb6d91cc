#!/usr/bin/env python3
"""Tests languages/uca_files.py with the files of Unicode and CLDR.

    tests/by_hand/uca_files.py [--uca PATH] [--jobs N]       all of it (some minutes, with --jobs 4 on four processors)
    tests/by_hand/uca_files.py --read                        without the tables of all languages

- Each language code of iso-codes is read, and each locale of its translations. It has a place in CLDR's rules, or the error that it should.
- A table is made for one tag of each order. It is well-formed. What it names is CLDR's weighting.
- Tags of one language with two names have one folder. Chinese of Taiwan, Hong Kong and Macao, and Cantonese, have the table of traditional Chinese.
- README's line sorts in Polish. The buckets of lists are those of examples/databases/from_keys.py, and each list has the order of `uca sort`.
- Calls at once, calls that are killed at many moments, full disks of several sizes, and a folder that only its owner can write.
- Two editions of a tag.

It needs Debian's packages unicode-data, unicode-cldr-core and iso-codes. Full disks and the other user need the rights of root, and the older edition the
package perl-modules-5.36: without these a part is not run. The last line is `N passed, M failed`, and how many were not run.
"""
import argparse
import collections
import gettext
import glob
import json
import os
import shutil
import signal
import subprocess
import sys
import tempfile
import time
from concurrent.futures import ThreadPoolExecutor

HERE = os.path.dirname(os.path.realpath(__file__))
TOP = os.path.dirname(os.path.dirname(HERE))
sys.dont_write_bytecode = True
sys.path[:0] = [f"{TOP}/languages", HERE]
import languages
import packages
import unicode_files
from cldr_rules import CldrError, kind_and_rules
from language_tags import read_tag

NEEDS = ["unicode-data", "unicode-cldr-core", "iso-codes"]
TOOL, PYTHON, CLDR = f"{TOP}/languages/uca_files.py", "/usr/bin/python3", languages.CLDR
CODES = "/usr/share/iso-codes/json/iso_{}.json"
LOCALES = "/usr/share/locale/*/LC_MESSAGES/iso_*.mo"
SCRIPTS = {"latin": "Latn", "cyrillic": "Cyrl", "iqtelif": "Latn"}
# The order of names in Polish, and tags with another name in CLDR.
NAMES = ["Anna Zych", "Annabel", "Lutek", "Łapka", "Zych", "Żak"]
OTHERWISE = {"iw": "he", "en-us-posix": "en-US-POSIX", "cnr": "sr-ME", "zh-US": "zh-Hant-US", "in": "id", "sh": "sr-Latn", "tl": "fil", "mo": "ro", "no_NO": "no-NO", "root": "und", "zh_TW": "zh-Hant-TW", "de-u-co-phonebook": "de-u-co-phonebk"}
TRADITIONAL = ["zh-Hant", "zh-TW", "zh-HK", "zh-MO", "yue"]
# Errors that docs/LANGUAGES.md has, by their locales.
DOCUMENTED = {"fr-CA": "fr-CA-u-kb-false is the order without this"}
LISTS = {"pl": "iso_3166-1", "de": "iso_3166-1", "sv": "iso_639-2", "ru": "iso_3166-1", "ja": "iso_3166-1", "zh": "iso_3166-1", "ko": "iso_639-2"}
MOVES, SIZES = 20, ("4k", "64k", "1m", "2m", "2500k")


class Tries:
    """What all parts need: the program, a folder, and the counts."""

    def __init__(self, options, room):
        self.uca, self.room, self.jobs = os.path.abspath(options.uca), room, options.jobs
        self.counts = collections.Counter()

    def see(self, holds, said):
        print(f"{'ok  ' if holds else 'NOT '}{said}", flush=True)
        self.counts[bool(holds)] += 1

    def skip(self, said):
        print(f"not run: {said}", flush=True)
        self.counts["skipped"] += 1

    def words(self, *arguments):
        return [PYTHON, TOOL, "--uca", self.uca, *arguments]

    def streams(self, home, **more):
        """How a call is run whose files are kept in a folder of this run."""
        environment = {**os.environ, "XDG_DATA_HOME": f"{self.room}/{home}", "XDG_DATA_DIRS": f"{self.room}/none", **more}
        return {"env": environment, "stdout": subprocess.PIPE, "stderr": subprocess.PIPE}

    def call(self, *arguments, home="home", given=b"", **others):
        """The status, what is printed, and the errors."""
        done = subprocess.run(self.words(*arguments), input=given, check=False, **{**self.streams(home), **others})
        return done.returncode, done.stdout.decode().splitlines(), done.stderr.decode().strip()

    def run(self, *arguments, given=b""):
        """What the program prints."""
        return subprocess.run([self.uca, *arguments], input=given, capture_output=True, check=False).stdout


def contents(path):
    """The files of a folder, by their names; None if it is not there."""
    if not os.path.exists(path):
        return None
    return {it: open(f"{path}/{it}", "rb").read() for it in os.listdir(path)}


def hidden(folder):
    return [it for it in os.listdir(folder) if it.startswith(".")] if os.path.exists(folder) else []


# ---- Tags


def codes():
    """All codes of languages that iso-codes has."""
    found = set()
    for part in ("639-2", "639-3", "639-5"):
        with open(CODES.format(part), encoding="utf-8") as file:
            for row in json.load(file)[part]:
                found |= {row[it] for it in ("alpha_2", "alpha_3", "bibliographic") if it in row}
    return sorted(found - {"qaa-qtz"})  # which is a range of codes


def locales():
    """The tags of the translations that iso-codes has, such as `sr-Latn` for `sr@latin`."""
    tags = set()
    for name in {it.split("/")[4] for it in glob.glob(LOCALES)}:
        locale, _, script = name.partition("@")
        language, _, region = locale.partition("_")
        tags.add("-".join(filter(None, [language, SCRIPTS.get(script, ""), region])))
    return sorted(tags | {*DOCUMENTED})


def read_all(tries, tags):
    """One tag of each order, by its rules. Each tag is read, or is no language of CLDR."""
    orders, unknown, wrong = {}, [], []
    for tag in tags:
        try:
            orders.setdefault(kind_and_rules(CLDR, read_tag(CLDR, tag).name), tag)
        except CldrError as error:
            (unknown if str(error) == f"{tag}: `{tag}` is no language of CLDR" else wrong).append(f"{tag}: {error}")
    said = f"{len(tags)} tags: {len(tags) - len(unknown) - len(wrong)} are read, of {len(orders)} orders, and {len(unknown)} are no languages of CLDR"
    tries.see(orders and not wrong, said + "".join(f"; {it}" for it in wrong[:5]))
    return orders


def makes(tries, tag):
    """What is wrong with the files of a tag; nothing if they are well-formed and name the weighting."""
    status, out, said = tries.call(tag, home="tables")
    if tag in DOCUMENTED:
        return "" if status == 1 and not out and DOCUMENTED[tag] in said else f"{tag}: status {status}, {said}"
    if status or len(out) != 2:
        return f"{tag}: status {status}, {said}"
    has_sentence = "CLDR has no rules of its own" in said
    weighting = "shifted" if "[alternate shifted]" in kind_and_rules(CLDR, read_tag(CLDR, tag).name)[1] else "non-ignorable"
    same = tries.run("fingerprint", *out) == tries.run("fingerprint", "--weighting", weighting, *out) != b""
    whole = tries.run("check", *out) == b"well-formed\n"
    return "" if whole and same and has_sentence != read_tag(CLDR, tag).has_rules else f"{tag}: well-formed {whole}, weighting {same}, said {said!r}"


def make_all(tries, tags):
    with ThreadPoolExecutor(tries.jobs) as pool:
        wrong = [it for it in pool.map(lambda tag: makes(tries, tag), tags) if it]
    tries.see(not wrong, f"{len(tags)} tables are made, or have their error" + "".join(f"; {it}" for it in wrong[:5]))


def other_names(tries):
    for tag, wanted in OTHERWISE.items():
        _, out, said = tries.call(tag)
        tries.see(out and out[0].split("/")[-2] == wanted, f"{tag} is kept as {wanted} {said}")
    rows = {tag: [it for it in open(tries.call(tag)[1][0], "rb") if not it.startswith(b"#")] for tag in TRADITIONAL}
    tries.see(all(it == rows["zh-Hant"] for it in rows.values()), f"{', '.join(TRADITIONAL)} have one table")


# ---- Lists


def list_of(language, part):
    """The names of a list of iso-codes in a language, by its translations."""
    places = glob.glob(f"/usr/share/locale/{'zh_CN' if language == 'zh' else language}/LC_MESSAGES/{part}.mo")
    with open(places[0], "rb") as file:
        found = gettext.GNUTranslations(file)._catalog
    return sorted({it for it in found.values() if it and "\n" not in it})


def lists(tries):
    line = f"uca() {{ {tries.uca} \"$@\"; }}; uca-files() {{ {' '.join(tries.words())} \"$@\"; }}; uca sort $(uca-files pl)"
    done = subprocess.run(["bash", "-c", line], input="".join(f"{it}\n" for it in reversed(NAMES)).encode(), **tries.streams("home"), check=False)
    tries.see(done.stdout.decode().splitlines() == NAMES, f"six names in Polish: {done.stdout.decode().split()} {done.stderr.decode()}")
    for tag, part in LISTS.items():
        lines = "".join(f"{it}\n" for it in list_of(tag, part)).encode()
        files, room = tries.call(tag)[1], tempfile.mkdtemp(dir=tries.room)
        labels = subprocess.run(tries.words("--labels", tag), **tries.streams("home"), check=True).stdout
        for name, text in (("labels", labels), ("keys", tries.run("keys", "--lines", "--header", *files, given=b"".join(it.split(b"\t")[0] + b"\n" for it in labels.splitlines())))):
            with open(f"{room}/{name}", "wb") as file:
                file.write(text)
        words = [PYTHON, f"{TOP}/examples/databases/from_keys.py", "buckets", f"{room}/labels", f"{room}/keys"]
        wanted = subprocess.run(words, input=tries.run("keys", "--lines", "--header", *files, given=tries.run("sort", *files, given=lines)), stdout=subprocess.PIPE, check=True).stdout
        got = "".join(f"{it}\n" for it in tries.call("--buckets", tag, given=lines)[1]).encode()
        tries.see(got == wanted != b"", f"{tag}: {len(lines.splitlines())} lines in {len(set(it.split(b'	')[0] for it in got.splitlines()))} buckets")


# ---- Calls that do not end, and disks that are full


def at_once(tries):
    calls = [subprocess.Popen(tries.words("cs"), **tries.streams("once")) for _ in range(4)]
    found = {it.communicate()[0] for it in calls}
    tries.see(len(found) == 1 and all(it.returncode == 0 for it in calls) and not hidden(f"{tries.room}/once/uca"), "four calls at once print the same paths")
    tries.see(tries.run("check", *found.pop().decode().split()) == b"well-formed\n", "what they made is well-formed")


def killed(tries):
    begun = time.time()
    path = os.path.dirname(tries.call("cs", home="whole")[1][0])
    taken, whole, seen = time.time() - begun, contents(path), collections.Counter()
    for part in range(1, MOVES + 1):
        call = subprocess.Popen(tries.words("cs"), **tries.streams(f"killed{part}"))
        time.sleep(taken * part / (MOVES - 2))
        call.send_signal(signal.SIGKILL)
        call.communicate()
        found = contents(path.replace("/whole/", f"/killed{part}/"))
        seen["none" if found is None else "whole" if found == whole else "other"] += 1
    tries.see(seen["none"] and not seen["other"], f"{MOVES} calls were killed: {seen['none']} left no files at their place, and {seen['whole']} all of them")
    done = tries.call("cs", home="killed1")
    tries.see(done[0] == 0 and contents(os.path.dirname(done[1][0])) == whole, "a call after a killed one makes the same files")


def full(tries):
    place = f"{tries.room}/full"
    os.mkdir(place)
    if subprocess.run(["mount", "-t", "tmpfs", "-o", f"size={SIZES[0]}", "none", place], check=False, stderr=subprocess.DEVNULL).returncode:
        tries.skip("full disks need the rights of root")
        return
    try:
        for size in SIZES:
            subprocess.run(["mount", "-o", f"remount,size={size}", place], check=True)
            status, out, said = tries.call("--into", f"{place}/kept", "cs")
            is_empty = not glob.glob(f"{place}/kept/*/*") and not hidden(f"{place}/kept")
            tries.see(status == 1 and not out and said == f"{place}/kept: No space left on device" and is_empty, f"a disk of {size}: {said}")
        subprocess.run(["mount", "-o", "remount,size=20m", place], check=True)
        tries.see(tries.call("--into", f"{place}/kept", "cs")[0] == 0, "then a disk with room")
    finally:
        subprocess.run(["umount", place], check=True)


def other_user(tries):
    """A folder of the administrator, which another user reads and cannot write."""
    if os.getuid():
        tries.skip("another user needs the rights of root")
        return
    system, user = f"{tries.room}/system", f"{tries.room}/user"
    os.mkdir(user)
    shutil.chown(user, "nobody")
    os.chmod(tries.room, 0o755)
    tries.call("--into", f"{system}/uca", "cs")
    streams = {**tries.streams("user", XDG_DATA_DIRS=system), "user": "nobody"}
    status, out, said = tries.call("cs", **streams)
    tries.see(status == 0 and out[0].startswith(f"{system}/uca/"), f"another user gets the administrator's files {said}")
    status, out, said = tries.call("sk", **streams)
    tries.see(status == 0 and out[0].startswith(f"{user}/uca/"), f"and makes others in the folder of its own {said}")
    status, out, said = tries.call("--into", f"{system}/uca", "sk", **streams)
    tries.see(status == 1 and not out and said.endswith("Permission denied: name another folder by --into FOLDER"), f"it cannot write there: {said}")
    for path in (f"{system}/uca/15.0.0-cldr41", f"{system}/uca"):
        os.chmod(path, 0o700)
        status, out, said = tries.call("cs", **streams)
        tries.see(status == 1 and not out and "Permission denied" in said, f"a folder that it may not read: {said}")
        os.chmod(path, 0o755)


# ---- Editions


def two_editions(tries):
    if packages.missing(["perl-modules-5.36"]):
        tries.skip("two editions need Debian's perl-modules-5.36")
        return
    folder = f"{tries.room}/older"
    shutil.copytree(unicode_files.FOLDER, folder, symlinks=True, ignore=shutil.ignore_patterns("allkeys.txt", "cldr", "*Test*"))
    shutil.copy(packages.OLD_KEYS, f"{folder}/allkeys.txt")
    newer = tries.call("cs")[1]
    before = contents(os.path.dirname(newer[0]))
    kept = f"{tries.room}/home/uca"
    status, _, said = tries.call("--unicode", folder, "--into", kept, "cs")
    tries.see(status == 0, f"an older edition is made beside the newer one {said}")
    status, out, said = tries.call("cs")
    tries.see(status == 1 and not out and "keeps several editions" in said, said)
    status, out, said = tries.call("--edition", "13.0.0-cldr41", "--book", "cs")
    tries.see(status == 1 and not out and "cannot be made of 15.0.0-cldr41" in said, said)
    tries.see(tries.call("--edition", newer[0].split("/")[-3], "cs")[1] == newer and contents(os.path.dirname(newer[0])) == before, "the newer one is as it was")
    rows = [it.split("\t") for it in tries.call("--list")[1] if it.startswith("cs\t")]
    tries.see(len(rows) == 2 and rows[0][2] != rows[1][2] and all(it[2] == tries.run("fingerprint", f"{it[3]}/table.txt", f"{it[3]}/data.txt").decode().strip() for it in rows), "--list has both")


def main():
    parser = argparse.ArgumentParser(description=__doc__.split("\n", maxsplit=1)[0])
    parser.add_argument("--uca", default=f"{TOP}/crates/uca/out/uca", help="the program")
    parser.add_argument("--read", action="store_true", help="without the tables of all languages")
    parser.add_argument("--jobs", type=int, default=3, help="how many tables are made at once (3)")
    options = parser.parse_args()
    packages.stop_without(NEEDS)
    with tempfile.TemporaryDirectory(prefix="uca-files-") as room:
        tries = Tries(options, room)
        read_all(tries, codes())
        orders = read_all(tries, locales())
        for part in (other_names, lists, at_once, killed, full, other_user, two_editions):
            part(tries)
        if options.read:
            tries.skip("the tables of all languages")
        else:
            make_all(tries, list(orders.values()))
        counts = tries.counts
    skipped = f", {counts['skipped']} not run" if counts["skipped"] else ""
    print(f"{counts[True]} passed, {counts[False]} failed{skipped}")
    return 1 if counts[False] else 0


if __name__ == "__main__":
    sys.exit(main())
