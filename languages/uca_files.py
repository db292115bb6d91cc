#!/usr/bin/env python3
"""Makes the table and the data file of a language once, keeps them, and prints where they are.

    uca-files pl                       two lines, for `uca sort $(uca-files pl) < names.txt`
    uca-files --book pl                a third line: a book for compact keys by this table
    uca-files --list                   what is kept: the tag, its edition, its fingerprint and its folder
    uca-files --names                  all languages and variants by plain names, such as `German, phone book: de-u-co-phonebk`
    uca-files --labels pl              where each part of an index begins, a tab, and its label
    uca-files --buckets pl < LINES     the lines in their order, each after its label and a tab

The files of a tag are FOLDER/EDITION/TAG/table.txt, data.txt and book.txt. FOLDER is that of --into, else the folder uca of $XDG_DATA_HOME (~/.local/share). The
folders uca of $XDG_DATA_DIRS (/usr/local/share and /usr/share) are read too. EDITION is such as 15.0.0-cldr41: that of Unicode's table and the version of CLDR.

What is kept is given, whatever packages are installed now, and never written over. Where several editions of a tag are kept, --edition names one. What is not
kept is made of the files of Debian's packages unicode-data and unicode-cldr-core. Other folders of such files need --into. `uca` has to accept the table first.

The status is 0, or 1 after an error with a sentence, or 2 for wrong arguments. docs/LANGUAGES.md says more.
"""
import argparse
import contextlib
import errno
import glob
import itertools
import os
import re
import shutil
import sys
import tempfile
import time
from typing import NamedTuple

sys.dont_write_bytecode = True
import cldr_rules
import languages
import unicode_files
from cldr_rules import CldrError
from index_buckets import buckets
from index_labels import index_labels
from language_names import all_names
from language_tags import NO_RULES, parts_of, read_tag

EDITION = re.compile(r"[0-9.]+-cldr[0-9.]+")
HIDDEN = ".making-"  # begins the name of a folder in which files are made
LEFT = 86_400  # after so many seconds such a folder is one of a call that was killed
TORN = re.compile("[\\s*?\\[\\\\\udc80-\udcff]")  # what a shell would part or change in a path, or uca would not take


class Kept(NamedTuple):
    """The files of a tag in an edition, in one of the folders."""

    folder: str
    edition: str
    tag: str

    @property
    def path(self):
        return os.path.join(self.folder, self.edition, self.tag)

    def file(self, name):
        return os.path.join(self.path, name)

    @property
    def files(self):
        """The table and the data file."""
        return self.file("table.txt"), self.file("data.txt")


def put(lines):
    """Prints lines, which are bytes or texts."""
    sys.stdout.buffer.writelines((it if isinstance(it, bytes) else it.encode("utf-8", "surrogateescape")) + b"\n" for it in lines)


# ---- What is kept


def folders(options):
    """Where files are looked for. They are made in the first folder."""
    if options.into is not None:
        return [os.path.abspath(options.into)]
    home = os.environ.get("XDG_DATA_HOME", "")
    if not home.startswith("/"):
        home = os.path.expanduser("~/.local/share")
        if not home.startswith("/") or os.environ.get("HOME") == "":
            raise CldrError(f"the home folder is {os.environ.get('HOME', '')!a}, which is no absolute path: name a folder by --into FOLDER")
    others = os.environ.get("XDG_DATA_DIRS") or "/usr/local/share:/usr/share"
    return [os.path.join(it, "uca") for it in dict.fromkeys([home, *others.split(":")]) if it.startswith("/")]


def is_there(path):
    """Whether a file or a folder is there. It is an error if the user may not look."""
    with contextlib.suppress(FileNotFoundError, NotADirectoryError):
        return bool(os.stat(path))
    return False


def editions(folder):
    """The names of the editions in a folder. It is an error if the user may not read it."""
    return sorted(it for it in os.listdir(folder) if EDITION.fullmatch(it)) if is_there(folder) else []


def find(options, names):
    """The files of a tag by any of its names, in the first folder that has some, or None. It is an error if that folder has several editions, and none is asked for."""
    for folder in folders(options):
        asked = [it for it in editions(folder) if options.edition in (None, it)]
        found = {it.edition: it for it in (Kept(folder, edition, name) for edition in asked for name in names) if is_there(it.path)}
        if len(found) > 1:
            raise CldrError(f"{names[0]}: {folder} keeps several editions, {', '.join(found)}: name one by --edition")
        if found:
            return next(iter(found.values()))
    return None


def checked(kept):
    """The files of a tag, which have to be there under names that a shell leaves whole."""
    if torn := TORN.search(kept.path):
        raise CldrError(f"{kept.path!a}: a shell would not leave this path whole, because of {torn[0]!a}: name another folder by --into FOLDER")
    if lacking := [it for it in kept.files if not is_there(it)]:
        raise CldrError(f"{lacking[0]} is not there: take the folder {kept.path} away, and its files are made again")
    return kept


# ---- Making files


def sync(path):
    """Waits until a file or a folder is on the disk."""
    opened = os.open(path, os.O_RDONLY)
    try:
        os.fsync(opened)
    finally:
        os.close(opened)


def settle(paths):
    """Files that are whole: nobody writes them any more, and they are on the disk."""
    for path in paths:
        os.chmod(path, os.stat(path).st_mode & 0o444)
        sync(path)


@contextlib.contextmanager
def room_in(folder):
    """A hidden folder beside what is kept, for all files that are not whole yet. Those of calls that were killed are taken away a day later."""
    for left in glob.glob(os.path.join(glob.escape(folder), f"{HIDDEN}*")):
        with contextlib.suppress(OSError):  # such as that another call has taken its own away
            if os.path.getmtime(left) < time.time() - LEFT:
                shutil.rmtree(left)
    try:
        with tempfile.TemporaryDirectory(prefix=HIDDEN, dir=folder) as room:
            tempfile.tempdir = room
            yield room
    except OSError as error:
        error.filename = error.filename or folder  # the disk is full, for example
        raise
    finally:
        tempfile.tempdir = None


def check_packages(options):
    """Whether the files of both packages are there. An error names the command that brings them."""
    wanted = {"unicode-data": [os.path.join(options.unicode, "allkeys.txt"), *(unicode_files.place(options.unicode, it) for it in unicode_files.SOURCES)]}
    wanted["unicode-cldr-core"] = [os.path.join(options.cldr, "collation", "root.xml")]
    lacking = {name: [it for it in files if not os.path.exists(it)] for name, files in wanted.items()}
    names = [it for it, files in lacking.items() if files]
    if names:
        tags = sorted({os.path.basename(it) for folder in folders(options) for it in glob.glob(os.path.join(glob.escape(folder), "*-cldr*", "*"))})
        also = f". These tags are kept: {', '.join(tags)}" if tags else ""
        raise CldrError(f"there is no {lacking[names[0]][0]}: apt install {' '.join(names)}, or name the folders with such files by --unicode and --cldr, with --into FOLDER{also}")


def edition_of(options):
    """The edition of the files that are installed, or that are named."""
    keys = unicode_files.content(os.path.join(options.unicode, "allkeys.txt"))
    found = re.search(r"^@version ([0-9.]+)$", keys, re.M)
    if not found:
        raise CldrError(f"{options.unicode}/allkeys.txt names no version of Unicode")
    return f"{found[1]}-cldr{cldr_rules.version(options.cldr)}"


def check_edition(options, kept, what):
    """Whether more can be made for a table: the files of Unicode and CLDR have to be of its edition."""
    check_packages(options)
    if (found := edition_of(options)) != kept.edition:
        more = ". Or choose one by lines of your own: examples/books/choose_book.py" if what == "a book" else ""
        raise CldrError(f"{kept.path}: {what} for {kept.edition} cannot be made of {found}: name folders of its edition by --unicode, --cldr and --into {kept.folder}{more}")


def make(options, tag):
    """Makes the files of a tag in a hidden folder, and moves them to their place as a whole. If another call was faster, its files stay."""
    edition = edition_of(options)
    if options.edition not in (None, edition):
        raise CldrError(f"{tag.text}: the edition {options.edition} is not kept, and what is installed is {edition}")
    kept = Kept(folders(options)[0], edition, tag.text)
    if not TORN.search(kept.path):
        os.makedirs(os.path.dirname(kept.path), exist_ok=True)
        with room_in(kept.folder) as room:
            made = make_files(options, tag, room)
            try:
                os.rename(made, kept.path)
            except OSError as error:
                if error.errno not in (errno.EEXIST, errno.ENOTEMPTY):
                    error.filename = kept.path
                    raise
        for it in (os.path.dirname(kept.path), kept.folder):
            sync(it)
    return kept


def make_files(options, tag, room):
    """The table and the data file of a tag, in a new folder."""
    made = os.path.join(room, "made")
    os.mkdir(made)
    base = languages.write_by(unicode_files.print_table, os.path.join(room, "base"), os.path.join(options.unicode, "allkeys.txt"))
    data = languages.write_by(unicode_files.print_data, os.path.join(made, "data.txt"), options.unicode)
    languages.check_table(options, base, data)
    table = languages.write(os.path.join(made, "table.txt"), languages.judged_table(options, tag, base, data, unicode=options.unicode))
    settle([table, data])
    sync(made)
    return made


def book_of(options, kept):
    """The path of a book for the table of a tag, which is made where there is none."""
    path = kept.file("book.txt")
    if not os.path.exists(path):
        try:
            import table_books
        except ModuleNotFoundError as error:
            raise CldrError(f"there is no module {error.name}: books are not made without it") from error
        check_edition(options, kept, "a book")
        if not os.access(kept.path, os.W_OK):
            raise CldrError(f"{kept.path} has no book, and you cannot write there: whoever can makes it by uca-files --into {kept.folder} --book {kept.tag}")
        with room_in(kept.folder) as room:
            made = os.path.join(room, "book.txt")
            table_books.write_book(options, read_tag(options.cldr, kept.tag), *kept.files, made)
            settle([made])
            try:
                os.link(made, path)
            except FileExistsError:  # another call was faster
                pass
        sync(kept.path)
    return path


def names_of(options, text):
    """The names under which a tag is kept: the given one, and that of CLDR, such as `he` for `iw`."""
    try:
        return [text, read_tag(options.cldr, text).text]
    except CldrError:  # CLDR's files are not there, or have no such tag any more
        return [text]


def files_of(options, text):
    """The files of a tag, which are made where none are kept. A sentence says where its order is the root's."""
    parts_of(text)
    if options.is_own:
        check_packages(options)
        options.edition = options.edition or edition_of(options)
    kept = find(options, names_of(options, text))
    if not kept:
        check_packages(options)
        kept = make(options, read_tag(options.cldr, text))
    languages.tell(remark_of(checked(kept)))
    return kept


def remark_of(kept):
    """The sentence that a table has where its language has no rules of its own."""
    with open(kept.file("table.txt"), encoding="utf-8", errors="replace") as file:
        return next((it[2:].strip() for it in itertools.islice(file, 4) if it.endswith(f"{NO_RULES}\n")), "")


# ---- What is printed


def print_files(options):
    """The paths of all tags, once all files are there."""
    found = []
    for text in options.tags:
        kept = files_of(options, text)
        found += [*kept.files, *([book_of(options, kept)] if options.book else [])]
    put(map(os.fsencode, found))


def print_list(options):
    """What is kept in all folders. What cannot be read, and a table that the program rejects, are errors after the list."""
    uca, wrong = languages.program(options), []

    def read(call, folder):
        try:
            return sorted(call(folder))
        except OSError as error:
            wrong.append(sentence(error))
            return []

    places = ((folder, edition) for folder in folders(options) for edition in read(editions, folder))
    for kept in (Kept(*place, tag) for place in places for tag in read(os.listdir, os.path.join(*place))):
        out, said = languages.run([uca, "fingerprint", *kept.files])
        put(["\t".join([kept.tag, kept.edition, out.strip() or said, kept.path])])
        wrong += [] if out else [f"{kept.path}: {said}"]
    if wrong:
        raise CldrError("\n".join(wrong))


def print_names(options):
    put(sorted(f"{name}: {tag}" for name, tag in all_names(options.cldr)))


def labels_of(options, kept):
    """Where each part of an index begins, and its label. The table has to be whole, and of the edition of CLDR's files."""
    check_edition(options, kept, "an index")
    languages.check_table(options, *kept.files)
    return list(index_labels(read_tag(options.cldr, kept.tag), *kept.files, options.cldr, options.unicode))


def print_labels(options):
    put(f"{text}\t{label}" for text, label in labels_of(options, files_of(options, options.tags[0])))


def print_buckets(options):
    """Each line in order after the label of its bucket."""
    kept = files_of(options, options.tags[0])
    put(label + b"\t" + line for label, line in buckets(languages.program(options), kept.files, labels_of(options, kept), sys.stdin.buffer.read()))


# ---- Arguments


def arguments():
    parser = argparse.ArgumentParser(prog="uca-files", description=__doc__.split("\n", maxsplit=1)[0], epilog="uca sort $(uca-files pl) < names.txt")
    parser.add_argument("tags", nargs="*", metavar="TAG", help="a language tag, such as pl or de-u-co-phonebk")
    parser.add_argument("--into", metavar="FOLDER", help="where files are looked for and made (the folder uca of $XDG_DATA_HOME)")
    parser.add_argument("--edition", help="one of several editions that are kept, such as 15.0.0-cldr41")
    what = parser.add_mutually_exclusive_group()
    what.add_argument("--book", action="store_true", help="prints a third path: a book for compact keys")
    what.add_argument("--list", action="store_true", help="prints what is kept")
    what.add_argument("--names", action="store_true", help="prints all languages and variants by plain names")
    what.add_argument("--labels", action="store_true", help="prints the labels of an index")
    what.add_argument("--buckets", action="store_true", help="prints each line of standard input after its label")
    parser.add_argument("--unicode", metavar="FOLDER", default=unicode_files.FOLDER, help=f"Unicode's files ({unicode_files.FOLDER}); others need --into")
    parser.add_argument("--cldr", metavar="FOLDER", default=languages.CLDR, help=f"CLDR's files ({languages.CLDR}); others need --into")
    parser.add_argument("--uca", metavar="PROGRAM", help="the program uca")
    options = parser.parse_args()
    most = 0 if options.list or options.names else 1 if options.labels or options.buckets else None
    if most is not None and len(options.tags) != most or most is None and not options.tags:
        parser.error("a language is named by its tag, such as pl: --names lists them" if not options.tags else f"these are too many: {' '.join(options.tags[most:])}")
    options.is_own = (options.unicode, options.cldr) != (unicode_files.FOLDER, languages.CLDR)
    if options.is_own and options.into is None and not (options.list or options.names):
        parser.error("what is made of folders of your own is kept apart: name a folder for it by --into")
    return options


def sentence(error):
    """What is wrong, in a sentence."""
    if not isinstance(error, OSError):
        return str(error)
    more = ": name another folder by --into FOLDER" if error.errno in (errno.EACCES, errno.EPERM, errno.EROFS) else ""
    return f"{error.filename or 'the output'}: {error.strerror or error}{more}"


def main():
    options = arguments()
    if options.into is not None:
        os.umask(0o022)  # all users of the machine may read what is made there
    calls = {"list": print_list, "names": print_names, "labels": print_labels, "buckets": print_buckets}
    try:
        next((call for name, call in calls.items() if getattr(options, name)), print_files)(options)
        sys.stdout.flush()
    except BrokenPipeError:  # whoever reads has read enough
        sys.stdout = None
        sys.exit(141)  # as by the signal SIGPIPE
    except (CldrError, OSError) as error:
        sys.stdout = None  # what it has is not written any more
        sys.exit(sentence(error))
    except KeyboardInterrupt:
        sys.exit(130)


if __name__ == "__main__":
    main()
