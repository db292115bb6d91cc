#!/bin/sh
# Installs uca and uca-files, their manual pages, completions, licenses and the pages for users. It lists each file that it writes.
#
#     tools/install.sh [PREFIX]                 PREFIX is /usr/local, unless it is given
#     tools/install.sh --uninstall [PREFIX]     takes away what the first form installed there, and lists it
#
# DESTDIR, if it is set, comes before PREFIX. The program is crates/uca/out/uca, which tools/build.py builds; PROGRAM names
# another one. A command that fails ends the script. bash, fish and man find their files below /usr/local and ~/.local by
# themselves; zsh finds its completion if PREFIX/share/zsh/site-functions is in fpath, as it is for /usr/local.
# share/doc/uca/installed_files has the list, by which --uninstall goes, and an installation in place of an earlier one. The scripts that
# make tables, and what they import, are in share/uca: an administrator may take away all documents.
set -eu

top=$(dirname "$0")/..
program=${PROGRAM:-$top/crates/uca/out/uca}

# Ends the script: REASON.
stop() {
    echo "$1" >&2
    echo "usage: tools/install.sh [--uninstall] [PREFIX]" >&2
    exit 2
}

case ${1:-} in
    -h | --help) sed -n -e 1d -e '/^#/!q' -e 's/^# \{0,1\}//p' "$0"; exit 0 ;;
esac
wanted=install
if [ "${1:-}" = --uninstall ]; then
    wanted=uninstall
    shift
fi
[ $# -le 1 ] || stop "one PREFIX is taken, and not $#"
# make takes PREFIX=FOLDER, and other scripts read a variable PREFIX: both would be installed elsewhere here
if [ $# = 0 ] && [ -n "${PREFIX+set}" ]; then
    stop "the variable PREFIX is not read: give the folder as an argument"
fi
prefix=${1-/usr/local}
case $prefix in
    /*) ;;
    -*) stop "there is no option $prefix" ;;
    *=*) stop "PREFIX is the name of a folder alone, such as /usr/local, and not $prefix" ;;
    *) stop "PREFIX begins with /, and is not '$prefix'" ;;
esac
to=${DESTDIR:-}$prefix
documents=share/doc/uca
own=share/uca
list=$documents/installed_files

# Pages for those who change uca. Where another page links to one, its text is left.
for_developers="CONTRIBUTING|ARCHITECTURE|RECIPES|GATE"

# Takes away what the list names, and the folders of documents that are empty then. Its lines are names of files below PREFIX.
uninstall() {
    while IFS= read -r file; do
        case /$file/ in
            //* | */../*) echo "$to/$list has a name that is none of an installation: $file" >&2; exit 1 ;;
        esac
        rm -f "$to/$file"
        [ "$wanted" = install ] || echo "$to/$file"
    done < "$to/$list"
    rm "$to/$list"
    # an administrator's tables are in $own too
    for folder in "$documents" "$own/languages" "$own/examples"; do
        [ ! -d "$to/$folder" ] || find "$to/$folder" -depth -type d -empty -delete
    done
    [ ! -d "$to/$own" ] || rmdir --ignore-fail-on-non-empty "$to/$own"
}

# Installs a file, makes the folders that it needs, and lists it: MODE FILE TARGET.
put() {
    install -D -m "$1" "$2" "$to/$3"
    echo "$3" >> "$to/$list"
    echo "$to/$3"
}

# Makes a link to another installed file or folder: TARGET NAME.
put_link() {
    install -d "$(dirname "$to/$2")"
    ln -sfT "$1" "$to/$2"
    echo "$2" >> "$to/$list"
    echo "$to/$2"
}

# Installs what the commands need, in a folder of their own: FILE...
put_own() {
    for file; do put "$(mode_of "$file")" "$top/$file" "$own/$file"; done
}

# The mode of an installed file: FILE.
mode_of() {
    if [ -x "$top/$1" ]; then echo 755; else echo 644; fi
}

# Installs a page, without links to the pages that are not installed: PAGE.
put_page() {
    put 644 "$top/$1" "$documents/$1"
    sed -E "s/\[([^]]*)\]\(([.a-z]+\/)*($for_developers)\.md[^)]*\)/\1/g" "$top/$1" > "$to/$documents/$1"
}

# Installs those of some files that are there, with their paths below the top of the repository: FILE...
put_documents() {
    for file; do
        case $file in
            *.md) put_page "$file" ;;
            *) [ ! -f "$top/$file" ] || put "$(mode_of "$file")" "$top/$file" "$documents/$file" ;;
        esac
    done
}

if [ "$wanted" = uninstall ]; then
    if ! [ -f "$to/$list" ]; then
        echo "there is no $to/$list, so nothing is known to be installed there" >&2
        exit 1
    fi
    uninstall
    exit 0
fi
if ! [ -x "$program" ]; then
    echo "there is no $program: run tools/build.py first" >&2
    exit 1
fi
[ ! -f "$to/$list" ] || uninstall
install -d "$to/$documents"
: > "$to/$list"
chmod 644 "$to/$list"

put 755 "$program" bin/uca
put 644 "$top/man/uca.1" share/man/man1/uca.1
put 644 "$top/man/uca-files.1" share/man/man1/uca-files.1
for name in uca uca-files; do
    put 644 "$top/completions/$name.bash" "share/bash-completion/completions/$name"
    put 644 "$top/completions/_$name" "share/zsh/site-functions/_$name"
    put 644 "$top/completions/$name.fish" "share/fish/vendor_completions.d/$name.fish"
done
put_documents LICENSE LICENSE-MIT LICENSE-APACHE NOTICE
put_documents README.md CHANGELOG.md SECURITY.md bench/README.md bench/time.svg bench/key_bytes.svg
# three scripts of examples/databases need tests/by_hand, which is not installed; two files of examples/books are in a folder of their own
for page in "$top"/docs/* "$top"/examples/* "$top"/examples/*/*; do
    case $(basename "$page") in
        ARCHITECTURE.md | RECIPES.md | GATE.md | run_all.py | tries_from_keys.py | local_servers.py | choose_book.py | general.book) ;;
        *) put_documents "${page#"$top"/}" ;;
    esac
done
for module in "$top"/languages/*.py; do
    put_own "${module#"$top"/}"
done
put_own examples/books/choose_book.py examples/books/general.book
put_link "../$own/languages/uca_files.py" bin/uca-files
# the pages name these by languages/ and examples/
put_link ../../uca/languages "$documents/languages"
for name in choose_book.py general.book; do
    put_link "../../../../uca/examples/books/$name" "$documents/examples/books/$name"
done
