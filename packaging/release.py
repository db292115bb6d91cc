#!/usr/bin/env python3
"""Makes all packages of a release in dist/, and SHA256SUMS beside them.

    packaging/release.py [--out FOLDER]        dist/, unless another folder is named

It runs what packaging/debian.py, packaging/wheel.py and packaging/rust_crate.py do, and names what these need. The folder must be empty or absent, or have an earlier
release, which is replaced. `sha256sum --check SHA256SUMS` tests the files. The last line says how many there are.
"""
import argparse
import hashlib
import os
import sys

import debian
import made
import rust_crate
import wheel

SUMS = "SHA256SUMS"


def sum_of(path):
    with open(path, "rb") as file:
        return hashlib.sha256(file.read()).hexdigest()


def take_away(out):
    """Takes away an earlier release, by its sums. Any other file in the folder is an error."""
    if not os.path.isdir(out):
        return
    names = {*os.listdir(out)}
    listed = set()
    if SUMS in names:
        with open(f"{out}/{SUMS}", encoding="utf-8") as file:
            listed = {line.split("  ", 1)[1].rstrip("\n") for line in file}
    if others := names - listed - {SUMS}:
        sys.exit(f"{out} has files of no release: {', '.join(sorted(others))}")
    for name in names:
        os.remove(f"{out}/{name}")


def make(out):
    """Makes all packages, and returns the names of their files."""
    take_away(out)
    names = [*debian.make([it.name for it in debian.PACKAGES], out), wheel.make(out), rust_crate.make(out)]
    sums = "".join(f"{sum_of(f'{out}/{it}')}  {it}\n" for it in sorted(names))
    made.write(f"{out}/{SUMS}", sums)
    return names


def main():
    parser = argparse.ArgumentParser(description=__doc__, formatter_class=argparse.RawDescriptionHelpFormatter)
    parser.add_argument("--out", default=made.DIST, metavar="FOLDER", help="the folder of the release")
    out = os.path.abspath(parser.parse_args().out)
    names = make(out)
    with open(f"{out}/{SUMS}", encoding="utf-8") as file:
        print(file.read(), end="")
    print(f"{len(names)} files in {out}")


if __name__ == "__main__":
    sys.dont_write_bytecode = True
    main()
