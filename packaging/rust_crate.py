#!/usr/bin/env python3
"""Makes the crate for Rust, with the library and the licenses inside: a file that `cargo` takes, and that can be unpacked and named by its path.

    packaging/rust_crate.py [--out FOLDER]        dist/, unless another folder is named

The library is proved and built first, as far as it is not (tools/build.py). It needs cargo, and Debian's packages gcc, make and binutils. It uses no network. The
last line names the file.
"""
import argparse
import os
import shutil
import subprocess
import sys
import tempfile

import made

TARGET = "x86_64-unknown-linux-gnu"


def make(out):
    """Makes the crate, and returns the name of its file."""
    os.umask(0o022)
    made.stop_without("gcc", "make", "binutils")
    if not shutil.which("cargo"):
        print("install cargo first", file=sys.stderr)
        sys.exit(2)
    made.build("uca_c", "uca_command_in_memory")
    with tempfile.TemporaryDirectory(prefix="uca-crate-") as work:
        bindings = made.copy_of_bindings(work)
        crate = f"{bindings}/rust"
        for name in made.LICENSES:
            made.put(f"{made.TOP}/{name}", f"{crate}/{name}")
        made.put(f"{bindings}/c/out/libuca.a", f"{crate}/lib/{TARGET}/libuca.a")
        made.run("strip", "--strip-debug", "--enable-deterministic-archives", f"{crate}/lib/{TARGET}/libuca.a")
        made.settle(crate)
        made.run("cargo", "package", "-q", "--offline", "--no-verify", cwd=crate, stderr=subprocess.DEVNULL, more={"CARGO_TARGET_DIR": f"{work}/target"})
        name = f"uca-{made.version()}.crate"
        os.makedirs(out, exist_ok=True)
        shutil.copyfile(f"{work}/target/package/{name}", f"{out}/{name}")
    return name


def main():
    parser = argparse.ArgumentParser(description=__doc__, formatter_class=argparse.RawDescriptionHelpFormatter)
    parser.add_argument("--out", default=made.DIST, metavar="FOLDER", help="the folder of the crate")
    given = parser.parse_args()
    print(f"{given.out}/{make(os.path.abspath(given.out))}")


if __name__ == "__main__":
    sys.dont_write_bytecode = True
    main()
