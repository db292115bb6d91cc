#!/usr/bin/env python3
"""Tests what page/make.py adds to a proved module: the heap and the arithmetic of page/heap.c, and the table of functions that page/wasm_tables.py narrows.

A module in C takes, moves and gives back blocks, and multiplies and shifts numbers of 128 bits. It is made as page/make.py makes the modules of the
page: with 64-bit addresses, and with 32-bit ones where `wasm-opt` is there. Node runs it, and compares. It takes seconds, and needs the kit, Node and Debian's
binaryen. The last line is `N passed, M failed`.
"""
import argparse
import os
import re
import shutil
import subprocess
import sys
import tempfile

sys.dont_write_bytecode = True
HERE = os.path.dirname(os.path.realpath(__file__))
TOP = os.path.dirname(os.path.dirname(HERE))
sys.path.insert(0, f"{TOP}/page")
import make

NEEDS, WANTS = ["nodejs"], ["binaryen"]
NODE = ["node", "--experimental-wasm-memory64", f"{HERE}/page_heap.mjs"]


def modules(folder):
    """Makes the modules, and returns their paths."""
    kit_at = make.kit_folder()
    clang = f"{kit_at}/toolchain/bin/clang"
    source = f"{HERE}/page_heap.c"
    with open(source, encoding="utf-8") as it:
        make.EXPORTS[:] = re.findall(r"(?m)^(?:u64|void) (\w+)\(.*\{", it.read())
    make.run(clang, "-O1", "-x", "c", "-S", "-emit-llvm", source, "-o", f"{folder}/x86.ll")
    with open(f"{folder}/x86.ll", encoding="utf-8") as it, open(f"{folder}/module.ll", "w", encoding="utf-8") as to:
        to.write(make.for_wasm(it.read()))
    make.prepare(kit_at, folder)
    for name, flags in (("wide", ["-msimd128"]), ("plain", [])):
        with open(f"{folder}/{name}.wasm", "wb") as it:
            it.write(make.link(clang, folder, flags))
    if not shutil.which("wasm-opt"):
        return [f"{folder}/wide.wasm"]
    make.run("wasm-opt", *make.LOWER, f"{folder}/plain.wasm", "-o", f"{folder}/narrow.wasm")
    return [f"{folder}/wide.wasm", f"{folder}/narrow.wasm"]


def main():
    passed = failed = 0
    with tempfile.TemporaryDirectory() as folder:
        for module in modules(folder):
            said = subprocess.run([*NODE, module], capture_output=True, text=True, check=False)
            print(f"{os.path.basename(module)}: {said.stdout.strip() or said.stderr.strip()}")
            counts = re.search(r"(\d+) passed, (\d+) failed\n$", said.stdout)
            passed += int(counts[1]) if counts else 0
            failed += int(counts[2]) if counts else 1
    print(f"{passed} passed, {failed} failed")
    return 1 if failed else 0


if __name__ == "__main__":
    parser = argparse.ArgumentParser(description=__doc__.split("\n")[0])
    parser.add_argument("--uca", help="the program, which this test does not need")
    parser.parse_args()
    sys.exit(main())
