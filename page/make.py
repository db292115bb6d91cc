#!/usr/bin/env python3
"""Makes what the page needs, in page/made: the modules, Unicode's files, and the rules and tables of languages.

    page/make.py                      all of it, anew
    page/make.py modules              the WebAssembly modules alone; also `files` (Unicode's files), and `languages`
    page/make.py languages sv de zh   these languages alone; --jobs N makes N of them side by side

The modules come from the crate uca_command_in_memory. The kit proves it, and makes an LLVM module of it for x86-64. This script compiles that module once more, for WebAssembly,
and links it with heap.c. No proof covers these last two steps: the script prints what is trusted in them, and docs/PAGE.md says more. `uca.wasm` has 64-bit
addresses. `uca32.wasm` is for other browsers, and is made where Debian's binaryen is there (`wasm-opt`).

The script stops where the kit is another one than it knows, or where the LLVM module is not as it expects.
"""
import argparse
import hashlib
import os
import re
import shutil
import subprocess
import sys
import tempfile

sys.dont_write_bytecode = True
HERE = os.path.dirname(os.path.realpath(__file__))
TOP, MADE = os.path.dirname(HERE), f"{HERE}/made"
sys.path[:0] = [f"{TOP}/tools", f"{TOP}/languages", HERE]
import build
import kit
import languages_list
from wasm_tables import with_narrow_table

# The kits whose LLVM modules were looked at.
KITS = ["rattle-kit-13f"]
EXPORTS = ["uca_run"]

# The head of the kit's module, and what takes its place. Both layouts have pointers of 64 bits, and equal alignments.
X86_LAYOUT = "e-m:e-p270:32:32-p271:32:32-p272:64:64-i64:64-i128:128-f80:128-n8:16:32:64-S128"
WASM_LAYOUT = "e-m:e-p:64:64-p10:8:8-p20:8:8-i64:64-i128:128-n32:64-S128-ni:1:10:20"
X86_TARGET, WASM_TARGET = "x86_64-unknown-linux-gnu", "wasm64-unknown-unknown"
X86_ATTRIBUTE = re.compile(r'"(?:probe-stack|stack-probe-size|target-cpu|target-features|tune-cpu)"="[^"]*" ?')

COMPILE = [f"--target={WASM_TARGET}", "-mcpu=lime1", "-ffunction-sections", "-fdata-sections", "-O3"]
# At most 4 GB of memory, in both modules. A greatest size lets an engine keep the addresses free, so that it moves nothing as memory gets larger.
LINK = "-mwasm64 --no-entry --stack-first -z stack-size=1048576 --max-memory=4294967296 --gc-sections --strip-all --export=__heap_base".split()
LOWER = "--enable-memory64 --enable-bulk-memory --enable-sign-ext --enable-nontrapping-float-to-int --enable-mutable-globals --enable-multivalue"
LOWER = [*LOWER.split(), "--memory64-lowering"]

# The clang that keeps the module that it is given, and passes it on.
KEEPER = """#!/bin/sh
for it; do case $it in *.bc) cp "$it" "{kept}"; esac; done
exec "{clang}" "$@"
"""

TRUSTED = """trusted beyond what the program for Linux trusts:
- that the LLVM module of the kit means the same under the layout of WebAssembly;
- clang's code for WebAssembly, and wasm-opt for uca32.wasm;
- page/heap.c: the heap, and products and shifts of 128 bits;
- page/wasm_tables.py, which narrows the indexes of the function table;
- page/uca.js, which passes bytes to the module, and the engine of the browser."""


def run(*words, **others):
    return subprocess.run(words, check=True, **others)


def kit_folder():
    """The folder of the kit, if it is one that this script knows."""
    said = run("rt", "version", capture_output=True, text=True).stdout.strip()
    if said.split()[:1] not in [[it] for it in KITS]:
        sys.exit(f"page/make.py knows {', '.join(KITS)}, and this kit is {said}. Look at its LLVM module, and add it to KITS")
    folder = os.path.dirname(run("rt", "doc", capture_output=True, text=True).stdout.strip())
    for name in ("clang", "ld.lld"):
        if not os.path.exists(f"{folder}/toolchain/bin/{name}"):
            sys.exit(f"the kit has no {name}")
    targets = run(f"{folder}/toolchain/bin/clang", "--print-targets", capture_output=True, text=True).stdout
    if "wasm64" not in targets:
        sys.exit("the clang of the kit knows no WebAssembly")
    return folder


def keeping_toolchain(kit_at, folder):
    """Makes a toolchain whose clang keeps what it compiles."""
    os.makedirs(f"{folder}/bin")
    os.symlink(f"{kit_at}/toolchain/lib", f"{folder}/lib")
    for name in os.listdir(f"{kit_at}/toolchain/bin"):
        if name != "clang":
            os.symlink(f"{kit_at}/toolchain/bin/{name}", f"{folder}/bin/{name}")
    with open(f"{folder}/bin/clang", "w", encoding="utf-8") as it:
        it.write(KEEPER.format(kept=f"{folder}/module.bc", clang=f"{kit_at}/toolchain/bin/clang"))
    os.chmod(f"{folder}/bin/clang", 0o755)


def proved_module(kit_at, folder):
    """Proves the crate uca_command_in_memory from nothing and builds it. Returns the LLVM module that it was built from."""
    rt = kit.opened("crates", "lanes", "machine", instead="page/make.py needs it")
    if not rt:
        sys.exit("this kit is not as tools/kit.py knows it")
    crate = rt.crates["uca_command_in_memory"]
    keeping_toolchain(kit_at, folder)
    if crate.below() and not build.build(rt, crate.below()):
        sys.exit("a crate below uca_command_in_memory is not proved")
    made = build.Builder(rt, [crate])
    crate.toolchain = folder
    with rt.held([crate]):
        if not made.prove(crate, made.processes(crate, {it.name: True for it in crate.below()})):
            sys.exit("the crate uca_command_in_memory is not proved")
    return f"{folder}/module.bc"


def for_wasm(text):
    """The text of the kit's LLVM module, with the head that WebAssembly has and without attributes of x86-64."""
    heads = {"datalayout": (X86_LAYOUT, WASM_LAYOUT), "triple": (X86_TARGET, WASM_TARGET)}
    for name, (old, new) in heads.items():
        line = f'target {name} = "{old}"\n'
        if text.count(line) != 1:
            sys.exit(f"the kit's LLVM module has another {name}: {re.findall(f'(?m)^target {name} = .*', text)}")
        text = text.replace(line, f'target {name} = "{new}"\n')
    return X86_ATTRIBUTE.sub("", text)


def imports_of(module):
    """How many things a WebAssembly module asks of its host."""
    from wasm_tables import Reader
    reader = Reader(module, 8)
    while reader.at < len(module):
        kind, length = reader.byte(), reader.number()
        if kind == 2:
            return reader.number()
        reader.part(length)
    return 0


def prepare(kit_at, folder):
    """Puts heap.c, compiled, and the linker of WebAssembly into a folder."""
    os.symlink(f"{kit_at}/toolchain/bin/ld.lld", f"{folder}/wasm-ld")
    clang = f"{kit_at}/toolchain/bin/clang"
    run(clang, *COMPILE, "-ffreestanding", "-fno-builtin", "-c", f"{HERE}/heap.c", "-o", f"{folder}/heap.o")


def link(clang, folder, flags):
    """Compiles the changed module with these flags, links it with heap.c, and returns its bytes."""
    run(clang, *COMPILE, *flags, "-x", "ir", "-c", f"{folder}/module.ll", "-o", f"{folder}/module.o")
    exports = [f"--export={it}" for it in EXPORTS]
    run(f"{folder}/wasm-ld", *LINK, *exports, "-o", f"{folder}/linked.wasm", f"{folder}/module.o", f"{folder}/heap.o")
    with open(f"{folder}/linked.wasm", "rb") as it:
        return with_narrow_table(it.read())


def keep(name, module):
    if imports_of(module):
        sys.exit(f"{name} asks something of its host")
    with open(f"{MADE}/{name}", "wb") as it:
        it.write(module)
    print(f"{name}: {len(module)} bytes, SHA-256 {hashlib.sha256(module).hexdigest()}")


def make_modules():
    """Proves the crate, and makes both modules of it."""
    kit_at = kit_folder()
    clang = f"{kit_at}/toolchain/bin/clang"
    with tempfile.TemporaryDirectory() as folder:
        module = proved_module(kit_at, f"{folder}/toolchain")
        run(clang, "-x", "ir", "-S", "-emit-llvm", "-O0", module, "-o", f"{folder}/x86.ll")
        with open(f"{folder}/x86.ll", encoding="utf-8", errors="surrogateescape") as it:
            text = for_wasm(it.read())
        with open(f"{folder}/module.ll", "w", encoding="utf-8", errors="surrogateescape") as it:
            it.write(text)
        prepare(kit_at, folder)
        keep("uca.wasm", link(clang, folder, ["-msimd128"]))
        if not shutil.which("wasm-opt"):
            print("uca32.wasm is not made, for lack of Debian's binaryen")
            return
        with open(f"{folder}/wide.wasm", "wb") as it:
            it.write(link(clang, folder, []))
        run("wasm-opt", *LOWER, f"{folder}/wide.wasm", "-o", f"{folder}/narrow.wasm")
        with open(f"{folder}/narrow.wasm", "rb") as it:
            keep("uca32.wasm", it.read())


def without_comments(table):
    """A table without its comments, which means the same and has half the bytes."""
    return "".join(f"{line.split('#')[0].rstrip()}\n" for line in table.splitlines() if not line.startswith("#"))


def make_files():
    """Makes Unicode's table, without its comments, and its data file."""
    for name in ("table", "data"):
        text = run(sys.executable, f"{TOP}/languages/unicode_files.py", name, capture_output=True, text=True).stdout
        with open(f"{MADE}/{name}.txt", "w", encoding="utf-8") as it:
            it.write(without_comments(text) if name == "table" else text)
        print(f"{name}.txt: {os.path.getsize(f'{MADE}/{name}.txt')} bytes")


def main():
    parser = argparse.ArgumentParser(description=__doc__.split("\n")[0], epilog="docs/PAGE.md says more.")
    parser.add_argument("part", nargs="?", choices=["all", "modules", "files", "languages"], default="all")
    parser.add_argument("tags", nargs="*", metavar="TAG", help="the languages that are made, such as sv")
    parser.add_argument("--tables", action="store_true", help="a table of each language, and one with upper case first, too (one to five megabytes each)")
    parser.add_argument("--jobs", type=int, default=1, help="how many languages are made side by side")
    options = parser.parse_args()
    os.makedirs(MADE, exist_ok=True)
    if options.part in ("all", "modules"):
        make_modules()
        print(TRUSTED)
    if options.part in ("all", "files"):
        make_files()
    if options.part in ("all", "languages"):
        languages_list.make(MADE, options.tags, options.jobs, options.tables)


if __name__ == "__main__":
    main()
