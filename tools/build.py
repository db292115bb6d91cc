#!/usr/bin/env python3
"""Proves and builds the program `uca`: the short way to a first key.

    tools/build.py [CRATE..]          for other crates than `uca`: proves them and the libraries below them

The libraries are proved side by side, the longest chain first. Each is proved over the statements of those below it and not
over their proofs, as `rt ci` proves them. So this takes half of the time of `rt run`, which goes from crate to crate. What an
earlier run proved is kept in crates/*/out, if it has not changed since.

Only `rt ci` is the gate. This script does not search for contracts that no call can meet, and tries no tests and no edits.

The program is crates/uca/out/uca, and the archives of the static libraries are crates/uca_c/out/libuca_c.a and crates/uca_command_in_memory/out/libuca_command_in_memory.a. A line for each crate comes first. The last line says how long all took.
"""
import hashlib
import os
import sys
import time

import kit
import script_help

IDLE = ""

# A crate is checked by one process while other crates can be checked beside it. Where they leave three processors or more, it gets as many
# processes, and four at most: four check a crate in half the time, with a third more processor time. Two save next to nothing.
FEWEST_PROCESSES, MOST_PROCESSES = 3, 4

# What a further process of a check takes, as a part of the memory that the check takes by one.
MORE_MEMORY = 0.6


def digest(folder):
    """A sum of all files of a folder."""
    found = hashlib.sha256()
    for at, folders, files in os.walk(folder):
        folders.sort()
        for name in sorted(files):
            with open(f"{at}/{name}", "rb") as it:
                found.update(f"{at[len(folder):]}/{name}".encode() + hashlib.sha256(it.read()).digest())
    return found.hexdigest()


def stamp_beside(crate):
    """The file beside what a crate is built into that says from what it was built."""
    return f"{os.path.dirname(crate.product())}/{crate.name}.statements"


def text_of(file):
    if not os.path.isfile(file):
        return None
    with open(file, encoding="utf-8") as it:
        return it.read()


class Builder:
    """Proves crates over the statements of the libraries below them."""

    def __init__(self, rt, crates):
        self.rt, self.crates = rt, crates
        self.times, self.digests, self.begun = kit.Times(), {}, time.time()
        self.times.count(rt, IDLE)

    def stamp(self, crate):
        """A sum of all that a crate is proved from: its sources, the kit, and the built libraries below it."""
        sums = hashlib.sha256(crate.settings().encode())
        for file in crate.inputs():
            with open(file, "rb") as it:
                sums.update(repr((file.replace(crate.folder, ""), it.read())).encode())
        for below in sorted(crate.below(), key=lambda it: it.name):
            if below.name not in self.digests:
                self.digests[below.name] = digest(below.product())
            sums.update(self.digests[below.name].encode())
        return sums.hexdigest()

    def processes(self, crate, given):
        """How many processes check this crate, as those in `given` are done. Of those that can be checked now, the one that most others
        wait for gets the idle processors."""
        can_begin = [it for it in self.crates if it.name not in given and all(low.name in given for low in it.below())]
        idle = self.rt.processors() - sum(it.name != crate.name for it in can_begin)
        room = 1 + int((self.rt.free_memory() / crate.memory() - 1) / MORE_MEMORY)
        found = min(idle, room, MOST_PROCESSES)
        is_first = all(self.waiting(crate) >= self.waiting(it) for it in can_begin)
        return found if is_first and found >= FEWEST_PROCESSES else 1

    def waiting(self, crate):
        """How many crates have this one below them."""
        return sum(any(low.name == crate.name for low in it.below()) for it in self.crates)

    def prove(self, crate, processes):
        """Proves a crate from nothing, by so many processes, and returns whether it is proved."""
        is_proved, said = crate.prove(processes)
        if is_proved:
            with open(stamp_beside(crate), "w", encoding="utf-8") as it:
                it.write(self.stamp(crate))
        else:
            print(said, end="")
        return is_proved

    def work(self, crate, given):
        if not all(given[it.name] for it in crate.below()):
            return False
        if os.path.exists(crate.product()) and text_of(stamp_beside(crate)) == self.stamp(crate):
            return True
        is_proved = self.prove(crate, self.processes(crate, given))
        seconds = self.times.processor.get(crate.name, 0.0)
        print(f"{crate.name}: {'proved' if is_proved else 'NOT PROVED'}, {seconds:.0f} s of processor time, at {time.time() - self.begun:.0f} s", flush=True)
        return is_proved


def build(rt, crates):
    """Proves these crates, side by side, and returns whether all are proved."""
    crates = list(crates)
    builder = Builder(rt, crates)
    rt.search_no_empty_contracts()

    def size(crate):
        """How many bytes its files have: what proves longest is begun first, and lines of code alone say less of it."""
        return sum(os.path.getsize(it) for it in rt.files_of(crate.folder))

    def task(crate):
        work = lambda given: builder.work(crate, given)
        return [it.name for it in crate.below()], size(crate), crate.memory(), builder.times.task(crate.name, IDLE, work)

    with rt.held(crates):
        proved = rt.in_lanes({it.name: task(it) for it in sorted(crates, key=lambda it: len(it.below()))})
    seconds, processor = time.time() - builder.begun, sum(builder.times.processor.values())
    print(f"{sum(proved.values())} passed, {len(proved) - sum(proved.values())} failed, in {seconds:.0f} s, {processor:.0f} s of processor time")
    return all(proved.values())


def build_in_turn(names):
    """Builds crates by `rt` itself, each with the libraries below it, and returns whether all are built. It runs a program to build it."""
    is_program = lambda name: os.path.isfile(f"{kit.folder_of(name)}/src/main.rt")
    words = lambda name: ["run", "--", "--version"] if is_program(name) else ["lib"]
    return all([kit.plain(*words(it), folder=kit.folder_of(it)) == 0 for it in names])


def main(names):
    names = names or ["uca"]
    unknown = {*names} - {*kit.uses()}
    if unknown:
        sys.exit(f"crates.txt names no crate {', '.join(sorted(unknown))}")
    rt = kit.opened("crates", "lanes", "machine", instead="each crate is built by `rt lib` or `rt run`, which takes longer")
    if not rt:
        return 0 if build_in_turn(names) else 1
    below = {it.name for name in names for it in rt.crates[name].below()}
    return 0 if build(rt, [it for it in rt.crates.values() if it.name in below or it.name in names]) else 1


if __name__ == "__main__":
    if script_help.is_asked(__doc__, sys.argv[1:]):
        sys.exit()
    if any(it.startswith("-") for it in sys.argv[1:]):
        script_help.stop(__doc__)
    sys.exit(main(sys.argv[1:]))
