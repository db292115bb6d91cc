#!/usr/bin/env python3
"""Runs `rt ci` and prints where its processor time goes: for each crate its library, its tests and its must-fail edits.

    tools/gate_times.py [--anew]          at the top of the repository, instead of `rt ci`

It loads the command `rt` of the kit, and each task of `rt` then counts the user and system time of the processes that it
starts. With --anew nothing is taken of what was proved on this machine before. What `rt ci` prints comes first, and the status is that of `rt ci`. docs/GATE.md has the table that this
prints last, and says what a yardstick is.
"""
import collections
import os
import sys
import time

import kit
import script_help

PARTS = ("proof", "tests", "edits")
IDLE = ("", "runs")
TIMES = kit.Times()


def by_part(times):
    """The seconds of each crate and part."""
    seconds = collections.Counter()
    for task, spent in times.items():
        seconds[kit.crate_and_part(task)] += spent
    return seconds


def table():
    seconds = by_part(TIMES.processor)
    sums = {part: sum(v for key, v in seconds.items() if key[1] == part) for part in (*PARTS, "runs")}
    whole = {name: sum(seconds.get((name, part), 0.0) for part in PARTS) for name, _ in seconds if name}
    print("| Crate | library | tests | edits | together |\n|---|--:|--:|--:|--:|")
    for name in sorted(whole, key=lambda it: -whole[it]):
        cells = " | ".join(f"{seconds.get((name, part), 0.0):.0f}" for part in PARTS)
        print(f"| `{name}` | {cells} | {whole[name]:.0f} |")
    print("| all | " + " | ".join(f"{sums[part]:.0f}" for part in PARTS) + f" | {sum(sums.values()):.0f} |")
    print(f"processor seconds, user and system; running programs and tests took {sums['runs']:.0f} of them")
    longest = sorted(TIMES.clock.items(), key=lambda it: -it[1])[:8]
    dearest = sorted(((task, spent) for task, spent in TIMES.processor.items() if kit.edit_of(task) is not None), key=lambda it: -it[1])[:40]
    print("dearest edits, by their place in the folder: " + ", ".join(f"{task[0]} {kit.edit_of(task)} {spent:.0f}" for task, spent in dearest))
    print("longest on the clock: " + ", ".join(f"{' '.join(map(str, key))} {spent:.0f} s" for key, spent in longest))


def main(flags):
    rt = kit.opened("machine", "lanes", instead="`rt ci` runs alone, and no times are taken")
    if not rt:
        return kit.plain("ci", *flags)
    rt.check_by_one_process()
    TIMES.count(rt, IDLE)
    rt.count_tasks(TIMES, IDLE)
    begun = time.time()
    status = rt.prove_all(anew=kit.ANEW in flags)
    table()
    print(f"on the clock {(time.time() - begun) / 60:.0f} minutes, {os.cpu_count()} processors")
    return status


if __name__ == "__main__":
    if script_help.is_asked(__doc__, sys.argv[1:]):
        sys.exit()
    sys.exit(main(sys.argv[1:]))
