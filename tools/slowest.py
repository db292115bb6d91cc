#!/usr/bin/env python3
"""Lists what the last check of a crate from nothing spent its time on, by function.

    tools/slowest.py CRATE [COUNT]

`tools/check.py CRATE` keeps each module that it has checked as a file in crates/CRATE/out/incremental, in the order in which
they were checked. So the time between two files is that of the second. Remove that folder, check the crate, and then run this
script: after later checks, or in a copy of the folder, the times are no longer those of one check.

For each function it names the parts. `Lts` is the borrow checker's account of its code. `Proof` is the goals that the prover
searches for, and `Answers` those with a proof in a file. `Tie` is the code against its contract. Lemmas and definitions have their
own lines.
"""
import collections
import re
import sys

import kit
import script_help


def main(crate, count):
    seconds, parts = collections.Counter(), collections.defaultdict(collections.Counter)
    for function, part, spent in kit.checked_modules(crate):
        seconds[function] += spent
        parts[function][part] += spent
    for function, spent in seconds.most_common(count):
        print(f"{spent:6.1f}  {function}  " + ", ".join(f"{part} {of:.1f}" for part, of in parts[function].most_common(3)))


if __name__ == "__main__":
    if script_help.is_asked(__doc__, sys.argv[1:]):
        sys.exit()
    if not re.fullmatch(r"[^-]\S*( \d+)?", " ".join(sys.argv[1:])):
        script_help.stop(__doc__)
    main(sys.argv[1], int(sys.argv[2]) if len(sys.argv) > 2 else 20)
