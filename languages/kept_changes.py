"""Changes from one table to another that keep the letters of a script: they list the letters that these letters pass. Part of languages/languages.py.

`uca changes` keeps as many weights as it can. So for a Russian table, which has Cyrillic before Latin, it lists the Cyrillic letters. Here the weights of a
script count more than all others. Nothing here is trusted: `uca audit-changes` judges the changes and the certificate.
"""
import bisect
from collections import Counter
from collections.abc import Iterable

from weight_lists import IMPLICIT, PLAIN

MUCH = 1_000_000  # what a weight of the script counts: more than all others together
Row = list[tuple[bool, int, int, int]]


def heaviest_rising(pairs: list[tuple[int, int]], weight_of: dict[int, int]) -> dict[int, int]:
    """Of pairs in the order of their first numbers, those of the greatest weight in sum whose second numbers rise too."""
    ends: list[tuple[int, int]] = []  # the best chain that ends up to a second number, as its end and its sum: both rise
    best: list[tuple[int, int | None]] = []  # each pair's sum, and the pair before it
    owners: dict[int, int] = {}
    for at, (old, new) in enumerate(pairs):
        place = bisect.bisect_left(ends, (new, 0))
        total, before = (ends[place - 1][1], owners[ends[place - 1][0]]) if place else (0, None)
        total += weight_of.get(old, 1)
        best.append((total, before))
        if place < len(ends) and ends[place][0] == new and ends[place][1] >= total:
            continue
        last = place
        while last < len(ends) and ends[last][1] <= total:
            last += 1
        ends[place:last] = [(new, total)]
        owners[new] = at
    at = owners[ends[-1][0]] if ends else None
    kept = {}
    while at is not None:
        kept[pairs[at][0]] = pairs[at][1]
        at = best[at][1]
    return kept


def map_of(old: dict[str, Row], new: dict[str, Row], level: int, heavy: Iterable[int]) -> dict[int, int]:
    """A rising map of the weights of a level. Where rows give a weight several images, it is the one of most rows."""
    images: dict[int, Counter] = {}
    for key, row in old.items():
        after = new.get(key, [])
        if len(row) == len(after):
            for one, other in zip(row, after):
                weight, image = one[1 + level], other[1 + level]
                if weight and image and not (level == 0 and max(weight, image) >= IMPLICIT):
                    images.setdefault(weight, Counter())[image] += 1
    if level:
        images[PLAIN[level - 1]] = Counter([PLAIN[level - 1]])
    pairs = [(weight, found.most_common(1)[0][0]) for weight, found in sorted(images.items())]
    return heaviest_rising(pairs, dict.fromkeys(heavy, MUCH))


def kept_changes(old: dict[str, Row], new: dict[str, Row], letters: set[str]) -> tuple[str, str]:
    """A file of changes and a certificate, which keep these letters."""
    heavy = {element[1] for key, row in old.items() if len(row) == 1 and key in letters for element in row}
    maps = [map_of(old, new, 0, heavy), *(map_of(old, new, level, PLAIN[level - 1 : level]) for level in (1, 2))]

    def image(level, weight):
        return weight if weight == 0 or level == 0 and weight >= IMPLICIT else maps[level].get(weight)

    def is_kept(key):
        row = old.get(key)
        return row is not None and new.get(key) == [(it[0], *(image(level, weight) for level, weight in enumerate(it[1:]))) for it in row]

    listed = sorted([ord(it) for it in key] for key in old.keys() | new.keys() if not is_kept(key))
    texts = "".join(f"text {' '.join(f'{it:04X}' for it in key)}\n" for key in listed)
    return "@changes 1\n" + texts, "".join(runs(level + 1, one) for level, one in enumerate(maps))


def runs(level: int, images: dict[int, int]) -> str:
    """The lines of a certificate for a level: neighbours whose images are neighbours make a run."""
    found: list[list[int]] = []
    for weight, image in sorted(images.items()):
        if found and (weight, image) == (found[-1][0] + found[-1][2], found[-1][1] + found[-1][2]):
            found[-1][2] += 1
        else:
            found.append([weight, image, 1])
    return "".join(f"{level} {first:04X} {image:04X} {count:04X}\n" for first, image, count in found)
