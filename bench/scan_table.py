#!/usr/bin/env python3
"""Prints what the turns of bench/scan.sh show, from the files `array.N`, `shown.N` and `took.N` of a folder.

usage: scan_table.py FOLDER

Of each box the quickest asking counts, and of its first askings the quickest; of each class the mean over its boxes. Pages are asked
for after all counts and grids. Times are in microseconds."""
from __future__ import annotations

import pathlib
import sys
from collections import defaultdict
from collections.abc import Iterator

# A box is a class and a number; a turn has the words of its askings in order. Those for a page are of a class of their own.
Turn = dict[tuple[str, int], list[list[int]]]
# How many boxes a class has.
BOXES = {"world": 1}


def askings(lines: list[str]) -> Turn:
    """The numbers of each box's askings. Boxes of a class come in turn."""
    turn: Turn = defaultdict(list)
    seen: dict[str, int] = defaultdict(int)
    for line in lines:
        words = line.split()
        named = 2 if words[0] == "page" else 1
        name = " ".join(words[:named])
        turn[name, seen[name] % BOXES.get(words[named - 1], 20)].append([int(word) for word in words[named:]])
        seen[name] += 1
    return turn


def turns(folder: pathlib.Path, kind: str) -> list[Turn]:
    texts = [file.read_text().splitlines() for file in sorted(folder.glob(f"{kind}.*"))]
    return [askings([line for line in lines if line.split()[0] not in ("put", "delete")]) for lines in texts]


def mean(of: list[Turn], name: str, at: int, first: bool = False) -> float:
    """The mean over the boxes of a class of a quickest time."""
    boxes = [box for box in of[0] if box[0] == name]
    least = [min(asking[at] for turn in of for asking in (turn[box][:1] if first else turn[box])) for box in boxes]
    return sum(least) / len(least) / 1000


def lines(array: list[Turn], shown: list[Turn], took: list[Turn]) -> Iterator[str]:
    heads = "".join(f"{it:>12}{'array':>11}{'times':>7}" for it in ("count", "at first", "grid"))
    yield f"{'class':>7}{'rows':>11}{heads}{'page':>9}"
    for name in dict.fromkeys(box[0] for box in array[0]):
        for box in (box for box in array[0] if box[0] == name):
            assert array[0][box][0][:2] == shown[0][box][0][:2], f"the counts differ: {box}"
        rows = mean(array, name, 0) * 1000
        text = f"{name:>7}{rows:>11,.0f}"
        for at, first in ((0, False), (0, True), (1, False)):
            own, plain = mean(took, name, at, first), mean(array, name, at + 2, first)
            text += f"{own:>12,.1f}{plain:>11,.1f}{own / plain:>7.2f}"
        yield text + f"{mean(took, f'page {name}', 0):>9,.1f}"


def main() -> None:
    folder = pathlib.Path(sys.argv[1])
    for line in lines(*(turns(folder, kind) for kind in ("array", "shown", "took"))):
        print(line)
    words = [line.split() for file in sorted(folder.glob("took.*")) for line in file.read_text().splitlines()]
    puts, deletes = ([[int(number) for number in line[1:]] for line in words if line[0] == kind] for kind in ("put", "delete"))
    print(f"put {min(puts)[0]:,} ns, delete {min(deletes)[0]:,} ns, {min(it[1] for it in puts)} bytes a row")


if __name__ == "__main__":
    main()
