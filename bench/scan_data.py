#!/usr/bin/env python3
"""Points and boxes for bench_scan.

usage: scan_data.py points ROWS [LABELS] | scan_data.py boxes ROWS

Points are lines `id,x,y,t,label`: half of them anywhere, half in 200 clusters, as those of sensors are; four weeks; 16 labels, or
as many as are asked for, each true for whom one of the 16 is. Boxes are lines `class x0 x1 y0 y1 t0 t1`, 20 of each class: of
about 5, 1,400 and 110,000 visible rows where there are ROWS rows (as many as there are, of fewer), of a tenth of all rows over
all of the time, of nearly all; and one of all. The boxes of a class come several times in turn, so that all but the first time
what they need is at hand."""
import random
import sys
from collections.abc import Iterator

TOP, DAY, WEEK = 2097151, 86400, 604800
TIME = 4 * WEEK - 1
LABELS = ["", "A", "B", "C", "A&B", "A|B", "A&(B|C)", "D", "D&E", "D|(E&F)", "(A|D)&(B|E)", "G", "G&H", "A&B&C&D", "F|G|H", "E"]
# Of a million rows, boxes of this share of each side and this span of time have about so many that are visible.
SIZES = [("5", 0.02, DAY), ("1400", 0.1, WEEK), ("110000", 0.4, TIME)]
# How often the boxes of a class come, if not three times.
ROUNDS = {"5": 20, "1400": 10, "world": 10}
Box = tuple[int, int, int, int, int, int]


def label(number: int, count: int) -> str:
    """One of so many labels."""
    base = LABELS[number % 16]
    if count == 16:
        return base
    return f"({base})|z{number}" if len(base) > 1 else f"{base or 'A'}|z{number}"


def points(count: int, labels: int) -> Iterator[tuple[str, int, int, int, str]]:
    numbers = random.Random(7)
    centres = [(numbers.randrange(TOP), numbers.randrange(TOP), numbers.randrange(4 * WEEK)) for _ in range(200)]
    spreads = [(20000, TOP), (20000, TOP), (40000, TIME)]
    for number in range(count):
        if number % 2:
            centre = numbers.choice(centres)
            place = [min(max(int(numbers.gauss(middle, spread)), 0), top) for middle, (spread, top) in zip(centre, spreads)]
        else:
            place = [numbers.randrange(TOP + 1), numbers.randrange(TOP + 1), numbers.randrange(4 * WEEK)]
        x, y, t = place
        yield f"p{number}", x, y, t, label(numbers.randrange(labels), labels)


def sized(numbers: random.Random, side: int, span: int) -> Box:
    x, y, t = numbers.randrange(TOP - side), numbers.randrange(TOP - side), numbers.randrange(TIME - span + 1)
    return x, x + side, y, y + side, t, t + span


def tenth(numbers: random.Random, some: list[tuple[int, int]]) -> Box:
    """A square around a place that holds a tenth of some points."""
    x, y = numbers.randrange(TOP), numbers.randrange(TOP)
    side = sorted(max(abs(x - its_x), abs(y - its_y)) for its_x, its_y in some)[len(some) // 10]
    return max(x - side, 0), min(x + side, TOP), max(y - side, 0), min(y + side, TOP), 0, TIME


def nearly(numbers: random.Random) -> Box:
    left, right, low, high = (numbers.randrange(21_000) for _ in range(4))
    return left, TOP - right, low, TOP - high, numbers.randrange(12_000), TIME - numbers.randrange(12_000)


def classes(count: int) -> Iterator[tuple[str, list[Box]]]:
    numbers = random.Random(11)
    factor = (1_000_000 / count) ** (1 / 3)
    for name, share, span in SIZES:
        side, span = min(int(share * factor * TOP), TOP - 1), min(int(span * factor), TIME)
        yield name, [sized(numbers, side, span) for _ in range(20)]
    some = [(x, y) for _, x, y, _, _ in points(20_000, 16)]
    yield "tenth", [tenth(numbers, some) for _ in range(20)]
    yield "nearly", [nearly(numbers) for _ in range(20)]
    yield "world", [(0, TOP, 0, TOP, 0, TIME)]


def main() -> None:
    words = sys.argv[1:]
    if words[0] == "boxes":
        for name, boxes in classes(int(words[1])):
            for box in boxes * ROUNDS.get(name, 3):
                print(name, *box)
        return
    for point in points(int(words[1]), int(words[2]) if len(words) > 2 else 16):
        print(*point, sep=",")


if __name__ == "__main__":
    main()
