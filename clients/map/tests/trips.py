"""The rows of the page's tests, as a plain list, and who sees which of them."""

from __future__ import annotations

import random
from collections.abc import Callable, Set
from datetime import UTC, datetime, timedelta

from fashkiin import Row

BEGIN = datetime(2021, 3, 1, tzinfo=UTC)
SEEN_BY: dict[str, Callable[[Set[str]], bool]] = {
    "": lambda held: True,
    "storms": lambda held: "storms" in held,
    "storms&flight": lambda held: {"storms", "flight"} <= held,
    "wind|flight": lambda held: bool({"wind", "flight"} & held),
}
"""The labels of the rows, and for which authorizations each is true."""

HARBOUR = (51.95, 4.05)
"""Latitude and longitude of a place with thirty rows, all to be seen by everybody."""


def trips() -> list[Row]:
    """300 rows over the North Atlantic in a hundred days, and thirty at one place."""
    numbers = random.Random(7)
    labels = list(SEEN_BY)
    rows = [
        Row(
            f"ship-{at}",
            numbers.uniform(-70, -10),
            numbers.uniform(20, 60),
            BEGIN + timedelta(seconds=numbers.randrange(100 * 86_400)),
            labels[at % len(labels)],
            {"knots": at % 20},
        )
        for at in range(300)
    ]
    lat, lon = HARBOUR
    rows += [
        Row(f"berth-{at}", lon, lat, BEGIN + timedelta(hours=at), "", {"berth": at, "pilot": "<b>Jan</b>"}) for at in range(30)
    ]
    return rows


def crowd() -> list[Row]:
    """1,200 rows in 30 columns and 40 lines of three degrees and two, all to be seen by everybody: more than are drawn as points."""
    return [Row(f"buoy-{at}", -60 + 3 * (at % 30), -38 + 2 * (at // 30), BEGIN + timedelta(hours=at % 90), "") for at in range(1_200)]


def seen(held: Set[str]) -> list[Row]:
    return [row for row in trips() if SEEN_BY[row.label](held)]
