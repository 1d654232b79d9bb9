"""Points of GPX that are alike, by whole columns, as records of CSV are: the bodies of many puts at a time."""

from __future__ import annotations

from collections.abc import Iterator, Mapping, Sequence
from functools import lru_cache
from typing import Any

from fashkiin.formats.columns import Bodies
from fashkiin.formats.fields import Names, Prepared
from fashkiin.formats.gpx_texts import Texts
from fashkiin.formats.header import Columns

KINDS = 256
"""Of how many kinds of points it is remembered what their columns hold."""

FEW = 16
"""Of how many points with another one among them each is read by itself."""

Kind = tuple[tuple[str, ...], Sequence[str]]
"""The names of what points have of their tracks, and of their own elements."""

Usual = tuple[int, int, Texts, Mapping[str, Any]]
"""A point with all that its kind has: its number, the line on which it ends, its texts, and what it has of its track."""


class PointBodies:
    """Makes rows of points of one kind."""

    def __init__(self, names: Names) -> None:
        self._names = names
        self._bodies = lru_cache(KINDS)(self._make)

    def read(self, kind: Kind, points: Sequence[Usual]) -> Iterator[tuple[int, Prepared]]:
        """The rows of points of a kind by their numbers, but for those that are to be read by themselves."""
        bodies = self._bodies(kind)
        if bodies is None:
            return
        try:
            rows = self._together(bodies, points)
        except (ValueError, OverflowError):
            half = len(points) // 2 if len(points) > FEW else 0
            for part in (points[:half], points[half:]) if half else ():
                yield from self.read(kind, part)
            return
        yield from zip([number for number, *_ in points], rows, strict=True)

    def _together(self, bodies: Bodies, points: Sequence[Usual]) -> list[Prepared]:
        """The rows of points. `ValueError` or `OverflowError` where another one is among them."""
        prefix = self._names.number
        records = [
            (f"{prefix}-{number}", texts.lon or "", texts.lat or "", *map(str, track.values()), *texts.texts)
            for number, _, texts, track in points
        ]
        return bodies.read([line for _, line, _, _ in points], records, 0)

    def _make(self, kind: Kind) -> Bodies | None:
        """What makes the rows of points of a kind; None where each is to be read by itself."""
        try:
            return Bodies(_columns(kind, self._names), self._names)
        except (ValueError, KeyError):
            return None


def _columns(kind: Kind, names: Names) -> Columns:
    """Which column holds what, as `make_row` finds it: the id by the number, a position, then what points have of their tracks,
    then their own. `ValueError` or `KeyError` where a field is missing, or is a number."""
    track, own = kind
    header = [*track, *own]
    numbers = (names.numbers - {"time"}).intersection(own) | {"segment"}.intersection(track).difference(own)
    ids = names.id or (("id",) if "id" in header else ())
    left = dict.fromkeys(header)
    if len(ids) == 1:
        del left[ids[0]]
    time = names.find("time", left)
    if time is None or (not ids and names.number is None):
        raise ValueError("no time, or no id")
    del left[time]
    label = names.find("label", left)
    if label is None and names.unlabelled is None:
        raise ValueError("no label")
    fields = [*ids, time] + ([] if label is None else [label])
    if not numbers.isdisjoint(fields):
        raise ValueError("a field that is a number")
    place = {name: at for at, name in enumerate(header, 3)}
    kept = [name for name in left if name != label and (names.only is None or name in names.only)]
    properties = [(place[name], name, name in numbers) for name in kept]
    label_at = None if label is None else place[label]
    ids_at = [place[name] for name in ids] or [0]
    return Columns(["", "lon", "lat", *header], ids_at, 1, 2, None, place[time], label_at, properties)
