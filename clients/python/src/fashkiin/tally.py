"""What became of the rows of a load."""

from __future__ import annotations

from collections import Counter
from collections.abc import Iterable, Sequence
from dataclasses import dataclass

from fashkiin.errors import RowError
from fashkiin.formats import Prepared

LABELS = 4_096
"""Of how many labels it is remembered whether the loader can read them."""


@dataclass(slots=True)
class Tally:
    """What became of the rows of a load: `stored` are new, `replaced` took the place of a row of the same id and label.

    `deleted` are the rows that a load with `replace` deleted under other labels. `elsewhere` counts the rows whose id stands
    under another label too, `example` is an id and such a label, and `unread` counts the rows whose labels the loader cannot
    read. All but `rejected` are by what the loader sees.
    """

    stored: int = 0
    replaced: int = 0
    rejected: int = 0
    deleted: int = 0
    elsewhere: int = 0
    example: tuple[str, str] | None = None
    unread: int = 0

    @property
    def read(self) -> int:
        """All rows."""
        return self.stored + self.replaced + self.rejected


IDS = 1 << 27
"""How many bits tell ids apart: of 1,000,000 ids about 4,000 are taken for others that came before."""


class Met:
    """Which ids have come before, in 16 MB however many they are: a few others are taken for such too."""

    def __init__(self) -> None:
        self._bits = bytearray(IDS >> 3)

    def of(self, names: Iterable[str]) -> list[str]:
        """Those of some ids that may have come before. From now on all of them have."""
        bits = self._bits
        met = []
        for name in names:
            place = hash(name) % IDS
            at, bit = place >> 3, 1 << (place & 7)
            if bits[at] & bit:
                met.append(name)
            bits[at] |= bit
        return met


class Batch:
    """Rows that are looked up together and then put."""

    def __init__(self, rows: Sequence[Prepared]) -> None:
        self.rows = rows
        self.good = [(name, label, made) for _, name, label, made in rows if not isinstance(made, RowError)]
        self.ids = dict.fromkeys([name for name, _, _ in self.good])
        self.labels: dict[str, set[str]] = {}
        """Under which labels ids are seen, or have been put meanwhile."""
        self.last: dict[str, str] = {}
        """The labels under which such ids were put last."""
        self.told = 0
        """Of how many rows it is known what became of them."""

    def is_new(self) -> bool:
        """Whether each row is well formed, and each id is there once, and nowhere else yet."""
        return len(self.rows) == len(self.ids) and not self.labels


class Counting:
    """Counts rows that were put, by what the loader sees."""

    def __init__(self) -> None:
        self.tally = Tally()
        self.readable: dict[str, bool] = {}
        """Whether the loader can read the rows of a label."""
        self._unknown: Counter[str] = Counter()

    def count_new(self, batch: Batch, count: int) -> None:
        """The next rows of a batch of new ones were put."""
        self.tally.stored += count
        labels = Counter([label for _, label, _ in batch.good[batch.told : batch.told + count]])
        for label, times in labels.items():
            self._count_label(label, times)
        batch.told += count

    def count(self, batch: Batch, name: str, label: str) -> None:
        """A row of an id and a label was put."""
        tally = self.tally
        labels = batch.labels.setdefault(name, set())
        if label in labels:
            tally.replaced += 1
        else:
            tally.stored += 1
        others = labels - {label}
        if others:
            tally.elsewhere += 1
            tally.example = tally.example or (name, min(others))
        labels.add(label)
        batch.last[name] = label
        self._count_label(label, 1)

    def _count_label(self, label: str, times: int) -> None:
        if label not in self.readable:
            self._unknown[label] += times
        elif not self.readable[label]:
            self.tally.unread += times

    def learn(self, label: str, is_seen: bool) -> None:
        """It is known whether the loader can read the rows of a label."""
        if len(self.readable) >= LABELS:
            self.readable.clear()
        self.readable[label] = is_seen
        pending = self._unknown.pop(label, 0)
        self.tally.unread += 0 if is_seen else pending
