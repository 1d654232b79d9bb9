"""A disk that tears: what a run asked of its files, and what a crash may leave of them.

Of a file a crash leaves what was synced, and of each write since then some bytes: below the end a byte is the old one or the new one,
and past it anything, up to a length between the two. A change of the length leaves any length between the two. A file that was made is
there, or not, until its folder is synced. These are the premises of docs/GUARANTEES.md, "What the disk is trusted for".
"""
import itertools
import random
from collections.abc import Iterator
from dataclasses import dataclass, field


@dataclass(frozen=True)
class Event:
    """What a run did: `make`, `write`, `cut` and `sync` are of a file, `sync_folder` syncs the folder, `answer` is of a connection, or of
    standard output. `at` is an offset or a length."""

    kind: str
    file: str = ""
    at: int = 0
    data: bytes = b""


@dataclass
class File:
    """What is lasting of a file, and the writes and cuts since then. `is_named` says whether its name is lasting."""

    synced: bytes
    steps: list[Event] = field(default_factory=list)
    is_named: bool = True


@dataclass
class Disk:
    """The files of a folder by their names."""

    files: dict[str, File]

    def take(self, event: Event) -> None:
        if event.kind == "make":
            self.files.setdefault(event.file, File(b"", is_named=False))
        elif event.kind == "sync_folder":
            for file in self.files.values():
                file.is_named = True
        elif event.kind == "sync":
            file = self.files[event.file]
            file.synced, file.steps = torn(file, NEW, random.Random()), []
        elif event.kind in ("write", "cut"):
            self.files[event.file].steps.append(event)

    def now(self) -> dict[str, bytes]:
        """The files as they are read."""
        return {name: torn(file, NEW, random.Random()) for name, file in self.files.items()}

    def is_lasting(self) -> bool:
        """Whether a crash leaves but one outcome."""
        return not any(file.steps or not file.is_named for file in self.files.values())

    def crash(self, ways: dict[str, "Way"], rng: random.Random) -> dict[str, bytes]:
        """What a crash leaves that tears each file in its way."""
        left = {name: torn(file, ways[name], rng) for name, file in self.files.items()}
        return {name: text for name, text in left.items() if self.files[name].is_named or rng.random() < ways[name].share}

    def outcomes(self, rng: random.Random, many: int) -> Iterator[dict[str, bytes]]:
        """Outcomes of a crash at this moment: one file as it was and the other as it is, in each manner, one write alone, all writes but
        one, tails that are lost, zeros or noise, and so many mixes."""
        names = list(self.files)
        if self.is_lasting():
            yield self.now()
            return
        for ways in itertools.product([OLD, NEW], repeat=len(names)):
            yield self.crash(dict(zip(names, ways)), rng)
        for name, other in itertools.product(names, [OLD, NEW]):
            steps = len(self.files[name].steps)
            apart = [steps - 1, rng.randrange(steps)] if steps > 1 else []
            for way in (*TAILS[:many], *(Way(only=it) for it in apart), *(Way(but=it) for it in apart)):
                if steps:
                    yield self.crash({it: way if it == name else other for it in names}, rng)
        for _ in range(many):
            yield self.crash({name: mixing(rng) for name in names}, rng)


@dataclass(frozen=True)
class Way:
    """How a crash tears: which share of the units of so many bytes is new, below the end and past it, but for so many holes; how much of
    what a file grew by is there (none, some or all), and whether noise stands in it where it is not new, or zeros. Where `only` or `but`
    is the number of a step of the file, no other step is made, or all others."""

    share: float = 1.0
    tail: float = 1.0
    grown: float = 1.0
    unit: int = 512
    holes: int = 0
    is_noise: bool = False
    only: int | None = None
    but: int | None = None

    def makes(self, number: int) -> bool:
        return number != self.but if self.only is None else number == self.only


OLD, NEW = Way(0.0, 0.0, 0.0), Way()
# All is new, but tails are lost in part or whole, or are zeros or noise.
TAILS = [Way(grown=0.5), Way(tail=0.0), Way(tail=0.0, is_noise=True), Way(grown=0.0)]


def mixing(rng: random.Random) -> Way:
    """Some of each, or all but one, by sector or by byte."""
    unit, grown, is_noise = rng.choice([1, 512]), rng.choice([0.0, 0.5, 1.0, 1.0]), rng.random() < 0.5
    if rng.random() < 0.4:
        return Way(1.0, 1.0, grown, unit, 1, is_noise)
    share, tail = (rng.choice([0.0, 0.05, 0.5, 0.95, 1.0]) for _ in range(2))
    return Way(share, tail, grown, unit, 0, is_noise)


def filler(count: int, way: Way, rng: random.Random) -> bytes:
    return rng.randbytes(count) if way.is_noise else bytes(count)


def length_between(low: int, high: int, way: Way, rng: random.Random) -> int:
    """All of a growth, none of it, or some, in whole units."""
    if way.grown in (0.0, 1.0) or low >= high:
        return high if way.grown == 1.0 else low
    some = rng.randrange(low, high + 1)
    return max(low, some - some % way.unit)


def mask(start: int, end: int, share: float, way: Way, rng: random.Random) -> bytes:
    """For each byte from `start` to `end`, 255 where it is new, and else 0, unit by unit."""
    if end <= start or share in (0.0, 1.0) and way.holes == 0:
        return (b"\xff" if share == 1.0 else b"\0") * max(0, end - start)
    first = start // way.unit
    taken = bytearray(255 * (it < 256 * share) for it in rng.randbytes((end - 1) // way.unit + 1 - first))
    for _ in range(way.holes):
        taken[rng.randrange(len(taken))] = 0
    units = bytes(taken) if way.unit == 1 else b"".join(bytes([it]) * way.unit for it in taken)
    shift = start - first * way.unit
    return units[shift:shift + end - start]


def tear_write(file: bytearray, step: Event, way: Way, rng: random.Random) -> None:
    old_end = len(file)
    end = length_between(old_end, max(old_end, step.at + len(step.data)), way, rng)
    file += filler(end - old_end, way, rng)
    stop = min(end, step.at + len(step.data))
    if stop > step.at:
        is_new = mask(step.at, min(stop, old_end), way.share, way, rng) + mask(max(step.at, old_end), stop, way.tail, way, rng)
        old, new, taken = (int.from_bytes(it, "big") for it in (file[step.at:stop], step.data[:stop - step.at], is_new))
        file[step.at:stop] = (old ^ (old ^ new) & taken).to_bytes(stop - step.at, "big")


def tear_cut(file: bytearray, step: Event, way: Way, rng: random.Random) -> None:
    if step.at > len(file):
        file += filler(length_between(len(file), step.at, way, rng) - len(file), way, rng)
    else:
        del file[step.at + len(file) - length_between(step.at, len(file), way, rng):]


def torn(file: File, way: Way, rng: random.Random) -> bytes:
    """An outcome of the writes and cuts of a file."""
    left = bytearray(file.synced)
    for number, step in enumerate(file.steps):
        if way.makes(number):
            (tear_write if step.kind == "write" else tear_cut)(left, step, way, rng)
    return bytes(left)
