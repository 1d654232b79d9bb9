#!/usr/bin/env python3
"""Files as others make them, by `fashkiin load`: what it says of each, how many rows are in it, and how many the table has then.

    nice bench/loads.py [FILE|FOLDER..]

Tables in Markdown. The first is of small hostile files, each as it comes and then with the flags that its message asks for, and of the
FILEs, with those of one format in one load (GPX and files without labels are loaded with `--default-label ''`). Of a FOLDER, each GPX
file in it or below it is loaded into a table of its own, and if it was not loaded whole, once more with flags for what receivers leave
out or get wrong. Its points are counted without the client, and its rows by `count --exact` and in a dump; then come tables by outcome,
and of what is kept in no row. The end status is 1 if rows were lost without being told. It needs the built `st_served`, or the one that
ST_SERVED names. Run it with /usr/bin/python3.
"""
from __future__ import annotations

import gzip
import json
import os
import re
import subprocess
import sys
import tempfile
from collections import Counter
from collections.abc import Iterator
from dataclasses import dataclass
from itertools import count
from pathlib import Path
from xml.etree import ElementTree

TOP = Path(__file__).resolve().parent.parent
sys.path.insert(0, str(TOP / "tests"))

from served import served, token  # noqa: E402

HEAD = "id,lon,lat,time,label,name\n"
ROWS = HEAD + "a,1.5,2.5,2024-05-01,,Br\u00e9e\nb,-1.5,2.5,2024-05-02,,harbour\n"
POINTS = ("wpt", "trkpt", "rtept")
LABEL = ("--default-label", "")
MENDING = ("--default-time", "2000-01-01", "--on-error", "skip")
"""Flags for points without a time, and points that are none."""

NUMBERS = ",".join(
    json.dumps(
        {
            "type": "Feature",
            "id": f"n{at}",
            "geometry": {"type": "Point", "coordinates": [1, 2]},
            "properties": {"time": "2024-05-01", "label": "", "serial": 2**64 + at},
        }
    )
    for at in range(2)
)


@dataclass
class Try:
    """A file, and the flags it is loaded with, one load after another."""

    what: str
    name: str
    data: bytes
    flags: tuple[tuple[str, ...], ...] = ((),)


def hostile() -> Iterator[Try]:
    """Small files with something odd in each."""
    yield Try("byte order mark", "bom.csv", ROWS.encode("utf-8-sig"))
    yield Try("lines that end in CR LF", "crlf.csv", ROWS.replace("\n", "\r\n").encode())
    yield Try("Latin-1", "latin.csv", ROWS.encode("latin-1"), ((), ("--encoding", "latin-1")))
    yield Try("semicolons", "semicolons.csv", ROWS.replace(",", ";").encode())
    yield Try("newlines in quotes", "quoted.csv", ROWS.replace("harbour", '"har\nbour, ""old"""').encode())
    yield Try("0 to 360 degrees", "wrapped.csv", ROWS.replace("-1.5", "358.5").encode(), ((), ("--wrap",)))
    yield Try("no time", "timeless.csv", b"id,lon,lat,label\na,1,2,\nb,3,4,\n", ((), ("--default-time", "2024-05-01")))
    yield Try("no label", "unlabelled.csv", b"id,lon,lat,time\na,1,2,2024-05-01\n", ((), ("--default-label", "")))
    yield Try("an id twice", "twice.csv", (ROWS + "a,9,9,2024-05-03,,later\n").encode())
    yield Try("integers beyond 64 bits", "large.geojson", b'{"type":"FeatureCollection","features":[%s]}' % NUMBERS.encode())
    yield Try("points as WKT", "wkt.csv", b'id,WKT,time,label\na,"POINT (1.5 2.5)",2024-05-01,\n')
    lines = b'{"ship":"a","at":{"lon":1.5,"lat":2.5},"seen":"2024-05-01"}\n'
    fields = ("--map", "id=ship", "--map", "lon=at.lon", "--map", "lat=at.lat", "--map", "time=seen", "--default-label", "")
    yield Try("lines of JSON", "ships.jsonl", lines, ((), fields))
    yield Try("a row out of range", "range.csv", (ROWS + "c,1,91,2024-05-01,,x\n").encode(), ((), ("--on-error", "skip")))
    yield Try("empty", "empty.csv", b"")
    yield Try("a header alone", "header.csv", HEAD.encode())
    yield Try("binary", "random.csv", bytes(range(256)) * 8)
    yield Try("a GeoPackage", "ships.gpkg", b"SQLite format 3\0" + bytes(200))
    yield Try("gzip", "packed.csv.gz", gzip.compress(ROWS.encode()))
    yield Try("gzip, cut off", "cut.csv.gz", gzip.compress(ROWS.encode())[:-12])


@dataclass(frozen=True)
class Loaded:
    """A load of a GPX file: its end status, what it said, and its counts; `points` is what the file has, up to where it breaks off,
    `counted` and `dumped` what the table has then."""

    status: int
    said: list[str]
    points: int
    read: int
    stored: int
    rejected: int
    counted: int
    dumped: int

    @property
    def agrees(self) -> bool:
        """Whether each point of the file is a row of the table or was rejected; of a load that ended early, each that was read."""
        told = self.read == self.stored + self.rejected and self.stored == self.counted == self.dumped
        return told and (self.read == self.points or self.status == 3)

    @property
    def outcome(self) -> str:
        """What happened, for files alike: the last error, without what is of this file alone."""
        errors = [line for line in self.said if ": not kept: " not in line]
        text = errors[-1] if self.status == 3 else errors[0] if errors else "loaded"
        text = re.sub(r"^(fashkiin: )?[^:]*\.gpx:[0-9]+: ", "", text)
        return re.sub(r"line [0-9]+, column [0-9]+|'[^']*'|[0-9][0-9,.]*(?= bytes)", "..", text).replace("|", "\\|")

    @property
    def dropped(self) -> list[str]:
        """The elements that are kept in no row."""
        lines = [line.partition(": not kept: ")[2] for line in self.said]
        return [it for line in lines if line for it in line.split(", ")]


class Loads:
    """Loads into tables of their own, of one server."""

    def __init__(self, folder: Path, port: int) -> None:
        self.folder = folder
        file = folder / "token"
        file.touch(mode=0o600)
        file.write_text(token("root"))
        self._environment = os.environ | {
            "PYTHONPATH": str(TOP / "clients/python/src"),
            "FASHKIIN_TOKEN_FILE": str(file),
            "FASHKIIN_URL": f"http://127.0.0.1:{port}",
        }
        self._numbers = count(1)

    def run(self, *words: object) -> subprocess.CompletedProcess[str]:
        """Runs the command."""
        command = [sys.executable, "-m", "fashkiin", *map(str, words)]
        return subprocess.run(command, cwd=self.folder, env=self._environment, capture_output=True, text=True)

    def show(self, what: str, files: list[str], flags: tuple[str, ...]) -> None:
        """Loads files, and writes a line of the table."""
        table = f"bench.t{next(self._numbers)}"
        ran = self.run("load", table, *files, "--create", "--quiet", *flags)
        counted = self.run("count", table)
        rows = counted.stdout.strip() if counted.returncode == 0 else "no table"
        said = " / ".join(ran.stderr.strip().splitlines()).replace("|", "\\|").replace(str(self.folder) + "/", "")
        words = " ".join(word or "''" for word in flags)
        print(f"| {what} | {f'`{words}`' if flags else ''} | {ran.returncode} | {said} | {rows} |", flush=True)

    def load(self, file: Path, flags: tuple[str, ...]) -> Loaded:
        """Loads a GPX file, and looks for its rows."""
        table = f"bench.t{next(self._numbers)}"
        self.run("tables", "create", table)
        ran = self.run("load", table, file, "--quiet", "--json", *flags)
        told = {"read": 0, "stored": 0, "replaced": 0, "rejected": 0} | json.loads(ran.stdout or "{}")
        counted = int(self.run("count", table, "--exact").stdout)
        dumped = self.run("dump", table, "--format", "geojsonseq").stdout.count("\n")
        self.run("tables", "drop", table, "--yes")
        rows = told["stored"] + told["replaced"]
        return Loaded(
            ran.returncode, ran.stderr.splitlines(), points_of(file), told["read"], rows, told["rejected"], counted, dumped
        )


def points_of(file: Path) -> int:
    """The points of a GPX file, up to where it is no XML."""
    found = 0
    try:
        for _, element in ElementTree.iterparse(file):
            found += element.tag.rpartition("}")[2] in POINTS
    except (ElementTree.ParseError, ValueError, LookupError):
        pass
    return found


def show_folder(loads: Loads, folder: Path) -> bool:
    """Loads the GPX files of a folder, and writes the tables of them; whether all their rows are there or were told."""
    files = sorted(it for it in folder.rglob("*") if it.suffix.lower() == ".gpx" and it.is_file())
    print(f"\n{len(files)} GPX files of {folder}\n")
    print("| File | Flags | Status | Points | Read | Stored | Rejected | By count | In the dump | Says |\n" + "|---" * 10 + "|")
    done: list[tuple[str, Loaded]] = []
    for file in files:
        for more in ((), MENDING):
            loaded = loads.load(file, (*LABEL, *more))
            done.append((" ".join(more), loaded))
            numbers = (loaded.status, loaded.points, loaded.read, loaded.stored, loaded.rejected, loaded.counted, loaded.dumped)
            says = loaded.outcome if loaded.agrees else f"DIFFERS: {loaded.outcome}"
            print(f"| {file.relative_to(folder)} | {done[-1][0]} | {' | '.join(map(str, numbers))} | {says} |", flush=True)
            if loaded.status == 0:
                break
    show_outcomes(done)
    return all(loaded.agrees for _, loaded in done)


def show_outcomes(done: list[tuple[str, Loaded]]) -> None:
    """The tables by outcome, and of what is kept in no row."""
    print("\n| Flags | Status | Says | Files | Points | Read | Stored | Rejected |\n" + "|---" * 8 + "|")
    kinds = {(flags, loaded.status, loaded.outcome): None for flags, loaded in done}
    for kind in sorted(kinds):
        alike = [it for flags, it in done if (flags, it.status, it.outcome) == kind]
        sums = (len(alike), *(sum(getattr(it, name) for it in alike) for name in ("points", "read", "stored", "rejected")))
        print(f"| {kind[0]} | {kind[1]} | {kind[2]} | {' | '.join(f'{it:,}' for it in sums)} |")
    print("\n| Not kept | Files |\n|---|---|")
    for name, files in Counter(name for flags, loaded in done if not flags for name in loaded.dropped).most_common():
        print(f"| {name} | {files} |")


def main() -> None:
    given = [Path(it).resolve() for it in sys.argv[1:]]
    groups: dict[str, list[str]] = {}
    for file in given:
        if not file.is_dir():
            groups.setdefault(file.suffix, []).append(str(file))
    with tempfile.TemporaryDirectory() as name, served("A") as port:
        loads = Loads(Path(name), port)
        print("| File | Flags | Status | What it says | Rows in the table |\n|---|---|---|---|---|")
        for one in hostile():
            (Path(name) / one.name).write_bytes(one.data)
            for flags in one.flags:
                loads.show(one.what, [one.name], flags)
        for suffix, files in groups.items():
            loads.show(f"{len(files)} files *{suffix}", files, (*LABEL, "--on-error", "skip"))
        agreed = [show_folder(loads, folder) for folder in given if folder.is_dir()]
    sys.exit(0 if all(agreed) else 1)


if __name__ == "__main__":
    main()
