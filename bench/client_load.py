#!/usr/bin/env python3
"""What `fashkiin load` takes of a processor, by files of the same rows: rows a second of the client's own time (user and system), the
seconds on the clock, and the server's time; and what the command takes to start.

    nice bench/client_load.py [ROWS [FORMAT..]]

100,000 rows of each format where they are left out. It needs the built `st_served`, or the one that ST_SERVED names. Run it with
/usr/bin/python3. Modules are compiled before anything is measured, as a package leaves them.
"""
from __future__ import annotations

import csv
import json
import os
import random
import subprocess
import sys
import tempfile
import time
from collections.abc import Callable, Iterator
from dataclasses import dataclass
from pathlib import Path
from typing import Any, TextIO
from xml.sax.saxutils import escape

TOP = Path(__file__).resolve().parent.parent
sys.path.insert(0, str(TOP / "tests"))

from served import serving, token  # noqa: E402

TABLE = "bench.ships"
LABELS = ("", "storms", "storms&wind", "flight|(storms&wind)")
STARTS = 20
Fields = tuple[str, float, float, str, str, float, str]


def made(rows: int) -> Iterator[Fields]:
    """Positions of a thousand ships: id, longitude, latitude, time, label, speed, name."""
    chance = random.Random(20240501)
    for at in range(rows):
        lon, lat = round(chance.uniform(-180, 180), 6), round(chance.uniform(-90, 90), 6)
        when = f"2024-{chance.randint(1, 12):02}-{chance.randint(1, 28):02}T{at % 24:02}:{chance.randint(0, 59):02}:00Z"
        yield f"r{at}", lon, lat, when, chance.choice(LABELS), round(chance.uniform(0, 30), 1), f"ship {at % 1000}"


def feature(row: Fields) -> dict[str, Any]:
    """The GeoJSON Feature of a row."""
    name, lon, lat, when, label, speed, ship = row
    properties = {"time": when, "label": label, "speed": speed, "name": ship}
    return {"type": "Feature", "id": name, "properties": properties, "geometry": {"type": "Point", "coordinates": [lon, lat]}}


def write_csv(out: TextIO, rows: int) -> None:
    writer = csv.writer(out)
    writer.writerow(("id", "lon", "lat", "time", "label", "speed", "name"))
    writer.writerows(made(rows))


def write_lines(out: TextIO, rows: int) -> None:
    out.writelines(f"{json.dumps(feature(row))}\n" for row in made(rows))


def write_collection(out: TextIO, rows: int) -> None:
    out.write('{"type": "FeatureCollection", "features": [\n')
    out.write(",\n".join(json.dumps(feature(row)) for row in made(rows)))
    out.write("\n]}\n")


def write_gpx(out: TextIO, rows: int) -> None:
    out.write('<gpx xmlns="http://www.topografix.com/GPX/1/1" version="1.1" creator="bench">\n')
    for name, lon, lat, when, label, speed, ship in made(rows):
        own = f"<id>{name}</id><label>{escape(label)}</label><speed>{speed}</speed>"
        out.write(
            f'<wpt lat="{lat:.6f}" lon="{lon:.6f}"><time>{when}</time><name>{ship}</name><extensions>{own}</extensions></wpt>\n'
        )
    out.write("</gpx>\n")


FORMATS: dict[str, Callable[[TextIO, int], None]] = {
    "csv": write_csv,
    "geojson": write_collection,
    "geojsonl": write_lines,
    "gpx": write_gpx,
}
"""How a file of each suffix is written."""


@dataclass
class Took:
    """What a process took: seconds on the clock, and of a processor."""

    clock: float
    processor: float


class Commands:
    """The command against one server, with modules that are compiled."""

    def __init__(self, folder: Path, port: int) -> None:
        self.token = folder / "token"
        self.token.touch(mode=0o600)
        self.token.write_text(token("root"))
        self.environment = {name: value for name, value in os.environ.items() if name != "PYTHONDONTWRITEBYTECODE"} | {
            "PYTHONPATH": str(TOP / "clients/python/src"),
            "PYTHONPYCACHEPREFIX": str(folder / "compiled"),
            "FASHKIIN_TOKEN_FILE": str(self.token),
            "FASHKIIN_URL": f"http://127.0.0.1:{port}",
        }

    def run(self, *words: object) -> Took:
        """Runs the command to its end."""
        start = time.monotonic()
        process = subprocess.Popen(
            [sys.executable, "-m", "fashkiin", *map(str, words)], env=self.environment, stdout=subprocess.DEVNULL
        )
        _, status, used = os.wait4(process.pid, 0)
        process.returncode = os.waitstatus_to_exitcode(status)
        if process.returncode != 0:
            sys.exit(f"fashkiin {words[0]} ended with {process.returncode}")
        return Took(time.monotonic() - start, used.ru_utime + used.ru_stime)


def processor_time(pid: int) -> float:
    """The seconds of a processor that a process has taken."""
    fields = Path(f"/proc/{pid}/stat").read_text().rpartition(")")[2].split()
    return (int(fields[11]) + int(fields[12])) / os.sysconf("SC_CLK_TCK")


def starts(commands: Commands) -> None:
    """The least that a start takes, and its middle."""
    for words in (("--version",), ("whoami",)):
        commands.run(*words)
        took = sorted(commands.run(*words).processor for _ in range(STARTS))
        print(f"fashkiin {words[0]}: {took[0]:.3f} s of a processor at the least, {took[STARTS // 2]:.3f} in the middle", flush=True)


def main() -> None:
    rows = int(sys.argv[1]) if len(sys.argv) > 1 else 100_000
    formats = sys.argv[2:] or list(FORMATS)
    with tempfile.TemporaryDirectory() as name, serving("storms", "wind", "flight") as server:
        commands = Commands(Path(name), server.port)
        starts(commands)
        for suffix in formats:
            file = Path(name) / f"ships.{suffix}"
            with file.open("w", newline="") as out:
                FORMATS[suffix](out, rows)
            before = processor_time(server.process.pid)
            # An empty label of a GPX extension is none.
            words = ("--create", "--period", "day", "--default-label", "", "--quiet")
            took = commands.run("load", f"{TABLE}_{suffix}", file, *words)
            served = processor_time(server.process.pid) - before
            print(
                f"{suffix}: {rows / took.processor:,.0f} rows a second of the client's processor"
                f" ({took.processor:.2f} s), {rows / took.clock:,.0f} on the clock; the server took {served:.2f} s",
                flush=True,
            )


if __name__ == "__main__":
    main()
