#!/usr/bin/env python3
"""Counts of a table beside PostGIS with row-level security, over the same rows and boxes in one run.

    postgis.py [ROWS]

100,000 rows where it is left out, which take 3 minutes. It needs the built bench_scan and st_served, postgresql-15 and its PostGIS; run
it with /usr/bin/python3.

PostGIS has a three-dimensional GiST index, and a policy that shows a row where one of the alternatives of its label (in disjunctive
normal form) is among the asker's authorizations. As PostGIS is installed, a policy is judged before an operator that may tell of hidden
rows, so that the index is of no use; the last column is of a PostGIS whose operator was declared `leakproof`, by which EXPLAIN ANALYZE
counts the hidden rows of a box. Its times are those of psql's `\\timing`; those of the table are of the call `Table::count`, and of the
same count asked of `st_served` over one connection. Each time is the middle one of a class's boxes, and of each box the least of its
askings.
"""
from __future__ import annotations

import http.client
import itertools
import json
import re
import socket
import statistics
import subprocess
import sys
import tempfile
import time
from collections.abc import Iterator
from pathlib import Path

TOP = Path(__file__).resolve().parent.parent
sys.path.insert(0, str(TOP / "tests"))

import scan_data  # noqa: E402
from postgres import PROGRAMS, SUPERUSER, postgres  # noqa: E402
from served import served, token  # noqa: E402

PROGRAM = TOP / "crates/bench_scan/out/bench_scan"
HELD = ("A", "B", "D", "G")
# How many boxes of a class are asked for, and how often each.
BOXES, TIMES = 5, 3
# How many puts are sent at once.
GROUP = 64
TABLE = """
create extension postgis;
create table raw(id text, x int, y int, t int, label text);
\\copy raw from '{points}' with (format csv, force_not_null (label))
create table labels(label text primary key, alternatives text[]);
insert into labels values {labels};
create table points as select id, label, alternatives, st_makepoint(x, y, t) as place from raw join labels using (label);
create index on points using gist (place gist_geometry_ops_nd);
create function shows(alternatives text[], held text[]) returns boolean language sql immutable parallel safe as
$$ select exists(select 1 from unnest(alternatives) it where string_to_array(it, ',') <@ held) $$;
alter table points enable row level security;
create role asker login;
grant select on points to asker;
create policy seen on points for select to asker using (shows(alternatives, string_to_array(current_setting('app.held'), ',')));
vacuum analyze points;
"""
INDEXED = "alter function geometry_overlaps_nd(geometry, geometry) leakproof;"
Boxes = dict[str, list[scan_data.Box]]
Found = dict[str, list[tuple[int, float]]]


def alternatives(label: str) -> list[frozenset[str]]:
    """The sets of authorizations, one of which a label without quotes asks for."""
    if not label:
        return [frozenset()]
    words = re.findall(r"\w+|[&|()]", label)

    def unit() -> list[frozenset[str]]:
        word = words.pop(0)
        if word != "(":
            return [frozenset({word})]
        inner = level()
        words.pop(0)
        return inner

    def level() -> list[frozenset[str]]:
        sets = unit()
        while words and words[0] in "&|":
            sign, other = words.pop(0), unit()
            sets = sets + other if sign == "|" else [one | two for one, two in itertools.product(sets, other)]
        return sets

    return level()


def row_of(label: str) -> str:
    sets = ",".join(f"'{','.join(sorted(it))}'" for it in alternatives(label))
    return f"('{label}', array[{sets}])"


def least(askings: Iterator[tuple[int, int, float]]) -> list[tuple[int, float]]:
    """Of each box by its number the rows, and the least of its times."""
    boxes: dict[int, tuple[int, float]] = {}
    for box, rows, took in askings:
        assert box not in boxes or boxes[box][0] == rows
        boxes[box] = rows, min(took, boxes[box][1] if box in boxes else took)
    return [boxes[box] for box in sorted(boxes)]


def in_postgis(points: Path, boxes: Boxes) -> tuple[Found, Found]:
    """What PostGIS counts, and the microseconds that it takes: as it is installed, and by its index."""
    with postgres("shared_buffers=2GB", "work_mem=256MB", "max_parallel_workers_per_gather=0", "jit=off") as folder:

        def ask(user: str, text: str) -> str:
            words = [str(PROGRAMS / "psql"), "-h", str(folder), "-U", user, "-d", "postgres", "-qAt", "-v", "ON_ERROR_STOP=1"]
            return subprocess.run(words, input=text, stdout=subprocess.PIPE, text=True, check=True).stdout

        def counted(of_class: list[scan_data.Box]) -> list[tuple[int, float]]:
            lines = [f"set app.held = '{','.join(HELD)}';\n\\timing on"]
            for x0, x1, y0, y1, t0, t1 in of_class * TIMES:
                box = f"st_3dmakebox(st_makepoint({x0},{y0},{t0}), st_makepoint({x1},{y1},{t1}))"
                lines.append(f"select count(*) from points where place &&& {box};")
            said = re.findall(r"^(\d+)\nTime: ([\d.]+) ms", ask("asker", "\n".join(lines)), re.M)
            assert len(said) == len(of_class) * TIMES
            return least((at % len(of_class), int(rows), float(took) * 1000) for at, (rows, took) in enumerate(said))

        ask(SUPERUSER, TABLE.format(points=points, labels=",".join(map(row_of, scan_data.LABELS))))
        installed = {name: counted(of_class) for name, of_class in boxes.items()}
        ask(SUPERUSER, INDEXED)
        return installed, {name: counted(of_class) for name, of_class in boxes.items()}


def in_table(points: Path, boxes: Boxes, folder: Path) -> Found:
    """What a table counts, and the microseconds that it takes."""
    asked = folder / "asked"
    lines = [" ".join(map(str, (name, *box))) for name, of_class in boxes.items() for box in of_class * TIMES]
    asked.write_text("\n".join(lines) + "\n")
    words = [PROGRAM, points, asked]
    done = subprocess.run(words, capture_output=True, text=True, check=True)
    shown, took = ([line.split() for line in text.splitlines() if line.split()[0] in boxes] for text in (done.stdout, done.stderr))
    found = {}
    for name, of_class in boxes.items():
        pairs = [(int(one[1]), int(two[1]) / 1000) for one, two in zip(shown, took, strict=True) if one[0] == name]
        found[name] = least((at % len(of_class), *pair) for at, pair in enumerate(pairs))
    return found


class Asker:
    """A connection of the server's root."""

    def __init__(self, port: int) -> None:
        self.connection = http.client.HTTPConnection("127.0.0.1", port)
        self.headers = {"Authorization": f"Bearer {token('root')}", "Content-Type": "application/json"}

    def ask(self, path: str, body: dict[str, object]) -> dict[str, object]:
        self.connection.request("POST", path, json.dumps(body), self.headers)
        answer = self.connection.getresponse()
        said = answer.read()
        assert answer.status == 200, said
        told: dict[str, object] = json.loads(said)
        return told


def fill(port: int, points: Path) -> None:
    """Puts the points, so many at a time, over connections that end before their reads are used up."""
    head = f"POST /tables/points/put HTTP/1.1\r\nHost: a\r\nAuthorization: Bearer {token('root')}\r\nContent-Length: "
    with points.open() as lines:
        while part := list(itertools.islice(lines, 1_000 * GROUP)):
            with socket.create_connection(("127.0.0.1", port)) as to:
                for start in range(0, len(part), GROUP):
                    group = part[start : start + GROUP]
                    to.sendall("".join(head + put_of(line) for line in group).encode())
                    answered = b""
                    while answered.count(b'{"ok":true}') < len(group):
                        answered += to.recv(1 << 16)


def put_of(line: str) -> str:
    """The length and the rest of a request that puts a point."""
    row, x, y, t, label = line.rstrip("\n").split(",")
    body = json.dumps({"id": row, "label": label, "note": "", "point": [int(x), int(y), int(t)]})
    return f"{len(body)}\r\n\r\n{body}"


def served_counts(points: Path, boxes: Boxes) -> Found:
    """What the server counts, and the microseconds until it has answered."""
    with served(*"ABCDEFGH") as port:
        fill(port, points)
        asker = Asker(port)

        def asked(of_class: list[scan_data.Box]) -> Iterator[tuple[int, int, float]]:
            for at, box in enumerate(of_class * TIMES):
                start = time.perf_counter()
                count = asker.ask("/tables/points/count", {"auths": HELD, "box": box})["count"]
                assert isinstance(count, int)
                yield at % len(of_class), count, (time.perf_counter() - start) * 1e6

        return {name: least(asked(of_class)) for name, of_class in boxes.items()}


def main() -> None:
    count = int(sys.argv[1]) if len(sys.argv) > 1 else 100_000
    boxes = {name: of_class[:BOXES] for name, of_class in scan_data.classes(count)}
    with tempfile.TemporaryDirectory(dir="/dev/shm") as name:
        folder = Path(name)
        folder.chmod(0o755)
        points = folder / "points"
        points.write_text("".join(",".join(map(str, row)) + "\n" for row in scan_data.points(count, len(scan_data.LABELS))))
        kinds = (in_table(points, boxes, folder), served_counts(points, boxes), *in_postgis(points, boxes))
    print(f"{count:,} rows of {len(scan_data.LABELS)} labels; a count in microseconds")
    print(f"{'class':>7}{'rows':>10}{'table':>11}{'server':>11}{'PostGIS':>14}{'leakproof':>14}")
    for name in boxes:
        rows = [[rows for rows, _ in found[name]] for found in kinds]
        assert all(it == rows[0] for it in rows), f"the counts differ: {name}"
        table, server, *peers = (statistics.median(took for _, took in found[name]) for found in kinds)
        print(f"{name:>7}{statistics.median(rows[0]):>10,.0f}{table:>11,.1f}{server:>11,.1f}{peers[0]:>14,.1f}{peers[1]:>14,.1f}")


if __name__ == "__main__":
    main()
