"""Files that several processes read: the same rows in the same order as by one, and no process is left behind."""

from __future__ import annotations

import json
import pytest
import signal
import socket
import subprocess
import time
from dataclasses import replace
from pathlib import Path
from typing import Any

from conftest import Run
from fashkiin import Client, Table
from fashkiin.commands import sources
from fashkiin.formats import FORMATS, Names, delimited, gpx
from fashkiin.reading import Reading, numbers
from fashkiin.shares import RUN, helpers
from running import COMMAND, environment

ROWS = 6 * RUN * 2
"""Some runs of batches of two rows."""

NAMES = Names(number="file", unlabelled="A")
HEADER = "lon,lat,time,label,n,word\n"


def csv_row(at: int) -> str:
    if at % 7 == 3:
        return "\n" if at % 2 else '1,"2"3,\n'
    word = 'a\n""b""' if at % 5 == 0 else "Brée"
    return f'{at if at != 50 else 500},2,2024-05-01,A&B,{at},"{word}"\n'


def feature(at: int) -> str:
    geometry = {"type": "Point" if at % 7 else "LineString", "coordinates": [at if at != 50 else 500, 2, at]}
    return json.dumps({"type": "Feature", "geometry": geometry, "properties": {"time": "2024-05-01", "n": at, "word": "Brée"}})


def line(at: int) -> str:
    return f"{feature(at)}\n" if at % 5 else '\n{"no"\n'


def point(at: int) -> str:
    more = {0: "<desc>x</desc>", 40: "<sym>x</sym><sym>y</sym>", 70: "<link href='x'><text>y</text></link>"}.get(at, "")
    lon = at if at != 50 else 500
    return f'<trkpt lat="2" lon="{lon}"><time>2024-05-01</time><ele>{at}</ele><hr>{at if at != 60 else "x"}</hr>{more}</trkpt>\n'


def tracks() -> str:
    rows = "".join(point(at) + ("</trkseg><x/><trkseg>" if at % 20 == 9 else "") for at in range(ROWS))
    return f"<gpx><trk><name>Sunday</name><number>1</number><trkseg>{rows}</trkseg></trk>"


FILES = {
    "csv": HEADER + "".join(map(csv_row, range(ROWS))),
    "geojson": '{"features":[' + ",".join(map(feature, range(ROWS))) + ', {"type"',
    "geojsonseq": "".join(map(line, range(ROWS))),
    "gpx": tracks() + "<end/>",
}


def nothing() -> None:
    pass


def found(file: Path, form: str) -> tuple[list[Any], frozenset[str] | str, list[str], str]:
    """The rows of a file, which properties are numbers, what of it is kept in no row, and why it cannot be read on or how much of
    it was read."""
    with sources.opened(str(file)) as source:
        try:
            throughout: frozenset[str] | str = numbers(source, FORMATS[form], NAMES, nothing)
        except Exception as error:
            throughout = str(error)
        source.stream.seek(0)
        kept = frozenset(throughout) if isinstance(throughout, frozenset) else frozenset()
        reading = Reading(source, FORMATS[form], replace(NAMES, numbers=kept), nothing)
        rows = [row for batch in reading.batches(2) for row in batch]
        shown = [(*row[:3], made if isinstance(made, bytes) else str(made)) for *row, made in rows]
        return shown, throughout, list(source.dropped), str(reading.error or source.fraction())


@pytest.mark.parametrize("is_whole", [True, False], ids=["whole", "broken"])
@pytest.mark.parametrize("form", FILES)
def test_processes_read_what_one_reads(form: str, is_whole: bool, tmp_path: Path, monkeypatch: pytest.MonkeyPatch) -> None:
    file = tmp_path / "file"
    text = FILES[form]
    if is_whole:
        text = text.replace(', {"type"', "]}").replace("<end/>", "<end/></gpx>")
    else:
        text = text[: -len(text) // 5]
    file.write_text(text)
    for module in (delimited, gpx):
        monkeypatch.setattr(module, "NUMBERS_AT_A_TIME", 2)
    wanted = found(file, form)
    assert len(wanted[0]) > ROWS // 2 and (wanted[3] == "1.0") == (is_whole or form in ("csv", "geojsonseq"))
    monkeypatch.setattr(sources, "LARGE", 0)
    for turns in (1, 2, 3):
        monkeypatch.setattr("fashkiin.reading.helpers", lambda turns=turns: turns)
        assert found(file, form) == wanted


@pytest.mark.parametrize("turns", [0, 2])
def test_the_later_row_of_an_id_counts_also_far_behind(
    turns: int, run: Run, table: Table, root: Client, tmp_path: Path, monkeypatch: pytest.MonkeyPatch
) -> None:
    """Both in a table that is there, of which all ids are asked for, and in one that the load makes."""
    monkeypatch.setattr(sources, "LARGE", 0)
    monkeypatch.setattr("fashkiin.reading.helpers", lambda: turns)
    file = tmp_path / "a.csv"
    rows = [f"r{at % 400},{at / 10},2,2024-05-01,{'A' if at != 900 else 'B'}\n" for at in range(1000)]
    file.write_text("id,lon,lat,time,label\n" + "".join(rows))
    for name, words in ((table.name, ()), (f"{table.name}made", ("--create",))):
        code, _, err = run("load", name, file, "--window", 8, *words)
        told = "fashkiin: 1 of 1,000 rows stand under another label too, such as 'r100' under 'A': "
        assert (code, err.splitlines()[0].startswith(told)) == (0, True)
        assert err.splitlines()[1].startswith("1,000 rows read, 401 stored, 599 replaced, 0 rejected, in ")
        stored = {(row.id, row.label): row.lon for row in root.table(name).scan()}
        wanted = {(f"r{at % 400}", "A" if at != 900 else "B"): at / 10 for at in range(1000)}
        assert stored == wanted


@pytest.mark.skipif(not helpers(), reason="a single processor")
@pytest.mark.parametrize("ending", [signal.SIGINT, signal.SIGKILL])
def test_processes_end_with_the_load(ending: signal.Signals, token_file: Path, tmp_path: Path) -> None:
    file = tmp_path / "a.geojsonl"
    file.write_text((feature(1) + "\n") * (2 * sources.LARGE // len(feature(1))))
    with socket.create_server(("127.0.0.1", 0)) as silent:
        url = f"http://127.0.0.1:{silent.getsockname()[1]}"
        words = [*COMMAND, "load", "t", str(file), "--default-label", "", "--url", url, "--token-file", str(token_file)]
        with subprocess.Popen(words, env=environment(), stderr=subprocess.DEVNULL, preexec_fn=interruptible) as loading:
            with silent.accept()[0] as connection:
                connection.recv(1)
                processes = Path(f"/proc/{loading.pid}/task/{loading.pid}/children").read_text().split()
                loading.send_signal(ending)
                assert loading.wait(20) == (130 if ending == signal.SIGINT else -signal.SIGKILL)
    assert len(processes) == helpers()
    until = time.monotonic() + 20
    while any(is_there(it) for it in processes):
        assert time.monotonic() < until
        time.sleep(0.05)


def interruptible() -> None:
    """Has an interrupt end a process, also one that was started in the background."""
    signal.signal(signal.SIGINT, signal.SIG_DFL)


def is_there(process: str) -> bool:
    """Whether a process runs."""
    try:
        return Path(f"/proc/{process}/stat").read_text().rpartition(")")[2].split()[0] != "Z"
    except OSError:
        return False
