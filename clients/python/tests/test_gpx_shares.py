"""GPX that several processes share: the same rows, places and errors as by one, wherever the file is cut."""

from __future__ import annotations

import io
import pytest
import re
from dataclasses import replace
from datetime import UTC, datetime
from hypothesis import given
from hypothesis import strategies as st
from itertools import zip_longest
from pathlib import Path
from typing import TypeVar
from unittest.mock import patch
from xml.etree.ElementTree import Element

from fashkiin.commands import sources
from fashkiin.errors import FashkiinError
from fashkiin.formats import FORMATS, Names, Prepared, Source, gpx, gpx_pieces, gpx_points, gpx_shapes
from fashkiin.formats.gpx_texts import NAMESPACE
from fashkiin.formats.numbers import throughout
from fashkiin.reading import Reading
from fashkiin.shares import RUN, WHOLE, ShareError, shares_of

Item = TypeVar("Item")
NOON = datetime(2024, 5, 1, 12, tzinfo=UTC)
NAMES = Names(number="log", unlabelled="A")
NAMINGS = [
    replace(NAMES, numbers=frozenset(["ele", "hr", "id", "segment", "time"])),
    replace(NAMES, only=frozenset(["ele", "track"]), wrap=True, default_time=NOON),
    Names(id=("segment", "ele"), label="type", unlabelled="B"),
    Names(id=("ele",), numbers=frozenset(["ele"])),
    Names(),
]
HEAD = '<gpx xmlns="http://www.topografix.com/GPX/1/1" xmlns:x="urn:x">'
ROW = f'<row xmlns="{NAMESPACE}">{{"id":"r","label":"A","properties":{{}}}}</row>'
HIDDEN = '<trkpt lat="1" lon="2"/></trkseg>'


def track(count: int, tag: str = "trkpt", between: str = "\n") -> str:
    """Points of two kinds, of which one has no place."""
    more = ("<ele>1.5</ele>", "<extensions><x:hr>60</x:hr></extensions>")
    lats = [at if at != 7 else "x" for at in range(count)]
    points = [f"<{tag} lat='{lat}' lon='2'><time>2024-05-01</time>{more[at % 2]}</{tag}>" for at, lat in enumerate(lats)]
    return between.join([*points, ""])


def segment(text: str) -> str:
    return f"{HEAD}<trk><name>Sunday</name><trkseg>\n{text}</trkseg></trk></gpx>"


CUT = {
    "one segment": segment(track(70)),
    "one line": segment(track(70, between="")),
    "points of several lines": segment(track(70).replace("><", ">\r\n<")),
    "segments and tracks": segment("</trkseg><x/><trkseg>".join([track(3)] * 9) + "</trkseg></trk><trk><trkseg>" + track(40)),
    "waypoints, a route, a track": segment(track(40)).replace(
        "<trk>", f"{track(40, 'wpt')}<rte><name>R</name>{track(40, 'rtept')}</rte><trk>"
    ),
    "another prefix": re.sub(r"<(/?)(?![/x])", r"<\1g:", segment(track(70))).replace("xmlns=", "xmlns:g="),
    "a namespace of its own": segment(track(40)).replace("<trkseg>", "<trkseg xmlns='urn:other' xmlns:x='urn:y'>"),
    "comments": segment(track(30) + f"<!-- {HIDDEN} -->" + track(30) + "<?pi <trkpt ?>" + track(9)),
    "a name in CDATA": segment(track(40)).replace("Sunday", f"<![CDATA[{HIDDEN}]]>"),
    "texts in CDATA": segment(track(40).replace("1.5", "<![CDATA[<x>]]>")),
    "points without anything": segment(track(20) + '<trkpt lat="1" lon="2"/>\n' * 20 + track(20)),
    "texts beyond ASCII": segment(track(40).replace("1.5", "Brée")),
    "texts with references": segment(track(40).replace("1.5", "&amp;lt;&lt;&gt;&quot;&apos;") + track(9).replace("1.5", "&#53;")),
    "numbers up to one text": segment(track(60) + track(2).replace("1.5", "007") + track(8)),
    "numbers of other forms": segment(track(40) + track(2).replace("1.5", "1e3") + track(2).replace("1.5", "-0") + track(9)),
    "texts that are numbers sometimes": segment("".join(track(4).replace("1.5", f"{'x' * (at % 3)}1") for at in range(12))),
    "blanks around texts and in their place": segment(track(9) + track(20).replace("1.5", " 2 ") + track(20).replace("1.5", " ")),
    "elements of several shapes": segment("".join(track(4).replace("<ele>", "<a/>" * at + "<ele>") for at in range(15))),
    "an element twice": segment("".join(track(9).replace("<ele>", f"<ele>{ele}</ele><ele>") for ele in ("1.5", "2", "1.5"))),
    "links": segment(track(9) + track(30).replace("<ele>", "<link href='x'><text>X</text></link><ele>")),
    "attributes": segment(track(9) + track(30).replace("<ele>", "<x:a b='1' lat='2'/><ele c='>'>").replace("lat=", "d='e' lat=")),
    "attributes that differ": segment("".join(track(4).replace("<ele>", f"<ele n='{at}'>") for at in range(99))),
    "rows of its own": segment(track(9) + track(20).replace("</trkpt>", f"<extensions>{ROW}</extensions></trkpt>")),
    "a prefix for rows": segment(track(40).replace("x:hr", "y:row")).replace("xmlns:x", f"xmlns:y='{NAMESPACE}' xmlns:x"),
    "a prefix that is for rows at times": segment("".join(
        f"</trkseg><trkseg xmlns:y='{uri}'>{track(20).replace('x:hr', 'y:row')}" for uri in ("urn:y", NAMESPACE, "urn:z")
    )),
}
"""Files in which no process parses all that is of others."""

OTHER = {
    "a point in a point": segment(track(40).replace("<ele>", '<extensions><trkpt lat="1" lon="2"/></extensions><ele>')),
    "points in CDATA": segment(track(40).replace("1.5", f"<![CDATA[{HIDDEN}]]>")),
    "a comment that is long": segment(f"<!-- {HIDDEN * 200} -->" + track(40)),
    "points of an entity": f"<!DOCTYPE gpx [<!ENTITY p '{track(1)}'>]>" + segment(track(20) + "&p;" + track(20)),
    "elements and texts between": segment("<x/>".join([track(9)] * 5) + "text >" + track(9)),
    "a name behind points": f"{HEAD}<rte>{track(20, 'rtept')}<name>late</name>{track(20, 'rtept')}</rte></gpx>",
    "other points within": f"{HEAD}<rte>{track(20, 'rtept')}{track(20)}{track(20, 'rtept')}</rte></gpx>",
    "a tag with a blank": segment(track(40)).replace("</trkpt>", "</trkpt >"),
    "no GPX": "<x><trkpt/><trkpt/></x>",
    "no end": segment(track(70))[:-6],
    "the end of a point": segment(track(70))[:-60],
    "an entity that is not there": segment(track(40) + "&nbsp;" + track(40)),
    "an end too many": segment(track(40) + "</trkpt>" + track(40)),
    "a prefix that is not there": segment(track(70)).replace("xmlns:x", "xmlns:y"),
    "a prefix that has ended": segment("</trkseg><trkseg>".join(
        [f"</trkseg><trkseg xmlns:y='urn:y'>{track(20).replace('x:hr', 'y:hr')}", track(9).replace("x:hr", "y:hr")]
    )),
    "a character that is none": segment(track(40) + track(2).replace("1.5", "\ufffe")),
    "the end of CDATA": segment(track(40) + track(2).replace("1.5", "]]>")),
    "a reference to nothing": segment(track(40) + track(2).replace("2024-05-01", "&none;")),
    "an ampersand": segment(track(40) + track(2).replace("1.5", "A&B")),
    "another end": segment(track(40) + track(2).replace("</ele>", "</hr>")),
    "text behind a point": segment(track(40) + track(1) + "text" + track(2)),
    "an end behind a point": segment(track(40) + track(2).replace("</ele>", "</ele></trkpt>")),
    "a quote that is not there": segment(track(40) + "<trkpt lat='1 lon='2'/>" + track(20)),
}
"""Files in which points may be taken for others."""


def source_of(data: bytes) -> Source:
    return Source("f", io.BufferedReader(io.BytesIO(data)))  # type: ignore[arg-type]


def merged(shares: list[list[Item]]) -> list[Item]:
    """The items of shares in their order."""
    runs = [[share[at : at + RUN] for at in range(0, len(share), RUN)] for share in shares]
    return [item for turn in zip_longest(*runs) for run in turn for item in run or []]


def shown(rows: list[Prepared]) -> list[tuple[object, ...]]:
    """The rows, with the texts of their errors, so that they can be compared."""
    return [(*row, made if isinstance(made, bytes) else str(made)) for *row, made in rows]


def by_shares(data: bytes, names: Names, turns: int) -> list[list[Prepared]]:
    """The batches of two rows that so many processes find; `ShareError` where they cannot."""
    return merged([list(gpx.prepare(source_of(data), names, 2, share)) for share in shares_of(turns, True)])


def kinds_by_shares(data: bytes, turns: int) -> frozenset[str]:
    """The properties that so many processes find to be numbers throughout."""
    return throughout(kind for share in shares_of(turns, True) for kind in gpx.numbers(source_of(data), NAMES, share))


@pytest.mark.parametrize("names", NAMINGS)
@pytest.mark.parametrize("block", [64, 1000, 1 << 20])
@pytest.mark.parametrize("kind", CUT)
def test_processes_find_what_one_finds(kind: str, block: int, names: Names, monkeypatch: pytest.MonkeyPatch) -> None:
    monkeypatch.setattr(gpx_pieces, "BLOCK", block)
    monkeypatch.setattr(gpx, "NUMBERS_AT_A_TIME", 2)
    for encoding in ("utf-8", "utf-8-sig", "latin-1"):
        head = '<?xml version="1.0" encoding="latin-1"?>\n' if encoding == "latin-1" else ""
        data = (head + CUT[kind].replace("Sunday", "Brée")).encode(encoding)
        wanted = list(gpx.prepare(source_of(data), names, 2))
        kinds = throughout(gpx.numbers(source_of(data), names))
        for turns in (1, 3):
            assert list(map(shown, by_shares(data, names, turns))) == list(map(shown, wanted))
            assert kinds_by_shares(data, turns) == kinds


@pytest.mark.parametrize("kind", CUT)
def test_points_of_others_are_not_parsed(kind: str, monkeypatch: pytest.MonkeyPatch) -> None:
    left_out: list[bytes] = []
    monkeypatch.setattr(gpx_points._Document, "skip", lambda self, piece: left_out.append(piece))
    list(gpx.prepare(source_of(CUT[kind].encode()), NAMES, 1, shares_of(3, True)[0]))
    assert len(b"".join(left_out)) > len(CUT[kind]) / 4


@pytest.mark.parametrize("kind", [*CUT, *OTHER, "UTF-16"])
def test_files_are_loaded_as_one_process_reads_them(kind: str, tmp_path: Path, monkeypatch: pytest.MonkeyPatch) -> None:
    """Also where shares are given up within the file."""
    file = tmp_path / "a.gpx"
    text = ({"UTF-16": segment(track(40))} | CUT | OTHER)[kind]
    file.write_bytes(text.encode("utf-16" if kind == "UTF-16" else "utf-8"))
    monkeypatch.setattr(sources, "LARGE", 0)
    found = []
    for turns, block in ((0, 64), (3, 64), (2, 1000)):
        monkeypatch.setattr(gpx_pieces, "BLOCK", block)
        monkeypatch.setattr("fashkiin.reading.helpers", lambda turns=turns: turns)
        with sources.opened(str(file)) as source:
            reading = Reading(source, FORMATS["gpx"], NAMES, lambda: None)
            rows = [row for batch in reading.batches(2) for row in batch]
            found.append((shown(rows), str(reading.error), sorted(source.dropped)))
    assert found[0] == found[1] == found[2]


@pytest.mark.parametrize("most", [2, 64])
@pytest.mark.parametrize("kind", OTHER)
def test_no_row_of_a_share_is_told_that_one_process_would_not_tell(
    kind: str, most: int, monkeypatch: pytest.MonkeyPatch
) -> None:
    monkeypatch.setattr(gpx_pieces, "BLOCK", 1000 if "comment" in kind else 1 << 20)
    monkeypatch.setattr(gpx_points, "MOST", most)
    data, whole = OTHER[kind].encode(), shares_of(1, True)[0]
    told: list[Prepared] = []
    with pytest.raises(ShareError):
        for batch in gpx.prepare(source_of(data), NAMES, 2, whole):
            told += batch
    wanted: list[Prepared] = []
    try:
        for batch in gpx.prepare(source_of(data), NAMES, 2, WHOLE):
            wanted += batch
    except FashkiinError:
        pass
    assert shown(told) == shown(wanted[: len(told)])
    with pytest.raises(ShareError):
        list(gpx.numbers(source_of(data), NAMES, whole))


texts = st.sampled_from(
    ["", " ", "1", "-2.50", "007", "1" * 20, "1e5", "A", "A&amp;B", "é", "&lt;", "&#49;", " 3", '"', "\\", "x" * 70, "a\nb"]
)
times = st.sampled_from(["2024-05-01", "2024-05-01T12:30:15.5Z", " 2024-05-01T23:00-02:00 ", "1969-12-31", "20240501", "now", ""])
degrees = st.sampled_from(["1", "-0", " 5 ", "1_0", "1e2", "nan", "200", "400", "x"])
inner = st.sampled_from(["ele", "hr", "id", "label", "type", "segment", "track", "lon", "visibility", "link", "date"])
children = st.one_of(
    st.builds("<time>{}</time>".format, times),
    st.builds("<{0}>{1}</{0}>".format, inner, texts),
    st.builds("<extensions><{0}>{1}</{0}></extensions>".format, inner, texts),
    st.just(f"<extensions>{ROW}</extensions>"),
)
usual = st.builds(
    '<trkpt lat="1" lon="{}"><time>2024-05-01T12:00:00Z</time><ele>{}</ele><id>{}</id></trkpt>'.format,
    st.integers(-180, 180),
    texts,
    texts,
)
wild = st.builds('<trkpt lat="{}" lon="{}">{}</trkpt>'.format, degrees, degrees, st.lists(children, max_size=4).map("".join))
files = st.lists(usual | wild | st.just('<trkpt lat="1"/>'), max_size=12).map("\n".join)


@pytest.mark.parametrize("names", NAMINGS)
@given(text=files, size=st.integers(1, 5), most=st.sampled_from([1, 2, 64]), is_in_track=st.booleans())
def test_points_by_columns_are_those_one_after_another(
    names: Names, text: str, size: int, most: int, is_in_track: bool
) -> None:
    """Also those of which only the shape is known."""
    inside = f"<trk><name>T</name><type>run</type><trkseg>{text}</trkseg></trk>" if is_in_track else text
    data = f"<gpx>{inside}</gpx>".encode()
    wanted, kinds = list(gpx.prepare(source_of(data), names, size)), throughout(gpx.numbers(source_of(data), names))
    whole = shares_of(1, True)[0]
    with patch.object(gpx_points, "MOST", most):
        assert list(map(shown, gpx.prepare(source_of(data), names, size, whole))) == list(map(shown, wanted))
        assert throughout(gpx.numbers(source_of(data), names, whole)) == kinds


@pytest.mark.parametrize(
    "kind", ["one segment", "points of several lines", "another prefix", "texts beyond ASCII", "numbers up to one text"]
)
def test_points_of_known_shapes_are_not_parsed(kind: str, monkeypatch: pytest.MonkeyPatch) -> None:
    parsed: list[bytes] = []
    by_parser = gpx_points._Document._parsed

    def counted(self: gpx_points._Document, piece: bytes, count: int) -> list[Element]:
        parsed.extend([piece] if count else [])
        return by_parser(self, piece, count)

    monkeypatch.setattr(gpx_points, "MOST", 2)
    monkeypatch.setattr(gpx_points._Document, "_parsed", counted)
    list(gpx.prepare(source_of(CUT[kind].encode()), NAMES, 1, shares_of(1, True)[0]))
    assert 0 < len(parsed) < 6


def test_points_of_ever_new_forms_are_parsed(monkeypatch: pytest.MonkeyPatch) -> None:
    """Their forms are soon not learnt any more; forms that come now and then are."""
    learnt: list[str] = []
    made = gpx_shapes._shape

    def counted(form: str) -> gpx_shapes.Shape | None:
        learnt.append(form)
        return made(form)

    monkeypatch.setattr(gpx_points, "MOST", 1)
    monkeypatch.setattr(gpx_shapes, "_shape", counted)
    new = [track(1).replace("<ele>", f"<ele n='{at}'>") for at in range(4 * gpx_shapes.FORMS)]
    times = []
    for points in (new, [it + 4 * track(1) for it in new]):
        learnt.clear()
        list(gpx.prepare(source_of(segment("".join(points)).encode()), NAMES, 2, shares_of(1, True)[0]))
        times.append(len(learnt))
    assert times[0] <= gpx_shapes.FORMS and times[1] > len(new)
