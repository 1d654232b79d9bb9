"""Points of GPX that are found by their shape: the rows and lines that `xml.etree` finds, whatever stands among them."""

from __future__ import annotations

import pytest
from test_gpx_shares import NAMES, kinds_by_shares, source_of
from xml.etree import ElementTree
from xml.parsers import expat

from fashkiin import Row
from fashkiin.cells import parse_time
from fashkiin.formats import Prepared, gpx, gpx_pieces, gpx_points
from fashkiin.formats.gpx_texts import local
from fashkiin.formats.numbers import number
from fashkiin.shares import ShareError, shares_of

HEAD = "<gpx xmlns='http://www.topografix.com/GPX/1/1' xmlns:g='http://www.topografix.com/GPX/1/1' xmlns:x='urn:x'>\n"
TIME = "<time>2024-05-01T12:00:00Z</time>"


def point(name: str, more: str = "") -> str:
    return f'<wpt lat="1" lon="2">{TIME}<name>{name}</name>{more}</wpt>\n'


ODD = {
    "attributes in another order": f"<wpt lon='2.5' lat='1.5'>{TIME}<name>A</name></wpt>",
    "blanks in tags": f'<wpt  lat="3"\n lon = "4" >{TIME}<name >A</name\n></wpt>',
    "degrees with blanks": f'<wpt lat=" 3" lon="4 ">{TIME}<name>A</name></wpt>',
    "another prefix": f'<wpt lat="3" lon="4"><g:time>2024-05-02</g:time><x:name>A</x:name></wpt>{point("B")}',
    "a namespace of its own": f'<wpt xmlns:y="urn:y" lat="3" lon="4">{TIME}<y:name>A</y:name></wpt>',
    "an entity": point("&ship;") + point("&none;") + point("&lt;"),
    "an attribute by default": f'<wpt lon="4">{TIME}<name>A</name></wpt>',
    "references": point("&#65;&#x42;&amp;lt;&gt;&quot;&apos;"),
    "CDATA": point("<![CDATA[<b> & ]]>") + point("A<![CDATA[B]]>C") + point("A<![CDATA[]]>") + point("B<![CDATA[]]>"),
    "a comment and an instruction": point("A<!-- <name> -->B") + point("A<?name B?>C"),
    "a text split by elements": point("A", "<extensions>B<hr>C</hr>D</extensions>") + point("A<x:b>B</x:b>C"),
    "blanks": point(" A") + point("\r\nA\tB") + point("\u00a0A") + point("A\u0085") + point("A", " \n<ele>1</ele>\n"),
    "numbers": point("1" * 400) + point("123.456789012345") + point("12345.6789012345") + point("1e5") + point("-7"),
    "characters": point("Brée") + point("\U0001f6a2") + point("\ufeffA") + point("]] >"),
    "an element that is empty at times": "".join(
        point("A", f"<extensions><sym>{'x' * (at % 3)}</sym><hr>{at}</hr></extensions>") for at in range(40)
    ),
}
"""What stands among points that are alike."""


def data_of(odd: str) -> bytes:
    """A file of points of which the odd ones come first, in between, and at last."""
    declared = '<!DOCTYPE gpx [<!ENTITY ship "A &#38;lt; B"><!ENTITY none ""><!ATTLIST wpt lat CDATA "7">]>\n'
    alike = "".join(point(f"ship {at}") for at in range(30))
    return (declared + HEAD + odd + alike + odd + odd + alike + odd + "</gpx>").encode()


def parsed(data: bytes) -> list[tuple[int, Row]]:
    """The rows of a file as a plain parse finds them, with the lines on which their points end."""
    lines: list[int] = []
    parser = expat.ParserCreate(namespace_separator="}")
    parser.EndElementHandler = lambda tag: lines.append(parser.CurrentLineNumber) if local(tag) == "wpt" else None
    parser.Parse(data, True)
    rows = []
    for at, wpt in enumerate(ElementTree.fromstring(data), 1):
        values = {local(it.tag): it.text or "" for it in wpt if not len(it)}
        values |= {local(it.tag): (it.text or "").strip() for child in wpt for it in child if (it.text or "").strip()}
        time = parse_time(values.pop("time"))
        rows.append(Row(f"log-{at}", float(wpt.attrib["lon"]), float(wpt.attrib["lat"]), time, "A", values))
    return list(zip(lines, rows, strict=True))


@pytest.mark.parametrize("turns", [1, 2])
@pytest.mark.parametrize("kind", ODD)
def test_points_among_others_are_those_of_a_plain_parse(kind: str, turns: int, monkeypatch: pytest.MonkeyPatch) -> None:
    monkeypatch.setattr(gpx_points, "MOST", 4)
    data = data_of(ODD[kind])
    wanted = parsed(data)
    found: dict[str, Prepared] = {}
    for share in shares_of(turns, True):
        found |= {row[1]: row for batch in gpx.prepare(source_of(data), NAMES, 2, share) for row in batch}
    assert len(found) == len(wanted)
    assert [found[row.id] for _, row in wanted] == [(line, row.id, "A", row.body()) for line, row in wanted]
    texts = [item for _, row in wanted for item in row.properties.items() if item[1]]
    others = {name for name, text in texts if number(text) is None}
    assert kinds_by_shares(data, turns) == {name for name, _ in texts} - others


@pytest.mark.parametrize("around", [("<!-- ", " -->"), ("<desc><![CDATA[", "]]></desc>"), ("<?x ", "?>"), ("<x a='\n", "'/>")])
def test_points_of_a_known_shape_that_are_hidden_are_none(around: tuple[str, str], monkeypatch: pytest.MonkeyPatch) -> None:
    """Also where what hides them begins in another block of the file."""
    monkeypatch.setattr(gpx_pieces, "BLOCK", 1_000)
    alike = "".join(f"<trkpt lat='{at % 90}' lon='2'>{TIME}</trkpt>\n" for at in range(100))
    text = f"{alike}{around[0]}{alike}</trkseg>{around[1]}"
    data = f"<gpx><trk><trkseg>\n{text}{alike}</trkseg></trk></gpx>".encode()
    told: list[Prepared] = []
    with pytest.raises(ShareError):
        for batch in gpx.prepare(source_of(data), NAMES, 2, shares_of(1, True)[0]):
            told += batch
    assert 0 < len(told) <= 100 and [row[0] for row in told] == list(range(2, 2 + len(told)))


@pytest.mark.parametrize("encoding", ["latin-1", "utf-8"])
def test_texts_are_read_in_the_encoding_that_a_file_names(encoding: str) -> None:
    """Also where they could be read in UTF-8."""
    data = f'<?xml version="1.0" encoding="{encoding}"?>\n{HEAD}{point("Ã©") * 200}</gpx>'.encode(encoding)
    bodies = [row[3] for batch in gpx.prepare(source_of(data), NAMES, 8, shares_of(1, True)[0]) for row in batch]
    assert len(bodies) == 200 and all("Ã©".encode() in body for body in bodies if isinstance(body, bytes))
