"""CSV by whole columns: the same rows, places and errors as row after row."""

from __future__ import annotations

import csv
import io
import pytest
from collections.abc import Iterator, Sequence
from datetime import UTC, datetime
from hypothesis import example, given
from hypothesis import strategies as st
from itertools import zip_longest
from unittest.mock import patch

from fashkiin.errors import InputError, RowError
from fashkiin.formats import Names, Prepared, Source, delimited
from fashkiin.formats.columns import Bodies
from fashkiin.formats.fields import prepared
from fashkiin.formats.header import find_columns
from fashkiin.formats.numbers import are_numbers, number, throughout
from fashkiin.shares import shares_of

HEADER = ["id", "lon", "lat", "time", "label", "speed", 'a "name"']
LINES = ["r", "1", "2", "2024-05-01", "A", "7", "a\nb"]
BLANKS = [["r", "1", "2", "2024-05-01", "A", "7", "x"] if at not in (1, 4) else [] for at in range(9)]
NOON = datetime(2024, 5, 1, 12, tzinfo=UTC)
NAMES = Names(numbers=frozenset(["speed"]), unlabelled="A", number="file")
NAMINGS = [
    NAMES,
    Names(numbers=frozenset(["speed"]), wrap=True, default_time=NOON),
    Names(id=("id", 'a "name"'), only=frozenset(["speed"])),
    Names(time_format="unix", unlabelled="B"),
]
letters = st.characters(blacklist_categories=["Cs"], blacklist_characters="\0")
words = st.text(letters, max_size=6)
odd = st.sampled_from(["", "é", "\\", '"', "a\nb", "\x7f", "\u200b", "東", " ", "1_0", "caf\udce9"])
degrees = st.floats(-400, 400).map(str) | st.integers(-180, 180).map(str) | st.sampled_from(["nan", "1e2", "-0", " 5 "]) | odd
clocks = st.sampled_from(["", "T", " 12:30", "T12:30:15Z", "T12:30:15.5Z", "T12:30:15+00:00", "T23:30:00-02:00", "T24:00", "Z"])
days = st.sampled_from(["2024-05-01", "1970-01-01", "1969-12-31", "2598-01-03", "2598-01-04", "20240501", "2024-W01-1", ""])
times = st.tuples(days, clocks).map("".join) | st.sampled_from(["1714564800", "-1", "yesterday"])
labels = st.sampled_from(["", "A", "A&B", "x" * 257, "é|A"])
numbers = st.integers().map(str) | st.floats().map(repr) | st.sampled_from(["1.50", "007", "1e5", "-0", "1" * 16])
ids = st.text(letters, max_size=5) | st.sampled_from(["r1", "é" * 33, "x" * 64, "x" * 65])
plain = st.tuples(
    ids.filter(bool),
    st.floats(-180, 180).map(str),
    st.floats(-90, 90).map(str),
    st.datetimes(datetime(1970, 1, 1), datetime(2598, 1, 3)).map(lambda moment: f"{moment.isoformat()}Z"),
    st.sampled_from(["", "A", "A&B"]),
    numbers,
    words,
)
wild = st.tuples(ids | odd, degrees, degrees, times, labels, numbers | odd, words | odd)
records = st.lists(plain | wild | st.lists(words, max_size=9), max_size=9)


def file_of(given_records: Sequence[Sequence[str]]) -> bytes:
    """The records behind a header, as CSV. A record without fields is a blank line."""
    out = io.StringIO()
    csv.writer(out, lineterminator="\n").writerows([HEADER, *given_records])
    return out.getvalue().encode(errors="surrogateescape")


def source_of(data: bytes) -> Source:
    return Source("f", io.BufferedReader(io.BytesIO(data)))  # type: ignore[arg-type]


def shown(rows: Sequence[Prepared]) -> list[tuple[object, ...]]:
    """The rows, with the texts of their errors, so that they can be compared."""
    return [(place, made if isinstance(made, bytes) else str(made)) for place, _, _, made in rows]


@pytest.mark.parametrize("names", NAMINGS)
@given(given_records=records, size=st.integers(1, 4))
def test_whole_columns_make_the_rows_of_records_one_after_another(
    names: Names, given_records: list[Sequence[str]], size: int
) -> None:
    data = file_of(given_records)
    wanted = [prepared(place, row, names.wrap) for place, row in delimited.read(source_of(data), names)]
    batches = list(delimited.prepare(source_of(data), names, size))
    found = [row for batch in batches for row in batch]
    assert shown(found) == shown(wanted)
    good = [row[1:3] for row in wanted if not isinstance(row[3], RowError)]
    assert [row[1:3] for row in found if not isinstance(row[3], RowError)] == good
    assert all(len(batch) <= size for batch in batches)


@pytest.mark.parametrize("names", NAMINGS)
@given(
    given_records=st.lists(plain | st.just([]) | st.just(LINES) | wild, max_size=24),
    is_numbered=st.booleans(),
    size=st.integers(1, 3),
    turns=st.integers(2, 3),
    end=st.sampled_from([b"\n", b"\r\n", b"\r"]),
    tail=st.sampled_from([b"", b"r", b'"', b"\n\n", b'"1"2,\nr,1,2\n']),
)
@example(BLANKS, True, 2, 2, b"\n", b"")
@example(BLANKS, True, 2, 2, b"\r\n", b"")
@example(BLANKS, True, 2, 2, b"\r", b"")
def test_processes_that_leave_the_records_of_others_out_find_what_one_finds(
    names: Names, given_records: list[Sequence[str]], is_numbered: bool, size: int, turns: int, end: bytes, tail: bytes
) -> None:
    data = file_of(given_records).replace(b"\n", end) + tail
    if is_numbered and names.number is not None:
        data = data.replace(b"id", b"key", 1)
    wanted = [shown(batch) for batch in delimited.prepare(source_of(data), names, size)]
    kinds = throughout(delimited.numbers(source_of(data), names))
    with patch("fashkiin.shares.RUN", 1), patch.object(delimited, "NUMBERS_AT_A_TIME", size):
        parts = [list(delimited.prepare(source_of(data), names, size, share)) for share in shares_of(turns, True)]
        told = [kind for share in shares_of(turns, True) for kind in delimited.numbers(source_of(data), names, share)]
    assert [shown(batch) for turn in zip_longest(*parts) for batch in turn if batch is not None] == wanted
    assert throughout(told) == kinds


def test_records_of_others_are_not_parsed(monkeypatch: pytest.MonkeyPatch) -> None:
    parsed: list[object] = []
    records_of = delimited._records

    def counted(text: delimited._Text, records: object) -> Iterator[delimited._Record]:
        for record in records_of(text, records):
            parsed.append(record)
            yield record

    monkeypatch.setattr(delimited, "_records", counted)
    data = file_of([["r", "1", "2", "2024-05-01", "A", "7", "x"]] * 600)
    rows = [row for batch in delimited.prepare(source_of(data), NAMES, 5, shares_of(3, True)[1]) for row in batch]
    assert len(rows) == len(parsed) == 200 and rows[0][0] == 42


@pytest.mark.parametrize("time", ["2024-05-01", "2024-05-01T12:30:15Z", "2024-05-01 12:30", "2024-05-01T12:30:15.25+00:00"])
@pytest.mark.parametrize("name", ["Bree", "Brée", 'the "old" one', "a\\b", ""])
def test_usual_records_are_taken_by_columns(time: str, name: str) -> None:
    columns = find_columns(source_of(b""), HEADER, NAMES)
    given_records = [[f"r{at}", "4.25", "51.5", time, "A&B", "7.5", name] for at in range(3)]
    found = Bodies(columns, NAMES).read([2, 3, 4], given_records, 1)
    one_by_one = delimited.read(source_of(file_of(given_records)), NAMES)
    assert shown(found) == shown([prepared(at, row, False) for at, row in one_by_one])


def test_rows_before_a_record_that_is_no_csv_and_behind_it_have_their_lines() -> None:
    good = "r,1,2,2024-05-01,A,7,x\n"
    data = file_of([]) + f'{good}\nr,1,2,2024-05-01,A,7,"two\nlines"\nr,"1"2,3\n{good}'.encode()
    (found,) = delimited.prepare(source_of(data), NAMES, 9)
    assert [(place, isinstance(made, bytes)) for place, _, _, made in found] == [(2, True), (4, True), (6, False), (7, True)]


def test_a_file_that_breaks_off_gives_the_rows_before() -> None:
    class Broken(io.RawIOBase):
        def __init__(self) -> None:
            self.pieces = [file_of([["r", "1", "2", "2024-05-01", "A", "7", "x"]] * 3)]

        def readable(self) -> bool:
            return True

        def readinto(self, buffer: bytearray) -> int:  # type: ignore[override]
            if not self.pieces:
                raise OSError("a bad disk")
            piece = self.pieces.pop()
            buffer[: len(piece)] = piece
            return len(piece)

    batches = delimited.prepare(Source("f", io.BufferedReader(Broken())), NAMES, 2)
    assert [len(next(batches)), len(next(batches))] == [2, 1]
    with pytest.raises(OSError, match="a bad disk"):
        next(batches)


def test_a_header_without_a_column_is_refused_as_row_after_row() -> None:
    for read in (delimited.read(source_of(b"id,lon\n"), NAMES), delimited.prepare(source_of(b"id,lon\n"), NAMES, 2)):
        with pytest.raises(InputError, match="column lat: missing"):
            next(read)


@given(st.lists(numbers | words | odd, max_size=5))
def test_texts_are_numbers_if_each_is(texts: list[str]) -> None:
    assert are_numbers(texts) == all(number(text) is not None for text in texts)
