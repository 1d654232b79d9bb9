"""Rows for property tests."""

from __future__ import annotations

from datetime import UTC, datetime
from hypothesis import strategies as st

from fashkiin import Row
from fashkiin.rows import to_json

RESERVED = {"id", "lon", "lat", "time", "label"}

texts = st.text(st.characters(blacklist_categories=["Cs"]), max_size=12)
ids = st.text(st.characters(blacklist_categories=["Cs"]), min_size=1, max_size=12)
names = st.text(st.characters(blacklist_categories=["Cs"]), min_size=1, max_size=8).filter(lambda name: name not in RESERVED)
times = st.datetimes(datetime(1970, 1, 1), datetime(2598, 1, 3), timezones=st.just(UTC))
values = st.recursive(
    st.none() | st.booleans() | st.integers(-(2**60), 2**60) | st.floats(allow_nan=False, allow_infinity=False) | texts,
    lambda inner: st.lists(inner, max_size=3) | st.dictionaries(names, inner, max_size=3),
    max_leaves=5,
)
labels = st.sampled_from(["", "A", "A&B", "A|(B&C)", "B|C"])


def rows(properties: st.SearchStrategy[object] = values) -> st.SearchStrategy[Row]:
    """Rows whose properties have such values, short enough for a note."""
    made = st.builds(
        Row,
        id=ids,
        lon=st.floats(-180, 180),
        lat=st.floats(-90, 90),
        time=times,
        label=labels,
        properties=st.dictionaries(names, properties, max_size=4),
    )
    return made.filter(lambda row: len(to_json(row.properties).encode()) < 3000)
