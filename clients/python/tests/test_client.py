"""The client against the built server."""

from __future__ import annotations

import json
import pytest
import random
from collections.abc import Callable
from datetime import UTC, datetime, timedelta
from served import digest, token

from conftest import Run
from fashkiin import Client, Row, Table, Token, errors
from fashkiin.accounts import Account, Grant, TableInfo
from fashkiin.cells import boxes, cell_longitude, longitude_cell

START = datetime(2024, 5, 1, 12, tzinfo=UTC)


def rows(number: int = 60) -> list[Row]:
    """Rows on a diagonal, half a degree and a minute apart, of labels by turns."""
    labels = ["", "A", "B", "A&B", "C"]
    return [Row(f"r{at}", at * 0.5, at * 0.25, START + timedelta(minutes=at), labels[at % 5], {"at": at}) for at in range(number)]


@pytest.fixture
def filled(table: Table) -> Table:
    """A table of these rows."""
    assert all(put.error is None for put in table.put_many(rows()))
    return table


def by_id(given: list[Row]) -> list[Row]:
    return sorted(given, key=lambda row: (row.id, row.label))


def test_a_scan_gives_back_the_rows(filled: Table) -> None:
    assert by_id(list(filled.scan())) == by_id(rows())


def test_a_scan_by_authorizations(filled: Table) -> None:
    assert by_id(list(filled.scan(auths=["A"]))) == by_id([row for row in rows() if row.label in ("", "A")])
    assert by_id(list(filled.scan(auths=[]))) == by_id([row for row in rows() if row.label == ""])


def test_a_scan_by_pages(filled: Table) -> None:
    pages = list(filled.pages(limit=7))
    assert [len(page) for page in pages] == [7] * 8 + [4]
    assert by_id([row for page in pages for row in page]) == by_id(rows())


def test_a_scan_is_by_exact_positions_and_times_with_both_ends_included(filled: Table) -> None:
    inside = [row for row in rows() if 5.0 <= row.lon <= 10.0 and row.time <= START + timedelta(minutes=15)]
    assert by_id(list(filled.scan((5.0, 0.0, 10.0, 90.0), (None, START + timedelta(minutes=15))))) == by_id(inside)


def test_rows_of_one_cell_are_told_apart_by_a_scan_and_not_by_a_count(table: Table) -> None:
    middle = cell_longitude(longitude_cell(10.0))
    for name, lon in (("west", middle - 1e-5), ("east", middle + 1e-5)):
        table.put(Row(name, lon, 1.0, START, "A"))
    box = (middle, 0.0, 20.0, 2.0)
    assert [row.id for row in table.scan(box)] == ["east"]
    assert table.count(box) == 2


@pytest.mark.parametrize("seed", range(6))
def test_an_exact_count_is_that_of_the_scan(table: Table, seed: int) -> None:
    chance = random.Random(seed)
    cell, middle = 360 / (1 << 21), 10.0

    def near(number: float) -> float:
        """A number that lies at an edge of a cell or within it, some cells from the middle."""
        return number + chance.randrange(-4, 5) * cell + chance.choice([0.0, 1e-13, chance.random() * cell])

    given = [
        Row(f"r{at}", near(middle), near(middle), START + timedelta(seconds=chance.randrange(8) / 2), "A") for at in range(120)
    ]
    assert all(put.error is None for put in table.put_many(given))
    for _ in range(6):
        (west, east), (south, north) = (sorted((near(middle), near(middle))) for _ in range(2))
        first, last = sorted(START + timedelta(seconds=chance.randrange(8) / 2) for _ in range(2))
        wanted = sum(west <= it.lon <= east and south <= it.lat <= north and first <= it.time <= last for it in given)
        where = ((west, south, east, north), (first, last))
        assert (table.count(*where, exact=True), len(list(table.scan(*where)))) == (wanted, wanted)
        least, most = table.count_range(*where)
        assert least <= wanted <= most == table.count(*where)


def test_a_count_says_about_only_where_rows_lie_in_cells_that_are_cut(run: Run, table: Table) -> None:
    middle = cell_longitude(longitude_cell(10.0))
    for name, lon in (("west", middle - 1e-5), ("east", middle + 1e-5), ("far", 15.0)):
        table.put(Row(name, lon, 1.0, START, "A"))
    box = ("--bbox", middle, 0, 20, 2)
    assert run("count", table.name, *box)[1] == "about 3\n"
    assert run("count", table.name, *box, "--exact")[1] == "2\n"
    assert json.loads(run("count", table.name, *box, "--json")[1]) == {"count": 3, "least": 1}
    assert run("count", table.name, "--bbox", 12, 0, 20, 2)[1] == "1\n"
    assert run("count", table.name)[1] == "3\n"


def test_a_bbox_over_the_antimeridian(table: Table) -> None:
    for name, lon in (("a", 179.5), ("b", -179.5), ("c", 0.0)):
        table.put(Row(name, lon, 1.0, START, ""))
    assert sorted(row.id for row in table.scan((179.0, 0.0, -179.0, 2.0))) == ["a", "b"]
    assert table.count((179.0, 0.0, -179.0, 2.0)) == 2
    assert table.count((179.0, 0.0, -179.0, 2.0), exact=True) == 2
    assert table.count_range((179.0, 0.0, -179.0, 2.0)) == (2, 2)
    with pytest.raises(ValueError, match="antimeridian"):
        table.grid((179.0, 0.0, -179.0, 2.0))


def test_counts_and_grids_agree_with_the_rows(filled: Table) -> None:
    assert filled.count() == 60
    assert filled.count(auths=["B"]) == sum(row.label in ("", "B") for row in rows())
    assert filled.count(time=("2024-05-01T12:10:00Z", "2024-05-01T12:19:00Z")) == 10
    assert filled.count(time=("2024-05-02", "2024-05-01")) == 0
    grid = filled.grid((-0.1, -0.05, 29.9, 14.95), nx=2, ny=2)
    assert (grid[0][0], grid[0][1], grid[1][0], grid[1][1]) == (30, 0, 0, 30)


def test_get_replace_and_delete(table: Table) -> None:
    first = Row("p", 1.0, 2.0, START, "A", {"n": 1})
    other = Row("p", 1.0, 2.0, START, "B")
    table.put(first)
    table.put(other)
    assert table.get("p") == [first, other]
    assert table.get("p", auths=["B"]) == [other]
    moved = Row("p", -100.0, -50.0, START + timedelta(days=900), "A", {"n": 2})
    table.put(moved)
    assert table.get("p") == [moved, other]
    table.delete("p", "A")
    assert table.get("p") == [other]
    table.delete("none", "")


def test_a_put_that_is_refused_raises(table: Table) -> None:
    with pytest.raises(errors.LabelError) as raised:
        table.put(Row("p", 1.0, 2.0, START, "A|B&C"))
    assert raised.value.at == 3
    with pytest.raises(errors.RowError, match="lat: 91.0, wanted -90 to 90 degrees"):
        table.put(Row("p", 1.0, 91.0, START, ""))


def test_a_plan(table: Table) -> None:
    (box,) = boxes((0.0, 0.0, 1.0, 1.0), (START, START))
    (part,) = table.plan(box, budget=4)
    assert len(part["ranges"]) <= 4


def test_users_tables_and_grants(root: Client, url: str) -> None:
    root.users.create("ann", digest("ann"), ["A"])
    assert set(root.users) == {"ann", "root"}
    assert root.users.get("ann") == Account("ann", ("A",), ())
    root.tables.create("adm.t", "day")
    assert TableInfo("adm.t", False, "day") in list(root.tables)
    root.grants.grant("ann", "READ", table="adm.t")
    root.grants.grant("ann", "WRITE", namespace="adm")
    root.grants.grant("ann", "CREATE_TABLE")
    assert Grant("ann", ("READ",)) in root.grants.list(table="adm.t")
    assert root.grants.list(namespace="adm") == [Grant("ann", ("WRITE",))]
    root.close()
    with Client(url, token("ann")) as ann:
        assert ann.whoami() == Account("ann", ("A",), ("CREATE_TABLE",))
        ann.table("adm.t").put(Row("p", 1.0, 2.0, START, "B"))
        assert ann.table("adm.t").count() == 0
        with pytest.raises(errors.AuthorizationError) as raised:
            ann.table("adm.t").count(auths=["B"])
        assert raised.value.authorization == "B"
        new = Token.new("ann")
        ann.users.rotate(new)
        assert ann.whoami().user == "ann"
    with Client(url, token("ann")) as old, pytest.raises(errors.TokenError):
        old.whoami()
    root.grants.revoke("ann", "READ", table="adm.t")
    root.tables.set_constraint("adm.t", True)
    root.tables.set_period("adm.t", "week")
    assert TableInfo("adm.t", True, "week") in list(root.tables)
    root.users.set_auths("ann", ["B", "C"])
    root.users.set_digest("ann", digest("ann"))
    assert root.users.get("ann").auths == ("B", "C")
    assert [change.request for change in root.audit()[-5:]][0] == "revoke-table"
    root.tables.drop("adm.t")
    root.users.drop("ann")
    assert set(root.users) == {"root"}


def test_refusals_of_the_server_are_their_exceptions(root: Client, table: Table, url: str) -> None:
    refusals: dict[type[errors.RefusalError], Callable[[], object]] = {
        errors.NoUserError: lambda: root.users.get("eve"),
        errors.NoTableError: lambda: root.table("none").count(),
        errors.TableExistsError: lambda: root.tables.create(table.name),
        errors.UserExistsError: lambda: root.users.create("root", "0" * 64),
        errors.DropSelfError: lambda: root.users.drop("root"),
        errors.InvalidNameError: lambda: root.tables.create("a b"),
        errors.FieldError: lambda: root.tables.create("a", "month"),
        errors.BoxError: lambda: root.ask("POST", f"/tables/{table.name}/count", {"box": [1, 0, 0, 0, 0, 0], "auths": []}),
        errors.RouteError: lambda: root.ask("GET", "/nothing"),
        errors.MethodError: lambda: root.ask("DELETE", "/label"),
        errors.BodyError: lambda: root.ask("POST", "/label"),
        errors.SizeError: lambda: root.label("A" * 70_000),
        errors.LabelError: lambda: root.label("A&"),
    }
    for kind, ask in refusals.items():
        with pytest.raises(kind):
            ask()
    root.users.create("dan", digest("dan"))
    root.close()
    with Client(url, token("dan")) as dan:
        with pytest.raises(errors.PermissionDeniedError) as raised:
            dan.table(table.name).count()
        assert (raised.value.permission, raised.value.table, raised.value.namespace) == ("READ", table.name, None)
    root.users.drop("dan")


def test_labels(root: Client) -> None:
    assert root.label("(C|B)&A&A") == "(B|C)&A"


def test_many_rows_pipelined_over_one_connection(table: Table) -> None:
    chance = random.Random(7)
    given = [
        Row(f"r{at}", chance.uniform(-180, 180), chance.uniform(-90, 90), START + timedelta(seconds=chance.random() * 1e6), "")
        for at in range(500)
    ]
    told = list(table.put_many(given))
    assert [put.row for put in told] == given
    assert by_id(list(table.scan())) == by_id(given)


def test_data_frames(filled: Table) -> None:
    pytest.importorskip("geopandas")
    frame = filled.to_frame((0.0, 0.0, 1.0, 1.0))
    assert sorted(frame["id"]) == ["r0", "r1", "r2"]
    assert str(frame["time"].dtype) == "datetime64[ns, UTC]"
    points = filled.to_geodataframe((0.0, 0.0, 1.0, 1.0)).set_index("id")
    assert (points.geometry["r1"].x, points.geometry["r1"].y, points.crs.to_epsg()) == (0.5, 0.25, 4326)
    assert list(filled.to_frame((50.0, 50.0, 51.0, 51.0)).columns) == ["id", "lon", "lat", "time", "label"]
