"""What the page offers beside the map itself, in a real browser over the real server."""

from __future__ import annotations

import json
from collections.abc import Iterator
from datetime import UTC, datetime, timedelta
from pathlib import Path
from typing import Any

import pytest
from fashkiin import Client, Row
from fashkiin.formats import Names, Source, delimited, geojson
from selenium.webdriver import ActionChains, Keys
from selenium.webdriver.support.select import Select

from page import Page
from served import digest, token
from stack import Stack
from trips import BEGIN, HARBOUR, crowd, seen, trips

HELD = {"storms", "flight"}
AT_HARBOUR = f"table=geo.trips&at={HARBOUR[0]},{HARBOUR[1]}&zoom=9"
TRIPS = "table=geo.trips&at=40,-40&zoom=2"
CROWD = "table=geo.crowd&at=0,-17&zoom=1.5"
LEGEND = "return [...document.querySelectorAll('#legend span')].map(it => [it.firstChild.style.backgroundColor, it.innerText])"
STRAY = datetime(1970, 1, 1, 6, tzinfo=UTC)


@pytest.fixture(scope="module", autouse=True)
def rows(stack: Stack) -> Iterator[None]:
    """Tables of the rows of `trips`, of `crowd`, of forty rows with a stray one, and of long notes; one that hal may not read."""
    stray = [Row(f"s{at}", 8 + at / 1_000, 47.0, BEGIN + timedelta(hours=at), "") for at in range(40)]
    stray.append(Row("lost", 8.0, 47.0, STRAY, ""))
    long = [Row(f"l{at}", at / 10, 10.0, BEGIN, "", {"text": "x" * 3_900}) for at in range(900)]
    tables: dict[str, list[Row]] = {
        "tools.trips": trips(), "tools.crowd": crowd(), "tools.stray": stray, "tools.long": long, "tools.empty": [],
    }
    with Client(stack.url, token("root")) as root:
        root.ask("POST", "/users", {"user": "hal", "digest": digest("hal"), "auths": sorted(HELD)})
        root.ask("POST", "/namespaces/tools/grant", {"user": "hal", "permission": "READ"})
        for table, there in tables.items():
            root.ask("POST", "/tables", {"table": table, "period": "day"})
            for put in root.table(table).put_many(there):
                assert put.error is None
        yield


def at(address: str) -> str:
    return address.replace("geo.", "tools.")


def test_cells_where_rows_are_many_and_points_where_they_are_few(page: Page) -> None:
    page.open(token("hal"), at(CROWD))
    assert page.total == 1_200
    bounds = [it.replace(",", "").split("–") for it in page.texts("#legend span")]
    numbers = [int(it) for bound in bounds for it in bound]
    assert numbers == sorted(set(numbers)) and numbers[0] >= 1
    assert page.is_drawn
    page.open(token("hal"), at(CROWD).replace("zoom=1.5", "zoom=4"))
    assert 0 < page.total < 1_000
    assert page["legend"].text == "Each point is a row"
    page.open(token("hal"), "table=tools.long&at=10,45&zoom=2")
    assert page.total == 900
    assert page["legend"].text.startswith("Rows in a cell:")  # their notes are too long to be read for points


def test_little_is_read_at_the_start(page: Page) -> None:
    page.driver.get_log("performance")
    page.open(token("hal"), "table=tools.long")
    told = [json.loads(it["message"])["message"] for it in page.driver.get_log("performance")]
    sizes = [it["params"]["encodedDataLength"] for it in told if it["method"] == "Network.loadingFinished"]
    assert len(sizes) > 20
    assert sum(sizes) < 3_000_000


def test_tooltip_and_coordinates_follow_the_pointer(page: Page) -> None:
    page.open(token("hal"), at(AT_HARBOUR))
    ActionChains(page.driver).move_to_element_with_offset(page["map"], 0, 0).perform()
    page.until(lambda: page.texts(".leaflet-tooltip") == ["30 rows"])
    (told,) = page.texts(".coordinates")
    lat, lon = (float(it.split("°")[0]) for it in told.split(", "))
    assert (lat, lon) == pytest.approx(HARBOUR, abs=0.005) and told.endswith("° E")
    ActionChains(page.driver).move_to_element_with_offset(page["map"], 200, 0).perform()
    page.until(lambda: page.texts(".leaflet-tooltip") == [])
    assert page.texts(".leaflet-control-scale-line")[0].endswith(" km")


def test_names_and_degrees_stand_on_the_map(page: Page) -> None:
    page.open(token("hal"), "table=tools.trips&at=50,5&zoom=4")
    page.until(lambda: {"France", "Germany"} <= set(page.texts(".country")))
    assert "Paris" in set(page.texts(".place"))
    assert {"0°", "10° E"} <= set(page.texts(".meridian"))
    assert {"45° N", "50° N"} <= set(page.texts(".parallel"))


def test_axis_of_time_has_ticks_and_bears_a_stray_date(page: Page) -> None:
    page.open(token("hal"), "table=tools.stray")
    assert page.total == 41
    assert page["span"].text == "All time: 1970-01-01 to 2021-03-02, few rows before 2021-03-01"
    ticks = page.texts("#ticks span")
    assert len(ticks) >= 3
    assert ticks[0] == "2021-03-01" and all(it.startswith("2021-03-0") or it[2] == ":" for it in ticks)
    counts = page.run("return [...document.querySelectorAll('#bars i')].map(it => parseInt(it.title))")
    assert sum(counts) == 41 and max(counts) <= 4
    page.drag("from", 0.5)
    assert page["span"].text == "From 2021-03-02 00:00 UTC on"
    assert page.total == 16


def test_colours_are_kept_while_the_map_moves(page: Page) -> None:
    def legend() -> list[Any]:
        return list(page.run(LEGEND))

    page.open(token("hal"), at(CROWD))
    page["keep"].click()
    page.settle()
    kept = legend()
    assert kept[-1][1].endswith(" and more")
    page.driver.switch_to.active_element.send_keys(Keys.TAB)
    page["map"].send_keys("-")
    page.until(lambda: page.address["zoom"] != "1.5")
    page.settle()
    assert legend() == kept
    page["keep"].click()
    page.settle()
    assert legend() != kept


def test_id_is_found(page: Page) -> None:
    page.open(token("hal"), at(TRIPS))
    wanted = next(row for row in seen(HELD) if row.id == "ship-41")
    page["find"].send_keys("ship-41" + Keys.ENTER)
    page.until(lambda: page["celltitle"].text == "1 row with the id ship-41")
    page.settle()
    assert page.rows[0].startswith("ship-41 ")
    lat, lon = map(float, page.address["at"].split(","))
    assert (lat, lon) == pytest.approx((wanted.lat, wanted.lon), abs=0.001)
    assert page.is_drawn
    page["find"].clear()
    page["find"].send_keys("nobody" + Keys.ENTER)
    page.until(lambda: page["celltitle"].text == "No rows with the id nobody")


def test_click_beside_a_point_lists_its_row(page: Page) -> None:
    wanted = next(row for row in seen(HELD) if row.id == "ship-41")
    page.open(token("hal"), f"table=tools.trips&at={wanted.lat},{wanted.lon}&zoom=12")  # where a cell is as small as a point
    for right, down in ((5, 5), (-5, -5)):
        page.click_map(right, down)
        page.until(lambda: page["celltitle"].text == "1 row in this cell")
        assert page.rows[0].startswith("ship-41 ")
    page.click_map(60, 60)
    page.until(lambda: page["celltitle"].text == "No rows in this cell")


def test_filter_shows_rows_by_a_property(page: Page) -> None:
    page.open(token("hal"), at(AT_HARBOUR))
    page.click_map()
    page["more"].click()
    page.until(lambda: len(page.rows) == 30)
    Select(page["property"]).select_by_visible_text("berth")
    page["value"].send_keys("2")
    expected = {f"berth-{it}" for it in range(30) if "2" in str(it)}
    assert {row.split()[0] for row in page.rows} == expected
    assert page["passed"].text == f"{len(expected)} of 30 listed rows pass the filter"
    assert page["legend"].text == f"Each point is a row: {len(expected)} of 30 rows in view pass the filter"


def test_time_is_played(page: Page) -> None:
    page.open(token("hal"), at(TRIPS))
    page.drag("to", -0.5)
    page["play"].click()
    moments: list[str | None] = []

    def has_moved() -> bool:
        moments.append(page.address.get("from"))
        return len(set(moments)) > 3

    page.until(has_moved)
    page["play"].click()
    page.until(lambda: page["play"].text == "Play")
    page.until(lambda: page.run("return document.body.getAttribute('aria-busy')") == "false")
    begin, end = (datetime.fromisoformat(page.address[it]) for it in ("from", "to"))
    assert begin > BEGIN
    assert page.total == len([row for row in seen(HELD) if begin <= row.time.replace(microsecond=0) <= end])


@pytest.mark.parametrize("form", ["geojson", "csv"])
def test_rows_in_view_are_saved_as_the_client_reads_them(page: Page, tmp_path: Path, form: str) -> None:
    page.driver.execute_cdp_cmd("Browser.setDownloadBehavior", {"behavior": "allow", "downloadPath": str(tmp_path)})
    page.open(token("hal"), at(TRIPS))
    page[form].click()
    file = tmp_path / f"tools.trips.{form}"
    page.until(file.exists)
    assert page["notice"].text == f"{page.total} rows saved to tools.trips.{form}"
    with file.open("rb") as stream:
        source = Source(file.name, stream)
        found = list(geojson.read(source, Names()) if form == "geojson" else delimited.read(source, Names(unlabelled="")))
    read = {row.id: row for _, row in found if isinstance(row, Row)}
    assert len(read) == len(found) == len(seen(HELD))

    def said(row: Row) -> tuple[Any, ...]:
        properties = dict(row.properties) if form == "geojson" else {key: str(it) for key, it in row.properties.items()}
        return row.lon, row.lat, row.time, row.label, properties

    assert {id: said(row) for id, row in read.items()} == {row.id: said(row) for row in seen(HELD)}


def test_dark_mode(page: Page) -> None:
    page.open(token("hal"), at(TRIPS))

    def lightness(selector: str) -> int:
        colour = page.run("return getComputedStyle(document.querySelector(arguments[0])).backgroundColor", selector)
        return sum(int(it) for it in colour[4:-1].split(","))

    def land() -> int:
        return int(page.run("""const canvas = document.querySelector('.leaflet-land-pane canvas');
            const counts = canvas.getContext('2d').getImageData(0, 0, canvas.width, canvas.height).data;
            return counts.reduce((most, it, at) => at % 4 < 3 ? Math.max(most, it) : most, 0);"""))

    assert lightness("body") > 700 and lightness("#map") > 600
    page.driver.execute_cdp_cmd("Emulation.setEmulatedMedia", {"features": [{"name": "prefers-color-scheme", "value": "dark"}]})
    try:
        page.until(lambda: land() < 0x60)
        assert lightness("body") < 120 and lightness("#map") < 120 and lightness("#all") < 120
    finally:
        page.driver.execute_cdp_cmd("Emulation.setEmulatedMedia", {"features": []})


def test_new_table_opens_at_its_rows(page: Page) -> None:
    page.open(token("hal"), at(AT_HARBOUR))
    Select(page["table"]).select_by_value("tools.stray")
    page.until(lambda: page["total"].text == "41 rows in view")
    lat, lon = map(float, page.address["at"].split(","))
    assert (lat, lon) == pytest.approx((47, 8), abs=0.1)
    assert float(page.address["zoom"]) > 10


def test_table_without_rows_says_so(page: Page) -> None:
    page.open(token("hal"), "table=tools.empty")
    assert (page["total"].text, page["span"].text) == ("0 rows in view", "All time: no rows")
    assert (page["legend"].text, page.all("#ticks span")) == ("", [])


@pytest.mark.parametrize(
    ("table", "text"),
    [
        ("points", "You lack the permission READ on the table points."),
        ("tools.none", "There is no table tools.none."),
        ("..%2Fwhoami%3F", "There is no table ../whoami?."),
    ],
)
def test_link_to_a_table_that_may_not_be_read_says_so(page: Page, table: str, text: str) -> None:
    page.open(token("hal"), f"table={table}&at=0,0&zoom=2")
    page.until(lambda: page["error"].text == text)
    assert page.run("return document.getElementById('total').textContent") == ""
    assert not page.is_drawn
    Select(page["table"]).select_by_value("tools.stray")
    page.until(lambda: page["total"].text == "41 rows in view")
    assert page["error"].text == ""
    page.driver.get_log("browser")


def test_nothing_is_left_after_the_token_is_refused(page: Page, stack: Stack) -> None:
    with Client(stack.url, token("root")) as root:
        root.ask("POST", "/users", {"user": "ida", "digest": digest("ida"), "auths": ["storms"]})
        root.ask("POST", "/namespaces/tools/grant", {"user": "ida", "permission": "READ"})
        page.open(token("ida"), at(AT_HARBOUR))
        page.click_map()
        page.until(lambda: len(page.rows) == 20)
        page["value"].send_keys("Jan")
        root.ask("DELETE", "/users/ida")
    page.until(lambda: page["refused"].text == "The server does not accept this token.")
    page.until(lambda: not page.is_drawn)
    text = page.run("return document.documentElement.outerHTML + [...document.querySelectorAll('input')].map(it => it.value)")
    assert [it for it in ("berth", "Jan", "storms", "tools.", "2021-") if it in text] == []
    assert page.run("return [localStorage.length, sessionStorage.length, document.cookie]") == [0, 0, ""]
    page.driver.get_log("browser")
