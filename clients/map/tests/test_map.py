"""The map page in a real browser, behind the real edge, over the real server."""

from __future__ import annotations

import json
from datetime import datetime

import pytest
from fashkiin import Client
from fashkiin.cells import latitude_cell, longitude_cell
from selenium.webdriver import Keys
from selenium.webdriver.support.select import Select

from page import Page
from served import digest, token
from stack import Stack
from trips import HARBOUR, crowd, seen, trips

HELD = {"storms", "flight"}
AT_HARBOUR = f"table=geo.trips&at={HARBOUR[0]},{HARBOUR[1]}&zoom=9"
WORLD = "table=geo.trips&at=20,-20&zoom=1"


@pytest.fixture(scope="module", autouse=True)
def rows(stack: Stack) -> None:
    """The rows of `trips` and of `crowd`; ann, who holds two authorizations and READ; ben, who holds nothing."""
    with Client(stack.url, token("root")) as root:
        for user, auths in (("ann", sorted(HELD)), ("ben", [])):
            root.ask("POST", "/users", {"user": user, "digest": digest(user), "auths": auths})
        for table in ("geo.trips", "geo.crowd", "geo.notes"):
            root.ask("POST", "/tables", {"table": table, "period": "day"})
        root.ask("POST", "/namespaces/geo/grant", {"user": "ann", "permission": "READ"})
        for table, rows in (("geo.trips", trips()), ("geo.crowd", crowd())):
            for put in root.table(table).put_many(rows):
                assert put.error is None


def test_wrong_tokens_are_refused(page: Page) -> None:
    page.go()
    page["token"].send_keys("ann.123" + Keys.ENTER)
    assert page.run("return document.getElementById('token').validity.patternMismatch")
    page["token"].clear()
    page["token"].send_keys(token("eve") + Keys.ENTER)
    page.until(lambda: page["refused"].text == "The server does not accept this token.")
    assert not page["panel"].is_displayed()


def test_draws_what_its_user_may_see(page: Page) -> None:
    for log in ("browser", "performance"):
        page.driver.get_log(log)  # what earlier tests left
    page.open(token("ann"), "table=geo.trips")
    assert page.total == len(seen(HELD))
    assert page["legend"].text == "Each point is a row"
    assert page.is_drawn
    assert sum(int(it.get_attribute("title").split()[0].replace(",", "")) for it in page.all("#bars i")) == len(seen(HELD))
    assert page.driver.get_log("browser") == []
    asked = [json.loads(it["message"])["message"] for it in page.driver.get_log("performance")]
    urls = [it["params"]["request"]["url"] for it in asked if it["method"] == "Network.requestWillBeSent"]
    assert len(urls) > 40
    assert [it for it in urls if not it.startswith((page.url + "/", "about:"))] == []


def test_authorization_ticked_off_hides_its_rows(page: Page) -> None:
    page.open(token("ann"), WORLD)
    assert page.total == len(seen(HELD))
    page.tick("flight")
    assert page.total == len(seen({"storms"}))
    page.tick("storms")
    assert page.total == len(seen(set()))
    page.tick("flight")
    assert page.total == len(seen({"flight"}))


def test_time_is_dragged(page: Page) -> None:
    page.open(token("ann"), WORLD)
    page.drag("from", 0.4)
    page.drag("to", -0.3)
    begin, end = (datetime.fromisoformat(page.address[it]) for it in ("from", "to"))
    expected = [row for row in seen(HELD) if begin <= row.time.replace(microsecond=0) <= end]
    assert 0 < len(expected) < len(seen(HELD)) / 2
    assert page.total == len(expected)
    page["narrow"].click()
    page.settle()
    assert (page.total, page["from"].get_attribute("value"), page["to"].get_attribute("value")) == (len(expected), "0", "1024")
    page["alltime"].click()
    page.settle()
    assert page.total == len(seen(HELD))


def test_cell_lists_its_rows(page: Page) -> None:
    page.open(token("ann"), AT_HARBOUR)
    page.click_map()
    assert page["celltitle"].text == "30 rows in this cell, 20 listed"
    assert len(page.rows) == 20
    page["more"].click()
    page.until(lambda: len(page.rows) == 30)
    assert page["celltitle"].text == "30 rows in this cell"
    assert not page["more"].is_displayed()
    first = next(row for row in page.rows if row.startswith("berth-7 "))
    assert first.split("\n") == ["berth-7 everybody", "2021-03-01T07:00:00Z · 51.95, 4.05", "berth", "7", "pilot", "<b>Jan</b>"]
    page.click_map(300, 200)
    assert (page["celltitle"].text, page.rows) == ("No rows in this cell", [])


def test_keyboard_alone_lists_rows_and_moves(page: Page) -> None:
    page.go(AT_HARBOUR)
    page.sign_in(token("ann"))
    page.driver.switch_to.active_element.send_keys(Keys.ENTER)
    page.until(lambda: len(page.rows) == 20)
    page.driver.switch_to.active_element.send_keys("-")
    page.until(lambda: page.address["zoom"] != "9")
    page["from"].send_keys(Keys.ARROW_RIGHT)
    page.settle()
    assert page["from"].get_attribute("value") == "1"
    assert page["from"].get_attribute("aria-valuetext").startswith("2021-03-01 0")  # the day of the first row


def test_reload_forgets_the_token_and_keeps_the_view(page: Page) -> None:
    page.open(token("ann"), WORLD)
    page.drag("from", 0.5)
    before, total = page.address, page.total
    assert before.keys() == {"table", "at", "zoom", "from", "to"}
    page.driver.refresh()
    page.until(lambda: page["opening"].is_displayed())
    assert not page["panel"].is_displayed()
    assert page.run("return [localStorage.length, sessionStorage.length, document.cookie]") == [0, 0, ""]
    assert page["token"].get_attribute("value") == ""
    page.sign_in(token("ann"))
    assert (page.address, page.total) == (before, total)


def test_policy_lets_no_foreign_script_run(page: Page) -> None:
    page.go()
    blocked = page.driver.execute_async_script(
        """const done = arguments[0], found = [];
        document.addEventListener('securitypolicyviolation', event => found.push(event.effectiveDirective));
        const script = document.createElement('script'), image = new Image();
        script.textContent = 'window.ran = true';
        document.body.append(script);
        image.src = 'http://127.0.0.1:9/x.png';
        fetch('http://127.0.0.1:9/x').catch(() => setTimeout(() => done([window.ran ?? false, ...found.sort()]), 50));"""
    )
    assert blocked == [False, "connect-src", "img-src", "script-src-elem"]
    page.driver.get_log("browser")


def test_notes_are_shown_as_texts(page: Page, stack: Stack) -> None:
    notes = {
        "text": "<img src=x onerror=alert(1)>",
        "number": "17",
        "deep": '{"properties":' + '{"a":' * 600 + "1" + "}" * 601,
        "strange": '{"at":[1e999,"x"],"time":7,"properties":["one"],"__proto__":{"label":"no"}}',
    }
    with Client(stack.url, token("root")) as root:
        for id, note in notes.items():
            root.ask("POST", "/tables/geo.notes/put", {"id": id, "point": [2**20, 2**20, 86_400], "label": "", "note": note})
    page.open(token("ann"), "table=geo.notes&at=0.00005,0.00005&zoom=9")
    page.click_map()
    listed = {row.split()[0]: row for row in page.rows}
    assert listed.keys() == notes.keys()
    assert "1970-01-02T00:00:00Z · about 0.00004, 0.00009" in listed["text"]
    assert listed["text"].endswith(notes["text"]) and listed["number"].endswith("17")
    assert '{"a":{"a":' in listed["deep"]
    assert '["one"]' in listed["strange"]
    assert page.all("#rows img") == []


def test_table_that_may_not_be_read_is_told(page: Page) -> None:
    page.open(token("ann"), WORLD)
    Select(page["table"]).select_by_value("points")
    page.until(lambda: page["error"].text == "You lack the permission READ on the table points.")
    assert page.run("return document.getElementById('total').textContent") == ""
    Select(page["table"]).select_by_value("geo.trips")
    page.until(lambda: page["total"].text != "")
    page.settle()
    assert (page.total, page["error"].text) == (len(seen(HELD)), "")


def test_user_without_read_is_told(page: Page) -> None:
    page.go()
    page["token"].send_keys(token("ben") + Keys.ENTER)
    page.until(lambda: page["refused"].text == "There is no table that you may read.")


def test_token_that_is_refused_later_closes_the_page(page: Page, stack: Stack) -> None:
    with Client(stack.url, token("root")) as root:
        root.ask("POST", "/users", {"user": "cat", "digest": digest("cat"), "auths": ["storms"]})
        root.ask("POST", "/namespaces/geo/grant", {"user": "cat", "permission": "READ"})
        page.open(token("cat"), WORLD)
        assert page.total == len(seen({"storms"}))
        root.ask("POST", "/users/cat/token", {"digest": digest("dog")})
    page.until(lambda: page["refused"].text == "The server does not accept this token.")
    assert not page["panel"].is_displayed()
    page.driver.get_log("browser")


def test_telephone(page: Page) -> None:
    telephone = {"width": 360, "height": 740, "deviceScaleFactor": 2, "mobile": True}
    page.driver.execute_cdp_cmd("Emulation.setDeviceMetricsOverride", telephone)
    try:
        page.open(token("ann"), AT_HARBOUR)
        assert page.run("return [document.documentElement.scrollWidth, document.documentElement.scrollHeight]") == [360, 740]
        assert page["map"].size["width"] == 360 and page["map"].size["height"] > 250
        touched = [it for it in page.all("button, select, #auths label") if it.is_displayed()]
        assert len(touched) > 5
        assert [it.text for it in touched if it.size["height"] < 44] == []
        page.click_map()
        page.until(lambda: len(page.rows) == 20)
        assert page.run("return document.getElementById('celltitle').getBoundingClientRect().top") < 740 - 100
    finally:
        page.driver.execute_cdp_cmd("Emulation.clearDeviceMetricsOverride", {})


def test_cells_are_those_of_the_client(page: Page) -> None:
    page.go()
    degrees = [-180.0, -179.99999, -90.0, -0.00001, 0.0, 4.05, 51.95, 89.99999, 90.0, 179.9999999, 180.0]
    cells = page.driver.execute_async_script(
        """const [degrees, done] = arguments;
        import('/map/places.js').then(({ cellOf, LONGITUDE, LATITUDE }) =>
            done(degrees.map(it => [cellOf(it, LONGITUDE), cellOf(it, LATITUDE)])));""",
        degrees,
    )
    assert [it[0] for it in cells] == [longitude_cell(it) for it in degrees]
    assert [it[1] for it in cells[2:9]] == [latitude_cell(it) for it in degrees[2:9]]
