"""What is no longer allowed or known is cleared or marked within two seconds, without a move of the user."""

from __future__ import annotations

import signal
import time
from collections.abc import Callable, Iterator
from datetime import UTC, datetime
from typing import Any

import pytest
from fashkiin import Client, Row
from selenium.webdriver import Keys

from page import Page
from served import digest, token
from stack import Stack
from trips import HARBOUR, seen, trips

HELD = {"storms", "flight"}
WITHIN = 2.5
"""Two seconds, and half a second of a busy machine."""

LAST = 2_097_151
WORLD = "table=geo.trips&at=20,-20&zoom=1"


@pytest.fixture(scope="module")
def root(own: Stack) -> Iterator[Client]:
    """root at a server of this module's own, with the rows of `trips`."""
    with Client(own.url, token("root")) as client:
        client.ask("POST", "/tables", {"table": "geo.trips", "period": "day"})
        for put in client.table("geo.trips").put_many(trips()):
            assert put.error is None
        yield client


@pytest.fixture(scope="module")
def own(tmp_path_factory: pytest.TempPathFactory) -> Iterator[Stack]:
    with Stack(tmp_path_factory.mktemp("own")) as made:
        yield made


@pytest.fixture
def mine(page: Page, own: Stack) -> Page:
    """The page of this module's server."""
    return Page(page.driver, own.url)


def user(root: Client, name: str, *auths: str) -> str:
    """The token of a new user who may read the tables of `geo`."""
    root.ask("POST", "/users", {"user": name, "digest": digest(name), "auths": list(auths)})
    root.ask("POST", "/namespaces/geo/grant", {"user": name, "permission": "READ"})
    return token(name)


def first(page: Page, holds: Callable[[dict[str, Any]], object]) -> dict[str, Any]:
    """The first state of the page that holds."""
    page.until(lambda: any(holds(it) for it in page.states))
    return next(it for it in page.states if holds(it))


def test_withdrawn_authorization_takes_its_rows_and_its_tick(mine: Page, root: Client) -> None:
    mine.open(user(root, "ann", *HELD), WORLD)
    assert mine.total == len(seen(HELD))
    mine.record()
    root.ask("POST", "/users/ann/auths", {"auths": ["storms"]})
    end = time.time()
    gone = first(mine, lambda it: it["total"] == "" or it["stale"] != "")
    assert gone["time"] - end < WITHIN
    mine.until(lambda: mine["total"].text == f"{len(seen({'storms'}))} rows in view")
    mine.settle()
    assert mine["notice"].text == "You do not hold the authorization flight. It has been withdrawn."
    assert mine.texts("#auths label") == ["storms"]
    old = f"{len(seen(HELD))} rows in view"
    assert [it for it in mine.states if it["error"] and it["total"] == old] == []


def test_revoked_table_is_cleared_and_comes_back(mine: Page, root: Client) -> None:
    at_harbour = f"table=geo.trips&at={HARBOUR[0]},{HARBOUR[1]}&zoom=9"
    mine.open(user(root, "bob"), at_harbour)
    mine.click_map()
    mine.until(lambda: len(mine.rows) == 20)
    assert mine.is_drawn
    mine.record()
    root.ask("POST", "/namespaces/geo/revoke", {"user": "bob", "permission": "READ"})
    end = time.time()
    gone = first(mine, lambda it: it["total"] == "" or it["stale"] != "")
    assert gone["time"] - end < WITHIN
    mine.until(lambda: mine["error"].text == "You lack the permission READ on the table geo.trips.")
    mine.until(lambda: not mine.is_drawn)
    assert [it for it in ("#rows li", "#bars i", "#ticks span") if mine.all(it)] == []
    assert mine["span"].text == ""  # which told the table's times
    assert [it for it in mine.states if it["error"] and (it["total"] or it["ids"])] == []
    root.ask("POST", "/namespaces/geo/grant", {"user": "bob", "permission": "READ"})
    mine.until(lambda: mine["error"].text == "" and mine["total"].text == "30 rows in view")
    assert mine["span"].text.startswith("All time: 2021-03-01 to ") and mine.all("#ticks span")


def test_relabelled_row_is_seen_as_it_was_or_not_at_all(mine: Page, root: Client) -> None:
    root.ask("POST", "/tables", {"table": "geo.cases", "period": "day"})
    witness = Row("w1", 4.5, 52.0, datetime(2021, 3, 1, tzinfo=UTC), "", {"name": "old"})
    stricter = Row("w1", 4.5, 52.0, datetime(2021, 3, 1, tzinfo=UTC), "storms&flight", {"name": "new"})
    other = Row("w2", 4.5, 52.0, datetime(2021, 3, 1, tzinfo=UTC), "")
    table = root.table("geo.cases")
    assert [it.error for it in table.put_many([witness, other])] == [None, None]
    mine.open(user(root, "eve"), "table=geo.cases&at=52,4.5&zoom=9")
    mine.click_map()
    mine.until(lambda: len(mine.rows) == 2)
    mine.record()
    assert [it.error for it in table.put_many([stricter])] == [None]
    root.ask("POST", "/tables/geo.cases/delete", {"id": "w1", "label": ""})
    end = time.time()
    gone = first(mine, lambda it: it["ids"] == ["w2"] or it["stale"] != "")
    assert gone["time"] - end < WITHIN
    mine.until(lambda: mine["total"].text == "1 row in view" and mine["celltitle"].text == "1 row in this cell")
    assert [it["ids"] for it in mine.states if it["ids"].count("w1") > 1] == []
    after = [it for it in mine.states if it["time"] > end + WITHIN and not it["stale"]]
    assert [it for it in after if "w1" in it["ids"]] == []
    assert "new" not in mine.run("return document.documentElement.innerHTML.replace(/new rows?/g, '')")
    assert len(mine.rows) == 1


def test_silent_server_is_told_and_comes_back(mine: Page, own: Stack, root: Client) -> None:
    mine.open(user(root, "dan"), WORLD)
    mine.record()
    own.server.send_signal(signal.SIGSTOP)
    begin = time.time()
    try:
        silent = first(mine, lambda it: it["stale"] != "" and it["time"] > begin)
        assert silent["time"] - begin < WITHIN
        mine.until(lambda: mine["stale"].text.startswith("The server has not answered since "))
    finally:
        own.server.send_signal(signal.SIGCONT)
    mine.until(lambda: mine["stale"].text == "")
    assert mine.total == len(seen(set()))


def test_silent_server_is_told_at_the_login(mine: Page, own: Stack, root: Client) -> None:
    secret = user(root, "fay")
    mine.go()
    own.server.send_signal(signal.SIGSTOP)
    try:
        mine["token"].send_keys(secret + Keys.ENTER)
        begin = time.time()
        mine.until(lambda: mine["refused"].text == "The server has not answered yet.")
        assert time.time() - begin < WITHIN + 1  # the test looks from outside
    finally:
        own.server.send_signal(signal.SIGCONT)
    mine.until(lambda: mine["panel"].is_displayed())


def test_dead_server_is_told(mine: Page, own: Stack, root: Client) -> None:
    mine.open(user(root, "gus"), WORLD)
    mine.record()
    own.server.kill()
    begin = time.time()
    dead = first(mine, lambda it: it["stale"] != "" and it["time"] > begin)
    assert dead["time"] - begin < WITHIN
    mine.driver.get_log("browser")
