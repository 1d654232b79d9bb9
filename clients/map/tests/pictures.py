#!/usr/bin/python3
"""Pictures of the map page, as `fashkiin map` serves it over the built server.

  clients/map/tests/pictures.py FOLDER [STATE ..]   each state of the page, or those named, at three sizes, in light and in dark mode
  clients/map/tests/pictures.py --documents         the pictures of docs/images, made small by pngquant

The rows are the storms of docs/QUICKSTART.md and of ./demo. ST_SERVED names another server."""
from __future__ import annotations

import argparse
import os
import signal
import subprocess
import sys
import tempfile
from collections.abc import Callable, Iterator
from contextlib import contextmanager
from pathlib import Path
from typing import NamedTuple

TOP = Path(__file__).resolve().parents[3]
sys.path[1:1] = [str(TOP / "tests"), str(TOP / "clients/python/src")]
from fashkiin import Client
from page import MODES, SIZES, Page, Size, chromium, shown_at
from selenium.webdriver import ActionChains, Keys
from served import digest, serving, token
from test_quickstart import steps

SEASON = TOP / "clients/python/examples/storms-2005.csv"
DOCUMENT = Size(1280, 800, False)
ATLANTIC = "at=28,-55&zoom=3"
DEMO = f"table=geo.season&{ATLANTIC}"
KATRINA = "table=geo.season&at=26,-80.1&zoom=7.5"
AUTHS = {"ann": ["coast", "flight"], "ben": ["coast"], "eve": []}


class Stage(NamedTuple):
    """The page, the process of its server, and the server's address."""

    page: Page
    server: subprocess.Popen[bytes]
    url: str

    def open(self, user: str, address: str = "") -> Page:
        self.page.open(token(user), address)
        return self.page


def load(url: str, table: str, file: Path) -> None:
    """Loads a file into a new table, as root."""
    environment = os.environ | {"PYTHONPATH": str(TOP / "clients/python/src")}
    with tempfile.NamedTemporaryFile("w") as secret:
        print(token("root"), file=secret, flush=True)
        words = ["/usr/bin/python3", "-m", "fashkiin", "--url", url, "--token-file", secret.name, "load", table, str(file), "--create"]
        subprocess.run(words, check=True, env=environment, stdout=subprocess.DEVNULL)


def fill(url: str) -> None:
    """The tables and users: all storms, those of one season, and no rows."""
    script = next(step.command for step in steps() if step.command.startswith("Rscript"))
    with tempfile.TemporaryDirectory() as folder:
        subprocess.run(["bash", "-c", script], cwd=folder, check=True)
        load(url, "geo.storms", Path(folder, "storms.csv"))
    load(url, "geo.season", SEASON)
    with Client(url, token("root")) as root:
        root.ask("POST", "/tables", {"table": "geo.none", "period": "day"})
        for user, auths in AUTHS.items():
            root.ask("POST", "/users", {"user": user, "digest": digest(user), "auths": auths})
            root.ask("POST", "/namespaces/geo/grant", {"user": user, "permission": "READ"})


@contextmanager
def stage() -> Iterator[Stage]:
    """A server with the rows, its map, and a browser."""
    with serving("coast", "flight") as server:
        url = f"http://127.0.0.1:{server.port}"
        fill(url)
        environment = os.environ | {"PYTHONPATH": str(TOP / "clients/python/src"), "PYTHONUNBUFFERED": "1"}
        words = ["/usr/bin/python3", "-m", "fashkiin", "--url", url, "map", "--port", "0", "--no-browser"]
        with subprocess.Popen(words, stdout=subprocess.PIPE, env=environment, text=True) as process:
            driver = chromium()
            try:
                assert process.stdout is not None
                yield Stage(Page(driver, process.stdout.readline().strip().removesuffix("/map/")), server.process, url)
            finally:
                driver.quit()
                process.terminate()


@contextmanager
def silent(server: subprocess.Popen[bytes]) -> Iterator[None]:
    """The server answers nothing meanwhile."""
    server.send_signal(signal.SIGSTOP)
    try:
        yield
    finally:
        server.send_signal(signal.SIGCONT)


Picture = Callable[[], None]
"""Takes the picture of a state, once it has come."""


def login(it: Stage, take: Picture) -> None:
    it.page.go()
    take()


def login_refused(it: Stage, take: Picture) -> None:
    it.page.go()
    it.page["token"].send_keys(token("nobody") + Keys.ENTER)
    it.page.until(lambda: it.page["refused"].text)
    take()


def opened(it: Stage, take: Picture) -> None:
    """A table that is new to the page, at its rows."""
    it.open("ann", "table=geo.storms")
    take()


def cell(it: Stage, take: Picture) -> None:
    it.open("ann", "table=geo.storms").click_map(0, 20)
    take()


def points(it: Stage, take: Picture) -> None:
    it.open("ben", DEMO)
    take()


def deep(it: Stage, take: Picture) -> None:
    """The rows near a place, with a tooltip."""
    page = it.open("ann", "table=geo.season&at=26.2,-79.6&zoom=9")
    page["find"].send_keys("Katrina-2005-7" + Keys.ENTER)
    page.until(lambda: page["celltitle"].text.startswith("1 row"))
    page.settle()
    ActionChains(page.driver).move_to_element_with_offset(page["map"], 0, 0).perform()
    take()


def filtered(it: Stage, take: Picture) -> None:
    page = it.open("ann", KATRINA)
    page.click_map(0, 0)
    page["value"].send_keys("hurricane")
    take()


def played(it: Stage, take: Picture) -> None:
    page = it.open("ben", DEMO)
    page["play"].click()
    begins: list[str | None] = []

    def has_moved() -> bool:
        begins.append(page.address.get("from"))
        return len(set(begins)) > 4

    page.until(has_moved)
    take()


def empty(it: Stage, take: Picture) -> None:
    it.open("eve", "table=geo.none")
    take()


def refused(it: Stage, take: Picture) -> None:
    """A table that the user may not read."""
    page = it.open("eve", "table=points&at=20,-40&zoom=2")
    page.until(lambda: page["error"].text)
    take()


def unanswered(it: Stage, take: Picture) -> None:
    page = it.open("ann", "table=geo.storms")
    with silent(it.server):
        page.until(lambda: page["stale"].text)
        take()
    page.until(lambda: not page["stale"].text)


def end_of_panel(it: Stage, take: Picture) -> None:
    page = it.open("ann", "table=geo.storms")
    page["geojson"].click()
    page.until(lambda: "saved" in page["notice"].text)
    page.run("document.getElementById('panel').scrollTo(0, 1e6)")
    take()


STATES = {state.__name__: state for state in (
    login, login_refused, opened, cell, points, deep, filtered, played, empty, refused, unanswered, end_of_panel)}


def look(it: Stage, folder: Path, names: list[str]) -> None:
    """Writes the pictures of all states, sizes and modes."""
    for size_name, size in SIZES.items():
        for mode in MODES:
            with shown_at(it.page.driver, size, mode):
                for name in names:
                    file = folder / f"{name}-{size_name}-{mode}.png"
                    STATES[name](it, lambda: save(it.page, file))
                    print(file)


def save(page: Page, file: Path) -> None:
    page.driver.save_screenshot(str(file))


def documents(it: Stage) -> None:
    """Writes the pictures that README and docs show: of docs/QUICKSTART.md, and of ./demo, which has one season under the same name."""
    folder = TOP / "docs/images"
    with shown_at(it.page.driver, DOCUMENT):
        for user in ("ann", "eve"):
            it.open(user, "table=geo.storms").click_map(0, 20)
            it.page.settle()
            save(it.page, folder / f"map-{user}.png")
        with Client(it.url, token("root")) as root:
            for table in ("geo.storms", "geo.season", "geo.none"):
                root.ask("DELETE", f"/tables/{table}")
        load(it.url, "geo.storms", SEASON)
        it.open("ben", f"table=geo.storms&{ATLANTIC}").click_map(5, -75)
        it.page.settle()
        save(it.page, folder / "demo.png")
    for file in folder.glob("*.png"):
        subprocess.run(["pngquant", "--force", "--ext", ".png", "256", str(file)], check=True)


def main() -> None:
    parser = argparse.ArgumentParser(description=__doc__, formatter_class=argparse.RawDescriptionHelpFormatter)
    parser.add_argument("--documents", action="store_true")
    parser.add_argument("folder", nargs="?", type=Path)
    parser.add_argument("states", nargs="*", metavar="STATE")
    words = parser.parse_args()
    with stage() as made:
        if words.documents:
            documents(made)
        if words.folder:
            look(made, words.folder, words.states or list(STATES))


if __name__ == "__main__":
    main()
