"""The page in windows of three sizes: nothing is cut off, lies over something else, is too small for a finger or too pale to read."""

from __future__ import annotations

import re
from collections.abc import Iterator
from itertools import combinations

import pytest
from fashkiin import Client
from selenium.webdriver import ActionChains

from page import MODES, SIZES, Page, shown_at
from served import TOP, digest, token
from stack import Stack
from test_colours import linear
from trips import HARBOUR, crowd, trips

FINGER = 44
"""Pixels of the least that a finger meets for sure."""

AUTHORIZATIONS = ["flight", "storms", "wind"]
ADDRESSES = {
    "cells": "table=sizes.crowd&at=0,-17&zoom=1.5",
    "points": "table=sizes.trips&at=40,-40&zoom=3",
    "deep": f"table=sizes.trips&at={HARBOUR[0]},{HARBOUR[1]}&zoom=9",
}
CONTROLS = "button, select, input, .leaflet-bar a"
# Those of the controls in sight that are not wholly in the window once scrolled to, or over which something else lies.
HIDDEN = """return [...document.querySelectorAll(arguments[0])].filter(it => it.checkVisibility() && it.type !== 'range').filter(it => {
    it.scrollIntoView({ block: 'nearest' });
    const { left, right, top, bottom } = it.getBoundingClientRect();
    const met = document.elementFromPoint((left + right) / 2, (top + bottom) / 2);
    return left < -1 || right > innerWidth + 1 || top < -1 || bottom > innerHeight + 1 || !(it === met || it.contains(met));
}).map(it => it.outerHTML);"""
SMALL = """return [...document.querySelectorAll(arguments[0])].filter(it => it.checkVisibility())
    .map(it => it.closest('label.tick, #auths label') ?? it)
    .filter(it => it.getBoundingClientRect().height < arguments[1]).map(it => it.outerHTML);"""
WIDE = """return [document.documentElement, ...document.querySelectorAll('body *')]
    .filter(it => ['auto', 'scroll', 'visible'].includes(getComputedStyle(it).overflowX) && !it.closest('#map'))
    .filter(it => it.checkVisibility() && it.scrollWidth > it.clientWidth + 1 && getComputedStyle(it).display !== 'inline')
    .map(it => it.outerHTML.slice(0, 200));"""
# Left, right, top and bottom of elements, within another that stands first.
AREAS = """return [document.querySelector(arguments[0]), ...document.querySelectorAll(arguments[1])].map(it => {
    const { left, right, top, bottom } = it.getBoundingClientRect();
    return [left, right, top, bottom];
});"""


@pytest.fixture(scope="module", autouse=True)
def rows(stack: Stack) -> None:
    """Tables of the rows of `trips` and of `crowd`, and gil, who holds three authorizations and may read both."""
    with Client(stack.url, token("root")) as root:
        root.ask("POST", "/users", {"user": "gil", "digest": digest("gil"), "auths": AUTHORIZATIONS})
        root.ask("POST", "/namespaces/sizes/grant", {"user": "gil", "permission": "READ"})
        for table, there in {"sizes.trips": trips(), "sizes.crowd": crowd()}.items():
            root.ask("POST", "/tables", {"table": table, "period": "day"})
            for put in root.table(table).put_many(there):
                assert put.error is None


@pytest.fixture(params=SIZES)
def sized(request: pytest.FixtureRequest, page: Page) -> Iterator[Page]:
    """The page in a window of each size."""
    with shown_at(page.driver, SIZES[request.param]):
        yield page


def assert_apart(areas: list[list[float]]) -> None:
    """None of the areas lies over another."""
    for one, other in combinations(areas, 2):
        assert one[0] >= other[1] - 1 or one[1] <= other[0] + 1 or one[2] >= other[3] - 1 or one[3] <= other[2] + 1, (one, other)


def assert_in_sight(page: Page, whole: str, parts: str) -> int:
    """The parts lie in the whole, and none over another. How many there are."""
    (left, right, top, bottom), *areas = page.run(AREAS, whole, parts)
    for area in areas:
        assert left - 1 <= area[0] and area[1] <= right + 1 and top - 1 <= area[2] and area[3] <= bottom + 1, (area, page.texts(parts))
    assert_apart(areas)
    return len(areas)


@pytest.mark.parametrize("state", ADDRESSES)
def test_everything_is_in_reach(sized: Page, state: str) -> None:
    sized.open(token("gil"), ADDRESSES[state])
    sized.until(lambda: sized.texts(".leaflet-names-pane .degrees"))
    sized.settle()
    assert assert_in_sight(sized, "#map", ".leaflet-names-pane span, .leaflet-control") > 6
    sized.click_map()
    assert sized.run("return [document.documentElement.scrollWidth, document.documentElement.scrollHeight]") == [
        *sized.run("return [innerWidth, innerHeight]")]
    assert sized.run(WIDE) == []
    assert sized.run(HIDDEN, CONTROLS) == []
    assert_apart(sized.run(AREAS, "#panel", "#panel > :not(:empty)")[1:])
    if sized.run("return matchMedia('(pointer: coarse)').matches"):
        assert sized.run(SMALL, "button, select, input:not([type=range]), .leaflet-bar a, #sliders", FINGER) == []


def test_map_axis_and_tooltips_have_room(sized: Page) -> None:
    sized.open(token("gil"), ADDRESSES["points"])
    width, height = sized.run("return [innerWidth, innerHeight]")
    size = sized["map"].size
    assert size["width"] > 0.7 * width and size["height"] > 0.38 * height
    assert assert_in_sight(sized, "#ticks", "#ticks span") >= 2
    for begin, end in (("2021-03-05T00:00:00Z", "2021-05-28T00:00:00Z"), ("2021-04-01T00:00:00Z", "2021-04-03T11:00:00Z")):
        sized.run("location.hash = arguments[0]", f"{ADDRESSES['points']}&from={begin}&to={end}")
        sized.until(lambda: sized["span"].text.startswith(begin[:10]))
        sized["narrow"].click()
        sized.settle()
        assert assert_in_sight(sized, "#ticks", "#ticks span") >= 2
    for right, down in ((0, 0), (0.5, 0), (-0.5, 0), (0, 0.5), (0, -0.5)):
        point_at_harbour(sized, int(right * (size["width"] - 40)), int(down * (size["height"] - 40)))
        assert assert_in_sight(sized, "#map", ".leaflet-tooltip") == 1


def point_at_harbour(page: Page, right: int, down: int) -> None:
    """Moves the map so that the rows of the harbour are so many pixels from its middle, and the pointer to them."""
    pixel = 180 / 256 / 2**9
    place = [HARBOUR[0] + down * pixel, HARBOUR[1] - right * pixel]
    page.run("location.hash = arguments[0]", f"table=sizes.trips&at={place[0]},{place[1]}&zoom=9")
    page.until(lambda: [float(it) for it in page.address["at"].split(",")] == pytest.approx(place, abs=2 * pixel))
    page.until(lambda: page["total"].text == "30 rows in view")
    page.settle()
    ActionChains(page.driver).move_to_element_with_offset(page["map"], right, down).perform()
    page.until(lambda: page.texts(".leaflet-tooltip") == ["30 rows"])


def contrast(one: str, other: str) -> float:
    """The contrast ratio of two colours such as #440154 (WCAG 2.2)."""
    def luminance(colour: str) -> float:
        red, green, blue = (linear(channel / 255) for channel in bytes.fromhex(colour[1:]))
        return 0.2126 * red + 0.7152 * green + 0.0722 * blue

    dark, light = sorted((luminance(one), luminance(other)))
    return (light + 0.05) / (dark + 0.05)


@pytest.mark.parametrize("mode", MODES)
def test_texts_and_controls_stand_out(mode: str) -> None:
    blocks = re.findall(r":root \{(.*?)\}", (TOP / "clients/map/page/map.css").read_text(), re.DOTALL)
    colour = dict(re.findall(r"--([\w-]+): (#\w{6})", blocks[MODES.index(mode)]))
    texts = [("ink", "paper"), ("quiet", "paper"), ("alarm", "paper"), ("accent", "paper"), ("paper", "alarm"), ("on-accent", "accent"),
             ("ink", "chip"), ("ink", "sea"), ("ink", "land"), ("quiet", "sea"), ("quiet", "land")]
    assert [it for it in texts if contrast(*(colour[name] for name in it)) < 4.5] == []
    assert contrast(colour["edge"], colour["paper"]) >= 3


@pytest.mark.parametrize("mode", MODES)
def test_cells_with_most_rows_stand_out_most(page: Page, mode: str) -> None:
    def swatches() -> list[str]:
        found = page.run("return [...document.querySelectorAll('#legend i')].map(it => getComputedStyle(it).backgroundColor)")
        return ["#" + "".join(f"{int(it):02x}" for it in re.findall(r"\d+", colour)) for colour in found]

    def grounds() -> list[str]:
        return [str(page.run("return getComputedStyle(document.documentElement).getPropertyValue(arguments[0]).trim()", it))
                for it in ("--sea", "--land")]

    with shown_at(page.driver, SIZES["desktop"], MODES[1 - MODES.index(mode)]):
        page.open(token("gil"), ADDRESSES["cells"])
        before = swatches()
        with shown_at(page.driver, SIZES["desktop"], mode):  # the page is open, and follows
            page.until(lambda: swatches() != before)
            contrasts = [min(contrast(it, ground) for ground in grounds()) for it in swatches()]
    assert len(contrasts) > 1
    assert contrasts == sorted(contrasts) and contrasts[-1] > 4.5
