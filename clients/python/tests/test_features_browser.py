"""The features in a headless Chromium, which asks for pages, signs in by Basic and keeps to the page's policy."""

from __future__ import annotations

from datetime import UTC, datetime
from urllib.parse import urlsplit

from facade import Facade
from page import chromium
from served import token

from fashkiin import Row

NAME = "<script>document.title = 'run'</script>"
SHIPS = [Row(f"{day}{NAME}", 4.0 + day, 52.0, datetime(2024, 1, day, tzinfo=UTC), "A", {"n": NAME}) for day in range(1, 4)]


def test_a_browser_shows_the_rows_and_runs_nothing(facade: Facade) -> None:
    with facade.root() as root:
        root.tables.create("geo.ships")
        assert all(put.error is None for put in root.table("geo.ships").put_many(SHIPS))
    place, own = urlsplit(facade.url).netloc, token("ann").replace(".", ":")
    driver = chromium()
    try:
        driver.get(f"http://{own}@{place}/collections/geo.ships/items?limit=2")
        shown = []
        while True:
            assert driver.title == "Features of geo.ships"
            lines = driver.find_elements("css selector", "tr")
            shown += [line.find_element("css selector", "td").text for line in lines[1:]]
            # The policy lets the page's own style be.
            assert lines[0].find_element("css selector", "th").value_of_css_property("border-top-style") == "solid"
            following = driver.find_elements("css selector", "a[rel=next]")
            if not following:
                break
            following[0].click()
        assert sorted(shown) == sorted(f"{row.id},A" for row in SHIPS)
        assert driver.get_log("browser") == []
    finally:
        driver.quit()
