"""The map page in a headless Chromium."""

from __future__ import annotations

from collections.abc import Iterator
from contextlib import contextmanager
from typing import Any, NamedTuple

from selenium.webdriver import ActionChains, Chrome, ChromeOptions, Keys
from selenium.webdriver.chrome.service import Service
from selenium.webdriver.common.by import By
from selenium.webdriver.remote.webelement import WebElement
from selenium.webdriver.support.wait import WebDriverWait

SECONDS = 60
TEXTS = r"return [...document.querySelectorAll(arguments[0])].map(it => it.innerText.trim().replace(/\n+/g, '\n'))"
PAINTED = """return ['cells', 'marks'].some(pane => {
    const canvas = document.querySelector(`.leaflet-${pane}-pane canvas`);
    if (!canvas) return false;
    const { data } = canvas.getContext('2d').getImageData(0, 0, canvas.width, canvas.height);
    return new Uint32Array(data.buffer).some(pixel => pixel !== 0);
});"""
RECORD = """const texts = selector => [...document.querySelectorAll(selector)].map(it => it.textContent.trim());
window.states = [];
const keep = () => {
    const [total, error, stale] = ['total', 'error', 'stale'].map(id => document.getElementById(id).textContent);
    const state = { total, error, stale, ids: texts('#rows b'), ticks: texts('#auths label') };
    const { time, ...last } = window.states.at(-1) ?? {};
    if (JSON.stringify(last) !== JSON.stringify(state)) window.states.push({ ...state, time: Date.now() / 1000 });
};
keep();
new MutationObserver(keep).observe(document.body, { subtree: true, childList: true, characterData: true, attributes: true });"""


def chromium() -> Chrome:
    options = ChromeOptions()
    options.binary_location = "/usr/bin/chromium"
    for word in ("--headless=new", "--no-sandbox", "--disable-gpu", "--disable-dev-shm-usage", "--window-size=1280,880"):
        options.add_argument(word)
    options.set_capability("goog:loggingPrefs", {"browser": "ALL", "performance": "ALL"})
    return Chrome(service=Service("/usr/bin/chromedriver"), options=options)


class Size(NamedTuple):
    """A window in CSS pixels, and whether a finger is its pointer."""

    width: int
    height: int
    is_touched: bool


SIZES = {"phone": Size(390, 844, True), "tablet": Size(820, 1180, True), "desktop": Size(1440, 900, False)}
MODES = ("light", "dark")


@contextmanager
def shown_at(driver: Chrome, size: Size, mode: str = "light") -> Iterator[None]:
    """A window of a size, in light or in dark mode; pages are to be opened anew in it."""
    metrics = {"width": size.width, "height": size.height, "deviceScaleFactor": 1, "mobile": size.is_touched}
    driver.execute_cdp_cmd("Emulation.setDeviceMetricsOverride", metrics)
    driver.execute_cdp_cmd("Emulation.setTouchEmulationEnabled", {"enabled": size.is_touched})
    driver.execute_cdp_cmd("Emulation.setEmulatedMedia", {"features": [{"name": "prefers-color-scheme", "value": mode}]})
    try:
        yield
    finally:
        driver.execute_cdp_cmd("Emulation.clearDeviceMetricsOverride", {})
        driver.execute_cdp_cmd("Emulation.setTouchEmulationEnabled", {"enabled": False})
        driver.execute_cdp_cmd("Emulation.setEmulatedMedia", {"features": []})


class Page:
    """The page at an edge, as a user has it before the eyes."""

    def __init__(self, driver: Chrome, url: str) -> None:
        self.driver = driver
        self.url = url

    def go(self, address: str = "") -> None:
        """Opens the page anew, at an address such as `table=geo.trips&at=50,0&zoom=3`."""
        self.driver.get("about:blank")
        self.driver.get(f"{self.url}/map/#{address}")

    def open(self, token: str, address: str = "") -> None:
        """Opens the page anew and signs in."""
        self.go(address)
        self.sign_in(token)

    def sign_in(self, token: str) -> None:
        self["token"].send_keys(token + Keys.ENTER)
        self.until(lambda: self["panel"].is_displayed())
        self.settle()

    def __getitem__(self, id: str) -> WebElement:
        return self.driver.find_element(By.ID, id)

    def all(self, selector: str) -> list[WebElement]:
        return self.driver.find_elements(By.CSS_SELECTOR, selector)

    def texts(self, selector: str) -> list[str]:
        """The texts of elements, all at one moment: the page may replace them at any time."""
        return list(self.run(TEXTS, selector))

    def run(self, script: str, *words: object) -> Any:
        return self.driver.execute_script(script, *words)

    def until(self, holds: Any) -> Any:
        return WebDriverWait(self.driver, SECONDS, 0.05).until(lambda _: holds())

    def settle(self) -> None:
        """Waits until the page has drawn what it was asked."""
        self.until(lambda: self.run("return document.body.getAttribute('aria-busy')") == "false")

    @property
    def total(self) -> int:
        """The rows in view, as the page tells them."""
        return int(self["total"].text.split()[0].replace(",", ""))

    @property
    def address(self) -> dict[str, str]:
        return dict(self.run("return [...new URLSearchParams(location.hash.slice(1))]"))

    def tick(self, authorization: str) -> None:
        self.driver.find_element(By.CSS_SELECTOR, f'#auths input[name="{authorization}"]').click()
        self.settle()

    def drag(self, slider: str, part: float) -> None:
        """Drags the handle of a slider, which is at an end of it, by a part of the slider's length."""
        element = self[slider]
        half = element.size["width"] // 2 - 12
        begin = -half if slider == "from" else half
        chain = ActionChains(self.driver).move_to_element_with_offset(element, begin, 0).click_and_hold()
        chain.move_by_offset(int(2 * half * part), 0).release().perform()
        self.settle()

    def click_map(self, right: int = 0, down: int = 0) -> None:
        """Clicks so many pixels right of the middle of the map, and down from it."""
        ActionChains(self.driver).move_to_element_with_offset(self["map"], right, down).click().perform()
        self.settle()

    @property
    def rows(self) -> list[str]:
        """The texts of the rows that are listed and that the filter does not hide."""
        return self.texts("#rows li:not([hidden])")

    @property
    def is_drawn(self) -> bool:
        """Whether cells, rows or marks are to be seen on the map."""
        return bool(self.run(PAINTED))

    def record(self) -> None:
        """Keeps each state of the page from now on."""
        self.run(RECORD)

    @property
    def states(self) -> list[dict[str, Any]]:
        """The states since `record`, each with its time in seconds from 1970: `total`, `error`, `stale`, `ids` of the listed rows,
        `ticks`."""
        return list(self.run("return window.states"))
