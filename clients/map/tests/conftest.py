from __future__ import annotations

import signal
from collections.abc import Iterator

import pytest

from page import Page, chromium
from stack import Stack


def pytest_configure() -> None:
    """Being terminated ends the servers and the browser too, as an interrupt does."""
    signal.signal(signal.SIGTERM, signal.default_int_handler)


@pytest.fixture(scope="session")
def stack(tmp_path_factory: pytest.TempPathFactory) -> Iterator[Stack]:
    with Stack(tmp_path_factory.mktemp("stack")) as made:
        yield made


@pytest.fixture(scope="session")
def page(stack: Stack) -> Iterator[Page]:
    driver = chromium()
    try:
        yield Page(driver, stack.url)
    finally:
        driver.quit()
