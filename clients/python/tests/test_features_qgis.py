"""The features in QGIS without a screen, where it is installed: python3-qgis is too large for the packages of the tests."""

from __future__ import annotations

import json
import subprocess
from datetime import UTC, datetime
from pathlib import Path

import pytest
from facade import ROWS, TABLE, Facade, expected
from running import environment
from served import token

from fashkiin.cells import time_text

SCRIPT = Path(__file__).with_name("qgis_layer.py")


@pytest.mark.skipif(not Path("/usr/lib/python3/dist-packages/qgis").exists(), reason="python3-qgis is not installed")
def test_qgis_has_the_extent_the_rows_of_a_view_and_those_of_a_time(facade: Facade) -> None:
    user, secret = token("ann").split(".")
    box, begin, end = (-20.0, -45.0, 100.0, 60.0), datetime(2024, 1, 3, tzinfo=UTC), datetime(2024, 1, 5, tzinfo=UTC)
    words = ["/usr/bin/python3", str(SCRIPT), facade.url, user, secret, TABLE, *map(str, box), time_text(begin), time_text(end)]
    ran = subprocess.run(words, env=environment(QT_QPA_PLATFORM="offscreen"), capture_output=True, check=True, timeout=300)
    told = json.loads(ran.stdout)
    assert (told["valid"], told["warnings"]) == (True, [])
    assert told["extent"] == facade.get(f"/collections/{TABLE}", "ann")[2]["extent"]["spatial"]["bbox"][0]
    inside = [row for row in ROWS if box[0] <= row.lon <= box[2] and box[1] <= row.lat <= box[3]]
    during = [row for row in ROWS if begin <= row.time <= end]
    for name, rows in (("all", ROWS), ("view", inside), ("span", during)):
        assert [tuple(one) for one in told[name]] == expected("ann", rows) != []
