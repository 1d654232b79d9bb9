"""The classes of the legend differ for every eye: under the three kinds of colour blindness, and from land and sea.

The matrices are those of Machado, Oliveira and Fernandes, "A Physiologically-based Model for Simulation of Color Vision
Deficiency" (2009), at full severity, on linear RGB; differences are those of CIE 1976 L*a*b*, where 2.3 is just noticeable.
"""

from __future__ import annotations

import math
import re
from collections.abc import Sequence
from itertools import combinations, pairwise

import pytest

from served import TOP

PAGE = TOP / "clients/map/page"
EYES: dict[str, list[tuple[float, float, float]]] = {
    "all colours": [(1, 0, 0), (0, 1, 0), (0, 0, 1)],
    "protanopia": [(0.152286, 1.052583, -0.204868), (0.114503, 0.786281, 0.099216), (-0.003882, -0.048116, 1.051998)],
    "deuteranopia": [(0.367322, 0.860646, -0.227968), (0.280085, 0.672501, 0.047413), (-0.011820, 0.042940, 0.968881)],
    "tritanopia": [(1.255528, -0.076749, -0.178779), (-0.078411, 0.930809, 0.147602), (0.004733, 0.691367, 0.303900)],
}
CLEAR = 12
"""Five times what is just noticeable."""


def linear(channel: float) -> float:
    """A channel of linear RGB by that of sRGB (IEC 61966-2-1)."""
    return channel / 12.92 if channel <= 0.04045 else math.pow((channel + 0.055) / 1.055, 2.4)


def times(matrix: Sequence[Sequence[float]], vector: Sequence[float]) -> list[float]:
    return [sum(a * b for a, b in zip(row, vector, strict=True)) for row in matrix]


def lab(rgb: Sequence[float]) -> tuple[float, float, float]:
    """CIE 1976 L*a*b* of linear RGB, white being D65."""
    xyz = times([(0.4124, 0.3576, 0.1805), (0.2126, 0.7152, 0.0722), (0.0193, 0.1192, 0.9505)], rgb)
    parts = [value / white for value, white in zip(xyz, (0.9505, 1.0, 1.089), strict=True)]
    x, y, z = (it ** (1 / 3) if it > (6 / 29) ** 3 else it / (3 * (6 / 29) ** 2) + 4 / 29 for it in parts)
    return 116 * y - 16, 500 * (x - y), 200 * (y - z)


def as_seen(colour: str, eye: str) -> tuple[float, float, float]:
    """What an eye sees of a colour such as #440154."""
    rgb = [linear(channel / 255) for channel in bytes.fromhex(colour[1:])]
    return lab([min(1.0, max(0.0, it)) for it in times(EYES[eye], rgb)])


@pytest.mark.parametrize("eye", EYES)
def test_classes_differ(eye: str) -> None:
    line = re.search(r"COLOURS = \[(.*)\]", (PAGE / "legend.js").read_text())
    grounds = re.findall(r"--(?:sea|land): (#\w{6})", (PAGE / "map.css").read_text())
    assert line and len(grounds) == 4  # in light and in dark mode
    classes = [as_seen(it, eye) for it in re.findall(r"#\w{6}", line[1])]
    assert len(classes) == 6
    assert all(light[0] - dark[0] > 5 for light, dark in pairwise(classes))
    assert min(math.dist(*pair) for pair in combinations(classes, 2)) > CLEAR
    for ground in grounds:
        assert min(math.dist(as_seen(ground, eye), it) for it in classes) > CLEAR
