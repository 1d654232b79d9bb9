"""The field Accept (RFC 9110, 12.5.1)."""

from __future__ import annotations

import re
from collections.abc import Iterable

_QUALITY = re.compile(r"q=(0(\.[0-9]{0,3})?|1(\.0{0,3})?)", re.IGNORECASE)


def prefers(accept: str, wanted: str, others: Iterable[str]) -> bool:
    """Whether a media type is wanted more than each of the others. An empty field wants all alike."""
    ranges = _read(accept)
    return quality(ranges, wanted) > max(quality(ranges, other) for other in others)


def quality(ranges: dict[str, float], type: str) -> float:
    """How much a media type is wanted, 0 to 1, by the range that fits it best."""
    for fits in (type, type.partition("/")[0] + "/*", "*/*"):
        if fits in ranges:
            return ranges[fits]
    return 0.0


def _read(accept: str) -> dict[str, float]:
    """The qualities of the media ranges of the field."""
    ranges: dict[str, float] = {}
    for part in accept.split(","):
        name, *parameters = (text.strip().lower() for text in part.split(";"))
        found = next((found for text in parameters if (found := _QUALITY.fullmatch(text))), None)
        if name:
            ranges[name] = float(found[1]) if found else 1.0
    return ranges
