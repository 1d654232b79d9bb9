"""The texts of a point of GPX: where it is, and what its elements say."""

from __future__ import annotations

from collections.abc import Iterator, Mapping, Sequence
from functools import lru_cache
from typing import TYPE_CHECKING, NamedTuple

if TYPE_CHECKING:
    from xml.etree import ElementTree

NAMESPACE = "urn:fashkiin:row"
ROW = f"{{{NAMESPACE}}}row"
NO_NAMES: Mapping[str, None] = {}


class Texts(NamedTuple):
    """The texts of a point. `texts` are those of its elements, which have these `names`, each once; `written` is that of an
    element that `gpx.write` wrote. What is `dropped` is kept in no row."""

    lon: str | None
    lat: str | None
    names: Sequence[str]
    texts: Sequence[str]
    written: str | None = None
    dropped: Mapping[str, None] = NO_NAMES

    def values(self) -> dict[str, str]:
        """The texts by their names."""
        return dict(zip(self.names, self.texts, strict=True))


def texts_of(point: ElementTree.Element) -> Texts:
    """The texts of a point."""
    dropped: dict[str, None] = {}
    values = _values(point, dropped)
    row = point.find(f"{{*}}extensions/{ROW}") if next(point.iter(ROW), None) is not None else None
    written = None if row is None else row.text or ""
    return Texts(point.get("lon"), point.get("lat"), tuple(values), tuple(values.values()), written, dropped)


@lru_cache(maxsize=1_024)
def local(tag: str) -> str:
    """The name of an element without its namespace."""
    return tag.rsplit("}", 1)[-1]


def _values(point: ElementTree.Element, dropped: dict[str, None]) -> dict[str, str]:
    """The texts of a point's elements, then those within its extensions. Of two with the same name the first is kept; what is not
    kept is told by `dropped`."""
    values: dict[str, str] = {}
    larger: list[tuple[str, str]] = []
    for child in point:
        name, text = local(child.tag), child.text or ""
        if name == "link":
            larger.append(("link", child.get("href", "")))
            dropped.update({f"{local(it.tag)} of link": None for it in child})
        elif len(child) or name == "extensions":
            larger += _leaves(child, point, dropped)
        elif values.setdefault(name, text) != text:
            dropped[f"a further {name} of {local(point.tag)}"] = None
    for name, text in larger:
        if values.setdefault(name, text) != text:
            dropped[f"a further {name} of {local(point.tag)}"] = None
    return values


def _leaves(element: ElementTree.Element, point: ElementTree.Element, dropped: dict[str, None]) -> Iterator[tuple[str, str]]:
    """The names and texts within an element of a point."""
    leaves = element.iter()
    next(leaves)  # It is the element itself.
    for leaf in leaves:
        tag = leaf.tag
        if len(leaf) or tag == ROW:
            continue
        text = (leaf.text or "").strip()
        if text:
            yield local(tag), text
        elif leaf.attrib:
            dropped[f"{local(tag)} of {local(point.tag)}"] = None
