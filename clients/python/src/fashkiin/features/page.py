"""Documents as pages that a person reads: HTML without scripts, whose texts are all escaped."""

from __future__ import annotations

import base64
import hashlib
from collections.abc import Iterator, Mapping, Sequence
from html import escape
from typing import Any
from urllib.parse import parse_qsl, quote, urlsplit

from fashkiin.features.documents import HTML, Link
from fashkiin.rows import to_json

# The members of a document that a page shows in a way of their own.
OWN = ("title", "links", "features", "collections")
# A text of a row may have characters that turn the direction of what follows: it stays within its own cell.
STYLE = """
body { font: 1rem/1.5 sans-serif; margin: 1rem auto; max-width: 80rem; padding: 0 1rem; color: #222; background: #fff }
h1 { font-size: 1.5rem } h2 { font-size: 1.15rem }
ul.links { padding: 0 } ul.links li { display: inline-block; margin-right: 1.5rem }
a { color: #0550ae }
dt { font-weight: bold } dd { margin: 0 0 .5rem 1.5rem }
div.wide { overflow-x: auto }
table { border-collapse: collapse } th, td { border: 1px solid #bbb; padding: .2rem .5rem; text-align: left; vertical-align: top }
dd, td, li { overflow-wrap: anywhere; unicode-bidi: isolate } td { white-space: pre-wrap }
@media (prefers-color-scheme: dark) { body { color: #ddd; background: #1a1a1a } a { color: #79b8ff } }
"""
_HASH = base64.b64encode(hashlib.sha256(STYLE.encode()).digest()).decode()
POLICY = f"default-src 'none'; style-src 'sha256-{_HASH}'; base-uri 'none'; form-action 'none'; frame-ancestors 'none'"
"""The content security policy of a page: its own style, and nothing else."""


def page(title: str, value: Mapping[str, Any], links: Sequence[Link], trail: Sequence[tuple[str, str]] = ()) -> str:
    """The page of a document: its members and links, below a trail of titles and URLs that lead to it."""
    way = " / ".join(f'<a href="{escape(href)}">{escape(name)}</a>' for name, href in trail)
    members = {name: one for name, one in value.items() if name not in OWN}
    return "".join(
        (
            '<!DOCTYPE html>\n<html lang="en">\n<head>\n<meta charset="utf-8">\n',
            '<meta name="viewport" content="width=device-width, initial-scale=1">\n',
            f"<title>{escape(title)}</title>\n<style>{STYLE}</style>\n</head>\n<body>\n",
            f"<nav>{way}</nav>\n<main>\n<h1>{escape(title)}</h1>\n{_links(links)}\n",
            _table(value["features"], links) if "features" in value else "",
            _shown(members),
            "\n".join(map(_collection, value.get("collections", ()))),
            "\n</main>\n</body>\n</html>\n",
        )
    )


def _collection(value: Mapping[str, Any]) -> str:
    members = {name: one for name, one in value.items() if name not in OWN}
    return f"<h2>{escape(value['title'])}</h2>\n{_links(value['links'])}\n{_shown(members)}"


def _shown(value: Any) -> str:
    """A value of JSON: its members or elements one below another."""
    if isinstance(value, dict):
        return "<dl>" + "\n".join(f"<dt>{escape(name)}</dt><dd>{_shown(one)}</dd>" for name, one in value.items()) + "</dl>"
    if isinstance(value, list):
        return "<ul>" + "\n".join(f"<li>{_shown(one)}</li>" for one in value) + "</ul>"
    return escape(_text(value))


def _text(value: Any) -> str:
    return value if isinstance(value, str) else to_json(value)


def _links(links: Sequence[Link]) -> str:
    return '<ul class="links">' + "\n".join(f"<li>{_anchor(one)}</li>" for one in links) + "</ul>" if links else ""


def _anchor(link: Link) -> str:
    """A link. A browser asks for pages: where it leads to data, it says so."""
    href = link["href"]
    query = urlsplit(href).query
    if link["type"] != HTML and ("f", "json") not in parse_qsl(query):
        href += "&f=json" if query else "?f=json"
    return f'<a href="{escape(href)}" rel="{escape(link["rel"])}" type="{escape(link["type"])}">{escape(link["title"])}</a>'


def _table(features: Sequence[Mapping[str, Any]], links: Sequence[Link]) -> str:
    """Features one below another, with a column for each property, each led to by its id."""
    names = list(dict.fromkeys(name for one in features for name in one["properties"]))
    collection = next(one["href"] for one in links if one["rel"] == "collection").partition("?")[0]
    head = "".join(f"<th>{escape(name)}</th>" for name in ("feature", "position", *names))
    return f'<div class="wide"><table>\n<tr>{head}</tr>\n' + "\n".join(_lines(features, names, collection)) + "\n</table></div>\n"


def _lines(features: Sequence[Mapping[str, Any]], names: Sequence[str], collection: str) -> Iterator[str]:
    for one in features:
        href = f"{collection}/items/{quote(one['id'], safe='')}?f=html"
        properties = one["properties"]
        cells = [_text(properties[name]) if name in properties else "" for name in names]
        position = ", ".join(map(_text, one["geometry"]["coordinates"]))
        first = f'<td><a href="{escape(href)}">{escape(one["id"])}</a></td>'
        yield f"<tr>{first}" + "".join(f"<td>{escape(text)}</td>" for text in (position, *cells)) + "</tr>"
