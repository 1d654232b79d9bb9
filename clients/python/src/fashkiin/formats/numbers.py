"""Texts that are numbers."""

from __future__ import annotations

import re
from collections.abc import Iterable, Mapping, Sequence
from typing import NamedTuple

DIGITS = 15
"""The most digits of a number that a double holds exactly, which is what most readers of JSON make of it."""

NUMBERS_AT_A_TIME = 1_024
"""Of how many rows the kinds of properties are found at a time."""

_NUMBER = re.compile(r"-?(0|[1-9][0-9]*)(\.[0-9]+)?([eE][-+]?[0-9]{1,3})?\Z")

_DECIMALS = re.compile(r"(?:-?(?:0|[1-9][0-9]*)(?:\.[0-9]+)?\n)*\Z")
"""Numbers that stand on lines of their own, without exponents."""


def number(text: str) -> int | float | None:
    """The number that a text is, as JSON writes it with at most 15 digits; None for another text, such as `007` or `+1`."""
    found = _NUMBER.match(text)
    if found is None:
        return None
    kind = found.lastindex
    if len(text) > DIGITS and len(found[1]) + len(found[2] or ".") - 1 > DIGITS:
        return None
    if kind == 1:
        return int(text)
    value = float(text)
    return value if abs(value) < float("inf") else None


def are_numbers(texts: Sequence[str]) -> bool:
    """Whether each of the texts is a number."""
    together = "\n".join([*texts, ""])
    short = max(map(len, texts), default=0) <= DIGITS and together.count("\n") == len(texts)
    return bool(short and _DECIMALS.match(together)) or all(number(text) is not None for text in texts)


class Kinds(NamedTuple):
    """Which properties are numbers wherever some rows have them, and which are something else somewhere."""

    numbers: frozenset[str]
    others: frozenset[str]


def kinds_of(properties: Iterable[tuple[str, Sequence[str]]]) -> Kinds:
    """The kinds of properties by their names and all their texts in some rows. One without a text has no kind."""
    numbers: set[str] = set()
    others: set[str] = set()
    for name, texts in properties:
        if texts:
            (numbers if are_numbers(texts) else others).add(name)
    return Kinds(frozenset(numbers), frozenset(others))


def throughout(kinds: Iterable[Kinds]) -> frozenset[str]:
    """The properties that are numbers throughout, by their kinds in all parts of a file."""
    numbers: set[str] = set()
    others: set[str] = set()
    for it in kinds:
        numbers |= it.numbers
        others |= it.others
    return frozenset(numbers - others)


def with_numbers(properties: Mapping[str, str], names: frozenset[str]) -> dict[str, str | int | float]:
    """The properties, with numbers in place of the texts of these names."""
    return {name: value if name not in names else number_or_text(value) for name, value in properties.items()}


def number_or_text(text: str) -> str | int | float:
    """The number that a text is, or the text."""
    value = number(text)
    return text if value is None else value
