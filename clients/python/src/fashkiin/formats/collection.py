"""The features of a GeoJSON FeatureCollection of any size, one after another."""

from __future__ import annotations

import codecs
import io
import json
import re
from collections.abc import Iterator
from typing import Any

PIECE = 1 << 20
LARGEST = 1 << 26
"""The most characters that one value is waited for; a larger one is an error."""

_BLANKS = re.compile(r"[ \t\r\n]*")
_decode = json.JSONDecoder().raw_decode


def read_features(stream: io.BufferedReader) -> Iterator[Any]:
    """The values of the list `features`. `ValueError` or `RecursionError` where the text is no JSON object, `LookupError` where
    it has no such list."""
    text = _Text(stream)
    found = False
    text.take("{")
    end = text.take("}") if text.peek() == "}" else ""
    while end != "}":
        name = text.value()
        text.take(":")
        if name == "features" and text.peek() == "[":
            found = True
            yield from _items(text)
        else:
            text.value()
        end = text.take(",}")
    if text.peek():
        raise ValueError("Extra data")
    if not found:
        raise LookupError("no features")


def _items(text: _Text) -> Iterator[Any]:
    """The values of a list."""
    text.take("[")
    end = text.take("]") if text.peek() == "]" else ""
    while end != "]":
        yield text.value()
        end = text.take(",]")


class _Text:
    """A JSON text that is read piece by piece."""

    def __init__(self, stream: io.BufferedReader) -> None:
        self._stream = stream
        self._decoder = codecs.getincrementaldecoder("utf-8-sig")()
        self._text = ""
        self._at = 0
        self._ended = False

    def peek(self) -> str:
        """The next character that is no blank; nothing at the end."""
        while True:
            found = _BLANKS.match(self._text, self._at)
            self._at = found.end() if found else self._at
            if self._at < len(self._text):
                return self._text[self._at]
            if not self._more():
                return ""

    def take(self, wanted: str) -> str:
        """The next character that is no blank, one of these."""
        character = self.peek()
        if not character or character not in wanted:
            raise ValueError(f"Expecting {' or '.join(repr(it) for it in wanted)}")
        self._at += 1
        return character

    def value(self) -> Any:
        """The next value."""
        self.peek()
        while True:
            try:
                value, end = _decode(self._text, self._at)
            except json.JSONDecodeError as error:
                # It may be cut off where the text that was read ends.
                if len(self._text) - self._at > LARGEST or not self._more():
                    raise ValueError(error.msg) from None
                continue
            # A number may go on behind what was read, also behind the first letters of a fraction or an exponent.
            if len(self._text) - end > len("e+") or not self._more():
                self._at = end
                return value

    def _more(self) -> bool:
        """Reads on, as much again as is there, and lets go what was taken; whether there was more."""
        if self._ended:
            return False
        rest = self._text[self._at :]
        piece = self._stream.read(max(PIECE, len(rest)))
        if not piece:
            self._ended = True
            self._decoder.decode(b"", True)
            return False
        self._text, self._at = rest + self._decoder.decode(piece), 0
        return True
