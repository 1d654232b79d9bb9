"""What is wrong with a row of a file, and where."""

from __future__ import annotations

import unicodedata
from collections import deque
from typing import BinaryIO, NamedTuple

from fashkiin.errors import ConstraintError, FashkiinError, FieldError, LabelError, RowError, SettingsError, shown
from fashkiin.formats import Format, Names, Prepared, Source, format_of
from fashkiin.texts import printable


class Fault(NamedTuple):
    """What is wrong with a row: its file, its place there, the field, and a text that says what was wanted. `marks` are lines
    that point into a label, `raw` is what a file of rejects has of the row."""

    file: str
    place: str
    field: str
    reason: str
    marks: tuple[str, ...] = ()
    raw: bytes = b""

    def __str__(self) -> str:
        return "\n".join((f"{self.file}:{self.place}: {printable(self.field)}: {self.reason}", *self.marks))


def fault(source: Source, form: Format, names: Names, row: Prepared, error: FashkiinError, raw: bytes = b"") -> Fault:
    """What is wrong with a row of a source."""
    place, _, label, _ = row
    where = str(place) if form.unit == "line" else f"{form.unit} {place}"
    field, reason = "row", str(error)
    marks: tuple[str, ...] = ()
    if isinstance(error, LabelError):
        field, reason = names.column("label"), f"invalid at byte {error.at}, wanted an expression such as A&(B|C)"
        marks = marked(label, error.at)
    elif isinstance(error, ConstraintError):
        field, reason = names.column("label"), f"{shown(error.label)}, wanted one that you can see yourself"
    elif isinstance(error, FieldError):
        field, reason = error.field, "out of the server's range, wanted one within it"
    elif isinstance(error, RowError):
        field = names.column(error.field) if error.field in ("id", "lon", "lat", "time", "label") else error.field
        reason = str(error).partition(": ")[2] + _remedy(error)
    return Fault(source.name, where, field, reason, marks, raw)


def _remedy(error: RowError) -> str:
    """The option that takes such a row, if there is one."""
    value = error.value
    if error.field == "lon" and isinstance(value, float) and 180.0 < value <= 360.0:
        return ", or --wrap for 0 to 360 degrees"
    return ""


def marked(label: str, at: int) -> tuple[str, str]:
    """A label, and a mark under the byte that shows that it is invalid."""
    before = label.encode()[:at].decode(errors="ignore")
    head, tail = (printable(text) for text in (before, label[len(before) :]))
    width = sum(2 if unicodedata.east_asian_width(letter) in "WF" else 1 for letter in head)
    return f"    {head}{tail}", " " * (4 + width) + "^"


class Rejects:
    """A file of the rows that were rejected, as they stand in their files, to be mended and loaded again.

    It has the format of the files, which is one. A row that is numbered has its id there. Close it, so that its end is written.
    """

    def __init__(self, out: BinaryIO, name: str) -> None:
        self.name = name
        self.rows = 0
        self._out = out
        self._form: Format | None = None
        self._head = b""

    def begin(self, source: Source, form: Format) -> None:
        """Rows of a source may come. `SettingsError` where they cannot stand in this file."""
        named = format_of(self.name)
        if named is not None and named.name != form.name:
            wrong = f"named as {named.name}, but {source.name} is {form.name}"
            raise SettingsError(f"--rejects: {self.name}: {wrong}: wanted a name that ends in {form.suffixes[0]}")
        if self._form is not None and self._form.name != form.name:
            raise SettingsError(f"--rejects: {source.name} is {form.name}, and the files before {self._form.name}: load it apart")
        self._form = form
        source.raw = deque()

    def add(self, found: Fault, source: Source) -> None:
        """Writes a row. `SettingsError` where its file has another header than the file of the row before."""
        before, between, _ = self._form.around if self._form is not None else ("", "", "")
        head = source.head or before.encode()
        if self.rows == 0:
            self._out.write(head)
        elif head != self._head:
            raise SettingsError(f"--rejects: {source.name} has another header than the file before: load it apart")
        self._out.write((between.encode() if self.rows else b"") + found.raw)
        self._out.flush()
        self._head = head
        self.rows += 1

    def close(self) -> None:
        """Ends the file."""
        with self._out:
            if self.rows and self._form is not None:
                self._out.write(self._form.around[2].encode())
