"""A row under another label.

A row is named by its id and its label, so no request changes a label: the row is put under the new label, and then deleted
under the old one. So it is never lost, and nobody sees it who may see it neither before nor afterwards. Who may see both labels
sees it twice for a moment; who may see the old one alone sees the old row, and then none. A put of the old row by somebody else
in between is lost.
"""

from __future__ import annotations

from collections.abc import Mapping, Sequence
from dataclasses import dataclass
from typing import TYPE_CHECKING, Any

from fashkiin.errors import RelabelError, shown

if TYPE_CHECKING:
    from fashkiin.table import Table


@dataclass(frozen=True, slots=True)
class Relabelling:
    """What is to be done. `row` is the row to put as the server told it, None where it stands under the new label already or
    there is none; `there` says whether it stands there. `old` are the labels under which it is deleted then."""

    table: Table
    id: str
    label: str
    row: Mapping[str, Any] | None
    there: bool
    old: Sequence[str]

    def put(self) -> None:
        """Puts the row under the new label. Where this is refused, nothing was changed; where it is cut off, the row may stand
        there beside the old one: `find` again."""
        if self.row is not None:
            self.table.put_told({**self.row, "label": self.label})

    def delete(self) -> None:
        """Deletes the row under the old labels, in the order of their bytes, once it is put. Where this fails, the row may stand
        under these too: `find` again."""
        for label in self.old:
            self.table.delete(self.id, label)


def find(table: Table, id: str, label: str, old: str | None = None) -> Relabelling:
    """How the row of an id comes to stand under `label` alone, as far as the asker sees, or no more under `old` where that is
    given. `old` is empty where there is nothing to be done. `RelabelError` where the rows of the id differ."""
    rows = {row["label"]: row for row in table.told(id)}
    others = [it for it in rows if it != label and old in (None, it)]
    contents = {it: (rows[it]["point"], rows[it]["note"]) for it in rows}
    for other in others:
        if label in rows and contents[other] != contents[label]:
            raise RelabelError(f"{shown(id)}: another row stands under {shown(label)} already: delete one of the two")
        if contents[other] != contents[others[0]]:
            told = f"the rows under {shown(others[0])} and {shown(other)} differ"
            raise RelabelError(f"{shown(id)}: {told}: say which one by --from, and delete the other")
    return Relabelling(table, id, label, None if label in rows or not others else rows[others[0]], label in rows, others)
