"""`fashkiin label`, and labels in messages."""

from __future__ import annotations

import argparse
import contextlib
from collections.abc import Iterator

from fashkiin.commands import DONE, Command, Session
from fashkiin.errors import LabelError, RowError
from fashkiin.faults import marked
from fashkiin.texts import printable


class InvalidLabelError(RowError):
    """A label of the arguments that the server did not take, shown with a mark."""

    def __init__(self, label: str, at: int) -> None:
        super().__init__("label", label, "an expression such as A&(B|C)")
        self.at = at

    def __str__(self) -> str:
        return "\n".join((f"label: invalid at byte {self.at}, wanted {self.wanted}", *marked(str(self.value), self.at)))


@contextlib.contextmanager
def explained(label: str) -> Iterator[None]:
    """A refusal of this label is raised as an `InvalidLabelError`."""
    try:
        yield
    except LabelError as error:
        raise InvalidLabelError(label, error.at) from None


def _arguments(parser: argparse.ArgumentParser) -> None:
    parser.add_argument("label", metavar="LABEL", help="a visibility expression, such as A&(B|C)")


def _run(session: Session, arguments: argparse.Namespace) -> int:
    with session.client() as client, explained(arguments.label):
        normal = client.label(arguments.label)
    session.show({"normal": normal}, printable(normal))
    return DONE


COMMAND = Command("label", "show the normal form of a label, or where it is invalid", _arguments, _run)
