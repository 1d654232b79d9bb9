"""What the subcommands of administration share: actions of their own, and messages that say what is allowed."""

from __future__ import annotations

import argparse
import contextlib
from collections.abc import Callable, Iterator, Mapping

from fashkiin.client import Client
from fashkiin.commands import DONE, Session, common_options
from fashkiin.errors import FieldError, InvalidNameError, RowError

Action = Callable[[Session, Client, argparse.Namespace], "int | None"]
"""What an action does; its exit status, 0 where it is None."""

Parsers = argparse._SubParsersAction

NAME_WANTED = "a name of 1 to 32 letters, digits and _"
WANTED = {
    "digest": "the 64 hexadecimal digits that fashkiin token new shows",
    "user": NAME_WANTED,
    "namespace": NAME_WANTED,
    "table": f"{NAME_WANTED}, or a namespace, a dot and a name",
    "auths": "authorizations of 1 to 256 bytes",
}
"""What is allowed in a field."""


def add_action(parsers: Parsers[argparse.ArgumentParser], name: str, summary: str, action: Action) -> argparse.ArgumentParser:
    """The parser of an action."""
    parser = parsers.add_parser(name, parents=[common_options()], help=summary, description=summary)
    parser.set_defaults(action=action)
    return parser


def run_action(session: Session, arguments: argparse.Namespace) -> int:
    """Runs the action of the arguments."""
    with session.client() as client:
        status: int | None = arguments.action(session, client, arguments)
    return status or DONE


@contextlib.contextmanager
def allowed(wanted: Mapping[str, str] = WANTED, /, **given: str | None) -> Iterator[None]:
    """A refusal of one of the fields given is raised as a `RowError` that says what is `wanted` there."""
    try:
        yield
    except (FieldError, InvalidNameError) as error:
        if given.get(error.field) is None:
            raise
        raise RowError(error.field, given[error.field], wanted[error.field]) from None
