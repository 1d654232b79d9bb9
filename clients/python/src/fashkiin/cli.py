# PYTHON_ARGCOMPLETE_OK
"""`fashkiin`, the command."""

from __future__ import annotations

import argparse
import contextlib
import io
import os
import sys
from collections.abc import Iterable, Sequence
from importlib import import_module

from fashkiin import __version__
from fashkiin.commands import (
    BAD_INPUT,
    DONE,
    INTERRUPTED,
    NO_SERVER,
    OUTPUT_CLOSED,
    REFUSED,
    REJECTED,
    USAGE,
    Command,
    Parser,
    Session,
    common_options,
)
from fashkiin.errors import (
    ConnectError,
    CutOffError,
    FashkiinError,
    InputError,
    RefusalError,
    RelabelError,
    ReplyError,
    RowError,
    StoppedError,
)
from fashkiin.settings import NAMES, read_settings

COMMANDS = {
    "load": "load",
    "dump": "read",
    "scan": "read",
    "count": "read",
    "grid": "read",
    "get": "read",
    "relabel": "write",
    "put": "write",
    "delete": "write",
    "tables": "tables",
    "users": "users",
    "access": "users",
    "grant": "grants",
    "revoke": "grants",
    "audit": "audit",
    "label": "labels",
    "whoami": "whoami",
    "token": "tokens",
    "map": "map",
    "features": "features",
    "export": "export",
}
"""The commands, and the module of each in `fashkiin.commands`, which is imported once it is needed: so a command starts fast."""

EXIT_STATUSES = {
    DONE: "done",
    REJECTED: "done, but rows were rejected; or there was nothing to get, delete, relabel or revoke",
    USAGE: "arguments, settings, a token file or a file that cannot be used",
    BAD_INPUT: "bad input: a row, or a file of rows; what was wanted is said in a line",
    REFUSED: "the server refused",
    NO_SERVER: "the server is not there, its reply was cut off, or it was none",
    INTERRUPTED: "interrupted",
    OUTPUT_CLOSED: "standard output was closed",
}
"""What the command ends with."""


def find_command(name: str) -> Command:
    """The command of a name of `COMMANDS`."""
    module = import_module(f"fashkiin.commands.{COMMANDS[name]}")
    commands: Sequence[Command] = getattr(module, "COMMANDS", ()) or (module.COMMAND,)
    return next(command for command in commands if command.name == name)


def make_parser(names: Iterable[str] = COMMANDS) -> argparse.ArgumentParser:
    """The parser of commands."""
    common = common_options()
    parser = Parser(
        "fashkiin", parents=[common], description="Loads, reads and administers a server of labelled points."
    )
    parser.add_argument("--version", action="version", version=f"fashkiin {__version__}")
    subparsers = parser.add_subparsers(metavar="COMMAND", required=True)
    for command in map(find_command, names):
        own = subparsers.add_parser(command.name, parents=[common], help=command.summary, description=command.summary)
        command.arguments(own)
        own.set_defaults(command=command)
    return parser


def run(words: Sequence[str] | None = None) -> int:
    """Runs the command of some words and returns its exit status."""
    given = sys.argv[1:] if words is None else words
    is_asked = given and given[0] in COMMANDS and "_ARGCOMPLETE" not in os.environ
    parser = make_parser(given[:1] if is_asked else () if given and given[0] == "--version" else COMMANDS)
    if "_ARGCOMPLETE" in os.environ:
        with contextlib.suppress(ImportError):
            import argcomplete

            argcomplete.autocomplete(parser)
    arguments = parser.parse_args(given)
    flags = {
        name: getattr(arguments, name.replace("-", "_"), None) for name in ("config", *NAMES)
    }
    session = Session(read_settings(flags, os.environ), getattr(arguments, "json", False))
    command: Command = arguments.command
    return command.run(session, arguments)


def status(error: FashkiinError) -> int:
    """The exit status of an error."""
    if isinstance(error, RowError | InputError | StoppedError | RelabelError):
        return BAD_INPUT
    if isinstance(error, RefusalError):
        return REFUSED
    if isinstance(error, ConnectError | CutOffError | ReplyError):
        return NO_SERVER
    return USAGE


def main() -> None:
    """Runs the command of the process and ends it."""
    if isinstance(sys.stdout, io.TextIOWrapper):
        sys.stdout.reconfigure(encoding="utf-8")
    try:
        code = run()
        sys.stdout.flush()
    except FashkiinError as error:
        print(f"fashkiin: {error}", file=sys.stderr)
        code = status(error)
    except BrokenPipeError:
        os.dup2(os.open(os.devnull, os.O_WRONLY), sys.stdout.fileno())
        code = OUTPUT_CLOSED
    except UnicodeEncodeError:
        print("fashkiin: an argument is not UTF-8, wanted texts in UTF-8", file=sys.stderr)
        code = USAGE
    except OSError as error:
        print(f"fashkiin: {error.filename or 'output'}: {error.strerror or error}", file=sys.stderr)
        code = USAGE
    except KeyboardInterrupt:
        code = INTERRUPTED
    sys.exit(code)
