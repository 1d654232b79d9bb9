"""The subcommands of `fashkiin`: each is a `Command` that its module makes and `fashkiin.cli.COMMANDS` names."""

from __future__ import annotations

import argparse
import contextlib
import os
import re
import sys
from collections.abc import Callable
from dataclasses import dataclass
from functools import lru_cache
from typing import Any

from fashkiin.client import Client
from fashkiin.rows import to_json
from fashkiin.settings import Settings

DONE = 0
REJECTED = 1
USAGE = 2
BAD_INPUT = 3
REFUSED = 4
NO_SERVER = 5
OUTPUT_CLOSED = 141
INTERRUPTED = 130


@dataclass(frozen=True, slots=True)
class Session:
    """What a subcommand works with: the settings, and whether scripts read its output."""

    settings: Settings
    json: bool

    def client(self) -> Client:
        """A client by the settings, to be closed."""
        return self.settings.client()

    def show(self, value: Any, text: str) -> None:
        """Writes data on standard output: a line of JSON for scripts, a text otherwise."""
        print(to_json(value) if self.json else text)

    def say(self, text: str) -> None:
        """Talks, on standard error."""
        print(text, file=sys.stderr, flush=True)


@dataclass(frozen=True, slots=True)
class Command:
    """A subcommand: `arguments` adds its arguments to a parser, `run` returns the exit status.

    `run` raises `fashkiin.errors.FashkiinError` where it fails: `fashkiin.cli.main` tells it in a line and ends with its status.
    """

    name: str
    summary: str
    arguments: Callable[[argparse.ArgumentParser], None]
    run: Callable[[Session, argparse.Namespace], int]


class Formatter(argparse.HelpFormatter):
    """Help as wide as the terminal. `argparse` makes one for each argument, and imports all archives to know the width."""

    def __init__(self, prog: str) -> None:
        super().__init__(prog, width=_columns() - 2)


@lru_cache
def _columns() -> int:
    """The width of the terminal, 80 where there is none."""
    with contextlib.suppress(OSError, ValueError):
        return int(os.environ.get("COLUMNS", 0)) or os.get_terminal_size(sys.__stdout__.fileno()).columns or 80
    return 80


class Parser(argparse.ArgumentParser):
    """A parser that takes no negative number for an option: `-5e-05` neither, as `scan` prints it."""

    def __init__(self, *words: Any, **named: Any) -> None:
        named.setdefault("formatter_class", Formatter)
        super().__init__(*words, **named)
        self._negative_number_matcher = re.compile(r"-(\d+\.?\d*|\.\d+)([eE][-+]?\d+)?\Z")


def common_options() -> Parser:
    """The options that stand at any place behind the command's name: a parent of each parser. One that is not given is in no
    namespace."""
    common = Parser(add_help=False, argument_default=argparse.SUPPRESS)
    common.add_argument("--url", metavar="URL", help="the server, http://HOST:PORT or https://HOST:PORT")
    common.add_argument("--token-file", metavar="FILE", help="the file of your token, which you alone may read")
    common.add_argument("--ca-file", metavar="FILE", help="certificates to trust in place of the system's")
    common.add_argument("--timeout", metavar="SECONDS", help="how long to wait for a connection or a reply")
    common.add_argument("--insecure", action="store_true", help="send the token over http:// to another machine too")
    common.add_argument("--config", metavar="FILE", help="the configuration file")
    common.add_argument("--json", action="store_true", help="write JSON, for scripts")
    return common
