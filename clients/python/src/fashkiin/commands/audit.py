"""`fashkiin audit`."""

from __future__ import annotations

import argparse
import json
import time
from collections.abc import Iterator, Mapping, Sequence
from contextlib import closing
from dataclasses import asdict
from datetime import UTC, datetime
from pathlib import Path
from typing import Any

from fashkiin.accounts import Change
from fashkiin.commands import DONE, Command, Session
from fashkiin.errors import REFUSALS, SettingsError, shown
from fashkiin.rows import to_json
from fashkiin.texts import names, printable

OF_ROWS = ("put", "delete")
"""The changes of rows; all others are administrative."""

MEANINGS = tuple(kind.meaning for kind in REFUSALS.values())
"""What the numbers of refusals stand for, from 1 on."""


def _arguments(parser: argparse.ArgumentParser) -> None:
    parser.add_argument("--admin", action="store_true", help="administrative changes alone: no rows put and deleted")
    store = "all changes of a store's file that no server has open, such as the copy that follows one; it is only read"
    parser.add_argument("--store", metavar="FILE", type=Path, help=store)
    parser.add_argument("--follow", "-f", action="store_true", help="go on with the changes that come")
    parser.add_argument("--interval", type=float, default=2.0, metavar="SECONDS", help="between two questions, 2 if left out")


def _run(session: Session, arguments: argparse.Namespace) -> int:
    if arguments.interval <= 0:
        raise SettingsError(f"--interval: {arguments.interval:g}, wanted more than 0 seconds")
    if arguments.store is not None:
        _audit_store(session, arguments)
    else:
        _audit_server(session, arguments)
    return DONE


def _audit_server(session: Session, arguments: argparse.Namespace) -> None:
    with session.client() as client:
        before = client.audit()
        _show(session, arguments, before)
        while arguments.follow:
            client.close()
            time.sleep(arguments.interval)
            after = client.audit()
            new = news(before, after)
            if before and len(new) == len(after):
                session.say("fashkiin: changes may be missing here: more than the server keeps came in between, or it began anew")
            _show(session, arguments, new)
            before = after


def _show(session: Session, arguments: argparse.Namespace, changes: Sequence[Change]) -> None:
    for change in changes:
        if not (arguments.admin and change.request in OF_ROWS):
            known = 0 < change.result <= len(MEANINGS)
            meaning = f"refused: {MEANINGS[change.result - 1] if known else change.result}" if change.result else "done"
            words = (change.user, change.request, change.target, meaning)
            session.show(asdict(change) | {"meaning": meaning}, "\t".join(map(printable, words)))


def news(before: Sequence[Change], after: Sequence[Change]) -> Sequence[Change]:
    """The changes of a listing that an earlier one has not: those behind the longest end of the earlier one with which the later
    one begins. All of them, where they have nothing in common."""
    for size in range(min(len(before), len(after)), 0, -1):
        if before[len(before) - size :] == after[:size]:
            return after[size:]
    return after


def _audit_store(session: Session, arguments: argparse.Namespace) -> None:
    last = 0
    while True:
        for last, change in _kept(arguments.store, last):
            if not (arguments.admin and change["request"] in OF_ROWS):
                session.show(change, _line(change))
        if not arguments.follow:
            return
        time.sleep(arguments.interval)


def _kept(file: Path, last: int) -> Iterator[tuple[int, dict[str, Any]]]:
    """The changes of a store's file behind a number. `SettingsError` where it cannot be read, or is none."""
    import sqlite3

    query = "SELECT number, time, user, request, name, body, result FROM changes WHERE number > ? ORDER BY number"
    try:
        if not file.is_file():
            raise SettingsError(f"{file}: there is no such file, wanted a store or its copy")
        with closing(sqlite3.connect(f"{file.absolute().as_uri()}?mode=ro", uri=True, timeout=10)) as base:
            for number, at, user, request, name, body, result in base.execute(query, (last,)):
                when = datetime.fromtimestamp(at / 1000, UTC).isoformat(timespec="milliseconds").replace("+00:00", "Z")
                what = _what(body)
                # What is made has its name in the body, and all else in the path.
                target = name or what.pop("table", "") or what.pop("user", "")
                told = {"number": number, "time": when, "user": user, "request": request, "target": str(target)}
                yield number, told | {"what": what, "meaning": _meaning(result)}
    except sqlite3.OperationalError as error:
        locked = "locked" in str(error) or "unable to open" in str(error)
        wanted = "a server has it open: wanted the copy that follows it" if locked else "wanted a store or its copy"
        raise SettingsError(f"{file}: {error}, {wanted}") from None
    except (sqlite3.DatabaseError, ValueError, TypeError) as error:
        raise SettingsError(f"{file}: {error}, wanted a store or its copy") from None


def _what(body: str | bytes) -> dict[str, Any]:
    """What a change was about, without what is only stored: a row's note, a user's digest."""
    return {name: value for name, value in _object(body).items() if name not in ("note", "digest")}


def _meaning(result: str | bytes) -> str:
    """What a kept answer says."""
    told = _object(result)
    if "error" not in told:
        return "done"
    meanings = {error: kind.meaning for (_, error), kind in REFUSALS.items()}
    return f"refused: {meanings.get(told['error'], told['error'])}"


def _object(text: str | bytes) -> dict[str, Any]:
    try:
        told = json.loads(text)
    except (ValueError, RecursionError):
        return {}
    return told if isinstance(told, dict) else {}


def _line(change: Mapping[str, Any]) -> str:
    what = " ".join(f"{name} {_value(value)}" for name, value in change["what"].items())
    words = (str(change["number"]), change["time"], change["user"], change["request"], change["target"], what, change["meaning"])
    return "\t".join(map(printable, words))


def _value(value: Any) -> str:
    if isinstance(value, list) and all(isinstance(it, str) for it in value):
        return names(value) or "none"
    return shown(value) if isinstance(value, str) else to_json(value)


COMMAND = Command("audit", "show the last 1,024 changes that were asked for, or all that a store's file has", _arguments, _run)
