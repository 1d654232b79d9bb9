"""`fashkiin whoami`."""

from __future__ import annotations

import argparse
from dataclasses import asdict

from fashkiin.accounts import Account
from fashkiin.commands import DONE, Command, Session
from fashkiin.texts import names, printable


def account_text(account: Account) -> str:
    """An account in lines."""
    return f"{printable(account.user)}\nauthorizations: {names(account.auths)}\npermissions: {' '.join(account.permissions)}"


def _arguments(parser: argparse.ArgumentParser) -> None:
    pass


def _run(session: Session, arguments: argparse.Namespace) -> int:
    with session.client() as client:
        account = client.whoami()
    session.show(asdict(account), account_text(account))
    return DONE


COMMAND = Command("whoami", "show who you are to the server", _arguments, _run)
