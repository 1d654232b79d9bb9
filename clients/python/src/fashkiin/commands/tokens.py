"""`fashkiin token new` and `token rotate`."""

from __future__ import annotations

import argparse
import os
from pathlib import Path

from fashkiin.commands import DONE, Command, Session, common_options
from fashkiin.errors import CutOffError, SettingsError, TokenError
from fashkiin.tokens import Token, write_token


def _arguments(parser: argparse.ArgumentParser) -> None:
    parsers = parser.add_subparsers(metavar="ACTION", required=True)
    new = parsers.add_parser("new", parents=[common_options()], help="make a token file, and show the digest that makes its user")
    new.add_argument("user", metavar="USER")
    new.add_argument("file", metavar="FILE", help="a file that is not there yet")
    new.set_defaults(action=_new)
    rotate = parsers.add_parser("rotate", parents=[common_options()], help="put a new token in the place of your own")
    rotate.set_defaults(action=_rotate)


def _run(session: Session, arguments: argparse.Namespace) -> int:
    arguments.action(session, arguments)
    return DONE


def _new(session: Session, arguments: argparse.Namespace) -> None:
    token = Token.new(arguments.user)
    write_token(Path(arguments.file), token)
    session.show({"user": token.user, "digest": token.digest, "file": arguments.file}, token.digest)


def _rotate(session: Session, arguments: argparse.Namespace) -> None:
    """The new token is in a file of its own before the server knows it, so that no fault between loses it."""
    file = session.settings.token_file
    part = file.with_name(file.name + ".new")
    with session.client() as client:
        token = Token.new(client.token.user)
        write_token(part, token)
        try:
            client.users.rotate(token)
        except CutOffError:
            client.token = token
            try:
                client.whoami()
            except TokenError:
                part.unlink()
                raise SettingsError("the token was not changed: the connection ended before") from None
        except BaseException:
            part.unlink()
            raise
    os.replace(part, file)
    session.say(f"{file}: the new token of {token.user}")


COMMAND = Command("token", "make a token, or put a new one in the place of your own", _arguments, _run)
