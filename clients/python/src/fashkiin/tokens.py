"""Tokens: `USER.SECRET`, and the files that keep them."""

from __future__ import annotations

import os
import re
import stat
from dataclasses import dataclass, field
from pathlib import Path

from fashkiin.errors import SettingsError

_FORM = re.compile(r"([A-Za-z0-9_]{1,32})\.([0-9a-fA-F]{64})\Z")
_WANTED = "a user's name, a dot and 64 hexadecimal digits"


@dataclass(frozen=True, slots=True)
class Token:
    """A user and its secret of 32 bytes. The secret is in no `repr`."""

    user: str
    secret: bytes = field(repr=False)

    @classmethod
    def new(cls, user: str) -> Token:
        """A token of a new secret; `SettingsError` where the user's name is invalid."""
        import secrets

        return cls.parse(f"{user}.{secrets.token_hex(32)}")

    @classmethod
    def parse(cls, text: str) -> Token:
        """The token that a text is; `SettingsError` for another text, which it does not show."""
        match = _FORM.match(text.strip())
        if match is None:
            raise SettingsError(f"this is no token, wanted {_WANTED}")
        return cls(match[1], bytes.fromhex(match[2]))

    @property
    def text(self) -> str:
        """`USER.SECRET`, as it goes into the `Authorization` field."""
        return f"{self.user}.{self.secret.hex()}"

    @property
    def digest(self) -> str:
        """The SHA-256 of the secret, which is all that the server keeps."""
        import hashlib

        return hashlib.sha256(self.secret).hexdigest()


def read_token(path: Path) -> Token:
    """The token of a file; `SettingsError` where it cannot be read, holds no token, or others may read it."""
    try:
        with path.open("rb") as file:
            mode = stat.S_IMODE(os.fstat(file.fileno()).st_mode)
            if mode & 0o077:
                raise SettingsError(f"{path}: others may read this token file (mode {mode:04o}), wanted: chmod 600 {path}")
            data = file.read(200)
    except OSError as error:
        raise SettingsError(f"{path}: {error.strerror}, wanted a token file") from None
    try:
        return Token.parse(data.decode())
    except (SettingsError, UnicodeDecodeError):
        raise SettingsError(f"{path}: line 1: no token, wanted {_WANTED}") from None


def write_token(path: Path, token: Token) -> None:
    """Writes a new token file that its owner alone may read; `SettingsError` where there is one already."""
    try:
        descriptor = os.open(path, os.O_WRONLY | os.O_CREAT | os.O_EXCL, 0o600)
    except FileExistsError:
        raise SettingsError(f"{path}: there is a file already, which is left as it is") from None
    except OSError as error:
        raise SettingsError(f"{path}: {error.strerror}, wanted a place for a token file") from None
    with os.fdopen(descriptor, "w") as file:
        file.write(token.text + "\n")
        file.flush()
        os.fsync(descriptor)
