"""Settings: flags before environment variables before the configuration file before what stands here.

| Flag | Variable | Key of the file | Otherwise |
|---|---|---|---|
| `--url` | `FASHKIIN_URL` | `url` | `http://127.0.0.1` |
| `--token-file` | `FASHKIIN_TOKEN_FILE` | `token-file` | `token` beside the configuration file |
| `--ca-file` | `FASHKIIN_CA_FILE` | `ca-file` | the system's certificates |
| `--timeout` | `FASHKIIN_TIMEOUT` | `timeout` | 30 seconds |
| `--insecure` | `FASHKIIN_INSECURE` | `insecure` | false |

The file is TOML: `--config`, `FASHKIIN_CONFIG`, or `fashkiin/config.toml` in `XDG_CONFIG_HOME` or `~/.config`.
"""

from __future__ import annotations

import math
from collections.abc import Mapping
from dataclasses import dataclass
from pathlib import Path
from typing import Any

from fashkiin.client import Client
from fashkiin.errors import SettingsError
from fashkiin.tokens import read_token
from fashkiin.wire import Address

URL = "http://127.0.0.1"
TIMEOUT = 30.0
NAMES = ("url", "token-file", "ca-file", "timeout", "insecure")
KINDS: Mapping[str, tuple[Any, str]] = {"timeout": ((int, float), "a number"), "insecure": (bool, "true or false")}
"""The types of the file's values that are no texts, and what they are called."""


@dataclass(frozen=True, slots=True)
class Settings:
    """Where the server is, and where the token of the user that asks."""

    url: str
    token_file: Path
    ca_file: Path | None
    timeout: float
    insecure: bool = False

    def check(self) -> None:
        """`SettingsError` where a token would go over a network in the clear, and `insecure` does not allow it."""
        address = Address.parse(self.url)
        if not (address.secure or self.insecure or is_loopback(address.host)):
            raise SettingsError(
                f"{self.url}: the token would go over a network in the clear, wanted https://, or --insecure where that is safe"
            )

    def client(self) -> Client:
        """A client by these settings; `SettingsError` where the token file is of no use, or the token may not be sent there."""
        self.check()
        cafile = None if self.ca_file is None else str(self.ca_file)
        try:
            return Client(self.url, read_token(self.token_file), timeout=self.timeout, cafile=cafile)
        except OSError as error:
            raise SettingsError(f"{cafile}: {error.strerror or error}, wanted a file of certificates") from None


def read_settings(flags: Mapping[str, str | bool | None], environment: Mapping[str, str]) -> Settings:
    """The settings by the flags that were given, under the names of the file; `SettingsError` for one of no use."""
    named = flags.get("config") or environment.get("FASHKIIN_CONFIG")
    home = Path(environment.get("XDG_CONFIG_HOME") or "~/.config").expanduser()
    config = Path(str(named)).expanduser() if named else home / "fashkiin" / "config.toml"
    values: dict[str, Any] = _read_file(config, required=bool(named))
    for name in NAMES:
        variable = "FASHKIIN_" + name.upper().replace("-", "_")
        given = flags.get(name) or environment.get(variable)
        if given:
            values[name] = given
    ca_file = values.get("ca-file")
    return Settings(
        url=values.get("url", URL),
        token_file=Path(values.get("token-file", config.parent / "token")).expanduser(),
        ca_file=None if ca_file is None else Path(ca_file).expanduser(),
        timeout=_seconds(values.get("timeout", TIMEOUT)),
        insecure=_truth(values.get("insecure", False)),
    )


def is_loopback(host: str) -> bool:
    """Whether a host is this machine itself: `localhost`, or an address of the loopback interface."""
    from ipaddress import ip_address

    try:
        return host == "localhost" or ip_address(host).is_loopback
    except ValueError:
        return False


def _read_file(path: Path, required: bool) -> dict[str, Any]:
    import tomllib

    try:
        values = tomllib.loads(path.read_text(encoding="utf-8"))
    except FileNotFoundError:
        if required:
            raise SettingsError(f"{path}: there is no such configuration file") from None
        return {}
    except OSError as error:
        raise SettingsError(f"{path}: {error.strerror}, wanted a configuration file") from None
    except (tomllib.TOMLDecodeError, UnicodeDecodeError) as error:
        raise SettingsError(f"{path}: {error}, wanted TOML") from None
    for name, value in values.items():
        if name not in NAMES:
            raise SettingsError(f"{path}: {name}: unknown, wanted one of {', '.join(NAMES)}")
        kind, wanted = KINDS.get(name, (str, "a text"))
        if not isinstance(value, kind) or (isinstance(value, bool) and kind is not bool):
            raise SettingsError(f"{path}: {name}: {value!r}, wanted {wanted}")
    return values


def _seconds(value: Any) -> float:
    try:
        seconds = float(value)
    except ValueError:
        seconds = math.nan
    if not 0 < seconds <= 86_400:
        raise SettingsError(f"timeout: {value}, wanted more than 0 and at most 86400 seconds")
    return seconds


def _truth(value: Any) -> bool:
    truth = {"1": True, "true": True, "0": False, "false": False}.get(str(value).lower())
    if truth is None:
        raise SettingsError(f"insecure: {value}, wanted true or false")
    return truth
