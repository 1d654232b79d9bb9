"""`fashkiin features`."""

from __future__ import annotations

import argparse
import contextlib
import os
import signal
import socket
import stat
import sys
from collections.abc import Callable, Iterator
from pathlib import Path

from fashkiin.client import Client
from fashkiin.commands import DONE, Command, Session
from fashkiin.errors import SettingsError
from fashkiin.settings import Settings
from fashkiin.tokens import Token
from fashkiin.wire import Address

HOST = "127.0.0.1"
PORT = 8082
THREADS = 32
CONNECTIONS = 1_000
# A connection may need a second file, for an answer of more than a megabyte.
FILES = 2 * CONNECTIONS + 64
SILENT_SECONDS = 20
LARGEST_HEAD = 16_384
# Nobody has a reason to send a body.
LARGEST_BODY = 1_024


def connector(settings: Settings) -> Callable[[Token], Client]:
    """Makes clients of callers' tokens by the settings, whose own token is not read."""
    cafile = None if settings.ca_file is None else str(settings.ca_file)
    return lambda token: Client(settings.url, token, timeout=settings.timeout, cafile=cafile)


def _arguments(parser: argparse.ArgumentParser) -> None:
    place = parser.add_mutually_exclusive_group()
    place.add_argument("--port", type=int, default=PORT, help=f"the port, on loopback (default {PORT})")
    place.add_argument(
        "--socket", metavar="PATH", help="a Unix socket in place of a port, which its owner and its group may connect to"
    )
    parser.add_argument(
        "--base-url", metavar="URL", help="the URL that callers reach it at, where a proxy stands before it; links begin with it"
    )


def _run(session: Session, arguments: argparse.Namespace) -> int:
    import logging

    from fashkiin.features import Features

    try:
        import waitress
    except ImportError:
        raise SettingsError("features: waitress is missing, wanted: apt install python3-waitress") from None
    session.settings.check()
    if arguments.socket is not None and arguments.base_url is None:
        raise SettingsError("--socket: links need a URL, wanted --base-url too")
    given = None if arguments.base_url is None else Address.parse(arguments.base_url)
    # A request that waits for a thread is no fault, and standard error is for faults.
    logging.getLogger("waitress.queue").setLevel(logging.ERROR)
    signal.signal(signal.SIGTERM, lambda *_: sys.exit(DONE))
    with _listening(arguments) as (listener, address):
        server = waitress.create_server(
            Features(connector(session.settings), arguments.base_url or address),
            sockets=[listener],
            url_prefix="" if given is None else given.prefix,
            threads=THREADS,
            connection_limit=_most_connections(),
            channel_timeout=SILENT_SECONDS,
            cleanup_interval=SILENT_SECONDS // 4,
            # select() takes no file beyond 1,023.
            asyncore_use_poll=True,
            max_request_header_size=LARGEST_HEAD,
            max_request_body_size=LARGEST_BODY,
            log_socket_errors=False,
            ident=None,
        )
        print(f"listening at {address}/" if arguments.socket is None else f"listening at {address}", flush=True)
        server.run()
    return DONE


def _most_connections() -> int:
    """How many connections may be open at a time: `CONNECTIONS`, or what the limit of the process's files has room for."""
    import resource

    soft, hard = resource.getrlimit(resource.RLIMIT_NOFILE)
    wanted = FILES if hard == resource.RLIM_INFINITY else min(FILES, hard)
    if soft != resource.RLIM_INFINITY and soft < wanted:
        with contextlib.suppress(OSError):
            resource.setrlimit(resource.RLIMIT_NOFILE, (wanted, hard))
            soft = wanted
    return CONNECTIONS if soft == resource.RLIM_INFINITY else max(min(CONNECTIONS, (soft - 64) // 2), 16)


@contextlib.contextmanager
def _listening(arguments: argparse.Namespace) -> Iterator[tuple[socket.socket, str]]:
    """A listening socket, and its URL or path. A Unix socket is removed behind it."""
    if arguments.socket is None:
        if not 0 <= arguments.port <= 65_535:
            raise SettingsError(f"--port: {arguments.port}, wanted 0 to 65535")
        try:
            listener = socket.create_server((HOST, arguments.port))
        except OSError as error:
            raise SettingsError(f"--port: {arguments.port}: {error.strerror}, wanted a free port") from None
        with listener:
            # Its connections have it too: waitress ends none whose client reads nothing. Linux alone has such a limit.
            if hasattr(socket, "TCP_USER_TIMEOUT"):
                listener.setsockopt(socket.IPPROTO_TCP, socket.TCP_USER_TIMEOUT, 1_000 * SILENT_SECONDS)
            yield listener, f"http://{HOST}:{listener.getsockname()[1]}"
        return
    path = Path(arguments.socket)
    with socket.socket(socket.AF_UNIX, socket.SOCK_STREAM) as listener:
        _bind(listener, path)
        try:
            yield listener, str(path)
        finally:
            path.unlink(missing_ok=True)


def _bind(listener: socket.socket, path: Path) -> None:
    """Binds a Unix socket that its owner and its group may connect to, in the place of one that nobody listens at.
    `SettingsError` where others could put one of theirs there."""
    try:
        if path.resolve().parent.stat().st_mode & stat.S_IWOTH:
            raise SettingsError(f"--socket: others may write in {path.parent}, wanted a directory that they may not")
        if path.is_socket() and not _is_listening(path):
            path.unlink()
        before = os.umask(0o117)
        try:
            listener.bind(str(path))
        finally:
            os.umask(before)
        listener.listen()
    except OSError as error:
        raise SettingsError(f"--socket: {path}: {error.strerror or error}, wanted a path that is free") from None


def _is_listening(path: Path) -> bool:
    """Whether a process listens at a Unix socket."""
    with socket.socket(socket.AF_UNIX, socket.SOCK_STREAM) as probe:
        try:
            probe.connect(str(path))
        except ConnectionRefusedError:
            return False
    return True


COMMAND = Command("features", "serve the tables as an OGC API to QGIS, GDAL, browsers and others", _arguments, _run)
