"""`fashkiin map`: the map page, over a server of this machine alone that passes the page's requests on."""

from __future__ import annotations

import argparse
from pathlib import Path

from fashkiin.commands import DONE, Command, Session
from fashkiin.errors import SettingsError

PORT = 8083


def _arguments(parser: argparse.ArgumentParser) -> None:
    parser.add_argument(
        "--port", type=int, default=PORT, metavar="PORT", help=f"of this machine, {PORT} if left out; 0 takes a free one"
    )
    parser.add_argument("--page", metavar="FOLDER", help="the page's files")
    parser.add_argument("--no-browser", action="store_true", help="open no browser")


def _run(session: Session, arguments: argparse.Namespace) -> int:
    import webbrowser

    from fashkiin.map_server import PAGES, MapServer

    pages = PAGES if arguments.page is None else (Path(arguments.page),)
    page = next((folder for folder in pages if (folder / "index.html").is_file()), None)
    if page is None:
        raise SettingsError(f"--page: no index.html in {' or '.join(map(str, pages))}, wanted the folder of the map page")
    if not 0 <= arguments.port <= 65_535:
        raise SettingsError(f"--port: {arguments.port}, wanted 0 to 65535")
    session.settings.check()
    with MapServer(session.settings, page, arguments.port) as server:
        session.show({"url": server.url}, server.url)
        if not arguments.no_browser:
            webbrowser.open(server.url)
        server.serve_forever()
    return DONE


COMMAND = Command("map", "open the map page over this server", _arguments, _run)
