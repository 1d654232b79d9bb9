"""A user of the built `st_served` is dropped while its requests are under way: once a connection was told 401, it is told nothing else."""
from __future__ import annotations

import contextlib
import http.client
import json
import pathlib
import socket
from collections.abc import Iterator

import pytest

from served import digest, served, token

PAIRS = 6


def asked(user: str) -> bytes:
    """Changes of a user that are refused, each with a read behind it."""
    head = f"Host: a\r\nAuthorization: Bearer {token(user)}\r\n"
    body = json.dumps({"id": "r", "label": ""}).encode()
    change = f"POST /tables/none/delete HTTP/1.1\r\n{head}Content-Length: {len(body)}\r\n\r\n".encode() + body
    read = f"GET /whoami HTTP/1.1\r\n{head}\r\n".encode()
    return (change + read) * PAIRS


def statuses(client: socket.socket) -> Iterator[int]:
    """The statuses of the replies to what was asked."""
    replies = client.makefile("rb")
    for _ in range(2 * PAIRS):
        yield int(replies.readline().split()[1])
        fields = http.client.parse_headers(replies)
        replies.read(int(fields["Content-Length"]))


def is_told_one_story(told: list[int]) -> bool:
    """Nothing but 401 comes after a 401."""
    return 401 not in told or set(told[told.index(401):]) == {401}


@pytest.mark.parametrize(("words", "rounds"), [([], 1500), (["--store"], 300)])
def test_after_a_401_a_connection_is_told_401_alone(words: list[str], rounds: int, tmp_path: pathlib.Path) -> None:
    store = [str(tmp_path / "store")] if words else []
    with served("--workers", "4", *words, *store) as port:
        root = http.client.HTTPConnection("127.0.0.1", port, timeout=20)
        field = {"Authorization": f"Bearer {token('root')}"}
        seen = 0
        for number in range(rounds):
            user = f"u{number}"
            root.request("POST", "/users", json.dumps({"user": user, "digest": digest(user), "auths": []}), field)
            assert root.getresponse().read() == b'{"ok":true}'
            with contextlib.closing(socket.create_connection(("127.0.0.1", port), timeout=20)) as client:
                client.sendall(asked(user))
                root.request("DELETE", f"/users/{user}", None, field)
                told = list(statuses(client))
            assert root.getresponse().read() == b'{"ok":true}'
            assert is_told_one_story(told), told
            seen += 401 in told
        assert seen > 0
