"""Requests on their way together: each answer reaches its own request, whatever pieces the answers come in."""

from __future__ import annotations

import io
import json
import pytest
import random
import time
from collections.abc import Iterator
from datetime import UTC, datetime
from functools import partial
from served import token
from typing import Any

from fashkiin import Client, CutOffError, RefusalError, Row
from fashkiin.formats import FORMATS, Names, Source
from fashkiin.loading import Loader
from scripted import OK, Talk, reply, scripted

WHOAMI = {"auths": ["A"], "permissions": [], "user": "ann"}


def client(url: str) -> Client:
    return Client(url, token("ann"), timeout=5)


def row(number: int) -> Row:
    return Row(f"r{number}", 1.0, 2.0, datetime(2024, 1, 1, tzinfo=UTC), "A")


@pytest.mark.parametrize("window", [1, 2, 7, 64, 256])
def test_answers_come_in_order_in_any_pieces(window: int) -> None:
    chance = random.Random(window)
    answers = [chance.choice([OK, OK, OK, reply(200, {"count": at}), reply(403, {"error": "quota"})]) for at in range(500)]

    def pieces(talk: Talk) -> None:
        ready = b""
        for at, answer in enumerate(answers, 1):
            talk.request()
            ready += answer
            whole = at % max(1, window // 2) == 0 or at == len(answers)
            size = len(ready) if whole else chance.randrange(len(ready) + 1)
            talk.send(ready[:size])
            ready = ready[size:]

    with scripted([pieces]) as url, client(url) as server:
        request = server.request("POST", "/label", b"{}")
        told = list(server.ask_many(range(len(answers)), lambda _: request, window))
    assert [item for item, _ in told] == list(range(len(answers)))
    wanted = [403 if b"quota" in it else json.loads(it.partition(b"\r\n\r\n")[2]) for it in answers]
    assert [answer.status if isinstance(answer, RefusalError) else answer for _, answer in told] == wanted


def test_a_server_that_takes_its_time_is_waited_for() -> None:
    """Replies that come late one by one are taken one by one."""

    def slow(talk: Talk) -> None:
        for at in range(40):
            talk.request()
            time.sleep(0.02 if at % 8 == 0 else 0)
            talk.send(reply(200, {"count": at}))

    with scripted([slow]) as url, client(url) as server:
        request = server.request("POST", "/label", b"{}")
        told = list(server.ask_many(range(40), lambda _: request, 16))
    assert told == [(at, {"count": at}) for at in range(40)]


def test_an_error_of_the_rows_is_raised_behind_the_answers_of_those_before() -> None:
    """It may be that of another connection, as where rows are copied from one server to another."""

    def rows() -> Iterator[Row]:
        yield from map(row, range(10))
        raise CutOffError("the other connection ended")

    stored = []

    def store(talk: Talk) -> None:
        while (asked := talk.request()) is not None:
            stored.append(asked[1]["id"])
            talk.send(OK)

    with scripted([store, store]) as url, client(url) as server:
        told = server.table("t").put_many(rows(), window=6)
        assert [next(told).row.id for _ in range(10)] == stored == [f"r{at}" for at in range(10)]
        with pytest.raises(CutOffError, match="the other connection ended"):
            next(told)


def test_a_load_counts_each_row_once_over_connections_that_are_cut_at_random_bytes() -> None:
    stored: dict[str, Any] = {"r7": None}
    chance = random.Random(20240501)

    def answer(asked: tuple[bytes, Any]) -> bytes:
        line, body = asked
        if line.startswith(b"GET"):
            return reply(200, WHOAMI)
        if b"/get " in line:
            return reply(200, {"rows": [{"label": "A"}] if body["id"] in stored else []})
        stored[body["id"]] = body["point"]
        return OK

    def cutting(talk: Talk) -> None:
        for _ in range(chance.randrange(20, 300)):
            asked = talk.request()
            if asked is None:
                return
            talk.send(answer(asked))
        asked = talk.request()
        if asked is not None:
            whole = answer(asked)
            talk.send(whole[: chance.randrange(len(whole))])

    def whole(talk: Talk) -> None:
        while (asked := talk.request()) is not None:
            talk.send(answer(asked))

    text = "id,lon,lat,time,label\n" + "".join(f"r{at},1,2,2024-01-01,A\n" for at in range(500))
    stream = io.BufferedReader(io.BytesIO(text.encode()))  # type: ignore[arg-type]
    with scripted([whole, *[cutting] * 4, whole]) as url, client(url) as server:
        loader = Loader(server, "t")
        loader.load(Source("f", stream), FORMATS["csv"], Names())
    tally = loader.tally
    assert (tally.read, tally.rejected, tally.unread, len(stored)) == (500, 0, 0, 500)
    assert 1 <= tally.replaced < 500


def test_a_load_asks_a_table_that_it_made_for_ids_alone_that_came_before() -> None:
    stored: set[str] = set()
    early: list[str] = []

    def answer(talk: Talk) -> None:
        while (asked := talk.request()) is not None:
            line, body = asked
            if line.startswith(b"GET"):
                talk.send(reply(200, WHOAMI))
            elif b"/get " in line:
                early.extend([body["id"]] if body["id"] not in stored else [])
                talk.send(reply(200, {"rows": [{"label": "A"}] if body["id"] in stored else []}))
            else:
                stored.add(body["id"])
                talk.send(OK)

    text = "id,lon,lat,time,label\n" + "".join(f"r{at % 300},1,2,2024-01-01,A\n" for at in range(301))
    for made, unseen in ((True, 0), (False, 300)):
        stored.clear()
        early.clear()
        stream = io.BufferedReader(io.BytesIO(text.encode()))  # type: ignore[arg-type]
        with scripted([answer]) as url, client(url) as server:
            loader = Loader(server, "t", begin=partial(bool, made))
            loader.load(Source("f", stream), FORMATS["csv"], Names())
        assert (loader.tally.stored, loader.tally.replaced, len(early)) == (300, 1, unseen)
