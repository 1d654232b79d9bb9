"""Requests that are on their way together over one connection, and their answers in their order."""

from __future__ import annotations

from collections import deque
from collections.abc import Callable, Iterable, Iterator, Mapping, Sequence
from dataclasses import dataclass
from itertools import islice
from typing import TYPE_CHECKING, Any, TypeVar

from fashkiin.errors import FashkiinError, RefusalError, RowError
from fashkiin.wire import Connection, Reply

if TYPE_CHECKING:
    from fashkiin.client import Client

Item = TypeVar("Item")
Answer = Mapping[str, Any] | RefusalError
"""The object that answers a request, or the refusal of it."""

Told = Answer | RowError
"""An answer; or why there was no request."""

STORED: Mapping[str, Any] = {"ok": True}
NONE_SEEN: Mapping[str, Any] = {"rows": []}
_OFTEN: Mapping[bytes, Mapping[str, Any]] = {b'{"ok":true}': STORED, b'{"rows":[]}': NONE_SEEN}
"""The objects of bodies that need no reading."""


@dataclass(frozen=True, slots=True)
class Part:
    """Requests that are sent together. `tell` is given their answers in their order, as many at a time as have come; that of a
    part without requests is given none, once its turn has come."""

    requests: Sequence[bytes]
    tell: Callable[[Sequence[Answer]], None]


def pieces(items: Iterable[Item], size: int) -> Iterator[list[Item]]:
    """The items by so many at a time. An error is raised behind the items before it."""
    source = iter(items)
    while True:
        piece: list[Item] = []
        try:
            for item in islice(source, size):
                piece.append(item)
        except Exception:
            if piece:
                yield piece
            raise
        if piece:
            yield piece
        if len(piece) < size:
            return


def asking(items: Sequence[Item], request: Callable[[Item], bytes], tell: Callable[[tuple[Item, Told]], None]) -> Part:
    """The part of some items. `tell` is given each item and its answer, or the `RowError` that `request` raised of it."""
    requests: list[bytes] = []
    waiting: deque[tuple[Item, RowError | None]] = deque()
    for item in items:
        try:
            requests.append(request(item))
            waiting.append((item, None))
        except RowError as error:
            waiting.append((item, error))

    def told(answers: Sequence[Answer]) -> None:
        fresh = iter(answers)
        while waiting:
            item, error = waiting[0]
            if error is not None:
                tell((item, error))
            elif (answer := next(fresh, None)) is not None:
                tell((item, answer))
            else:
                return
            waiting.popleft()

    return Part(requests, told)


class Pipeline:
    """Parts on their way over one connection, up to `ahead` of them at a time. `error` is what their iterator raised; it is for
    whoever runs the pipeline to raise, once all parts before it are told."""

    def __init__(self, client: Client, parts: Iterator[Part], ahead: int) -> None:
        self.error: Exception | None = None
        self._client = client
        self._parts = parts
        self._ahead = ahead
        self._more = True
        self._waiting: deque[Part] = deque()
        self._told = 0
        """How many requests of the first part that waits have been told."""

    def unfinished(self) -> bool:
        """Whether a part is still to be told."""
        return self._more or bool(self._waiting)

    def run(self) -> Iterator[None]:
        """Sends parts over a connection until it ends or no part is left, and steps whenever answers have been told.

        It may be run again, also behind an error: then the requests without an answer are sent again first.
        """
        connection = self._client._take()
        stays = False
        try:
            waiting = [request for part in self._waiting for request in part.requests]
            connection.send(b"".join(waiting[self._told :]))
            stays = True
            while stays and self.unfinished():
                if self._more and len(self._waiting) <= self._ahead // 2:
                    connection.send(self._fill())
                answers, stays, error = self._answers(connection)
                self._tell(answers)
                if answers or error is None:
                    yield
                if error is not None:
                    raise error
        except BaseException:
            stays = False
            raise
        finally:
            self._client._give(connection, stays)

    def _fill(self) -> bytes:
        """Takes parts until there are as many as may be on their way, and returns their requests."""
        requests: list[bytes] = []
        while self._more and len(self._waiting) < self._ahead:
            try:
                part = next(self._parts, None)
            except Exception as error:
                part, self.error = None, error
            self._more = part is not None
            if part is not None:
                self._waiting.append(part)
                requests += part.requests
        return b"".join(requests)

    def _answers(self, connection: Connection) -> tuple[list[Answer], bool, FashkiinError | None]:
        """Waits for the next answer, and returns it with those that have come with it, whether the connection stays, and the
        error that ended them."""
        left = sum(len(part.requests) for part in self._waiting) - self._told
        answers: list[Answer] = []
        stays = True
        connection.gather(left // 2)
        try:
            while stays and len(answers) < left:
                reply, times = connection.alike(left - len(answers), wait=not answers)
                if reply is None:
                    break
                stays = reply.keeps
                answers += [_answer(reply)] * times
        except FashkiinError as error:
            return answers, False, error
        return answers, stays, None

    def _tell(self, answers: Sequence[Answer]) -> None:
        """Tells the parts their answers."""
        at = 0
        while self._waiting:
            part = self._waiting[0]
            piece = answers[at : at + len(part.requests) - self._told]
            if part.requests and not piece:
                return
            at += len(piece)
            self._told += len(piece)
            if self._told == len(part.requests):
                self._waiting.popleft()
                self._told = 0
            part.tell(piece)


def _answer(reply: Reply) -> Answer:
    """The object of a reply, or the refusal that it is."""
    if reply.status == 200 and reply.body in _OFTEN:
        return _OFTEN[reply.body]
    try:
        return reply.value()
    except RefusalError as error:
        return error
