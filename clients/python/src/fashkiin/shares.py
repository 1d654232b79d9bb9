"""Work on a file that several processes share, told in the order in which one process would tell it."""

from __future__ import annotations

import itertools
import os
import signal
from collections.abc import Callable, Generator, Iterable, Iterator, Sequence
from contextlib import contextmanager, suppress
from typing import TYPE_CHECKING, NamedTuple, TypeVar

from fashkiin.errors import FashkiinError

if TYPE_CHECKING:
    from multiprocessing.connection import Connection

RUN = 8
"""How many batches in a row are of one share."""

MOST = 3
"""The most processes that share a file."""

Item = TypeVar("Item")


class ShareError(Exception):
    """A file cannot be cut into shares as it seemed that it could."""


class Share(NamedTuple):
    """One of several equal shares of a file's batches. Where it `is_cut`, its process need not parse what is of the others: it
    raises `ShareError` in its own batches where they are not what the others take them for."""

    turn: int
    turns: int
    is_cut: bool = False

    def has(self, batch: int) -> bool:
        """Whether a batch is of this share. They are counted from 0."""
        return batch // RUN % self.turns == self.turn

    def of(self, batches: Iterable[Item]) -> Iterator[Item]:
        """The batches of this share, of all of them."""
        return (batch for at, batch in enumerate(batches) if self.has(at))


WHOLE = Share(0, 1)
"""All batches of a file."""


def shares_of(turns: int, is_cut: bool) -> list[Share]:
    """So many shares of a file."""
    return [Share(turn, turns, is_cut) for turn in range(turns)]


def helpers() -> int:
    """How many processes may share a file, beside this one: none on a single processor, or a system that is not Linux."""
    return min(MOST, len(os.sched_getaffinity(0)) - 1) if hasattr(os, "sched_getaffinity") else 0


def shared(
    work: Callable[[Share], Iterator[Item]], shares: Sequence[Share], begin: Callable[[], object]
) -> Generator[Item, None, None]:
    """What `work` yields of all batches in their order. Each share is made by a process of its own, which calls `begin` first.

    `work` yields an item for each batch of a share, and may yield one more behind them. Its error is raised behind what comes
    before it.
    """
    run: list[Item]
    with _processes(work, shares, begin) as pipes:
        for pipe in itertools.cycle(pipes):
            run, error, is_last = _received(pipe)
            yield from run
            if error is not None:
                raise error
            if is_last:
                return


def _received(pipe: Connection) -> tuple[list[Item], Exception | None, bool]:
    """The next run of a share, what ended it, and whether none follows."""
    try:
        told: tuple[list[Item], Exception | None, bool] = pipe.recv()
    except (EOFError, OSError):
        raise FashkiinError("a process that reads the file was ended, wanted the same command again") from None
    return told


@contextmanager
def _processes(
    work: Callable[[Share], Iterator[Item]], shares: Sequence[Share], begin: Callable[[], object]
) -> Iterator[Sequence[Connection]]:
    """The pipes of processes that tell of their shares. They end with the context, and also where this process is killed: then
    nobody reads their pipes."""
    from multiprocessing import get_context

    context = get_context("fork")
    pipes: list[Connection] = []
    processes = []
    try:
        for share in shares:
            pipe, end = context.Pipe(duplex=False)
            pipes.append(pipe)
            process = context.Process(target=_tell, args=(work, share, end, pipes, begin), daemon=True)
            process.start()
            processes.append(process)
            end.close()
        yield pipes
    finally:
        for process in processes:
            process.kill()
            process.join()
        for pipe in pipes:
            pipe.close()


def _tell(
    work: Callable[[Share], Iterator[Item]],
    share: Share,
    end: Connection,
    pipes: Sequence[Connection],
    begin: Callable[[], object],
) -> None:
    """Tells of a share run by run, in a process of its own."""
    signal.signal(signal.SIGINT, signal.SIG_IGN)
    for pipe in pipes:
        pipe.close()
    begin()
    run: list[Item] = []
    error: Exception | None = None
    try:
        for item in work(share):
            run.append(item)
            if len(run) == RUN:
                end.send((run, None, False))
                run = []
    except Exception as found:
        error = found
    with suppress(OSError):
        end.send((run, error, True))
