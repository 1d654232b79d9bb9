"""Recorded lives of a store in a file: runs of a built program that is sent changes of each kind, by one connection or by several at once.

The answers must be those of a plain store. By one connection it is known what they have to be before they come; by several SQLite tells
from the file in which order the changes were made, and those of each connection must be there in the order in which it sent them.
"""
import bisect
import io
import itertools
import json
import random
import shutil
import socket
import sqlite3
from collections import Counter, deque
from collections.abc import Iterator
from concurrent.futures import ThreadPoolExecutor
from contextlib import ExitStack, suppress
from dataclasses import dataclass, field
from pathlib import Path
from typing import IO

from changes import ALL, FIRST, USERS, Change, change_by, changes_from
from noted import events_in, noted
from plain import QUESTIONS, Answer, Plain, comparable
from stored import PATIENCE, RUN, Ended, Run, ServedRun, answer, asked, request
from torn import Disk, Event, File

NAME = "points.db"
WHO = "/whoami"

Files = dict[str, bytes]


@dataclass(frozen=True)
class Plan:
    """How many changes a life has, the longest note, how many mixes there are of a moment, and which share of the moments is torn: of those
    between two answers where the database was written, as where it is made, and of the others. The program; how many connections change
    its store, and the most changes that each sends at once."""

    changes: int
    longest: int
    many: int = 1
    copying: float = 1.0
    share: float = 1.0
    program: Path = RUN
    connections: int = 1
    at_once: int = 1


@dataclass
class Life:
    """A recorded run: the files before it, its events, the plain store before it and after each change, and after how many changes there
    was a sync. `needs` says of each connection behind how many bytes its answers begin, and how many changes must be there from then on."""

    plan: Plan
    before: Files
    events: list[Event]
    stores: list[Plain]
    kept: list[int]
    needs: dict[str, list[tuple[int, int]]]

    def answered(self, told: Counter[str]) -> int:
        """How many changes must be there once so many bytes were written to each connection."""
        begun = {name: bisect.bisect_left(needs, (told[name], 0)) for name, needs in self.needs.items()}
        return max(needs[begun[name] - 1][1] if begun[name] else 0 for name, needs in self.needs.items())

    def may_hold(self, answered: int) -> list[Plain]:
        """The stores of which the files may hold one when so many changes must be there: batches are there as a whole, and no connection
        has sent more than a few changes that are not answered."""
        most = answered + self.plan.connections * self.plan.at_once
        return [self.stores[count] for count in self.kept if answered <= count <= most]

    def moments(self) -> Iterator[tuple[int, Disk, bool]]:
        """At each moment, how many changes must be there, the disk, and whether the database is written between these two answers. Answers
        do not change the disk, so the moment before some is none of its own."""
        disk, told = Disk({name: File(text) for name, text in self.before.items()}), Counter[str]()
        runs = [(is_answer, list(some)) for is_answer, some in itertools.groupby(self.events, lambda event: event.kind == "answer")]
        for number, (is_answer, events) in enumerate(runs):
            for event in events:
                disk.take(event)
                if is_answer:
                    told[event.file] += len(event.data)
                if event is not events[-1] and not is_answer or event is events[-1] and (is_answer or number == len(runs) - 1):
                    yield self.answered(told), disk, any(event.file == NAME for event in events)


def put_files(folder: Path, files: Files) -> Path:
    """A folder with these files; the path of the store in it."""
    folder.mkdir()
    for name, text in files.items():
        (folder / name).write_bytes(text)
    return folder / NAME


def ask_all(run: Run, texts: list[bytes]) -> list[Answer]:
    try:
        run.send(b"".join(texts))
        return [comparable(answer(run.stdout)) for _ in texts]
    except Ended:
        raise AssertionError(f"it ended with status {run.process.wait(PATIENCE)}: {run.stderr.read()!r}") from None


def begins_in(events: list[Event], name: str) -> tuple[list[int], Answer]:
    """Where the answers of a connection begin, and the first of them."""
    told = io.BytesIO(b"".join(event.data for event in events if event.file == name))
    begins, answers = [], []
    while told.tell() < len(told.getbuffer()):
        begins.append(told.tell())
        answers.append(answer(told))
    return begins, answers[0]


def needs_in(events: list[Event], needed: dict[str, list[int]]) -> dict[str, list[tuple[int, int]]]:
    """Of each connection, where its answers begin, and what they need. That of root asks for the users first, and each other who it is."""
    needs: dict[str, list[tuple[int, int]]] = {}
    for name in {event.file for event in events if event.kind == "answer"}:
        begins, (_, first) = begins_in(events, name)
        own = needed[str(first.get("user", "root"))]
        assert len(own) == len(begins)
        needs[name] = list(zip(begins, itertools.accumulate(own, max)))
    return needs


def kept_counts(folder: Path, before: Files, events: list[Event], first: int) -> list[int]:
    """How many changes of a life SQLite finds after each sync, where so many were there before it, and it has been made."""
    disk, counts = Disk({name: File(text) for name, text in before.items()}), {0}
    for number, event in enumerate(events):
        disk.take(event)
        if event.kind == "sync":
            file = put_files(folder / str(number), disk.now())
            with suppress(sqlite3.DatabaseError):
                counts |= {number - first for number, in asked(file, "select number from changes order by number desc limit 1")}
            shutil.rmtree(file.parent)
    return sorted(counts)


@dataclass
class Client:
    """A connection of a user, what it asked, and the answers. Where nothing stands for a change, it asked for the audit listing."""

    user: str
    stdin: IO[bytes]
    stdout: IO[bytes]
    talk: list[tuple[Change | None, Answer]] = field(default_factory=list)

    def ask(self, some: list[Change | None]) -> None:
        self.stdin.write(b"".join(change.text() if change else request("GET", "/audit") for change in some))
        self.stdin.flush()
        self.talk += [(change, answer(self.stdout)) for change in some]

    def run(self, rng: random.Random, plan: Plan) -> None:
        """Sends its part of the changes, some at once; root reads the audit listing in between."""
        left = plan.changes // plan.connections
        while left > 0:
            some: list[Change | None] = [change_by(rng, self.user, plan.longest) for _ in range(min(left, rng.randint(1, plan.at_once)))]
            left -= len(some)
            self.ask(some + [None] * (self.user == "root" and rng.random() < 0.5))

    def needed(self, first: int) -> list[int]:
        """How many changes of the life each answer needs: a listing all that it tells, and those of changes are not known yet."""
        entries = [told[1].get("entries") for _, told in self.talk]
        return [len(it) - first if isinstance(it, list) else 0 for it in entries]


def connect(run: ServedRun, user: str, stack: ExitStack) -> Client:
    """A connection of a user, who has asked who it is."""
    stream = stack.enter_context(socket.create_connection(("127.0.0.1", run.port), PATIENCE))
    stream.setsockopt(socket.IPPROTO_TCP, socket.TCP_NODELAY, 1)
    client = Client(user, stack.enter_context(stream.makefile("wb")), stack.enter_context(stream.makefile("rb")))
    client.stdin.write(request("GET", WHO, None, user))
    client.stdin.flush()
    assert answer(client.stdout)[1]["user"] == user
    return client


def change_together(run: Run, store: Plain, plan: Plan, rng: random.Random) -> list[Client]:
    """What several clients have asked at once, root the first of them, which had made the others users."""
    assert isinstance(run, ServedRun)
    root = Client("root", run.stdin, run.stdout)
    for change in (*FIRST[len(store.entries):], *ALL):
        root.ask([change])
    with ExitStack() as stack, ThreadPoolExecutor(plan.connections) as pool:
        clients = [root, *(connect(run, user, stack) for user in USERS[1:plan.connections])]
        for done in [pool.submit(client.run, random.Random(rng.random()), plan) for client in clients]:
            done.result()
    return clients


def stores_after(file: Path, store: Plain, clients: list[Client], needed: dict[str, list[int]]) -> list[Plain]:
    """A plain store before and after each change that a file has more, in their order. Each must be the next one of its user whose token
    held, with the answer that it got. Its number comes to stand among what the answers need."""
    left: dict[str, deque[tuple[str, int, Change, Answer]]] = {user: deque() for user in USERS}
    for client, (at, (change, told)) in ((client, talk) for client in clients for talk in enumerate(client.talk)):
        if change and told[0] != 401:
            left[change.user].append((client.user, at, change, told))
    stores = [store.copy()]
    query = f"select user, request, result from changes where number > {len(store.entries)} order by number"
    for number, (user, name, result) in enumerate(asked(file, query), 1):
        asker, at, change, told = left[user].popleft()
        wanted = store.make(change)
        assert (name, json.loads(result), told) == (change.name, told[1], wanted), (number, change, told, wanted, name, result)
        needed[asker][at] = number
        stores.append(store.copy())
    assert not any(left.values()), "a change that was answered is not in the file"
    return stores


def change_alone(run: Run, store: Plain, plan: Plan, rng: random.Random) -> list[Plain]:
    """The plain store before and after each change of one connection, some of which are sent at once."""
    stores = [store.copy()]
    changes = itertools.chain(FIRST[len(store.entries):], changes_from(rng, store.knows, plan.longest))
    while (left := plan.changes + 1 - len(stores)) > 0:
        texts, wanted = [], []
        for change in itertools.islice(changes, min(left, rng.randint(1, plan.at_once))):
            texts.append(change.text())
            wanted.append(store.make(change))
            stores.append(store.copy())
        told = ask_all(run, texts)
        assert told == wanted, (texts, told, wanted)
    return stores


def live(folder: Path, shim: Path, before: Files, stores: list[Plain], plan: Plan, rng: random.Random) -> Life:
    """A life that begins with files which hold one of these stores."""
    file, trace, copy = put_files(folder, before), folder.parent / f"{folder.name}.trace", folder.parent / f"{folder.name}.copies"
    with noted(file, shim, trace, plan.program, plan.connections) as run:
        store = stores[[it.answers() for it in stores].index(ask_all(run, QUESTIONS))]
        first = len(store.entries)
        if plan.connections > 1:
            clients = change_together(run, store, plan, rng)
        else:
            lived = change_alone(run, store, plan, rng)
        assert run.end() == (0, b"", b"")
    events, after = list(events_in(trace.read_bytes(), folder)), {path.name: path.read_bytes() for path in folder.iterdir()}
    copy.mkdir()
    if plan.connections > 1:
        needed = {client.user: client.needed(first) for client in clients}
        lived = stores_after(put_files(copy / "after", after), store, clients, needed)
    else:
        needed = {"root": list(range(1, len(lived)))}
    needed = {user: [0] * (len(QUESTIONS) if user == "root" else 1) + own for user, own in needed.items()}
    kept = list(range(len(lived))) if plan.connections * plan.at_once == 1 else kept_counts(copy, before, events, first)
    life = Life(plan, before, events, lived, kept, needs_in(events, needed))
    assert kept[-1] == len(lived) - 1
    *_, (_, disk, _) = life.moments()
    assert disk.now() == after, "a write was not noted"
    return life
