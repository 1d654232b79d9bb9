#!/usr/bin/env python3
"""Asks st_run the worst requests within its limits, one by one, over tables of 100,000 rows, and prints of each kind the slowest
asking and the mean (processor time of the server, and the clock), and the memory after each kind; at the end the slowest request
of each kind, by the median of its askings.

usage: attack.py [COUNT [ROUNDS [KIND]]]

A connection is ended after a million reads. 4,000 askings of each kind take fewer, 4,600 took more: more are further runs.
Each kind is asked COUNT times (100) in each of ROUNDS rounds (5); with KIND only those whose name has that word. Processor time
is that of Linux's scheduler (/proc/PID/schedstat), so that a busy machine does not spoil it; but a host that lends its processors
to others makes single askings slow, so a request is judged by its median. Kinds that show or count rows, or sort them anew, say
so: their time is in proportion. Memory is as the unit under deploy/ asks for, in huge pages; GLIBC_TUNABLES= takes it as it comes.
Build the server first: (cd crates/st_run && rt run < stdin > /dev/null).
"""
from __future__ import annotations

import fcntl
import os
import pathlib
import random
import statistics
import subprocess
import sys
import time
from collections import defaultdict
from collections.abc import Iterable, Iterator

from tuned import ENVIRONMENT

TOP = pathlib.Path(__file__).resolve().parent.parent
DIGEST = "66687aadf862bd776c8fc18b8e9f8e20089714856ee233b3902a591d0d5f2925"
TOKEN = "Bearer root." + "0" * 64
ALL = "[0,2097151,0,2097151,0,19818086399]"
ROWS = 100_000
LIMIT = 5_000  # microseconds
# Of each kind and each of its requests, the times of its askings.
Askings = defaultdict[str, defaultdict[int, list[float]]]
LABELS = ["", "A", "A|B", "(A&B)|C", "B&C", "S", "A&(B|C)", "(A|B)&(B|C)&(A|C)"]


def head(line: str, fields: str, size: int) -> str:
    return f"{line} HTTP/1.1\r\nHost: a\r\nAuthorization: {TOKEN}\r\n{fields}Content-Length: {size}\r\n\r\n"


def ask(line: str, body: str = "", fields: str = "") -> bytes:
    data = body.encode()
    return head(line, fields, len(data)).encode() + data


def put(table: str, row: str, label: str, point: str, note: str = "") -> bytes:
    return ask(f"POST /tables/{table}/put", f'{{"id":"{row}","label":"{label}","note":"{note}","point":[{point}]}}')


class Server:
    """The program, asked over two pipes."""

    def __init__(self, program: str | pathlib.Path) -> None:
        words = [program, "--root", DIGEST, "A", "B", "C"]
        self.process = subprocess.Popen(words, stdin=subprocess.PIPE, stdout=subprocess.PIPE, bufsize=0, env=ENVIRONMENT)
        assert self.process.stdin is not None and self.process.stdout is not None
        self.to, self.back = self.process.stdin.fileno(), self.process.stdout.fileno()
        for pipe in (self.to, self.back):
            fcntl.fcntl(pipe, fcntl.F_SETPIPE_SZ, 1 << 20)
        self.schedule = os.open(f"/proc/{self.process.pid}/schedstat", os.O_RDONLY)

    def processor(self) -> int:
        """Nanoseconds of the processor that the server had."""
        return int(os.pread(self.schedule, 100, 0).split()[0])

    def memory(self) -> float:
        """The resident memory, in MiB."""
        pages = pathlib.Path(f"/proc/{self.process.pid}/statm").read_text().split()[1]
        return int(pages) * os.sysconf("SC_PAGE_SIZE") / (1 << 20)

    def reply(self) -> tuple[str, bytes]:
        text = b""
        while b"\r\n\r\n" not in text:
            piece = os.read(self.back, 1 << 20)
            if not piece:
                sys.exit("the server ended")
            text += piece
        first, _, body = text.partition(b"\r\n\r\n")
        size = int(first.split(b"Content-Length: ")[1].split(b"\r\n")[0])
        while len(body) < size:
            body += os.read(self.back, 1 << 20)
        return first[9:12].decode(), body

    def tell(self, request: bytes) -> tuple[str, bytes]:
        os.write(self.to, request)
        return self.reply()

    def tell_all(self, requests: Iterable[bytes]) -> None:
        """Asks what only prepares."""
        for request in requests:
            status, body = self.tell(request)
            if status != "200":
                sys.exit(f"{request[:200]!r}: {status} {body[:200]!r}")

    def settled(self) -> int:
        """Waits until the server waits for what comes next, so that its processor time stands."""
        before = self.processor()
        while True:
            time.sleep(0)
            after = self.processor()
            if after == before:
                return after
            before = after

    def time(self, request: bytes) -> tuple[float, float, str, int]:
        """Microseconds of processor and clock, the status and the size of the reply."""
        processor, clock = self.settled(), time.perf_counter_ns()
        status, body = self.tell(request)
        clock = time.perf_counter_ns() - clock
        return (self.settled() - processor) / 1e3, clock / 1e3, status, len(body)


def rows() -> Iterator[bytes]:
    """100,000 rows at random points and times; and as many in one week, in 100 seconds."""
    random.seed(3)
    for table in ("weeks", "days"):
        yield ask("POST /tables", f'{{"table":"{table}"}}')
    for i in range(ROWS):
        x, y = random.randrange(1 << 21), random.randrange(1 << 21)
        label = LABELS[i % len(LABELS)]
        yield put("points", f"r{i}", label, f"{x},{y},{random.randrange(19_818_086_400)}")
        yield put("weeks", f"r{i}", label, f"{x},{y},{random.randrange(100)}")


def crowds() -> Iterator[bytes]:
    """10,000 rows of one point; 2,000 rows of one id; 10,000 rows of one point under as many labels; 100,000 rows under as many."""
    for table in ("crowd", "same", "motley", "labels"):
        yield ask("POST /tables", f'{{"table":"{table}"}}')
    for i in range(10_000):
        yield put("crowd", f"r{i:05}", "A", "7,7,7")
        yield put("motley", f"r{i:05}", f"A|(B&x{i:05})", "7,7,7")
    for i in range(2_000):
        yield put("same", "p", f"A|B{i:04}", f"{i},7,7")
    random.seed(3)
    for i in range(ROWS):
        x, y = random.randrange(1 << 21), random.randrange(1 << 21)
        yield put("labels", f"r{i}", f"A|x{i}", f"{x},{y},{random.randrange(19_818_086_400)}")


def comings() -> list[bytes]:
    """600 labels that come and go beside a row of weeks, one by one, and then 20 at a time."""
    gone = "POST /tables/weeks/delete"
    place = "1048576,1048576,50"
    asked = []
    for number in range(600):
        asked += [put("weeks", "comes", f"x{number}", place), ask(gone, f'{{"id":"comes","label":"x{number}"}}')]
    for first in range(600, 1_200, 20):
        some = range(first, first + 20)
        asked += [put("weeks", "comes", f"x{number}", place) for number in some]
        asked += [ask(gone, f'{{"id":"comes","label":"x{number}"}}') for number in some]
    return asked


def names(count: int) -> list[str]:
    return [f"{i:x}" for i in range(count)]


def texts(items: Iterable[str]) -> str:
    return "[" + ",".join(f'"{it}"' for it in items) + "]"


def filled(front: str, middle: str, tail: str, size: int = 65_536) -> str:
    """A body of a front, a middle as often as there is room, and a tail."""
    return front + middle * ((size - len(front) - len(tail)) // len(middle)) + tail


def deep(seed: int) -> str:
    """A label of 256 bytes whose groups stand in 16 parentheses, of names of one letter."""
    pick = random.Random(seed)
    letters = "ABCDEFGHIJKLMNOPQRSTUVWXYZabcdefghijklmnopqrstuvwxyz0123456789"
    label = pick.choice(letters)
    for level in range(16):
        sign = "&|"[level % 2]
        others = [pick.choice(letters) for _ in range(5)]
        label = f"({sign.join([label, *others])})"
    return label[:256]


LABELS_ASKED = {
    "label, names in a row": ["|".join(chr(65 + i * 7 % 26) for i in range(128)), "&".join(f"n{i * 37 % 64:02}" for i in range(64))],
    "label, groups in a row": ["|".join(f"({chr(90 - i % 26)}&{chr(97 + i % 26)})" for i in range(42))],
    "label, groups in 16": [deep(seed) for seed in range(8)],
    "label, one sign in 16": ["(" * 16 + "A" + "".join(f"|{chr(66 + i)})" for i in range(16)) + "|" + "|".join("zyxwvutsrq" * 8)],
    "label, quoted": ['\\"' + "\\\\\\\\" * 126 + '\\"', "|".join(f'\\"{i}!\\"' for i in range(42))],
}


def box_of(*bounds: int) -> str:
    return "[" + ",".join(map(str, bounds)) + "]"


def kinds() -> Iterator[tuple[str, list[bytes], bool]]:
    """The name of each kind, its requests, and whether its time is in proportion to the rows that it shows, counts or sorts."""
    fields = "".join(f"a{i}: b\r\n" for i in range(61))
    yield "64 fields", [ask("GET /whoami", fields=fields)], False
    room = 8_192 - len(ask("GET /whoami", fields="a: \r\n"))
    yield "head of 8,192 bytes", [ask("GET /whoami", fields=f"a: {'b' * room}\r\n")], False
    room = 8_192 - len(ask("GET /whoami", fields="Connection: \r\n"))
    yield "list of connections", [ask("GET /whoami", fields=f"Connection: {'a,' * (room // 2)}\r\n")], False
    room = 8_192 - len(ask("GET /whoami"))
    yield "target of 8,000 bytes", [ask("GET /whoami?" + "b" * (room - 1))], False
    front = '{"auths":[],"box":[0,0,0,0,0,0]'
    count = "POST /tables/points/count"
    for name, middle, tail in (
        ("body of spaces", " ", "}"),
        ("body of fields", ',"z":0', "}"),
        ("body of boxes", ',"box":[0,0,0,0,0,0]', "}"),
        ("body of lists", ',"z":' + "[" * 126 + "]" * 126, "}"),
        ("body of objects", ',"z":' + '{"a":' * 126 + "0" + "}" * 126, "}"),
        ("body of escapes", "\\u00e9", '"}'),
        ("body of digits", "7", "}"),
    ):
        begin = {"body of escapes": ',"z":"', "body of digits": ',"z":0.'}.get(name, "")
        yield name, [ask(count, filled(front + begin, middle, tail))], False
    keys = [f',"{i:05x}":0' for i in range(5_900)]
    mixed = random.Random(5).sample(keys, len(keys))
    for name, list_of_keys in (("body of names", keys), ("body of names, falling", keys[::-1]), ("body of names, mixed", mixed)):
        yield name, [ask(count, front + "".join(list_of_keys) + "}")], False
    many = 9_000
    yield "9,000 authorizations set", [ask("POST /users/root/auths", f'{{"auths":{texts(names(many) + ["A", "B", "C"])}}}')], False
    shuffled = random.Random(6).sample(names(many), many)
    for name, asked in (("held", names(many)), ("held, mixed", shuffled)):
        yield f"9,000 authorizations {name}", [ask(count, f'{{"auths":{texts(asked)},"box":[0,0,0,0,0,0]}}')], False
    yield "9,000 authorizations shown", [ask("GET /whoami")], False
    yield "authorizations set", [ask("POST /users/root/auths", '{"auths":["A","B","C"]}')], False
    for name, labels in LABELS_ASKED.items():
        yield name, [ask("POST /label", f'{{"label":"{label}"}}') for label in labels], False
    for name, bounds in (
        ("plan, all but the ends", (1, 2097150, 1, 2097150, 1, 19818086398)),
        ("plan, thin", (1398101, 1398102, 0, 2097151, 1, 19818086398)),
        ("plan, uneven", (699050, 1398101, 699050, 1398101, 201600, 19818086398)),
    ):
        yield name, [ask("POST /tables/points/plan", f'{{"box":{box_of(*bounds)},"budget":64}}')], False
    pick = random.Random(4)
    thin = []
    for _ in range(50):
        x, y = pick.randrange(1 << 21), pick.randrange(1 << 21)
        thin += [box_of(x, x, y, y, 0, 19818086399), box_of(x, x, 0, 2097151, 0, 19818086399), box_of(0, 2097151, y, y, 0, 19818086399)]
    for table in ("points", "weeks", "labels"):
        line = f"POST /tables/{table}"
        auths = '"auths":["A","B","C"]'
        yield f"count of a line, {table}", [ask(f"{line}/count", f'{{{auths},"box":{box}}}') for box in thin], False
        yield f"scan of a line, {table}", [ask(f"{line}/scan", f'{{{auths},"box":{box},"limit":1000}}') for box in thin], False
        yield f"grid of a line, {table}", [ask(f"{line}/grid", f'{{{auths},"box":{box},"nx":32,"ny":32}}') for box in thin], False
        inner = box_of(1, 2097150, 1, 2097150, 1, 19818086398)
        yield f"count of all, {table}", [ask(f"{line}/count", f'{{{auths},"box":{inner}}}')], True
        yield f"grid of all, {table}", [ask(f"{line}/grid", f'{{{auths},"box":{inner},"nx":32,"ny":32}}')], True
        yield f"scan of 1,000 rows, {table}", [ask(f"{line}/scan", f'{{{auths},"box":{inner},"limit":1000}}')], True
        place = '{"id":"","label":"","point":[1048576,1048576,50]}'
        yield f"scan after a place, {table}", [ask(f"{line}/scan", f'{{{auths},"after":{place},"box":{inner},"limit":1}}')], False
    yield "scan of rows unseen", [ask("POST /tables/weeks/scan", f'{{"auths":[],"box":{ALL},"limit":1000}}')], True
    long = "é" * 2_048
    yield "put of a long note", [put("points", "r7", LABELS[7], "1,1,1", long), put("points", "r7", LABELS[7], "1,1,1")], False
    moved = [put("points", "r8", LABELS[0], f"{x},5,5") for x in (5, 2_000_000)]
    yield "put of a row moved", moved, False
    gone = ask("POST /tables/points/delete", '{"id":"new","label":"A"}')
    yield "put and delete", [put("points", "new", "A", "9,9,9"), gone], False
    gone = ask("POST /tables/crowd/delete", '{"id":"a","label":"A"}')
    yield "put and delete among 10,000 of a point", [put("crowd", "a", "A", "7,7,7"), gone], False
    yield "put again among 10,000 of a point", [put("crowd", "r05000", "A", "7,7,7", note) for note in ("n", "")], False
    line, auths = "POST /tables/motley", '"auths":["A","B"]'
    box = box_of(7, 7, 7, 7, 7, 7)
    yield "count of 10,000 labels of a point", [ask(f"{line}/count", f'{{{auths},"box":{box}}}')], False
    yield "grid of 10,000 labels of a point", [ask(f"{line}/grid", f'{{{auths},"box":{box},"nx":1,"ny":1}}')], False
    yield "scan of 10,000 labels of a point", [ask(f"{line}/scan", f'{{"auths":["C"],"box":{box},"limit":1}}')], False
    gone = ask(f"{line}/delete", '{"id":"r05000","label":"B|x"}')
    yield "put and delete among 10,000 labels of a point", [put("motley", "r05000", "B|x", "7,7,7"), gone], False
    gone = ask("POST /tables/same/delete", '{"id":"p","label":"A|new"}')
    yield "put and delete among 2,000 labels of an id", [put("same", "p", "A|new", "7,7,7"), gone], False
    yield "labels that come and go", comings(), False
    near = box_of(1048576 - 50_000, 1048576 + 50_000, 1048576 - 50_000, 1048576 + 50_000, 0, 99)
    yield "count where labels came and went", [ask("POST /tables/weeks/count", f'{{"auths":["A","B","C"],"box":{near}}}')], False
    yield "count among 10,000 of a point", [ask("POST /tables/crowd/count", f'{{"auths":["A"],"box":{ALL}}}')], True
    place = '{"id":"r09998","label":"A","point":[7,7,7]}'
    after = ask("POST /tables/crowd/scan", f'{{"after":{place},"auths":["A"],"box":{ALL},"limit":1}}')
    yield "scan after 10,000 of a point", [after], False
    yield "get of 2,000 rows", [ask("POST /tables/same/get", '{"id":"p","auths":["A"]}')], True
    yield "audit", [ask("GET /audit")], True
    yield "period of 100,000 rows", [ask("POST /tables/weeks/period", f'{{"period":"{it}"}}') for it in ("day", "week")], True


def main() -> None:
    count, rounds = (int(word) for word in (sys.argv[1:3] + ["100", "5"][len(sys.argv[1:3]):]))
    word = sys.argv[3] if len(sys.argv) > 3 else ""
    server = Server(os.environ.get("PROGRAM", TOP / "crates/st_run/out/st_run"))
    server.tell_all(rows())
    server.tell_all(crowds())
    print(f"{server.memory():.1f} MiB with {ROWS:,} rows in each of three tables")
    askings: Askings = defaultdict(lambda: defaultdict(list))
    proportional: set[str] = set()
    for round in range(rounds):
        for name, requests, is_proportional in kinds():
            if word not in name:
                continue
            asked = min(count, 10) if is_proportional else count
            found = [server.time(requests[i % len(requests)]) for i in range(max(asked, len(requests)))]
            processor = [it[0] for it in found]
            for i, it in enumerate(processor):
                askings[name][i % len(requests)].append(it)
            statuses = sorted({it[2] for it in found})
            if is_proportional:
                proportional.add(name)
            print(
                f"{name}: slowest {max(processor):,.0f} us, mean {sum(processor) / len(found):,.0f} us; by the clock "
                f"{max(it[1] for it in found):,.0f} us; {len(found)} answered {', '.join(statuses)}, {max(it[3] for it in found):,} bytes; "
                f"{server.memory():.1f} MiB",
                flush=True,
            )
    tell_slowest(askings, proportional)


def tell_slowest(askings: Askings, proportional: set[str]) -> None:
    """Prints of each kind its slowest request by the median of its askings, and how many askings took more than the limit."""
    slow: list[str] = []
    print("\nthe slowest request of each kind, by the median of its askings:")
    for name, requests in askings.items():
        worst = max(statistics.median(it) for it in requests.values())
        all_askings = [it for times in requests.values() for it in times]
        late = sum(it > LIMIT for it in all_askings)
        if name in proportional:
            print(f"{name}: {worst:,.0f} us, in proportion")
            continue
        slow += [name] * (worst > LIMIT)
        print(f"{name}: {worst:,.0f} us; {late} of {len(all_askings)} askings took more than {LIMIT:,} us{', TOO SLOW' * (worst > LIMIT)}")
    print(f"{len(slow)} kinds took more than {LIMIT / 1000:g} ms: {', '.join(slow)}")


if __name__ == "__main__":
    main()
