"""Whether a name is known cannot be told by the time of a refusal: a wrong secret costs as much with a user's name as without."""
import ctypes
import os
import statistics
import subprocess
import time

from served import digest
from stored import RUN

# What a pipe holds of requests, and of replies.
AT_ONCE = 300
ROUNDS = 5
TURNS = 15
MOST = 7
REFUSED = (b'HTTP/1.1 401 Unauthorized\r\nWWW-Authenticate: Bearer realm="points"\r\nContent-Type: application/json\r\n'
           b'Content-Length: 17\r\n\r\n{"error":"token"}')


def clock_of(process: int) -> int:
    """The clock of the processor time of a process, which others on the machine do not move (clock_getcpuclockid(3))."""
    clock = ctypes.c_int()
    fault = ctypes.CDLL(None).clock_getcpuclockid(process, ctypes.byref(clock))
    assert fault == 0, os.strerror(fault)
    return clock.value


def cost(program: "subprocess.Popen[bytes]", clock: int, user: str) -> float:
    """The processor time of many refusals of a user's name with a wrong secret."""
    asked = f"GET /whoami HTTP/1.1\r\nHost: a\r\nAuthorization: Bearer {user}.{'7' * 64}\r\n\r\n".encode() * AT_ONCE
    assert program.stdin is not None and program.stdout is not None
    start: float = time.clock_gettime(clock)
    for _ in range(ROUNDS):
        program.stdin.write(asked)
        program.stdin.flush()
        assert program.stdout.read(len(REFUSED) * AT_ONCE) == REFUSED * AT_ONCE
    return time.clock_gettime(clock) - start


def ratio(program: "subprocess.Popen[bytes]", known: str, other: str) -> float:
    """How many times as much one name costs as another, by the medians of many turns of both in alternation."""
    clock = clock_of(program.pid)
    turns = [(cost(program, clock, known), cost(program, clock, other)) for _ in range(TURNS)]
    medians: list[float] = [statistics.median(some) for some in zip(*turns)]
    return medians[0] / medians[1]


def test_a_known_name_costs_no_more_than_an_unknown_one() -> None:
    words = [str(RUN), "--root", digest("root"), "A"]
    seen: list[float] = []
    with subprocess.Popen(words, stdin=subprocess.PIPE, stdout=subprocess.PIPE) as program:
        assert program.stdin is not None
        while len(seen) < MOST and all(abs(it - 1) > 0.15 for it in seen):
            seen.append(ratio(program, "root", "toor"))
        program.stdin.close()
    assert abs(seen[-1] - 1) <= 0.15, seen
