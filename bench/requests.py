#!/usr/bin/env python3
"""Writes HTTP requests for st_run to standard output: puts that replace each other among 16 ids, and counts, in turn.

usage: requests.py COUNT
"""
import sys

SECRET = "0" * 64
BOX = "[0,2097151,0,2097151,0,19818086399]"


def request(line: str, body: str) -> bytes:
    return (
        f"POST /tables/points/{line} HTTP/1.1\r\nHost: a\r\nAuthorization: Bearer root.{SECRET}\r\n"
        f"Content-Length: {len(body)}\r\n\r\n{body}"
    ).encode()


def main() -> None:
    count = int(sys.argv[1])
    puts = [
        request("put", '{"id":"p%d","label":"A&(B|C)","note":"","point":[%d,%d,%d]}' % (i, i, 2 * i, 3 * i))
        for i in range(16)
    ]
    counts = request("count", '{"auths":["A","B"],"box":%s}' % BOX)
    out = sys.stdout.buffer
    for i in range(count):
        out.write(puts[i // 2 % 16] if i % 2 == 0 else counts)


main()
