#!/usr/bin/env python3
"""Writes HTTP requests for st_run to standard output: users, with READ on two namespaces and on the table points, and then
counts by the last of them.

usage: directory.py USERS GRANTS COUNTS
"""
import sys

SECRET = "0" * 64
DIGEST = "66687aadf862bd776c8fc18b8e9f8e20089714856ee233b3902a591d0d5f2925"
PERMISSIONS = ("READ", "WRITE", "ALTER_TABLE", "GRANT", "DROP_TABLE")
COUNT = '{"auths":[],"box":[0,2097151,0,2097151,0,19818086399]}'


def request(user: str, path: str, body: str) -> bytes:
    return (
        f"POST {path} HTTP/1.1\r\nHost: a\r\nAuthorization: Bearer {user}.{SECRET}\r\n"
        f"Content-Length: {len(body)}\r\n\r\n{body}"
    ).encode()


def main() -> None:
    users, grants, counts = map(int, sys.argv[1:])
    out = sys.stdout.buffer
    names = [f"u{i:05}" for i in range(users)]
    for name in names:
        out.write(request("root", "/users", f'{{"auths":[],"digest":"{DIGEST}","user":"{name}"}}'))
    each = [
        (f"/namespaces/n{i // (users * 5):03}/grant", names[i // 5 % users], PERMISSIONS[i % 5])
        for i in range(grants)
    ]
    for path, name, permission in each:
        out.write(request("root", path, f'{{"permission":"{permission}","user":"{name}"}}'))
    out.write(request("root", "/tables/points/grant", f'{{"permission":"READ","user":"{names[-1]}"}}'))
    count = request(names[-1], "/tables/points/count", COUNT)
    for _ in range(counts):
        out.write(count)


main()
