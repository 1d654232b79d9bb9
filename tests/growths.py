"""Short conversations with a server, which `tools/refused_growths` repeats with each growth refused in turn.

At the end of each one rows, tables, grants and users are seen to be those of ample memory.
"""

from dataclasses import dataclass

# Who asks, the method and the path, and the body of a request; the body of its answer.
Turn = tuple[str, str, str, str]

# That of 32 zero bytes, the secret of every user.
DIGEST = "66687aadf862bd776c8fc18b8e9f8e20089714856ee233b3902a591d0d5f2925"
ALL = '"box":[0,2097151,0,2097151,0,19818086399]'
DONE = '{"ok":true}'

# A long name is one of more bytes than a short text has room for.
LONG = "an authorization of more than 15 bytes"


@dataclass(frozen=True)
class Conversation:
    """What is asked at first, and the requests of which each must run out of memory in some run."""

    before: list[Turn]
    turns: list[Turn]


def row(name: str, label: str, point: str, note: str = "") -> str:
    """A row, as a body of a put and in the answer to a scan."""
    return f'{{"id":"{name}","label":"{label}","note":"{note}","point":[{point}]}}'


def put(user: str, table: str, *of_row: str) -> Turn:
    """A put that is accepted."""
    return (user, f"POST /tables/{table}/put", row(*of_row), DONE)


def count(user: str, table: str, auths: str, answer: str, box: str = ALL) -> Turn:
    """A count."""
    return (user, f"POST /tables/{table}/count", f'{{"auths":[{auths}],{box}}}', answer)


def new_user(asker: str, name: str, auths: str) -> Turn:
    """A user who is made."""
    return (asker, "POST /users", f'{{"auths":[{auths}],"digest":"{DIGEST}","user":"{name}"}}', DONE)


def scan(table: str, auths: str, *rows: str) -> Turn:
    """A scan by root that shows all rows at once."""
    body = f'{{"auths":[{auths}],{ALL},"limit":10}}'
    return ("root", f"POST /tables/{table}/scan", body, f'{{"next":null,"rows":[{",".join(rows)}]}}')


def grant(user: str, path: str, permission: str, to: str = "", change: str = "grant") -> Turn:
    """A permission that is given, or with another change taken: on a table or a namespace to a user, or a user's own."""
    named = f',"user":"{to}"' if to else ""
    return (user, f"POST /{path}/{change}", f'{{"permission":"{permission}"{named}}}', DONE)


def tables(user: str, *of_t: str) -> Turn:
    """The listing of the tables, which are `points` and those said."""
    points = '{"constraint":false,"period":"week","table":"points"}'
    return (user, "GET /tables", "", f'{{"tables":[{",".join((points, *of_t))}]}}')


NO_READ = '{{"error":"permission","permission":"READ","table":"{}"}}'
POINT_5 = '"box":[5,5,5,5,5,5]'
POINT_0 = '"box":[0,0,0,0,0,0]'
PLAN = "POST /tables/points/plan"

CONVERSATIONS = {
    "a row under an expression, and what counts see of it": Conversation(
        [],
        [
            put("root", "points", "p", "A&(B|C)", "1,2,3"),
            count("root", "points", '"A"', '{"count":0}'),
            count("root", "points", '"A","C"', '{"count":1}'),
            count("root", "points", '"B","C"', '{"count":0}'),
        ],
    ),
    "one id under two labels, one of them deleted twice": Conversation(
        [],
        [
            put("root", "points", "p", "A", "0,0,0"),
            put("root", "points", "p", "B", "0,0,0"),
            (
                "root",
                "POST /tables/points/get",
                '{"auths":["B","A"],"id":"p"}',
                f'{{"rows":[{row("p", "A", "0,0,0")},{row("p", "B", "0,0,0")}]}}',
            ),
            ("root", "POST /tables/points/delete", '{"id":"p","label":"A"}', DONE),
            ("root", "POST /tables/points/delete", '{"id":"p","label":"A"}', DONE),
            count("root", "points", '"A","B"', '{"count":1}'),
            scan("points", '"A","B"', row("p", "B", "0,0,0")),
        ],
    ),
    "a row that is put elsewhere, and then there once more with a note": Conversation(
        [],
        [
            put("root", "points", "p", "A", "0,0,0"),
            put("root", "points", "p", "A", "5,5,5"),
            count("root", "points", '"A"', '{"count":0}', POINT_0),
            count("root", "points", '"A"', '{"count":1}', POINT_5),
            put("root", "points", "p", "A", "5,5,5", "n"),
            ("root", "POST /tables/points/get", '{"auths":["A"],"id":"p"}', f'{{"rows":[{row("p", "A", "5,5,5", "n")}]}}'),
            scan("points", '"A"', row("p", "A", "5,5,5", "n")),
        ],
    ),
    "a page, a grid, plans and a normal form": Conversation(
        [],
        [
            put("root", "points", "a", "A", "0,0,0"),
            put("root", "points", "b", "A", "1,0,0"),
            put("root", "points", "c", "A", "2,0,0"),
            (
                "root",
                "POST /tables/points/scan",
                f'{{"after":{{"id":"a","label":"A","point":[0,0,0]}},"auths":["A"],{ALL},"limit":1}}',
                f'{{"next":{{"id":"b","label":"A","point":[1,0,0]}},"rows":[{row("b", "A", "1,0,0")}]}}',
            ),
            (
                "root",
                "POST /tables/points/grid",
                '{"auths":["A"],"box":[0,2,0,0,0,0],"nx":2,"ny":1}',
                '{"grid":[2,1]}',
            ),
            (
                "root",
                PLAN,
                '{"box":[1,2,1,2,0,0],"budget":4}',
                '{"parts":[{"bins":[0,0],"ranges":[[3,3,true],[10,10,true],[17,17,true],[24,24,true]]}]}',
            ),
            ("root", PLAN, '{"box":[1,2,1,2,0,0],"budget":3}', '{"parts":[{"bins":[0,0],"ranges":[[3,24,false]]}]}'),
            ("root", PLAN, '{"box":[1,2,1,2,0,0],"budget":0}', '{"error":"field","field":"budget"}'),
            ("root", "POST /label", '{"label":"(C|B)&A&A"}', '{"normal":"(B|C)&A"}'),
        ],
    ),
    "a table that its maker drops and makes anew": Conversation(
        [new_user("root", "u", '"A"'), new_user("root", "v", ""), grant("root", "users/u", "CREATE_TABLE")],
        [
            ("u", "POST /tables", '{"table":"t"}', DONE),
            grant("u", "tables/t", "READ", "v"),
            put("u", "t", "p", "", "1,2,3"),
            count("v", "t", "", '{"count":1}'),
            ("u", "DELETE /tables/t", "", DONE),
            ("u", "POST /tables", '{"table":"t"}', DONE),
            count("v", "t", "", NO_READ.format("t")),
            count("u", "t", "", '{"count":0}'),
            tables("v", '{"constraint":false,"period":"week","table":"t"}'),
        ],
    ),
    "a table that is kept by day, by week again, and gets a constraint": Conversation(
        [("root", "POST /tables", '{"table":"t"}', DONE), put("root", "t", "p", "", "0,0,86400"), put("root", "t", "q", "", "2097151,0,0")],
        [
            ("root", "POST /tables/t/period", '{"period":"day"}', DONE),
            scan("t", "", row("q", "", "2097151,0,0"), row("p", "", "0,0,86400")),
            ("root", "POST /tables/t/period", '{"period":"week"}', DONE),
            scan("t", "", row("p", "", "0,0,86400"), row("q", "", "2097151,0,0")),
            ("root", "POST /tables/t/constraint", '{"on":true}', DONE),
            ("root", "POST /tables/t/put", row("p", "S", "1,2,3"), '{"error":"constraint","label":"S"}'),
            tables("root", '{"constraint":true,"period":"week","table":"t"}'),
        ],
    ),
    "grants on a table and on a namespace, given and taken": Conversation(
        [new_user("root", "u", '"A"'), new_user("root", "v", ""), grant("root", "users/u", "CREATE_TABLE")],
        [
            grant("root", "tables/points", "WRITE", "u"),
            grant("root", "namespaces/geo", "READ", "u"),
            ("root", "POST /tables", '{"table":"geo.a"}', DONE),
            count("u", "geo.a", "", '{"count":0}'),
            ("u", "GET /namespaces/geo/grants", "", '{"grants":[{"permissions":["READ"],"user":"u"}]}'),
            grant("root", "namespaces/geo", "READ", "u", "revoke"),
            count("u", "geo.a", "", NO_READ.format("geo.a")),
            grant("root", "tables/points", "GRANT", "root", "revoke"),
            (
                "u",
                "GET /tables/points/grants",
                "",
                '{"grants":[{"permissions":["READ","WRITE","ALTER_TABLE","DROP_TABLE"],"user":"root"},'
                '{"permissions":["WRITE"],"user":"u"}]}',
            ),
        ],
    ),
    "a user who is made, and given authorizations, a permission and another token": Conversation(
        [],
        [
            new_user("root", "u", '"A"'),
            ("root", "POST /users/u/auths", f'{{"auths":["B","A","{LONG}"]}}', DONE),
            grant("root", "users/u", "CREATE_USER"),
            new_user("u", "v", ""),
            ("v", "POST /users/v/token", '{"digest":"72cd6e8422c407fb6d098690f1130b7ded7ec2f7f5e1d30bd9d521f015363793"}', DONE),
            ("u", "GET /users/u", "", f'{{"auths":["A","B","{LONG}"],"permissions":["CREATE_USER"],"user":"u"}}'),
            ("u", "GET /users", "", '{"users":["root","u","v"]}'),
        ],
    ),
    "a user who loses a permission, is dropped, and made anew": Conversation(
        [new_user("root", "u", '"A"'), grant("root", "users/u", "CREATE_USER"), grant("root", "tables/points", "READ", "u")],
        [
            grant("root", "users/u", "CREATE_USER", change="revoke"),
            ("root", "GET /users/u", "", '{"auths":["A"],"permissions":[],"user":"u"}'),
            ("root", "DELETE /users/u", "", DONE),
            ("root", "GET /users", "", '{"users":["root"]}'),
            new_user("root", "u", '"A"'),
            ("u", "GET /whoami", "", '{"auths":["A"],"permissions":[],"user":"u"}'),
            (
                "root",
                "GET /tables/points/grants",
                "",
                '{"grants":[{"permissions":["READ","WRITE","ALTER_TABLE","GRANT","DROP_TABLE"],"user":"root"}]}',
            ),
        ],
    ),
}
