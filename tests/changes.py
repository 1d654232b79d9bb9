"""Changes of a store for tests: of each kind that docs/API.md has, in no order."""
import random
from collections.abc import Callable, Iterator
from dataclasses import dataclass

from served import digest
from stored import request

Body = dict[str, object]

USERS = ["root", "ann", "bob", "eve"]
TABLES = ["points", "lines", "geo.trips", "geo.storms"]
NAMESPACES = ["geo", "none"]
ON_TABLES = ["READ", "WRITE", "ALTER_TABLE", "GRANT", "DROP_TABLE"]
ON_SYSTEM = ["CREATE_TABLE", "DROP_TABLE", "ALTER_TABLE", "CREATE_USER", "DROP_USER", "ALTER_USER", "GRANT", "SYSTEM"]
# Labels, each with the sets of authorizations among A and B that it is true for.
LABELS = {"": ["", "A", "B", "AB"], "A": ["A", "AB"], "B": ["B", "AB"], "A&B": ["AB"], "A|B": ["A", "B", "AB"]}


@dataclass(frozen=True)
class Change:
    """Who asks, what the audit listing calls it, the table, user or namespace that it is about, and its fields."""

    user: str
    name: str
    target: str
    fields: tuple[tuple[str, object], ...] = ()

    def text(self) -> bytes:
        """The request."""
        action, _, where = self.name.partition("-")
        body: Body = dict(self.fields)
        if action == "drop":
            return request("DELETE", f"/{where}s/{self.target}", None, self.user)
        if action == "create":
            body[where] = self.target
            return request("POST", f"/{where}s", body, self.user)
        kind = "namespaces" if where == "namespace" else "users" if where == "system" or action in ("token", "auths") else "tables"
        return request("POST", f"/{kind}/{self.target}/{action}", body, self.user)


# A user, a table, a grant, a row of that user, and a refusal.
FIRST = [
    Change("root", "create-user", "ann", (("digest", digest("ann")), ("auths", ["A"]))),
    Change("root", "create-table", "geo.trips", (("period", "day"),)),
    Change("root", "grant-namespace", "geo", (("user", "ann"), ("permission", "WRITE"))),
    Change("ann", "put", "geo.trips", (("id", "r0"), ("label", "A"), ("note", ""), ("point", [1, 2, 3]))),
    Change("ann", "delete", "points", (("id", "r0"), ("label", "A"))),
]
# What makes each of the users one that may change rows, whoever was dropped or has another token.
ALL = [
    change for user in USERS[1:] for change in (
        Change("root", "create-user", user, (("digest", digest(user)), ("auths", ["A", "B"]))),
        Change("root", "token", user, (("digest", digest(user)),)),
        Change("root", "grant-table", "points", (("user", user), ("permission", "WRITE"))),
    )
]


def change_of_users(rng: random.Random, by: str) -> Change:
    """A change of a user or of what one may do."""
    user, where = rng.choice(USERS[1:]), rng.choice(["table", "table", "namespace", "system"])
    kind = rng.random()
    if kind < 0.3:
        return Change(by, "create-user", user, (("digest", digest(user)), ("auths", rng.choice([["A"], ["B"], ["B", "A"], []]))))
    if kind < 0.4:
        return Change(by, "drop-user", rng.choice([user, "root"] if by == "root" else [user]))
    if kind < 0.5:
        return Change(by, "auths", user, (("auths", rng.choice([["A"], ["B"], ["A", "B"], []])),))
    if kind < 0.6:
        return Change(by, "token", user, (("digest", digest(rng.choice([user, "other"]))),))
    action = rng.choice(["grant", "grant", "grant", "revoke"])
    if where == "system":
        return Change(by, f"{action}-system", user, (("permission", rng.choice(ON_SYSTEM)),))
    target = rng.choice(TABLES if where == "table" else NAMESPACES)
    return Change(by, f"{action}-{where}", target, (("user", user), ("permission", rng.choice(["WRITE", *ON_TABLES]))))


def change_of_tables(rng: random.Random, by: str) -> Change:
    """A change of a table as a whole. The table `points` stays."""
    table, kind = rng.choice(TABLES[1:]), rng.random()
    if kind < 0.6:
        return Change(by, "create-table", table, (("period", rng.choice(["day", "week"])),))
    if kind < 0.7:
        return Change(by, "drop-table", table)
    if kind < 0.85:
        return Change(by, "constraint", rng.choice(TABLES), (("on", rng.random() < 0.5),))
    return Change(by, "period", rng.choice(TABLES), (("period", rng.choice(["day", "week"])),))


def change_of_rows(rng: random.Random, by: str, longest: int) -> Change:
    """A put or a delete of one of a few rows."""
    table, id, label = rng.choice(["points", *TABLES]), f"r{rng.randrange(30)}", rng.choice(list(LABELS))
    if rng.random() < 0.2:
        return Change(by, "delete", table, (("id", id), ("label", label)))
    note = f"{rng.random()}".ljust(rng.randrange(longest), "n")
    point = [rng.randrange(2097152), rng.randrange(2097152), rng.randrange(19818086400)]
    return Change(by, "put", table, (("id", id), ("label", label), ("note", note), ("point", point)))


def change_by(rng: random.Random, by: str, longest: int) -> Change:
    """A change of any kind by a user."""
    kind = rng.random()
    if kind < 0.25:
        return change_of_users(rng, by)
    if kind < 0.4:
        return change_of_tables(rng, by)
    return change_of_rows(rng, by, longest)


def changes_from(rng: random.Random, knows: Callable[[str], bool], longest: int) -> Iterator[Change]:
    """Changes of each kind, by those whose token is known to hold. Many are refused. Each is to be made before the next is asked for."""
    while True:
        yield change_by(rng, rng.choice(["root", "root", *filter(knows, USERS)]), longest)
