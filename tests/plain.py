"""A plain store for tests: users, tables, grants, rows and the audit listing in dictionaries, and what must be answered from them.

It knows of each change what docs/API.md says, judges it in the order that stands there, and has no index and no file. It tells right
while each table has at most 1,000 rows, and the audit listing at most 1,024 entries.
"""
from collections.abc import Callable, Iterable
from dataclasses import dataclass, field, replace

from changes import LABELS, NAMESPACES, ON_SYSTEM, ON_TABLES, TABLES, USERS, Body, Change
from served import digest
from stored import AUTHS, BOX, request

Answer = tuple[int, Body]

# The numbers of the refusals of docs/API.md that can come, and their statuses.
STATUSES = {9: 403, 11: 403, 12: 403, 14: 404, 15: 404, 17: 409, 18: 409}
DONE: Body = {"ok": True}


@dataclass
class User:
    digest: str
    auths: list[str]
    permissions: set[str] = field(default_factory=set)


@dataclass
class Table:
    period: str
    constraint: bool = False
    rows: dict[tuple[str, str], Body] = field(default_factory=dict)


Grants = dict[str, dict[str, set[str]]]


class Refused(Exception):
    """The number of the refusal, and the rest of its body."""

    def __init__(self, number: int, error: str, **rest: object) -> None:
        super().__init__(number, error, rest)
        self.number = number
        self.body: Body = {"error": error, **rest}


@dataclass
class Plain:
    """A store as its opening makes it, until it is changed."""

    users: dict[str, User] = field(default_factory=lambda: {"root": User(digest("root"), list(AUTHS), set(ON_SYSTEM))})
    tables: dict[str, Table] = field(default_factory=lambda: {"points": Table("week")})
    # Who was granted what, by the name of the table or the namespace.
    on_tables: Grants = field(default_factory=lambda: {"points": {"root": set(ON_TABLES)}})
    on_namespaces: Grants = field(default_factory=dict)
    entries: list[Body] = field(default_factory=list)

    def copy(self) -> "Plain":
        """Another store of the same content."""
        users = {name: replace(user, permissions=set(user.permissions)) for name, user in self.users.items()}
        tables = {name: replace(table, rows=dict(table.rows)) for name, table in self.tables.items()}
        on_tables, on_namespaces = ({name: {user: set(held) for user, held in grants.items()} for name, grants in each.items()}
                                    for each in (self.on_tables, self.on_namespaces))
        return Plain(users, tables, on_tables, on_namespaces, list(self.entries))

    def make(self, change: Change) -> Answer:
        """Makes a change, or refuses it, and lists it."""
        number, status, body = 0, 200, DONE
        try:
            getattr(self, "make_" + change.name.replace("-", "_"))(change.user, change.target, **dict(change.fields))
        except Refused as refused:
            number, status, body = refused.number, STATUSES[refused.number], refused.body
        self.entries.append({"request": change.name, "result": number, "target": change.target, "user": change.user})
        return status, body

    def knows(self, user: str) -> bool:
        """Whether the token of this user holds."""
        return user in self.users and self.users[user].digest == digest(user)

    def find_table(self, table: str) -> Table:
        if table not in self.tables:
            raise Refused(14, "table", table=table)
        return self.tables[table]

    def find_user(self, user: str) -> User:
        if user not in self.users:
            raise Refused(15, "user", user=user)
        return self.users[user]

    def want(self, user: str, permission: str) -> None:
        """That a user has a permission on the system."""
        if permission not in self.users[user].permissions:
            raise Refused(9, "permission", permission=permission)

    def want_on_table(self, user: str, permission: str, table: str, system: str = "") -> None:
        """That a user has a permission on a table, by a grant on it or on its namespace, or one on the system in its place."""
        here, above = self.on_tables.get(table, {}), self.on_namespaces.get(table.rpartition(".")[0], {})
        if permission not in here.get(user, set()) | above.get(user, set()) and system not in self.users[user].permissions:
            raise Refused(9, "permission", permission=permission, table=table)

    def make_create_user(self, by: str, target: str, digest: str, auths: list[str]) -> None:
        if target in self.users:
            raise Refused(18, "user-exists", user=target)
        self.want(by, "CREATE_USER")
        self.users[target] = User(digest, auths)

    def make_drop_user(self, by: str, target: str) -> None:
        self.find_user(target)
        self.want(by, "DROP_USER")
        if by == target:
            raise Refused(12, "self")
        del self.users[target]
        for grants in (*self.on_tables.values(), *self.on_namespaces.values()):
            grants.pop(target, None)

    def make_token(self, by: str, target: str, digest: str) -> None:
        user = self.find_user(target)
        if by != target:
            self.want(by, "ALTER_USER")
        user.digest = digest

    def make_auths(self, by: str, target: str, auths: list[str]) -> None:
        user = self.find_user(target)
        self.want(by, "ALTER_USER")
        user.auths = auths

    def make_create_table(self, by: str, target: str, period: str) -> None:
        if target in self.tables:
            raise Refused(17, "table-exists", table=target)
        self.want(by, "CREATE_TABLE")
        self.tables[target] = Table(period)
        self.on_tables[target] = {by: set(ON_TABLES)}

    def make_drop_table(self, by: str, target: str) -> None:
        self.find_table(target)
        self.want_on_table(by, "DROP_TABLE", target, "DROP_TABLE")
        del self.tables[target], self.on_tables[target]

    def make_constraint(self, by: str, target: str, on: bool) -> None:
        table = self.find_table(target)
        self.want_on_table(by, "ALTER_TABLE", target, "ALTER_TABLE")
        table.constraint = on

    def make_period(self, by: str, target: str, period: str) -> None:
        table = self.find_table(target)
        self.want_on_table(by, "ALTER_TABLE", target, "ALTER_TABLE")
        table.period = period

    def make_grant_system(self, by: str, target: str, permission: str) -> None:
        user = self.find_user(target)
        self.want(by, "GRANT")
        user.permissions.add(permission)

    def make_revoke_system(self, by: str, target: str, permission: str) -> None:
        user = self.find_user(target)
        self.want(by, "GRANT")
        user.permissions.discard(permission)

    def held_on_table(self, by: str, target: str, user: str) -> set[str]:
        """What a user was granted on a table, for who may grant there."""
        self.find_table(target)
        self.find_user(user)
        self.want_on_table(by, "GRANT", target, "GRANT")
        return self.on_tables[target].setdefault(user, set())

    def make_grant_table(self, by: str, target: str, user: str, permission: str) -> None:
        self.held_on_table(by, target, user).add(permission)

    def make_revoke_table(self, by: str, target: str, user: str, permission: str) -> None:
        self.held_on_table(by, target, user).discard(permission)

    def held_on_namespace(self, by: str, target: str, user: str) -> set[str]:
        """What a user was granted on a namespace, for who may grant there."""
        self.find_user(user)
        grants = self.on_namespaces.setdefault(target, {})
        if "GRANT" not in grants.get(by, set()) | self.users[by].permissions:
            raise Refused(9, "permission", namespace=target, permission="GRANT")
        return grants.setdefault(user, set())

    def make_grant_namespace(self, by: str, target: str, user: str, permission: str) -> None:
        self.held_on_namespace(by, target, user).add(permission)

    def make_revoke_namespace(self, by: str, target: str, user: str, permission: str) -> None:
        self.held_on_namespace(by, target, user).discard(permission)

    def make_put(self, by: str, target: str, id: str, label: str, note: str, point: list[int]) -> None:
        table = self.find_table(target)
        self.want_on_table(by, "WRITE", target)
        if table.constraint and "".join(sorted(self.users[by].auths)) not in LABELS[label]:
            raise Refused(11, "constraint", label=label)
        table.rows[id, label] = {"id": id, "label": label, "note": note, "point": point}

    def make_delete(self, by: str, target: str, id: str, label: str) -> None:
        table = self.find_table(target)
        self.want_on_table(by, "WRITE", target)
        table.rows.pop((id, label), None)

    def answers(self) -> list[Answer]:
        """The answers to QUESTIONS."""
        tables: list[object] = [{"constraint": self.tables[name].constraint, "period": self.tables[name].period, "table": name}
                                for name in sorted(self.tables)]
        told: list[Answer] = [(200, {"users": sorted(self.users)}), (200, {"tables": tables})]
        told += [self.account(name) for name in USERS]
        told += [(200, self.account(name)[1]) if self.knows(name) else (401, {"error": "token"}) for name in USERS]
        for name in TABLES:
            told += [self.told(self.grants_on, name), self.told(self.rows_of, name)]
        told += [(200, listed(self.on_namespaces.get(name, {}))) for name in NAMESPACES]
        return told + [(200, {"entries": list(self.entries)})]

    def told(self, shown: Callable[[str], Body], name: str) -> Answer:
        try:
            return 200, shown(name)
        except Refused as refused:
            return STATUSES[refused.number], refused.body

    def grants_on(self, table: str) -> Body:
        self.find_table(table)
        return listed(self.on_tables[table])

    def rows_of(self, table: str) -> Body:
        """A page of all rows, as root is told it."""
        rows = self.find_table(table).rows.values()
        self.want_on_table("root", "READ", table)
        return {"next": None, "rows": in_order(rows)}

    def account(self, name: str) -> Answer:
        if name not in self.users:
            return 404, {"error": "user", "user": name}
        user = self.users[name]
        return 200, {"auths": sorted(user.auths), "permissions": [it for it in ON_SYSTEM if it in user.permissions], "user": name}


def listed(grants: dict[str, set[str]]) -> Body:
    """A listing of grants."""
    held = {user: [it for it in ON_TABLES if it in grants[user]] for user in sorted(grants)}
    return {"grants": [{"permissions": permissions, "user": user} for user, permissions in held.items() if permissions]}


def in_order(rows: Iterable[Body]) -> list[Body]:
    """Rows by id and label."""
    return sorted(rows, key=lambda row: (str(row["id"]), str(row["label"])))


SCAN = {"auths": AUTHS, "box": BOX, "limit": 1000}
QUESTIONS = [
    request("GET", "/users"), request("GET", "/tables"),
    *(request("GET", f"/users/{name}") for name in USERS), *(request("GET", "/whoami", None, name) for name in USERS),
    *(text for name in TABLES for text in (request("GET", f"/tables/{name}/grants"), request("POST", f"/tables/{name}/scan", SCAN))),
    *(request("GET", f"/namespaces/{name}/grants") for name in NAMESPACES), request("GET", "/audit"),
]


def comparable(answer: Answer) -> Answer:
    """The answer to one of QUESTIONS with its rows by id and label, since scan order is not told here."""
    status, body = answer
    rows = body.get("rows")
    return (status, {**body, "rows": in_order(rows)}) if isinstance(rows, list) else answer
