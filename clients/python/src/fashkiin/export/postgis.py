"""SQL that makes the store anew in PostgreSQL with PostGIS.

A user is a role. A table is a view, which shows each role the rows whose label is true for its authorizations. What views read
belongs to a role that nobody can log in as. `HEADER` says what PostgreSQL shows of the rest.
"""

from __future__ import annotations

import re
from collections.abc import Iterator
from importlib.resources import files

from fashkiin.cells import time_text
from fashkiin.export.store import READ, WRITE, Export, ExportError, TableExport
from fashkiin.rows import Row, to_json

NAME_BYTES = 63
POLICY_SCHEMA = "fashkiin"
TABLE_SCHEMA = "public"
COLUMNS = ("id", "label", "geom", "time", "properties", "x", "y", "t")

HEADER = r"""-- Made by `fashkiin export postgis`. To load it, as a superuser: psql -X -d DATABASE -f FILE
-- It holds all rows that the exporter saw: keep it in a file that you alone may read (umask 077).
--
-- It makes users as roles without passwords, and a view for each table, which shows a role the rows whose label is true for the
-- authorizations that fashkiin.authorizations lists for that role. The tables behind the views, and the functions, belong to a
-- role without login and without rights. READ is SELECT on the view. WRITE is INSERT, UPDATE and DELETE: an INSERT replaces the
-- row of the same id and label, as a put does; UPDATE and DELETE find rows that the role sees. Permissions ALTER_TABLE, GRANT and
-- DROP_TABLE, those on the system, and grants on namespaces for tables to come have no equal here, and are left out.
--
-- A query reads all rows of its table, and judges their labels before anything else that it asks. So no index serves it, and
-- none is made: with an index, or an operator declared LEAKPROOF, on a table with row-level security, EXPLAIN ANALYZE counts the
-- hidden rows of any box, time or range of texts.
--
-- PostgreSQL shows to each role of the database the names of users and tables, and how many rows, labels and authorizations there
-- are in all, hidden ones too: in pg_class and pg_stat_all_tables, by EXPLAIN ANALYZE and by time. A query that stops early shows
-- how many hidden rows lie before those that it tells; the script loads rows in random order, and later ones lie as they were
-- written. By PostgreSQL's counters a writer can tell whether the row or the label that he wrote was there already.
\set ON_ERROR_STOP on
\set QUIET on
set client_encoding = 'UTF8';
set standard_conforming_strings = on;
begin;
create extension if not exists postgis;
set local search_path = pg_catalog, pg_temp;
select extnamespace::regnamespace as postgis from pg_extension where extname = 'postgis' \gset
"""

_COPY_ESCAPES = str.maketrans({"\\": r"\\", "\t": r"\t", "\n": r"\n", "\r": r"\r"})
_NUL_IN_JSON = re.compile(r"(?<!\\)(?:\\\\)*\\u0000")


def identifier(name: str) -> str:
    """A name as SQL has it."""
    return '"' + name.replace('"', '""') + '"'


def literal(text: str) -> str:
    """A text as SQL has it, with standard_conforming_strings."""
    return "'" + text.replace("'", "''") + "'"


def copied(text: str) -> str:
    """A text as a field of COPY's text format."""
    return text.translate(_COPY_ESCAPES)


class Names:
    """The names in PostgreSQL, whose roles all databases of a cluster share; each role's begins with a prefix."""

    def __init__(self, prefix: str = "") -> None:
        self._prefix = prefix

    @property
    def owner(self) -> str:
        """The role that owns what is made. No user has a colon in its name."""
        return self._fits(f"{self._prefix}{POLICY_SCHEMA}:owner", "the owner")

    def user(self, user: str) -> str:
        """The role of a user; `ExportError` where PostgreSQL reserves the name."""
        name = self._prefix + user
        if name.startswith("pg_") or name in ("public", "none"):
            raise ExportError(f"{user}: PostgreSQL reserves this name of a role, wanted a prefix (--role-prefix)")
        return self._fits(name, user)

    def table(self, name: str) -> tuple[str, str]:
        """The schema and the view of a table; `ExportError` where the schema is PostgreSQL's or the policy's."""
        schema, dot, table = name.partition(".")
        if not dot:
            return TABLE_SCHEMA, name
        if schema in (POLICY_SCHEMA, TABLE_SCHEMA, "information_schema") or schema.startswith("pg_"):
            raise ExportError(f"{name}: the schema {schema} is taken in PostgreSQL, wanted tables of other namespaces (--table)")
        return schema, table

    def _fits(self, name: str, of: str) -> str:
        if len(name.encode()) > NAME_BYTES or "\0" in name:
            raise ExportError(f"{of}: {name!r} is no name of a role in PostgreSQL, wanted a shorter prefix")
        return name


def hidden(schema: str) -> str:
    """The schema of the tables behind the views of a schema. No namespace has a dot in its name."""
    return f"{POLICY_SCHEMA}.{schema}"


def sql(export: Export, names: Names) -> Iterator[str]:
    """The lines of the script; `ExportError` where PostgreSQL cannot hold a name or a text."""
    tables = [(table, *names.table(table.name)) for table in export.tables]
    owner = identifier(names.owner)
    yield HEADER
    yield f"create role {owner};\ncreate schema fashkiin authorization {owner};\nset local role {owner};\n"
    yield files("fashkiin.export").joinpath("policy.sql").read_text(encoding="utf-8")
    yield "reset role;\n"
    yield from _users(export, names)
    for schema in sorted({schema for _, schema, _ in tables}):
        made = [hidden(schema)] if schema == TABLE_SCHEMA else [schema, hidden(schema)]
        yield from (f"create schema {identifier(name)} authorization {owner};\n" for name in made)
    for table, schema, name in tables:
        view, rows = (f"{identifier(of)}.{identifier(name)}" for of in (schema, hidden(schema)))
        yield from _rows(export, table, rows)
        yield _guards(rows, identifier(hidden(schema)), identifier(f"{name} key"), owner)
        yield _view(view, rows, owner, table.info.constraint)
        yield from _grants(names, table, schema, view)
    yield "commit;\n"


def _users(export: Export, names: Names) -> Iterator[str]:
    for user in export.users:
        role = identifier(names.user(user.user))
        yield f"create role {role} login;\n"
        for auth in user.auths:
            if "\0" in auth:
                raise ExportError(f"{auth!r}: PostgreSQL has no NUL in a text")
            yield f"insert into fashkiin.authorizations values ({literal(role)}, {literal(auth)});\n"


def _rows(export: Export, table: TableExport, rows: str) -> Iterator[str]:
    """The table behind a view, with its rows in an order that tells nothing."""
    columns = ", ".join(COLUMNS)
    yield f"""
create table {rows} (
  id text not null,
  label text not null,
  geom :postgis.geometry(Point, 4326) not null,
  time timestamptz not null,
  properties jsonb not null default '{{}}',
  x integer not null, -- the cell and the second that the server counts by
  y integer not null,
  t bigint not null
);
create temporary table loaded (like {rows});
copy pg_temp.loaded ({columns}) from stdin;
"""
    for row in export.rows(table):
        yield _line(table.name, row)
    yield f"""\\.
insert into {rows} ({columns}) select {columns} from pg_temp.loaded order by random();
drop table pg_temp.loaded;
"""


def _guards(rows: str, schema: str, key: str, owner: str) -> str:
    """What keeps the rows of a table: a key without an order, a list of their labels, no statistics of what they hold."""
    return f"""\
alter table {rows} add constraint {key} exclude using hash ((array[id, label]) with =);
alter index {schema}.{key} alter 1 set statistics 0;
alter table {rows} {", ".join(f"alter {column} set statistics 0" for column in COLUMNS)};
insert into fashkiin.labels
  select {literal(rows)}::regclass, label, fashkiin.needs(label) from {rows} group by label order by random();
create trigger list_label before insert or update of label on {rows} for each row execute function fashkiin.list_label();
alter table {rows} enable row level security;
alter table {rows} owner to {owner};
"""


def _view(view: str, rows: str, owner: str, constraint: bool) -> str:
    """What users see of a table. `is true` keeps rows and labels from being joined, `offset 0` a WHERE from moving inside."""
    triggers = f"""\
create trigger write_row instead of insert or update or delete on {view}
  for each row execute function fashkiin.write_row({literal(rows)});
"""
    if constraint:
        triggers += f"""\
create trigger check_label instead of insert or update on {view}
  for each row execute function fashkiin.check_label();
"""
    return f"""\
create view {view} with (security_barrier) as
  select {", ".join(COLUMNS)} from {rows} where (label in (
    select l.label from fashkiin.labels l
    where l.rel = {literal(rows)}::regclass and has_table_privilege({literal(view)}, 'select')
      and (l.label = '' or (select h.names from fashkiin.held h) @@ l.needs)
  )) is true offset 0;
alter view {view} alter properties set default '{{}}';
alter view {view} owner to {owner};
{triggers}"""


def _grants(names: Names, table: TableExport, schema: str, view: str) -> Iterator[str]:
    for user in sorted({*table.holders(READ), *table.holders(WRITE)}):
        yield f"grant usage on schema {identifier(schema)} to {identifier(names.user(user))};\n"
    for permission, privileges in ((READ, "select"), (WRITE, "insert, update, delete")):
        for user in table.holders(permission):
            yield f"grant {privileges} on {view} to {identifier(names.user(user))};\n"
    for user in table.holders(WRITE) if table.info.constraint else ():
        role = identifier(names.user(user))
        yield f"grant usage on schema fashkiin to {role};\n"
        yield f"grant select on fashkiin.held to {role};\ngrant execute on function fashkiin.needs to {role};\n"


def _line(table: str, row: Row) -> str:
    """The line of a row for COPY."""
    properties = to_json(row.properties)
    if "\0" in row.id or "\0" in row.label or _NUL_IN_JSON.search(properties):
        raise ExportError(f"{table}: row {row.id!r} with label {row.label!r}: PostgreSQL has no NUL in a text")
    x, y, t = row.point()
    texts = (row.id, row.label, f"SRID=4326;POINT({row.lon!r} {row.lat!r})", time_text(row.time), properties)
    return "\t".join([*map(copied, texts), f"{x}\t{y}\t{t}\n"])
