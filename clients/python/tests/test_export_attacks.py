"""The export in PostgreSQL against its own roles: they get no row, word, count or right but those that their labels show."""

from __future__ import annotations

import time
from collections.abc import Iterator
from contextlib import closing, suppress

import psycopg2
import pytest
from exported import AUTHS, ROWS, Both, Select, load, run
from postgres import SUPERUSER
from psycopg2 import errors

# Types in front of PostgreSQL's own: their checks keep who runs them, and what word they are given.
TYPES = """
create function pg_temp.hear(word pg_catalog.text) returns boolean language plpgsql as $$
begin
  perform pg_catalog.set_config('attack.heard', pg_catalog.concat(
    pg_catalog.current_setting('attack.heard', true), current_user, ' ', word, '; '), false);
  return true;
end $$;
create domain pg_temp.text as pg_catalog.text check (pg_temp.hear(value));
create domain pg_temp.tsquery as pg_catalog.tsquery check (pg_temp.hear(value::pg_catalog.text));
create domain pg_temp.int8 as pg_catalog.int8 check (pg_temp.hear(value::pg_catalog.text));
"""
HEARD = "select coalesce(pg_catalog.current_setting('attack.heard', true), '')"
COUNT = "select count(*) from geo.trips"
FUNCTIONS = "from pg_proc f join pg_roles o on o.oid = f.proowner where pronamespace = 'fashkiin'::regnamespace"
# Tables and views of the policy, and what PostgreSQL keeps of them elsewhere.
BEHIND = """
select c.oid::regclass::text from pg_class c join pg_namespace n on n.oid = relnamespace
where nspname ~ '^fashkiin' and relkind in ('r', 'v') or c.oid in (
  select b.reltoastrelid from pg_class b join pg_namespace m on m.oid = b.relnamespace where m.nspname ~ '^fashkiin'
)
"""


@pytest.fixture
def eve(both: Both) -> Iterator[Select]:
    """What eve selects, who holds no authorization, reads `geo.trips`, and may create in `public`."""
    both.select(SUPERUSER, "grant create on schema public to eve")
    with both.selects("eve") as select:
        yield select
    both.select(SUPERUSER, "revoke create on schema public from eve")


@pytest.fixture(scope="module")
def stranger(both: Both) -> Iterator[Select]:
    """What a role without any grant selects."""
    both.select(SUPERUSER, "create role stranger login")
    with both.selects("stranger") as select:
        yield select


def test_a_trigger_on_a_temporary_table_runs_nothing_as_the_owner(both: Both, eve: Select) -> None:
    eve(TYPES)
    eve("create temporary table mine (id pg_catalog.text, label pg_catalog.text)")
    for (name,) in both.select(SUPERUSER, f"select proname {FUNCTIONS} and prorettype = 'trigger'::regtype"):
        with suppress(psycopg2.Error):
            eve(f"create trigger {name} before insert on mine for each row execute function fashkiin.{name}('pg_temp.mine')")
    with suppress(psycopg2.Error):
        eve("insert into mine values ('a', 'A')")
    assert eve(HEARD) == [("",)]


def test_a_temporary_type_is_given_no_word_of_a_label(eve: Select) -> None:
    eve(TYPES)
    eve("set search_path = pg_temp, public, pg_catalog")
    assert eve(COUNT) != [(0,)]
    assert eve(HEARD) == [("",)]


def test_operators_of_ones_own_show_no_row(eve: Select) -> None:
    seen = eve(COUNT)
    eve("begin")
    for left, sign, right in (("text", "=", "text"), ("oid", "=", "oid"), ("name", "=", "name"), ("tsvector", "@@", "tsquery")):
        eve(f"create function public.yes({left}, {right}) returns boolean language sql immutable as 'select true'")
        eve(f"create operator public.{sign} (leftarg = {left}, rightarg = {right}, function = public.yes)")
    eve("set search_path = public, pg_catalog")
    assert eve(COUNT) == seen
    eve("rollback")


def test_functions_that_wait_in_public_are_not_what_the_script_means(both: Both) -> None:
    """By the types of their arguments they are nearer than PostgreSQL's own."""
    made = run(both.port, both.folder, "root", "export", "postgis", "--table", "points", "--role-prefix", "late_").stdout
    waiting = b"create function public.has_table_privilege(regclass, text) returns boolean language sql as 'select true';"
    waiting += b"create function public.array_agg(text) returns text[] language sql as 'select null::text[]';"
    loaded = load(both.socket, "late", waiting + made)
    assert (loaded.returncode, loaded.stderr) == (0, b"")
    with closing(psycopg2.connect(host=str(both.socket), user=SUPERUSER, dbname="late")) as connection:
        cursor = connection.cursor()
        cursor.execute(
            "select count(distinct f.oid), count(d) from pg_proc f left join pg_depend d on d.refobjid = f.oid"
            " where pronamespace = 'public'::regnamespace and proname in ('has_table_privilege', 'array_agg')"
        )
        assert cursor.fetchone() == (2, 0)


def test_no_function_is_the_publics_or_runs_as_a_superuser(both: Both) -> None:
    """Their owner neither logs in nor has a right, and nobody is a member of it."""
    assert both.select(SUPERUSER, f"select count(*) > 0 {FUNCTIONS}") == [(True,)]
    assert both.select(SUPERUSER, f"select proname {FUNCTIONS} and (proacl is null or proacl::text ~ '[{{,]=')") == []
    rights = "rolsuper or rolcanlogin or rolcreaterole or rolcreatedb or rolreplication or rolbypassrls"
    rights += " or exists (select from pg_auth_members m where m.roleid = o.oid or m.member = o.oid)"
    assert both.select(SUPERUSER, f"select proname, rolname {FUNCTIONS} and ({rights})") == []
    fixed = "array_to_string(proconfig, ';') ~ 'search_path=pg_catalog, pg_temp'"
    assert both.select(SUPERUSER, f"select proname {FUNCTIONS} and prosqlbody is null and ({fixed}) is not true") == []


def test_a_user_reads_nothing_behind_the_views(both: Both, eve: Select) -> None:
    behind = [name for (name,) in both.select(SUPERUSER, BEHIND)]
    assert len(behind) > 2
    for name in behind:
        with pytest.raises(errors.InsufficientPrivilege):
            eve(f"select 1 from {name}")


def test_a_role_without_a_grant_reads_nothing(both: Both, stranger: Select) -> None:
    for (name,) in [*both.select(SUPERUSER, BEHIND), ("geo.trips",), ("points",)]:
        with pytest.raises(errors.InsufficientPrivilege):
            stranger(f"select 1 from {name}")
    roles = [name for (name,) in stranger("select rolname from pg_roles")]
    assert not [(role, auth) for role in roles for auth in AUTHS if len(auth) > 1 and auth in role]


def test_a_role_that_reads_all_data_sees_what_needs_no_authorization(both: Both) -> None:
    both.select(SUPERUSER, "create role auditor login; grant pg_read_all_data to auditor")
    with both.selects("auditor") as select:
        assert select(COUNT) == both.select("eve", COUNT)
        assert select('select count(*) from "fashkiin.geo".trips') == select("select count(*) from fashkiin.labels") == [(0,)]


@pytest.mark.parametrize("schema", ["geo", "fashkiin.geo"])
def test_statistics_tell_no_place_of_a_row(both: Both, stranger: Select, schema: str) -> None:
    """They are gathered by the autovacuum daemon, and read by functions of PostGIS without regard to rights."""
    both.select(SUPERUSER, f'analyze "{schema}".trips' if schema != "geo" else "analyze")
    assert both.select(SUPERUSER, "select tablename, attname from pg_stats where schemaname ~ %s", f"^{schema}$") == []
    assert stranger("select st_estimatedextent(%s, 'trips', 'geom')", schema) == [(None,)]


COUNTERS = """
select relname, seq_scan, seq_tup_read, coalesce(idx_tup_fetch, 0), coalesce(
  (select sum(i.idx_tup_read) from pg_stat_all_indexes i where i.relid = t.relid), 0)
from pg_stat_all_tables t where schemaname ~ '^fashkiin' order by schemaname, relname
"""


def moved(both: Both, watcher: Select, user: str) -> list[tuple[int, ...]]:
    """By how much a user's query moves the counters that another sees: of each table, by scans and by rows."""
    before = after = watcher(COUNTERS)
    both.select(user, COUNT)
    end = time.monotonic() + 10
    while after == before and time.monotonic() < end:  # the query's session ends
        time.sleep(0.2)
        after = watcher(COUNTERS)
    time.sleep(0.2)
    after = watcher(COUNTERS)
    return [tuple(new - old for new, old in zip(now[1:], was[1:], strict=True)) for now, was in zip(after, before, strict=True)]


def test_counters_do_not_tell_what_another_user_holds(both: Both, stranger: Select) -> None:
    seen = moved(both, stranger, "eve")
    assert any(any(table) for table in seen)
    assert moved(both, stranger, "ann") == moved(both, stranger, "bob") == seen


HIDDEN = next(row for row in ROWS if row.label == "A")
# A condition that a hidden row meets, and the same that no row meets.
CONDITIONS: list[tuple[str, object, object]] = [
    ("label = %s", "A", "D"),
    ("label > %s and label < 'Z'", "9", "Y"),
    ("id = %s", HIDDEN.id, "none"),
    ("time = %s", HIDDEN.time, "2000-01-01"),
    ("x = %s", HIDDEN.point()[0], 1),
    ("geom && st_expand(st_point(%s, -90, 4326), 170)", 10, 1000),
]
SETTINGS = ["set enable_seqscan = on", "set enable_seqscan = off", "set work_mem = '64kB'; set enable_indexscan = off"]
TOUCHED = """
select sum(pg_stat_get_xact_tuples_returned(oid) + pg_stat_get_xact_tuples_fetched(oid)) from pg_class
where relkind in ('r', 'i') and relnamespace <> 'pg_catalog'::regnamespace
"""


@pytest.mark.parametrize("setting", SETTINGS)
@pytest.mark.parametrize("condition", CONDITIONS, ids=range(len(CONDITIONS)))
def test_explain_analyze_and_counters_are_the_same_where_hidden_rows_meet_a_condition(
    eve: Select, condition: tuple[str, object, object], setting: str
) -> None:
    text, *values = condition
    eve(f"set jit = off; set max_parallel_workers_per_gather = 0; {setting}")
    told = []
    for value in values:
        query = f"select 1 from geo.trips where label <> '' and {text}"
        assert eve(query, value) == []
        eve("begin")
        [(before,)] = eve(TOUCHED)
        plan = [line for (line,) in eve(f"explain (analyze, timing off, summary off) {query}", value)]
        [(after,)] = eve(TOUCHED)
        eve("rollback")
        told.append((after - before, [line for line in plan if "Filter: (" not in line and "Cond: (" not in line]))
    assert told[0] == told[1]
