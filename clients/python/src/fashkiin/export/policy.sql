-- Which authorizations each role holds. Insert a row to give one, delete it to take it away. Each query reads all of them: by an
-- index on the role, PostgreSQL's counters would show everybody how many another role holds.
create table fashkiin.authorizations (
  role regrole not null,
  name text not null check (name <> ''),
  constraint "authorizations key" exclude using hash ((array[role::oid::text, name]) with =)
);

-- Those of the current user.
create view fashkiin.held with (security_barrier) as
  select array_to_tsvector(coalesce(array_agg(a.name), '{}')) as names
  from fashkiin.authorizations a
  where a.role = (select r.oid from pg_roles r where r.rolname = current_user);

-- What a label needs, as a query of these names. A label is a visibility expression of Accumulo: empty, which needs nothing, or terms
-- joined by & or by |, with parentheses where both are; at most 16 are open at once. Null for the empty label and for other texts.
create function fashkiin.needs(label text) returns tsquery language sql immutable strict
return (
  with recursive reduced (depth, shape) as (
    select 0, regexp_replace(label, '"(?:[^"\\]|\\["\\])+"|[A-Za-z0-9_:./-]+', 'w', 'g')
    union all -- the innermost parentheses become words
    select depth + 1, regexp_replace(shape, '[(](?:w(?:&w)*|w(?:[|]w)*)[)]', 'w', 'g') from reduced where depth < 16
  )
  select regexp_replace(replace(label, '''', ''''''), '"((?:[^"\\]|\\["\\])+)"|([A-Za-z0-9_:./-]+)', '''\1\2''', 'g')::tsquery
  from reduced where depth = 16 and shape ~ '^(?:w(?:&w)*|w(?:[|]w)*)$'
);

-- The labels of each table. A query judges each of them once, not each row. Neither they nor the rows are in an index with an order:
-- EXPLAIN ANALYZE of a plan that goes by one counts what lies between two texts.
create table fashkiin.labels (
  rel regclass not null,
  label text not null,
  needs tsquery,
  constraint "labels key" exclude using hash ((array[rel::oid::text, label]) with =),
  check (label = '' or needs is not null)
);

-- Lists the label of a row that is written.
create function fashkiin.list_label() returns trigger language plpgsql security definer set search_path = pg_catalog, pg_temp
as $$
declare
  needs constant pg_catalog.tsquery := fashkiin.needs(new.label);
begin
  if needs is null and new.label <> '' then
    raise exception 'no label: %', new.label using errcode = 'data_exception';
  end if;
  insert into fashkiin.labels values (tg_relid, new.label, needs) on conflict do nothing;
  return new;
end
$$;

-- Refuses a label that is not true for the current user.
create function fashkiin.check_label() returns trigger language plpgsql set search_path = pg_catalog, pg_temp
as $$
begin
  if new.label = '' or (select h.names from fashkiin.held h) @@ fashkiin.needs(new.label) then
    return new;
  end if;
  raise exception 'the label % is not true for %', new.label, current_user using errcode = 'insufficient_privilege';
end
$$;

-- Writes the rows of a view into the table that its trigger names. A new row takes the place of the one with its id and label.
create function fashkiin.write_row() returns trigger language plpgsql security definer set search_path = pg_catalog, pg_temp
as $$
declare
  remove constant pg_catalog.text := format('delete from %s where array[id, label] = array[$1, $2]', tg_argv[0]);
  put constant pg_catalog.text := format('insert into %s select ($1).* on conflict do nothing', tg_argv[0]);
  written pg_catalog.int8;
begin
  if tg_op <> 'INSERT' then
    execute remove using old.id, old.label;
    get diagnostics written = row_count;
    if written = 0 then -- another removed it
      return null;
    elsif tg_op = 'DELETE' then
      return old;
    end if;
  end if;
  loop
    execute remove using new.id, new.label;
    execute put using new;
    get diagnostics written = row_count;
    exit when written = 1;
  end loop;
  return new;
end
$$;

revoke execute on all functions in schema fashkiin from public;
alter table fashkiin.authorizations enable row level security;
alter table fashkiin.authorizations alter role set statistics 0, alter name set statistics 0;
alter index fashkiin."authorizations key" alter 1 set statistics 0;
alter table fashkiin.labels enable row level security;
alter table fashkiin.labels alter rel set statistics 0, alter label set statistics 0, alter needs set statistics 0;
alter index fashkiin."labels key" alter 1 set statistics 0;
