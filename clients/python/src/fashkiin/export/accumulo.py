"""Commands, converters and CSV that make the store anew in GeoMesa on Accumulo.

They follow the documents of Accumulo 2.1 and GeoMesa 4, and were run with neither.
"""

from __future__ import annotations

import csv
import hashlib
import re
from collections.abc import Iterator
from pathlib import Path

from fashkiin.cells import time_text
from fashkiin.errors import SettingsError
from fashkiin.export.store import Export, ExportError, TableExport
from fashkiin.rows import Row, to_json
from fashkiin.texts import open_private

FIELDS = ("fid", "id", "label", "lon", "lat", "dtg", "properties")
CONSTRAINT = "org.apache.accumulo.core.data.constraints.VisibilityConstraint"

README = """\
Made by `fashkiin export accumulo`, by the documents of Accumulo 2.1 and GeoMesa 4. It was run with neither of them: look
through it before you use it.

1. before.txt makes users, authorizations and namespaces: `accumulo shell -u root`, and its lines. Each `createuser` asks for a
   password, since secrets cannot be exported.
2. For each table, TABLE being its name, load the rows. Each carries its label as its visibility:

       geomesa-accumulo ingest -c TABLE -s TABLE.sft.conf -C TABLE.converter.conf TABLE.csv

3. after.txt grants permissions on the tables that GeoMesa made, again as lines of the shell. Where a table takes only rows that
   their writer could see, it says so in a comment: set the constraint on each table of GeoMesa's.

The rows are those that the exporter saw.
"""


def write(export: Export, folder: Path) -> None:
    """Writes the files, for their owner alone, into a new folder.

    `SettingsError` where the folder is there, `ExportError` for what the shell cannot say.
    """
    before, after = list(_before(export)), list(_after(export))
    try:
        folder.mkdir(mode=0o700, parents=True)
    except OSError as error:
        raise SettingsError(f"{folder}: {error.strerror}, wanted the name of a folder to make") from None
    texts = {"README": README, "before.txt": "".join(before), "after.txt": "".join(after)}
    for table in export.tables:
        texts |= {f"{table.name}.sft.conf": _schema(table), f"{table.name}.converter.conf": CONVERTER}
    for name, text in texts.items():
        with open_private(folder / name) as file:
            file.write(text)
    for table in export.tables:
        with open_private(folder / f"{table.name}.csv") as file:
            writer = csv.writer(file)
            writer.writerow(FIELDS)
            writer.writerows(map(_fields, export.rows(table)))


def _before(export: Export) -> Iterator[str]:
    for user in export.users:
        if user.user != "root":
            yield f"createuser {user.user}\n"
        if user.auths:
            yield f"setauths -u {user.user} -s {word(','.join(map(_auth, user.auths)))}\n"
        for permission in user.permissions:
            yield f"grant System.{permission} -s -u {user.user}\n"
    for namespace in sorted({table.namespace for table in export.tables if table.namespace is not None}):
        yield f"createnamespace {namespace}\n"


def _after(export: Export) -> Iterator[str]:
    seen = set()
    for table in export.tables:
        pattern = word(table.name.replace(".", "[.]") + "(_.*)?")
        for grantee in table.grants:
            for permission in grantee.permissions:
                yield f"grant Table.{permission} -p {pattern} -u {grantee.user}\n"
        if table.namespace is not None and table.namespace not in seen:
            seen.add(table.namespace)
            for grantee in table.namespace_grants:
                for permission in grantee.permissions:
                    yield f"grant Namespace.{permission} -ns {table.namespace} -u {grantee.user}\n"
        if table.info.constraint:
            yield f"# for each table whose name begins with {table.name}: constraint -t NAME -a {CONSTRAINT}\n"


def _auth(auth: str) -> str:
    """An authorization in the shell's list, which a comma would cut."""
    if "," in auth:
        raise ExportError(f"{auth!r}: Accumulo's shell cannot set an authorization with a comma in it")
    return auth


def word(text: str) -> str:
    """A word of the shell: as it is, or in quotes with a backslash before what it must not end at."""
    if re.fullmatch(r"[A-Za-z0-9_,:./-]+", text):
        return text
    if not text.isprintable() or not text.isascii():
        raise ExportError(f"{text!r}: wanted printable ASCII in what Accumulo's shell is told")
    return '"' + text.replace("\\", "\\\\").replace('"', '\\"') + '"'


def _schema(table: TableExport) -> str:
    """The feature type, whose time bins are as long as the table's."""
    name = table.name.rpartition(".")[2]
    return f"""{{
  type-name = "{name}"
  attributes = [
    {{ name = "id", type = "String" }}
    {{ name = "dtg", type = "Date", default = true }}
    {{ name = "geom", type = "Point", srid = 4326, default = true }}
    {{ name = "properties", type = "String" }}
  ]
  user-data = {{ geomesa.z3.interval = "{table.info.period}" }}
}}
"""


CONVERTER = """{
  type = "delimited-text"
  format = "RFC4180"
  options = { skip-lines = 1 }
  id-field = "$1"
  user-data = { geomesa.feature.visibility = "$3" }
  fields = [
    { name = "id", transform = "$2" }
    { name = "lon", transform = "$4::double" }
    { name = "lat", transform = "$5::double" }
    { name = "geom", transform = "point($lon, $lat)" }
    { name = "dtg", transform = "isoDateTime($6)" }
    { name = "properties", transform = "$7" }
  ]
}
"""


def _fields(row: Row) -> tuple[str, ...]:
    """The fields of a row. The first names it in GeoMesa: a hash of the id's length, the id and the label."""
    name = hashlib.sha256(f"{len(row.id)}:{row.id}{row.label}".encode()).hexdigest()
    return name, row.id, row.label, repr(row.lon), repr(row.lat), time_text(row.time), to_json(row.properties)
