"""`fashkiin load`."""

from __future__ import annotations

import argparse
import codecs
import contextlib
import time
from collections.abc import Callable, Sequence
from dataclasses import replace
from pathlib import Path

from fashkiin.cells import parse_time
from fashkiin.client import LARGEST_WINDOW, Client
from fashkiin.commands import DONE, REJECTED, Command, Session
from fashkiin.commands.sources import format_for, opened
from fashkiin.commands.where import add_table, make_table
from fashkiin.errors import ConnectError, CutOffError, EdgeError, FashkiinError, InputError, SettingsError, shown
from fashkiin.faults import Fault, Rejects
from fashkiin.formats import FORMATS, Format, Names, Source
from fashkiin.loading import Loader
from fashkiin.progress import Progress
from fashkiin.reading import DAMAGED, numbers
from fashkiin.texts import open_private_bytes

FIELDS = {"lon": "longitude", "lat": "latitude", "time": "time", "label": "label"}
GO_ON = "run the same command again: it goes on, and stores no row twice"
STEM_BYTES = 44


def add_names(parser: argparse.ArgumentParser) -> None:
    """How a file names the fields of its rows."""
    several = "the column or property of the id; several are joined by slashes, and a slash in one is %%2F"
    parser.add_argument("--id-column", action="append", default=[], metavar="NAME", help=several)
    for field, what in FIELDS.items():
        parser.add_argument(f"--{field}-column", default="", metavar="NAME", help=f"the column or property of the {what}")
    between = "between the columns of CSV, tab for a tab; if left out, a comma, or the semicolon or tab that the header has"
    parser.add_argument("--delimiter", default="", metavar="CHARACTER", help=between)


def read_names(arguments: argparse.Namespace) -> Names:
    """The names that the arguments say."""
    delimiter = "\t" if arguments.delimiter == "tab" else arguments.delimiter
    if len(delimiter) > 1 or delimiter in ('"', "\r", "\n"):
        raise SettingsError(f"--delimiter: {delimiter!r}, wanted one character, or tab")
    return Names(
        id=tuple(arguments.id_column),
        lon=arguments.lon_column,
        lat=arguments.lat_column,
        time=arguments.time_column,
        label=arguments.label_column,
        delimiter=delimiter,
    )


def _arguments(parser: argparse.ArgumentParser) -> None:
    add_table(parser)
    parser.add_argument("files", nargs="+", metavar="FILE", help="CSV, GeoJSON, lines of JSON or GPX; - reads standard input")
    parser.add_argument("--format", choices=FORMATS, help="the format; by the file's name or its first bytes, if left out")
    add_names(parser)
    parser.add_argument(
        "--number", metavar="PREFIX", help="ids of rows without one: PREFIX-1, PREFIX-2 ..; the file's name, if left out"
    )
    parser.add_argument("--default-label", metavar="LABEL", help="the label of rows without one; '' shows them to everybody")
    wkt = "the column of CSV with the position as WKT, POINT(lon lat)"
    parser.add_argument("--point-column", default="", metavar="NAME", help=wkt)
    mapping = "in lines of JSON: where a field is, such as lon=position.0; FIELD is id, lon, lat, time or label"
    parser.add_argument("--map", action="append", default=[], metavar="FIELD=PATH", help=mapping)
    staying = "a column of CSV, or an element of GPX, that stays a text, though it is a number throughout its file"
    encoding = "the encoding of CSV or GPX, such as latin-1; if left out, UTF-8, or the one that GPX names"
    parser.add_argument("--encoding", default="", metavar="NAME", help=encoding)
    parser.add_argument("--skip", type=int, default=0, metavar="LINES", help="lines before the header of CSV")
    parser.add_argument("--default-time", metavar="TIME", help="the time of rows without one")
    parser.add_argument("--wrap", action="store_true", help="longitudes of 180 to 360 degrees are those of -180 to 0")
    parser.add_argument("--dry-run", action="store_true", help="read and check the files, and store nothing")
    parser.add_argument("--text", action="append", default=[], metavar="NAME", help=staying)
    parser.add_argument("--only", metavar="NAME,..", help="keep these properties alone")
    parser.add_argument("--time-format", choices=("iso", "unix", "unix-ms"), default="iso", help="how times are written")
    parser.add_argument("--create", action="store_true", help="make the table first, where it is not there")
    constraint = "with --create: the table takes no row that its writer could not see"
    parser.add_argument("--constraint", action="store_true", help=constraint)
    parser.add_argument("--period", choices=("day", "week"), default="week", help="the length of its time bins, week if left out")
    replacing = "delete the rows of the same ids that you see under other labels, once the new ones are stored"
    parser.add_argument("--replace", action="store_true", help=replacing)
    parser.add_argument("--on-error", choices=("stop", "skip"), default="stop", help="at a row that cannot be stored")
    mended = "write the rows that cannot be stored here as they are, to be mended and loaded, and go on"
    parser.add_argument("--rejects", metavar="FILE", help=mended)
    parser.add_argument(
        "--window", type=int, default=64, metavar="ROWS", help=f"rows on their way at a time, 1 to {LARGEST_WINDOW}"
    )
    parser.add_argument("--quiet", action="store_true", help="show no progress")


def _run(session: Session, arguments: argparse.Namespace) -> int:
    if not 1 <= arguments.window <= LARGEST_WINDOW:
        raise SettingsError(f"--window: {arguments.window}, wanted 1 to {LARGEST_WINDOW}")
    names = _all_names(arguments)
    if arguments.constraint and not arguments.create:
        raise SettingsError("--constraint: wanted with --create; of a table that is there: fashkiin tables constraint TABLE on")
    _check_stems(arguments)
    start = time.monotonic()
    progress = None if arguments.quiet else Progress()
    with contextlib.ExitStack() as stack:
        client = stack.enter_context(session.client())
        creation = _Creation(client, arguments)
        rejects = _rejects(arguments, stack)
        reject = _reject(session, arguments, progress, rejects)
        step = progress.step if progress else None
        loader = Loader(client, arguments.table, arguments.window, reject, step, creation.begin, arguments.replace)
        try:
            for file in arguments.files:
                if progress is not None:
                    progress.begin(loader.tally)
                with opened(file) as source:
                    form = format_for(source, arguments)
                    if rejects is not None:
                        rejects.begin(source, form)
                    work = loader.check if arguments.dry_run else loader.load
                    work(source, form, _typed(client, _numbered(names, source), source, form, arguments.text))
                    if source.dropped:
                        session.say(f"{file}: not kept: {', '.join(source.dropped)}")
            if not arguments.dry_run and not loader.tally.read:
                creation.begin()  # Files without a row make the table too.
            if rejects is not None and rejects.rows:
                session.say(f"fashkiin: {rejects.rows:,} rows are in {rejects.name}: mend them there, and load it as this file")
        except KeyboardInterrupt:
            session.say(f"fashkiin: interrupted, {GO_ON}")
            raise
        except (ConnectError, CutOffError, EdgeError) as error:
            raise CutOffError(f"{error}, {GO_ON}") from None
        except FashkiinError:
            creation.undo(loader)
            raise
        finally:
            if progress is not None:
                progress.clear()
            _tell(session, arguments, loader, time.monotonic() - start)
    return REJECTED if loader.tally.rejected else DONE


def _all_names(arguments: argparse.Namespace) -> Names:
    """How the files name the fields of their rows, and what holds for rows without one."""
    try:
        codecs.lookup(arguments.encoding or "utf-8")
    except LookupError:
        raise SettingsError(f"--encoding: {arguments.encoding}, wanted an encoding such as utf-8 or latin-1") from None
    if arguments.skip < 0:
        raise SettingsError(f"--skip: {arguments.skip}, wanted 0 or more lines")
    return replace(
        _mapped(read_names(arguments), arguments.map),
        point=arguments.point_column,
        number=arguments.number,
        unlabelled=arguments.default_label,
        only=None if arguments.only is None else frozenset(arguments.only.split(",")),
        time_format=arguments.time_format,
        encoding=arguments.encoding,
        skip=arguments.skip,
        default_time=None if arguments.default_time is None else parse_time(arguments.default_time),
        wrap=arguments.wrap,
    )


def _mapped(names: Names, given: Sequence[str]) -> Names:
    """The names, with those of `--map`."""
    for word in given:
        field, _, path = word.partition("=")
        if field not in ("id", *FIELDS) or not path:
            raise SettingsError(f"--map: {word}, wanted FIELD=PATH, where FIELD is id, {', '.join(FIELDS)}")
        names = replace(names, **{field: (*names.id, path) if field == "id" else path})
    return names


class _Creation:
    """The table that `--create` makes, just before the first row is sent, where it is not there."""

    def __init__(self, client: Client, arguments: argparse.Namespace) -> None:
        self._client = client
        self._arguments = arguments
        self._made = False

    def begin(self) -> bool:
        """Makes the table, and returns whether it did."""
        if self._arguments.create:
            self._made = make_table(self._client, self._arguments, there=True)
        return self._made

    def undo(self, loader: Loader) -> None:
        """Drops the table that was made, if no row came into it."""
        with contextlib.suppress(FashkiinError):
            if self._made and not loader.tally.stored and self._client.table(self._arguments.table).count() == 0:
                self._client.tables.drop(self._arguments.table)


def _rejects(arguments: argparse.Namespace, stack: contextlib.ExitStack) -> Rejects | None:
    """The file of rejects, where one is asked for."""
    if arguments.rejects is None:
        return None
    if arguments.rejects in arguments.files:
        raise SettingsError(f"--rejects: {arguments.rejects}: it is loaded itself, wanted another file")
    try:
        out = open_private_bytes(Path(arguments.rejects))
    except OSError as error:
        raise SettingsError(f"--rejects: {arguments.rejects}: {error.strerror}, wanted a file to write") from None
    rejects = Rejects(out, arguments.rejects)
    stack.callback(rejects.close)
    return rejects


def _reject(
    session: Session, arguments: argparse.Namespace, progress: Progress | None, rejects: Rejects | None
) -> Callable[[Fault, Source], None] | None:
    """What is done with a row that cannot be stored; None where the load stops at it."""
    if rejects is None and arguments.on_error == "stop":
        return None

    def say(found: Fault, source: Source) -> None:
        if progress is not None:
            progress.clear()
        session.say(str(found))
        if rejects is not None:
            rejects.add(found, source)

    return say


def _tell(session: Session, arguments: argparse.Namespace, loader: Loader, seconds: float) -> None:
    """What was done: as data for scripts, as talk for people."""
    tally = loader.tally
    _warn(session, arguments, loader)
    if session.json:
        told = {name: getattr(tally, name) for name in ("read", "stored", "replaced", "rejected", "deleted")}
        session.show(told | {"seconds": round(seconds, 3)}, "")
        return
    rate = (tally.stored + tally.replaced) / seconds if seconds else 0
    deleted = f"{tally.deleted:,} deleted under other labels, " if tally.deleted else ""
    if arguments.dry_run:
        session.say(f"{tally.read:,} rows read, {tally.stored:,} could be stored, {tally.rejected:,} rejected; nothing is stored")
        return
    session.say(
        f"{tally.read:,} rows read, {tally.stored:,} stored, {tally.replaced:,} replaced, {tally.rejected:,} rejected, {deleted}"
        f"in {seconds:.1f} s: {rate:,.0f} a second"
    )


def _warn(session: Session, arguments: argparse.Namespace, loader: Loader) -> None:
    """What the loader should know of rows that were stored."""
    tally = loader.tally
    done = tally.stored + tally.replaced
    if done and loader.denied is not None:
        session.say("fashkiin: you may not read this table, so rows that were there already count as stored")
    if tally.unread:
        session.say(f"fashkiin: {tally.unread:,} of {done:,} rows have labels that you cannot read")
    if tally.example and not arguments.replace:
        name, label = tally.example
        example = f"{shown(name)} under {shown(label)}: load --replace deletes it there"
        session.say(f"fashkiin: {tally.elsewhere:,} of {done:,} rows stand under another label too, such as {example}")


def _numbered(names: Names, source: Source) -> Names:
    """Rows of a file without ids are numbered after its name, so that a second load finds the same ids."""
    if names.number is not None or source.stem is None:
        return names
    return replace(names, number=source.stem.encode()[:STEM_BYTES].decode(errors="ignore"))


def _typed(client: Client, names: Names, source: Source, form: Format, texts: Sequence[str]) -> Names:
    """The names, with the properties that are numbers throughout a file, but for those that stay texts. A pipe is read but
    once, so its texts stay texts."""
    if form.numbers is None or not source.rereadable:
        return names
    try:
        found = numbers(source, form, names, client.close)
    except (InputError, *DAMAGED):
        return names  # The load meets it where it stands, behind the rows before it.
    finally:
        source.stream.seek(0)
    return replace(names, numbers=found - frozenset(texts))


def _check_stems(arguments: argparse.Namespace) -> None:
    """Two files of one name would number their rows alike."""
    stems = [Path(file).stem for file in arguments.files]
    if len(stems) > 1 and arguments.number is not None and not arguments.id_column:
        raise SettingsError("--number: one prefix for several files, wanted one file at a time, or the files' names")
    for stem in stems:
        if stems.count(stem) > 1 and not arguments.id_column:
            raise SettingsError(f"{stem}: two files of this name, wanted --id-column, or one file at a time with --number")


COMMAND = Command("load", "load rows from files", _arguments, _run)
