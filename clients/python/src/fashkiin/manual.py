"""The manual page of the command, in roff: `python3 -m fashkiin.manual > man/fashkiin.1` writes it anew."""

from __future__ import annotations

import argparse
import re
from collections.abc import Iterator

from fashkiin.cli import COMMANDS, EXIT_STATUSES, find_command, make_parser

SETTINGS = (
    ("--url", "FASHKIIN_URL", "url", "http://127.0.0.1"),
    ("--token-file", "FASHKIIN_TOKEN_FILE", "token-file", "the file token beside the configuration file"),
    ("--ca-file", "FASHKIIN_CA_FILE", "ca-file", "the system's certificates"),
    ("--timeout", "FASHKIIN_TIMEOUT", "timeout", "30 seconds"),
    ("--insecure", "FASHKIIN_INSECURE", "insecure", "false: the token is sent over http:// to this machine alone"),
)
COMMON = {"--url", "--token-file", "--ca-file", "--timeout", "--insecure", "--config", "--json", "--help"}
ROWS = """\
A row is named by its id and its label: a load that is run again, or a put of the same id and label, takes the place of the row.
Its exact position and time, and its properties, are kept in its note; scans and dumps go by them, counts and grids by cells of
about 19 by 9.5 m and by seconds."""
FILES = """\
A file of rows has the columns or properties id, lon, lat, time and label, or names them by --id-column and its like. Rows of a
file without ids are numbered after the file's name, so that a second load finds the same ids. Cells of CSV without text are
properties that are not there. Everything else comes by a pipe:
ogr2ogr -f GeoJSONSeq /vsistdout/ SOURCE | fashkiin load TABLE -"""


def page() -> str:
    """The whole page."""
    return "\n".join(_lines()) + "\n"


def _lines() -> Iterator[str]:
    parser = make_parser()
    yield '.TH FASHKIIN 1 "" fashkiin "User commands"'
    yield ".SH NAME"
    yield r"fashkiin \- load, read and administer a server of labelled points"
    yield ".SH SYNOPSIS"
    yield r".B fashkiin"
    yield r"\fICOMMAND\fR [\fIOPTION\fR]... [\fIARGUMENT\fR]..."
    yield ".br"
    yield r".B fashkiin \-\-version"
    yield ".SH DESCRIPTION"
    yield _text(parser.description or "")
    yield "Data is written on standard output, talk on standard error."
    yield ".PP"
    yield _text(ROWS)
    yield ".PP"
    yield _text(FILES)
    yield ".SH COMMANDS"
    subparsers = _subparsers(parser)
    for command in map(find_command, COMMANDS):
        yield f".SS fashkiin {command.name}"
        yield _text(command.summary[0].upper() + command.summary[1:] + ".")
        yield from _actions(subparsers[command.name])
    yield ".SH COMMON OPTIONS"
    for action in subparsers["load"]._actions:
        if COMMON & set(action.option_strings):
            yield from _action(action)
    yield from _settings()
    yield ".SH EXIT STATUS"
    for number, meaning in EXIT_STATUSES.items():
        yield f".TP\n.B {number}\n{_text(meaning)}"


def _subparsers(parser: argparse.ArgumentParser) -> dict[str, argparse.ArgumentParser]:
    for action in parser._actions:
        if isinstance(action, argparse._SubParsersAction):
            return dict(action.choices)
    return {}


def _actions(parser: argparse.ArgumentParser) -> Iterator[str]:
    for action in parser._actions:
        if isinstance(action, argparse._SubParsersAction):
            summaries = {choice.dest: choice.help or "" for choice in action._choices_actions}
            for name, own in action.choices.items():
                parts = [part for part in own._actions if not COMMON & set(part.option_strings)]
                words = " ".join(f"[{_name(part)}]" if part.option_strings else _name(part) for part in parts)
                yield f".TP\n.B {_text(name)} {words}\n{_text(summaries.get(name, ''))}"
        elif not COMMON & set(action.option_strings):
            yield from _action(action)


def _action(action: argparse.Action) -> Iterator[str]:
    yield f".TP\n{_name(action)}\n{_text((action.help or '').replace('%%', '%'))}"


def _name(action: argparse.Action) -> str:
    """The words of an argument: options in bold, what stands for a value in italics."""
    metavar = action.metavar or (action.choices and "{" + ",".join(map(str, action.choices)) + "}") or action.dest
    words = " ".join(metavar) if isinstance(metavar, tuple) else str(metavar)
    value = "" if action.nargs == 0 else rf"\fI{_text(words)}\fR"
    options = ", ".join(rf"\fB{_text(option)}\fR" for option in action.option_strings)
    return f"{options} {value}".strip()


def _settings() -> Iterator[str]:
    yield ".SH SETTINGS"
    yield _text("A flag counts before a variable of the environment, and that before the configuration file, which is TOML:")
    yield _text("--config, or FASHKIIN_CONFIG, or fashkiin/config.toml in XDG_CONFIG_HOME or ~/.config.")
    for flag, variable, key, otherwise in SETTINGS:
        yield f'.TP\n.BR {_text(flag)} , " {variable}" , " {_text(key)}"\nOtherwise {_text(otherwise)}.'
    yield ".PP"
    yield _text("A token never stands in an argument. A token file that others may read is refused: its mode is to be 0600.")


def _text(text: str) -> str:
    """A text as roff takes it."""
    escaped = re.sub(r"\s+", " ", text).replace("\\", r"\e").replace("-", r"\-").replace("~", r"\(ti").replace("^", r"\(ha")
    return r"\&" + escaped if escaped.startswith((".", "'")) else escaped


if __name__ == "__main__":
    print(page(), end="")
