"""Client of the Fashkiin server of labelled points: rows in degrees and times, over kept and pipelined connections."""

from typing import TYPE_CHECKING, Any

if TYPE_CHECKING:
    from fashkiin.accounts import Account, Change, Grant, TableInfo
    from fashkiin.cells import Bbox, Box, Span
    from fashkiin.client import Client, Put
    from fashkiin.errors import (
        ConnectError,
        CutOffError,
        EdgeError,
        FashkiinError,
        RefusalError,
        ReplyError,
        RowError,
        SettingsError,
    )
    from fashkiin.rows import Page, Place, Row
    from fashkiin.table import Table
    from fashkiin.tokens import Token

__version__ = "0.1.0"

__all__ = [
    "Account",
    "Bbox",
    "Box",
    "Change",
    "Client",
    "ConnectError",
    "CutOffError",
    "EdgeError",
    "FashkiinError",
    "Grant",
    "Page",
    "Place",
    "Put",
    "RefusalError",
    "ReplyError",
    "Row",
    "RowError",
    "SettingsError",
    "Span",
    "Table",
    "TableInfo",
    "Token",
]

_MODULES = {
    "accounts": ("Account", "Change", "Grant", "TableInfo"),
    "cells": ("Bbox", "Box", "Span"),
    "client": ("Client", "Put"),
    "errors": (
        "ConnectError",
        "CutOffError",
        "EdgeError",
        "FashkiinError",
        "RefusalError",
        "ReplyError",
        "RowError",
        "SettingsError",
    ),
    "rows": ("Page", "Place", "Row"),
    "table": ("Table",),
    "tokens": ("Token",),
}
"""Which module has which names. They are imported once they are asked for, so that the command starts fast."""


def __getattr__(name: str) -> Any:
    """A name of this package."""
    from importlib import import_module

    for module, names in _MODULES.items():
        if name in names:
            return getattr(import_module(f"fashkiin.{module}"), name)
    raise AttributeError(f"module 'fashkiin' has no attribute {name!r}")
