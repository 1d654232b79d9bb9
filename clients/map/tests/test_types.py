"""The page's modules, checked by TypeScript."""

from __future__ import annotations

import subprocess

from served import TOP


def test_modules_keep_their_types() -> None:
    modules = sorted((TOP / "clients/map/page").glob("*.js"))
    assert [it.name for it in modules if not it.read_text().startswith("// @ts-check\n")] == []
    checked = subprocess.run(["tsc", "-p", TOP / "clients/map"], capture_output=True, text=True)
    assert (checked.stdout, checked.returncode) == ("", 0)
