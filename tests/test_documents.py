"""`tools/check_documents` tells each kind of fault of a repository's documents, in its line, and nothing of one without a fault."""
import subprocess
from pathlib import Path

import pytest

TOOL = Path(__file__).parents[1] / "tools/check_documents"
# A repository of two crates with an edit and a file of definitions, of six lines.
FILES = {
    "crates/base/src/lib.rt": "pub fn first() -> u8 { 1 }\npub struct Store;\n",
    "crates/base/specs/Sums.antt": "-- what a sum is\nuse Rattle.std\n\nsum : List N -> N\nsum [] = 0\nsum (x :: xs) = x + sum xs\n",
    "crates/base/specs/Lib.antt": "pub mod Sums\n",
    "crates/base/edits/first_is_two.edit": "1\n",
    "crates/upper/src/lib.rt": "impl Store { pub fn open() {} }\n",
    "docs/ARCHITECTURE.md": "| Crate | Does |\n|---|---|\n| `base` | sums |\n| `upper` | `base` on disk |\n",
    "docs/DEFINITIONS.md": "1 files with 6 lines, of which 3 are definitions\n\n| Crate | Files |\n|---|---|\n| `base` | `Sums` |\n",
    "README.md": "# A store\n\n[Crates](docs/ARCHITECTURE.md), 2 crates and 1 edits.\n\n## What `main` promises\n",
}


def told(top: Path, **changed: str) -> tuple[int, list[str]]:
    """The status of the tool and the faults that it tells, of the repository with these texts in place of its own."""
    for name, text in {**FILES, **changed}.items():
        (top / name).parent.mkdir(parents=True, exist_ok=True)
        (top / name).write_text(text)
    ended = subprocess.run([TOOL, top], capture_output=True, text=True)
    assert not ended.stderr
    return ended.returncode, ended.stdout.splitlines()[:-1]


TRUE = """\
`Store::open`, `base::{first, Store}`, `first()`, `first_is_two`, `crates/NAME/edits/`, `src/lib.rt`, `./docs`, `out/rlib`

`GET /tables`, `/etc/passwd`, `nothing --at all`, and

    `gone` in code

[here](#a-store), [there](docs/ARCHITECTURE.md), [far](https://example.org/x#y)

# A store

of 12.1 crates, and two crates
"""

# Each in a paragraph of its own, by the kind of fault. `open` stands in the other crate, and in no file with `first`.
FAULTS = {
    "`gone`": "no file has the name `gone`",
    "`base::{first, second}`": "no file has the name `base::second`",
    "`base::open`": "no file has the name `base::open`",
    "`open::first`": "no file has the name `open::first`",
    "`crates/NAME/must-fail/`": "no file is called `crates/NAME/must-fail/`",
    "`lib.py`": "no file is called `lib.py`",
    "[it](docs/GONE.md)": "the link docs/GONE.md leads to no file",
    "![it](docs/gone.png)": "the link docs/gone.png leads to no file",
    "[it](docs/ARCHITECTURE.md#words)": "the link docs/ARCHITECTURE.md#words leads to no heading",
    "[it](#gone)": "the link #gone leads to no heading",
    "all 3 crates": "says 3 crates, and there are 2",
    "its 1,431 must-fail edits": "says 1,431 must-fail edits, and there are 1",
}


def test_true_texts(tmp_path: Path) -> None:
    assert told(tmp_path, **{"README.md": TRUE}) == (0, [])


def test_faults(tmp_path: Path) -> None:
    text = "\n\n".join(FAULTS)
    expected = [f"README.md:{1 + 2 * number}: {fault}" for number, fault in enumerate(FAULTS.values())]
    assert told(tmp_path, **{"README.md": text}) == (1, expected)


def test_a_figure_over_two_lines(tmp_path: Path) -> None:
    assert told(tmp_path, **{"README.md": "First.\n\nWith 2\nedits.\n"}) == (1, ["README.md:3: says 2 edits, and there are 1"])


def test_clauses(tmp_path: Path) -> None:
    kept = "trait Kept {\n  ghost stays: {}\n  fn put(&self)\n    ensures ok {}\n}\n"
    store = "impl Store { pub fn get(&self)\n    requires here {}\n{ } }\n"
    row = "| P | `upper::{put, get}`: `ok`, `here`; `Store::get`: `ok`; `base::put`: `ok`; by `Kept`: `stays`, `goes` | D |\n"
    expected = [f"docs/GUARANTEES.md:1: {fault}" for fault in (
        "`Store::get` has no clause `ok`", "`base::put` has no clause `ok`", "`Kept` has no clause `goes`")]
    files = {"crates/upper/src/kept.rt": kept + store, "docs/GUARANTEES.md": row}
    assert [it for it in told(tmp_path, **files)[1] if "clause" in it] == expected


def test_places(tmp_path: Path) -> None:
    row = "\n| Wanted | File | Function |\n|---|---|---|\n| it | `base/src/lib.rt`, `src/more.rt` | `first`, `more::second`, `open` |\n"
    files = {"crates/base/src/more.rt": "fn second() {}\n", "docs/ARCHITECTURE.md": FILES["docs/ARCHITECTURE.md"] + row}
    fault = "docs/ARCHITECTURE.md:8: none of the files beside it has the function `open`"
    assert told(tmp_path, **{"README.md": "# A store\n"}, **files) == (1, [fault])


def test_names_of_patches(tmp_path: Path) -> None:
    files = {"wip/next.patch": "+pub fn coming() {}\n", "wip/README.md": "`coming`\n", "README.md": "`coming`\n"}
    assert told(tmp_path, **files) == (1, ["README.md:1: no file has the name `coming`"])


@pytest.mark.parametrize("name, text, fault", [
    ("crates/third/src/lib.rt", "", "docs/ARCHITECTURE.md:1: 0 rows begin with the crate `third`"),
    ("crates/upper/specs/Disk.antt", "", "docs/DEFINITIONS.md:1: crates/upper/specs/Disk.antt has no place in the row of its crate"),
    ("crates/base/specs/Sums.antt", "sum = 0\n", "docs/DEFINITIONS.md:1: does not say: 1 files with 1 lines, of which 1 are definitions"),
    ("docs/DEFINITIONS.md", FILES["docs/DEFINITIONS.md"].replace("`Sums`", "`Sums`, `Gone`"),
     "docs/DEFINITIONS.md:1: there is no crates/base/specs/Gone.antt"),
])
def test_lists(tmp_path: Path, name: str, text: str, fault: str) -> None:
    status, faults = told(tmp_path, **{name: text})
    assert status == 1 and fault in faults
