"""The records of must-fail edits: what they stand on, and when tools/edits writes and believes them.

The prover is a script here that prints lines of `rt ci`: a real one takes minutes."""
import re
import shutil
import subprocess
import sys
from collections.abc import Callable
from pathlib import Path

import pytest

TOP = Path(__file__).resolve().parent.parent
sys.path.insert(0, str(TOP / "tools"))

from edit_records import Tree, contracts_of  # noqa: E402

SOURCE = """//! A crate.
#![tactic(auto)]

ghost use Rattle.low.specs.Sums.{sum};

/// The size of a block.
pub const SIZE: usize = 16;

// A helper.
fn half(n: u64) -> u64
    ensures { result ≡ n / 2 }
{
    n / 2
}

pub trait Counts {
    /// The number.
    fn count(&self) -> u64
        ensures of { result ≡ sum self.now };
}

pub struct Block<'a> {
    name: &'a str,
}

impl Counts for Block<'_> {
    fn count(&self) -> u64 {
        half(32)
    }
}

impl Block<'_> {
    /// Twice a number.
    #[tactic(auto, using(double))]
    pub fn twice(&self, n: u64) -> u64
        requires { n < 100 }
        ensures twice { result ≡ n + n }
    {
        if n == 7 { 14 } else { half(n) * 4 }
    }
}
"""
RT = """#!/bin/sh
if [ "$1" = version ]; then echo kit-1 logic 1; exit; fi
if [ $# -gt 1 ] && [ "$CI" = true ]; then echo rt: rt ci with names is not the gate; exit 2; fi
for edit in crates/*/must-fail/*.edit; do
    crate=$(basename $(dirname $(dirname $edit)))
    echo "rt: must-fail $crate/$(basename $edit): $(cat $edit)"
done
"""
REFUSED = "refused, as it must be: note: src/lib.rt:1:1: it is not proved\n"
FILES = {"src/lib.rt": SOURCE, "specs/Sums.antt": "sum = 1\n", "proofs/Half.antt": "half = 2\n", "edits/one.edit": REFUSED}


@pytest.fixture
def root(tmp_path: Path) -> Path:
    """Three crates: top names middle, and middle names low."""
    for name in ("low", "middle", "top"):
        for part, text in FILES.items():
            file = tmp_path / "crates" / name / part
            file.parent.mkdir(parents=True)
            file.write_text(text)
    (tmp_path / "crates.txt").write_text("# names\nlow: arrayvec\nmiddle: low\ntop: middle thiserror\n")
    (tmp_path / "HANDLES").write_text("Handles allowed: none.\n")
    return tmp_path


def sums(root: Path) -> dict[str, str]:
    tree = Tree(root, "kit-1")
    return {it: tree.sum(it) for it in tree.libraries}


def changed_by(root: Path, file: str, turn: Callable[[str], str]) -> list[str]:
    """The crates whose sum is another once the file is turned."""
    before, path = sums(root), root / file
    text = path.read_text()
    assert turn(text) != text
    path.write_text(turn(text))
    return [it for it, sum in sums(root).items() if sum != before[it]]


def with_a_byte(text: str) -> str:
    return f"{text[:-1]}!\n"


@pytest.mark.parametrize("file", FILES)
def test_each_file_of_a_crate_counts(root: Path, file: str) -> None:
    assert changed_by(root, f"crates/top/{file}", with_a_byte) == ["top"]


def test_definitions_count_for_all_above_them(root: Path) -> None:
    assert changed_by(root, "crates/low/specs/Sums.antt", with_a_byte) == ["low", "middle", "top"]


@pytest.mark.parametrize("old, new", [
    ("result ≡ n + n", "result ≡ n + n + 0"), ("n < 100", "n < 101"), ("twice(&self, n: u64)", "twice(&self, n: u32)"),
    ("result ≡ sum self.now", "result ≡ 1"), ("SIZE: usize = 16", "SIZE: usize = 17"), ("name: &'a str", "label: &'a str"),
    ("specs.Sums.{sum}", "specs.Others.{sum}"),
])
def test_public_contracts_count_for_the_crates_that_name_theirs(root: Path, old: str, new: str) -> None:
    assert changed_by(root, "crates/low/src/lib.rt", lambda text: text.replace(old, new)) == ["low", "middle"]


@pytest.mark.parametrize("file, old, new", [
    ("src/lib.rt", "half(n) * 4", "half(n) * 5"), ("src/lib.rt", "half(32)", "half(33)"), ("src/lib.rt", "result ≡ n / 2", "result ≡ 2"),
    ("src/lib.rt", "/// Twice a number.", "/// Double."), ("src/lib.rt", "using(double)", "using(half)"), ("proofs/Half.antt", "2", "3"),
    ("edits/one.edit", "proved", "proved!"),
])
def test_bodies_private_functions_proofs_and_comments_count_for_their_crate_alone(root: Path, file: str, old: str, new: str) -> None:
    assert changed_by(root, f"crates/low/{file}", lambda text: text.replace(old, new)) == ["low"]


def test_the_names_of_libraries_and_the_kit_count(root: Path) -> None:
    assert changed_by(root, "crates.txt", lambda text: text.replace("thiserror", "lru")) == ["top"]
    assert Tree(root, "kit-2").sum("low") != Tree(root, "kit-1").sum("low")


def test_contracts_have_each_public_function_and_no_body() -> None:
    for source in TOP.glob("crates/*/src/**/*.rt"):
        text = source.read_text()
        functions = re.findall(r"^ *pub (?:const |final )*fn (\w+)", text, re.M)
        shown = contracts_of(text)
        assert re.findall(r"pub (?:const |final )*fn (\w+)", shown) == functions
        # A clause may name a value, by `let .. in ..`. A statement of a body has a `;` or a block before any `in`.
        without_names = re.sub(r" let \w+ = [^;{}]* in ", " ", shown)
        assert not re.search(r" (let|match|return) ", without_names), source


def run_edits(root: Path, *words: str) -> tuple[int, str]:
    """The status and the output of tools/edits, run as the gate is."""
    environment = {"PATH": f"{root}/bin:/usr/bin:/bin", "CI": "true"}
    ran = subprocess.run([sys.executable, "tools/edits", *words], cwd=root, capture_output=True, text=True, env=environment)
    return ran.returncode, ran.stdout + ran.stderr


@pytest.fixture
def checkout(root: Path) -> Path:
    """The crates in a checkout, with the tools and a script for rt."""
    for name in ("edits", "edit_records.py", "gate_times"):
        (root / "tools").mkdir(exist_ok=True)
        shutil.copy2(TOP / "tools" / name, root / "tools" / name)
    (root / "bin").mkdir()
    (root / "bin/rt").write_text(RT)
    (root / "bin/rt").chmod(0o755)
    for words in (["init", "-q"], ["-c", "user.name=a", "-c", "user.email=a@b", "commit", "-q", "--allow-empty", "-m", "first"]):
        subprocess.run(["git", *words], cwd=root, check=True)
    return root


def records(root: Path) -> list[str]:
    return sorted(it.parent.parent.name for it in root.glob("crates/*/edits/tried"))


def test_a_record_is_written_when_all_edits_are_refused(checkout: Path) -> None:
    status, said = run_edits(checkout)
    assert (status, records(checkout)) == (0, ["low", "middle", "top"])
    assert "edits: low: 1 of 1 refused" in said
    assert (checkout / "crates/low/edits/tried").read_text() == f"kit: kit-1 logic 1\nsum: {Tree(checkout, 'kit-1 logic 1').sum('low')}\n"


@pytest.mark.parametrize("outcome", ["NOT REFUSED: it is still proved", "BAD EDIT: it cannot be applied", "NOT TRIED: it was killed"])
def test_an_edit_that_is_not_refused_is_told_and_leaves_no_record(checkout: Path, outcome: str) -> None:
    (checkout / "crates/middle/edits/two.edit").write_text(f"{outcome}\n")
    status, said = run_edits(checkout)
    assert (status, records(checkout)) == (1, ["low", "top"])
    assert f"middle/two.edit: {outcome}" in said and "edits: FAILED: middle" in said


def test_a_record_out_of_date_is_tried_again(checkout: Path) -> None:
    run_edits(checkout)
    (checkout / "crates/top/proofs/Half.antt").write_text("half = 3")
    status, said = run_edits(checkout, "--changed")
    assert status == 0 and "edits: top has no record of what stands" in said and "edits: top: 1 of 1 refused" in said
    assert "top has no record" not in run_edits(checkout, "--list")[1]


def test_a_false_record_is_found_where_all_are_tried_or_it_is_checked(checkout: Path) -> None:
    run_edits(checkout)
    edit = checkout / "crates/low/edits/one.edit"
    edit.write_text("NOT REFUSED: the crate is still proved\n")
    for name in ("low", "middle", "top"):
        (checkout / f"crates/{name}/edits/tried").write_text(Tree(checkout, "kit-1 logic 1").record_text(name))
    is_checked = "the record of low is checked" in run_edits(checkout, "--list")[1]
    assert run_edits(checkout, "--changed")[0] == (1 if is_checked else 0)
    assert run_edits(checkout)[0] == 1


def test_a_record_is_checked_by_each_run(checkout: Path) -> None:
    run_edits(checkout)
    status, said = run_edits(checkout, "--changed")
    checked = re.findall(r"edits: the record of (\w+) is checked", said)
    assert status == 0 and len(checked) == 1 and f"edits: {checked[0]}: 1 of 1 refused" in said


def test_a_run_that_tries_nothing_is_told(checkout: Path) -> None:
    (checkout / "bin/rt").write_text('#!/bin/sh\n[ "$1" = version ] && echo kit-1 logic 1 || echo rt: the disk is full\n')
    status, said = run_edits(checkout, "low")
    assert status == 1 and "rt: the disk is full" in said and "edits: low: 0 of 1 refused" in said


def test_a_crate_without_edits_is_refused(checkout: Path) -> None:
    status, said = run_edits(checkout, "nowhere")
    assert status == 2 and "no crate with edits: nowhere" in said
