"""What the must-fail edits of a crate stand on, as one checksum, and the record that they were all refused over it.

An edit of a crate says today what it said before while these stand: the crate's own src/, specs/, proofs/ and edits/, the public
contracts and the specs/ of the repository's crates that it names, the specs/ of those below them, which these contracts use, and the
kit's version. Bodies, private functions, proofs, tactics and comments of other crates do not count."""
from __future__ import annotations

import hashlib
import re
from collections.abc import Iterable, Iterator
from functools import cache
from pathlib import Path

OWN_PARTS = ("src", "specs", "proofs", "edits")
TOKEN = re.compile(
    r"""(?P<comment>//[^\n]*|/\*.*?\*/|\#!?\[tactic\(.*?\)\])
    |(?P<text>b?r(?P<hashes>\#*)".*?"(?P=hashes)|b?"(?:\\.|[^"\\])*"|b?'(?:\\.[^']*|[^'\\])')
    |(?P<word>[^\W\d]\w*|\d\w*)
    |(?P<sign>\S)""",
    re.S | re.X,
)
OPENING, CLOSING = "([{", ")]}"
CLAUSES = ("requires", "ensures")


def tokens_of(text: str) -> list[str]:
    """The tokens of a source, without comments and tactics."""
    return [it.group() for it in TOKEN.finditer(text) if it.lastgroup != "comment"]


def end_of_group(tokens: list[str], at: int) -> int:
    """The place behind the bracket that closes the one at a place."""
    depth = 0
    for place in range(at, len(tokens)):
        depth += (tokens[place] in OPENING) - (tokens[place] in CLOSING)
        if depth == 0:
            return place + 1
    raise ValueError(f"the bracket at token {at} is not closed")


def end_of_function(tokens: list[str], at: int) -> tuple[int, int]:
    """Where the signature of the function at a place ends, with its clauses, and where the function does."""
    place = at
    while tokens[place] not in (";", "{"):
        is_clause = tokens[place] in CLAUSES
        if is_clause:
            place = tokens.index("{", place)
        place = end_of_group(tokens, place) if tokens[place] in OPENING else place + 1
    return place, place + 1 if tokens[place] == ";" else end_of_group(tokens, place)


def starts_function(tokens: list[str], at: int) -> bool:
    return tokens[at] == "fn" and at + 1 < len(tokens) and tokens[at + 1][0].isidentifier()


def visible_contracts(tokens: list[str], all_visible: bool) -> Iterator[str]:
    """The tokens without the bodies of functions, and without private functions unless all functions are visible."""
    at = begin = 0
    while at < len(tokens):
        if starts_function(tokens, at):
            signature, end = end_of_function(tokens, at)
            public = [place for place in range(begin, at) if tokens[place] == "pub" and tokens[place + 1] != "("]
            if all_visible or public:
                yield from tokens[begin:signature]
                yield ";"
            at = begin = end
        elif tokens[at] == "{":
            end = end_of_group(tokens, at)
            head = tokens[begin:at]
            yield from head
            if {"impl", "trait", "mod"}.intersection(head):
                # All functions of a trait are visible, where it is declared and where it is implemented.
                yield from ("{", *visible_contracts(tokens[at + 1:end - 1], "trait" in head or "for" in head), "}")
            else:
                yield from tokens[at:end]
            at = begin = end
        elif tokens[at] == ";":
            yield from tokens[begin:at + 1]
            at = begin = at + 1
        else:
            at = end_of_group(tokens, at) if tokens[at] in OPENING else at + 1
    yield from tokens[begin:]


def contracts_of(text: str) -> str:
    """What a source shows to other crates: its items without comments, bodies and private functions."""
    return " ".join(visible_contracts(tokens_of(text), all_visible=False))


def files_below(folder: Path) -> list[Path]:
    return sorted(it for it in folder.rglob("*") if it.is_file())


def sum_of_texts(texts: Iterable[tuple[Path, bytes]]) -> str:
    """The checksum of texts and of the paths that they stand at."""
    digest = hashlib.sha256()
    for path, text in texts:
        digest.update(f"{path} {hashlib.sha256(text).hexdigest()}\n".encode())
    return digest.hexdigest()


class Tree:
    """The crates of a repository, as they stand when they are first asked for."""

    def __init__(self, root: Path, kit: str) -> None:
        self.root = root
        self.kit = kit
        lines = [it.partition("#")[0].partition(":") for it in (root / "crates.txt").read_text(encoding="utf-8").splitlines()]
        # The libraries that each crate names, the kit's among them.
        self.libraries = {name.split()[0]: libraries.split() for name, colon, libraries in lines if colon}

    def folder(self, crate: str) -> Path:
        return self.root / "crates" / crate

    def edits(self, crate: str) -> list[Path]:
        return sorted((self.folder(crate) / "edits").glob("*.edit"))

    def with_edits(self) -> list[str]:
        return [it for it in self.libraries if self.edits(it)]

    def below(self, crate: str) -> set[str]:
        """The repository's crates that a crate names, and those that they name in turn."""
        named = {it for it in self.libraries[crate] if it in self.libraries}
        return named.union(*map(self.below, named))

    def files(self, crate: str, *parts: str) -> Iterator[tuple[Path, bytes]]:
        """The files in these folders of a crate, but for its record."""
        folder = self.folder(crate)
        for file in (it for part in parts for it in files_below(folder / part)):
            if file != self.record(crate):
                yield file.relative_to(folder), file.read_bytes()

    @cache
    def contracts(self, crate: str) -> str:
        """The checksum of what the sources of a crate show to other crates."""
        return sum_of_texts((path, contracts_of(text.decode()).encode()) for path, text in self.files(crate, "src"))

    def sum(self, crate: str) -> str:
        """The checksum of all that the edits of a crate stand on."""
        named = self.libraries[crate]
        lines = [f"kit {self.kit}", f"names {' '.join(sorted(named))}", f"own {sum_of_texts(self.files(crate, *OWN_PARTS))}"]
        for it in sorted(self.below(crate)):
            lines.append(f"specs {it} {sum_of_texts(self.files(it, 'specs'))}")
            lines += [f"contracts {it} {self.contracts(it)}"] if it in named else []
        return hashlib.sha256("\n".join(lines).encode()).hexdigest()

    def record(self, crate: str) -> Path:
        return self.folder(crate) / "edits" / "tried"

    def record_text(self, crate: str) -> str:
        return f"kit: {self.kit}\nsum: {self.sum(crate)}\n"

    def is_recorded(self, crate: str) -> bool:
        """Whether all edits of a crate were refused over what stands, as its record says."""
        record = self.record(crate)
        return record.is_file() and record.read_text(encoding="utf-8") == self.record_text(crate)
