"""What is found in a source, and what is wrong there. A large file is read by several processes."""

from __future__ import annotations

import zlib
from collections.abc import Callable, Generator, Iterator
from contextlib import AbstractContextManager, closing, suppress
from functools import partial
from typing import TypeVar

from fashkiin.errors import FashkiinError
from fashkiin.faults import Fault, fault
from fashkiin.formats import Format, InputError, Names, Prepared, Source
from fashkiin.formats.fields import prepared
from fashkiin.formats.numbers import Kinds, throughout
from fashkiin.pipeline import pieces
from fashkiin.shares import WHOLE, Share, ShareError, helpers, shared, shares_of

DAMAGED = (OSError, EOFError, zlib.error, UnicodeError)
"""What reading a file raises, packed or not, that is damaged, on a bad disk or of another encoding."""

Item = TypeVar("Item")


def gathered(
    source: Source, work: Callable[[Source, Share], Iterator[Item]], begin: Callable[[], object]
) -> Generator[Item, None, None]:
    """What `work` yields of the batches of a source, in their order. Where processes share them, each calls `begin` first. Where
    they find that the source cannot be cut, it is read anew uncut, and told from there on."""
    again, turns = source.again, helpers()
    if again is None or turns < 1:
        yield from work(source, WHOLE)
        return
    items = 0
    for is_cut in (True, False):
        with suppress(ShareError), closing(shared(partial(_told, again, work), shares_of(turns, is_cut), begin)) as told:
            before = items
            for reached, dropped, item in told:
                source.reached = reached
                source.dropped.update(dict.fromkeys(dropped))
                if item is not None and before:
                    before -= 1
                elif item is not None:
                    items += 1
                    yield item
            return


def _told(
    again: Callable[[], AbstractContextManager[Source]], work: Callable[[Source, Share], Iterator[Item]], share: Share
) -> Iterator[tuple[float | None, list[str], Item | None]]:
    """What `work` yields of a share, with how much of the source was read by then and what of it is kept in no row; these two
    once more at the end."""
    with again() as source:
        for item in work(source, share):
            yield source.fraction(), list(source.dropped), item
        yield source.fraction(), list(source.dropped), None


def numbers(source: Source, form: Format, names: Names, begin: Callable[[], object]) -> frozenset[str]:
    """The properties that are numbers throughout a source, in a format of texts; none in another."""
    if form.numbers is None:
        return frozenset()
    tell: Callable[[Source, Names, Share], Iterator[Kinds]] = form.numbers
    with closing(gathered(source, lambda own, share: tell(own, names, share), begin)) as kinds:
        return throughout(kinds)


class Reading:
    """What is found in a source. `error` is why it cannot be read on; the rows before are told first. No more is read once `stop`
    is set to why the load ends at a row. Other processes that read call `begin` first."""

    def __init__(self, source: Source, form: Format, names: Names, begin: Callable[[], object]) -> None:
        self.error: FashkiinError | None = None
        self.stop: FashkiinError | None = None
        self.source = source
        self._form = form
        self._names = names
        self._begin = begin

    def batches(self, size: int) -> Generator[list[Prepared], None, None]:
        """The rows by up to `size` at a time, ready to be put."""
        try:
            with closing(self._found(size)) as found:
                for batch in found:
                    yield batch
                    if self.stop is not None:
                        return
        except DAMAGED as error:
            self.error = InputError(f"{self.source.name}: {getattr(error, 'strerror', None) or error}")
        except FashkiinError as error:
            self.error = error

    def _found(self, size: int) -> Generator[list[Prepared], None, None]:
        """The batches. For rejects each row is read as it stands in the source, by this process."""
        form, names = self._form, self._names
        self.source.reached = None
        if self.source.raw is not None:
            yield from pieces((prepared(place, row, names.wrap) for place, row in form.read(self.source, names)), size)
        else:
            yield from gathered(self.source, lambda own, share: form.prepare(own, names, size, share), self._begin)

    def taken(self) -> bytes:
        """What the next row whose end is known looks like, where rejects are written. Rows are told in their order."""
        return b"" if self.source.raw is None else self.source.raw.popleft()

    def fault(self, row: Prepared, error: FashkiinError, raw: bytes) -> Fault:
        """What is wrong with a row."""
        return fault(self.source, self._form, self._names, row, error, raw)
