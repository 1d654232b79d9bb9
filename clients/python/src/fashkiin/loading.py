"""Loading: rows of files are put in their order, and what is wrong with a row is told with its place.

Before rows are put, the server is asked which rows of their ids the loader sees: so it is known which rows are replaced, and
which ids stand under other labels too. In a table that the load made itself, that is asked of ids alone that came before.
"""

from __future__ import annotations

from collections.abc import Callable, Iterable, Sequence
from contextlib import closing
from itertools import chain, islice

from fashkiin.client import LARGEST_WINDOW, Client, path
from fashkiin.errors import (
    ConstraintError,
    FashkiinError,
    FieldError,
    LabelError,
    RefusalError,
    RowError,
    SizeError,
    StoppedError,
)
from fashkiin.faults import Fault
from fashkiin.formats import Format, Names, Prepared, Source
from fashkiin.pipeline import NONE_SEEN, STORED, Answer, Part, Told
from fashkiin.reading import Reading
from fashkiin.rows import quoted, to_json
from fashkiin.tally import Batch, Counting, Met, Tally

OF_A_ROW = (FieldError, LabelError, ConstraintError, SizeError)
"""The refusals that are a row's own fault; any other would meet the next row too."""

PARTS = 3
"""In how many parts a batch is sent."""


class Loader:
    """Loads sources into a table. `reject` is told of each row that cannot be stored; without it the load stops at the first one,
    where rows within a window behind it may be stored already. `step` is called when it is known of more rows what became of
    them, `begin` before the first row is sent: it says whether it made the table. With `replace`, a row takes the place of all
    rows of its id that the loader sees, whatever their labels."""

    def __init__(
        self,
        client: Client,
        table: str,
        window: int = 64,
        reject: Callable[[Fault, Source], None] | None = None,
        step: Callable[[Source, Tally], None] | None = None,
        begin: Callable[[], bool] | None = None,
        replace: bool = False,
    ) -> None:
        self._counting = Counting()
        self.tally = self._counting.tally
        self.denied: RefusalError | None = None
        """Why the loader may not read the table, once that is known."""
        self._client = client
        self._put_request, self._get_request, self._delete_request = (
            client.requests("POST", path("tables", table, kind)) for kind in ("put", "get", "delete")
        )
        # Two batches are on their way at a time. A row takes two requests.
        self._size = max(1, min(window, LARGEST_WINDOW // 2) // 2)
        self._batches = min(window, 2)
        self._reject = reject
        self._step = step
        self._begin = begin
        self._replace = replace
        self._auths = ""
        self._met: Met | None = None
        """The ids that have been put into a table without others."""
        self._labels: dict[str, LabelError | None] = {}

    def load(self, source: Source, form: Format, names: Names) -> None:
        """Loads one source. `StoppedError` where it stops at a row; a refusal that would meet each row is raised."""
        reading = Reading(source, form, names, self._client.close)
        with closing(reading.batches(self._size)) as found:
            batches = map(Batch, found)
            if self._replace:
                for batch in batches:
                    self._replace_rows(batch, reading)
            else:
                first = list(islice(batches, 1))
                self._start(first)
                self._ask(chain.from_iterable(self._parts(batch, reading) for batch in chain(first, batches)))
        self._end(reading)

    def check(self, source: Source, form: Format, names: Names) -> None:
        """Reads one source as `load` does and puts nothing: what could be stored counts as stored. Labels the server judges."""
        reading = Reading(source, form, names, self._client.close)
        with closing(reading.batches(self._size)) as found:
            for row in chain.from_iterable(found):
                self._check_row(row, reading)
                if self._step is not None:
                    self._step(source, self.tally)
                if reading.stop is not None:
                    break
        self._end(reading)

    def _check_row(self, row: Prepared, reading: Reading) -> None:
        """Counts a row as stored, or says why it cannot be."""
        raw = reading.taken()
        _, _, label, made = row
        error = made if isinstance(made, RowError) else self._label(label)
        if error is None:
            self.tally.stored += 1
        else:
            self._fault(row, error, raw, reading)

    def _end(self, reading: Reading) -> None:
        """All that was read is told."""
        error = reading.stop or reading.error
        if error is not None:
            raise error

    def _label(self, label: str) -> LabelError | None:
        """What is wrong with a label, which is asked once."""
        if label not in self._labels:
            try:
                self._client.label(label)
                self._labels[label] = None
            except LabelError as error:
                self._labels[label] = error
        return self._labels[label]

    def _start(self, batches: Iterable[Batch]) -> None:
        """Makes the table and asks which authorizations the loader has, once there is a row to be put."""
        if not any(batch.good for batch in batches):
            return
        if self._begin is not None:
            self._met = Met() if self._begin() and not self._replace else None
            self._begin = None
        if self.denied is None and not self._auths:
            self._auths = to_json(list(self._client.whoami().auths))

    def _ask(self, parts: Iterable[Part]) -> None:
        """Asks the server, to the end."""
        for _ in self._client.ask_parts(iter(parts), PARTS * self._batches):
            pass

    def _parts(self, batch: Batch, reading: Reading) -> tuple[Part, Part, Part]:
        """Looks for the ids, then the rows, then a look for each label that is new. A part without anything to ask is there too,
        since parts are counted."""
        self._start([batch])
        return self._looks(batch), self._puts(batch, reading), self._label_looks(batch)

    def _replace_rows(self, batch: Batch, reading: Reading) -> None:
        """What is deleted depends on what was put, and the next rows on what was deleted."""
        self._start([batch])
        self._ask([self._looks(batch)])
        if self.denied is not None:
            raise self.denied
        self._ask([self._puts(batch, reading), self._label_looks(batch)])
        self._ask([self._deletions(batch)])

    def _gets(self, names: Iterable[str]) -> list[bytes]:
        """Asks for the rows of ids; for none where the loader may not read them."""
        request, auths = self._get_request, self._auths
        return [] if self.denied else [request(f'{{"id":{quoted(name)},"auths":{auths}}}'.encode()) for name in names]

    def _looks(self, batch: Batch) -> Part:
        """Asks under which labels the ids of a batch are seen."""
        asked = batch.ids if self._met is None else self._met.of(batch.ids)
        names = iter(asked)

        def tell(answers: Sequence[Answer]) -> None:
            for answer, name in zip(answers, names):
                if answer is not NONE_SEEN:
                    batch.labels[name] = self._seen(answer)

        return Part(self._gets(asked), tell)

    def _label_looks(self, batch: Batch) -> Part:
        """Asks whether rows that were put are seen, one for each label of which that is not known."""
        first = {label: name for name, label, _ in reversed(batch.good) if label not in self._counting.readable}
        labels = iter(first)

        def tell(answers: Sequence[Answer]) -> None:
            for answer, label in zip(answers, labels):
                seen = label in self._seen(answer)
                if self.denied is None:
                    self._counting.learn(label, seen)

        return Part(self._gets(first.values()), tell)

    def _seen(self, answer: Answer) -> set[str]:
        """The labels of an answer's rows."""
        if isinstance(answer, RefusalError):
            self.denied = answer
            return set()
        return {row["label"] for row in answer["rows"]}

    def _deletions(self, batch: Batch) -> Part:
        """Deletes the rows that are seen under other labels than those that were put last."""
        names = [{"id": name, "label": label} for name in batch.last for label in sorted(batch.labels[name] - {batch.last[name]})]

        def tell(answers: Sequence[Answer]) -> None:
            for answer in answers:
                if isinstance(answer, RefusalError):
                    raise answer
                self.tally.deleted += 1

        return Part([self._delete_request(to_json(name).encode()) for name in names], tell)

    def _puts(self, batch: Batch, reading: Reading) -> Part:
        """Puts the rows of a batch."""

        def tell(answers: Sequence[Answer]) -> None:
            if reading.source.raw is None and batch.is_new() and answers.count(STORED) == len(answers):
                self._counting.count_new(batch, len(answers))
            else:
                self._count_each(batch, answers, reading)
            if self._step is not None:
                self._step(reading.source, self.tally)

        return Part([self._put_request(made) for _, _, made in batch.good], tell)

    def _count_each(self, batch: Batch, answers: Sequence[Answer], reading: Reading) -> None:
        """Some of the next rows of a batch were put or refused. Rows that are wrong have no answer."""
        fresh = iter(answers)
        while batch.told < len(batch.rows):
            row = batch.rows[batch.told]
            _, name, label, made = row
            answer: Told | None = made if isinstance(made, RowError) else None
            if answer is None:
                answer = next(fresh, None)
            if answer is None:
                return
            batch.told += 1
            raw = reading.taken()
            if not isinstance(answer, FashkiinError):
                self._counting.count(batch, name, label)
            elif isinstance(answer, RefusalError) and not isinstance(answer, OF_A_ROW):
                raise answer
            elif reading.stop is None:
                self._fault(row, answer, raw, reading)

    def _fault(self, row: Prepared, error: FashkiinError, raw: bytes, reading: Reading) -> None:
        found = reading.fault(row, error, raw)
        self.tally.rejected += 1
        if self._reject is None:
            reading.stop = StoppedError(found)
        else:
            self._reject(found, reading.source)
