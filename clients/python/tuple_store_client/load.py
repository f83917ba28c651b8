"""Loads documents from files, and says of each that was refused where it stands and why."""

from __future__ import annotations

import contextlib
import dataclasses
import time
from collections import deque
from typing import Any, Callable, Deque, Dict, Iterator, List, Optional, Set, TextIO

from .errors import REFUSALS, StoreFailed
from .inputs import BadInput, Input, Item
from .numbers import Unkept, as_texts, as_wrapped, plain_text
from .reasons import ADVICE, no_member, reason
from .store import Store
from .wording import many, shown

#: What causes mean here: those of the loader, and those that the store says of lines.
CAUSES = {
    **REFUSALS,
    "oversized": "the document is longer than a line may be",
    "malformed": "the document cannot be read",
    "unknown": "it is no object",
    "id_is_there": "the document has an id of its own, and its key is another member",
}
#: The ids of so many documents are kept, to say which came twice.
MOST_IDS = 2_000_000
#: A document is sent as it stands in the file where its text is no longer than this.
MOST_LINE = 1 << 20


@dataclasses.dataclass(frozen=True)
class Choices:
    """How documents are read and made."""

    format: Optional[str] = None
    key: str = "id"
    old_id: Optional[str] = None
    fractions: str = "refuse"
    as_text: bool = False
    examples: int = 3


@dataclasses.dataclass
class Cause:
    """How often documents were refused by one cause, and the first ones."""

    count: int = 0
    first: List[str] = dataclasses.field(default_factory=list)


class Unfit(Exception):
    """A document that the loader refuses by itself."""

    def __init__(self, cause: str, why: str) -> None:
        super().__init__(why)
        self.cause = cause


@dataclasses.dataclass
class Report:
    """What came of a load."""

    examples: int = 3
    documents: int = 0
    new: int = 0
    replaced: int = 0
    again: Cause = dataclasses.field(default_factory=Cause)
    refused: Dict[str, Cause] = dataclasses.field(default_factory=dict)
    unread: List[str] = dataclasses.field(default_factory=list)
    failure: Optional[str] = None
    status: int = 0
    last_place: str = ""
    has_all_ids: bool = True

    @property
    def refused_count(self) -> int:
        return sum(cause.count for cause in self.refused.values())

    def note(self, cause: Cause, line: str) -> None:
        cause.count += 1
        if len(cause.first) < self.examples:
            cause.first.append(line)

    def refuse(self, word: str, item: Item, why: str) -> None:
        self.note(self.refused.setdefault(word, Cause()), f"{item.place}: {why}")

    def lines(self) -> Iterator[str]:
        """What is said at the end, line by line."""
        counts = f"{self.new:,} new, {self.replaced:,} replaced, {self.refused_count:,} refused"
        unanswered = self.documents - self.new - self.replaced - self.refused_count
        yield f"{many(self.documents, 'document')}: {counts}" + (f", {unanswered:,} without an answer" if unanswered else "")
        if self.again.count:
            known = "" if self.has_all_ids else f" (of the first {MOST_IDS:,} ids)"
            yield f"{self.again.count:,} came twice in this load{known}; the last one stands:"
            yield from self._examples(self.again)
        for word, cause in self.refused.items():
            yield f"refused as {word}: {cause.count:,} ({CAUSES[word]})"
            yield from self._examples(cause)
            if word in ADVICE:
                yield f"  {ADVICE[word]}"
        for why in self.unread:
            yield f"not read: {why}"
        if self.failure:
            yield self.failure
            stored = f"what was answered is stored, up to {self.last_place}" if self.last_place else "nothing was loaded"
            yield f"{stored}; the same files may be loaded again, which leaves the same documents"

    @staticmethod
    def _examples(cause: Cause) -> Iterator[str]:
        for line in cause.first:
            yield f"  {line}"
        if cause.count > len(cause.first):
            yield f"  and {cause.count - len(cause.first):,} more"


def load(
    open_store: Callable[[], Store],
    paths: List[str],
    choices: Choices,
    progress: Optional[Callable[[Input, Report], None]] = None,
) -> Report:
    """Loads the files in their order. A file that cannot be read is noted, and the others are loaded. The store is opened for
    the first one that can be read, so that a mistyped name makes no store."""
    report = Report(choices.examples)
    loader: Optional[_Loader] = None
    with contextlib.ExitStack() as closed_at_end:
        for path in paths:
            try:
                with contextlib.closing(Input(path)) as source:
                    items = source.items(choices.format, choices.key if choices.as_text else None)
                    loader = loader or _Loader(closed_at_end.enter_context(open_store()), choices, report)
                    loader.load(source, items, progress)
            except BadInput as error:
                report.unread.append(str(error))
            except KeyboardInterrupt:
                report.failure, report.status = "stopped", 130
                break
            except StoreFailed as error:
                if loader is None:
                    raise
                report.failure, report.status = str(error), error.status
                break
    return report


def made(item: Item, choices: Choices) -> Item:
    """A value as it is sent. It is sent as it stands, if nothing about it changes and it is not too long."""
    if item.cause:
        raise Unfit(item.cause, item.why)
    try:
        return _made(item, choices)
    except RecursionError:
        raise Unfit("too_deep", "it nests too deep to be looked through") from None


def _made(item: Item, choices: Choices) -> Item:
    value = item.value
    if isinstance(value, dict) and (choices.key != "id" or choices.fractions != "refuse"):
        value = _without_fractions(_with_key(value, choices), choices)
        return item._replace(text=plain_text(value), value=value)
    if not item.text or len(item.text) > MOST_LINE:
        return item._replace(text=plain_text(value))
    return item._replace(text=item.text.replace("\n", " ").replace("\r", " ")) if "\n" in item.text else item


def upsert_line(item: Item) -> bytes:
    """The command that stores a value."""
    return b'{"op":"upsert","doc":' + item.text.encode("utf-8", "surrogatepass") + b"}"


def refusal_of(item: Item, reply: bytes) -> Optional[Unfit]:
    """Why a reply refuses a value; None where it was stored."""
    if not reply.startswith(b'{"refused":"'):
        return None
    word = reply[12:-2].decode()
    return Unfit(word, reason(word, item.value, len(item.text.encode("utf-8", "replace"))))


def _with_key(document: Dict[str, Any], choices: Choices) -> Dict[str, Any]:
    """The document with its key as its `id`. Its own id gets another name."""
    if choices.key == "id":
        return document
    if choices.key not in document:
        raise Unfit("key", no_member(document, choices.key))
    kept = dict(document)
    if "id" in document:
        if choices.old_id is None or choices.old_id in document:
            raise Unfit("id_is_there", f"at id: {shown(document['id'])}")
        kept[choices.old_id] = kept.pop("id")
    return {**kept, "id": document[choices.key]}


def _without_fractions(document: Dict[str, Any], choices: Choices) -> Dict[str, Any]:
    """The document by the convention for fractions. A key is never changed."""
    change = {"text": as_texts, "wrap": as_wrapped}.get(choices.fractions)
    if change is None:
        return document
    if isinstance(document.get("id"), Unkept):
        raise Unfit("not_whole", f"at id: {shown(document['id'])} is no whole number of 64 bits")
    try:
        return {name: change(value) for name, value in document.items()}
    except ValueError:
        raise Unfit("malformed", reason("malformed", document, 0)) from None


class _Loader:
    def __init__(self, store: Store, choices: Choices, report: Report) -> None:
        self._store = store
        self._choices = choices
        self._report = report
        self._sent: Deque[Item] = deque()
        self._ids: Set[int] = set()

    def load(self, source: Input, items: Iterator[Item], progress: Optional[Callable[[Input, Report], None]]) -> None:
        """Loads the values of a file."""
        self._sent.clear()
        for reply in self._store.exchange(self._lines(items)):
            self._take(self._sent.popleft(), reply)
            if progress:
                progress(source, self._report)

    def _lines(self, items: Iterator[Item]) -> Iterator[bytes]:
        """The commands of the values that are documents; the others are refused here. A file that cannot be read any further
        ends there, and what was sent of it is answered."""
        try:
            for item in items:
                self._report.documents += 1
                try:
                    sent = made(item, self._choices)
                except Unfit as error:
                    self._report.refuse(error.cause, item, str(error))
                    continue
                self._sent.append(sent)
                yield upsert_line(sent)
        except BadInput as error:
            self._report.unread.append(str(error))

    def _take(self, item: Item, reply: bytes) -> None:
        """Counts the reply to a document."""
        report = self._report
        report.last_place = item.place
        refusal = refusal_of(item, reply)
        if refusal:
            report.refuse(refusal.cause, item, str(refusal))
            return
        if reply.endswith(b'"replaced":true}'):
            report.replaced += 1
        else:
            report.new += 1
        key = int(item.value["id"])
        if key in self._ids:
            report.note(report.again, f"{item.place}: the id {key}")
        elif len(self._ids) < MOST_IDS:
            self._ids.add(key)
        else:
            report.has_all_ids = False


class Progress:
    """A line on a terminal that says how far a load is, twice a second."""

    def __init__(self, out: TextIO) -> None:
        self._out = out
        self._begin = self._last = time.monotonic()
        self._width = 0

    def __call__(self, source: Input, report: Report) -> None:
        now = time.monotonic()
        if now - self._last < 0.5:
            return
        self._last = now
        share = f"{100 * source.taken // source.size:3}% of " if source.size else ""
        done = report.new + report.replaced
        speed = done / (now - self._begin)
        self._show(f"{share}{source.name}: {done:,} documents, {speed:,.0f} a second, {report.refused_count:,} refused")

    def end(self) -> None:
        """Takes the line away."""
        self._show("")

    def _show(self, line: str) -> None:
        if line or self._width:
            self._out.write("\r" + line.ljust(self._width) + ("\r" if not line else ""))
            self._out.flush()
            self._width = len(line)
