"""The texts that `eval` and `desk` print, read as a stream (docs/TEXTS.md, "What is written").

A text is a journal, what the callers have done, and for each ask of it an answer with a block for each contract. Days
are `datetime.date`, amounts, rates and prices `decimal.Decimal` with nine decimals, as they are printed. Amounts are in
the row's currency, paid to the owner of the record, below 0 where it pays.
"""

from __future__ import annotations

import io
import re
from collections.abc import Iterable, Iterator
from dataclasses import dataclass, field
from datetime import date
from decimal import Decimal
from typing import BinaryIO

from .errors import TextError

EVENT_TYPES = tuple("IED PR PP PY FP PRD TD IP IPCI RRF RR PRF IPCB SC DV MD CE XD STD".split())
_TYPES = frozenset(EVENT_TYPES)
_AMOUNT = r"-?(?:0|[1-9][0-9]{0,59})\.[0-9]{9}"
_DAY = r"[0-9]{4}-(?:0[1-9]|1[0-2])-(?:0[1-9]|[12][0-9]|3[01])"
_ROWS = re.compile(rf"^({_DAY}) ({'|'.join(EVENT_TYPES)}) ([!-~]{{1,16}}) ({_AMOUNT}) ({_AMOUNT}) ({_AMOUNT}) "
                   rf"({_AMOUNT})\n", re.MULTILINE)
_WHOLE = re.compile(rf"(?:{_DAY} (?:{'|'.join(EVENT_TYPES)}) [!-~]{{1,16}} {_AMOUNT} {_AMOUNT} {_AMOUNT} {_AMOUNT}\n)*")
_IS_DAY = re.compile(_DAY)
# up to 18 digits, which SQLite's whole numbers hold
_COUNT = re.compile(r"0|[1-9][0-9]{0,17}")
_MOST_OFTEN = 10_000


def _is_day(text: str) -> bool:
    try:
        return bool(_IS_DAY.fullmatch(text) and date.fromisoformat(text))
    except ValueError:
        return False


class _Days(dict[str, date]):
    """Each day by its text; a text that is none raises `ValueError`."""

    def __missing__(self, text: str) -> date:
        if not _IS_DAY.fullmatch(text):
            raise ValueError(text)
        self[text] = day = date.fromisoformat(text)
        return day


class _Often(dict[str, Decimal]):
    """Numbers that come again and again, as rates, each made once; forgotten where there are too many."""

    def __missing__(self, text: str) -> Decimal:
        if len(self) > _MOST_OFTEN:
            self.clear()
        self[text] = number = Decimal(text)
        return number


@dataclass(slots=True)
class Row:
    """An event: its day and type, the currency and what is paid, and the notional, the yearly rate and the accrued
    interest after it."""

    day: date
    type: str
    currency: str
    payoff: Decimal
    notional: Decimal
    rate: Decimal
    accrued: Decimal


@dataclass(slots=True)
class Stop:
    """Why a block isn't whole: `missing`, an observation of the code `about`, or `overflow`, at an event of the type
    `about`; on that day."""

    kind: str
    day: date
    about: str


@dataclass(slots=True)
class Block:
    """The rows of a contract in an answer, and the stop, where there is one. `caller`, `number` and `version` are those
    of the answer: the caller, the number of its ask, and how many entries stand before it."""

    caller: int
    number: int
    version: int
    contract: str
    rows: list[Row]
    stop: Stop | None = None


@dataclass(slots=True)
class Rate:
    """A step of the journal: a market object's value from a day on."""

    caller: int
    code: str
    day: date
    value: Decimal


@dataclass(slots=True)
class Event:
    """A step of the journal: what happened to a contract. `value` is an amount, of a CE one of DL, DQ and DF."""

    caller: int
    contract: str
    type: str
    day: date
    value: Decimal | str


@dataclass(slots=True)
class Ask:
    """A step of the journal: the evaluation of a contract, or of all (`*`), is asked for."""

    caller: int
    contract: str


Step = Rate | Event | Ask


@dataclass(slots=True)
class Answer:
    """An answer to an ask: the caller, the number of its ask, how many entries it stands over, and a block for each
    contract."""

    caller: int
    number: int
    version: int
    blocks: list[Block] = field(default_factory=list)


@dataclass(slots=True)
class Text:
    """A whole text: the journal, the answers, and how many rows were computed (None of a text of `desk`)."""

    journal: list[Step]
    answers: list[Answer]
    work: int | None

    @property
    def stopped(self) -> list[Block]:
        """The blocks that aren't whole; where there is one, the program's status is 8."""
        return [block for answer in self.answers for block in answer.blocks if block.stop]


@dataclass(slots=True)
class RawBlock:
    """A block whose rows are lines of bytes as they were printed, each with its line feed."""

    caller: int
    number: int
    version: int
    contract: str
    first_line: int
    lines: list[bytes]
    stop: Stop | None


class TextReader:
    """Reads a text as a stream: `journal` first, then the blocks, one after the other; `work` stands there behind the
    last. Nothing is kept but the journal, the block at hand and `headers`, the caller, number and version of each
    answer up to there."""

    def __init__(self, source: bytes | BinaryIO) -> None:
        stream = io.BytesIO(source) if isinstance(source, (bytes, bytearray, memoryview)) else source
        self._lines = iter(stream)
        self._number = 0
        self._ahead: bytes | None = None
        self._days = _Days()
        self._often = _Often()
        self.work: int | None = None
        self.headers: list[tuple[int, int, int]] = []
        self._answered: set[tuple[int, int]] = set()
        self.journal = self._read_journal()
        self.ask_count = self._count_behind("answers ")
        asks = sum(1 for step in self.journal if isinstance(step, Ask))
        if asks != self.ask_count:
            raise self._wrong(f'"answers {asks}", as the journal has so many asks', f"answers {self.ask_count}")

    # ---- lines

    def _peek(self) -> bytes:
        """The next line, which stays the next one; empty at the end."""
        if self._ahead is None:
            self._ahead = next(self._lines, b"")
            self._number += 1
        return self._ahead

    def _next(self) -> str:
        """The next line without its line feed."""
        raw = self._peek()
        self._ahead = None
        if not raw:
            raise self._wrong("a further line", "the end of the text")
        return self._decoded(raw)

    def _decoded(self, raw: bytes) -> str:
        if not raw.endswith(b"\n"):
            raise self._wrong("a line feed at the end of the line", raw.decode("ascii", "replace"))
        try:
            return raw[:-1].decode("ascii")
        except UnicodeDecodeError:
            raise self._wrong("ASCII characters", raw.decode("ascii", "replace")) from None

    def _wrong(self, wanted: str, found: str) -> TextError:
        return TextError(max(self._number, 1), wanted, found)

    def _count_behind(self, word: str) -> int:
        line = self._next()
        if not line.startswith(word) or not _COUNT.fullmatch(line[len(word):]):
            raise self._wrong(f'"{word}" and a count', line)
        return int(line[len(word):])

    def _day(self, text: str) -> date:
        try:
            return self._days[text]
        except ValueError:
            raise self._wrong("a day as 2026-01-15", text) from None

    def _amount(self, text: str) -> Decimal:
        if not re.fullmatch(_AMOUNT, text):
            raise self._wrong("a number with nine decimals", text)
        return Decimal(text)

    # ---- the journal

    def _read_journal(self) -> list[Step]:
        count = self._count_behind("journal ")
        return [self._read_step() for _ in range(count)]

    def _read_step(self) -> Step:
        line = self._next()
        words = line.split(" ")
        if not _COUNT.fullmatch(words[0]):
            raise self._wrong("a caller and its step", line)
        caller = int(words[0])
        match words[1:]:
            case ["rate", code, day, value]:
                return Rate(caller, code, self._day(day), self._amount(value))
            case ["event", contract, "CE", day, ("DL" | "DQ" | "DF") as value]:
                return Event(caller, contract, "CE", self._day(day), value)
            case ["event", contract, ("PP" | "DV" | "XD") as kind, day, value]:
                return Event(caller, contract, kind, self._day(day), self._amount(value))
            case ["ask", contract]:
                return Ask(caller, contract)
        raise self._wrong("a step: rate, event or ask", line)

    # ---- answers

    def raw_blocks(self) -> Iterator[RawBlock]:
        """The blocks with their rows as bytes, which are looked at no further than their number of words."""
        while raw := self._peek():
            if raw.startswith(b"work "):
                self.work = self._count_behind("work ")
                if self._peek():
                    raise self._wrong("the end of the text behind the line of work", "a further line")
                break
            if len(self.headers) == self.ask_count:
                raise self._wrong(f"the end behind {self.ask_count} answers", self._next())
            yield from self._answer_blocks()
        if len(self.headers) < self.ask_count:
            raise self._wrong(f"{self.ask_count} answers", f"{len(self.headers)}, and then the end of the text")

    def _answer_blocks(self) -> Iterator[RawBlock]:
        line = self._next()
        words = line.split(" ")
        if words[0] != "answer" or len(words) != 4 or not all(map(_COUNT.fullmatch, words[1:])):
            raise self._wrong('"answer", a caller, a number and a version', line)
        caller, number, version = map(int, words[1:])
        if (caller, number) in self._answered:
            raise self._wrong(f"one answer to ask {number} of caller {caller}", "a second one")
        self._answered.add((caller, number))
        self.headers.append((caller, number, version))
        while self._peek().startswith(b"contract "):
            contract = self._next()[len("contract "):]
            yield self._block(caller, number, version, contract)

    def _block(self, caller: int, number: int, version: int, contract: str) -> RawBlock:
        first = self._number + 1
        rows: list[bytes] = []
        keep = rows.append
        for line in self._lines:
            if line[0] < 58:
                keep(line)
            else:
                break
        else:
            line = b""
        self._number += len(rows) + 1
        if not line:
            raise self._wrong(f"a close of the block of {contract}", "the end of the text")
        return RawBlock(caller, number, version, contract, first, rows, self._close(line))

    def _close(self, raw: bytes) -> Stop | None:
        line = self._decoded(raw)
        match line.split(" "):
            case ["end"]:
                return None
            case ["missing", code, day]:
                return Stop("missing", self._day(day), code)
            case ["overflow", day, kind] if kind in _TYPES:
                return Stop("overflow", self._day(day), kind)
        raise self._wrong('a row, or a close: "end", "missing CODE DAY" or "overflow DAY TYPE"', line)

    def blocks(self) -> Iterator[Block]:
        """The blocks with their rows."""
        for raw in self.raw_blocks():
            yield Block(raw.caller, raw.number, raw.version, raw.contract, self.rows_of(raw), raw.stop)

    __iter__ = blocks

    def rows_of(self, raw: RawBlock) -> list[Row]:
        """The rows of a block, each looked at whole."""
        text = b"".join(raw.lines).decode("ascii", "replace")
        found = _ROWS.findall(text)
        if len(found) != len(raw.lines):
            raise self._wrong_row(raw)
        days, often = self._days, self._often
        try:
            return [Row(days[day], kind, currency, Decimal(payoff), Decimal(notional), often[rate], often[accrued])
                    for day, kind, currency, payoff, notional, rate, accrued in found]
        except ValueError:
            raise self._wrong_row(raw) from None

    def checked_blocks(self) -> Iterator[RawBlock]:
        """The blocks with their rows as bytes, each of the form of a row, of a day that the calendar has."""
        for raw in self.raw_blocks():
            text = b"".join(raw.lines).decode("ascii", "replace")
            if not _WHOLE.fullmatch(text) or not all(map(self._has_day, {line[:10] for line in raw.lines})):
                raise self._wrong_row(raw)
            yield raw

    def _has_day(self, raw: bytes) -> bool:
        try:
            return bool(self._days[raw.decode("ascii", "replace")])
        except ValueError:
            return False

    def _wrong_row(self, raw: RawBlock) -> TextError:
        for place, line in enumerate(raw.lines):
            text = line.decode("ascii", "replace")
            if not _ROWS.fullmatch(text) or not _is_day(text[:10]):
                return TextError(raw.first_line + place,
                                 "a row: day, type, currency and four numbers of nine decimals", text.rstrip("\n"))
        return TextError(raw.first_line, "rows", "something else")

    def whole(self) -> Text:
        """The whole text in memory."""
        blocks = list(self.blocks())
        answers = {header[:2]: Answer(*header) for header in self.headers}
        for block in blocks:
            answers[block.caller, block.number].blocks.append(block)
        return Text(self.journal, list(answers.values()), self.work)


def read_text(source: bytes | BinaryIO) -> TextReader:
    """A text of `eval` or `desk` as a stream: iterate over it for its blocks, or take `.whole()`. `source` is the bytes,
    or a file that is open for reading bytes. Raises `TextError` where it is no text."""
    return TextReader(source)


def rows(blocks: Iterable[Block]) -> Iterator[tuple[Block, Row]]:
    """All rows of blocks, each with its block."""
    for block in blocks:
        for row in block.rows:
            yield block, row
