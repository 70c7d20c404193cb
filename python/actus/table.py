"""Texts as tables: CSV, JSON Lines, or an SQLite database.

A row has the ask that it answers in front: the caller, the number of its ask, and the version, how many entries stand
before it. A block that stops has a row of its own behind its others, whose type is `missing CODE` or `overflow TYPE`
and which has no amounts. Amounts are texts with nine decimals; nothing goes through floating point but the database's
columns `.._number`, which are for looking.
"""

from __future__ import annotations

import json
import os
import sqlite3
from collections.abc import Iterable, Iterator
from typing import TextIO

from .errors import UNWRITABLE, TextError, ToolError
from .files import Path_, is_replaceable, replacing
from .text import RawBlock, TextReader

COLUMNS = ("caller", "ask", "version", "contract", "day", "type", "currency", "payoff", "notional", "rate", "accrued")
AMOUNTS = COLUMNS[7:]


def words_of(block: RawBlock) -> Iterator[list[str]]:
    """The seven words of each row of a block."""
    for place, line in enumerate(block.lines):
        words = line.decode("ascii", "replace").split()
        if len(words) != 7:
            raise TextError(block.first_line + place, "a row of seven words", " ".join(words))
        yield words


# ---- CSV


def quoted(word: str, separator: str) -> str:
    """A field of CSV: in double quotes where it has the separator, a quote or a space at an end in it."""
    if separator in word or '"' in word or "\n" in word:
        return '"' + word.replace('"', '""') + '"'
    return word


class CsvForm:
    """How a table is written as CSV: the separator between fields, and whether decimals stand behind a comma, as
    spreadsheets of many countries want it."""

    def __init__(self, separator: str | None = None, decimal_comma: bool = False) -> None:
        self.separator = separator if separator is not None else (";" if decimal_comma else ",")
        self.decimal_comma = decimal_comma
        if len(self.separator) != 1 or self.separator in '"\r\n.-0123456789':
            raise ToolError(f"{self.separator!r} is no separator: give one sign, as ; or a tab", 2)
        if decimal_comma and self.separator == ",":
            raise ToolError("with --decimal-comma the separator can't be a comma: give --separator ';'", 2)

    def line(self, words: Iterable[str]) -> str:
        """A line of texts and whole numbers."""
        return self.separator.join(quoted(word, self.separator) for word in words) + "\n"

    def number(self, text: str) -> str:
        """A number as it is printed here."""
        return text.replace(".", ",") if self.decimal_comma else text

    def block(self, block: RawBlock) -> str:
        """The lines of a block."""
        between = self.separator
        head = between.join([str(block.caller), str(block.number), str(block.version),
                             quoted(block.contract, between), ""])
        text = b"".join(block.lines).decode("ascii", "replace")
        count = len(block.lines)
        plain = between not in text and '"' not in text and text.count(".") == 4 * count
        if plain and all(line.count(b" ") == 6 for line in block.lines):
            # no field wants quotes, and each point stands in a number: the signs are changed in all lines at once
            text = self.number(text).replace(" ", between)
            lines = (head + text.replace("\n", f"\n{head}"))[:-len(head)] if count else ""
        else:
            lines = "".join(f"{head}{self._row(words)}" for words in words_of(block))
        if stop := block.stop:
            told = quoted(f"{stop.kind} {stop.about}", between)
            lines += f"{head}{stop.day.isoformat()}{between}{told}{between * 5}\n"
        return lines

    def _row(self, words: list[str]) -> str:
        names = [quoted(word, self.separator) for word in words[:3]]
        return self.separator.join([*names, *map(self.number, words[3:])]) + "\n"


def write_csv(reader: TextReader, out: TextIO, form: CsvForm) -> int:
    """Writes all rows as CSV under a line of names; gives back how many blocks stopped."""
    out.write(form.line(COLUMNS))
    stopped = 0
    for block in reader.checked_blocks():
        out.write(form.block(block))
        stopped += block.stop is not None
    return stopped


# ---- JSON Lines


def json_lines(block: RawBlock) -> str:
    """The rows of a block, an object a line; amounts are texts, so that no reader rounds them."""
    head = {"caller": block.caller, "ask": block.number, "version": block.version, "contract": block.contract}
    lines = []
    for words in words_of(block):
        lines.append(json.dumps(head | dict(zip(COLUMNS[4:], words)), ensure_ascii=False) + "\n")
    if stop := block.stop:
        told = {"day": stop.day.isoformat(), "stop": stop.kind, "about": stop.about}
        lines.append(json.dumps(head | told, ensure_ascii=False) + "\n")
    return "".join(lines)


def write_json_lines(reader: TextReader, out: TextIO) -> int:
    """Writes all rows as JSON Lines; gives back how many blocks stopped."""
    stopped = 0
    for block in reader.checked_blocks():
        out.write(json_lines(block))
        stopped += block.stop is not None
    return stopped


# ---- SQLite

SCHEMA = """
CREATE TABLE asks (
    id INTEGER PRIMARY KEY,
    caller INTEGER NOT NULL,
    ask INTEGER NOT NULL,       -- the number of the caller's ask
    version INTEGER NOT NULL,   -- how many entries stand before it
    UNIQUE (caller, ask));
CREATE TABLE contracts (        -- a block of an answer
    id INTEGER PRIMARY KEY,
    ask INTEGER NOT NULL REFERENCES asks (id),
    contract TEXT NOT NULL,
    stop TEXT,                  -- missing or overflow, or nothing where the block is whole
    stop_day TEXT,
    stop_about TEXT,            -- the code, or the type of the event
    UNIQUE (ask, contract));
CREATE TABLE rows (
    contract INTEGER NOT NULL REFERENCES contracts (id),
    number INTEGER NOT NULL,    -- the place of the row in its block, from 1
    day TEXT NOT NULL,
    type TEXT NOT NULL,
    currency TEXT NOT NULL,
    payoff TEXT NOT NULL,       -- exact, with nine decimals
    notional TEXT NOT NULL,
    rate TEXT NOT NULL,
    accrued TEXT NOT NULL,
    payoff_number REAL NOT NULL,    -- for looking; sums of these aren't exact
    notional_number REAL NOT NULL,
    rate_number REAL NOT NULL,
    accrued_number REAL NOT NULL,
    PRIMARY KEY (contract, number)) WITHOUT ROWID;
CREATE VIEW flows AS
    SELECT asks.caller, asks.ask, asks.version, contracts.contract, rows.number, rows.day, rows.type, rows.currency,
           rows.payoff, rows.notional, rows.rate, rows.accrued, rows.payoff_number
    FROM rows JOIN contracts ON contracts.id = rows.contract JOIN asks ON asks.id = contracts.ask
    ORDER BY asks.id, contracts.id, rows.number;
"""


class Database:
    """An SQLite database that is filled with blocks, beside its name, and takes its place when it is done."""

    def __init__(self, path: Path_) -> None:
        self._link = sqlite3.connect(path, isolation_level=None)
        self._link.executescript("PRAGMA journal_mode = OFF; PRAGMA synchronous = OFF; PRAGMA cache_size = -65536;")
        self._link.executescript(SCHEMA)
        self._link.execute("BEGIN")
        self._asks: dict[tuple[int, int], int] = {}
        self._contracts = 0
        self.stopped = 0

    def add_ask(self, caller: int, ask: int, version: int) -> int:
        """The key of an ask, which is added where it isn't there yet."""
        key = self._asks.get((caller, ask))
        if key is None:
            key = self._asks[caller, ask] = len(self._asks) + 1
            self._link.execute("INSERT INTO asks VALUES (?, ?, ?, ?)", (key, caller, ask, version))
        return key

    def add(self, block: RawBlock) -> None:
        """Adds a block with its rows."""
        ask = self.add_ask(block.caller, block.number, block.version)
        self._contracts += 1
        key, stop = self._contracts, block.stop
        told = (stop.kind, stop.day.isoformat(), stop.about) if stop else (None, None, None)
        self.stopped += stop is not None
        try:
            self._link.execute("INSERT INTO contracts VALUES (?, ?, ?, ?, ?, ?)", (key, ask, block.contract, *told))
            self._link.executemany(
                "INSERT INTO rows VALUES (?, ?, ?, ?, ?, ?, ?, ?, ?, ?, ?, ?, ?)",
                [(key, number, day, kind, currency, payoff, notional, rate, accrued,
                  float(payoff), float(notional), float(rate), float(accrued))
                 for number, (day, kind, currency, payoff, notional, rate, accrued)
                 in enumerate(words_of(block), 1)])
        except ValueError:
            raise TextError(block.first_line, "rows with four numbers", f"those of {block.contract}") from None

    def close(self) -> None:
        """Ends the database; what was added is in the file then."""
        self._link.execute("COMMIT")
        self._link.close()


def database_place(name: Path_) -> str:
    """Where a database is made: the file itself, or the one that a link leads to. Raises `ToolError` where something
    stands there that is no regular file."""
    place = os.path.realpath(name)
    if not is_replaceable(place):
        raise ToolError(f"{name} can't be written: a database needs a regular file", UNWRITABLE)
    return place


def write_database(reader: TextReader, name: Path_) -> int:
    """Writes a text as an SQLite database; gives back how many blocks stopped."""
    with replacing(database_place(name)) as path:
        try:
            database = Database(path)
            for block in reader.checked_blocks():
                database.add(block)
            for header in reader.headers:
                database.add_ask(*header)
            database.close()
        except sqlite3.Error as error:
            raise ToolError(f"{name} can't be written: {error}", UNWRITABLE) from None
    return database.stopped
