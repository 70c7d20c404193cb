"""Puts the texts of all parts into one table, as that of one run over the whole: a CSV file, an SQLite database, or sums
by period and currency.

Asks have their numbers and versions of the whole script, and rows stand as in the text of one run: by ask, and then in
portfolio order. The SHA-256 of each part's text is compared with the one that was written down when it was run.
"""

from __future__ import annotations

import heapq
import os
import resource
import shutil
import sqlite3
import tempfile
from collections.abc import Iterator
from concurrent.futures import ProcessPoolExecutor
from contextlib import ExitStack
from pathlib import Path
from typing import Any, BinaryIO

from .errors import UNWRITABLE, VERDICT, TextError, ToolError
from .files import Path_, is_replaceable, replacing, writing
from .ladder import Ladder, Step
from .parts import TEXT, folder_of, hash_of, numbers_of, read_manifest, read_part, result_of, state_of
from .table import COLUMNS, CsvForm, Database, database_place
from .text import RawBlock, read_text


class PartText:
    """The text of a part, whose blocks have the numbers of the whole."""

    def __init__(self, folder: Path_, number: int) -> None:
        self.path = folder_of(folder, number) / TEXT
        self.number = number
        self.part = read_part(folder, number)
        self.asks: list[list[int]] = self.part["asks"]

    def check(self, folder: Path_) -> None:
        """Raises `ToolError` where the text isn't the one that was written."""
        if hash_of(self.path) != (result_of(folder, self.number) or {}).get("text"):
            raise ToolError(f"{self.path} isn't what the program wrote: remove it, and run the parts again", VERDICT)

    def places(self) -> Iterator[int]:
        """The place in the file of each contract of the part, in portfolio order."""
        inner, at = self.part.get("inner", {}), 0
        for first, count in self.part["places"]:
            for place in range(first, first + count):
                for _ in range(inner.get(str(at), 1)):
                    yield place
                at += 1

    def blocks(self, file: BinaryIO) -> Iterator[tuple[tuple[int, int], RawBlock]]:
        """The blocks, each with its order in the whole: the number of its ask, and the place in the file."""
        reader = read_text(file)
        names = [step.contract for step in reader.journal if type(step).__name__ == "Ask"]
        if len(names) != len(self.asks):
            raise ToolError(f"{self.path} has {len(names)} asks, and {len(self.asks)} were wanted", VERDICT)
        last, places = 0, iter(())
        try:
            for block in reader.raw_blocks():
                if not 1 <= block.number <= len(self.asks):
                    raise ToolError(f"{self.path} has an answer to ask {block.number}, which isn't asked", VERDICT)
                if block.number != last:
                    last = block.number
                    places = self.places()
                whole, version = self.asks[block.number - 1]
                place = next(places, 0) if names[block.number - 1] == "*" else 0
                block.number, block.version = whole, version
                yield (whole, place), block
        except TextError as error:
            raise ToolError(f"{self.path}: {error.message}", VERDICT) from None


def gathered(folder: str, program: str | None = None) -> list[int]:
    """The numbers of all parts. Raises `ToolError` where one isn't done."""
    numbers = numbers_of(read_manifest(folder))
    open_ = [number for number in numbers if state_of(folder, number, program) != "done"]
    if open_:
        raise ToolError(f"{len(open_)} of {len(numbers)} parts aren't done, first part {open_[0]}: run-parts {folder} "
                        "first", VERDICT)
    programs = {(result_of(folder, number) or {}).get("program") for number in numbers}
    if len(programs) > 1:
        raise ToolError("parts were run by different programs: run-parts with the one that is meant", VERDICT)
    return list(numbers)


def are_in_order(folder: str, numbers: list[int]) -> bool:
    """The parts one behind the other are in the order of one run: a single ask for all, and each part's contracts behind
    those of the part before."""
    last = -1
    for number in numbers:
        part = read_part(folder, number)
        if len(part["asks"]) != 1 or part["places"] and part["places"][0][0] <= last:
            return False
        if part["places"]:
            last = sum(part["places"][-1]) - 1
            if any(first + count > after for (first, count), (after, _) in zip(part["places"], part["places"][1:])):
                return False
    return True


def _merged(folder: str, numbers: list[int], held: ExitStack) -> Iterator[RawBlock]:
    """The blocks of all parts in the order of one run."""
    soft, hard = resource.getrlimit(resource.RLIMIT_NOFILE)
    if len(numbers) + 50 > soft:
        resource.setrlimit(resource.RLIMIT_NOFILE, (min(hard, len(numbers) + 200), hard))
    streams = []
    for number in numbers:
        part = PartText(folder, number)
        streams.append(part.blocks(held.enter_context(open(part.path, "rb"))))
    return (block for _, block in heapq.merge(*streams, key=lambda item: item[0]))


def _in_turn(folder: str, numbers: list[int]) -> Iterator[RawBlock]:
    for number in numbers:
        part = PartText(folder, number)
        with open(part.path, "rb") as file:
            for _, block in part.blocks(file):
                yield block


def _blocks(folder: str, numbers: list[int], held: ExitStack) -> Iterator[RawBlock]:
    return _in_turn(folder, numbers) if are_in_order(folder, numbers) else _merged(folder, numbers, held)


# ---- CSV


def _part_csv(folder: str, number: int, separator: str, comma: bool, beside: str) -> tuple[str, int]:
    """Writes a part's rows as CSV into a file of its own; gives back its name, and how many blocks stop."""
    part, form, stopped = PartText(folder, number), CsvForm(separator, comma), 0
    part.check(folder)
    name = os.path.join(beside, str(number))
    with open(part.path, "rb") as file, open(name, "w", encoding="utf-8", newline="") as out:
        for _, block in part.blocks(file):
            out.write(form.block(block))
            stopped += block.stop is not None
    return name, stopped


def gather_csv(folder: str, goal: str | None, form: CsvForm, jobs: int) -> int:
    """Gathers all parts into one CSV file; gives back how many blocks stop."""
    numbers, stopped = gathered(folder), 0
    if goal in (None, "-") or not is_replaceable(goal) or not are_in_order(folder, numbers):
        check(folder, numbers, jobs)
        with writing(goal) as out, ExitStack() as held:
            out.write(form.line(COLUMNS))
            for block in _blocks(folder, numbers, held):
                out.write(form.block(block))
                stopped += block.stop is not None
        return stopped
    with replacing(goal) as path, tempfile.TemporaryDirectory(dir=Path(goal).parent, prefix=".gather-") as beside:
        with open(path, "wb") as out, ProcessPoolExecutor(jobs) as pool:
            out.write(form.line(COLUMNS).encode())
            window: list[Any] = []
            waiting = iter(numbers)
            for number in _first(waiting, 2 * jobs):
                window.append(pool.submit(_part_csv, folder, number, form.separator, form.decimal_comma, beside))
            while window:
                name, count = window.pop(0).result()
                stopped += count
                for number in _first(waiting, 1):
                    window.append(pool.submit(_part_csv, folder, number, form.separator, form.decimal_comma, beside))
                _append(out, name)
    return stopped


def _first(numbers: Iterator[int], count: int) -> Iterator[int]:
    for _, number in zip(range(count), numbers):
        yield number


def _append(out: BinaryIO, name: str) -> None:
    """Appends a file to another one, and removes it."""
    out.flush()
    with open(name, "rb") as file:
        left = os.fstat(file.fileno()).st_size
        try:
            while left and (copied := os.copy_file_range(file.fileno(), out.fileno(), left)):
                left -= copied
        except OSError:
            shutil.copyfileobj(file, out, 1 << 20)
            out.flush()
    os.unlink(name)


# ---- SQLite


def gather_database(folder: str, goal: str, jobs: int) -> int:
    """Gathers all parts into one SQLite database; gives back how many blocks stop."""
    numbers = gathered(folder)
    check(folder, numbers, jobs)
    with replacing(database_place(goal)) as path, ExitStack() as held:
        try:
            database = Database(path)
            for block in _blocks(folder, numbers, held):
                database.add(block)
            database.close()
        except sqlite3.Error as error:
            raise ToolError(f"{goal} can't be written: {error}", UNWRITABLE) from None
    return database.stopped


# ---- sums


def _part_ladder(folder: str, number: int, period: str) -> tuple[list[tuple[Any, Step]], int]:
    part, ladder, stopped = PartText(folder, number), Ladder(period), 0
    part.check(folder)
    with open(part.path, "rb") as file:
        for _, block in part.blocks(file):
            ladder.add(block)
            stopped += block.stop is not None
    return list(ladder.steps.items()), stopped


def gather_ladder(folder: str, goal: str | None, period: str, form: CsvForm, jobs: int) -> int:
    """Sums of all parts by period and currency, as CSV; gives back how many blocks stop."""
    numbers, ladder, stopped = gathered(folder), Ladder(period), 0
    with ProcessPoolExecutor(jobs) as pool:
        for steps, count in pool.map(_part_ladder, [folder] * len(numbers), numbers, [period] * len(numbers)):
            ladder.merge(steps)
            stopped += count
    with writing(goal) as out:
        ladder.write(out, form)
    return stopped


def _check_one(folder: str, number: int) -> None:
    PartText(folder, number).check(folder)


def check(folder: str, numbers: list[int], jobs: int) -> None:
    """Raises `ToolError` where a text isn't the one that was written."""
    with ProcessPoolExecutor(jobs) as pool:
        for _ in pool.map(_check_one, [folder] * len(numbers), numbers):
            pass


