"""The index of a portfolio's file: where each contract stands, what it is called, refers to, reads and weighs. Regions of
the file are read by several processes: each begins at what looks like a contract, and what it found counts only where
the region before it ended exactly there."""

from __future__ import annotations

import os
import re
from array import array
from collections.abc import Iterator
from concurrent.futures import ProcessPoolExecutor
from dataclasses import dataclass, field

from .errors import PORTFOLIO, UNREADABLE, ToolError, reason
from .stream import Contracts
from .unit import Unit, look

LEAST_REGION = 8 << 20
_BORDER = re.compile(rb"[}\]\[][ \t\r\n]*,?[ \t\r\n]*(\{)")


@dataclass
class Index:
    """Of each contract of the file, in its order: where it begins and ends, its name, how many contracts it counts as,
    its weight at most, and the number of its set of codes in `codes`. `units` has those that refer to others or in
    which others stand."""

    starts: array = field(default_factory=lambda: array("Q"))
    ends: array = field(default_factory=lambda: array("Q"))
    names: list[str] = field(default_factory=list)
    counts: array = field(default_factory=lambda: array("I"))
    weights: array = field(default_factory=lambda: array("Q"))
    code_sets: array = field(default_factory=lambda: array("I"))
    codes: list[tuple[str, ...]] = field(default_factory=list)
    units: dict[int, Unit] = field(default_factory=dict)
    end: int = 0
    is_list: bool | None = None

    def __len__(self) -> int:
        return len(self.starts)

    def extend(self, other: Index) -> None:
        """Adds the index of the region behind."""
        shift, base = len(self), len(self.codes)
        known = {codes: number for number, codes in enumerate(self.codes)}
        numbers = array("I")
        for codes in other.codes:
            if codes not in known:
                known[codes] = len(self.codes)
                self.codes.append(codes)
            numbers.append(known[codes])
        if base == 0 or list(numbers) == list(range(len(numbers))):
            self.code_sets.extend(other.code_sets)
        else:
            self.code_sets.extend(numbers[code] for code in other.code_sets)
        for name in ("starts", "ends", "names", "counts", "weights"):
            getattr(self, name).extend(getattr(other, name))
        self.units.update((place + shift, unit) for place, unit in other.units.items())
        self.end = other.end


def index_of(name: str, workers: int) -> Index:
    """The index of a file."""
    try:
        size = os.stat(name).st_size
        if not os.path.isfile(name):
            raise ToolError(f"{name} is no plain file: put the portfolio into one", UNREADABLE)
        regions = max(1, min(4 * workers, size // LEAST_REGION)) if workers > 1 else 1
        starts = [0, *(start for start in _borders(name, size, regions))]
        stops = [*starts[1:], None]
        if len(starts) == 1:
            return _region(name, 0, None, False)
        with ProcessPoolExecutor(workers) as pool:
            parts = pool.map(_region_or_fault, [name] * len(starts), starts, stops, [False] + [True] * len(stops[1:]))
            return _chained(name, parts, stops)
    except OSError as error:
        raise ToolError(f"{name} can't be read: {reason(error)}", UNREADABLE) from None


def _borders(name: str, size: int, regions: int) -> Iterator[int]:
    """Where contracts seem to begin, about as many as there are regions."""
    last = 0
    with open(name, "rb") as file:
        for number in range(1, regions):
            place = size * number // regions
            if place <= last:
                continue
            file.seek(place)
            data = file.read(1 << 20)
            for found in _BORDER.finditer(data):
                start = place + found.start(1)
                if _seems_contract(name, start):
                    yield start
                    last = start
                    break


def _seems_contract(name: str, start: int) -> bool:
    try:
        with open(name, "rb") as file:
            _, _, value = next(iter(Contracts(file, name, start, inside=True)))
        return "contractID" in value and "contractType" in value
    except (ToolError, StopIteration):
        return False


def _region_or_fault(name: str, start: int, stop: int | None, inside: bool) -> Index | ToolError:
    try:
        return _region(name, start, stop, inside)
    except ToolError as error:
        return error


def _chained(name: str, parts: Iterator[Index | ToolError], stops: list[int | None]) -> Index:
    """The index of all regions: one that didn't begin where the one before ended is read again from there."""
    whole = Index()
    for number, (part, stop) in enumerate(zip(parts, stops)):
        right = isinstance(part, Index) and (number == 0 or part.starts and part.starts[0] == whole.end)
        if not right:
            if number == 0:
                raise part
            if stop is not None and whole.end >= stop:
                continue
            part = _region(name, whole.end, stop, True)
        if number == 0:
            whole = part
        else:
            whole.extend(part)
    return whole


def _region(name: str, start: int, stop: int | None, inside: bool) -> Index:
    """The index of a region that begins at a contract, or at the beginning of the file."""
    index, codes_known = Index(), {}
    with open(name, "rb") as file:
        reader = Contracts(file, name, start, stop, inside)
        add_start, add_end, add_name = index.starts.append, index.ends.append, index.names.append
        add_count, add_weight, add_codes = index.counts.append, index.weights.append, index.code_sets.append
        for begin, end, value in reader:
            found = look(value)
            if isinstance(found, Unit):
                index.units[len(index.starts)] = found
                name_, weight, codes, count = found.names[0], 0, found.codes, found.contracts
            else:
                name_, weight, codes = found
                count = 1
            if not isinstance(name_, str):
                raise ToolError(f"{name}: the contract at byte {begin} has no contractID; `lint` tells more", PORTFOLIO)
            number = codes_known.get(codes)
            if number is None:
                number = codes_known[codes] = len(index.codes)
                index.codes.append(codes)
            add_start(begin)
            add_end(end)
            add_name(name_)
            add_count(count)
            add_weight(weight)
            add_codes(number)
        index.end, index.is_list = reader.end, reader.is_list
    return index
