"""Sums of what is paid, by month or year and currency: a ladder of liquidity. All sums are exact, in units of 10^-9."""

from __future__ import annotations

from collections.abc import Iterable
from dataclasses import dataclass
from decimal import Decimal
from typing import TextIO

from .errors import TextError, ToolError
from .table import CsvForm
from .text import RawBlock

PERIODS = {"day": 10, "month": 7, "year": 4}
ONE = 1_000_000_000
COLUMNS = ("caller", "ask", "version", "period", "currency", "in", "out", "net", "rows")


@dataclass(slots=True)
class Step:
    """What is received and what is paid in a period, in units of 10^-9 of the currency, and of how many rows."""

    received: int = 0
    paid: int = 0
    rows: int = 0


def units(text: str) -> int:
    """An amount with nine decimals in units of 10^-9."""
    return int(text.replace(".", "", 1)) if text[-10:-9] == "." else _no_amount(text)


def _no_amount(text: str) -> int:
    raise ValueError(text)


def amount(number: int) -> str:
    """Units of 10^-9 as an amount with nine decimals."""
    whole, part = divmod(abs(number), ONE)
    return f"{'-' if number < 0 else ''}{whole}.{part:09d}"


def decimal(number: int) -> Decimal:
    """Units of 10^-9 as a Decimal, exactly."""
    return Decimal(number).scaleb(-9)


class Ladder:
    """Sums by the ask, the period and the currency. `period` is `day`, `month` or `year`."""

    def __init__(self, period: str) -> None:
        if period not in PERIODS:
            raise ToolError(f"{period} is no period: give month or year", 2)
        self._length = PERIODS[period]
        self.steps: dict[tuple[int, int, int, str, str], Step] = {}

    def add(self, block: RawBlock) -> None:
        """Adds what the rows of a block pay."""
        length = self._length
        sums: dict[tuple[bytes, bytes], list[int]] = {}
        try:
            for line in block.lines:
                day, _, currency, payoff, rest = line.split(b" ", 4)
                if payoff[-10:-9] != b"." or rest.count(b" ") != 2:
                    raise ValueError
                number = int(payoff.replace(b".", b"", 1))
                key = day[:length], currency
                if key in sums:
                    step = sums[key]
                    step[number < 0] += number
                    step[2] += 1
                else:
                    sums[key] = [0, number, 1] if number < 0 else [number, 0, 1]
        except ValueError:
            raise TextError(block.first_line, "rows with amounts of nine decimals",
                            f"those of {block.contract}") from None
        for (period, currency), (received, paid, rows) in sums.items():
            key = (block.caller, block.number, block.version, period.decode("ascii", "replace"),
                   currency.decode("ascii", "replace"))
            step = self.steps.setdefault(key, Step())
            step.received += received
            step.paid -= paid
            step.rows += rows

    def merge(self, steps: Iterable[tuple[tuple[int, int, int, str, str], Step]]) -> None:
        """Adds the sums of another ladder."""
        for key, other in steps:
            step = self.steps.setdefault(key, Step())
            step.received += other.received
            step.paid += other.paid
            step.rows += other.rows

    def write(self, out: TextIO, form: CsvForm) -> None:
        """Writes the sums as CSV, by ask, period and currency: what comes in, what goes out, both above 0, and the
        difference."""
        out.write(form.line(COLUMNS))
        for (caller, ask, version, period, currency), step in sorted(self.steps.items()):
            amounts = [form.number(amount(n)) for n in (step.received, step.paid, step.received - step.paid)]
            out.write(form.line([str(caller), str(ask), str(version), period, currency, *amounts, str(step.rows)]))
