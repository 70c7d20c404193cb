"""The forms that texts of terms and of scripts have (docs/TEXTS.md, "A portfolio file"): names, decimals, days, cycles.

Each reader gives back the value, or raises `ValueError` whose text says what was wanted.
"""

from __future__ import annotations

import re
from dataclasses import dataclass
from datetime import date
from decimal import ROUND_HALF_EVEN, Context, Decimal

MOST_UNITS = 2 ** 127 - 1
FIRST_YEAR, LAST_YEAR = 1900, 2299
FIRST_DAY, LAST_DAY = date(1900, 1, 1).toordinal(), date(2299, 12, 31).toordinal()
MONTHS = {"M": 1, "Q": 3, "H": 6, "Y": 12}
DAYS = {"D": 1, "W": 7}

_NAME = re.compile(r"[!-~]{1,64}")
_CURRENCY = re.compile(r"[!-~]{1,16}")
_DECIMAL = re.compile(r"[-+]?[0-9]+(?:\.[0-9]+)?(?:[eE]([-+]?[0-9]{1,3}))?")
_DAY = re.compile(r"([0-9]{4})-([0-9]{2})-([0-9]{2})(?:T00:00:00)?")
_CYCLE = re.compile(r"P([0-9]{1,3})([DWMQHY])(L[01])?")
_EXACT = Context(prec=200, rounding=ROUND_HALF_EVEN)


@dataclass(frozen=True, slots=True)
class Cycle:
    """A count of days, weeks, months, quarters, half-years or years; `long` tells of its last part of a period."""

    count: int
    unit: str
    long: bool

    @property
    def months(self) -> int:
        """How many months a cycle has, or 0 where it is counted in days."""
        return self.count * MONTHS.get(self.unit, 0)

    @property
    def days(self) -> int:
        """How many days a cycle has, or 0 where it is counted in months."""
        return self.count * DAYS.get(self.unit, 0)


def is_name(text: str) -> bool:
    """1 to 64 printable ASCII characters without space."""
    return bool(_NAME.fullmatch(text))


def is_currency(text: str) -> bool:
    """The same, and at most 16."""
    return bool(_CURRENCY.fullmatch(text))


def read_units(text: str) -> int:
    """A decimal in units of 10^-9: rounded once to nine decimals, at a tie to the even one."""
    found = _DECIMAL.fullmatch(text) if len(text) <= 64 else None
    if not found or abs(int(found[1] or 0)) > 18:
        raise ValueError("a number is digits with at most one point and no other sign, as 1000.50, 0.05 or 2e-3")
    units = int(Decimal(text).scaleb(9, _EXACT).quantize(Decimal(1), context=_EXACT))
    if abs(units) > MOST_UNITS:
        raise ValueError("a number is below 170141183460469231731687303715.884105727 and above its negative")
    return units


def read_decimal(text: str) -> Decimal:
    """A decimal, rounded to nine decimals."""
    return Decimal(read_units(text)).scaleb(-9)


def read_day(text: str) -> int:
    """A day, as its number: `date.fromordinal` gives the date."""
    found = _DAY.fullmatch(text)
    if not found:
        raise ValueError("a day is written 2026-01-15, with year, month and day")
    year, month, day = int(found[1]), int(found[2]), int(found[3])
    if not FIRST_YEAR <= year <= LAST_YEAR:
        raise ValueError("a day is from 1900-01-01 to 2299-12-31")
    try:
        return date(year, month, day).toordinal()
    except ValueError:
        raise ValueError("a day that the calendar has, as 2026-01-15") from None


def read_cycle(text: str) -> Cycle:
    """A cycle, whose count is 1 to 999."""
    cycle = read_period(text)
    if cycle.count == 0:
        raise ValueError("a cycle's count is from 1 to 999, as P6ML1 (each six months)")
    return cycle


def read_period(text: str) -> Cycle:
    """A period, whose count may be 0."""
    found = _CYCLE.fullmatch(text)
    if not found:
        raise ValueError("a cycle is P, a count, a unit (D, W, M, Q, H or Y), and L0, L1 or nothing, as P6ML1")
    return Cycle(int(found[1]), found[2], found[3] == "L0")
