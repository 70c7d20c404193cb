"""The scheduled events of a contract: how many there are, and their days (docs/PROFILE.md, "Schedules" and "Contracts:
plan"). Days are numbers, as of `date.toordinal`."""

from __future__ import annotations

from calendar import monthrange
from collections.abc import Iterable, Mapping
from dataclasses import dataclass
from datetime import date
from typing import Any

from .dictionary import LOANS
from .forms import LAST_DAY, LAST_YEAR, Cycle

MOST_DATES = 4096
_ENOUGH = 5000


class PlanFault(Exception):
    """A contract's dates are too many (18), or leave the calendar (19)."""

    def __init__(self, number: int, why: str) -> None:
        super().__init__(why)
        self.number = number
        self.why = why


class _Undefined(Exception):
    """A day is past 2299."""


def plus_cycles(day: int, cycle: Cycle, count: int) -> int | None:
    """The day so many cycles after a day, or none past 2299."""
    if cycle.days:
        found = day + cycle.days * count
        return found if found <= LAST_DAY else None
    start = date.fromordinal(day)
    months = start.year * 12 + start.month - 1 + cycle.months * count
    year, month = divmod(months, 12)
    if year > LAST_YEAR:
        return None
    return date(year, month + 1, min(start.day, monthrange(year, month + 1)[1])).toordinal()


def month_end(day: int) -> int:
    """The last day of the month that a day lies in."""
    found = date.fromordinal(day)
    return day + monthrange(found.year, found.month)[1] - found.day


def schedule(anchor: int | None, cycle: Cycle | None, end: int, end_of_month: bool) -> list[int]:
    """The dates of a schedule; of more than can be taken, not all."""
    if anchor is None or anchor > end:
        return []
    if cycle is None:
        return [anchor, end] if anchor < end else [end]
    keeps = end_of_month and cycle.months > 0 and month_end(anchor) == anchor
    dates: list[int] = []
    while True:
        day = plus_cycles(anchor, cycle, len(dates))
        if day is not None and keeps:
            day = month_end(day)
        if day is None or day >= end or len(dates) >= _ENOUGH:
            break
        dates.append(day)
    if cycle.long and day != end:
        dates = dates[:max(1, len(dates) - 1)]
    return [*dates, end]


@dataclass(slots=True)
class _Planning:
    """The terms of a contract, by name, as days, cycles, units of 10^-9 and texts; and the days of its events."""

    terms: Mapping[str, Any]
    days: list[int]

    def given(self, term: str) -> Any:
        return self.terms.get(term)

    def anchor(self, anchor: str, cycle: str) -> int | None:
        found, period = self.given(anchor), self.given(cycle)
        if found is None and period is not None:
            found = plus_cycles(self.given("initialExchangeDate"), period, 1)
            if found is None:
                raise _Undefined
        return found

    def dates(self, of: str, end: int, or_end: bool = False) -> list[int]:
        """The dates of the cycle of something up to a day; that day alone where they have no anchor and it is wanted."""
        anchor = self.anchor("cycleAnchorDateOf" + of, "cycleOf" + of)
        if anchor is None and or_end:
            return [end]
        return schedule(anchor, self.given("cycleOf" + of), end, self.given("endOfMonthConvention") == "EOM")

    def add(self, dates: Iterable[int], shifts: bool = True) -> None:
        """Adds the events of one type."""
        found = list(dates)
        if len(self.days) + len(found) > MOST_DATES:
            raise PlanFault(18, f"it has more than {MOST_DATES} scheduled events")
        self.days += [self.shifted(day) for day in found] if shifts else found

    def shifted(self, day: int) -> int:
        convention = self.given("businessDayConvention") or "NOS"
        if self.given("calendar") != "MF" or convention in ("NOS", "NULL"):
            return day
        weekday = (day - 1) % 7
        if weekday < 5:
            return day
        following, preceding = day + 7 - weekday, day - (weekday - 4)
        first, other = (following, preceding) if "F" in convention else (preceding, following)
        if "M" in convention and (first > LAST_DAY or date.fromordinal(first).month != date.fromordinal(day).month):
            first = other
        if first > LAST_DAY:
            raise _Undefined
        return first


def _where(day: int | None) -> list[int]:
    return [] if day is None else [day]


def event_days(kind: str, terms: Mapping[str, Any]) -> list[int]:
    """The days of a contract's own scheduled events. Raises `PlanFault`. Of a CEG or CEC it is maturity alone, where it
    has one."""
    plan = _Planning(terms, [])
    try:
        if kind in LOANS:
            _loan(plan, kind)
        elif kind == "SWPPV":
            _plain_swap(plan)
        elif kind in ("CEG", "CEC"):
            end = terms.get("maturityDate")
            plan.days += [] if end is None else [max(end, plan.shifted(end))]
        else:
            _others(plan, kind)
    except _Undefined:
        raise PlanFault(19, "a date that is computed for it is past 2299") from None
    return plan.days


def _trades(plan: _Planning) -> None:
    plan.add(_where(plan.given("purchaseDate")), False)
    plan.add(_where(plan.given("terminationDate")), False)


def _others(plan: _Planning, kind: str) -> None:
    _trades(plan)
    end = plan.given("maturityDate")
    if kind == "FXOUT":
        plan.add([end] if plan.given("deliverySettlement") == "S" else [end, end])
    elif kind in ("OPTNS", "FUTUR"):
        plan.add([end, end], False)


def _plain_swap(plan: _Planning) -> None:
    end = plan.given("maturityDate")
    plan.add([plan.given("initialExchangeDate")], False)
    _trades(plan)
    plan.add(plan.dates("InterestPayment", end, True))
    plan.add(day for day in plan.dates("RateReset", end) if day != end)
    plan.add([end])


def _loan(plan: _Planning, kind: str) -> None:
    end = maturity(kind, plan.terms)
    given = plan.given
    plan.add([given("initialExchangeDate")], False)
    _trades(plan)
    redemptions = []
    if kind != "PAM":
        redemptions = [day for day in plan.dates("PrincipalRedemption", end) if day != end]
        plan.add(redemptions)
    has_rate, capitalized = given("nominalInterestRate") is not None, given("capitalizationEndDate")
    if has_rate and capitalized is not None:
        plan.add(plan.dates("InterestPayment", capitalized, True))
    if has_rate:
        interest = set(plan.dates("InterestPayment", end, True))
        if kind in ("NAM", "ANN"):
            interest |= {*redemptions, end}
        plan.add(day for day in sorted(interest) if capitalized is None or day > capitalized)
    if given("feeRate"):
        plan.add(plan.dates("Fee", end))
    resets = [day for day in plan.dates("RateReset", end) if day != end]
    plan.add(resets)
    if kind == "ANN":
        first = [] if given("nextPrincipalRedemptionPayment") is not None else [given("initialExchangeDate")]
        if len(plan.days) + len(first) + len(resets) > MOST_DATES:
            raise PlanFault(18, f"it has more than {MOST_DATES} scheduled events")
        plan.add(first, False)
        plan.add(resets)
    if kind != "PAM" and given("interestCalculationBase") == "NTL":
        plan.add(day for day in plan.dates("InterestCalculationBase", end) if day != end)
    if (given("scalingEffect") or "OOO")[0] == "I" or (given("scalingEffect") or "OOO")[1] == "N":
        plan.add(day for day in plan.dates("ScalingIndex", end) if day != end)
    plan.add([end])


def maturity(kind: str, terms: Mapping[str, Any]) -> int:
    """The maturity of a loan: the given one, or of a LAM the one that its payment leads to. Raises `PlanFault`."""
    given = terms.get("maturityDate")
    if given is not None or kind != "LAM":
        return given
    payment = terms["nextPrincipalRedemptionPayment"]
    count = max(1, -(-terms["notionalPrincipal"] // payment))
    if count > MOST_DATES:
        raise PlanFault(18, f"it needs more than {MOST_DATES} redemptions")
    cycle, anchor = terms["cycleOfPrincipalRedemption"], terms.get("cycleAnchorDateOfPrincipalRedemption")
    if anchor is None:
        anchor = plus_cycles(terms["initialExchangeDate"], cycle, 1)
    end = None if anchor is None else plus_cycles(anchor, cycle, count - 1)
    if end is None or end <= terms["initialExchangeDate"]:
        raise PlanFault(19, "the maturity that is derived for it is past 2299, or not after its initial exchange")
    return end


def own_count(kind: str, days: list[int]) -> int:
    """How many scheduled events a contract counts by itself: of a CEG or CEC a credit event and its settlement."""
    return 2 if kind in ("CEG", "CEC") else len(days)
