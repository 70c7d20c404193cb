"""What `split` has to know of a contract of the file, with all that stands in it: its names, what it refers to, the
codes that it may read, and how much it weighs at most."""

from __future__ import annotations

from dataclasses import dataclass
from typing import Any

from .dictionary import LOANS, STRUCTURED

MOST_EVENTS = 4096
_UNITS = {"D": (0, 1), "W": (0, 7), "M": (1, 0), "Q": (3, 0), "H": (6, 0), "Y": (12, 0)}
_PLAIN = ("PAM", "LAM", "NAM", "ANN", "STK", "FXOUT", "SWPPV")


@dataclass(slots=True)
class Unit:
    """A contract of the file with those that stand in it: their names, itself first; the names that they refer to; the
    codes that they may read; how many contracts they count as (a CAPFL as two); and at most how much all of them
    weigh in an ask without event lines, or none where that goes by what they refer to."""

    names: list[str]
    references: list[str]
    codes: tuple[str, ...]
    contracts: int
    weight: int | None
    kinds: list[tuple[str, int, list[str]]]


def look(contract: dict[str, Any]) -> tuple[str, int, tuple[str, ...]] | Unit:
    """Of a contract that refers to none, its name, its weight and its codes; of another one a `Unit`."""
    kind, name = contract.get("contractType"), contract.get("contractID")
    if kind not in STRUCTURED:
        return name, event_bound(kind, contract) + 1, codes_of(kind, contract)
    unit = Unit([], [], (), 0, None, [])
    codes: dict[str, None] = {}
    _add(unit, codes, contract)
    unit.codes = tuple(codes)
    return unit


def _add(unit: Unit, codes: dict[str, None], contract: dict[str, Any]) -> None:
    kind, name = contract.get("contractType"), contract.get("contractID")
    unit.names.append(name)
    unit.contracts += 2 if kind == "CAPFL" else 1
    codes.update(dict.fromkeys(codes_of(kind, contract)))
    children: list[str] = []
    unit.kinds.append((name, event_bound(kind, contract), children))
    structure = contract.get("contractStructure") if kind in STRUCTURED else None
    for element in structure if isinstance(structure, list) else []:
        if isinstance(element, dict):
            _follow(unit, codes, children, element)


def _follow(unit: Unit, codes: dict[str, None], children: list[str], element: dict[str, Any]) -> None:
    """Follows a reference."""
    sort, aim = element.get("referenceType"), element.get("object")
    if sort == "CNT" and isinstance(aim, dict):
        children.append(aim.get("contractID"))
        _add(unit, codes, aim)
    elif sort == "CID":
        if isinstance(aim, dict):
            aim = aim.get("contractIdentifier") or aim.get("contractID")
        if isinstance(aim, str):
            children.append(aim)
            unit.references.append(aim)
    elif sort == "MOC":
        if isinstance(aim, dict):
            aim = aim.get("marketObjectCode")
        if isinstance(aim, str):
            codes[aim] = None


def codes_of(kind: str | None, contract: dict[str, Any]) -> tuple[str, ...]:
    """The codes that a contract may read by its own terms; more than it reads do no harm."""
    get = contract.get
    codes = [code for code in (get("marketObjectCodeOfRateReset"), get("marketObjectCodeOfScalingIndex"),
                               get("marketObjectCode")) if code]
    if settled := get("settlementCurrency"):
        codes.append(f"{get('currency')}/{settled}")
    if other := get("currency2"):
        codes.append(f"{other}/{get('currency')}")
    return tuple([code for code in codes if isinstance(code, str)]) if codes else ()


# ---- how many scheduled events there are, at most

_cycles: dict[str, tuple[int, int]] = {}


def _dates(span: int, cycle: Any) -> int:
    """How many dates a cycle has in so many months, at most."""
    if not cycle:
        return 2
    found = _cycles.get(cycle) if isinstance(cycle, str) else (0, 0)
    if found is None:
        try:
            end = next(place for place, sign in enumerate(cycle) if sign in _UNITS)
            months, days = _UNITS[cycle[end]]
            count = int(cycle[1:end])
            found = months * count, days * count
        except (StopIteration, ValueError):
            found = 0, 0
        if len(_cycles) < 10000:
            _cycles[cycle] = found
    months, days = found
    if months > 0:
        return span // months + 3
    return span * 31 // days + 3 if days > 0 else MOST_EVENTS


def _month(day: Any) -> int:
    return int(day[:4]) * 12 + int(day[5:7])


def event_bound(kind: str | None, contract: dict[str, Any]) -> int:
    """At least as many events as a contract has scheduled by itself, and mostly not many more; what can't be told is
    the most that there may be."""
    try:
        if kind in LOANS or kind == "SWPPV":
            return max(1, min(MOST_EVENTS, _loan_bound(kind, contract.get)))
        return 4 if kind in ("STK", "FXOUT", "OPTNS", "FUTUR", "SWAPS", "CAPFL", "CEG", "CEC") else MOST_EVENTS
    except (TypeError, ValueError, IndexError, ArithmeticError):
        return MOST_EVENTS


def _loan_bound(kind: str, get: Any) -> int:
    first = _month(get("initialExchangeDate"))
    last = get("maturityDate")
    if last:
        span = _month(last) - first + 1
    else:
        count = int(float(get("notionalPrincipal")) / float(get("nextPrincipalRedemptionPayment"))) + 2
        months, days = _dates(1, get("cycleOfPrincipalRedemption")) and _cycles[get("cycleOfPrincipalRedemption")]
        span = count * (months + days // 28 + 1) + 1
    anchors = [day for day in (get("cycleAnchorDateOfInterestPayment"), get("cycleAnchorDateOfPrincipalRedemption"),
                               get("cycleAnchorDateOfRateReset"), get("cycleAnchorDateOfFee"),
                               get("cycleAnchorDateOfScalingIndex"), get("cycleAnchorDateOfInterestCalculationBase"))
               if day]
    if anchors:
        span += max(0, first - min(map(_month, anchors)))
    events = 5
    redeemed = 0
    if kind in ("LAM", "NAM", "ANN"):
        redeemed = _dates(span, get("cycleOfPrincipalRedemption"))
        events += redeemed
    if get("nominalInterestRate"):
        paid = get("cycleOfInterestPayment")
        events += _dates(span, paid) if paid or get("cycleAnchorDateOfInterestPayment") else 1
        if kind in ("NAM", "ANN"):
            events += redeemed + 1
        if end := get("capitalizationEndDate"):
            events += 3 + _dates(max(0, _month(end) - first - span), paid)
    if get("feeRate"):
        events += _dates(span, get("cycleOfFee"))
    reset = get("cycleOfRateReset")
    if reset or get("cycleAnchorDateOfRateReset"):
        events += _dates(span, reset) * (2 if kind == "ANN" else 1)
    if get("scalingEffect"):
        events += _dates(span, get("cycleOfScalingIndex"))
    if get("interestCalculationBase") == "NTL":
        events += _dates(span, get("cycleOfInterestCalculationBase"))
    return events + 1
