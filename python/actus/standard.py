"""Files of the standard's published tests: an object of cases, each with `terms`, `dataObserved`, `eventsObserved`, `to`
and `results`. A case becomes a portfolio and a script, and its rows are compared with its results.

What changes on the way: blank texts are left out, times of midnight dropped, calendars named as here, observations and
events become lines of a script; a contract that stands in another and has no role of its own is taken as `RPA`, and
takes its status date and currency from the other where it has none. What has no counterpart is told by name, with its
class (`dictionary.class_of`). No conformity is claimed (docs/DEVIATIONS.md).
"""

from __future__ import annotations

import json
import re
from collections.abc import Iterator
from dataclasses import dataclass, field
from datetime import date
from decimal import Decimal, InvalidOperation
from typing import Any

from .dictionary import CREDIT_EVENTS, FORM, KINDS, TERMS, class_of
from .errors import VERDICT, ProgramError, ToolError, shown
from .files import Path_, read_whole
from .program import portfolio_bytes, run, script_bytes
from .text import Row

CALENDARS = {"nocalendar": "NC", "mondaytofriday": "MF"}
AS_HERE = {"quantity": "1", "cyclePointOfInterestPayment": "E", "cyclePointOfRateReset": "B", "fixingPeriod": "P0D",
           "interestScalingMultiplier": "1", "notionalScalingMultiplier": "1", "delinquencyRate": "0"}
COLUMNS = {"payoff": "payoff", "notional": "notionalPrincipal", "rate": "nominalInterestRate",
           "accrued": "accruedInterest"}
_MOMENT = re.compile(r"([0-9]{4}-[0-9]{2}-[0-9]{2})(?:[T ]([0-9:.]+)(?:Z|[+-]00:?00)?)?")
_MIDNIGHT = re.compile(r"00:00(?::00(?:\.0+)?)?")


@dataclass(slots=True)
class Note:
    """What of a case has no counterpart, or was taken in another way: the contract, the name, its class and why."""

    contract: str
    name: str
    group: str
    why: str


@dataclass
class Case:
    """A case of a file: the portfolio and the script that it becomes, what has no counterpart, and why it can't be run,
    where it can't; the last day whose rows count; and the rows that are wanted."""

    name: str
    kind: str
    contract: str
    contracts: list[dict[str, Any]]
    script: list[dict[str, Any]]
    notes: list[Note] = field(default_factory=list)
    faults: list[str] = field(default_factory=list)
    to: date | None = None
    results: list[dict[str, Any]] | None = None

    @property
    def portfolio_file(self) -> bytes:
        """The bytes of the portfolio."""
        return portfolio_bytes(self.contracts)

    @property
    def script_file(self) -> bytes:
        """The bytes of the script."""
        return script_bytes(self.script)


# ---- reading


def read_cases(name: Path_) -> Iterator[Case]:
    """The cases of a file. Raises `ToolError` where it is no file of that form."""
    try:
        found = json.loads(read_whole(name), parse_float=str, parse_int=str)
    except UnicodeDecodeError:
        raise ToolError(f"{name} is no UTF-8: save it as UTF-8") from None
    except RecursionError:
        raise ToolError(f"{name}: lists and objects stand too deep in one another") from None
    except ValueError as error:
        raise ToolError(f"{name} is no JSON: {error}") from None
    if isinstance(found, list):
        found = {str(case.get("identifier", place)) if isinstance(case, dict) else str(place): case
                 for place, case in enumerate(found, 1)}
    if not isinstance(found, dict) or not found:
        raise ToolError(f"{name} is no file of tests: it is an object of cases, as "
                        '{"pam01": {"terms": {..}, "dataObserved": {..}, "results": [..]}}')
    for key, value in found.items():
        if not isinstance(value, dict) or not isinstance(value.get("terms"), dict):
            raise ToolError(f"{name}: case {shown(str(key))} has no object `terms`")
        yield read_case(str(key), value)


def read_case(name: str, value: dict[str, Any]) -> Case:
    """A case of its object."""
    terms = value["terms"]
    case = Case(name, _text(terms.get("contractType")), "", [], [])
    contract = _contract(case, terms, None)
    contract.setdefault("contractID", name)
    case.contract = contract["contractID"] = str(contract["contractID"])
    case.contracts = [contract]
    _observed(case, value.get("dataObserved"))
    _events(case, value.get("eventsObserved"))
    case.script.append({"ask": case.contract})
    if to := _text(value.get("to")):
        day = _day(case, "to", to)
        case.to = date.fromisoformat(day) if day else None
    results = value.get("results")
    if results is not None and not (isinstance(results, list) and all(isinstance(row, dict) for row in results)):
        case.faults.append("`results` is no list of objects")
    else:
        case.results = results
    return case


def _text(value: Any) -> str:
    return value.strip() if isinstance(value, str) else "" if value is None else json.dumps(value)


def _day(case: Case, name: str, text: str) -> str | None:
    """The day of a moment; a fault where it is no moment, or none of midnight."""
    found = _MOMENT.fullmatch(text)
    if not found:
        case.faults.append(f"{name}: {shown(text)} is no day")
        return None
    try:
        date.fromisoformat(found[1])
    except ValueError:
        case.faults.append(f"{name}: {shown(text)} isn't in the calendar")
        return None
    if found[2] and not _MIDNIGHT.fullmatch(found[2]):
        case.faults.append(f"{name}: {shown(text)} is a time of day, and days here have none but midnight")
        return None
    return found[1]


def _contract(case: Case, terms: dict[str, Any], parent: dict[str, Any] | None) -> dict[str, Any]:
    """The terms of a contract as a portfolio has them."""
    kind, contract = _text(terms.get("contractType")), {}
    about = _text(terms.get("contractID")) or case.name
    if kind not in KINDS:
        case.faults.append(f"there is no kind {kind or '-'} here")
    for name, value in terms.items():
        if value is None or isinstance(value, str) and not value.strip():
            continue
        if kind in KINDS and name not in TERMS[kind]:
            case.notes.append(_unused(about, name, kind, value))
        elif name == "contractStructure":
            contract[name] = _structure(case, value, terms)
        elif isinstance(value, str):
            contract[name] = _term(case, f"{about}, {name}", name, value.strip())
        else:
            contract[name] = value
    if parent is not None:
        _fill(case, about, contract, parent)
    return contract


def _unused(about: str, name: str, kind: str, value: Any) -> Note:
    group, why = class_of(name, kind)
    if group == "effect" and _is(value, AS_HERE.get(name)):
        return Note(about, name, "none", f"its value {_text(value)} is the rule here")
    return Note(about, name, group, why)


def _is(value: Any, other: str | None) -> bool:
    """A value is another text, or the same number."""
    if other is None or not isinstance(value, str):
        return False
    try:
        return value.strip() == other or Decimal(value.strip()) == Decimal(other)
    except InvalidOperation:
        return False


def _term(case: Case, about: str, name: str, text: str) -> str:
    if FORM.get(name) == "day":
        return _day(case, about, text) or text
    if name == "calendar":
        return CALENDARS.get(text.replace("_", "").lower(), text)
    return text


def _fill(case: Case, about: str, contract: dict[str, Any], parent: dict[str, Any]) -> None:
    """Gives a contract that stands in another what it lacks."""
    if "contractRole" not in contract:
        contract["contractRole"] = "RPA"
        case.notes.append(Note(about, "contractRole", "filled", "it isn't given, and is taken as RPA"))
    for name in ("statusDate", "currency"):
        given = _text(parent.get(name))
        if name not in contract and given:
            contract[name] = _term(case, f"{about}, {name}", name, given)
            case.notes.append(Note(about, name, "filled", f"it isn't given, and is taken from the contract that "
                                   f"{about} stands in"))


def _structure(case: Case, value: Any, parent: dict[str, Any]) -> Any:
    """A structure, with the contracts in it."""
    if not isinstance(value, list):
        return value
    listed = []
    for element in value:
        if isinstance(element, dict):
            inner = element.get("object")
            if element.get("referenceType") == "CNT" and isinstance(inner, dict):
                element = element | {"object": _contract(case, inner, parent)}
        listed.append(element)
    return listed


def _observed(case: Case, observed: Any) -> None:
    """Adds the values of market objects to the script, in the order of the file."""
    if not isinstance(observed, (dict, list, type(None))):
        case.faults.append("`dataObserved` is no object of market objects")
        return
    for code, found in observed.items() if isinstance(observed, dict) else enumerate(observed or []):
        values = found
        if isinstance(found, dict):
            code, values = _text(found.get("identifier")) or str(code), found.get("data")
        if not isinstance(values, list):
            case.faults.append(f"dataObserved: {shown(str(code))} has no list `data`")
            continue
        for value in values:
            if not isinstance(value, dict):
                case.faults.append(f"dataObserved: a value of {shown(str(code))} is no object")
                continue
            day = _day(case, f"dataObserved, {code}", _text(value.get("timestamp", value.get("time"))))
            if day:
                case.script.append({"rate": {"code": str(code), "date": day, "value": _text(value.get("value"))}})


def _events(case: Case, events: Any) -> None:
    """Adds what happened to contracts to the script."""
    if not isinstance(events, (list, type(None))):
        case.faults.append("`eventsObserved` is no list of events")
        return
    for event in events or []:
        if not isinstance(event, dict):
            case.faults.append("eventsObserved: an event is no object")
            continue
        kind = _text(_first(event, "type", "eventType"))
        day = _day(case, f"eventsObserved, {kind}", _text(_first(event, "time", "timestamp", "eventDate", "date")))
        contract = _text(_first(event, "contractId", "contractID", "contractIdentifier")) or case.contract
        if day is None:
            continue
        line = {"contract": contract, "type": kind, "date": day, "value": _text(event.get("value"))}
        if kind == "CE":
            states = event.get("states") if isinstance(event.get("states"), dict) else {}
            said = [_text(_first(each, "contractPerformance", "performance")) for each in (event, states)]
            line["value"] = next((text for text in (*said, line["value"]) if text in CREDIT_EVENTS), "")
            if not line["value"]:
                case.notes.append(Note(contract, f"CE of {day}", "none", "it is none of DL, DQ and DF, and left out"))
                continue
        elif kind not in ("PP", "DV", "XD"):
            case.notes.append(Note(contract, f"{kind or 'an event'} of {day}", "effect",
                                   "a script has the events PP, DV, XD and CE alone"))
            continue
        case.script.append({"event": line})


def _first(found: dict[str, Any], *names: str) -> Any:
    return next((found[name] for name in names if found.get(name) not in (None, "")), None)


# ---- comparing


@dataclass(slots=True)
class Verdict:
    """What came of a case: `equal`, `differs` or `not of this profile`, and why."""

    case: Case
    verdict: str
    why: str


@dataclass(slots=True)
class Wanted:
    """A row of the results: each number where it is given."""

    day: date
    type: str
    currency: str
    numbers: dict[str, Decimal]


def wanted_rows(case: Case) -> list[Wanted]:
    """The rows of the results up to the last day that counts. Raises `ToolError` where one is of another form."""
    rows = []
    for place, row in enumerate(case.results or [], 1):
        found = _MOMENT.fullmatch(_text(_first(row, "eventDate", "time", "date")))
        try:
            day = date.fromisoformat(found[1]) if found else None
            numbers = {name: Decimal(_text(row[given])) for name, given in COLUMNS.items()
                       if _text(row.get(given)) not in ("", "null")}
        except (ValueError, InvalidOperation):
            day = None
        kind = _text(_first(row, "eventType", "type"))
        if day is None or not kind:
            raise ToolError(f"case {case.name}: row {place} of its results has no day, no type or a number that is none")
        if case.to is None or day <= case.to:
            rows.append(Wanted(day, kind, _text(row.get("currency")), numbers))
    return rows


def compare(case: Case, tolerance: Decimal = Decimal("0.000001"), program: str | None = None,
            payments: bool = False) -> Verdict:
    """Runs a case and compares its rows with its results: day, type and currency, and each number that the results give
    within the tolerance; with `payments` what is paid alone, summed by day and currency."""
    if case.faults:
        return Verdict(case, "not of this profile", case.faults[0])
    if case.results is None:
        return Verdict(case, "not of this profile", "the case has no results")
    wanted = wanted_rows(case)
    try:
        text = run(case.portfolio_file, case.script_file, program=program)
    except ProgramError as error:
        return Verdict(case, "not of this profile", f"{error.line}: {_explained(error)}")
    (block,) = text.answers[0].blocks
    found = [row for row in block.rows if case.to is None or row.day <= case.to]
    why = (_paid_otherwise if payments else _difference)(wanted, found, tolerance)
    if why is None:
        return Verdict(case, "equal", "1 row" if len(wanted) == 1 else f"{len(wanted)} rows")
    if block.stop and (case.to is None or block.stop.day <= case.to):
        why = f"{why}; the block stops: {block.stop.kind} {block.stop.about} {block.stop.day}"
    causes = [note for note in case.notes if note.group == "effect"]
    if causes:
        named = ", ".join(f"{note.name} (here {note.why})" for note in causes)
        return Verdict(case, "not of this profile", f"{named}: {why}")
    return Verdict(case, "differs", why)


def _explained(error: ProgramError) -> str:
    """The program's explanation without the place in a file that is gone."""
    first = error.explanation.splitlines()[0] if error.explanation else ""
    return re.sub(r"^\S+?:\d+:\d+: ", "", first)


def _difference(wanted: list[Wanted], found: list[Row], tolerance: Decimal) -> str | None:
    """The first day and type in which rows differ, and how; none where they are the same."""
    groups: dict[tuple[date, str, str], tuple[list[Wanted], list[Row]]] = {}
    currencies = {row.currency for row in wanted}
    for row in wanted:
        groups.setdefault((row.day, row.type, row.currency), ([], []))[0].append(row)
    for row in found:
        currency = row.currency if "" not in currencies else ""
        groups.setdefault((row.day, row.type, currency), ([], []))[1].append(row)
    for (day, kind, currency), (these, those) in sorted(groups.items(), key=lambda group: group[0]):
        about = f"{day} {kind} {currency}".strip()
        for row, other in zip(these, those):
            for name, number in row.numbers.items():
                here = getattr(other, name)
                if abs(here - number) > tolerance:
                    return f"{about}, {name}: {number} in the results, {here} here"
        if len(these) > len(those):
            return f"{about}: {_paid(these[len(those)])} in the results, no row here"
        if len(those) > len(these):
            return f"{about}: no row in the results, {those[len(these)].payoff} here"
    return None


def _paid(row: Wanted) -> str:
    return str(row.numbers.get("payoff", "a row"))


def _paid_otherwise(wanted: list[Wanted], found: list[Row], tolerance: Decimal) -> str | None:
    """The first day and currency of which another amount is paid."""
    sums: dict[tuple[date, str], list[Decimal]] = {}
    named = all(row.currency for row in wanted)
    for row in wanted:
        sums.setdefault((row.day, row.currency), [Decimal(0), Decimal(0)])[0] += row.numbers.get("payoff", Decimal(0))
    for other in found:
        sums.setdefault((other.day, other.currency if named else ""), [Decimal(0), Decimal(0)])[1] += other.payoff
    for (day, currency), (one, two) in sorted(sums.items()):
        if abs(one - two) > tolerance:
            return f"{day} {currency}, paid: {one} in the results, {two} here"
    return None


def table_of(verdicts: list[Verdict]) -> str:
    """Verdicts as a table, and below it how many there are of each."""
    lines = [("case", "kind", "verdict", "why"), *((v.case.name, v.case.kind, v.verdict, v.why) for v in verdicts)]
    widths = [max(len(line[column]) for line in lines) for column in range(3)]
    printed = ["  ".join([*(word.ljust(width) for word, width in zip(line, widths)), line[3]]).rstrip()
               for line in lines]
    counts = {word: sum(v.verdict == word for v in verdicts) for word in ("equal", "differs", "not of this profile")}
    return "\n".join([*printed, ", ".join(f"{count} {word}" for word, count in counts.items())]) + "\n"


def status_of(verdicts: list[Verdict]) -> int:
    """1 where a case differs, else 0."""
    return VERDICT if any(verdict.verdict == "differs" for verdict in verdicts) else 0
