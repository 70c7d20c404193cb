"""All that is wrong in a portfolio and its scripts, at once: what the program refuses, names that aren't used, and what
is accepted and likely not meant."""

from __future__ import annotations

import bisect
import re
from collections.abc import Iterator
from dataclasses import dataclass
from datetime import date
from typing import Any

from .dictionary import LOANS, TERMS, class_of
from .errors import PORTFOLIO, SCRIPT, TOO_LONG, ToolError
from .files import read_whole
from .ladder import ONE, amount
from .portfolio import MOST_BYTES, Contract, Portfolio, read_portfolio
from .script import Line, Script, read_scripts

RATES = ("nominalInterestRate", "nominalInterestRate2", "nextResetRate", "rateSpread", "lifeCap", "lifeFloor",
         "periodCap", "periodFloor")
MOST_YEARS = 60
JUMP = 100


@dataclass(slots=True)
class Finding:
    """Something that is found: in a file, at a line and column from 1; `level` is `refused`, `unused` or `unlikely`;
    `number` names the refusal, as `portfolio 13`; the contract and the term that it is about, the text that stands
    there, and what was wanted or may be meant."""

    file: str
    line: int
    column: int
    level: str
    number: str
    contract: str
    term: str
    found: str
    wanted: str

    def __str__(self) -> str:
        about = f"contract '{self.contract}'" if self.contract else ""
        term = self.term if self.term != "-" else ""
        stands = f"{', '.join(part for part in (about, term) if part)}"
        said = ": ".join(part for part in (stands, self.found, self.wanted) if part)
        number = f" ({self.number})" if self.number else ""
        return f"{self.file}:{self.line}:{self.column}: {self.level}: {said}{number}"


@dataclass
class Report:
    """What was found in files, and the status and the line that the program would end with: 0 and none, or those of the
    first refusal."""

    findings: list[Finding]
    status: int
    refusal: str

    @property
    def is_accepted(self) -> bool:
        """The program takes the files."""
        return self.status == 0


def lint_files(portfolio: str, scripts: list[str]) -> Report:
    """Looks at files. Raises `ToolError` where one can't be read or is too long."""
    data = [read_whole(name) for name in (portfolio, *scripts)]
    for name, each in zip((portfolio, *scripts), data):
        if len(each) > MOST_BYTES:
            raise ToolError(f"{name} is longer than {MOST_BYTES} bytes: split it", TOO_LONG)
    return lint(data[0], data[1:], portfolio, scripts)


def lint(portfolio: bytes, scripts: list[bytes], name: str = "portfolio", names: list[str] | None = None) -> Report:
    """Looks at the bytes of a portfolio and of scripts."""
    names = names or [f"script {place}" for place in range(1, len(scripts) + 1)]
    held = read_portfolio(portfolio)
    read = read_scripts(list(scripts), held)
    looking = _Looking(name, held)
    findings = [looking.at(fault.at, "refused", f"portfolio {fault.number}", fault.contract, fault.what, fault.found,
                           fault.wanted) for fault in held.faults]
    if not any(fault.number in (10, 11) and fault.place == 0 for fault in held.faults):
        findings += [finding for contract in held.contracts for finding in looking.contract(contract)]
    findings.sort(key=lambda finding: (finding.line, finding.column))
    if not held.faults or held.by_name:
        for file, script in zip(names or [name], read):
            findings += _of_script(file, script)
        findings += _observations(names, read, held)
    for file, script in zip(names, read):
        if script.lines and not script.faults and not any(line.sort == "ask" for line in script.lines):
            findings.append(Finding(file, 1, 1, "unlikely", "", "", "", "", "the script asks for nothing, so nothing is "
                                    "answered to it"))
    return Report(findings, *_verdict(held, read))


def _verdict(portfolio: Portfolio, scripts: list[Script]) -> tuple[int, str]:
    if portfolio.faults:
        first = portfolio.faults[0]
        return PORTFOLIO, f"portfolio {first.number} {first.place} {first.what}"
    for place, script in enumerate(scripts, 1):
        for fault in script.faults[:1]:
            return SCRIPT, f"script {fault.number} {place} {fault.line}"
    return 0, ""


def _of_script(file: str, script: Script) -> list[Finding]:
    return [Finding(file, fault.line, fault.column, "refused", f"script {fault.number}", "", "", fault.found,
                    fault.wanted) for fault in script.faults]


class _Looking:
    """Looks at contracts for names that aren't used and for what is likely not meant."""

    def __init__(self, file: str, portfolio: Portfolio) -> None:
        self.file, self.portfolio = file, portfolio
        self._starts = [0, *(found.end() for found in re.finditer("\n", portfolio.text))]

    def at(self, place: int, level: str, number: str, contract: str, term: str, found: str, wanted: str) -> Finding:
        """What is found at a place, in characters."""
        line = bisect.bisect_right(self._starts, place)
        column = place - self._starts[line - 1] + 1
        return Finding(self.file, line, column, level, number, contract, term, found, wanted)

    def contract(self, contract: Contract) -> Iterator[Finding]:
        """What is found in a contract, but for faults."""
        if contract.node.sort == "object" and contract.kind:
            yield from self.unused(contract)
            yield from self.unlikely(contract)

    def unused(self, contract: Contract) -> Iterator[Finding]:
        told = set()
        for name, place, node in contract.node.value:
            if name not in TERMS[contract.kind] and name not in told:
                told.add(name)
                group, why = class_of(name, contract.kind)
                words = {"effect": f"by the standard it changes cash flows: here {why}", "none": "without effect",
                         "other kind": why, "unknown": f"unknown: {why}"}[group]
                yield self.at(place, "unused", "", contract.label, name, self.portfolio.shown(node), words)

    def odd(self, contract: Contract, term: str, why: str) -> Finding:
        node = contract.node.given(term)
        at, found = (node.start, self.portfolio.shown(node)) if node else (contract.node.start, "")
        return self.at(at, "unlikely", "", contract.label, term, found, why)

    def unlikely(self, contract: Contract) -> Iterator[Finding]:
        terms, kind = contract.terms, contract.kind
        yield from self.rates(contract, terms)
        yield from self.days(contract, terms)
        yield from self.lone(contract, terms, kind)
        if kind in ("CEG", "CEC"):
            covered = set()
            for reference in contract.references:
                if reference.role == "COVE":
                    if reference.name in covered:
                        yield self.at(reference.at, "unlikely", "", contract.label, "contractStructure",
                                      f'"{reference.name}"', "it is covered twice, and counts twice")
                    covered.add(reference.name)

    def rates(self, contract: Contract, terms: dict[str, Any]) -> Iterator[Finding]:
        rates = [*RATES, *(["feeRate"] if terms.get("feeBasis") == "N" else []),
                 *(["penaltyRate"] if terms.get("penaltyType") == "N" else [])]
        for term in rates:
            value = terms.get(term)
            if value is not None and abs(value) > ONE:
                yield self.odd(contract, term, f"rates are parts of one: {amount(value).rstrip('0').rstrip('.')} is "
                               f"{_percent(value)} %; is {amount(value // 100).rstrip('0').rstrip('.')} meant?")
        cap, floor = terms.get("lifeCap"), terms.get("lifeFloor")
        if cap is not None and floor is not None and floor > cap:
            yield self.odd(contract, "lifeFloor", "the floor is above the cap, and the cap decides")
        if terms.get("periodFloor", 0) > 0:
            yield self.odd(contract, "periodFloor", "each reset raises the rate by at least this; a floor for falls is "
                           "below 0")

    def days(self, contract: Contract, terms: dict[str, Any]) -> Iterator[Finding]:
        status, end = terms.get("statusDate"), terms.get("maturityDate")
        if status is not None and end is not None and \
                date.fromordinal(end).year - date.fromordinal(status).year > MOST_YEARS:
            yield self.odd(contract, "maturityDate", f"more than {MOST_YEARS} years behind the status date "
                           f"{date.fromordinal(status)}")
        if status is None or not contract.days:
            return
        ended = terms.get("terminationDate")
        last = max(contract.days)
        if last <= status:
            yield self.odd(contract, "statusDate", f"all scheduled events lie before it, the last on "
                           f"{date.fromordinal(last)}: there are no rows")
        elif ended is not None and ended <= status:
            yield self.odd(contract, "terminationDate", "it isn't after the status date, and ends the contract: there "
                           "are no rows")

    def lone(self, contract: Contract, terms: dict[str, Any], kind: str) -> Iterator[Finding]:
        """Terms that have no effect without another one."""
        def lacks(term: str, *others: str) -> bool:
            return term in terms and not any(other in terms for other in others)

        for term, others, why in [
                ("priceAtPurchaseDate", ["purchaseDate"], "without purchaseDate there is no purchase"),
                ("priceAtTerminationDate", ["terminationDate"], "without terminationDate there is no sale"),
                ("feeRate", ["cycleOfFee", "cycleAnchorDateOfFee"], "without a cycle or an anchor no fee is paid"),
                ("cycleOfFee", ["feeRate"], "without feeRate no fee is paid"),
                ("cycleAnchorDateOfFee", ["feeRate"], "without feeRate no fee is paid"),
                ("penaltyRate", ["penaltyType"], "without penaltyType there is no penalty")]:
            if lacks(term, *others) and (term != "feeRate" or terms.get("feeBasis") != "N"):
                yield self.odd(contract, term, why)
        if kind in LOANS:
            for term in ("cycleOfInterestPayment", "cycleAnchorDateOfInterestPayment"):
                if lacks(term, "nominalInterestRate"):
                    yield self.odd(contract, term, "without nominalInterestRate no interest is paid")
            if lacks("marketObjectCodeOfRateReset", "cycleOfRateReset", "cycleAnchorDateOfRateReset") \
                    and terms.get("penaltyType") != "I":
                yield self.odd(contract, "marketObjectCodeOfRateReset", "without a cycle or an anchor the rate isn't reset")
        moves = terms.get("businessDayConvention") not in (None, "NOS", "NULL")
        if moves and terms.get("calendar", "NC") == "NC":
            yield self.odd(contract, "businessDayConvention", "no day moves: the calendar is NC, in which all days are "
                           "business days")


def _percent(value: int) -> str:
    return amount(value * 100).rstrip("0").rstrip(".")


# ---- observations


def codes_read(portfolio: Portfolio) -> tuple[set[str], set[str]]:
    """The codes that contracts may read, and those of them that are rates."""
    read, rates = set(), set()
    for contract in portfolio.contracts:
        terms = contract.terms
        if code := terms.get("marketObjectCodeOfRateReset"):
            rates.add(code)
        read |= {terms.get(name) for name in ("marketObjectCode", "marketObjectCodeOfScalingIndex")} - {None}
        read |= {reference.name for reference in contract.references if reference.is_market}
        if "settlementCurrency" in terms:
            read.add(f"{terms.get('currency')}/{terms['settlementCurrency']}")
        if "currency2" in terms:
            read.add(f"{terms['currency2']}/{terms.get('currency')}")
    return read | rates, rates


def _observations(names: list[str], scripts: list[Script], portfolio: Portfolio) -> Iterator[Finding]:
    """What in scripts is likely not meant."""
    read, rates = codes_read(portfolio)
    by_code: dict[str, list[tuple[int, int, int, str, Line]]] = {}
    events: dict[tuple[str, str, int, int | str], int] = {}
    for place, (file, script) in enumerate(zip(names, scripts)):
        for line in script.lines:
            if line.sort == "rate":
                by_code.setdefault(line.name, []).append((line.day, place, line.number, file, line))
            elif line.sort == "event":
                yield from _twice(file, line, events)
    for code, found in by_code.items():
        _, _, _, file, first = found[0]
        if code not in read:
            yield Finding(file, first.number, 1, "unlikely", "", "", code, "", "no contract reads this code")
            continue
        found.sort(key=lambda entry: entry[:3])
        values = [entry[4].value for entry in found]
        for at, (_, _, _, file, line) in enumerate(found):
            told = amount(line.value).rstrip("0").rstrip(".")
            near = [abs(value) for value in values[max(at - 1, 0):at] + values[at + 1:at + 2]]
            if near and max(near) > 0 and abs(line.value) >= JUMP * max(near):
                yield Finding(file, line.number, 1, "unlikely", "", "", code, told, f"{JUMP} times its neighbours or more")
            elif code in rates and abs(line.value) > ONE:
                yield Finding(file, line.number, 1, "unlikely", "", "", code, told, "a rate above 1: rates are parts of "
                              f"one, and this is {_percent(line.value)} %")


def _twice(file: str, line: Line, events: dict[tuple[str, str, int, int | str], int]) -> Iterator[Finding]:
    key = line.name, line.type, line.day, line.value
    if key in events and line.type in ("PP", "DV"):
        what = "prepayment" if line.type == "PP" else "dividend"
        yield Finding(file, line.number, 1, "unlikely", "", line.name, line.type, "",
                      f"the same as in line {events[key]}: that is a second {what}, and no correction")
    events.setdefault(key, line.number)


def text_of(report: Report, name: str) -> str:
    """A report as lines, and below them the verdict."""
    count = {level: sum(finding.level == level for finding in report.findings)
             for level in ("refused", "unused", "unlikely")}
    lines = [str(finding) for finding in report.findings]
    verdict = "is accepted" if report.is_accepted else f"is refused: {report.refusal}"
    counts = (f"{_counted(count['refused'], 'fault')}, {_counted(count['unused'], 'unused name')}, "
              f"{count['unlikely']} likely not meant")
    return "\n".join([*lines, f"{name}: {verdict}; {counts}"]) + "\n"


def _counted(count: int, word: str) -> str:
    return f"{count} {word}" if count == 1 else f"{count} {word}s"
