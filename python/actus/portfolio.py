"""Portfolio files, read as the program reads them, but on behind a fault: all faults at once (docs/TEXTS.md, "A portfolio
is refused")."""

from __future__ import annotations

from collections.abc import Iterator
from dataclasses import dataclass, field
from typing import Any

from .dictionary import (CHOICES, CREDIT_EVENTS, FORM, KINDS, LOANS, REFERENCE_ROLES, REFERENCE_TYPES, STRUCTURED, TERMS,
                         nearest)
from .forms import is_currency, is_name, read_cycle, read_day, read_period, read_units
from .schedule import PlanFault, event_days, own_count
from .syntax import Node, SyntaxFault, decode, parse

MOST_BYTES = 64 << 20
MOST_CONTRACTS = 4096
MOST_CHAIN = 16

_REQUIRED = {
    "all": ["contractID", "contractType", "contractRole", "statusDate", "currency"],
    "PAM": ["initialExchangeDate", "maturityDate", "notionalPrincipal"],
    "LAM": ["initialExchangeDate", "notionalPrincipal"],
    "NAM": ["initialExchangeDate", "maturityDate", "notionalPrincipal", "nextPrincipalRedemptionPayment"],
    "ANN": ["initialExchangeDate", "maturityDate", "notionalPrincipal"],
    "FXOUT": ["maturityDate", "notionalPrincipal", "currency2", "notionalPrincipal2"],
    "SWPPV": ["initialExchangeDate", "maturityDate", "notionalPrincipal", "nominalInterestRate"],
    "OPTNS": ["maturityDate", "optionType", "optionStrike1"], "FUTUR": ["maturityDate", "futuresPrice"],
}
_BACK_TO_COMMON = ("contractRole", "statusDate", "currency", "calendar", "businessDayConvention", "endOfMonthConvention")


@dataclass(slots=True)
class Fault:
    """Why a portfolio is refused: the number, the contract's place (0 of none) and the term or name, as the program
    tells them; where in the file it is, in characters; the contract's name, what stands there, and what was wanted.
    `order` sorts faults as the program finds them."""

    number: int
    place: int
    what: str
    at: int
    contract: str
    found: str
    wanted: str
    order: tuple[int, ...]


@dataclass(slots=True)
class Reference:
    """A reference of a structure: its role, the contract's name or the market object's code, and where it stands."""

    role: str
    is_market: bool
    name: str
    at: int


@dataclass(slots=True)
class Contract:
    """A contract in portfolio order, counted from 1: its object, kind and name; its terms, as days, cycles, units of
    10^-9 and texts; what it refers to; and the days of its own scheduled events, where they could be computed."""

    place: int
    node: Node
    kind: str | None = None
    name: str | None = None
    terms: dict[str, Any] = field(default_factory=dict)
    references: list[Reference] = field(default_factory=list)
    whole: bool = True
    days: list[int] | None = None

    @property
    def label(self) -> str:
        """The name, or the place where it has none."""
        said = self.node.given("contractID")
        if said is None or said.sort != "text" or not said.value.isprintable():
            return f"number {self.place}"
        return said.value if len(said.value) <= 64 else said.value[:64] + "..."


@dataclass
class Portfolio:
    """A portfolio file: its characters, its contracts in portfolio order, and all faults, as the program finds them."""

    text: str
    contracts: list[Contract] = field(default_factory=list)
    faults: list[Fault] = field(default_factory=list)
    by_name: dict[str, Contract] = field(default_factory=dict)
    children: dict[int, list[Contract]] = field(default_factory=dict)

    def add(self, number: int, contract: Contract | None, what: str, at: int, found: str, wanted: str,
            *order: int) -> None:
        """Adds a fault."""
        place, label = (contract.place, contract.label) if contract else (0, "")
        self.faults.append(Fault(number, place, what, at, label, found, wanted, order))
        if contract:
            contract.whole = False

    def shown(self, node: Node) -> str:
        """A value as it stands in the file, up to 60 characters, in one line."""
        text = " ".join(self.text[node.start:min(node.end, node.start + 61)].split())
        text = "".join(c if c.isprintable() else "\\u%04x" % ord(c) for c in text)
        return text if len(text) <= 60 else text[:60] + "..."


def read_portfolio(data: bytes) -> Portfolio:
    """Reads a portfolio file with all its faults."""
    try:
        portfolio = Portfolio(decode(data))
        root = parse(portfolio.text)
    except SyntaxFault as fault:
        portfolio = Portfolio(data.decode("utf-8", "replace"))
        portfolio.add(10, None, "-", fault.place, "", fault.why, 0)
        return portfolio
    if root.sort != "list":
        portfolio.add(11, None, "-", root.start, portfolio.shown(root), "a portfolio is a list: put [ ] around the "
                      "contracts", 0)
        return portfolio
    portfolio.contracts = [Contract(place, node) for place, node in enumerate(in_order(root.value), 1)]
    for contract in portfolio.contracts:
        _Reading(portfolio, contract).read()
    _check_number(portfolio)
    _check_names(portfolio)
    _check_references(portfolio)
    _check_plans(portfolio)
    portfolio.faults.sort(key=lambda fault: fault.order)
    return portfolio


def in_order(nodes: list[Node]) -> Iterator[Node]:
    """Contracts in portfolio order: each, and behind it those that stand in its structure."""
    for node in nodes:
        yield node
        if _kind_of(node) in STRUCTURED:
            structure = node.get("contractStructure")
            if structure is not None and structure.sort == "list":
                for element in structure.value:
                    inner = element.get("object")
                    chosen = element.given("referenceType")
                    if chosen and chosen.sort == "text" and chosen.value == "CNT" and inner and inner.sort == "object":
                        yield from in_order([inner])


def _kind_of(node: Node) -> str | None:
    said = node.given("contractType")
    return said.value if said is not None and said.sort == "text" else None


class _Reading:
    """Reads the terms of a contract."""

    def __init__(self, portfolio: Portfolio, contract: Contract) -> None:
        self.portfolio, self.contract, self.node = portfolio, contract, contract.node
        self.seen: set[str] = set()
        self.step = 0

    def fault(self, number: int, term: str, node: Node | None, wanted: str) -> None:
        at = node.start if node else self.node.start
        found = self.portfolio.shown(node) if node else ""
        self.portfolio.add(number, self.contract, term, at, found, wanted, 1, self.contract.place, self.step)

    def read(self) -> None:
        if self.node.sort != "object":
            self.fault(11, "-", self.node, "a contract is an object, in { }")
            return
        for term in ("contractID", "contractType"):
            self.term(term, True)
        self.contract.name = self.contract.terms.get("contractID")
        self.contract.kind = kind = self.contract.terms.get("contractType")
        if kind is None:
            for term in _BACK_TO_COMMON:
                self.term(term, term in _REQUIRED["all"])
            return
        for term in TERMS[kind][2:]:
            self.term(term, term in _REQUIRED["all"] or term in _REQUIRED.get(kind, ()) or self.is_needed(term, kind))
            self.behind(term, kind)

    def given(self, term: str) -> bool:
        return term in self.contract.terms or term in self.seen

    def is_needed(self, term: str, kind: str) -> bool:
        """The term is needed by what others say."""
        terms, given = self.contract.terms, self.given
        match term:
            case "marketObjectCodeOfRateReset":
                return given("cycleAnchorDateOfRateReset") or given("cycleOfRateReset")
            case "feeBasis":
                return given("feeRate")
            case "marketObjectCodeOfScalingIndex" | "scalingIndexAtContractDealDate":
                effect = terms.get("scalingEffect", "OOO")
                return effect[0] == "I" or effect[1] == "N"
            case "cycleOfPrincipalRedemption":
                return not (given("maturityDate") and given("cycleAnchorDateOfPrincipalRedemption"))
            case "nextPrincipalRedemptionPayment":
                return kind == "LAM" and not given("maturityDate")
            case "optionStrike2":
                return terms.get("optionType") == "CP"
        return term == "contractStructure"

    def behind(self, term: str, kind: str) -> None:
        """What is asked behind a term, of several."""
        if term == "penaltyRate" and self.contract.terms.get("penaltyType") == "I" \
                and not self.given("marketObjectCodeOfRateReset"):
            self.fault(12, "marketObjectCodeOfRateReset", None, "penaltyType I needs the market object whose rate is lost")
        if term == "lifeFloor" and kind == "CAPFL" and not self.given("lifeCap") and not self.given("lifeFloor"):
            self.fault(12, "lifeCap", None, "a cap and floor needs lifeCap, lifeFloor or both")

    def term(self, term: str, needed: bool) -> None:
        """Reads a term; where it is refused, it is seen and has no value."""
        self.step += 1
        form, node = FORM[term], self.node.given(term)
        if node is None:
            if needed:
                self.fault(12, term, None, self.missing(term))
            return
        self.seen.add(term)
        if form == "structure":
            self.structure(node)
        elif form == "credit events":
            self.credit_events(node)
        elif node.sort != "text":
            self.fault(11, term, node, "a text or a number")
        else:
            self.text(term, form, node)

    def missing(self, term: str) -> str:
        near = [name for name, _, _ in self.node.value if name.lower() == term.lower() and name != term]
        near = near or [name for name, _, _ in self.node.value if name not in FORM and nearest(name, [term])]
        return f"{term} is needed" + (f"; {near[0]!r} stands there: is it misspelt?" if near else "")

    def text(self, term: str, form: str, node: Node) -> None:
        text = node.value
        try:
            value, number = self.value(term, form, text)
        except ValueError as error:
            self.fault(13, term, node, str(error))
            return
        if number:
            self.fault(number[0], term, node, number[1])
        else:
            self.contract.terms[term] = value

    def value(self, term: str, form: str, text: str) -> tuple[Any, tuple[int, str] | None]:
        """The value of a text, and a fault where it isn't one of form alone."""
        match form:
            case "kind":
                meant = nearest(text, KINDS) if text not in KINDS else None
                wanted = f"one of {' '.join(KINDS)}" + (f"; did you mean {meant}?" if meant else "")
                return text, None if text in KINDS else (15, wanted)
            case "name":
                if term == "contractID" and text == "*":
                    return text, (14, "a contract isn't named *, which asks for all")
                return text, None if is_name(text) else (14, "a name is 1 to 64 printable ASCII signs without space")
            case "currency":
                return text, None if is_currency(text) else (14, "a currency is 1 to 16 printable ASCII signs "
                                                             "without space")
            case "choice":
                if text not in CHOICES[term]:
                    raise ValueError(f"one of {' '.join(CHOICES[term])}" if term != "scalingEffect" else
                                     "three letters: I, O or 0; N, O or 0; O or 0")
                return text, None
            case "day":
                return self.bounded_day(term, read_day(text)), None
            case "cycle":
                return read_cycle(text), None
            case "period":
                return read_period(text), None
        return self.bounded_number(term, read_units(text)), None

    def bounded_day(self, term: str, day: int) -> int:
        first = self.contract.terms.get("initialExchangeDate")
        if term == "maturityDate" and self.contract.kind in (*LOANS, "SWPPV") and first is not None and day <= first:
            raise ValueError("maturity is after the initial exchange")
        return day

    def bounded_number(self, term: str, number: int) -> int:
        if term in ("notionalPrincipal", "notionalPrincipal2") and number < 0:
            raise ValueError("not below 0: the side is told by contractRole")
        above = term == "scalingIndexAtContractDealDate" or term == "nextPrincipalRedemptionPayment" \
            and self.contract.kind == "LAM" and not self.given("maturityDate")
        if above and number <= 0:
            raise ValueError("above 0")
        return number

    def credit_events(self, node: Node) -> None:
        items = node.value if node.sort == "list" else [node]
        for item in items:
            if item.sort != "text":
                self.fault(11, "creditEventTypeCovered", item, "a text, DL, DQ or DF, or a list of these")
                return
            if item.value not in CREDIT_EVENTS:
                self.fault(13, "creditEventTypeCovered", item, "DL, DQ or DF")
                return
        self.contract.terms["creditEventTypeCovered"] = [item.value for item in items]

    def structure(self, node: Node) -> None:
        if node.sort != "list":
            self.fault(11, "contractStructure", node, "a structure is a list of references, in [ ]")
            return
        self.contract.terms["contractStructure"] = node
        for element in node.value:
            self.step += 1
            self.reference(element)

    def reference(self, element: Node) -> None:
        if element.sort != "object":
            self.fault(11, "contractStructure", element, "a reference is an object, in { }")
            return
        for member, among in (("referenceType", REFERENCE_TYPES), ("referenceRole", REFERENCE_ROLES)):
            chosen = element.given(member)
            if chosen is None or chosen.sort != "text" or chosen.value not in among:
                self.fault(13, "contractStructure", chosen or element, f"{member} is one of {' '.join(among)}")
                return
        kind, role = element.given("referenceType").value, element.given("referenceRole").value
        inner = element.get("object")
        held = inner if inner is not None and inner.sort == "object" else None
        if kind == "CNT":
            if held is None:
                self.fault(11, "contractStructure", inner or element, "with CNT `object` is the contract's object")
                return
            own = held.given("contractID")
            name = own.value if own is not None and own.sort == "text" else ""
            self.contract.references.append(Reference(role, False, name, element.start))
            return
        self.named(element, held, role, kind == "MOC")

    def named(self, element: Node, held: Node | None, role: str, is_market: bool) -> None:
        """A reference by a name or a code."""
        if held is None:
            said = element.given("object")
        elif is_market:
            said = held.given("marketObjectCode")
        else:
            said = held.given("contractIdentifier") or held.given("contractID")
        if said is None or said.sort != "text":
            self.fault(11, "contractStructure", said or element,
                       f"`object` is the {'code of a market object' if is_market else 'name of a contract'}")
        elif not is_name(said.value):
            self.fault(14, "contractStructure", said, "a name is 1 to 64 printable ASCII signs without space")
        else:
            self.contract.references.append(Reference(role, is_market, said.value, said.start))


# ---- the portfolio


def _check_number(portfolio: Portfolio) -> None:
    count = 0
    for contract in portfolio.contracts:
        count += 2 if contract.kind == "CAPFL" else 1
        if count > MOST_CONTRACTS:
            portfolio.add(16, contract, "-", contract.node.start, "", f"a portfolio has at most {MOST_CONTRACTS} "
                          "contracts, a CAPFL counts as two: split it", 2)
            return


def _check_names(portfolio: Portfolio) -> None:
    for contract in portfolio.contracts:
        if contract.name is None:
            continue
        if contract.name in portfolio.by_name:
            node = contract.node.given("contractID")
            portfolio.add(17, contract, "contractID", node.start, portfolio.shown(node),
                          f"contract {portfolio.by_name[contract.name].place} has this name already", 3, contract.place)
        else:
            portfolio.by_name[contract.name] = contract


def _check_references(portfolio: Portfolio) -> None:
    for contract in portfolio.contracts:
        if contract.kind not in STRUCTURED or contract.node.given("contractStructure") is None:
            continue
        children = []
        for reference in contract.references:
            if not reference.is_market and reference.name not in portfolio.by_name:
                near = nearest(reference.name, list(portfolio.by_name)) if len(portfolio.by_name) < 1000 else None
                portfolio.add(21, contract, reference.name, reference.at, f'"{reference.name}"', "no contract of the "
                              "file has this name" + (f"; did you mean {near}?" if near else ""), 4, contract.place, 0)
            elif not reference.is_market:
                children.append(portfolio.by_name[reference.name])
        portfolio.children[contract.place] = children
        if contract.whole and not _fits(portfolio, contract):
            node = contract.node.given("contractStructure")
            portfolio.add(20, contract, "contractStructure", node.start, portfolio.shown(node), _fitting(contract.kind),
                          4, contract.place, 1)
    _check_chains(portfolio)


def _fitting(kind: str) -> str:
    return {"SWAPS": "one FIL and one SEL, to two different contracts of PAM, LAM, NAM or ANN",
            "CAPFL": "one UDL, to a contract of PAM, LAM, NAM, ANN or SWPPV",
            "OPTNS": "one UDL by MOC", "FUTUR": "one UDL by MOC",
            "CEG": "COVE alone, at least one, to contracts; with MV each with a marketObjectCode",
            "CEC": "COVE, at least one, to contracts (with MV each with a marketObjectCode), and COVI, at least one, by "
                   "MOC or to a contract with a marketObjectCode"}[kind]


def _fits(portfolio: Portfolio, contract: Contract) -> bool:
    """The references fit the kind. Contracts of no kind that is known fit all."""
    kind, references = contract.kind, contract.references
    roles = [reference.role for reference in references]
    aims = [None if reference.is_market else portfolio.by_name[reference.name] for reference in references]
    loans, market = (*LOANS, None), contract.terms.get("guaranteedExposure") == "MV"
    if kind == "SWAPS":
        return sorted(roles) == ["FIL", "SEL"] and all(aim is not None and aim.kind in loans for aim in aims) \
            and aims[0] is not aims[1]
    if kind == "CAPFL":
        return roles == ["UDL"] and aims[0] is not None and aims[0].kind in (*loans, "SWPPV")
    if kind in ("OPTNS", "FUTUR"):
        return roles == ["UDL"] and references[0].is_market

    def has_market(aim: Contract) -> bool:
        return "marketObjectCode" in aim.terms or aim.node.given("marketObjectCode") is not None and not aim.whole

    covered = [role == "COVE" and aim is not None and (not market or has_market(aim)) for role, aim in zip(roles, aims)]
    covering = [kind == "CEC" and role == "COVI" and (aim is None or has_market(aim)) for role, aim in zip(roles, aims)]
    return any(covered) and (kind == "CEG" or any(covering)) and all(map(max, covered, covering))


def _check_chains(portfolio: Portfolio) -> None:
    """Finds references in a circle, and chains that are too long."""
    left = {place: len(children) for place, children in portfolio.children.items()}
    parents: dict[int, list[int]] = {}
    for place, children in portfolio.children.items():
        for child in children:
            parents.setdefault(child.place, []).append(place)
    depth = {contract.place: 1 + (contract.kind == "CAPFL") for contract in portfolio.contracts}
    ready = [contract.place for contract in portfolio.contracts if not left.get(contract.place)]
    while ready:
        place = ready.pop()
        left.pop(place, None)
        for parent in parents.get(place, ()):
            depth[parent] = max(depth[parent], depth[place] + 1)
            left[parent] -= 1
            if not left[parent]:
                ready.append(parent)
    if left:
        _tell_circle(portfolio, parents, sorted(left))
    for contract in portfolio.contracts:
        if contract.place not in left and depth[contract.place] > MOST_CHAIN:
            portfolio.add(23, contract, "-", contract.node.start, "",
                          f"a chain of references has at most {MOST_CHAIN} contracts", 6, contract.place)


def _tell_circle(portfolio: Portfolio, parents: dict[int, list[int]], left: list[int]) -> None:
    """Tells one circle: from the first contract that is on one, each time on to the first child that is nearest to it."""
    for start in left:
        away = {start: 0}
        nearby = [start]
        for place in nearby:
            for parent in parents.get(place, ()):
                if parent not in away:
                    away[parent] = away[place] + 1
                    nearby.append(parent)
        circle, at = [], start
        while True:
            aims = [child.place for child in portfolio.children.get(at, ()) if child.place in away]
            if not aims:
                break
            circle.append(portfolio.contracts[at - 1])
            at = min(aims, key=lambda place: away[place])
            if at == start:
                names = " ".join(contract.label for contract in circle)
                portfolio.add(22, circle[0], names, circle[0].node.start, "",
                              f"these refer to one another in a circle: {names}", 5)
                return


def _check_plans(portfolio: Portfolio) -> None:
    unread = {fault.place for fault in portfolio.faults if fault.number < 16}
    for contract in portfolio.contracts:
        if contract.kind is None or contract.place in unread:
            continue
        try:
            contract.days = event_days(contract.kind, contract.terms)
        except PlanFault as fault:
            portfolio.add(fault.number, contract, "-", contract.node.start, "", fault.why, 7, contract.place)


# ---- weights


def scheduled_counts(portfolio: Portfolio) -> dict[int, int]:
    """How many scheduled events each contract of an accepted portfolio has, by its place."""
    own = {contract.place: own_count(contract.kind, contract.days) for contract in portfolio.contracts}
    counts = dict(own)
    for contract in portfolio.contracts:
        if contract.kind in ("SWAPS", "CAPFL"):
            counts[contract.place] += sum(own[child.place] for child in portfolio.children[contract.place])
    return counts


def cone_sums(portfolio: Portfolio) -> dict[int, int]:
    """What each contract of an accepted portfolio weighs in an ask without event lines: over it and all that it refers
    to, each once, a CAPFL's shadow too, the scheduled events and 1."""
    counts, sums = scheduled_counts(portfolio), {}
    for contract in portfolio.contracts:
        seen, left = {contract.place}, [contract]
        total = 0
        while left:
            each = left.pop()
            total += counts[each.place] + 1
            children = portfolio.children.get(each.place, [])
            if each.kind == "CAPFL":
                total += counts[children[0].place] + 1
            for child in children:
                if child.place not in seen:
                    seen.add(child.place)
                    left.append(child)
        sums[contract.place] = total
    return sums
