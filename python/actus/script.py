"""Scripts, read as the program reads them, but on behind a fault: all faults at once (docs/TEXTS.md, "A script")."""

from __future__ import annotations

from dataclasses import dataclass, field

from .dictionary import CREDIT_EVENTS, LOANS, nearest
from .forms import is_name, read_day, read_units
from .portfolio import Portfolio, cone_sums
from .syntax import Node, SyntaxFault, decode, parse

MOST_ENTRIES = 1_048_576
MOST_WEIGHT = 4_194_304
EVENTS = ("PP", "DV", "XD", "CE")


@dataclass(slots=True)
class Line:
    """A line of a script that is right: `sort` is `rate`, `event` or `ask`; `name` the code or the contract; the day as
    a number; the value in units of 10^-9, of a CE its text; `type` the type of an event."""

    number: int
    sort: str
    name: str
    day: int = 0
    value: int | str = 0
    type: str = ""


@dataclass(slots=True)
class ScriptFault:
    """Why a script is refused: the number, the line, the column in it, what stands there, and what was wanted."""

    number: int
    line: int
    column: int
    found: str
    wanted: str


@dataclass
class Script:
    """A script: its lines that are right, and all faults, by lines."""

    lines: list[Line] = field(default_factory=list)
    faults: list[ScriptFault] = field(default_factory=list)


class _Wrong(Exception):
    def __init__(self, node: Node | None, wanted: str, number: int = 1) -> None:
        super().__init__(wanted)
        self.node, self.wanted, self.number = node, wanted, number


def read_scripts(scripts: list[bytes], portfolio: Portfolio) -> list[Script]:
    """Reads scripts over a portfolio, with all their faults. Names of contracts are looked up where the portfolio has
    any; weights are counted where nothing else is refused."""
    found, entries = [], 0
    for data in scripts:
        script = Script()
        entries = _read(script, data, portfolio, entries)
        found.append(script)
    if not portfolio.faults and not any(script.faults for script in found):
        _check_weight(found, portfolio)
    return found


def _read(script: Script, data: bytes, portfolio: Portfolio, entries: int) -> int:
    for number, raw in enumerate(data.split(b"\n"), 1):
        if not raw.strip(b" \t\r"):
            continue
        try:
            text = decode(raw)
        except SyntaxFault as fault:
            script.faults.append(ScriptFault(1, number, fault.place + 1, "", fault.why))
            continue
        try:
            line = read_line(text, number, portfolio)
        except SyntaxFault as fault:
            script.faults.append(ScriptFault(1, number, fault.place + 1, "", f"no JSON: {fault.why}; each line is one "
                                                                             "object"))
            continue
        except _Wrong as wrong:
            at, end = (wrong.node.start, wrong.node.end) if wrong.node else (0, len(text))
            found = text[at:end] if end - at <= 60 else text[at:at + 60] + "..."
            script.faults.append(ScriptFault(wrong.number, number, at + 1, found, wrong.wanted))
            continue
        if line.sort != "ask":
            if entries == MOST_ENTRIES:
                script.faults.append(ScriptFault(4, number, 1, "", f"all scripts together have at most {MOST_ENTRIES} "
                                                                   "observations"))
                return entries
            entries += 1
        script.lines.append(line)
    return entries


def read_line(text: str, number: int, portfolio: Portfolio | None = None) -> Line:
    """A line of a script. Raises `SyntaxFault` or a fault of its own where it is refused."""
    root = parse(text)
    names = list(dict.fromkeys(name for name, _, _ in root.value)) if root.sort == "object" else []
    if len(names) != 1 or names[0] not in ("rate", "event", "ask"):
        raise _Wrong(root, "a line is an object with one of rate, event and ask")
    name, node = names[0], root.get(names[0])
    if name == "ask":
        if node.sort != "text" or not is_name(node.value):
            raise _Wrong(node, "an ask has the name of a contract, or *")
        line = Line(number, "ask", node.value)
        if node.value != "*":
            _known(line, node, portfolio)
        return line
    if node.sort != "object":
        raise _Wrong(node, f"{name} is an object, in {{ }}")
    return _rate(node, number) if name == "rate" else _event(node, number, portfolio)


def _member(node: Node, name: str) -> Node:
    found = node.given(name)
    if found is None:
        raise _Wrong(node, f"{name} is needed")
    if found.sort != "text":
        raise _Wrong(found, f"{name} is a text or a number")
    return found


def _name(node: Node, name: str) -> Node:
    found = _member(node, name)
    if not is_name(found.value):
        raise _Wrong(found, f"{name} is a name: 1 to 64 printable ASCII signs without space")
    return found


def _read_as(read, node: Node) -> int:
    try:
        return read(node.value)
    except ValueError as error:
        raise _Wrong(node, str(error)) from None


def _rate(node: Node, number: int) -> Line:
    code = _name(node, "code")
    day, value = _read_as(read_day, _member(node, "date")), _read_as(read_units, _member(node, "value"))
    return Line(number, "rate", code.value, day, value)


def _event(node: Node, number: int, portfolio: Portfolio | None) -> Line:
    contract = _name(node, "contract")
    day = _read_as(read_day, _member(node, "date"))
    kind = _member(node, "type")
    if kind.value not in EVENTS:
        raise _Wrong(kind, f"the type of an event is one of {' '.join(EVENTS)}")
    line = Line(number, "event", contract.value, day, 0, kind.value)
    if kind.value == "CE":
        value = _member(node, "value")
        if value.value not in CREDIT_EVENTS:
            raise _Wrong(value, "the value of a CE is DL, DQ or DF")
        line.value = value.value
    elif kind.value != "XD" or node.given("value") is not None:
        line.value = _read_as(read_units, _member(node, "value"))
    _known(line, contract, portfolio)
    _fits(line, kind, portfolio)
    return line


def _known(line: Line, node: Node, portfolio: Portfolio | None) -> None:
    if portfolio is not None and line.name not in portfolio.by_name:
        near = nearest(line.name, list(portfolio.by_name)) if len(portfolio.by_name) < 1000 else None
        raise _Wrong(node, "the portfolio has no contract of this name" + (f"; did you mean {near}?" if near else ""), 2)


def _fits(line: Line, node: Node, portfolio: Portfolio | None) -> None:
    if portfolio is None:
        return
    contract = portfolio.by_name[line.name]
    match line.type:
        case "PP" if contract.kind not in (*LOANS, None):
            raise _Wrong(node, f"a prepayment is of a loan, and {line.name} is a {contract.kind}", 3)
        case "PP" if line.value < 0:
            raise _Wrong(node, "a prepayment isn't below 0", 3)
        case "DV" if contract.kind not in ("STK", None):
            raise _Wrong(node, f"a dividend is of a stock, and {line.name} is a {contract.kind}", 3)
        case "XD" if contract.kind not in ("OPTNS", None) or contract.kind == "OPTNS" \
                and contract.terms.get("optionExerciseType", "E") == "E":
            raise _Wrong(node, "an exercise is of an OPTNS whose optionExerciseType is A or B", 3)


def _check_weight(scripts: list[Script], portfolio: Portfolio) -> None:
    """Adds up what the asks weigh; the first that is too much is a fault. No script at all asks once for all."""
    sums = cone_sums(portfolio)
    events = sum(line.sort == "event" for script in scripts for line in script.lines)
    of_all = sum(sums.values()) + 2 * events * len(sums)
    spent = 0
    asks = [(script, line) for script in scripts for line in script.lines if line.sort == "ask"]
    if not scripts:
        scripts.append(Script())
        asks = [(scripts[0], Line(1, "ask", "*"))]
    for script, line in asks:
        spent += 1 + (of_all if line.name == "*" else sums[portfolio.by_name[line.name].place] + 2 * events)
        if spent > MOST_WEIGHT:
            script.faults.append(ScriptFault(5, line.number, 1, "", f"the asks up to this one weigh {spent}, and at most "
                                             f"{MOST_WEIGHT}: ask less often or for one contract, or split the portfolio"))
            return
