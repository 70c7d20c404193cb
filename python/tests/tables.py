"""The tables of cases of crates/cases/data, as portfolios and scripts.

A row begins at the margin with the word of its call; lines that are indented belong to it; what stands before ` = ` is
given. A portfolio stands there itself, or as changes of loans/p1.json (`A -> B; C -> D`, `-` for none). Signs stand for
bytes: ‹efbbbf› for these, ‹› for none, «3×x» for xxx, ␠ ␉ ␊ ␍ for a space, a tab, a line feed and a carriage return.
"""

import re
from collections.abc import Iterator
from dataclasses import dataclass

from helpers import CASES

_OPTION = ('{{"contractID":"{0}1","contractType":"OPTNS","contractRole":"BUY","statusDate":"2019-12-31","currency":"EUR",'
           '"maturityDate":"2020-12-31","optionType":"C","optionStrike1":100,"optionExerciseType":"{0}",'
           '"contractStructure":[{{"object":"AAPL","referenceType":"MOC","referenceRole":"UDL"}}]}}')
_SIX = ('[{"contractID":"P1","contractType":"PAM","contractRole":"RPA","statusDate":"2019-12-31","currency":"EUR",'
        '"initialExchangeDate":"2020-01-01","maturityDate":"2021-01-01","notionalPrincipal":1000},'
        '{"contractID":"L1","contractType":"LAM","contractRole":"RPA","statusDate":"2019-12-31","currency":"EUR",'
        '"initialExchangeDate":"2020-01-01","maturityDate":"2021-01-01","notionalPrincipal":1000,'
        '"cycleOfPrincipalRedemption":"P3M"},'
        '{"contractID":"S1","contractType":"STK","contractRole":"LG","statusDate":"2019-12-31","currency":"EUR"},'
        + ",".join(_OPTION.format(kind) for kind in "EAB") + "]")


@dataclass
class Case:
    """A portfolio and scripts, and where they stand; `wanted` is the line of a refusal where the table has it."""

    name: str
    portfolio: bytes
    scripts: list[bytes]
    wanted: str | None = None


def _rows(table: str) -> Iterator[tuple[int, str]]:
    row, first = "", 0
    for number, line in enumerate((CASES / table).read_text(encoding="utf-8").splitlines(), 1):
        if line and not line.startswith((" ", "#")):
            if row:
                yield first, row
            row, first = "", number
        line = line.lstrip(" ")
        if not line or line.startswith("#"):
            continue
        if line.startswith("= "):
            row += " " + line
        else:
            row += ("\n" if row else "") + line
    if row:
        yield first, row


def bytes_of(text: str) -> bytes:
    """The bytes that a text with signs stands for."""
    while (expanded := re.sub(r"«([0-9]+)×([^«»]*)»", lambda found: found[2] * int(found[1]), text)) != text:
        text = expanded
    for sign, byte in zip("␠␉␊␍", " \t\n\r"):
        text = text.replace(sign, byte)
    parts = re.split(r"‹([0-9a-f]*)›", text)
    return b"".join(bytes.fromhex(part) if place % 2 else part.encode() for place, part in enumerate(parts))


def _portfolio(text: str) -> bytes:
    if text != "-" and " -> " not in text:
        return bytes_of(text)
    data = (CASES / "loans/p1.json").read_bytes()
    for change in text.split("; ") if text != "-" else []:
        old, new = change.split(" -> ")
        data = data.replace(bytes_of(old), bytes_of(new), 1)
    return data


def cases() -> Iterator[Case]:
    """All portfolios of the tables, with their scripts."""
    for table in sorted(path.name for path in CASES.glob("*.txt")):
        for number, row in _rows(table):
            before, _, behind = row.partition(" = ")
            word, _, given = before.partition(" ")
            lines = given.split("\n")
            name = f"{table}:{number}"
            if word in ("refuse", "check"):
                yield Case(name, _portfolio(given), [], behind if word == "refuse" else None)
            elif word in ("eval", "payoffs", "rates"):
                script = bytes_of("\n".join(lines[1:]))
                if b'"ask"' not in script and word != "eval":
                    script += b'\n{"ask":"*"}'
                yield Case(name, _portfolio(lines[0]), [script] if len(lines) > 1 else [])
            elif word == "script" and table == "scripts.txt":
                yield Case(name, _SIX.encode(), [bytes_of(given)])
    for path in sorted(CASES.rglob("*.json")):
        scripts = sorted(path.parent.glob("*.txt"))
        name = str(path.relative_to(CASES))
        yield Case(name, path.read_bytes(), [])
        if len(scripts) < 8:
            for script in scripts:
                yield Case(f"{name} {script.name}", path.read_bytes(), [script.read_bytes()])
