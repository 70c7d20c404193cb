"""Pictures of cash flows: what comes in and what goes out, by period and currency, as bars; of one answer, or of two
over one another, before and after a correction. Heights are floating point, for looking."""

from __future__ import annotations

from collections.abc import Collection
from dataclasses import dataclass, field

from .drawing import Drawing, Line, Rectangle, Words, text_width
from .errors import ToolError
from .ladder import ONE
from .text import TextReader

IN, OUT, BEFORE, GRID, INK = "#2a6f97", "#d1793b", "#444444", "#dddddd", "#222222"
WIDTH, LEFT, RIGHT, TOP, PANEL, FOOT, GAP = 960, 110, 30, 88, 230, 34, 28
MOST_BARS = 60
MOST_PERIODS = 2000


@dataclass
class Flows:
    """What is received and paid, in units of 10^-9, by currency and by month; months are counted from year 0."""

    months: dict[str, dict[int, list[int]]] = field(default_factory=dict)
    contracts: set[str] = field(default_factory=set)

    def add(self, currency: str, month: int, number: int) -> None:
        """Adds a payment."""
        step = self.months.setdefault(currency, {}).setdefault(month, [0, 0])
        step[number < 0] += number

    def by(self, length: int) -> dict[str, dict[int, list[int]]]:
        """The sums by periods of so many months; a period is its first month divided by the length."""
        sums: dict[str, dict[int, list[int]]] = {}
        for currency, months in self.months.items():
            steps = sums.setdefault(currency, {})
            for month, (received, paid) in months.items():
                step = steps.setdefault(month // length, [0, 0])
                step[0] += received
                step[1] += paid
        return sums


@dataclass
class Choice:
    """Which rows are drawn: of an answer (a caller and the number of its ask), of one contract or of all, and of all
    types of events or of some."""

    caller: int = 1
    ask: int | None = None
    before: int | None = None
    contract: str | None = None
    types: Collection[str] = ()
    period: str | None = None


def flows_of(reader: TextReader, choice: Choice) -> dict[int, Flows]:
    """The flows of each answer that is wanted, by the number of its ask."""
    found: dict[int, Flows] = {}
    for block in reader.raw_blocks():
        if block.caller != choice.caller or choice.contract not in (None, block.contract):
            continue
        if choice.ask is not None and block.number not in (choice.ask, choice.before):
            continue
        if choice.ask is None and block.number not in found:
            found = {number: found[number] for number in found if number == choice.before}
        flows = found.setdefault(block.number, Flows())
        flows.contracts.add(block.contract)
        for row in reader.rows_of(block):
            if not choice.types or row.type in choice.types:
                flows.add(row.currency, row.day.year * 12 + row.day.month - 1, int(row.payoff.scaleb(9)))
    return found


LENGTHS = {"month": 1, "quarter": 3, "year": 12}


def length_for(months: list[int], period: str | None) -> int:
    """The length of a period in months: the wanted one, or the least that gives no more bars than can be read."""
    if period:
        return LENGTHS[period]
    return next((n for n in LENGTHS.values() if months[-1] // n - months[0] // n < MOST_BARS), 12)


def name_of(period: int, length: int) -> str:
    """A period's name: 2026-01, 2026 Q1 or 2026."""
    year, month = divmod(period * length, 12)
    return {1: f"{year}-{month + 1:02d}", 3: f"{year} Q{month // 3 + 1}"}.get(length, str(year))


def draw(reader: TextReader, choice: Choice) -> Drawing:
    """The picture of a text."""
    found = flows_of(reader, choice)
    ask = choice.ask if choice.ask is not None else max(found, default=None)
    for wanted in {ask, choice.before} - {None}:
        if wanted not in found:
            raise ToolError(f"the text has no rows for ask {wanted} of caller {choice.caller}"
                            + (f" of contract {choice.contract}" if choice.contract else ""))
    if ask is None:
        raise ToolError("the text has no rows" + (f" of contract {choice.contract}" if choice.contract else "")
                        + f" of caller {choice.caller}")
    after, before = found[ask], found.get(choice.before) if choice.before is not None else None
    months = sorted({m for f in (after, before) if f for steps in f.months.values() for m in steps})
    if not months:
        raise ToolError("there is nothing to draw: no row of this choice")
    length = length_for(months, choice.period)
    first, last = months[0] // length, months[-1] // length
    if last - first >= MOST_PERIODS:
        raise ToolError(f"{last - first + 1} periods are too many for a picture: give --period year")
    return _drawn(after, before, choice, ask, length, range(first, last + 1))


def _drawn(after: Flows, before: Flows | None, choice: Choice, ask: int, length: int, periods: range) -> Drawing:
    sums, older = after.by(length), before.by(length) if before else {}
    currencies = sorted(sums | older)
    height = TOP + len(currencies) * (PANEL + FOOT + GAP)
    about = choice.contract or (f"{len(after.contracts)} contracts" if len(after.contracts) > 1
                                else next(iter(after.contracts)))
    unit = {1: "month", 3: "quarter", 12: "year"}[length]
    kinds = f", {' '.join(sorted(choice.types))} alone" if choice.types else ""
    drawing = Drawing(WIDTH, height, f"Cash flows of {about}")
    drawing.add(Words(LEFT, 32, f"Cash flows of {about} by {unit}{kinds}", 18, bold=True))
    _legend(drawing, ask, choice.before if before else None)
    for place, currency in enumerate(currencies):
        top = TOP + place * (PANEL + FOOT + GAP)
        _panel(drawing, top, currency, sums.get(currency, {}), older.get(currency, {}), length, periods)
    return drawing


def _legend(drawing: Drawing, ask: int, before: int | None) -> None:
    x, y = LEFT, 56
    behind = f", answer to ask {ask}" if before is not None else ""
    for colour, text in [(IN, f"received{behind}"), (OUT, f"paid{behind}")]:
        drawing.add(Rectangle(x, y - 10, 12, 12, colour), Words(x + 18, y, text))
        x += 18 + text_width(text, 12) + 24
    if before is not None:
        drawing.add(Rectangle(x, y - 10, 12, 12, None, BEFORE, dashed=True),
                    Words(x + 18, y, f"before, answer to ask {before}"))


def nice_step(span: float, most: int) -> float:
    """A step of 1, 2 or 5 times a power of ten of which no more than so many go into a span."""
    power = 10.0 ** (len(str(int(max(span, 1)))) - 2 if span >= 1 else -10)
    while span / power > most * 5:
        power *= 10
    return next((power * n for n in (0.1, 0.2, 0.5, 1, 2, 5, 10, 20, 50) if span / (power * n) <= most), power * 100)


def _label(value: float, step: float) -> str:
    places = 0
    while places < 9 and abs(step * 10 ** places - round(step * 10 ** places)) > 1e-6:
        places += 1
    return f"{value:,.{places}f}"


def _panel(drawing: Drawing, top: float, currency: str, sums: dict[int, list[int]], older: dict[int, list[int]],
           length: int, periods: range) -> None:
    steps = [step for each in (sums, older) for step in each.values()]
    high = max((step[0] for step in steps), default=0) / ONE
    low = min((step[1] for step in steps), default=0) / ONE
    if high == low:
        high = 1.0
    step = nice_step(high - low, 7)
    divided, unit = next(((d, u) for d, u in [(1e9, " thousand million"), (1e6, " million")] if max(high, -low) >= 10 * d),
                         (1.0, ""))
    lowest = (low / step // 1) * step
    highest = -((-high / step) // 1) * step
    scale = PANEL / (highest - lowest)

    def at(value: float) -> float:
        return top + (highest - value) * scale

    drawing.add(Words(LEFT - 10, top - 13, f"{currency}{unit}", 12, "end", INK, True))
    for count in range(round((highest - lowest) / step) + 1):
        value = lowest + count * step
        drawing.add(Line(LEFT, at(value), WIDTH - RIGHT, at(value), GRID),
                    Words(LEFT - 10, at(value) + 4, _label(value / divided + 0.0, step / divided), 11, "end"))
    wide = (WIDTH - RIGHT - LEFT) / len(periods)
    for place, period in enumerate(periods):
        x = LEFT + place * wide
        _bars(drawing, x, wide, at, sums.get(period), older.get(period), f"{name_of(period, length)}: ", currency)
    drawing.add(Line(LEFT, at(0), WIDTH - RIGHT, at(0), INK))
    _periods(drawing, top + PANEL, wide, length, periods)


def _bars(drawing: Drawing, x: float, wide: float, at, step: list[int] | None, older: list[int] | None, about: str,
          currency: str) -> None:
    broad = min(wide * 0.7, 46)
    left = x + (wide - broad) / 2
    for side, colour, word in [(0, IN, "received"), (1, OUT, "paid")]:
        if step and step[side]:
            value = step[side] / ONE
            y = min(at(0), at(value))
            drawing.add(Rectangle(left, y, broad, max(abs(at(value) - at(0)), 0.6), colour,
                                  about=f"{about}{abs(value):,.2f} {currency} {word}"))
        if older and older[side]:
            value = older[side] / ONE
            y = min(at(0), at(value))
            out = min((wide - broad) / 2 * 0.7, 4)
            drawing.add(Rectangle(left - out, y, broad + 2 * out, max(abs(at(value) - at(0)), 0.6), None, BEFORE, True,
                                  f"before, {about}{abs(value):,.2f} {currency} {word}"))


def _periods(drawing: Drawing, bottom: float, wide: float, length: int, periods: range) -> None:
    """The names of the periods, as many as there is room for, and first those that begin a year."""
    needed = text_width(name_of(periods[0], length), 11) + 14
    every = max(1, -int(-needed // wide))
    per_year = 12 // length
    if every > 1 and per_year > 1:
        divisors = [n for n in range(1, per_year + 1) if per_year % n == 0]
        every = next((n for n in divisors if n >= every), -(-every // per_year) * per_year)
    elif per_year == 1 and every > 1:
        every = next(n * p for p in (1, 10, 100, 1000) for n in (1, 2, 5) if n * p >= every)
    shown = [place for place, period in enumerate(periods) if period % every == 0] or [0]
    for place in shown:
        x = LEFT + (place + 0.5) * wide
        drawing.add(Line(x, bottom, x, bottom + 4, INK),
                    Words(x, bottom + 18, name_of(periods[place], length), 11, "middle"))
