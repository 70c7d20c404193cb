"""Splits a portfolio of any size into parts that the program takes, each with its script.

What refers to one another stays together; parts are filled in the order of the file. A part's script has the rates of
the codes that it reads, the events of its contracts, and the asks that ask for one of them or for all. Several scripts
are taken as one, one behind the other. Each contract's bytes are copied as they stand.
"""

from __future__ import annotations

import bisect
import hashlib
import mmap
import os
import shutil
from array import array
from collections import Counter
from collections.abc import Iterator
from concurrent.futures import ProcessPoolExecutor, ThreadPoolExecutor
from dataclasses import dataclass, field
from pathlib import Path

from .errors import PORTFOLIO, SCRIPT, UNWRITABLE, ToolError
from .files import reading
from .index import Index, index_of
from .parts import MANIFEST, PART, SCRIPT_FILE, PORTFOLIO_FILE, folder_of, hash_of, write_json
from .portfolio import MOST_BYTES, MOST_CONTRACTS, cone_sums, read_portfolio
from .script import MOST_ENTRIES, MOST_WEIGHT, Line, _Wrong, read_line
from .syntax import SyntaxFault, decode
from .unit import Unit

ASK_ALL = b'{"ask":"*"}\n'
FLUSH = 32 << 20


@dataclass(frozen=True, slots=True)
class Limits:
    """How much a part may have: contracts (a CAPFL counts as two), bytes of a file, entries, and what its asks weigh."""

    contracts: int = MOST_CONTRACTS
    size: int = MOST_BYTES
    entries: int = MOST_ENTRIES
    weight: int = MOST_WEIGHT


@dataclass(slots=True)
class Component:
    """Contracts of the file that have to stay together, by their numbers, with what they come to."""

    members: list[int]
    contracts: int = 0
    names: int = 0
    size: int = 0
    weight: int = 0
    events: int = 0
    asks: int = 0
    asked: int = 0
    codes: frozenset[str] = frozenset()


@dataclass(slots=True)
class Part:
    """A part that is being filled: the numbers of its contracts, and what they come to."""

    members: array = field(default_factory=lambda: array("L"))
    contracts: int = 0
    names: int = 0
    size: int = 2
    weight: int = 0
    events: int = 0
    asks: int = 0
    asked: int = 0
    codes: frozenset[str] = frozenset()


@dataclass
class Steps:
    """What the scripts say, counted: how many rates a code has and how many bytes, events and asks a contract, and the
    asks for all."""

    files: list[str]
    rates: Counter[str] = field(default_factory=Counter)
    rate_bytes: Counter[str] = field(default_factory=Counter)
    events: Counter[str] = field(default_factory=Counter)
    event_bytes: Counter[str] = field(default_factory=Counter)
    asks: Counter[str] = field(default_factory=Counter)
    stars: int = 0
    steps: int = 0


def lines_of(files: list[str]) -> Iterator[tuple[Line, bytes]]:
    """The lines of scripts, each with its bytes and a line feed."""
    for name in files:
        with reading(name) as file:
            for number, raw in enumerate(file, 1):
                if raw.strip(b" \t\r\n"):
                    yield _line(name, number, raw.rstrip(b"\n")), raw if raw.endswith(b"\n") else raw + b"\n"


def _line(name: str, number: int, raw: bytes) -> Line:
    try:
        return read_line(decode(raw), number)
    except (SyntaxFault, _Wrong) as error:
        raise ToolError(f"{name}:{number}: {error}; `lint` tells more", SCRIPT) from None


def count_steps(files: list[str]) -> Steps:
    """Counts what the scripts say."""
    steps = Steps(files)
    for line, raw in lines_of(files):
        steps.steps += 1
        if line.sort == "rate":
            steps.rates[line.name] += 1
            steps.rate_bytes[line.name] += len(raw)
        elif line.sort == "event":
            steps.events[line.name] += 1
            steps.event_bytes[line.name] += len(raw)
        elif line.name == "*":
            steps.stars += 1
        else:
            steps.asks[line.name] += 1
    if not files:
        steps.stars = 1
    return steps


# ---- what stays together


def components(index: Index, steps: Steps, places: dict[str, int]) -> Iterator[Component]:
    """What stays together, in the order of the first contract of each."""
    together, sets = _together(index, places), [frozenset(codes) for codes in index.codes]
    starts, ends, counts, weights, numbers = index.starts, index.ends, index.counts, index.weights, index.code_sets
    events, asks = _by_place(steps.events, places), _by_place(steps.asks, places)
    for place in range(len(index)):
        members = together.get(place)
        if members is None:
            component = Component([place], 1, 1, ends[place] - starts[place] + 2, weights[place])
            component.codes = sets[numbers[place]]
            if events or asks:
                component.events = events.get(place, 0)
                component.asks = asks.get(place, 0)
                component.asked = component.asks * weights[place]
            yield component
        elif members[0] == place:
            yield _joined(index, members, places, steps, sets)


def _by_place(counter: Counter[str], places: dict[str, int]) -> dict[int, int]:
    found: dict[int, int] = {}
    for name, count in counter.items():
        if name not in places:
            raise ToolError(f"a script names contract {name}, and the portfolio has none of this name", SCRIPT)
        found[places[name]] = found.get(places[name], 0) + count
    return found


def _together(index: Index, places: dict[str, int]) -> dict[int, list[int]]:
    """For each contract that refers to others, is referred to, or has others in it: all that stay with it."""
    above: dict[int, int] = {}

    def top(place: int) -> int:
        while above.setdefault(place, place) != place:
            above[place] = above[above[place]]
            place = above[place]
        return place

    for place, unit in index.units.items():
        first = top(place)
        for name in unit.references:
            if name not in places:
                raise ToolError(f"contract {unit.names[0]} refers to {name}, and the portfolio has no contract of this "
                                "name", PORTFOLIO)
            other = top(places[name])
            if other != first:
                above[max(first, other)] = first = min(first, other)
    found: dict[int, list[int]] = {}
    for place in sorted(above):
        found.setdefault(top(place), []).append(place)
    return {place: members for members in found.values() for place in members}


def _joined(index: Index, members: list[int], places: dict[str, int], steps: Steps,
            sets: list[frozenset[str]]) -> Component:
    """A component of contracts that refer to one another, with the exact sums over what each refers to."""
    component = Component(members)
    own: dict[str, tuple[int, list[str]]] = {}
    shadows = set()
    for place in members:
        component.size += index.ends[place] - index.starts[place] + 2
        component.contracts += index.counts[place]
        component.codes |= sets[index.code_sets[place]]
        unit = index.units.get(place)
        if unit is None:
            own[index.names[place]] = index.weights[place] - 1, []
        else:
            own.update((name, (events, children)) for name, events, children in unit.kinds)
            shadows |= {name for name, _, _ in unit.kinds} if unit.contracts > len(unit.names) else set()
    component.names = len(own)
    for name in own:
        cone = _cone(name, own, shadows)
        component.weight += cone
        component.asks += steps.asks.get(name, 0)
        component.asked += steps.asks.get(name, 0) * cone
        component.events += steps.events.get(name, 0)
    return component


def _cone(name: str, own: dict[str, tuple[int, list[str]]], shadows: set[str]) -> int:
    """What a contract weighs at most in an ask: its events and those of all that it refers to."""
    seen, left, total = {name}, [name], 0
    while left:
        each = left.pop()
        events, children = own.get(each, (0, []))
        below = sum(own.get(child, (0, []))[0] for child in children)
        total += events + below + 1
        if each in shadows:
            total += below + 1
        for child in children:
            if child not in seen:
                seen.add(child)
                left.append(child)
    return total


# ---- filling parts


class Filling:
    """Fills parts one after the other, each as far as the limits go."""

    def __init__(self, limits: Limits, steps: Steps) -> None:
        self.limits, self.steps = limits, steps
        self.part = Part()
        self._rates: dict[frozenset[str], tuple[int, int]] = {}

    def rates_of(self, codes: frozenset[str]) -> tuple[int, int]:
        """How many rates the codes have, and in how many bytes."""
        found = self._rates.get(codes)
        if found is None:
            found = (sum(self.steps.rates[code] for code in codes), sum(self.steps.rate_bytes[code] for code in codes))
            self._rates[codes] = found
        return found

    def excess(self, part: Part | Component, more: Component | None = None) -> str | None:
        """Which limit a part would be above, with a component more; none where it is within all."""
        def both(name: str) -> int:
            return getattr(part, name) + (getattr(more, name) if more else 0)

        limits, codes = self.limits, part.codes
        if more and not more.codes <= codes:
            codes = codes | more.codes
        contracts, size, events = both("contracts"), both("size"), both("events")
        if contracts > limits.contracts:
            return f"{contracts} contracts, and {limits.contracts} may be"
        if size > limits.size:
            return f"{size} bytes, and {limits.size} may be"
        entries, _ = self.rates_of(codes)
        if entries + events > limits.entries:
            return f"{entries + events} entries of scripts, and {limits.entries} may be"
        stars, asks = self.steps.stars, both("asks")
        weight = stars * (1 + both("weight") + 2 * events * both("names")) + asks * (1 + 2 * events) + both("asked")
        if weight > limits.weight:
            return f"asks that weigh {weight}, and {limits.weight} may be"
        return None

    def add(self, component: Component) -> Part | None:
        """Adds a component that is within the limits by itself; gives back the part before where that was full."""
        full = None
        if self.part.members and self.excess(self.part, component):
            full, self.part = self.part, Part()
        part = self.part
        part.members.extend(component.members)
        part.contracts += component.contracts
        part.names += component.names
        part.size += component.size
        part.weight += component.weight
        part.events += component.events
        part.asks += component.asks
        part.asked += component.asked
        if not component.codes <= part.codes:
            part.codes |= component.codes
        return full


def weighed(source: str, index: Index, component: Component, steps: Steps) -> Component:
    """The component with what it weighs exactly, in place of at most."""
    with open(source, "rb") as file:
        contracts = []
        for place in component.members:
            file.seek(index.starts[place])
            contracts.append(file.read(index.ends[place] - index.starts[place]))
    portfolio = read_portfolio(b"[" + b",".join(contracts) + b"]")
    if not portfolio.faults:
        sums = cone_sums(portfolio)
        component.weight = sum(sums.values())
        component.asked = sum(steps.asks.get(each.name, 0) * sums[each.place] for each in portfolio.contracts)
    return component


def too_large(index: Index, above: list[tuple[Component, str]]) -> ToolError:
    """What to say of components that are above a limit."""
    first, why = above[0]
    names = ", ".join(index.names[place] for place in first.members[:5])
    more = f" and {len(first.members) - 5} more" if len(first.members) > 5 else ""
    others = f"; and so {len(above) - 1} more" if len(above) > 1 else ""
    return ToolError(f"what stays together can't be split: {names}{more}: {why}{others}", PORTFOLIO)


def fill_plain(index: Index, steps: Steps, limits: Limits) -> list[Part] | None:
    """The parts of a portfolio in which no contract refers to another one, and of a script that only observes rates and
    asks for all: stretches of the file. The same as by components, in less time; none where a contract alone may be
    above a limit."""
    filling, parts, part = Filling(limits, steps), [], Part()
    sets = [frozenset(codes) for codes in index.codes]
    stars, first, known = steps.stars, 0, set()
    room = limits.weight // stars - 1 if stars else 1 << 62
    count, size, weight = 0, 2, 0

    def close(behind: int) -> None:
        part.members = array("L", range(first, behind))
        part.contracts = part.names = behind - first
        part.size, part.weight = size, weight
        parts.append(part)

    for place, (start, end, more, codes) in enumerate(zip(index.starts, index.ends, index.weights, index.code_sets)):
        needs = end - start + 2
        fits = count < limits.contracts and size + needs <= limits.size and weight + more <= room
        if fits and codes not in known:
            fits = filling.rates_of(part.codes | sets[codes])[0] <= limits.entries
        if not fits:
            alone = Component([place], 1, 1, needs, more, codes=sets[codes])
            if filling.excess(alone):
                return None
            if count:
                close(place)
            part, first, known, count, size, weight = Part(), place, set(), 0, 2, 0
        if codes not in known:
            known.add(codes)
            part.codes |= sets[codes]
        count += 1
        size += needs
        weight += more
    if count:
        close(len(index))
    return parts


def fill(source: str, index: Index, steps: Steps, limits: Limits, places: dict[str, int]) -> list[Part]:
    """The parts of a portfolio. Raises `ToolError` where something can't be split."""
    if not index.units and not steps.events and not steps.asks:
        plain = fill_plain(index, steps, limits)
        if plain is not None:
            return plain
    filling, parts, above = Filling(limits, steps), [], []
    for component in components(index, steps, places):
        if filling.excess(component) and (why := filling.excess(weighed(source, index, component, steps))):
            above.append((component, why))
        elif full := filling.add(component):
            parts.append(full)
    if filling.part.members:
        parts.append(filling.part)
    if above:
        raise too_large(index, above)
    for part in parts:
        part.members = array("L", sorted(part.members))
    return parts


# ---- writing


def write_portfolio(source: str, goal: str, starts: array, ends: array) -> str:
    """Writes a part's portfolio of the bytes of its contracts; gives back the SHA-256 of the file."""
    with open(source, "rb") as file, mmap.mmap(file.fileno(), 0, access=mmap.ACCESS_READ) as data:
        whole = b"[" + b",\n".join([data[start:end] for start, end in zip(starts, ends)]) + b"]\n"
    with open(goal, "wb") as out:
        out.write(whole)
    return hashlib.sha256(whole).hexdigest()


def write_scripts(folder: Path, parts: list[Part], steps: Steps, part_of: dict[str, int]) -> list[list[list[int]]]:
    """Writes the parts' scripts; gives back of each part its asks, by their numbers in the whole and their versions."""
    asks: list[list[list[int]]] = [[] for _ in parts]
    readers: dict[str, list[int]] = {}
    for number, part in enumerate(parts):
        for code in part.codes:
            readers.setdefault(code, []).append(number)
    everyone = list(range(len(parts)))
    held: list[list[bytes]] = [[] for _ in parts]
    kept, entries, asked = 0, 0, 0
    files = [folder_of(folder, number + 1) / SCRIPT_FILE for number in everyone]

    def flush() -> None:
        for path, lines in zip(files, held):
            with open(path, "ab") as out:
                out.write(b"".join(lines))
            lines.clear()

    given = lines_of(steps.files) if steps.files else iter([(Line(1, "ask", "*"), ASK_ALL)])
    for line, raw in given:
        if line.sort == "rate":
            aims = readers.get(line.name, [])
        elif line.sort == "ask" and line.name == "*":
            aims = everyone
        else:
            aims = [part_of[line.name]]
        if line.sort == "ask":
            asked += 1
            for aim in aims:
                asks[aim].append([asked, entries])
        else:
            entries += 1
        for aim in aims:
            held[aim].append(raw)
        kept += len(raw) * len(aims)
        if kept > FLUSH:
            flush()
            kept = 0
    flush()
    return asks


def ranges_of(members: array) -> list[list[int]]:
    """Ascending numbers as stretches, each a first one and how many."""
    found: list[list[int]] = []
    for number in members:
        if found and found[-1][0] + found[-1][1] == number:
            found[-1][1] += 1
        else:
            found.append([number, 1])
    return found


def split(portfolio: str, scripts: list[str], goal: str, limits: Limits = Limits(), workers: int = 1) -> int:
    """Splits a portfolio with its scripts into the folder `goal`, which must not be there; gives back how many parts it
    made."""
    folder = Path(goal)
    if folder.exists():
        raise ToolError(f"{goal} is there already: name a new folder, or remove it", UNWRITABLE)
    with ThreadPoolExecutor(1) as beside:
        hashed = beside.submit(lambda: [hash_of(name) for name in (portfolio, *scripts)])
        steps = count_steps(scripts)
        index = index_of(portfolio, workers)
        places = places_of(index)
        parts = fill(portfolio, index, steps, limits, places)
        made = folder.with_name(f".{folder.name}.{os.getpid()}.part")
        try:
            made.mkdir(parents=True)
            _write(made, portfolio, index, parts, steps, places, workers, hashed)
            os.replace(made, folder)
        except OSError as error:
            raise ToolError(f"{goal} can't be written: {error.strerror}", UNWRITABLE) from None
        finally:
            shutil.rmtree(made, ignore_errors=True)
    return len(parts)


def places_of(index: Index) -> dict[str, int]:
    """The number of the contract of the file in which each name stands. Raises `ToolError` where one stands twice."""
    places = dict(zip(index.names, range(len(index))))
    inner = [(name, place) for place, unit in index.units.items() for name in unit.names[1:]]
    if len(places) == len(index) and not inner:
        return places
    seen = Counter(index.names)
    seen.update(name for name, _ in inner)
    twice = next((name for name, count in seen.items() if count > 1), None)
    if twice is not None:
        raise ToolError(f"contract {twice} stands twice in the portfolio", PORTFOLIO)
    places.update(inner)
    return places


def _write(folder: Path, portfolio: str, index: Index, parts: list[Part], steps: Steps, places: dict[str, int],
           workers: int, hashed) -> None:
    jobs = []
    for number, part in enumerate(parts, 1):
        folder_of(folder, number).mkdir()
        starts = array("Q", [index.starts[place] for place in part.members])
        ends = array("Q", [index.ends[place] for place in part.members])
        jobs.append((portfolio, str(folder_of(folder, number) / PORTFOLIO_FILE), starts, ends))
    if workers > 1 and len(parts) > 1:
        with ProcessPoolExecutor(workers) as pool:
            hashes = list(pool.map(write_portfolio, *zip(*jobs), chunksize=4))
    else:
        hashes = [write_portfolio(*job) for job in jobs]
    part_of = _part_of(parts, places, steps)
    asks = write_scripts(folder, parts, steps, part_of)
    for number, (part, portfolio_hash) in enumerate(zip(parts, hashes), 1):
        inner = {str(at): len(index.units[place].names) for at, place in enumerate(part.members)
                 if place in index.units and len(index.units[place].names) > 1} if index.units else {}
        where = folder_of(folder, number)
        write_json(where / PART, {"part": number, "portfolio": portfolio_hash, "script": hash_of(where / SCRIPT_FILE),
                                  "contracts": part.contracts, "names": part.names, "events": part.events,
                                  "places": ranges_of(part.members), "inner": inner, "asks": asks[number - 1]})
    portfolio_hash, *script_hashes = hashed.result()
    write_json(folder / MANIFEST, {
        "form": 1, "parts": len(parts), "contracts": len(index), "portfolio": {"name": portfolio,
                                                                               "sha256": portfolio_hash},
        "scripts": [{"name": name, "sha256": value} for name, value in zip(steps.files, script_hashes)]})


def _part_of(parts: list[Part], places: dict[str, int], steps: Steps) -> dict[str, int]:
    """The part of each contract that events or single asks of scripts name."""
    firsts = [part.members[0] for part in parts]
    apart = all(one.members[-1] < other.members[0] for one, other in zip(parts, parts[1:]))
    found = {}
    named = {*steps.events, *steps.asks}
    if apart:
        return {name: bisect.bisect_right(firsts, places[name]) - 1 for name in named}
    wanted = {places[name] for name in named}
    by_place = {place: number for number, part in enumerate(parts) for place in part.members if place in wanted}
    for name in named:
        found[name] = by_place[places[name]]
    return found


