#!/usr/bin/env python3
"""Draws calls of a board, works out what each is answered by the marks alone, and writes both as files of cases.

    drive.py [FOLDER]

FOLDER ends up with a file of calls and one of answers for each drive, of the rows of crates/cases/data/boards.txt,
whose form it says; by default it is crates/cases/data/boards, where what is written has to be what stands there. The
script knows nothing of the engine: the portfolio's order, references and codes stand below as data, and an answer goes
by who has appended how much, which asks are open, how far each contract is at each version, and who has left. What the
runs of an answer are it doesn't say: the rows compare them with those of a board of their own, on which one caller has
appended the same entries.

There are two sorts of drives: a long one that ends when all have left, in which three callers ask in their turn until
no more of their asks may be open, and four in which somebody gives up, and once more later. It prints how often each
call has had which answer. Status 1: one of them is too seldom, or the drives aren't what they are to be.
"""

import collections
import datetime
import itertools
import pathlib
import sys

DATA = pathlib.Path(__file__).resolve().parents[2] / "crates/cases/data/boards"

# The contracts of linked.json by their numbers: a swap S1 of P1 and R1, the loans R1 and P1, and a guarantee G1 of P1.
NAMED = (0, 1, 2, 3)
CHILDREN = {0: (2, 1), 1: (), 2: (), 3: (2,)}
# Children first, and of those of one depth the less number first.
ORDER = (1, 2, 0, 3)
# Each contract, and what it refers to, directly or not.
CONES = {0: {0, 1, 2}, 1: {1}, 2: {2}, 3: {2, 3}}
# The code and the day of each reset: of R1 by EUR12M, which is the code 0 as the first in the file, of P1 by USD3M, 1.
RESETS = {1: (0, datetime.date(2021, 1, 1)), 2: (1, datetime.date(2020, 7, 1))}
CODES = {asked: {RESETS[contract][0] for contract in cone if contract in RESETS} for asked, cone in CONES.items()}

CALLERS = (1, 2, 3, 4)
MOST_OPEN = 256
FIRST_DAY, RESET_DAY = datetime.date(2020, 1, 2), datetime.date(2021, 1, 1)

# Of a hundred calls so many appends, asks, claims, tasks that come back, and collects; the rest leave.
BUSY = (10, 18, 30, 16, 26)  # as much is collected as is asked
ASKING = (8, 47, 22, 12, 11)
COLLECTING = (6, 6, 22, 26, 40)
LEAVING = (8, 10, 25, 23, 30)  # one caller after another leaves, and the others go on
ENDING = (0, 0, 25, 25, 40)
OVER = (15, 15, 15, 30, 20)  # after somebody gave up

# How many entries each caller may append: in the long drive two few, and two enough to go on.
LONG_QUOTAS, SHORT_QUOTAS = (40, 80, 1000, 1000), (2, 4, 8, 20)

Ask = collections.namedtuple("Ask", "caller number version asked")
Entry = collections.namedtuple("Entry", "sort of day units")


class Draws:
    """Numbers that are drawn one after the other, the same on each machine."""

    def __init__(self, seed):
        self.seed = seed

    def below(self, bound):
        self.seed = (self.seed * 6364136223846793005 + 1442695040888963407) % 2**64
        return (self.seed >> 33) % 2**32 % bound

    def caller(self, often):
        """Half of the times this one."""
        return often if self.below(2) == 0 else self.below(4) + 1

    def entry(self):
        """A rate of one of two codes, on the day of a reset in three of eight, or each fourth time a prepayment or,
        seldom, a default of one of four contracts."""
        sort, whose, code = self.below(64), self.below(4), self.below(2)
        day, units = FIRST_DAY + datetime.timedelta(self.below(720)), self.below(90_000_000)
        day = day if sort < 40 else RESET_DAY
        if sort == 0:
            return Entry("DF", whose, day, 0)
        return Entry("PP", whose, day, units) if sort < 16 else Entry("rate", code, day, units)


def amount(units):
    return f"{units // 10**9}.{units % 10**9:09}"


def item(caller, step):
    """A step as a journal has it."""
    if not isinstance(step, Entry):
        return f"{caller} ask {step}"
    sort = f"rate {step.of}" if step.sort == "rate" else f"event {step.of} {step.sort}"
    return f"{caller} {sort} {step.day} {amount(step.units)}"


def contracts_of(asked):
    return NAMED if asked == "*" else (asked,)


class Board:
    """What has happened on a board, and what its calls are answered by that."""

    def __init__(self, quotas):
        self.quota = dict(zip(CALLERS, quotas))
        self.entries, self.journal, self.tasks = [], [], []
        self.open = {caller: [] for caller in CALLERS}
        self.made, self.left = collections.Counter(), set()
        self.claimed, self.results = set(), set()
        self.given_up = False
        self.collected, self.runs, self.cuts = set(), 0, []

    def append(self, caller, entry):
        if self.given_up:
            return "GivenUp"
        if self.quota[caller] == 0:
            return "QuotaSpent"
        self.quota[caller] -= 1
        self.entries.append(entry)
        self.journal.append(item(caller, entry))
        return f"{len(self.entries)}"

    def ask(self, caller, asked):
        if self.given_up:
            return "GivenUp"
        if len(self.open[caller]) >= MOST_OPEN:
            return "AsksFull"
        self.made[caller] += 1
        self.open[caller].append(Ask(caller, self.made[caller], len(self.entries), asked))
        self.journal.append(item(caller, asked))
        return f"{self.made[caller]}"

    def wanted(self):
        """The version, the rank and the contract of what open asks want and has no result."""
        asked = {(ask.version, ask.asked) for asks in self.open.values() for ask in asks}
        for version, asked in asked:
            cone = set().union(*(CONES[contract] for contract in contracts_of(asked)))
            for rank, contract in enumerate(ORDER):
                if contract in cone and (contract, version) not in self.results:
                    yield version, rank, contract

    def claim(self):
        if self.given_up:
            return "GivenUp"
        wanted = set(self.wanted())
        may = [(version, rank, contract) for version, rank, contract in wanted
               if (contract, version) not in self.claimed
               and all((child, version) in self.results for child in CHILDREN[contract])]
        if not may:
            return "Ended" if not wanted and len(self.left) == len(CALLERS) else "Idle"
        version, _, contract = min(may)
        self.claimed.add((contract, version))
        self.tasks.append((contract, version))
        return f"{contract} at {version}"

    def take_task(self, place):
        """Takes the task at a place, whose place the last one takes."""
        if place < len(self.tasks):
            self.tasks[place], self.tasks[-1] = self.tasks[-1], self.tasks[place]
            return self.tasks.pop()

    def finish(self, place):
        contract, version = self.take_task(place)
        self.claimed.discard((contract, version))
        self.results.add((contract, version))
        return f"{contract} at {version}"

    def give_up(self):
        self.take_task(0)
        self.given_up = True
        return "done"

    def leave(self, caller):
        self.left.add(caller)
        return "done"

    def collect(self, caller):
        if self.given_up:
            return "GivenUp"
        ask, contracts = self.open[caller][0], contracts_of(self.open[caller][0].asked)
        if any((contract, ask.version) not in self.results for contract in contracts):
            return "NotYet"
        self.open[caller].pop(0)
        self.collected |= {(contract, ask.version) for contract in contracts}
        self.runs += len(contracts)
        self.cuts = [f"{contract} from {self.cut(contract, ask.version)}" for contract in NAMED]
        return f"{caller} {ask.number} {ask.version}: {' '.join(map(str, contracts))}"

    def cut(self, contract, version):
        """The least day of those entries from a version on that a contract of the cone reads."""
        days = [entry.day for entry in self.entries[version:]
                if entry.of in (CODES[contract] if entry.sort == "rate" else CONES[contract])]
        return str(min(days, default="-"))

    def is_here(self, caller):
        return caller not in self.left

    def looks(self):
        """What can be seen of it: entries, steps, the last of these, the open asks of those who are there, and the cuts
        between the version of what was collected last and the newest, as they were then."""
        parts = [f"v{len(self.entries)}", f"j{len(self.journal)}", self.journal[-1] if self.journal else "-"]
        parts += [f"{caller}:{len(self.open[caller]) if self.is_here(caller) else '-'}" for caller in CALLERS]
        return parts + self.cuts

    def read(self, contract, version):
        """What the resets of the cone read: the last rate of the code of those of the latest day up to the reset."""
        found = []
        for code, day in (RESETS[c] for c in sorted(CONES[contract]) if c in RESETS):
            rates = [(e.day, place, e.units) for place, e in enumerate(self.entries[:version])
                     if e.sort == "rate" and e.of == code and e.day <= day]
            found.append(max(rates)[2] if rates else None)
        return found

    def changes(self):
        """Of how many contracts and versions that were collected the resets read something else than before."""
        count = 0
        for contract in NAMED:
            reads = [self.read(contract, version) for of, version in sorted(self.collected) if of == contract]
            count += sum(one != other for one, other in zip(reads, reads[1:]))
        return count


class Drive:
    """A board, the calls that were made of it, and what they were answered."""

    def __init__(self, quotas, seed, tallies):
        self.board, self.draws, self.tallies = Board(quotas), Draws(seed), tallies
        self.calls, self.answers = [], []
        self.seen = self.board.looks()

    def make(self, call, answer):
        """Notes a call with its answer, and what looks otherwise than before it."""
        looks = self.board.looks()
        told = [answer] + [part for part, before in itertools.zip_longest(looks, self.seen) if part != before]
        self.seen = looks
        self.calls.append(call)
        self.answers.append(", ".join(told))
        sort = answer if answer.isalpha() and answer != "done" else "answered"
        self.tallies[f"{call.split()[0]}: {sort}"] += 1

    def step(self, share, often):
        """Draws a call, and makes it where it may be made."""
        caller, drawn, sort = self.draws.caller(often), self.draws.below(100), 0
        while sort < len(share) and drawn >= share[sort]:
            drawn, sort = drawn - share[sort], sort + 1
        (self.append, self.ask, self.claim, self.finish, self.collect, self.leave)[sort](caller)

    def append(self, caller):
        entry = self.draws.entry()
        if self.board.is_here(caller):
            call = f"append {caller} {entry.sort} {entry.of} {entry.day} {entry.units}"
            self.make(call, self.board.append(caller, entry))

    def ask(self, caller):
        asked = self.draws.below(5)
        asked = "*" if asked == 4 else asked
        if self.board.is_here(caller):
            self.make(f"ask {caller} {asked}", self.board.ask(caller, asked))

    def claim(self, caller=None):
        self.make("claim", self.board.claim())

    def finish(self, caller):
        if self.board.tasks:
            place = self.draws.below(len(self.board.tasks))
            self.make(f"finish {place}", self.board.finish(place))

    def collect(self, caller):
        if self.board.is_here(caller) and self.board.open[caller]:
            self.make(f"collect {caller}", self.board.collect(caller))

    def leave(self, caller):
        if self.board.is_here(caller) and (self.board.given_up or not self.board.open[caller]):
            self.make(f"leave {caller}", self.board.leave(caller))

    def give_up(self):
        self.make("give_up", self.board.give_up())

    def go(self, share, often, count):
        """Draws calls until so many were made."""
        end = len(self.calls) + count
        while len(self.calls) < end:
            self.step(share, often)

    def draw(self, share, often, count):
        """Draws so many calls, unless all have left before."""
        for _ in range(count):
            if len(self.board.left) < len(CALLERS):
                self.step(share, often)

    def journal(self):
        """The whole journal is told."""
        self.calls.append("journal")
        self.answers += self.board.journal

    def write(self, folder, name):
        (folder / f"{name}.calls").write_text("\n".join(self.calls) + "\n")
        (folder / f"{name}.answers").write_text("\n".join(self.answers))


def long_drive(tallies):
    drive = Drive(LONG_QUOTAS, 1, tallies)
    for caller in (2, 3, 4):
        drive.go(BUSY, caller, 200)
        drive.go(ASKING, caller, 1000)
        drive.go(COLLECTING, caller, 700)
    drive.draw(LEAVING, 4, 600)
    drive.draw(ENDING, 4, 20000)
    for _ in range(10):
        drive.claim()
    drive.journal()
    return drive


def given_up_drive(seed, tallies):
    drive = Drive(SHORT_QUOTAS, seed, tallies)
    drive.go(ASKING, 4, 1000)
    drive.give_up()
    drive.draw(OVER, 4, 150)
    drive.give_up()
    return drive


def tallies_told(title, tallies, drives):
    """Tells how often each call had which answer. It answers how many calls there were, and how many runs given."""
    calls, runs = sum(tallies.values()), sum(drive.board.runs for drive in drives)
    print(f"{title}: {calls} calls, {len(tallies)} sorts of answers, {runs} runs in them")
    for sort, count in sorted(tallies.items()):
        print(f"  {count:5} {sort}")
    return calls, runs


def main(folder):
    long, given_up = collections.Counter(), collections.Counter()
    drive, drives = long_drive(long), [given_up_drive(seed, given_up) for seed in range(2, 6)]
    drive.write(folder, "long")
    for number, short in enumerate(drives, 1):
        short.write(folder, f"given-up-{number}")

    _, runs = tallies_told("a board until all have left", long, [drive])
    collected, changes = len(drive.board.collected), drive.board.changes()
    print(f"  of {collected} contracts and versions; at {changes} resets read something else than at the one before")
    last = {"leave: answered": 4, "claim: Ended": 10}
    wanted = [
        (len(long) == 11, "11 sorts of answers in the long drive"),
        (all(count >= 40 for sort, count in long.items() if sort not in last), "each but two of them 40 times"),
        (all(long[sort] == count for sort, count in last.items()), "all callers leave, and 10 claims come after that"),
        (runs >= 2000, "2,000 runs"),
        (collected >= 500, "of 500 contracts and versions"),
        (changes >= 100, "100 changes of what resets read"),
    ]
    calls, runs = tallies_told("four boards until somebody gives up", given_up, drives)
    wanted += [
        (len(given_up) == 15, "15 sorts of answers where somebody gives up"),
        (all(count >= 8 for count in given_up.values()), "each of them 8 times"),
        (calls >= 4000, "4,000 calls where somebody gives up"),
        (runs >= 200, "200 runs where somebody gives up"),
    ]
    for is_so, what in wanted:
        if not is_so:
            print(f"drive.py: not so: {what}")
    return 0 if all(is_so for is_so, _ in wanted) else 1


if __name__ == "__main__":
    if len(sys.argv) > 2:
        sys.exit("usage: drive.py [FOLDER]")
    sys.exit(main(pathlib.Path(sys.argv[1]) if len(sys.argv) > 1 else DATA))
