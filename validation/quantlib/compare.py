#!/usr/bin/env python3
"""Compares the cash flows of `actus` with those of QuantLib, on contracts that both can say.

    compare.py PROGRAM [SEED] [COUNT]

PROGRAM is the path of the built program, SEED (1) a whole number that the contracts are drawn from, and COUNT (1000)
how many there are. The sorts take turns:

    PAM        a loan of a fixed rate, against FixedRateBond
    ANN-EVEN   an annuity over periods of one length, against AmortizingFixedRateBond with sinkingNotionals
    ANN        any annuity, against AmortizingFixedRateBond with the payment that leaves nothing at maturity, which is
               searched here with QuantLib's interest: for uneven periods QuantLib has no payment of its own
    SWPPV      a swap of two fixed rates, against the difference of two legs of FixedRateLeg

Compared are the amounts of each day, interest and principal apart: those of one day and sort are added up, and one that
isn't there counts as 0. What is 0 in both isn't counted. Not compared are the initial exchange, which QuantLib's bonds
don't have, and the notional, rate and accrued interest that a row also tells.

It claims no conformity with the ACTUS standard, and is no part of the gate: it is two engines on what both can say.
README.md tells what is drawn, and what isn't since the engines differ there. Status 0: all agree; 1: a contract
doesn't, or the program failed; 2: wrong words, or QuantLib is missing.
"""

import collections
import json
import os
import random
import subprocess
import sys
import tempfile
from decimal import Decimal

try:
    import QuantLib as ql
except ImportError:
    print("compare.py: QuantLib is missing (Debian's package quantlib-python): nothing is compared", file=sys.stderr)
    sys.exit(2)

USAGE = "usage: compare.py PROGRAM [SEED] [COUNT]"
MOST_CONTRACTS = 4096  # of a file
SORTS = ("PAM", "ANN-EVEN", "ANN", "SWPPV")
CALENDARS = {"NC": ql.NullCalendar(), "MF": ql.WeekendsOnly()}
CONVENTIONS = {
    "NOS": ql.Unadjusted,
    "SCF": ql.Following,
    "SCMF": ql.ModifiedFollowing,
    "SCP": ql.Preceding,
    "SCMP": ql.ModifiedPreceding,
    "CSF": ql.Following,
    "CSMF": ql.ModifiedFollowing,
    "CSP": ql.Preceding,
    "CSMP": ql.ModifiedPreceding,
}
# from the calendar and the maturity date
DAY_COUNTS = {
    "A360": lambda calendar, maturity: ql.Actual360(),
    "A365": lambda calendar, maturity: ql.Actual365Fixed(),
    "AA": lambda calendar, maturity: ql.ActualActual(ql.ActualActual.ISDA),
    "30E360": lambda calendar, maturity: ql.Thirty360(ql.Thirty360.European),
    "30E360ISDA": lambda calendar, maturity: ql.Thirty360(ql.Thirty360.ISDA, maturity),
    "B252": lambda calendar, maturity: ql.Business252(calendar),
}
# a unit of cycles: QuantLib's, how many of these it is, about how many days, and the greatest count that is drawn
UNITS = {
    "D": (ql.Days, 1, 1, 400),
    "W": (ql.Weeks, 1, 7, 60),
    "M": (ql.Months, 1, 30, 18),
    "Q": (ql.Months, 3, 91, 6),
    "H": (ql.Months, 6, 182, 4),
    "Y": (ql.Years, 1, 365, 3),
}
FREQUENCIES = {
    "P1ML1": ql.Monthly,
    "P2ML1": ql.Bimonthly,
    "P1QL1": ql.Quarterly,
    "P4ML1": ql.EveryFourthMonth,
    "P1HL1": ql.Semiannual,
    "P1YL1": ql.Annual,
}
MOST_DAYS = 40 * 365  # of a contract's life, about
MOST_PERIODS = 360
INTEREST, PRINCIPAL = "interest", "principal"
SORT_OF_ROW = {"IP": INTEREST, "PR": PRINCIPAL, "MD": PRINCIPAL}


def tolerance(terms, is_last):
    """What an amount may differ by: 10^-6, and more of an annuity, most of its last payment.

    The factors of an annuity's payment are rounded to 10^-12, maybe all to the same side, and the payment to 10^-9.
    What that leaves is paid at maturity: with the lives and rates that are drawn here less than 10^-5 and 2*10^-8 of
    the notional. Amounts before are off by far less.
    """
    if terms["contractType"] != "ANN":
        return Decimal("1e-6")
    notional = Decimal(terms["notionalPrincipal"])
    return Decimal("1e-5") + notional * Decimal("2e-8") if is_last else Decimal("1e-6") + notional * Decimal("2e-10")


# ---------------------------------------------------------------- drawing


def day(text):
    """QuantLib's day of a text."""
    return ql.DateParser.parseISO(text)


def period(cycle, times=1):
    """So many of a cycle, as P3ML1, as a period of QuantLib."""
    unit, months, _, _ = UNITS[cycle[-3]]
    return ql.Period(times * int(cycle[1:-3]) * months, unit)


def about_days(cycle):
    """About how many days a cycle is."""
    return int(cycle[1:-3]) * UNITS[cycle[-3]][2]


def draw_day(rng, first, days):
    """One of so many days from a first one on, and one of two times the end of its month."""
    found = first + rng.randrange(days)
    return ql.Date.endOfMonth(found) if rng.random() < 0.5 else found


def draw(rng, sort, name):
    """The terms of a contract of that sort."""
    annuity, even, swap = sort.startswith("ANN"), sort == "ANN-EVEN", sort == "SWPPV"
    calendar = rng.choice(["NC", "MF", "MF", "MF"])
    convention = rng.choice([c for c in CONVENTIONS if not (even and c.startswith("SC"))])
    start = draw_day(rng, ql.Date(1, 1, 1990), 33000)
    if even:
        start = ql.Date(min(start.dayOfMonth(), 27), start.month(), start.year())
    if convention.startswith("SC"):
        start = CALENDARS[calendar].adjust(start)
    terms = {
        "contractID": name,
        "contractType": "ANN" if annuity else sort,
        "contractRole": rng.choice(["RFL", "PFL"] if swap else ["RPA", "RPL"]),
        "statusDate": (start - rng.randint(1, 40)).ISO(),
        "currency": "EUR",
        "calendar": calendar,
        "businessDayConvention": convention,
        "endOfMonthConvention": "SD" if even else rng.choice(["SD", "EOM"]),
        "dayCountConvention": rng.choice(["30E360", "30E360ISDA"] if even else list(DAY_COUNTS)),
        "initialExchangeDate": start.ISO(),
        "notionalPrincipal": f"{rng.uniform(100, 1000000):.2f}",
        "nominalInterestRate": f"{rng.uniform(0 if even else -0.01, 0.12):.{rng.randint(2, 6)}f}",
    }
    if swap:
        terms["nominalInterestRate2"] = f"{rng.uniform(-0.01, 0.12):.{rng.randint(2, 6)}f}"
    if annuity or rng.random() < 0.95:
        draw_dates(rng, terms, start, even)
    else:
        terms["maturityDate"] = draw_day(rng, start + 10, 4000).ISO()  # interest is paid once
    if not annuity and (calendar == "NC" or not convention.startswith("SC")):
        draw_begun(rng, terms)
    return terms


def draw_dates(rng, terms, start, even):
    """A cycle of payments, their anchor and the maturity date."""
    annuity = terms["contractType"] == "ANN"
    unit = rng.choice(list(UNITS))
    least = 3 if annuity and unit == "D" else 1  # so that no two redemptions fall on one day
    cycle = f"P{rng.randint(least, UNITS[unit][3])}{unit}L{rng.randint(0, 1)}"
    if even:
        cycle = rng.choice(list(FREQUENCIES))
    periods = rng.randint(1, min(MOST_PERIODS, MOST_DAYS // about_days(cycle)))
    if even:
        anchor, end = start + period(cycle), start + period(cycle, periods)
    else:
        anchor = rng.choice([start + period(cycle) if annuity else start, draw_day(rng, start + 10, 500)])
        end = max(anchor + period(cycle, periods), start + 10) + rng.choice([0, rng.randrange(about_days(cycle))])
    terms["maturityDate"] = end.ISO()
    for what in ["InterestPayment", "PrincipalRedemption"] if annuity else ["InterestPayment"]:
        terms["cycleAnchorDateOf" + what] = anchor.ISO()
        terms["cycleOf" + what] = cycle


def draw_begun(rng, terms):
    """One of three times a status date within the contract's life, more than three days from each day of interest."""
    dates = list(schedule(terms))
    for _ in range(20 if rng.random() < 1 / 3 else 0):
        status = dates[0] + rng.randrange(dates[-1] - dates[0])
        if all(abs(status - date) > 3 for date in dates):
            terms["statusDate"] = status.ISO()
            return


# ---------------------------------------------------------------- QuantLib


def schedule(terms):
    """The days that interest is computed for, from the initial exchange to maturity."""
    calendar, convention = CALENDARS[terms["calendar"]], CONVENTIONS[terms["businessDayConvention"]]
    first = terms["businessDayConvention"].startswith("SC")
    start, end = day(terms["initialExchangeDate"]), day(terms["maturityDate"])
    cycle, forward = terms.get("cycleOfInterestPayment"), ql.DateGeneration.Forward
    if cycle is None:
        dates = [start, end]
    else:
        anchor = day(terms["cycleAnchorDateOfInterestPayment"])
        to_end = terms["endOfMonthConvention"] == "EOM"
        if first and not to_end and cycle.endswith("L1") and terms["contractType"] != "ANN":
            # QuantLib's schedule says all of it
            behind = anchor if anchor != start else ql.Date()
            return ql.Schedule(start, end, period(cycle), calendar, convention, convention, forward, False, behind)
        dates = [end]
        if anchor < end:
            plain = ql.NullCalendar(), ql.Unadjusted, ql.Unadjusted
            regular = ql.Schedule(anchor, end, period(cycle), *plain, forward, to_end)
            dates = list(regular)
            if cycle.endswith("L0") and len(dates) > 2 and not regular.isRegular(len(dates) - 1):
                del dates[-2]
        if dates[0] != start:
            dates.insert(0, start)
    if first:
        dates = [calendar.adjust(date, convention) for date in dates]
    # the bonds ask for a tenor, a direction and an end of month too; no amount goes by them
    return ql.Schedule(dates, calendar, ql.Unadjusted, ql.Unadjusted, period(cycle or "P1YL1"), forward, False)


def notionals_of(dates, rate, notional):
    """What is owed in each period where the same payment, at the end of each, leaves nothing at maturity."""
    factors = [rate.compoundFactor(a, b) for a, b in zip(dates, dates[1:])]

    def owed(paid):
        found = [1.0]
        for factor in factors:
            found.append(found[-1] * factor - paid)
        return found

    without, whole = owed(0.0)[-1], owed(1.0)[-1]
    return [notional * part for part in owed(without / (without - whole))[:-1]]


def theirs(sort, terms):
    """QuantLib's cash flows after the status date: an amount for each day and sort."""
    calendar, convention = CALENDARS[terms["calendar"]], CONVENTIONS[terms["businessDayConvention"]]
    count = DAY_COUNTS[terms["dayCountConvention"]](calendar, day(terms["maturityDate"]))
    notional, rate = float(terms["notionalPrincipal"]), float(terms["nominalInterestRate"])
    if sort == "ANN-EVEN":
        start, frequency = day(terms["initialExchangeDate"]), FREQUENCIES[terms["cycleOfPrincipalRedemption"]]
        end = day(terms["maturityDate"])
        life = ql.Period(12 * (end.year() - start.year()) + end.month() - start.month(), ql.Months)
        dates = ql.sinkingSchedule(start, life, frequency, calendar)
        owed = list(ql.sinkingNotionals(life, frequency, rate, notional))[:-1]
    else:
        dates = schedule(terms)
    if sort == "ANN":
        owed = notionals_of(list(dates), ql.InterestRate(rate, count, ql.Simple, ql.Annual), notional)
    if sort.startswith("ANN"):
        signed = [(1, ql.AmortizingFixedRateBond(0, owed, dates, [rate], count, convention).cashflows())]
    elif sort == "PAM":
        signed = [(1, ql.FixedRateBond(0, notional, dates, [rate], count, convention).cashflows())]
    else:
        rates = [(1, rate), (-1, float(terms["nominalInterestRate2"]))]
        signed = [(sign, ql.FixedRateLeg(dates, count, [notional], [r], convention)) for sign, r in rates]
    role = -1 if terms["contractRole"] in ("RPL", "PFL") else 1
    found = collections.defaultdict(Decimal)
    for sign, flows in signed:
        for flow in flows:
            if flow.date() > day(terms["statusDate"]):
                key = flow.date().ISO(), PRINCIPAL if ql.as_coupon(flow) is None else INTEREST
                found[key] += role * sign * Decimal(flow.amount())
    return found


# ---------------------------------------------------------------- actus


def evaluate(program, portfolio):
    """The program's cash flows by contract; a contract whose block doesn't end in `end` isn't there."""
    with tempfile.TemporaryDirectory() as folder:
        path = os.path.join(folder, "portfolio.json")
        with open(path, "w", encoding="ascii") as file:
            json.dump(portfolio, file)
        try:
            run = subprocess.run([program, "eval", path], capture_output=True, check=False)
        except OSError as error:
            sys.exit(f"compare.py: {program}: {error.strerror}")
    text = run.stdout.decode("ascii", "replace")
    if run.returncode != 0:
        sys.exit(f"compare.py: {program} ended with status {run.returncode}: {text[-200:].strip()}")
    whole, name, found = {}, None, None
    for line in text.splitlines():
        words = line.split(" ")
        if words[0] == "contract":
            name, found = words[1], collections.defaultdict(Decimal)
        elif words[0] == "end":
            whole[name] = found
        elif len(words) == 7 and words[0][:1].isdigit() and words[1] != "IED":
            found[words[0], SORT_OF_ROW.get(words[1], words[1])] += Decimal(words[3])
    return whole


# ---------------------------------------------------------------- comparing


class Count:
    """What was compared of a sort."""

    def __init__(self):
        self.contracts = self.agreeing = self.flows = self.agreeing_flows = 0
        self.greatest = self.greatest_last = Decimal(0)

    def add(self, other):
        """Adds another count."""
        self.contracts += other.contracts
        self.agreeing += other.agreeing
        self.flows += other.flows
        self.agreeing_flows += other.agreeing_flows
        self.greatest = max(self.greatest, other.greatest)
        self.greatest_last = max(self.greatest_last, other.greatest_last)

    def line(self, sort):
        """The count as a line of the table."""
        numbers = f"{self.contracts:10}{self.agreeing:10}{self.flows:12}{self.agreeing_flows:12}"
        return f"{sort:10}{numbers}{float(self.greatest):12.1e}{float(self.greatest_last):12.1e}"


def compare(sort, terms, ours):
    """What a contract counts; where it doesn't agree, it is printed with both lists."""
    flows = {"actus": {} if ours is None else ours, "QuantLib": theirs(sort, terms)}
    mine, other = flows.values()
    keys = sorted(key for key in set(mine) | set(other) if mine.get(key, 0) != 0 or other.get(key, 0) != 0)
    found, apart = Count(), set()
    found.contracts, found.flows = 1, len(keys)
    for key in keys:
        difference = abs(mine.get(key, Decimal(0)) - other.get(key, Decimal(0)))
        is_last = terms["contractType"] == "ANN" and key == keys[-1]
        if is_last:
            found.greatest_last = difference
        else:
            found.greatest = max(found.greatest, difference)
        if difference > tolerance(terms, is_last):
            apart.add(key)
    found.agreeing_flows = found.flows - len(apart)
    found.agreeing = int(ours is not None and not apart)
    if not found.agreeing:
        print(f"{terms['contractID']} doesn't agree" + ("" if ours is not None else ": its rows aren't whole"))
        print(json.dumps([terms]))
        for title, listed in flows.items():
            print(title)
            for key in keys:
                if key in listed:
                    print(f"  {key[0]} {key[1]:10}{listed[key]:20.9f}{' *' if key in apart else ''}")
    return found


def main(words):
    """Draws, evaluates, compares and prints; the status."""
    try:
        program, seed, count = words + ["1", "1000"][len(words) - 1:]
        seed, count = int(seed), int(count)
    except ValueError:
        print(USAGE, file=sys.stderr)
        return 2
    rng = random.Random(seed)
    counts = {sort: Count() for sort in SORTS}
    drawn = [(sort, draw(rng, sort, f"{sort}-{n + 1}")) for n in range(count) for sort in [SORTS[n % len(SORTS)]]]
    for first in range(0, count, MOST_CONTRACTS):
        part = drawn[first:first + MOST_CONTRACTS]
        rows = evaluate(program, [terms for _, terms in part])
        for sort, terms in part:
            counts[sort].add(compare(sort, terms, rows.get(terms["contractID"])))
    total = Count()
    print(f"seed {seed}, QuantLib {ql.__version__}")
    print("the greatest difference stands before that of the last payments of annuities")
    print("sort       contracts     agree  cash flows       agree    greatest  of the last")
    for sort, found in counts.items():
        print(found.line(sort))
        total.add(found)
    print(total.line("all"))
    return 0 if total.agreeing == total.contracts else 1


if __name__ == "__main__":
    sys.exit(main(sys.argv[1:]))
