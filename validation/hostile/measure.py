#!/usr/bin/env python3
"""Measures the program over files of awkward shapes: their status, time and memory, and how both grow.

    measure.py [--peer PEER] [--rounds N] PROGRAM [NAME..]

PROGRAM is the path of the built program. Each shape is made three times, as a quarter, a half and the whole of what the
limits allow: mostly files of 16, 32 and 64 MiB, and else so many contracts or asks. A row shows the size of portfolio
and scripts, the status, the processor time in seconds (the least of N rounds, 1), the greatest memory in MiB and in
bytes for each byte of the files, and how many times those of the row before time and memory are: about 2 is right. `!`
stands behind a status that isn't the shape's, more than 80 bytes a byte, and a second or more that is 3 times the time
before. Memory isn't seen where it is less than that of this script, some 20 MiB, and has no mark up to 32 MiB.

With --peer another program that takes the same words runs too, and its columns stand behind. With NAMEs only shapes
whose title has one of them are measured. What the programs write goes to nowhere.
"""

import argparse
import os
import subprocess
import tempfile

MOST = 64 << 20  # the greatest size of a file
BLOCK = 1 << 16
COMMON = b'"contractRole":"RPA","statusDate":"2019-12-31","currency":"EUR"'
LOAN = (b'"contractType":"PAM",' + COMMON + b',"initialExchangeDate":"2020-01-01","maturityDate":"2021-01-01",'
        b'"notionalPrincipal":1000,"nominalInterestRate":0.05,"dayCountConvention":"30E360"')
P1 = b'[{"contractID":"P1",' + LOAN
ASK = b'{"ask":"*"}\n'


def loan(name, more=b""):
    return b'{"contractID":"%s",%s%s}' % (name, LOAN, more)


def over(name, kind, *references):
    """A contract over others, each with its role."""
    structure = (b'{"object":"%s","referenceType":"CID","referenceRole":"%s"}' % reference for reference in references)
    return b'{"contractID":"%s","contractType":"%s",%s,"contractStructure":[%s]}' % (
        name, kind, COMMON, b",".join(structure))


def covers(name, *covered):
    return over(name, b"CEG", *((one, b"COVE") for one in covered))


def listed(contracts):
    yield b"["
    for place, contract in enumerate(contracts):
        yield (b"," if place else b"") + contract
    yield b"]"


def filled(size, head, piece, tail):
    """A text of at most that size: a head, as many pieces as fit, alike or one for each number, and a tail."""
    yield head
    room = size - len(head) - len(tail)
    if isinstance(piece, bytes):
        times = room // len(piece)
        block = piece * max(1, BLOCK // len(piece))
        for _ in range(times // (len(block) // len(piece))):
            yield block
        yield piece * (times % (len(block) // len(piece)))
    else:
        number, made = 0, piece(0)
        while len(made) <= room:
            yield made
            room -= len(made)
            number += 1
            made = piece(number)
    yield tail


def check(head, piece, tail, status=0):
    """A portfolio with as many pieces as fit."""
    return "check", status, lambda part: (filled(int(MOST * part), head, piece, tail), ())


def unused(piece, head=b"[", tail=b"0]"):
    """A loan with a name that isn't used, in whose value the pieces stand."""
    return check(P1 + b',"x":' + head, piece, tail + b"}]")


def script(piece, head=b"", tail=b"", portfolio=P1 + b"}]", status=0, command="eval", most=MOST):
    """A script with as many pieces as fit."""
    return command, status, lambda part: ((portfolio,), filled(int(most * part), head, piece, tail))


def contracts(make, status=0, lines=None):
    """Contracts for a part of what there may be, to check, or to evaluate with the lines for that part."""
    return "eval" if lines else "check", status, lambda part: (listed(make(part)), lines(part) if lines else ())


def alike(number):
    """Names of 40 letters to which hash functions that multiply by 31 or by 33 give the same number."""
    pairs = (b"Aa", b"BB") if number % 2 else (b"cz", b"dY")
    return b"".join(pairs[number >> bit & 1] for bit in range(1, 21))


def layers(part, lowest):
    """Guarantees in 15 layers of so many that they fill the file, each over all of the layer below it, which stands
    before it in the file, and the lowest over others."""
    wide = int((MOST * part / 15 / 64) ** 0.5)
    below = lowest
    for layer in range(15):
        names = [b"G%d-%d" % (layer, place) for place in range(wide)]
        yield from (covers(name, *below) for name in names)
        below = names


def in_layers(part):
    yield loan(b"L")
    yield from layers(part * 0.99, [b"L"])


def over_a_cycle(part):
    """The same, and behind them two that cover each other."""
    yield from layers(part * 0.99, [b"Y"])
    yield covers(b"Y", b"Z")
    yield covers(b"Z", b"Y")


def chains(part):
    """Chains of 16: fifteen guarantees and a loan."""
    for chain in range(int(256 * part)):
        names = [b"C%d-%d" % (chain, link) for link in range(16)]
        yield loan(names[0])
        yield from (covers(name, below) for below, name in zip(names, names[1:]))


def over_chains(part):
    """Stocks, a chain of 14 guarantees of them all, and guarantees of all in the chain."""
    half = int(2040 * part)
    names = [b"G%d" % link for link in range(14)]
    yield from STOCKS[:half]
    yield covers(names[0], *(b"S%d" % place for place in range(half)))
    yield from (covers(name, below) for below, name in zip(names, names[1:]))
    yield from (covers(b"T%d" % place, *names) for place in range(half))


def of_thousands(part):
    """A guarantee of nearly half of all contracts, and as many guarantees of that."""
    half = int(2047 * part)
    yield from map(loan, NAMES[:half])
    yield covers(b"G", *NAMES[:half])
    yield from (covers(b"G%d" % place, b"G") for place in range(half))


DAILY = b',"cycleOfInterestPayment":"P1D"'


def long_loan(name):
    return loan(name, DAILY).replace(b"2021-01-01", b"2031-03-18")


def swaps(count):
    """Swaps over two loans of 4,096 events each."""
    def make(part):
        yield long_loan(b"A")
        yield long_loan(b"B")
        for place in range(int(count * part)):
            yield over(b"S%d" % place, b"SWAPS", (b"A", b"FIL"), (b"B", b"SEL"))
    return make


def rate(code, value=b'"1"', day=b"2020-06-01"):
    return b'{"rate":{"code":"%s","date":"%s","value":%s}}\n' % (code, day, value)


def event(name, kind, value):
    return b'{"event":{"contract":"%s","type":"%s","date":"2020-06-01","value":%s}}\n' % (name, kind, value)


def asked(part):
    yield ASK


NAMES = [b"L%d" % place for place in range(4096)]
STOCKS = [b'{"contractID":"S%d","contractType":"STK",%s}' % (place, COMMON) for place in range(4096)]
SHAPES = {
    "lists, 124 in one another": unused(b"[" * 124 + b"]" * 124 + b","),
    "objects, 124 in one another": unused(b'{"a":' * 124 + b"0" + b"}" * 124 + b","),
    "empty lists": unused(b"[],"),
    "empty objects": unused(b"{},"),
    "objects of one name": unused(b'{"a":0},'),
    "bare numbers": unused(b"1,"),
    "empty texts": unused(b'"",'),
    "one long text": unused(b"x", b'"', b'"'),
    "one long text of escapes": unused(b"\\u0041", b'"', b'"'),
    "one long bare number": unused(b"1", b"", b""),
    "names that aren't used": check(P1, lambda number: b',"n%08d":0' % number, b"}]"),
    "names with a long beginning": check(P1, lambda number: b',"%s%08d":0' % (b"n" * 56, number), b"}]"),
    "names alike to hash functions": check(P1, lambda number: b',"%s":0' % alike(number), b"}]"),
    "one name again and again": check(P1, b',"x":0', b"}]"),
    "contracts without terms": check(b"[", b"{},", b"{}]", 5),
    "stocks, more than there may be": check(b"[", STOCKS[0] + b",", STOCKS[0] + b"]", 5),
    "references of one guarantee to one loan": check(
        P1 + b"}," + covers(b"G", b"P1")[:-2], b',{"object":"P1","referenceType":"CID","referenceRole":"COVE"}',
        b"]}]"),
    "guarantees in 15 layers": contracts(in_layers),
    "guarantees in 15 layers over a cycle": contracts(over_a_cycle, 5),
    "rates": script(rate(b"EUR12MONTHS")),
    "rates, bare": script(rate(b"EUR12MONTHS", b"0.5")),
    "rates, names in another order": script(b'{"rate":{"value":"1","code":"EUR12MONTHS","date":"2020-06-01"}}\n'),
    "rates, codes alike to hash functions": script(lambda number: rate(alike(number))),
    "rates, days that go back": script(lambda number: rate(
        b"EUR12MONTHS", day=b"%d-%02d-%02d" % (2299 - number // 336 % 400, 12 - number // 28 % 12, 28 - number % 28))),
    "prepayments, and an ask": script(event(b"P1", b"PP", b"1e-9"), tail=ASK),
    "blank lines": script(b"\n"),
    "blanks before an ask, one line": script(b" ", tail=ASK),
    "lists in one line": script(b"[],", b'{"rate":{"code":"C","date":"2020-06-01","value":1,"note":[', b"0]}}\n"),
    "lists without an end in one line": script(b"[", b'{"rate":', status=6),
    "asks of a stock": script(b'{"ask":"S0"}\n', portfolio=b"[" + STOCKS[0] + b"]", most=2097152 * 13),
    "rates and asks of a stock in turn": script(
        rate(b"EUR12MONTHS") + b'{"ask":"S0"}\n', portfolio=b"[" + STOCKS[0] + b"]"),
    "rates, an ask of 4,096 stocks behind each 1,025": script(
        rate(b"EUR12MONTHS") * 1025 + ASK, portfolio=b"[" + b",".join(STOCKS) + b"]"),
    "rates, 16 scripts at once": script(rate(b"EUR12MONTHS"), command="desk", most=MOST // 16),
    "4,096 loans of 4,096 events": contracts(lambda part: map(long_loan, NAMES[:int(4096 * part)])),
    "4,094 swaps of two loans of 4,096 events": contracts(swaps(4094)),
    "255 swaps of two loans of 4,096 events": contracts(swaps(255), 0, asked),
    "chains of 16, each loan defaults": contracts(chains, 0, lambda part: [
        *(event(b"C%d-0" % chain, b"CE", b'"DF"') for chain in range(int(256 * part))), ASK]),
    "a guarantee of 2,047 loans, and 2,047 of that": contracts(of_thousands),
    "guarantees of 2,040 stocks by 14 ways": contracts(over_chains),
    "a guarantee of 2,047 loans, one defaults": contracts(
        of_thousands, 0, lambda part: [event(b"L0", b"CE", b'"DF"'), b'{"ask":"G"}\n']),
}


def write(path, pieces):
    with open(path, "wb") as out:
        for piece in pieces:
            out.write(piece)
    return os.path.getsize(path)


def run(program, words, folder):
    """The status, the processor time in seconds and the greatest memory in bytes of a program."""
    with open(os.devnull, "wb") as nowhere:
        child = subprocess.Popen([program, *words], cwd=folder, stdout=nowhere, stderr=nowhere)
        _, status, usage = os.wait4(child.pid, 0)
    child.returncode = os.waitstatus_to_exitcode(status)
    return child.returncode, usage.ru_utime + usage.ru_stime, usage.ru_maxrss * 1024


def measure(title, programs, rounds, folder):
    command, wanted, make = SHAPES[title]
    words = {"check": ["check", "p"], "eval": ["eval", "p", "s"], "desk": ["desk", "4", "p"] + ["s"] * 16}[command]
    print(f"{title} ({command})")
    before = {}
    for part in (0.25, 0.5, 1):
        portfolio, lines = make(part)
        size = write(os.path.join(folder, "p"), portfolio) + write(os.path.join(folder, "s"), lines) * words.count("s")
        row = f"{size / 2**20:10.2f}"
        for program in programs:
            runs = [run(program, words, folder) for _ in range(rounds)]
            status, seconds, memory = runs[0][0], min(run[1] for run in runs), max(run[2] for run in runs)
            row += f" {status:4}{'!' if status != wanted else ' '} {seconds:7.2f} {memory / 2**20:7.0f}"
            row += f" {memory / size:8.1f}{'!' if memory > max(80 * size, 32 << 20) else ' '}"
            if program in before:
                grown = seconds / max(before[program][0], 0.01)
                row += f"{grown:6.1f}{'!' if grown >= 3 and seconds >= 1 else ' '}{memory / before[program][1]:5.1f}"
            else:
                row += " " * 12
            before[program] = seconds, memory
        print(row.rstrip(), flush=True)


def main():
    parser = argparse.ArgumentParser(usage=__doc__)
    parser.add_argument("program")
    parser.add_argument("names", nargs="*")
    parser.add_argument("--peer")
    parser.add_argument("--rounds", type=int, default=1)
    words = parser.parse_args()
    programs = [os.path.abspath(program) for program in (words.program, words.peer) if program]
    print(f"{'MiB':>10}" + f" {'status':>5} {'seconds':>7} {'MiB':>7} {'of a byte':>9} {'growth':>10}" * len(programs))
    with tempfile.TemporaryDirectory() as folder:
        for title in SHAPES:
            if not words.names or any(name in title for name in words.names):
                measure(title, programs, words.rounds, folder)


if __name__ == "__main__":
    main()
