#!/usr/bin/env python3
"""Makes random desks, stops threads of them at random moments, and says whether each ends and each text is right.

    random_desks.py ACTUS ACTUS_AUDIT [--count 2000] [--seed 1] [--first 0] [-j 1] [--limit 60]

ACTUS and ACTUS_AUDIT are the paths of the built programs. A desk is a portfolio of 1 to 40 contracts, made of those of
examples and of crates/cases/data/desks with swaps and guarantees over them, 1 to 16 scripts (empty ones, entries alone,
entries and asks in turn, runs of more than 256 entries, more than 256 asks, corrections), and 1 to 64 workers, on one
processor or on all that there are. Its files are drawn by the seed and its number alone. While it runs, some of its
threads are stopped for some milliseconds by ptrace, or the whole process by SIGSTOP; which threads, and when, differs
from run to run. J desks run at a time.

A desk fails where it hasn't ended after LIMIT seconds, those in which something was stopped not counted, where its
status is neither 0 nor 8 or doesn't fit its text, and where ACTUS_AUDIT doesn't say that the text is right with the
scripts. A desk that fails is told at once, with the folder that keeps its files, its words and, where it hasn't ended,
what each thread waits for. The last line says how many desks, steps, asks and stops there were. Status 1: one failed.
It is no part of the gate.
"""

import argparse
import collections
import ctypes
import datetime
import json
import multiprocessing
import os
import pathlib
import random
import re
import shutil
import signal
import subprocess
import sys
import tempfile
import time

TOP = pathlib.Path(__file__).resolve().parents[2]
MOST_EVENTS = 12
LOANS = ("PAM", "LAM", "NAM", "ANN")
SEIZE, INTERRUPT, DETACH, ANY_THREAD = 0x4206, 0x4207, 17, 0x40000000
WITH_US = (1, signal.SIGKILL)  # a desk is killed where who started it ends
WAITS = ("202", "219")  # the calls by which a thread waits by address, and goes on with that once it was stopped

Desk = collections.namedtuple("Desk", "portfolio scripts workers processors stops")
Ended = collections.namedtuple("Ended", "number fault steps asks threads processes")


def contracts_in(value):
    """The contracts in a portfolio, those that stand in others too."""
    for inner in value if isinstance(value, list) else value.values() if isinstance(value, dict) else ():
        yield from contracts_in(inner)
    if isinstance(value, dict) and "contractType" in value:
        yield value


def pieces():
    """Portfolios as texts, each with the entries of its scripts as texts."""
    found = [(path, [path.with_suffix(".txt")]) for path in sorted((TOP / "examples").glob("*.json"))]
    desks = TOP / "crates/cases/data/desks"
    found += [(path, sorted(path.parent.glob("s*.txt"))) for path in sorted(desks.glob("*/p.json"))]
    found += [(desks / "linked.json", [desks / "resets/s1.txt"])]
    for path, scripts in found:
        lines = [line for script in scripts if script.exists() for line in script.read_text().splitlines()]
        yield path.read_text(), [line for line in lines if line.strip() and "ask" not in json.loads(line)]


PIECES = list(pieces())


def drawn_portfolio(draw):
    """A list of contracts, and the entries that fit them."""
    most = draw.choice([1, 2, 4, 8, 16, 40])
    listed, entries = [], []
    while not listed or (len(list(contracts_in(listed))) < most and draw.random() < 0.97):
        text, lines = draw.choice(PIECES)
        names = {contract["contractID"] for contract in contracts_in(json.loads(text))}
        if listed and len(list(contracts_in(listed))) + len(names) > most:
            break
        texts, suffix = [text, *lines], f"-{len(listed)}"
        for name in names:
            texts = [one.replace(f'"{name}"', f'"{name}{suffix}"') for one in texts]
        listed += json.loads(texts[0])
        entries += [json.loads(line) for line in texts[1:]]
    for contract in contracts_in(listed):
        if "notionalPrincipal" in contract:
            contract["notionalPrincipal"] = draw.randint(1, 10**6)
        if contract["contractType"] == "ANN" and draw.random() < 0.5:
            contract |= {"contractType": "NAM", "nextPrincipalRedemptionPayment": draw.randint(1, 10**4)}
    while len(list(contracts_in(listed))) < most and draw.random() < 0.6:
        listed.append(drawn_parent(draw, listed))
    draw.shuffle(listed)
    return listed, entries


def drawn_parent(draw, listed):
    """A swap of two loans, or a guarantee of some contracts, guarantees among them."""
    named = [contract["contractID"] for contract in contracts_in(listed)]
    loans = [contract["contractID"] for contract in contracts_in(listed) if contract["contractType"] in LOANS]
    common = {"contractID": f"N{len(named)}", "statusDate": "2019-12-31", "currency": "EUR", "contractRole": "RFL"}
    if len(loans) > 1 and draw.random() < 0.5:
        references, more = zip(draw.sample(loans, 2), ["FIL", "SEL"]), {"contractType": "SWAPS"}
    else:
        covered = draw.sample(named[-12:], draw.randint(1, min(6, len(named[-12:]))))
        references, more = [(name, "COVE") for name in covered], {"contractType": "CEG", "guaranteedExposure": "NI"}
    return common | more | {"contractStructure": [
        {"object": name, "referenceType": "CID", "referenceRole": role} for name, role in references]}


class Scripts:
    """Draws scripts over a portfolio. All of them together have a few event lines, since these weigh, and ask for no
    more evaluations than are given."""

    def __init__(self, draw, listed, entries, evaluations):
        self.draw, self.evaluations, self.events = draw, evaluations, MOST_EVENTS
        self.names = [contract["contractID"] for contract in contracts_in(listed)]
        self.rates = [entry for entry in entries if "rate" in entry]
        self.rates += [{"rate": {"code": "OTHER", "date": "2020-06-01", "value": 1}}]
        self.happened = [entry for entry in entries if "event" in entry]
        self.given = []

    def entry(self):
        """An entry of the portfolio's pieces on another day and of another value, or an earlier one corrected."""
        draw = self.draw
        if self.given and draw.random() < 0.2:
            code, day, value = draw.choice(self.given)
        elif self.happened and self.events > 0 and draw.random() < 0.05:
            self.events -= 1
            event = draw.choice(self.happened)["event"]
            return json.dumps({"event": event | {"date": self.day(event)}})
        else:
            rate = draw.choice(self.rates)["rate"]
            code, day, value = rate["code"], self.day(rate), float(rate["value"])
            self.given.append((code, day, value))
        return f'{{"rate":{{"code":"{code}","date":"{day}","value":{value * draw.uniform(0.5, 1.5):.6f}}}}}'

    def day(self, of):
        return str(datetime.date.fromisoformat(of["date"]) + datetime.timedelta(self.draw.randint(-500, 300)))

    def entries(self, count):
        return [self.entry() for _ in range(count)]

    def asks(self, count, share_of_all=0.1):
        """Asks of one contract, or of all, as many as may be."""
        lines = []
        for _ in range(count):
            is_of_all = self.draw.random() < share_of_all
            self.evaluations -= len(self.names) if is_of_all else 1
            if self.evaluations >= 0:
                lines.append(f'{{"ask":"{"*" if is_of_all else self.draw.choice(self.names)}"}}')
        return lines

    def script(self):
        draw, few = self.draw, self.draw.randint(1, 60)
        lines = draw.choice([
            lambda: [], lambda: ["", " \t"], lambda: self.entries(few), lambda: self.asks(few),
            lambda: [line for _ in range(few) for line in self.entries(1) + self.asks(1)],
            lambda: [line for _ in range(few) for line in draw.choice([self.entries, self.asks])(draw.randint(1, 4))],
            lambda: self.entries(draw.randint(257, 1200)) + self.asks(1, 1),
            lambda: self.asks(2) + self.entries(draw.choice([255, 256, 257, 511, 512, 513])) + self.asks(2),
            lambda: self.asks(draw.randint(257, 400), 0),
            lambda: [line for _ in range(300) for line in self.asks(1, 0) + self.entries(draw.randint(0, 1))],
        ])()
        return "".join(f"{line}\n" for line in lines)


def drawn_desk(seed, number):
    draw = random.Random(f"{seed} {number}")
    listed, entries = drawn_portfolio(draw)
    made = Scripts(draw, listed, entries, draw.choice([100, 1000, 1000, 4000]))
    scripts = [made.script() for _ in range(draw.choice([1, 2, 2, 3, 4, 8, 15, 16]))]
    workers = draw.choice([1, 1, 2, 4, 4, 8, 16, 64, draw.randint(1, 64)])
    return Desk(json.dumps(listed), scripts, workers, draw.choice(["one", "all"]),
                draw.choice(["none", "threads", "threads", "threads", "process", "both"]))


LIBC = ctypes.CDLL(None, use_errno=True)
LIBC.ptrace.argtypes = [ctypes.c_long, ctypes.c_long, ctypes.c_void_p, ctypes.c_void_p]


def ptrace(request, thread):
    return LIBC.ptrace(request, thread, None, None) == 0


class Running:
    """A desk that runs, whose threads can be stopped."""

    def __init__(self, words, folder, processors):
        self.folder = folder

        def begin():
            os.sched_setaffinity(0, processors)
            LIBC.prctl(*WITH_US)

        with open(folder / "text", "wb") as text, open(folder / "errors", "wb") as errors:
            self.process = subprocess.Popen(words, cwd=folder, stdout=text, stderr=errors, stdin=subprocess.DEVNULL,
                                            preexec_fn=begin)
        self.pid = self.process.pid
        self.threads, self.processes = 0, 0

    def status(self):
        """Its status, or None while it runs."""
        return self.process.poll()

    def tasks(self):
        try:
            return [int(name) for name in os.listdir(f"/proc/{self.pid}/task")]
        except OSError:
            return []

    def reap(self, thread):
        """Whether a thread that was seized has stopped (True) or ended (False); None where it does neither yet."""
        try:
            of, how = os.waitpid(thread, ANY_THREAD | os.WNOHANG)
        except ChildProcessError:
            return False
        if of == 0:
            return None
        if not os.WIFSTOPPED(how) and thread == self.pid:
            self.process.returncode = os.waitstatus_to_exitcode(how)
        return os.WIFSTOPPED(how)

    def settle(self, threads):
        """Waits until each of these threads has stopped or ended, and answers those that have stopped. They are looked
        at in turn: the first thread of a process that ends is told of after all others."""
        stopped, rest = [], list(threads)
        while rest:
            how = {thread: self.reap(thread) for thread in rest}
            stopped += [thread for thread in rest if how[thread]]
            rest = [thread for thread in rest if how[thread] is None]
            if rest:
                time.sleep(0.00005)
        return stopped

    def stop_threads(self, draw):
        """Stops some threads for some milliseconds, and lets the others run."""
        tasks = self.tasks()
        chosen = draw.sample(tasks, min(len(tasks), draw.choice([1, 1, 1, 2, 3, len(tasks) // 2 + 1])))
        seized = [thread for thread in chosen if ptrace(SEIZE, thread)]
        stopped = self.settle([thread for thread in seized if ptrace(INTERRUPT, thread) or True])
        self.threads += len(stopped)
        time.sleep(draw.choice([0.0003, 0.001, 0.002, 0.005, 0.015]))
        draw.shuffle(stopped)
        self.settle([thread for thread in stopped if not ptrace(DETACH, thread)])

    def stop_process(self, draw):
        self.process.send_signal(signal.SIGSTOP)
        time.sleep(draw.choice([0.0003, 0.001, 0.005]))
        self.process.send_signal(signal.SIGCONT)
        self.processes += 1

    def run(self, draw, stops, limit):
        """Its status, or None where it doesn't end."""
        begin, stopped, most = time.monotonic(), 0.0, draw.choice([0.02, 0.1, 0.3])
        choices = {"none": [], "threads": [self.stop_threads], "process": [self.stop_process],
                   "both": [self.stop_threads, self.stop_process]}[stops]
        while self.status() is None:
            before = time.monotonic()
            if before - begin - stopped > limit:
                return None
            if choices and stopped < most:
                time.sleep(draw.choice([0, 0, 0.0002, 0.001, 0.003]))
                before = time.monotonic()
                draw.choice(choices)(draw)
                stopped += time.monotonic() - before
            else:
                time.sleep(min(0.1, 0.002 + (before - begin) / 20))
        return self.status()

    def states(self):
        """What is known of each thread: where it sleeps, and of one that waits by address the words there and what of
        its stack may be addresses of the program, as offsets."""
        maps = pathlib.Path(f"/proc/{self.pid}/maps").read_text()
        program = os.readlink(f"/proc/{self.pid}/exe")
        spans = [re.split("[- ]", line)[:2] for line in maps.splitlines() if line.endswith(program)]
        base, end = int(spans[0][0], 16), int(spans[-1][1], 16)
        told = [f"program {program} at {base:x}"]
        with open(f"/proc/{self.pid}/mem", "rb", buffering=0) as memory:
            def words(at, count):
                memory.seek(at)
                return [int.from_bytes(memory.read(8), sys.byteorder) for _ in range(count)]

            for task in self.tasks():
                looks = {}
                for name in ("wchan", "syscall", "stat"):
                    try:
                        looks[name] = pathlib.Path(f"/proc/{self.pid}/task/{task}/{name}").read_text().strip()
                    except OSError as error:
                        looks[name] = str(error)
                told.append(f"thread {task}: {looks}")
                call = looks["syscall"].split()
                try:
                    if call[0] in WAITS:
                        told.append("  at the address: " + " ".join(f"{word:x}" for word in words(int(call[1], 16), 2)))
                        stack = [word - base for word in words(int(call[-2], 16), 200) if base <= word < end]
                        told.append("  stack: " + " ".join(f"{word:x}" for word in stack))
                except (OSError, ValueError) as error:
                    told.append(f"  {error}")
        return "\n".join(told) + "\n"

    def end(self):
        self.process.kill()
        self.process.wait()


def fault_of(folder, names, options, running, status):
    """What is wrong with a desk that has ended so, or None."""
    if status is None:
        try:
            (folder / "threads").write_text(running.states())
        except (OSError, IndexError, ValueError) as error:
            (folder / "threads").write_text(f"nothing is known of them: {error}\n")
        running.end()
        return f"no end after {options.limit} seconds"
    text = (folder / "text").read_bytes()
    stops = re.search(rb"^(missing|overflow) ", text, re.MULTILINE) is not None
    if status != (8 if stops else 0):
        return f"status {status}"
    told = subprocess.run([options.audit, "p", "text", *names], cwd=folder, capture_output=True, check=False)
    return None if told.returncode == 0 else f"the audit says {told.stdout[:200]!r}, status {told.returncode}"


def tried(number):
    """Runs the desk of a number."""
    options, desk = OPTIONS, drawn_desk(OPTIONS.seed, number)
    folder = pathlib.Path(tempfile.mkdtemp(prefix=f"desk-{options.seed}-{number}-"))
    names = [f"s{place}" for place in range(1, len(desk.scripts) + 1)]
    for name, text in zip(["p", *names], [desk.portfolio, *desk.scripts]):
        (folder / name).write_text(text)
    words, draw = [options.program, "desk", str(desk.workers), "p", *names], random.Random()
    may = sorted(os.sched_getaffinity(0))
    processors = may if desk.processors == "all" else [draw.choice(may)]
    running = Running(words, folder, processors)
    try:
        status = running.run(draw, desk.stops, options.limit)
        fault = fault_of(folder, names, options, running, status)
    finally:
        running.end()
    head = re.match(rb"journal (\d+)\n", (folder / "text").read_bytes())
    asks = sum(script.count('{"ask"') for script in desk.scripts)
    if fault:
        (folder / "words").write_text(f"{' '.join(words)}\nprocessors {processors}, {desk.stops} stopped: "
                                      f"{running.threads} threads, {running.processes} times all\n{fault}\n")
        fault += f"; {folder}"
    else:
        shutil.rmtree(folder)
    return Ended(number, fault, int(head[1]) if head else 0, asks, running.threads, running.processes)


def main(arguments):
    parser = argparse.ArgumentParser(description=__doc__, formatter_class=argparse.RawDescriptionHelpFormatter)
    parser.add_argument("program", metavar="ACTUS", type=os.path.abspath)
    parser.add_argument("audit", metavar="ACTUS_AUDIT", type=os.path.abspath)
    parser.add_argument("--count", type=int, default=2000)
    parser.add_argument("--seed", default="1")
    parser.add_argument("--first", type=int, default=0)
    parser.add_argument("-j", dest="jobs", type=int, default=1)
    parser.add_argument("--limit", type=float, default=60)
    global OPTIONS
    OPTIONS = parser.parse_args(arguments)
    begin, ends = time.monotonic(), []
    with multiprocessing.get_context("fork").Pool(OPTIONS.jobs) as pool:
        for end in pool.imap_unordered(tried, range(OPTIONS.first, OPTIONS.first + OPTIONS.count)):
            ends.append(end)
            if end.fault:
                print(f"desk {end.number}: {end.fault}", flush=True)
    failed = sum(end.fault is not None for end in ends)
    steps, asks, threads, processes = (sum(getattr(end, name) for end in ends) for name in Ended._fields[2:])
    print(f"{len(ends)} desks, {steps} steps, {asks} of them asks; {threads} times a thread stopped, {processes} times "
          f"all threads; {failed} failed; {time.monotonic() - begin:.0f} seconds")
    return 1 if failed else 0


if __name__ == "__main__":
    sys.exit(main(sys.argv[1:]))
