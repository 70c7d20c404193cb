"""Parts: split, run and gathered they are one run. The rows that are wanted are the program's own of the whole, read by
plain code here."""

import contextlib
import json
import os
import random
import shutil
import signal
import subprocess
import sys
import tempfile
import time
import unittest
from pathlib import Path

from helpers import AUDIT, EXAMPLES, PROGRAM, TOP, command, needs_audit, needs_program

from actus.errors import ToolError
from actus.index import index_of
from actus.split import Limits, ranges_of, split
from actus.stream import Contracts


def loan(name: str, **more) -> dict:
    return {"contractID": name, "contractType": "PAM", "contractRole": "RPA", "statusDate": "2019-12-31",
            "currency": "EUR", "initialExchangeDate": "2020-01-01", "maturityDate": "2022-01-01",
            "notionalPrincipal": 1000, "nominalInterestRate": 0.05, "dayCountConvention": "30E360",
            "cycleOfInterestPayment": "P6ML1"} | more


def reference(aim, role: str, kind: str = "CID") -> dict:
    return {"object": aim, "referenceType": kind, "referenceRole": role}


def bank(seed: int, size: int) -> tuple[list[dict], list[dict]]:
    """A portfolio in which some contracts refer to others, far apart, and a script with several asks."""
    draw = random.Random(seed)
    contracts = []
    for number in range(size):
        code = draw.choice(["EUR6M", "EUR12M", "USD12M"])
        contracts.append(draw.choice([
            loan(f"L{number}"), loan(f"L{number}", currency="USD", settlementCurrency="EUR"),
            loan(f"L{number}", cycleOfRateReset="P1Y", marketObjectCodeOfRateReset=code),
            loan(f"L{number}", contractType="LAM", cycleOfPrincipalRedemption="P3M"),
            {"contractID": f"L{number}", "contractType": "STK", "contractRole": "LG", "statusDate": "2019-12-31",
             "currency": "EUR"}]))
    loans = [each["contractID"] for each in contracts if each["contractType"] != "STK"]
    common = {"contractRole": "BUY", "statusDate": "2019-12-31", "currency": "EUR"}
    for number in range(size // 5):
        one, two = draw.sample(loans, 2)
        contracts.append(common | {"contractID": f"X{number}"} | draw.choice([
            {"contractType": "CEG", "contractStructure": [reference(one, "COVE"), reference(two, "COVE")]},
            {"contractType": "CAPFL", "lifeCap": 0.01, "contractStructure": [reference(one, "UDL")]},
            {"contractType": "SWAPS", "contractStructure": [reference(loan(f"Y{number}"), "FIL", "CNT"),
                                                            reference(two, "SEL")]}]))
    draw.shuffle(contracts)
    stocks = [each["contractID"] for each in contracts if each["contractType"] == "STK"] or [None]
    lines = []
    for month in range(1, 13):
        for code in ("EUR6M", "EUR12M", "USD12M", "USD/EUR", "NOBODY"):
            lines.append({"rate": {"code": code, "date": f"2020-{month:02d}-01", "value": round(draw.random() / 20, 4)}})
        lines.append({"event": draw.choice([
            {"contract": draw.choice(loans), "type": "PP", "date": f"2020-{month:02d}-15", "value": 10},
            {"contract": draw.choice(loans), "type": "CE", "date": f"2021-{month:02d}-15", "value": "DF"},
            {"contract": draw.choice(stocks) or loans[0], "type": "DV" if stocks[0] else "PP",
             "date": f"2020-{month:02d}-15", "value": 3}])})
        if month % 3 == 0:
            lines.append({"ask": draw.choice(["*", draw.choice(loans), draw.choice(contracts)["contractID"]])})
    return contracts, [*lines, {"ask": "*"}]


def written(folder: Path, contracts: list[dict], script: list[dict], lines: bool = False) -> tuple[Path, Path]:
    """The files of a portfolio and a script."""
    portfolio, text = folder / "all.json", folder / "all.txt"
    each = [json.dumps(contract) for contract in contracts]
    portfolio.write_text("\n".join(each) + "\n" if lines else "[" + ",\n ".join(each) + "]")
    text.write_text("".join(json.dumps(line) + "\n" for line in script))
    return portfolio, text


def as_table(text: str) -> str:
    """The table of a text of one caller, by plain code."""
    rows, head = ["caller,ask,version,contract,day,type,currency,payoff,notional,rate,accrued"], ""
    for line in text.splitlines():
        words = line.split(" ")
        if words[0] == "answer":
            head = ",".join(words[1:])
        elif words[0] == "contract":
            contract = words[1]
        elif words[0] == "missing":
            rows.append(f"{head},{contract},{words[2]},missing {words[1]},,,,,")
        elif words[0] == "overflow":
            rows.append(f"{head},{contract},{words[1]},overflow {words[2]},,,,,")
        elif line[:1].isdigit() and line[4:5] == "-":
            rows.append(f"{head},{contract},{','.join(words)}")
    return "\n".join(rows) + "\n"


class Folder(unittest.TestCase):
    def setUp(self):
        held = tempfile.TemporaryDirectory()
        self.addCleanup(held.cleanup)
        self.folder = Path(held.name)
        self.parts = str(self.folder / "parts")


class Splitting(Folder):
    def test_bytes_are_copied_unchanged(self):
        odd = ['{"contractID":"A","contractType":"STK","note":"}]{[ \\" é","x":[{"y":{}}]}',
               '{ "contractType" : "STK",\n "contractID" : "B" , "statusDate":2020-01-01 }',
               '{"contractID":"C","contractType":"STK","n":+1}']
        for text in ["[" + ",".join(odd[:2]) + "]", " [\n" + " ,\n".join(odd[:2]) + "\n]\n", "\n".join(odd[:2]) + "\n"]:
            path = self.folder / "x.json"
            path.write_text(text)
            shutil.rmtree(self.parts, ignore_errors=True)
            self.assertEqual(split(str(path), [], self.parts, Limits(contracts=1)), 2)
            self.assertEqual([(Path(self.parts) / f"0000{n}/portfolio.json").read_text() for n in (1, 2)],
                             [f"[{each}]\n" for each in odd[:2]])

    def test_what_refers_to_one_another_stays_together_in_the_order_of_the_file(self):
        contracts = [loan("A"), loan("B"), loan("C"), {"contractID": "G", "contractType": "CEG", "contractStructure": [
            reference("B", "COVE"), reference({"contractIdentifier": "D"}, "COVE")]}, loan("D"), loan("E")]
        portfolio, _ = written(self.folder, contracts, [])
        self.assertEqual(split(str(portfolio), [], self.parts, Limits(contracts=3)), 3)
        names = [[each["contractID"] for each in json.loads((Path(self.parts) / f"0000{n}/portfolio.json").read_text())]
                 for n in (1, 2, 3)]
        self.assertEqual(names, [["A"], ["B", "G", "D"], ["C", "E"]])
        with self.assertRaises(ToolError) as caught:
            split(str(portfolio), [], self.parts + "2", Limits(contracts=2))
        self.assertIn("can't be split: B, G, D: 3 contracts, and 2 may be", caught.exception.message)
        self.assertFalse(Path(self.parts + "2").exists())

    def test_each_part_has_its_own_script(self):
        contracts = [loan("A", cycleOfRateReset="P1Y", marketObjectCodeOfRateReset="X"), loan("B")]
        script = [{"rate": {"code": "X", "date": "2020-01-01", "value": 0.01}}, {"ask": "*"},
                  {"event": {"contract": "B", "type": "PP", "date": "2020-02-01", "value": 1}},
                  {"rate": {"code": "Y", "date": "2020-01-01", "value": 0.01}}, {"ask": "B"}]
        portfolio, text = written(self.folder, contracts, script)
        lines = text.read_text().splitlines(keepends=True)
        split(str(portfolio), [str(text)], self.parts, Limits(contracts=1))
        parts = [Path(self.parts) / name for name in ("00001", "00002")]
        self.assertEqual([(part / "script.txt").read_text() for part in parts],
                         [lines[0] + lines[1], lines[1] + lines[2] + lines[4]])
        self.assertEqual([json.loads((part / "part.json").read_text())["asks"] for part in parts],
                         [[[1, 1]], [[1, 1], [2, 3]]])

    def test_limits_count_events_into_the_weight(self):
        # each loan has IED, four IP and MD, so that it weighs 7; with its two prepayments an ask of B alone weighs
        # 1 + 7 + 2 * 2 = 12, and one of all at most 1 + 3 * 14 + 2 * 2 * 3, as events are counted with some room
        contracts = [loan("A"), loan("B"), loan("C")]
        script = [{"event": {"contract": "B", "type": "PP", "date": "2020-02-01", "value": 1}}] * 2 + [{"ask": "*"}]
        portfolio, text = written(self.folder, contracts, script)
        for weight, parts in [(4_194_304, 1), (55, 1), (12, 3), (11, None)]:
            shutil.rmtree(self.parts, ignore_errors=True)
            if parts is None:
                with self.assertRaises(ToolError):
                    split(str(portfolio), [str(text)], self.parts, Limits(weight=weight))
            else:
                self.assertEqual(split(str(portfolio), [str(text)], self.parts, Limits(weight=weight)), parts)

    def test_a_portfolio_is_read_as_a_stream_in_any_pieces(self):
        contracts, _ = bank(3, 40)
        portfolio, _ = written(self.folder, contracts, [])
        import actus.stream as stream
        with open(portfolio, "rb") as file:
            whole = [(start, end, value["contractID"]) for start, end, value in Contracts(file, "x")]
        self.assertEqual([name for *_, name in whole], [each["contractID"] for each in contracts])
        kept = stream.CHUNK
        try:
            for size in (1, 7, 100, 999):
                stream.CHUNK = size
                with open(portfolio, "rb") as file:
                    self.assertEqual([(start, end, value["contractID"]) for start, end, value in Contracts(file, "x")],
                                     whole)
        finally:
            stream.CHUNK = kept

    def test_regions_come_to_the_same_index(self):
        import actus.index as index
        contracts, _ = bank(5, 400)
        portfolio, _ = written(self.folder, contracts, [])
        one = index_of(str(portfolio), 1)
        kept = index.LEAST_REGION
        try:
            index.LEAST_REGION = 1000
            other = index_of(str(portfolio), 3)
        finally:
            index.LEAST_REGION = kept
        for name in ("starts", "ends", "names", "counts", "weights"):
            self.assertEqual(list(getattr(one, name)), list(getattr(other, name)))
        self.assertEqual([one.codes[n] for n in one.code_sets], [other.codes[n] for n in other.code_sets])
        self.assertEqual(one.units.keys(), other.units.keys())

    def test_plain_contracts_are_filled_as_others(self):
        from actus.split import Filling, components, count_steps, fill_plain, places_of
        draw = random.Random(1)
        contracts = [loan(f"L{n}", maturityDate=f"20{draw.randint(21, 90)}-01-01", cycleOfRateReset="P1Y",
                          marketObjectCodeOfRateReset=draw.choice("ABC")) for n in range(300)]
        portfolio, text = written(self.folder, contracts, [
            {"rate": {"code": code, "date": "2020-01-01", "value": 0.01}} for code in "ABBC"] + [{"ask": "*"}] * 2)
        index, steps = index_of(str(portfolio), 1), count_steps([str(text)])
        for limits in (Limits(), Limits(contracts=7), Limits(weight=3000), Limits(size=5000), Limits(entries=3)):
            filling, parts = Filling(limits, steps), []
            for component in components(index, steps, places_of(index)):
                if full := filling.add(component):
                    parts.append(full)
            self.assertEqual([(list(part.members), part.weight, part.codes) for part in fill_plain(index, steps, limits)],
                             [(list(part.members), part.weight, part.codes) for part in (*parts, filling.part)])

    def test_ranges(self):
        self.assertEqual(ranges_of([0, 1, 2, 5, 7, 8]), [[0, 3], [5, 1], [7, 2]])

    def test_bad_input_is_told_in_one_line(self):
        path, script = self.folder / "x.json", self.folder / "x.txt"
        good = json.dumps([loan("A"), loan("B")])
        cases = [("", "", 5), ("[", "", 5), ("[1]", "", 5), ("[{]", "", 5), ('[{"a":1}]', "", 5), ("x", "", 5),
                 ('[{"contractID":"A"', "", 5), (good + "x", "", 5), (good.replace('"B"', '"A"'), "", 5),
                 ("\ufeff[]", "", 5), (good, "x", 6), (good, '{"ask":"C"}', 6), (good, '{"rate":{"code":"x"}}', 6),
                 (good, '{"event":{"contract":"Q","type":"PP","date":"2020-01-01","value":1}}', 6),
                 ('[{"contractID":"G","contractType":"CEG","contractStructure":[{"object":"Z","referenceType":"CID"}]}]',
                  "", 5), ('[{"a":' + "[" * 100000, "", 5)]
        for text, lines, status in cases:
            path.write_text(text)
            script.write_text(lines)
            with self.subTest(text=text[:40], lines=lines):
                done = command("split", path, script, "-o", self.parts, "-j", "1")
                self.assertEqual((done.returncode, done.stdout, done.stderr.count("\n")), (status, "", 1), done.stderr)
                self.assertFalse(Path(self.parts).exists())
        self.assertEqual(command("split", "nofile", "-o", self.parts).returncode, 3)
        self.assertEqual(command("split", path, "-o", self.parts, "-j", "0").returncode, 2)
        for what in ("run-parts", "gather", "audit-parts"):
            done = command(what, self.folder, "--program", PROGRAM) if what == "run-parts" and PROGRAM else \
                command(what, self.folder)
            self.assertEqual((done.returncode, done.stderr.count("\n")), (3, 1), done.stderr)


@needs_program
class RunningParts(Folder):
    def evaluated(self, portfolio: Path, script: Path | None) -> str:
        done = subprocess.run([PROGRAM, "eval", portfolio, *([script] if script else [])], stdout=subprocess.PIPE,
                              stderr=subprocess.DEVNULL, text=True)
        self.assertIn(done.returncode, (0, 8), done.stdout[:200])
        return as_table(done.stdout)

    def in_parts(self, portfolio: Path, script: Path | None, *words: str) -> str:
        shutil.rmtree(self.parts, ignore_errors=True)
        for given in (["split", portfolio, *([script] if script else []), "-o", self.parts, "-j", "2", *words],
                      ["run-parts", self.parts, "-j", "2"]):
            done = command(*given)
            self.assertEqual(done.returncode, 0, done.stderr)
        done = command("gather", self.parts, "-o", self.folder / "rows.csv")
        self.assertIn(done.returncode, (0, 8), done.stderr)
        return (self.folder / "rows.csv").read_text()

    def test_gathered_rows_are_those_of_one_run(self):
        for seed in range(3):
            contracts, script = bank(seed, 30)
            portfolio, text = written(self.folder, contracts, script)
            wanted = self.evaluated(portfolio, text)
            self.assertEqual(self.in_parts(portfolio, text, "--contracts", "9"), wanted)
            done = command("gather", self.parts)
            self.assertEqual(done.stdout, wanted)

    def test_without_a_script_and_of_json_lines(self):
        contracts = [loan(f"L{n}") for n in range(20)]
        portfolio, _ = written(self.folder, contracts, [])
        wanted = self.evaluated(portfolio, None)
        written(self.folder, contracts, [], True)
        self.assertEqual(self.in_parts(portfolio, None, "--contracts", "6"), wanted)

    def test_a_database_and_sums(self):
        portfolio, text = EXAMPLES / "collateral.json", EXAMPLES / "collateral.txt"
        self.in_parts(portfolio, text)
        import sqlite3
        goal = self.folder / "x.sqlite"
        self.assertEqual(command("gather", self.parts, "-o", goal).returncode, 0)
        link = sqlite3.connect(goal)
        self.assertEqual(link.execute("SELECT ask, version, type, payoff FROM flows WHERE type = 'STD'").fetchall(),
                         [(1, 3, "STD", "14050.000000000"), (2, 4, "STD", "15000.000000000")])
        link.close()
        done = command("gather", self.parts, "--ladder", "year")
        self.assertEqual(done.stdout.splitlines()[1],
                         "1,1,3,2025,EUR,14050.000000000,0.000000000,14050.000000000,2")

    def test_what_is_done_stays_and_what_is_not_is_run(self):
        portfolio, _ = written(self.folder, [loan(f"L{n}") for n in range(6)], [])
        self.in_parts(portfolio, None, "--contracts", "2")
        first, second, third = (Path(self.parts) / f"0000{n}" for n in (1, 2, 3))
        kept = (first / "text").stat().st_mtime_ns
        text = (second / "text").read_bytes()
        (second / "text").write_bytes(text[:100])           # cut off
        (third / "result.json").unlink()                     # never written
        self.assertEqual(command("gather", self.parts).returncode, 1)
        done = command("run-parts", self.parts)
        self.assertEqual((done.returncode, done.stderr.splitlines()), (0, [
            "2 of 3 parts to run, 1 done", "3 of 3 parts done"]))
        self.assertEqual(((second / "text").read_bytes(), (first / "text").stat().st_mtime_ns), (text, kept))
        (second / "text").write_bytes(text.replace(b"1000.000000000", b"1000.000000001"))
        self.assertEqual(command("gather", self.parts).returncode, 1)
        self.assertEqual(command("run-parts", self.parts, "--careful").returncode, 0)
        self.assertEqual(command("gather", self.parts).returncode, 0)

    def test_what_fails_is_told_and_tried_again_on_wish(self):
        portfolio, _ = written(self.folder, [loan("A"), loan("B", maturityDate="2019-01-01"), loan("C")], [])
        split(str(portfolio), [], self.parts, Limits(contracts=1))
        done = command("run-parts", self.parts)
        self.assertEqual(done.returncode, 1)
        self.assertIn("part 2 failed: status 5: ", done.stderr)
        self.assertIn("maturityDate", done.stderr)
        self.assertIn("0 of 3 parts to run, 2 done", command("run-parts", self.parts).stderr)
        self.assertIn("1 of 3 parts to run, 2 done", command("run-parts", self.parts, "--retry").stderr)
        self.assertEqual(command("gather", self.parts).returncode, 1)

    def test_a_stop_is_no_failure(self):
        done = self.in_parts(EXAMPLES / "floating.json", None)
        self.assertIn("missing EURIBOR12M", done)

    def test_a_run_that_is_killed_is_taken_up_again(self):
        portfolio, _ = written(self.folder, [loan(f"L{n}", maturityDate="2090-01-01", cycleOfInterestPayment="P1W")
                                             for n in range(120)], [])
        wanted = self.evaluated(portfolio, None)
        split(str(portfolio), [], self.parts, Limits(contracts=3))
        words = [sys.executable, "-m", "actus", "run-parts", self.parts, "-j", "2", "--program", PROGRAM]
        run = subprocess.Popen(words, env=dict(os.environ, PYTHONPATH=str(TOP / "python")), stderr=subprocess.DEVNULL,
                               start_new_session=True)
        while run.poll() is None and len(list(Path(self.parts).glob("*/result.json"))) < 5:
            time.sleep(0.005)
        with contextlib.suppress(ProcessLookupError):       # where it has ended before
            os.killpg(run.pid, signal.SIGKILL)
        run.wait()
        self.assertEqual(command("run-parts", self.parts).returncode, 0)
        self.assertEqual(command("gather", self.parts).stdout, wanted)

    @unittest.skipUnless(shutil.which("parallel"), "GNU parallel isn't installed")
    def test_gnu_parallel(self):
        portfolio, _ = written(self.folder, [loan(f"L{n}") for n in range(4)], [])
        split(str(portfolio), [], self.parts, Limits(contracts=2))
        done = command("run-parts", self.parts, "--engine", "parallel", "-j", "2")
        self.assertEqual(done.returncode, 0, done.stderr)
        self.assertEqual(command("gather", self.parts).stdout, self.evaluated(portfolio, None))

    @needs_audit
    def test_texts_are_judged(self):
        self.in_parts(EXAMPLES / "collateral.json", EXAMPLES / "collateral.txt")
        done = command("audit-parts", self.parts, "--program", AUDIT)
        self.assertEqual((done.returncode, done.stdout), (0, "1 of 1 parts right\n"))


if __name__ == "__main__":
    unittest.main()
