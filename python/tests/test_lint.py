"""What lint finds: places and texts by hand, and its verdict as the program's on the tables of cases."""

import concurrent.futures
import json
import re
import subprocess
import tempfile
import unittest
from pathlib import Path

from helpers import CASES, EXAMPLES, PROGRAM, command, needs_program
from tables import Case, cases

from actus.lint import lint

LOAN = ('[{"contractID": "L", "contractType": "PAM", "contractRole": "RPA", "statusDate": "2019-12-31",\n'
        '  "currency": "EUR", "initialExchangeDate": "2020-01-01", "maturityDate": "2021-01-01",\n'
        '  "notionalPrincipal": 1000, "nominalInterestRate": 0.05, "cycleOfInterestPayment": "P1YL1"}]\n')
MOST = 2_000_000


def found(portfolio: str, *scripts: str) -> list[tuple[int, int, str, str]]:
    """Line, column, level and term or text of each finding."""
    report = lint(portfolio.encode(), [script.encode() for script in scripts])
    return [(each.line, each.column, each.level, each.term or each.found) for each in report.findings]


class Findings(unittest.TestCase):
    def test_nothing_is_found_in_examples(self):
        for path in EXAMPLES.glob("*.json"):
            script = path.with_suffix(".txt")
            report = lint(path.read_bytes(), [script.read_bytes()] if script.exists() else [])
            self.assertTrue(report.is_accepted)
            self.assertEqual([each for each in report.findings if each.term != "counterpartyID"], [], path.name)

    def test_all_faults_at_once_with_their_places(self):
        text = LOAN.replace('"EUR"', '"EUR "').replace('"2021-01-01"', '"1.1.21"').replace("1000", '"1,000"') \
            .replace("P1YL1", "1Y").replace('"RPA"', '"rpa"')
        lines = text.splitlines()
        places = [(number, lines[number - 1].index(stands) + 1) for number, stands in
                  [(1, '"rpa"'), (2, '"EUR "'), (2, '"1.1.21"'), (3, '"1,000"'), (3, '"1Y"')]]
        terms = ["contractRole", "currency", "maturityDate", "notionalPrincipal", "cycleOfInterestPayment"]
        self.assertEqual(found(text), [(*place, "refused", term) for place, term in zip(places, terms)])
        report = lint(text.encode(), [])
        self.assertEqual((report.status, report.refusal), (5, "portfolio 13 1 contractRole"))
        self.assertIn("contract 'L', notionalPrincipal: \"1,000\"", str(report.findings[3]))

    def test_classes_of_names_that_are_not_used(self):
        text = LOAN.replace('"P1YL1"', '"P1YL1", "creatorID": 1, "fixingPeriod": "P2D", "rateSpred": 0, "optionType": "C"')
        told = [(each.term, each.wanted) for each in lint(text.encode(), []).findings]
        self.assertEqual([term for term, _ in told], ["creatorID", "fixingPeriod", "rateSpred", "optionType"])
        for (_, why), part in zip(told, ["without effect", "changes cash flows", "rateSpread", "no term of a PAM"]):
            self.assertIn(part, why)

    def test_what_is_likely_not_meant(self):
        for old, new, term in [("0.05", "5", "nominalInterestRate"), ("0.05", '0.05, "lifeCap": 3', "lifeCap"),
                               ("2021-01-01", "2080-01-02", "maturityDate"), ("2019-12-31", "2021-01-01", "statusDate"),
                               ("0.05", '0.05, "feeRate": 10, "feeBasis": "A"', "feeRate"),
                               ('"nominalInterestRate": 0.05, ', "", "cycleOfInterestPayment"),
                               ("0.05", '0.05, "priceAtPurchaseDate": 99', "priceAtPurchaseDate"),
                               ("0.05", '0.05, "lifeCap": 0.01, "lifeFloor": 0.02', "lifeFloor"),
                               ("0.05", '0.05, "terminationDate": "2019-01-01"', "terminationDate"),
                               ("0.05", '0.05, "businessDayConvention": "SCF"', "businessDayConvention")]:
            with self.subTest(new=new):
                self.assertEqual([(level, what) for *_, level, what in found(LOAN.replace(old, new))],
                                 [("unlikely", term)])
        self.assertEqual(found(LOAN.replace("2021-01-01", "2079-01-02")), [])

    def test_covered_twice(self):
        text = (EXAMPLES / "guarantee.json").read_text()
        one = '{"object": "LOAN-21", "referenceType": "CID", "referenceRole": "COVE"}'
        self.assertEqual([each[2:] for each in found(text.replace(one, f"{one}, {one}"))],
                         [("unlikely", "contractStructure")])

    def test_observations(self):
        loan = LOAN.replace("0.05", '0.05, "cycleOfRateReset": "P6M", "marketObjectCodeOfRateReset": "E"')
        rates = [f'{{"rate":{{"code":"E","date":"2020-0{month}-01","value":{value}}}}}\n'
                 for month, value in [(1, "0.02"), (2, "0.03"), (3, "3"), (4, "0.02")]]
        self.assertEqual(found(loan, "".join(rates) + '{"ask":"*"}'), [(3, 1, "unlikely", "E")])
        self.assertEqual(found(loan, "".join(rates).replace('"E"', '"F"') + '{"ask":"*"}'), [(1, 1, "unlikely", "F")])
        self.assertEqual(found(loan, rates[0].replace("0.02", "2") + '{"ask":"*"}'), [(1, 1, "unlikely", "E")])
        prepaid = '{"event":{"contract":"L","type":"PP","date":"2020-06-01","value":5}}\n'
        self.assertEqual(found(loan, prepaid * 2 + '{"ask":"*"}'), [(2, 1, "unlikely", "PP")])

    def test_scripts(self):
        script = ('{"ask":"M"}\n\n{"rate":{"code":"C","date":"2020-13-01","value":1}}\n{"ask":"L"\n'
                  '{"event":{"contract":"L","type":"DV","date":"2020-06-01","value":1}}\n')
        self.assertEqual(found(LOAN, script)[:4], [
            (1, 8, "refused", '"M"'), (3, 28, "refused", '"2020-13-01"'), (4, 11, "refused", ""),
            (5, 33, "refused", '"DV"')])
        report = lint(LOAN.encode(), [script.encode()])
        self.assertEqual((report.status, report.refusal), (6, "script 2 1 1"))

    def test_the_command(self):
        done = command("lint", EXAMPLES / "fee.json", EXAMPLES / "prepaid.txt")
        self.assertEqual((done.returncode, done.stdout.splitlines()[-1]), (0, f"{EXAMPLES / 'fee.json'}: is accepted; "
                         "0 faults, 1 unused name, 0 likely not meant"))
        self.assertEqual(command("lint", "--strict", EXAMPLES / "fee.json").returncode, 0)
        with tempfile.TemporaryDirectory() as folder:
            path = Path(folder) / "x.json"
            for data, status in [(b"", 5), (b"\xff", 5), (b"[" * 200, 5), (b"{}", 5), (b"[]", 0), (b"[1]", 5),
                                 (LOAN.replace("0.05", "5").encode(), 1)]:
                path.write_bytes(data)
                done = command("lint", path, "--form", "jsonl", "--strict")
                self.assertEqual((done.returncode, done.stderr), (status, ""))
                for line in done.stdout.splitlines():
                    self.assertIn("level", json.loads(line))
        self.assertEqual((command("lint", "nofile").returncode, command("lint").returncode), (3, 2))


def refusal_by_program(case: Case) -> str:
    """The line of the program's refusal, or nothing."""
    with tempfile.TemporaryDirectory() as folder:
        files = []
        for place, data in enumerate([case.portfolio, *case.scripts]):
            files.append(f"{folder}/{place}")
            Path(files[-1]).write_bytes(data)
        done = subprocess.run([PROGRAM, "eval" if case.scripts else "check", *files], stdout=subprocess.PIPE,
                              stderr=subprocess.DEVNULL)
    return done.stdout.decode().splitlines()[0] if done.returncode in (5, 6) else ""


class Verdicts(unittest.TestCase):
    """Cases of more than 2 MB are passed over, as too slow for a test."""

    @classmethod
    def setUpClass(cls):
        seen = {}
        for case in cases():
            if len(case.portfolio) + sum(map(len, case.scripts)) <= MOST:
                seen.setdefault((case.portfolio, *case.scripts), case)
        cls.cases = list(seen.values())

    def test_refusals_of_the_tables(self):
        tried = [case for case in self.cases if case.wanted]
        self.assertGreater(len(tried), 400)
        for case in tried:
            if "«" not in case.wanted:
                with self.subTest(case=case.name):
                    self.assertEqual(lint(case.portfolio, case.scripts).refusal, case.wanted)

    @needs_program
    def test_the_first_refusal_is_the_programs(self):
        self.assertGreater(len(self.cases), 1000)
        with concurrent.futures.ThreadPoolExecutor(4) as pool:
            for case, wanted in zip(self.cases, pool.map(refusal_by_program, self.cases)):
                with self.subTest(case=case.name):
                    self.assertEqual(lint(case.portfolio, case.scripts).refusal, wanted)

    @needs_program
    def test_counts_of_events_are_the_programs(self):
        from actus.portfolio import read_portfolio, scheduled_counts
        for path in sorted(CASES.rglob("*.json")) + sorted(EXAMPLES.glob("*.json")):
            portfolio = read_portfolio(path.read_bytes())
            if not portfolio.faults and len(portfolio.contracts) < 500:
                done = subprocess.run([PROGRAM, "check", path], capture_output=True, text=True)
                counts = scheduled_counts(portfolio)
                self.assertEqual(re.findall("^contract (.*)", done.stdout, re.M),
                                 [f"{each.name} {each.kind} {counts[each.place]}" for each in portfolio.contracts])


if __name__ == "__main__":
    unittest.main()
