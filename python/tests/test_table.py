"""Tables of texts. Values by hand, from the files of examples/."""

import json
import sqlite3
import tempfile
import unittest
from pathlib import Path

from helpers import EXAMPLES, command, needs_program

from actus.ladder import amount, units

FLOATING = """caller,ask,version,contract,day,type,currency,payoff,notional,rate,accrued
1,1,0,FLOAT-3Y,2020-03-02,IED,EUR,-250000.000000000,250000.000000000,0.020000000,0.000000000
1,1,0,FLOAT-3Y,2020-06-02,IP,EUR,1277.777777778,250000.000000000,0.020000000,0.000000000
1,1,0,FLOAT-3Y,2020-09-02,IP,EUR,1277.777777778,250000.000000000,0.020000000,0.000000000
1,1,0,FLOAT-3Y,2020-12-02,IP,EUR,1263.888888889,250000.000000000,0.020000000,0.000000000
1,1,0,FLOAT-3Y,2021-03-02,IP,EUR,1250.000000000,250000.000000000,0.020000000,0.000000000
1,1,0,FLOAT-3Y,2021-03-02,missing EURIBOR12M,,,,,
"""


class Csv(unittest.TestCase):
    def test_rows_and_a_stop(self):
        done = command("table", EXAMPLES / "floating.out")
        self.assertEqual((done.returncode, done.stdout), (8, FLOATING))
        self.assertIn("a block stops", done.stderr)

    def test_standard_input_and_a_file(self):
        with tempfile.TemporaryDirectory() as folder:
            goal = Path(folder) / "rows.csv"
            done = command("table", "-o", goal, data=(EXAMPLES / "floating.out").read_bytes())
            self.assertEqual((done.returncode, done.stdout, goal.read_text()), (8, "", FLOATING))
            self.assertEqual([path.name for path in Path(folder).iterdir()], ["rows.csv"])

    def test_decimal_comma(self):
        done = command("table", EXAMPLES / "p1.out", "--decimal-comma")
        self.assertEqual(done.returncode, 0)
        self.assertEqual(done.stdout.splitlines()[2],
                         "1;1;0;P1;2021-01-01;IP;EUR;50,000000000;1000,000000000;0,050000000;0,000000000")
        done = command("table", EXAMPLES / "p1.out", "--separator", "\\t")
        self.assertEqual(done.stdout.splitlines()[1].split("\t")[3:7], ["P1", "2020-01-01", "IED", "EUR"])
        done = command("table", EXAMPLES / "p1.out", "--decimal-comma", "--separator", ",")
        self.assertEqual((done.returncode, done.stderr.count("\n")), (2, 1))

    def test_a_name_with_the_separator_has_quotes(self):
        text = (EXAMPLES / "p1.out").read_bytes().replace(b"contract P1", b'contract A,"B')
        done = command("table", data=text)
        self.assertEqual(done.stdout.splitlines()[2],
                         '1,1,0,"A,""B",2021-01-01,IP,EUR,50.000000000,1000.000000000,0.050000000,0.000000000')


class OtherForms(unittest.TestCase):
    def test_json_lines(self):
        done = command("table", EXAMPLES / "floating.out", "--form", "jsonl")
        lines = [json.loads(line) for line in done.stdout.splitlines()]
        self.assertEqual(lines[0], {"caller": 1, "ask": 1, "version": 0, "contract": "FLOAT-3Y", "day": "2020-03-02",
                                    "type": "IED", "currency": "EUR", "payoff": "-250000.000000000",
                                    "notional": "250000.000000000", "rate": "0.020000000", "accrued": "0.000000000"})
        self.assertEqual(lines[-1], {"caller": 1, "ask": 1, "version": 0, "contract": "FLOAT-3Y", "day": "2021-03-02",
                                     "stop": "missing", "about": "EURIBOR12M"})

    def test_a_database(self):
        with tempfile.TemporaryDirectory() as folder:
            goal = Path(folder) / "rows.sqlite"
            done = command("table", EXAMPLES / "guarantee.out", "-o", goal)
            self.assertEqual((done.returncode, done.stderr), (0, ""))
            link = sqlite3.connect(goal)
            self.assertEqual(link.execute("SELECT caller, ask, version FROM asks").fetchall(),
                             [(1, 1, 0), (1, 2, 1), (1, 3, 1)])
            self.assertEqual(link.execute("SELECT contract, stop FROM contracts").fetchall(),
                             [("GUARANTEE-21", None), ("GUARANTEE-21", None), ("LOAN-21", None)])
            self.assertEqual(link.execute("SELECT ask, day, payoff, payoff_number FROM flows WHERE type = 'STD'")
                             .fetchall(), [(2, "2025-08-15", "41200.000000000", 41200.0)])
            self.assertEqual(link.execute("SELECT count(*) FROM rows").fetchone(), (9,))
            link.close()
        done = command("table", EXAMPLES / "p1.out", "--form", "sqlite")
        self.assertEqual(done.returncode, 2)


class Ladders(unittest.TestCase):
    def test_by_year(self):
        done = command("table", EXAMPLES / "floating-script.out", "--ladder", "year")
        # of the first answer in 2021: 1250 + 172.5 + 172.5 + 170.625
        self.assertEqual(done.stdout.splitlines()[:3], [
            "caller,ask,version,period,currency,in,out,net,rows",
            "1,1,2,2020,EUR,3819.444444445,250000.000000000,-246180.555555555,4",
            "1,1,2,2021,EUR,1765.625000000,0.000000000,1765.625000000,5"])

    def test_by_month_and_comma(self):
        done = command("table", EXAMPLES / "p1.out", "--ladder", "month", "--decimal-comma")
        self.assertEqual(done.stdout.splitlines()[1:], [
            "1;1;0;2020-01;EUR;0,000000000;1000,000000000;-1000,000000000;1",
            "1;1;0;2021-01;EUR;1050,000000000;0,000000000;1050,000000000;2"])

    def test_units(self):
        for text, number in [("0.000000001", 1), ("-0.000000001", -1), ("-12.500000000", -12_500_000_000)]:
            self.assertEqual((units(text), amount(number)), (number, text))


class BadInput(unittest.TestCase):
    def test_one_line_that_tells_what_to_mend(self):
        cases = [((), b"", 1), (("nofile.out",), None, 3), (("/",), None, 3),
                 (("--separator", ""), b"", 2), (("--separator", "ab"), b"", 2), (("--form", "xls"), b"", 2),
                 (("--ladder", "week"), b"", 2), ((), b"\xff\xfe\x00", 1), (("-o", "/nowhere/x.csv"), b"journal 0\nanswers 0\n", 7),
                 ((), b"portfolio 10 0 -\n", 1)]
        for words, data, status in cases:
            with self.subTest(words=words, data=data):
                done = command("table", *words, data=data)
                self.assertEqual((done.returncode, done.stdout), (status, ""))
                self.assertTrue(done.stderr.startswith("actus: ") and done.stderr.count("\n") == 1, done.stderr)

    @needs_program
    def test_what_is_refused_is_told_as_the_program_does(self):
        done = command("table", "--run", EXAMPLES / "p1.json")
        self.assertEqual((done.returncode, len(done.stdout.splitlines())), (0, 4))
        done = command("table", "--run", EXAMPLES / "p1.json", EXAMPLES / "cap.txt", "--form", "jsonl")
        self.assertEqual((done.returncode, len(done.stdout.splitlines())), (0, 3))
        done = command("table", "--run", EXAMPLES / "p1.out")
        self.assertEqual((done.returncode, done.stdout), (5, ""))
        self.assertIn("portfolio 10", done.stderr)


if __name__ == "__main__":
    unittest.main()
