"""Files of the standard's form: the ones in standard/, whose results were worked out by hand (standard/README.md)."""

import json
import tempfile
import unittest
from pathlib import Path

from helpers import PROGRAM, command, needs_program

from actus.dictionary import KINDS
from actus.standard import compare, read_case, read_cases

FOLDER = Path(__file__).parent / "standard"
TERMS = {"contractType": "PAM", "contractID": "x", "contractRole": "RPA", "statusDate": "2019-12-31T00:00:00",
         "currency": "EUR", "initialExchangeDate": "2020-01-01T00:00", "maturityDate": "2021-01-01",
         "notionalPrincipal": "1000"}


def case(**more):
    return read_case("x", {"terms": TERMS} | more)


class Converting(unittest.TestCase):
    def test_all_kinds_are_there(self):
        kinds = {found.kind for path in FOLDER.glob("*.json") for found in read_cases(path)}
        self.assertLessEqual(set(KINDS), kinds)

    def test_terms(self):
        found = case(terms=TERMS | {"calendar": "NoCalendar", "businessDayConvention": " ", "cycleOfFee": None,
                                    "settlementCurrency": "", "rateSpread": "0.0"})
        self.assertEqual(found.contracts, [{
            "contractType": "PAM", "contractID": "x", "contractRole": "RPA", "statusDate": "2019-12-31",
            "currency": "EUR", "initialExchangeDate": "2020-01-01", "maturityDate": "2021-01-01",
            "notionalPrincipal": "1000", "calendar": "NC", "rateSpread": "0.0"}])
        self.assertEqual((found.faults, found.notes, found.script), ([], [], [{"ask": "x"}]))
        found = case(terms=TERMS | {"calendar": "MondayToFriday"})
        self.assertEqual(found.contracts[0]["calendar"], "MF")

    def test_observations_and_events(self):
        found = case(
            dataObserved={"EURIBOR": {"identifier": "EURIBOR", "data": [
                {"timestamp": "2020-01-01T00:00:00", "value": "0.01"}, {"timestamp": "2020-02-01T00:00", "value": "2"}]}},
            eventsObserved=[{"time": "2020-03-01T00:00:00", "type": "PP", "value": "5", "contractId": "x"},
                            {"time": "2020-04-01T00:00", "type": "CE", "contractId": "x", "contractPerformance": "DQ"},
                            {"time": "2020-05-01", "type": "CE", "states": {"contractPerformance": "PF"}},
                            {"time": "2020-05-01", "type": "RR", "value": "1"}], to="2020-06-01T00:00:00")
        self.assertEqual(found.script_file.decode().splitlines(), [
            '{"rate": {"code": "EURIBOR", "date": "2020-01-01", "value": "0.01"}}',
            '{"rate": {"code": "EURIBOR", "date": "2020-02-01", "value": "2"}}',
            '{"event": {"contract": "x", "type": "PP", "date": "2020-03-01", "value": "5"}}',
            '{"event": {"contract": "x", "type": "CE", "date": "2020-04-01", "value": "DQ"}}', '{"ask": "x"}'])
        self.assertEqual([(note.name, note.group) for note in found.notes],
                         [("CE of 2020-05-01", "none"), ("RR of 2020-05-01", "effect")])
        self.assertEqual(str(found.to), "2020-06-01")

    def test_classes_of_names(self):
        found = case(terms=TERMS | {"fixingPeriod": "P2D", "cyclePointOfInterestPayment": "E", "creatorID": "me",
                                    "nominalInterestrate": "0.05", "optionType": "C"})
        self.assertEqual([(note.name, note.group) for note in found.notes],
                         [("fixingPeriod", "effect"), ("cyclePointOfInterestPayment", "none"), ("creatorID", "none"),
                          ("nominalInterestrate", "unknown"), ("optionType", "other kind")])
        self.assertIn("nominalInterestRate", found.notes[3].why)

    def test_times_of_day_are_no_days(self):
        for name, value in [("maturityDate", "2021-01-01T23:59:59"), ("statusDate", "2019-02-30T00:00:00")]:
            self.assertEqual(len(case(terms=TERMS | {name: value}).faults), 1)

    def test_files_are_written(self):
        with tempfile.TemporaryDirectory() as folder:
            done = command("standard", "convert", FOLDER / "swaps.json", "-o", folder, "--case", "swaps-settled")
            self.assertEqual(done.returncode, 0, done.stderr)
            self.assertEqual(sorted(path.name for path in Path(folder).iterdir()),
                             ["swaps-settled.json", "swaps-settled.txt"])
            (swap,) = json.loads((Path(folder) / "swaps-settled.json").read_text())
            self.assertEqual([each["object"]["contractRole"] for each in swap["contractStructure"]], ["RPA", "RPA"])
            self.assertIn("leg-fixed, contractRole: filled in", done.stdout)


@needs_program
class Comparing(unittest.TestCase):
    def test_results_by_hand_are_equal(self):
        for path in sorted(FOLDER.glob("*.json")):
            if path.name != "others.json":
                for found in read_cases(path):
                    with self.subTest(case=found.name):
                        verdict = compare(found, program=PROGRAM)
                        self.assertEqual((verdict.verdict, verdict.why), ("equal", verdict.why))

    def test_what_differs_and_what_is_not_of_this_profile(self):
        verdicts = {found.name: compare(found, program=PROGRAM) for found in read_cases(FOLDER / "others.json")}
        told = {name: (verdict.verdict, verdict.why) for name, verdict in verdicts.items()}
        self.assertEqual(told["wrong-payoff"], ("differs", "2021-01-01 IP EUR, payoff: 51 in the results, 50.000000000 "
                                                "here"))
        self.assertEqual(told["row-too-few"], ("differs", "2021-01-01 IP EUR: no row in the results, 50.000000000 here"))
        self.assertEqual(told["no-rate"], ("differs", "2021-01-01 RR EUR: 0 in the results, no row here; the block "
                                           "stops: missing EURIBOR 2021-01-01"))
        for name, why in [("lax", "no kind LAX"), ("in-advance", "cyclePointOfInterestPayment"),
                          ("at-noon", "time of day"), ("refused", "28E336")]:
            self.assertEqual(told[name][0], "not of this profile")
            self.assertIn(why, told[name][1])

    def test_the_table_and_its_status(self):
        done = command("standard", "compare", FOLDER / "pam.json", FOLDER / "others.json")
        self.assertEqual((done.returncode, done.stdout.splitlines()[-1]),
                         (1, "5 equal, 3 differs, 4 not of this profile"))
        done = command("standard", "compare", FOLDER / "others.json", "--case", "wrong-payoff", "--tolerance", "1")
        self.assertEqual((done.returncode, done.stdout.splitlines()[-1]), (0, "1 equal, 0 differs, 0 not of this profile"))
        done = command("standard", "compare", FOLDER / "swaps.json", "--payments", "--notes")
        self.assertEqual((done.returncode, done.stdout.splitlines()[-1]), (0, "2 equal, 0 differs, 0 not of this profile"))


class BadFiles(unittest.TestCase):
    def test_each_is_told_in_one_line(self):
        files = [b"", b"[", b"\xff\xfe[", b"{}", b"[]", b'{"a": 1}', b'{"a": {}}', b'{"a": {"terms": 1}}', b"null",
                 b"[" * 100000, b'"x"']
        with tempfile.TemporaryDirectory() as folder:
            path = Path(folder) / "x.json"
            for data in files:
                path.write_bytes(data)
                with self.subTest(data=data[:30]):
                    done = command("standard", "convert", path)
                    self.assertEqual((done.returncode, done.stdout, done.stderr.count("\n")), (1, "", 1))

    def test_odd_cases_are_faults_of_the_case(self):
        for more in [{"dataObserved": {"A": 1}}, {"dataObserved": {"A": {"data": [1]}}}, {"dataObserved": [1]},
                     {"eventsObserved": [1]}, {"results": 1}, {"to": "soon"}, {"terms": {}},
                     {"terms": TERMS | {"contractType": ["PAM"]}}, {"eventsObserved": [{"type": "PP"}]},
                     {"dataObserved": 1}, {"dataObserved": "x"}, {"eventsObserved": {}}]:
            with self.subTest(more=more):
                self.assertNotEqual(case(**more).faults, [])


if __name__ == "__main__":
    unittest.main()
