"""Pictures: what is drawn is read again from the SVG. Values by hand, from the files of examples/."""

import importlib.util
import re
import tempfile
import unittest
import xml.etree.ElementTree as tree
from pathlib import Path

from helpers import EXAMPLES, command, needs_program

from actus.picture import _label, name_of, nice_step

SVG = "{http://www.w3.org/2000/svg}"


def drawn(*words: str) -> tuple[dict[str, float], list[str]]:
    """What a picture has: the height of each bar by what it says of itself, and all its texts."""
    with tempfile.TemporaryDirectory() as folder:
        goal = Path(folder) / "x.svg"
        done = command("picture", *words, "-o", goal)
        if done.returncode:
            raise AssertionError(done.stderr)
        root = tree.parse(goal).getroot()
    bars = {rect.find(f"{SVG}title").text: float(rect.get("height"))
            for rect in root.iter(f"{SVG}rect") if rect.find(f"{SVG}title") is not None}
    return bars, [text.text for text in root.iter(f"{SVG}text")]


class Bars(unittest.TestCase):
    def test_a_loan_by_month(self):
        bars, texts = drawn(EXAMPLES / "p1.out")
        self.assertEqual(set(bars), {"2020-01: 1,000.00 EUR paid", "2021-01: 1,050.00 EUR received"})
        self.assertAlmostEqual(bars["2021-01: 1,050.00 EUR received"] / bars["2020-01: 1,000.00 EUR paid"], 1.05, 3)
        self.assertIn("Cash flows of P1 by month", texts)
        self.assertIn("EUR", texts)

    def test_two_answers_over_one_another(self):
        bars, texts = drawn(EXAMPLES / "floating-script.out", "--before", "1", "--types", "IP", "--period", "year")
        # 250000 * 0.004 and 0.0039, by A360 over 92, 92 and 91 days of 2022 behind the reset; before it 168.75
        self.assertIn("before, 2022: 932.64 EUR received", bars)
        self.assertIn("2022: 913.54 EUR received", bars)
        self.assertIn("before, answer to ask 1", texts)

    def test_each_currency_has_its_own(self):
        with tempfile.TemporaryDirectory() as folder:
            text = Path(folder) / "two.out"
            text.write_bytes((EXAMPLES / "p1.out").read_bytes().replace(b"IP EUR", b"IP USD"))
            bars, texts = drawn(text)
        self.assertEqual(set(bars), {"2020-01: 1,000.00 EUR paid", "2021-01: 1,000.00 EUR received",
                                     "2021-01: 50.00 USD received"})
        self.assertLess(texts.index("EUR"), texts.index("USD"))

    def test_a_contract_of_several(self):
        bars, _ = drawn(EXAMPLES / "cap.out", "--contract", "CAP-8", "--period", "year")
        self.assertEqual(set(bars), {"2024: 900.00 EUR paid", "2026: 160.00 EUR received", "2027: 700.00 EUR received"})

    def test_texts_on_an_axis_are_apart(self):
        for words in [(EXAMPLES / "mortgage.out",), (EXAMPLES / "mortgage.out", "--period", "year"),
                      (EXAMPLES / "floating-script.out", "--period", "quarter")]:
            with tempfile.TemporaryDirectory() as folder:
                goal = Path(folder) / "x.svg"
                command("picture", *words, "-o", goal)
                names = [(float(text.get("x")), text.text) for text in tree.parse(goal).getroot().iter(f"{SVG}text")
                         if text.get("text-anchor") == "middle"]
            self.assertGreaterEqual(len(names), 3)
            for (x, name), (other, _) in zip(names, names[1:]):
                self.assertGreater(other - x, 6.6 * len(name))

    def test_steps_of_an_axis(self):
        for span, most, step in [(1050, 7, 200), (2050, 7, 500), (0.05, 7, 0.01), (130000, 7, 20000), (7, 7, 1)]:
            self.assertAlmostEqual(nice_step(span, most), step)
        self.assertEqual([_label(1500.0, 500.0), _label(0.25, 0.05), _label(-2.0, 1.0)], ["1,500", "0.25", "-2"])
        self.assertEqual([name_of(2026 * 12, 1), name_of(2026 * 4 + 2, 3), name_of(2026, 12)],
                         ["2026-01", "2026 Q3", "2026"])


class Files(unittest.TestCase):
    @unittest.skipUnless(importlib.util.find_spec("matplotlib"), "matplotlib isn't installed: no PNG is drawn")
    def test_a_png(self):
        with tempfile.TemporaryDirectory() as folder:
            goal = Path(folder) / "x.png"
            self.assertEqual(command("picture", EXAMPLES / "p1.out", "-o", goal).returncode, 0)
            self.assertEqual(goal.read_bytes()[:8], b"\x89PNG\r\n\x1a\n")

    def test_bad_input_is_told_in_one_line(self):
        with tempfile.TemporaryDirectory() as folder:
            for words, status in [(["-o", "x.gif"], 2), ([], 2), (["-o", "x.svg", "--contract", "P2"], 1),
                                  (["-o", "x.svg", "--ask", "3"], 1), (["-o", "x.svg", "--before", "7"], 1),
                                  (["-o", "x.svg", "--types", "IQ"], 2), (["-o", "x.svg", "--types", "FP"], 1),
                                  (["-o", "/nowhere/x.svg"], 7), (["-o", "x.svg", "--caller", "2"], 1)]:
                with self.subTest(words=words):
                    done = command("picture", EXAMPLES / "p1.out", *words, cwd=folder)
                    self.assertEqual((done.returncode, done.stderr.count("\n")), (status, 1), done.stderr)
            self.assertEqual(list(Path(folder).iterdir()), [])

    @needs_program
    def test_from_a_portfolio(self):
        bars, _ = drawn("--run", EXAMPLES / "p1.json")
        self.assertEqual(len(bars), 2)


if __name__ == "__main__":
    unittest.main()
