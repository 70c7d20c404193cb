"""The package's dictionary of terms is that of docs/TERMS.md and docs/TEXTS.md."""

import re
import unittest

from helpers import TOP

from actus.dictionary import (ALL_TERMS, CHOICES, FORM, KINDS, TERMS, WITH_EFFECT, WITHOUT_EFFECT, class_of, nearest)
from actus.forms import read_cycle, read_day, read_decimal, read_period, read_units
from actus.text import EVENT_TYPES

PAGE = (TOP / "docs/TERMS.md").read_text()
GROUPS = {"all": KINDS, "loans": KINDS[:4], "amortizers": KINDS[1:4]}


def section(title: str) -> str:
    return PAGE.split(f"\n## {title}\n")[1].split("\n## ")[0]


def first_cells(text: str) -> list[str]:
    return [name for line in text.splitlines() if line.startswith("| `")
            for name in re.findall(r"`([^`]+)`", line.split("|")[1])]


class Dictionary(unittest.TestCase):
    def test_names_that_are_passed_over(self):
        self.assertEqual(set(first_cells(section("Names that change cash flows by the standard"))), set(WITH_EFFECT))
        self.assertEqual(set(first_cells(section("Names without effect on cash flows"))), set(WITHOUT_EFFECT))

    def test_terms_kinds_and_choices(self):
        seen, before = set(), PAGE.split("\n## The order of reading")[0].split("\n## The contract\n")[1]
        kinds = {"all but FXOUT": [k for k in KINDS if k != "FXOUT"], "the same": None,
                 "all but STK and SWAPS": [k for k in KINDS if k not in ("STK", "SWAPS")],
                 "all but CEG and CEC": [k for k in KINDS if k not in ("CEG", "CEC")]}
        last = None
        for line in before.splitlines():
            cells = [cell.strip() for cell in line.split("|")[1:-1]]
            if len(cells) != 6 or not cells[0].startswith("`"):
                continue
            if cells[1] in kinds:
                wanted = kinds[cells[1]] or last
            else:
                wanted = [kind for word in cells[1].split(", ") for kind in GROUPS.get(word, [word])]
            last = wanted
            for term in re.findall(r"`([^`]+)`", cells[0]):
                seen.add(term)
                self.assertEqual({kind for kind in KINDS if term in TERMS[kind]}, set(wanted), term)
                if term in CHOICES and term != "scalingEffect":
                    self.assertEqual(set(re.findall(r"`([^`]+)`", cells[2])), set(CHOICES[term]), term)
                else:
                    form = FORM[term]
                    word = {"day": "a day", "cycle": "a cycle", "period": "a period", "decimal": "a decimal",
                            "name": "a name", "currency": "a currency", "structure": "a structure"}.get(form, "")
                    self.assertIn(word, cells[2], term)
        self.assertEqual(seen, set(ALL_TERMS))

    def test_order_of_reading(self):
        items = re.split(r"\n[0-9]\. ", section("The order of reading"))[1:]
        common = [term for term in re.findall(r"`([a-zA-Z0-9]+)`", items[0])]
        self.assertEqual([term for term in TERMS["PAM"] if term in common], common)
        loan = [term for term in re.findall(r"`([a-zA-Z0-9]+)`", items[1].split("; then, whether")[0])]
        self.assertEqual([term for term in TERMS["PAM"] if term not in common], loan)

    def test_event_types(self):
        page = (TOP / "docs/TEXTS.md").read_text()
        self.assertEqual(tuple(re.findall(r"^\| `([A-Z]{2,4})` \|", page.split("The types of events")[1], re.M)),
                         EVENT_TYPES)

    def test_nearest_names(self):
        for name, meant in [("nominalInterestrate", "nominalInterestRate"), ("notional_principal", "notionalPrincipal"),
                            ("maturtiyDate", "maturityDate"), ("completelyElse", None), ("x", None)]:
            self.assertEqual(nearest(name, ALL_TERMS), meant)
        self.assertEqual(class_of("optionType", "PAM"), ("other kind", "it is no term of a PAM"))


class Forms(unittest.TestCase):
    def test_numbers(self):
        for text, units in [("1000", 10 ** 12), ("+0.05", 5 * 10 ** 7), ("-2.5e-9", -2), ("1.5e-9", 2), ("5e-10", 0),
                            ("0" * 63 + "1", 10 ** 9), ("1e18", 10 ** 27), ("0e-18", 0),
                            ("170141183460469231731687303715.884105727", 2 ** 127 - 1)]:
            self.assertEqual(read_units(text), units)
        for text in ["", ".5", "5.", "1,0", "1e19", "1e-19", "0" * 65, "5%", "--1", "1e", "1e0018", " 1", "1\n",
                     "170141183460469231731687303715.884105728", "0x1", "\u0661"]:
            with self.assertRaises(ValueError):
                read_units(text)
        self.assertEqual(str(read_decimal("0.05")), "0.050000000")

    def test_days_and_cycles(self):
        self.assertEqual(read_day("1970-01-01T00:00:00"), 719163)
        for text in ["2020-02-30", "1899-12-31", "2300-01-01", "2020-1-1", "2020-01-01T12:00:00", "01.01.2020",
                     "2020-01-01\n"]:
            with self.assertRaises(ValueError):
                read_day(text)
        self.assertEqual((read_cycle("P3ML0").months, read_cycle("P2W").days, read_cycle("P1H").months), (3, 14, 6))
        self.assertEqual(read_period("P0D").count, 0)
        for text in ["P0D", "P1000D", "1Y", "P1", "p1m", "P1ML2", "P1M\n"]:
            with self.assertRaises(ValueError):
                read_cycle(text)


if __name__ == "__main__":
    unittest.main()
