"""What `split` takes a contract to weigh is never less than what it does, on all portfolios of the tables of cases."""

import unittest

from tables import cases

from actus.portfolio import read_portfolio
from actus.schedule import own_count
from actus.unit import event_bound, look

LOAN = {"contractID": "L", "contractType": "PAM", "initialExchangeDate": "2020-01-01", "maturityDate": "2022-01-01",
        "nominalInterestRate": "0.05", "cycleOfInterestPayment": "P6ML1"}


def plain(node):
    """A value as `json` gives it."""
    if node.sort == "object":
        return {name: plain(inner) for name, _, inner in node.value}
    return [plain(inner) for inner in node.value] if node.sort == "list" else node.value


class Weights(unittest.TestCase):
    def test_events_are_at_least_counted(self):
        tried = 0
        for case in cases():
            if len(case.portfolio) < 100_000 and not (portfolio := read_portfolio(case.portfolio)).faults:
                for contract in portfolio.contracts:
                    tried += 1
                    self.assertGreaterEqual(event_bound(contract.kind, plain(contract.node)),
                                            own_count(contract.kind, contract.days), case.name)
        self.assertGreater(tried, 2000)

    def test_not_many_more_than_there_are(self):
        # IED, four IP and MD
        self.assertLessEqual(event_bound("PAM", LOAN), 14)

    def test_odd_terms_do_no_harm(self):
        for term in LOAN:
            for value in (None, "", "x", "2019", [], {}, "P0D", "P1", "-1", "9999-99-99", True):
                name, weight, codes = look(LOAN | {term: value, "contractType": "PAM"})
                self.assertTrue(1 <= weight <= 4097 and codes == ())

    def test_codes(self):
        for more, codes in [({"marketObjectCodeOfRateReset": "E"}, ("E",)),
                            ({"currency": "USD", "settlementCurrency": "EUR"}, ("USD/EUR",)),
                            ({"currency": "EUR", "currency2": "USD"}, ("USD/EUR",))]:
            self.assertEqual(look(LOAN | more)[2], codes)


if __name__ == "__main__":
    unittest.main()
