"""Printed texts are read as what they say. Values by hand, from the files of examples/."""

import io
import unittest
from datetime import date
from decimal import Decimal

from helpers import EXAMPLES, PROGRAM, needs_program

from actus import Ask, Event, ProgramError, Rate, Row, Stop, TextError, ToolError, read_text, run

SHORT = b"""journal 1
1 ask *
answers 1
answer 1 1 0
contract P1
2020-01-01 IED EUR -1000.000000000 1000.000000000 0.050000000 0.000000000
end
work 1
"""


def example(name: str) -> bytes:
    return (EXAMPLES / name).read_bytes()


class ReadingTexts(unittest.TestCase):
    def test_rows_of_a_loan(self):
        text = read_text(example("p1.out")).whole()
        self.assertEqual(text.journal, [Ask(1, "*")])
        self.assertEqual(text.work, 3)
        (answer,) = text.answers
        self.assertEqual((answer.caller, answer.number, answer.version), (1, 1, 0))
        (block,) = answer.blocks
        self.assertEqual((block.contract, block.stop), ("P1", None))
        self.assertEqual(block.rows[0], Row(date(2020, 1, 1), "IED", "EUR", Decimal(-1000), Decimal(1000),
                                            Decimal("0.05"), Decimal(0)))
        self.assertEqual([(row.type, str(row.payoff)) for row in block.rows],
                         [("IED", "-1000.000000000"), ("IP", "50.000000000"), ("MD", "1000.000000000")])

    def test_steps_of_a_journal(self):
        text = read_text(example("guarantee.out")).whole()
        self.assertEqual(text.journal, [Ask(1, "GUARANTEE-21"), Event(1, "LOAN-21", "CE", date(2025, 7, 15), "DF"),
                                        Ask(1, "GUARANTEE-21"), Ask(1, "LOAN-21")])
        self.assertEqual([(answer.number, answer.version) for answer in text.answers], [(1, 0), (2, 1), (3, 1)])
        journal = read_text(example("option.out")).journal
        self.assertEqual(journal[0], Rate(1, "AAPL", date(2024, 6, 12), Decimal("213.07")))
        self.assertEqual(journal[2], Event(1, "CALL-7", "XD", date(2024, 6, 13), Decimal(0)))

    def test_a_block_that_stops(self):
        text = read_text(example("floating.out")).whole()
        (block,) = text.stopped
        self.assertEqual(block.stop, Stop("missing", date(2021, 3, 2), "EURIBOR12M"))
        self.assertEqual(len(block.rows), 5)

    def test_an_overflow_and_no_line_of_work(self):
        changed = SHORT.replace(b"end\nwork 1\n", b"overflow 2021-01-01 IP\n")
        text = read_text(changed).whole()
        self.assertIsNone(text.work)
        self.assertEqual(text.answers[0].blocks[0].stop, Stop("overflow", date(2021, 1, 1), "IP"))

    def test_an_answer_without_contracts(self):
        text = read_text(b"journal 1\n1 ask *\nanswers 1\nanswer 1 1 0\nwork 0\n").whole()
        self.assertEqual([(answer.number, answer.blocks) for answer in text.answers], [(1, [])])
        self.assertEqual(read_text(b"journal 0\nanswers 0\n").whole().answers, [])

    def test_a_stream_is_read_block_by_block(self):
        class Lines(io.BytesIO):
            taken = 0

            def __next__(self):
                self.taken += 1
                return super().__next__()

        source = Lines(example("cap.out"))
        reader = read_text(source)
        first = next(iter(reader.blocks()))
        self.assertEqual((first.contract, len(first.rows)), ("LOAN-8", 7))
        self.assertLessEqual(source.taken, 15)

    def test_what_is_no_text_is_told_by_its_line(self):
        for line, old, new in [(1, b"journal 1", b"journal x"), (1, b"journal 1", b"journal 01"),
                               (2, b"1 ask *", b"1 tell *"), (3, b"answers 1", b"answers 2"),
                               (4, b"answer 1 1 0", b"answer 1 1"), (6, b" IED ", b" ABC "),
                               (6, b"0.050000000", b"0.05000000"), (6, b"0.050000000", b"00.050000000"),
                               (6, b"2020-01-01", b"2021-02-30"), (6, b"2020-01-01", b"2020-13-01"),
                               (6, b" EUR", b""), (7, b"end", b"ended"), (8, b"work 1\n", b"work 1"),
                               (8, b"work 1\n", b"answer 1 2 0\n"), (9, b"work 1\n", b"work 1\nwork 1\n"),
                               (7, b"end\nwork 1\n", b""), (1, SHORT, b""), (1, SHORT, b"portfolio 10 0 -\n")]:
            with self.subTest(line=line, new=new):
                with self.assertRaises(TextError) as caught:
                    read_text(SHORT.replace(old, new, 1)).whole()
                self.assertEqual(caught.exception.line, line)
                self.assertNotIn("\n", caught.exception.message)


class RunningTheProgram(unittest.TestCase):
    @needs_program
    def test_examples_are_evaluated(self):
        text = run(EXAMPLES / "floating.json", EXAMPLES / "floating.txt", program=PROGRAM)
        self.assertEqual(text, read_text(example("floating-script.out")).whole())

    @needs_program
    def test_bytes_and_objects_are_taken(self):
        loan = {"contractID": "MY-1", "contractType": "PAM", "contractRole": "RPA", "statusDate": date(2024, 1, 1),
                "currency": "CHF", "initialExchangeDate": date(2024, 2, 1), "maturityDate": "2026-02-01",
                "notionalPrincipal": Decimal("10000"), "nominalInterestRate": Decimal("0.03"),
                "cycleOfInterestPayment": "P6ML1", "dayCountConvention": "30E360"}
        text = run([loan], [{"ask": "MY-1"}], program=PROGRAM)
        # 10000 * 0.03 * 180/360
        self.assertEqual([row.payoff for row in text.answers[0].blocks[0].rows if row.type == "IP"], [Decimal(150)] * 4)
        self.assertEqual(run(example("p1.json"), program=PROGRAM), read_text(example("p1.out")).whole())
        with self.assertRaises(ToolError) as caught:
            run([dict(loan, notionalPrincipal=0.1)], program=PROGRAM)
        self.assertIn("Decimal", caught.exception.message)

    @needs_program
    def test_a_stop_is_no_error(self):
        text = run(EXAMPLES / "floating.json", program=PROGRAM)
        self.assertEqual([block.stop.about for block in text.stopped], ["EURIBOR12M"])

    @needs_program
    def test_refusals_tell_status_number_place_and_why(self):
        wrong = example("p1.json").replace(b'"2021-01-01"', b'"01.01.2021"')
        with self.assertRaises(ProgramError) as caught:
            run(wrong, program=PROGRAM)
        error = caught.exception
        self.assertEqual((error.status, error.number, error.place, error.what, error.line),
                         (5, 13, 1, "maturityDate", "portfolio 13 1 maturityDate"))
        self.assertIn("is no date", error.explanation)
        with self.assertRaises(ProgramError) as caught:
            run(EXAMPLES / "p1.json", b'\n{"ask":"P2"}\n', program=PROGRAM)
        self.assertEqual((caught.exception.status, caught.exception.number, caught.exception.place), (6, 2, 2))
        with self.assertRaises(ProgramError) as caught:
            run("no-such-file.json", program=PROGRAM)
        self.assertEqual((caught.exception.status, caught.exception.what), (3, "no-such-file.json"))

    def test_a_program_that_is_not_there(self):
        with self.assertRaises(ToolError) as caught:
            run(EXAMPLES / "p1.json", program="./no-such-program")
        self.assertEqual(caught.exception.status, 3)


if __name__ == "__main__":
    unittest.main()
