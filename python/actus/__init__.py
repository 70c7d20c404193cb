"""What stands around `actus`, a program that computes the cash flows of ACTUS contracts.

    from actus import run, read_text
    text = run("examples/p1.json")
    for answer in text.answers:
        for block in answer.blocks:
            for row in block.rows:
                print(block.contract, row.day, row.type, row.currency, row.payoff)

`run` evaluates, and `read_text` reads any text that `eval` or `desk` has printed, as a stream. The commands are those
of `python3 -m actus --help` (docs/PYTHON.md). Nothing here is proved.
"""

from .errors import ProgramError, TextError, ToolError
from .program import run
from .text import Answer, Ask, Block, Event, Rate, Row, Stop, Text, TextReader, read_text

__all__ = ["Answer", "Ask", "Block", "Event", "ProgramError", "Rate", "Row", "Stop", "Text", "TextError", "TextReader",
           "ToolError", "read_text", "run"]
