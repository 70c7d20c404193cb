"""What goes wrong, said in one line that tells what to mend.

The command prints the line on standard error and ends with the status. Statuses are those of the program
(docs/ERRORS.md) where they are about the same: 2 wrong words, 3 a file that can't be read, 4 one that is too long, 5 a
portfolio, 6 a script, 7 an output that can't be written. 1 is a verdict: a text that is wrong, rows that differ, faults
that were found.
"""

from __future__ import annotations

VERDICT = 1
WORDS = 2
UNREADABLE = 3
TOO_LONG = 4
PORTFOLIO = 5
SCRIPT = 6
UNWRITABLE = 7
UNFINISHED = 8
NO_MEMORY = 9


class ToolError(Exception):
    """Something that the user can mend: `message` is one line, `status` the one that the command ends with."""

    def __init__(self, message: str, status: int = VERDICT) -> None:
        super().__init__(message)
        self.message = message
        self.status = status


class TextError(ToolError):
    """Bytes that are no text of `eval` or `desk`: `line` is the line, counted from 1."""

    def __init__(self, line: int, wanted: str, found: str) -> None:
        super().__init__(f"line {line} of the text: wanted {wanted}, found {shown(found)}", VERDICT)
        self.line = line


class ProgramError(ToolError):
    """What the program refused, or how else it ended without a text.

    `status` is the program's; `line` is what stood on its standard output; `number` is that of the refusal (portfolio
    10 to 23, script 1 to 5), `place` the contract's place or the script's line, `what` the term or the name that it is
    about; each is None where the line has none. `explanation` is what the program said on standard error.
    """

    def __init__(self, status: int, line: str, explanation: str, number: int | None = None,
                 place: int | None = None, what: str | None = None) -> None:
        first = explanation.splitlines()[0] if explanation.strip() else ""
        super().__init__(first or line or f"the program ended with status {status}", status)
        self.line = line
        self.explanation = explanation
        self.number = number
        self.place = place
        self.what = what


def shown(text: str, most: int = 60) -> str:
    """A text in double quotes for a message, up to so many characters, what can't be seen by a sign."""
    cut = text if len(text) <= most else text[:most] + "..."
    return '"' + "".join(c if c.isprintable() else "\\u%04x" % ord(c) for c in cut) + '"'


def reason(error: OSError) -> str:
    """Why the system refused, in its words."""
    return error.strerror or type(error).__name__
