"""Runs the program `actus` over a portfolio and a script.

The program is found by what is given, or by the environment variable ACTUS, or as `./actus` in the folder where one
stands, or by the path.
"""

from __future__ import annotations

import json
import os
import re
import shutil
import subprocess
import tempfile
from collections.abc import Sequence
from contextlib import ExitStack
from datetime import date
from decimal import Decimal
from typing import Any, BinaryIO

from .errors import PORTFOLIO, SCRIPT, UNFINISHED, UNREADABLE, ProgramError, ToolError, reason
from .text import Text, read_text

Source = str | os.PathLike[str] | bytes | Sequence[dict[str, Any]]
MOST_LINE = 1 << 20
_REFUSED_PORTFOLIO = re.compile(r"portfolio ([0-9]+) ([0-9]+) (.*)")
_REFUSED_SCRIPT = re.compile(r"script ([0-9]+) ([0-9]+) ([0-9]+)")


def find_program(program: str | os.PathLike[str] | None = None, name: str = "actus") -> str:
    """The path of the program: the given one; else of `actus` the environment variable ACTUS (of `actus_audit`
    ACTUS_AUDIT); else `./NAME`; else NAME on the path. Raises `ToolError` where there is none."""
    wanted = str(program) if program else os.environ.get(name.upper(), "")
    if not wanted:
        wanted = f"./{name}" if os.path.isfile(f"./{name}") else shutil.which(name) or ""
    if not wanted:
        raise ToolError(f"no program {name}: say where it is by --program or the environment variable {name.upper()}",
                        UNREADABLE)
    found = shutil.which(wanted)
    if not found:
        raise ToolError(f"{wanted} is no program that can be run; say where {name} is by --program or the environment "
                        f"variable {name.upper()}", UNREADABLE)
    return os.path.abspath(found)


def portfolio_bytes(contracts: Sequence[dict[str, Any]]) -> bytes:
    """A portfolio file of contracts: `Decimal` and `int` are written with all their digits, dates as 2026-01-15.
    A `float` is refused, since what it would be written as isn't what was meant."""
    return ("[" + ",\n ".join(_json(contract) for contract in contracts) + "]\n").encode()


def script_bytes(lines: Sequence[dict[str, Any]]) -> bytes:
    """A script of lines, each an object with one of `rate`, `event` and `ask`; values as in `portfolio_bytes`."""
    return "".join(_json(line) + "\n" for line in lines).encode()


def _json(value: Any) -> str:
    return json.dumps(_plain(value), ensure_ascii=False)


def _plain(value: Any) -> Any:
    match value:
        case Decimal():
            return format(value, "f")
        case bool():
            return value
        case int():
            return str(value)
        case float():
            raise ToolError(f"{value!r} is a float; write a Decimal or a text, as Decimal(\"{value!r}\")", PORTFOLIO)
        case date():
            return value.isoformat()
        case dict():
            return {name: _plain(inner) for name, inner in value.items()}
        case list() | tuple():
            return [_plain(inner) for inner in value]
    return value


def _as_file(source: Source, suffix: str, held: ExitStack) -> str:
    """The path of a file with the source's bytes, which is there as long as `held` is open."""
    if isinstance(source, (str, os.PathLike)):
        return os.fspath(source)
    if isinstance(source, (bytes, bytearray)):
        data = bytes(source)
    else:
        data = portfolio_bytes(source) if suffix == ".json" else script_bytes(source)
    file = held.enter_context(tempfile.NamedTemporaryFile(prefix="actus-", suffix=suffix))
    file.write(data)
    file.flush()
    return file.name


def refusal(status: int, output: str, explanation: str) -> ProgramError:
    """The error of a run that ended without a text, by its status, its line and what it said on standard error."""
    line = output.splitlines()[0] if output else ""
    if status < 0:
        explanation = explanation or f"the program was ended by signal {-status}"
    if found := _REFUSED_PORTFOLIO.fullmatch(line):
        return ProgramError(status, line, explanation, int(found[1]), int(found[2]), found[3])
    if found := _REFUSED_SCRIPT.fullmatch(line):
        return ProgramError(status, line, explanation, int(found[1]), int(found[3]))
    what = line.split(" ", 1)[1] if line.startswith(("read ", "long ")) else None
    return ProgramError(status, line, explanation, what=what)


def run_to_file(path: str, files: Sequence[str], out: BinaryIO) -> int:
    """Evaluates files by the program at a path, and writes the text to an open file; gives back the status, 0 or 8.
    Raises `ProgramError` where something is refused."""
    with tempfile.TemporaryFile() as errors:
        try:
            done = subprocess.run([path, "eval", *files], stdin=subprocess.DEVNULL, stdout=out, stderr=errors)
        except OSError as error:
            raise ToolError(f"{path} can't be run: {reason(error)}", UNREADABLE) from None
        if done.returncode in (0, UNFINISHED):
            return done.returncode
        errors.seek(0)
        out.seek(0)
        line = out.readline(MOST_LINE).decode("utf-8", "replace")
        raise refusal(done.returncode, line, errors.read().decode("utf-8", "replace"))


def run(portfolio: Source, script: Source | None = None, *, program: str | os.PathLike[str] | None = None) -> Text:
    """Evaluates a portfolio over a script, as `actus eval` does: the journal, the answers with their rows, and how many
    rows were computed.

    Portfolio and script are a path, the bytes of a file, or a list of objects. Without a script all is asked for once,
    over no observations. A block that stops is no error: it has a `stop`. Raises `ProgramError` where something is
    refused, with the program's status, line and explanation.
    """
    path = find_program(program)
    with ExitStack() as held:
        files = [_as_file(portfolio, ".json", held)]
        if script is not None:
            files.append(_as_file(script, ".txt", held))
        out = held.enter_context(tempfile.TemporaryFile())
        run_to_file(path, files, out)
        out.seek(0)
        return read_text(out).whole()
