"""The commands of `python3 -m actus`, and of `actus-tools` where the package is installed."""

from __future__ import annotations

import argparse
import contextlib
import os
import sys
import tempfile
from collections.abc import Callable, Iterator, Sequence
from concurrent.futures import BrokenExecutor
from typing import BinaryIO

from .errors import NO_MEMORY, UNFINISHED, UNREADABLE, UNWRITABLE, WORDS, ToolError, reason
from .files import reading, writing

DESCRIPTION = """Tables, pictures, the standard's files, and portfolios of any size, around actus, the program that
computes the cash flows of ACTUS contracts. Each command has a --help of its own; docs/PYTHON.md has examples."""

STATUSES = """statuses: 0 all is there; 8 it is, and a block stops; 1 a verdict: faults, rows that differ, parts that
failed; 2 wrong words; 3 a file or a program that can't be read or run; 5 a portfolio, 6 a script that is refused; 7 an
output that can't be written; 9 memory ran out"""


class Parser(argparse.ArgumentParser):
    """A parser whose faults are one line, with status 2."""

    def error(self, message: str) -> None:
        raise ToolError(f"{message}; see {self.prog} --help", WORDS)


def new_parser() -> Parser:
    """The parser of all commands."""
    parser = Parser(prog="python3 -m actus", description=DESCRIPTION, epilog=STATUSES,
                    formatter_class=argparse.ArgumentDefaultsHelpFormatter)
    commands = parser.add_subparsers(dest="command", metavar="COMMAND", required=True, parser_class=Parser)
    for add in (add_table, add_picture, add_standard, add_lint, add_split, add_run_parts, add_run_part, add_gather,
                add_audit_parts):
        add(commands)
    return parser


def new_command(commands: argparse._SubParsersAction, name: str, does: str, work: Callable[[argparse.Namespace], int],
                **kept: object) -> Parser:
    """Adds a command."""
    parser = commands.add_parser(name, help=does, description=does[0].upper() + does[1:] + ".", **kept)
    parser.set_defaults(work=work)
    return parser


def add_program(parser: argparse.ArgumentParser, name: str = "actus") -> None:
    """Adds the option that says where a program is."""
    parser.add_argument("--program", metavar="PATH", help=f"the program {name}; else the environment variable "
                        f"{name.upper()}, ./{name}, or {name} on the path")


# ---- texts


def add_text(parser: argparse.ArgumentParser) -> None:
    """Adds the words that say which text is read."""
    parser.add_argument("text", nargs="?", default="-", metavar="TEXT",
                        help="a text that eval or desk has printed; - or nothing: the standard input")
    parser.add_argument("--run", nargs="+", metavar="FILE",
                        help="in place of TEXT: evaluate a portfolio, with a script where one is named")
    add_program(parser)


@contextlib.contextmanager
def opened(words: argparse.Namespace) -> Iterator[BinaryIO]:
    """The text that the words name, or what the program prints of the files that they name."""
    if not words.run:
        with reading(words.text) as file:
            yield file
    else:
        with evaluated(words.run, words.program) as file:
            yield file


@contextlib.contextmanager
def evaluated(files: Sequence[str], program: str | None) -> Iterator[BinaryIO]:
    """What `eval` prints of a portfolio and a script, in a file of its own."""
    from .program import find_program, run_to_file
    if len(files) > 2:
        raise ToolError("--run takes a portfolio and at most one script", WORDS)
    with tempfile.TemporaryFile() as file:
        run_to_file(find_program(program), files, file)
        file.seek(0)
        yield file


def told(stopped: int, name: str) -> int:
    """The status of a table: 8 where blocks stop, which is said."""
    if stopped:
        blocks = "a block stops" if stopped == 1 else f"{stopped} blocks stop"
        print(f"{name}: {blocks} by missing or overflow (docs/ERRORS.md, blocks that stop)", file=sys.stderr)
    return UNFINISHED if stopped else 0


def add_csv(parser: argparse.ArgumentParser) -> None:
    """Adds the options of CSV."""
    parser.add_argument("--separator", metavar="SIGN", help="what stands between fields of CSV: a comma, or a "
                        "semicolon with --decimal-comma; \\t is a tab")
    parser.add_argument("--decimal-comma", action="store_true", help="decimals of CSV behind a comma")


def csv_form(words: argparse.Namespace):
    """The form of CSV that the words name."""
    from .table import CsvForm
    separator = "\t" if words.separator == "\\t" else words.separator
    return CsvForm(separator, words.decimal_comma)


def add_table(commands: argparse._SubParsersAction) -> None:
    parser = new_command(commands, "table", "make a table of a text: CSV, JSON Lines or an SQLite database", table)
    add_text(parser)
    parser.add_argument("--form", choices=("csv", "jsonl", "sqlite"), help="the form; else by the end of the output's "
                        "name (.csv, .jsonl, .sqlite or .db), or csv")
    parser.add_argument("-o", "--output", metavar="FILE", help="the file to write; else the standard output")
    parser.add_argument("--ladder", choices=("month", "year"), help="sums by month or year and currency, in place of "
                        "rows, as CSV")
    add_csv(parser)


def form_of(form: str | None, output: str | None) -> str:
    """The form of a table: the given one, or by the name of the output."""
    by_end = {".jsonl": "jsonl", ".sqlite": "sqlite", ".sqlite3": "sqlite", ".db": "sqlite"}
    found = form or by_end.get(os.path.splitext(output or "")[1], "csv")
    if found == "sqlite" and (output is None or output == "-"):
        raise ToolError("a database is a file: say which by --output", WORDS)
    return found


def table(words: argparse.Namespace) -> int:
    from .ladder import Ladder
    from .table import write_csv, write_database, write_json_lines
    from .text import read_text
    form, csv, stopped = form_of(words.form, words.output), csv_form(words), 0
    if words.ladder and form != "csv":
        raise ToolError("a ladder is written as CSV", WORDS)
    with opened(words) as file:
        reader = read_text(file)
        if words.ladder:
            ladder = Ladder(words.ladder)
            for block in reader.checked_blocks():
                ladder.add(block)
                stopped += block.stop is not None
            with writing(words.output) as out:
                ladder.write(out, csv)
        elif form == "sqlite":
            stopped = write_database(reader, words.output)
        else:
            with writing(words.output) as out:
                stopped = write_csv(reader, out, csv) if form == "csv" else write_json_lines(reader, out)
    return told(stopped, words.run[0] if words.run else words.text)


# ---- pictures


def add_picture(commands: argparse._SubParsersAction) -> None:
    parser = new_command(commands, "picture", "draw the cash flows of a text as bars: in and out, by period and "
                         "currency", picture)
    add_text(parser)
    parser.add_argument("-o", "--output", metavar="FILE", required=True, help="the picture to write, .svg or .png (a "
                        "PNG needs matplotlib)")
    parser.add_argument("--contract", metavar="NAME", help="one contract's flows; else those of all")
    parser.add_argument("--caller", type=int, default=1, metavar="N", help="whose answers")
    parser.add_argument("--ask", type=int, metavar="N", help="the answer to this ask; else the last")
    parser.add_argument("--before", type=int, metavar="N", help="lay the answer to this ask over it, as an outline: "
                        "what was before a correction")
    parser.add_argument("--types", metavar="TYPES", help="rows of these types of events alone, as IP,FP")
    parser.add_argument("--period", choices=("month", "quarter", "year"), help="the period of a bar; else the least "
                        "that gives 60 bars or less")


def picture(words: argparse.Namespace) -> int:
    from .picture import Choice, draw
    from .text import EVENT_TYPES, read_text
    types = words.types.upper().split(",") if words.types else ()
    for kind in types:
        if kind not in EVENT_TYPES:
            raise ToolError(f"{kind} is no type of event; there are {' '.join(EVENT_TYPES)}", WORDS)
    choice = Choice(words.caller, words.ask, words.before, words.contract, types, words.period)
    with opened(words) as file:
        draw(read_text(file), choice).write(words.output)
    return 0


# ---- the standard's files


def add_standard(commands: argparse._SubParsersAction) -> None:
    parser = new_command(commands, "standard", "read files of the standard's published tests", lambda words: 0)
    inner = parser.add_subparsers(dest="what", metavar="WHAT", required=True, parser_class=Parser)
    one = new_command(inner, "convert", "write the portfolio and the script of each case, and tell what has no "
                      "counterpart", standard_convert)
    one.add_argument("files", nargs="+", metavar="FILE", help="a file of cases")
    one.add_argument("-o", "--output", metavar="FOLDER", help="where CASE.json and CASE.txt are written; else nowhere")
    two = new_command(inner, "compare", "run each case and compare its rows with its results", standard_compare)
    two.add_argument("files", nargs="+", metavar="FILE", help="a file of cases")
    two.add_argument("--tolerance", default="0.000001", metavar="NUMBER", help="how far numbers may be apart")
    two.add_argument("--payments", action="store_true", help="compare what is paid alone, by day and currency")
    two.add_argument("--notes", action="store_true", help="tell what has no counterpart besides")
    add_program(two)
    for each in (one, two):
        each.add_argument("--case", action="append", metavar="NAME", help="this case alone; may be given again")


def chosen_cases(words: argparse.Namespace) -> Iterator:
    """The cases of the files that are wanted."""
    from .standard import read_cases
    wanted = set(words.case or ())
    for name in words.files:
        for case in read_cases(name):
            if not words.case or case.name in words.case:
                wanted.discard(case.name)
                yield case
    if wanted:
        raise ToolError(f"there is no case {sorted(wanted)[0]} in the files", WORDS)


GROUPS = {"effect": "changes cash flows", "none": "without effect", "other kind": "without effect here",
          "unknown": "unknown", "filled": "filled in"}


def tell_notes(case) -> None:
    """Says what of a case has no counterpart."""
    for note in case.notes:
        print(f"{case.name}: {note.contract}, {note.name}: {GROUPS[note.group]}: {note.why}")
    for fault in case.faults:
        print(f"{case.name}: can't be run: {fault}")


def standard_convert(words: argparse.Namespace) -> int:
    from pathlib import Path
    faults, taken = 0, set()
    for case in chosen_cases(words):
        tell_notes(case)
        faults += bool(case.faults)
        if words.output:
            name = case.name
            if not name or name in taken or "/" in name or name.startswith("."):
                raise ToolError(f"case {name!r} can't be the name of a file, or stands twice in the files", WORDS)
            taken.add(name)
            folder = Path(words.output)
            folder.mkdir(parents=True, exist_ok=True)
            (folder / f"{name}.json").write_bytes(case.portfolio_file)
            (folder / f"{name}.txt").write_bytes(case.script_file)
    return 1 if faults else 0


def standard_compare(words: argparse.Namespace) -> int:
    from decimal import Decimal, InvalidOperation

    from .program import find_program
    from .standard import compare, status_of, table_of
    try:
        tolerance = Decimal(words.tolerance)
        if not tolerance >= 0:
            raise InvalidOperation
    except InvalidOperation:
        raise ToolError(f"{words.tolerance} is no tolerance: give a number from 0 on, as 0.01", WORDS) from None
    program, verdicts = find_program(words.program), []
    for case in chosen_cases(words):
        if words.notes:
            tell_notes(case)
        verdicts.append(compare(case, tolerance, program, words.payments))
    print(table_of(verdicts), end="")
    return status_of(verdicts)


# ---- faults


def add_lint(commands: argparse._SubParsersAction) -> None:
    parser = new_command(commands, "lint", "tell all that is wrong in a portfolio and its scripts, at once: what is "
                         "refused, names that aren't used, and what is likely not meant", lint)
    parser.add_argument("portfolio", metavar="PORTFOLIO", help="a portfolio's file")
    parser.add_argument("scripts", nargs="*", metavar="SCRIPT", help="the scripts that are read over it")
    parser.add_argument("--form", choices=("text", "jsonl"), default="text", help="lines for people, or an object a "
                        "finding")
    parser.add_argument("--strict", action="store_true", help="status 1 also where nothing is refused, and something is "
                        "unused with effect, unknown, or likely not meant")


def lint(words: argparse.Namespace) -> int:
    import json
    from dataclasses import asdict

    from .lint import lint_files, text_of
    report = lint_files(words.portfolio, words.scripts)
    if words.form == "jsonl":
        for finding in report.findings:
            print(json.dumps(asdict(finding), ensure_ascii=False))
    else:
        print(text_of(report, words.portfolio), end="")
    if report.status or not words.strict:
        return report.status
    return 1 if any(finding.wanted != "without effect" for finding in report.findings) else 0


# ---- parts


def positive(text: str) -> int:
    """A whole number above 0, of the command line."""
    number = int(text)
    if number < 1:
        raise ValueError
    return number


positive.__name__ = "number above 0"


def add_jobs(parser: argparse.ArgumentParser) -> None:
    """Adds the option how much is done at once."""
    parser.add_argument("-j", "--jobs", type=positive, metavar="N", default=os.cpu_count() or 1,
                        help="how many at once")


def add_split(commands: argparse._SubParsersAction) -> None:
    parser = new_command(commands, "split", "split a portfolio of any size, a list or JSON Lines, with its scripts into "
                         "parts that the program takes; what refers to one another stays together", split)
    parser.add_argument("portfolio", metavar="PORTFOLIO", help="a list of contracts, or a contract a line")
    parser.add_argument("scripts", nargs="*", metavar="SCRIPT", help="scripts, taken as one; without any all is asked "
                        "for once")
    parser.add_argument("-o", "--output", metavar="FOLDER", required=True, help="the folder of parts, which is made")
    for name, most, what in [("contracts", 4096, "contracts of a part"), ("bytes", 64 << 20, "bytes of its portfolio"),
                             ("entries", 1_048_576, "entries of its script"),
                             ("weight", 4_194_304, "what its asks weigh")]:
        parser.add_argument(f"--{name}", type=positive, metavar="N", default=most, help=f"the most {what}")
    add_jobs(parser)


def split(words: argparse.Namespace) -> int:
    from .split import Limits, split as split_files
    limits = Limits(min(words.contracts, 4096), min(words.bytes, 64 << 20), min(words.entries, 1_048_576),
                    min(words.weight, 4_194_304))
    parts = split_files(words.portfolio, words.scripts, words.output, limits, words.jobs)
    print(f"{parts} part{'s' * (parts != 1)} in {words.output}")
    return 0


def add_run_parts(commands: argparse._SubParsersAction) -> None:
    parser = new_command(commands, "run-parts", "run the parts that aren't done: here, by GNU parallel, or by Slurm",
                         run_parts)
    parser.add_argument("parts", metavar="FOLDER", help="a folder of parts, which `split` has made")
    parser.add_argument("--engine", choices=("local", "parallel", "slurm"), default="local", help="what runs them")
    add_jobs(parser)
    parser.add_argument("--retry", action="store_true", help="run those that failed again")
    parser.add_argument("--careful", action="store_true", help="compare the hashes of all texts that are there")
    parser.add_argument("--sshlogin", action="append", default=[], metavar="HOST", help="a host for GNU parallel, as it "
                        "takes them (: is this one); may be given again")
    parser.add_argument("--option", action="append", default=[], metavar="OPTION", help="an option for parallel or "
                        "sbatch, as --option=--partition=night; may be given again")
    add_program(parser)


def run_parts(words: argparse.Namespace) -> int:
    from .engines import run_parts as run_all
    from .program import find_program
    if words.sshlogin and words.engine != "parallel":
        raise ToolError("--sshlogin is for --engine parallel", WORDS)
    return run_all(words.parts, words.engine, find_program(words.program), words.jobs, words.retry, words.sshlogin,
                   words.option, words.careful)


def add_run_part(commands: argparse._SubParsersAction) -> None:
    parser = new_command(commands, "run-part", "run some parts, one after the other, as engines do on their hosts; "
                         "how each ended is written down, and the status is 0 where that could be done", run_part)
    parser.add_argument("parts", metavar="FOLDER", help="a folder of parts")
    parser.add_argument("numbers", nargs="+", type=positive, metavar="N", help="the numbers of parts")
    add_program(parser)


def run_part(words: argparse.Namespace) -> int:
    from .engines import run_part as run_one
    from .parts import hash_of
    from .program import find_program
    program = find_program(words.program)
    program_hash = hash_of(program)
    for number in words.numbers:
        run_one(words.parts, number, program, program_hash)
    return 0


def add_gather(commands: argparse._SubParsersAction) -> None:
    parser = new_command(commands, "gather", "put all parts into one CSV file or SQLite database, or sum them by period "
                         "and currency", gather)
    parser.add_argument("parts", metavar="FOLDER", help="a folder of parts that are done")
    parser.add_argument("-o", "--output", metavar="FILE", help="the file to write; else the standard output")
    parser.add_argument("--form", choices=("csv", "sqlite"), help="the form; else by the end of the output's name, or "
                        "csv")
    parser.add_argument("--ladder", choices=("month", "year"), help="sums by month or year and currency, as CSV")
    add_csv(parser)
    add_jobs(parser)


def gather(words: argparse.Namespace) -> int:
    from .gather import gather_csv, gather_database, gather_ladder
    form, csv = form_of(words.form, words.output), csv_form(words)
    if form == "jsonl" or words.ladder and form != "csv":
        raise ToolError("parts are gathered as CSV or SQLite, and sums as CSV", WORDS)
    if words.ladder:
        stopped = gather_ladder(words.parts, words.output, words.ladder, csv, words.jobs)
    elif form == "sqlite":
        stopped = gather_database(words.parts, words.output, words.jobs)
    else:
        stopped = gather_csv(words.parts, words.output, csv, words.jobs)
    return told(stopped, words.parts)


def add_audit_parts(commands: argparse._SubParsersAction) -> None:
    parser = new_command(commands, "audit-parts", "judge the text of each part by actus_audit", audit_parts)
    parser.add_argument("parts", metavar="FOLDER", help="a folder of parts that are done")
    add_jobs(parser)
    add_program(parser, "actus_audit")


def audit_parts(words: argparse.Namespace) -> int:
    from .engines import audit_parts as audit_all
    from .program import find_program
    return audit_all(words.parts, find_program(words.program, "actus_audit"), words.jobs)


# ---- the whole


def main(words: Sequence[str] | None = None) -> int:
    """Runs the command of some words, those of the command line where none are given; gives back its status."""
    if sys.stdout is None:
        return said("the standard output is closed", UNWRITABLE)
    try:
        return ended(words)
    finally:
        leave_output()


def leave_output() -> None:
    """Writes out what is left; where nobody takes it, it is dropped, so that nothing is said of it at the end."""
    try:
        sys.stdout.flush()
    except OSError:
        with contextlib.suppress(OSError):
            os.dup2(os.open(os.devnull, os.O_WRONLY), sys.stdout.fileno())


def ended(words: Sequence[str] | None) -> int:
    """The status that the command of some words ends with; what goes wrong is said in a line."""
    try:
        given = new_parser().parse_args(words)
        status = given.work(given)
        sys.stdout.flush()
        return status
    except ToolError as error:
        return said(error.message, error.status)
    except BrokenPipeError:
        return UNWRITABLE
    except OSError as error:
        where = f"{error.filename}: " if error.filename else ""
        return said(f"{where}{reason(error)}", UNWRITABLE if error.errno in (28, 30) else UNREADABLE)
    except MemoryError:
        return said("memory ran out", NO_MEMORY)
    except KeyboardInterrupt:
        return said("stopped by the keyboard", 130)
    except BrokenExecutor:
        return said("a process was ended from outside, as where memory runs out: take fewer by -j", NO_MEMORY)
    except UnicodeError as error:
        return said(f"a file isn't UTF-8 throughout: {error}", UNREADABLE)
    except (ValueError, OverflowError, RecursionError) as error:
        return said(f"a number or a text is too large to be taken: {error}", UNREADABLE)


def said(message: str, status: int) -> int:
    """Says a line on standard error; gives back the status."""
    with contextlib.suppress(OSError):
        print("actus: " + " ".join(message.splitlines()), file=sys.stderr)
    return status
