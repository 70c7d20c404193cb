"""Runs the parts of a portfolio: here, on several hosts by GNU parallel, or on a cluster by Slurm.

Each part is run once. Its text is written beside its name and renamed, and then how it ended, so that a run that is cut
off is taken up again by the same command: what was done stays, and what wasn't is run. A status of 8 is no failure, as
the text is whole. For `parallel` and `slurm` the folder of parts, the program and this package have to be seen by all
hosts under the same paths.
"""

from __future__ import annotations

import contextlib
import os
import shlex
import shutil
import subprocess
import sys
import time
from collections.abc import Sequence
from concurrent.futures import ThreadPoolExecutor
from pathlib import Path
from typing import Any

from .errors import UNFINISHED, UNREADABLE, VERDICT, WORDS, ToolError, reason
from .parts import (PORTFOLIO_FILE, RESULT, SCRIPT_FILE, TEXT, failures, folder_of, hash_of, numbers_of, read_manifest,
                    read_part, state_of, this_boot, write_json)

ERRORS = "errors"
MOST_ARRAY = 1000


def run_part(folder: str, number: int, program: str, program_hash: str) -> int:
    """Runs a part, and writes its text and how it ended; gives back the program's status."""
    where, part = folder_of(folder, number), read_part(folder, number)
    for name, key in ((PORTFOLIO_FILE, "portfolio"), (SCRIPT_FILE, "script")):
        if hash_of(where / name) != part[key]:
            raise ToolError(f"{where / name} isn't what `split` wrote: split again", UNREADABLE)
    beside = where / f".{TEXT}.{os.uname().nodename}.{os.getpid()}.{number}"
    for left in where.glob(f".{TEXT}.*"):       # of a run that was cut off
        left.unlink(missing_ok=True)
    begun = time.monotonic()
    try:
        with open(beside, "wb") as out, open(where / ERRORS, "wb") as errors:
            process = subprocess.Popen([program, "eval", str(where / PORTFOLIO_FILE), str(where / SCRIPT_FILE)],
                                       stdin=subprocess.DEVNULL, stdout=out, stderr=errors)
            _, code, used = os.wait4(process.pid, 0)
            process.returncode = status = os.waitstatus_to_exitcode(code)
        result: dict[str, Any] = {
            "status": status, "portfolio": part["portfolio"], "script": part["script"], "program": program_hash,
            "boot": this_boot(), "seconds": round(time.monotonic() - begun, 3),
            "processor_seconds": round(used.ru_utime + used.ru_stime, 3), "memory_kib": used.ru_maxrss}
        if status in (0, UNFINISHED):
            result |= {"text": hash_of(beside), "bytes": beside.stat().st_size}
            os.replace(beside, where / TEXT)
        else:
            result["why"] = _why(where, beside, status)
        write_json(where / RESULT, result)
    except OSError as error:
        raise ToolError(f"part {number}: {error.filename or program}: {reason(error)}", UNREADABLE) from None
    finally:
        with contextlib.suppress(OSError):
            beside.unlink()
    return status


def _why(where: Path, beside: Path, status: int) -> str:
    """Why a part failed: what the program said, in one line."""
    if status < 0:
        return f"ended by signal {-status}"
    for path in (where / ERRORS, beside):
        with open(path, "rb") as file:
            line = file.readline(1000).decode("utf-8", "replace").strip()
        if line:
            return line
    return ""


# ---- engines


def run_parts(folder: str, engine: str, program: str, jobs: int, again: bool, logins: Sequence[str] = (),
              options: Sequence[str] = (), careful: bool = False) -> int:
    """Runs the parts that aren't done; gives back the status: 0 where all are, 1 where some failed."""
    manifest, program_hash = read_manifest(folder), hash_of(program)
    numbers = numbers_of(manifest)
    with ThreadPoolExecutor(max(1, jobs)) as pool:
        states = list(pool.map(lambda number: state_of(folder, number, program_hash, careful=careful), numbers))
    todo = [number for number, state in zip(numbers, states) if state == "open" or again and state == "failed"]
    done = states.count("done")
    print(f"{len(todo)} of {len(numbers)} parts to run, {done} done", file=sys.stderr)
    if todo:
        run = {"local": _local, "parallel": _parallel, "slurm": _slurm}[engine]
        run(os.path.abspath(folder), todo, program, program_hash, jobs, logins, options)
    states = [state_of(folder, number, program_hash) for number in numbers]
    failed = failures(folder, [number for number, state in zip(numbers, states) if state == "failed"])
    for number, why in failed:
        print(f"part {number} failed: {why}", file=sys.stderr)
    left = states.count("open")
    if left:
        print(f"{left} parts weren't run to their end: give the command again", file=sys.stderr)
    print(f"{states.count('done')} of {len(numbers)} parts done"
          + (f", {len(failed)} failed (--retry tries them again)" if failed else ""), file=sys.stderr)
    return VERDICT if failed or left else 0


def _local(folder: str, todo: list[int], program: str, program_hash: str, jobs: int, logins: Sequence[str],
           options: Sequence[str]) -> None:
    """Runs parts by processes of this machine."""
    def one(number: int) -> str | None:
        try:
            run_part(folder, number, program, program_hash)
        except ToolError as error:
            return f"part {number}: {error.message}"
        return None

    pool = ThreadPoolExecutor(jobs)
    try:
        for message in pool.map(one, todo):
            if message:
                print(message, file=sys.stderr)
    except BaseException:
        pool.shutdown(wait=False, cancel_futures=True)
        raise
    pool.shutdown()


def command_line(folder: str, program: str) -> list[str]:
    """The words of a command that runs parts, on any host that sees the same paths."""
    package = str(Path(__file__).resolve().parent.parent)
    return ["env", f"PYTHONPATH={package}", sys.executable, "-m", "actus", "run-part", "--program", program, folder]


def _engine(name: str, package: str) -> str:
    found = shutil.which(name)
    if not found:
        raise ToolError(f"there is no {name} on the path: install Debian's package {package}, or take --engine local",
                        UNREADABLE)
    return found


def _parallel(folder: str, todo: list[int], program: str, program_hash: str, jobs: int, logins: Sequence[str],
              options: Sequence[str]) -> None:
    """Runs parts by GNU parallel, on the hosts of `logins`; so many at once on each. What a host couldn't run, as where
    it has gone, is tried on another one."""
    words = [_engine("parallel", "parallel"), "--jobs", str(jobs), "--will-cite", "--retries", "4", *options]
    for login in logins:
        words += ["--sshlogin", login]
    words += [" ".join(map(shlex.quote, command_line(folder, program))) + " {}"]
    _wait(words, "".join(f"{number}\n" for number in todo).encode())


def slurm_script(folder: str, todo: list[int], program: str, tasks: int) -> str:
    """The batch script of an array: a task runs each so many-th part of those that are to be run."""
    words = " ".join(map(shlex.quote, command_line(folder, program)))
    numbers = shlex.quote(str(Path(folder) / "todo"))
    return (f"#!/bin/sh\n# each task of the array runs every {tasks}th part of the list\n"
            f"exec {words} $(awk -v task=\"$SLURM_ARRAY_TASK_ID\" 'NR % {tasks} == task' {numbers})\n")


def _slurm(folder: str, todo: list[int], program: str, program_hash: str, jobs: int, logins: Sequence[str],
           options: Sequence[str]) -> None:
    """Runs parts by one job array of Slurm, so many tasks at once, and waits for its end."""
    sbatch = _engine("sbatch", "slurm-wlm")
    tasks = min(MOST_ARRAY, len(todo))
    (Path(folder) / "todo").write_text("".join(f"{number}\n" for number in todo))
    script = Path(folder) / "array.sh"
    script.write_text(slurm_script(folder, todo, program, tasks))
    log = Path(folder) / "slurm-%a.log"
    _wait([sbatch, "--wait", f"--array=0-{tasks - 1}%{jobs}", "--job-name=actus-parts", f"--output={log}",
           "--open-mode=append", "--requeue", *options, str(script)], b"")


def _wait(words: list[str], data: bytes) -> None:
    try:
        subprocess.run(words, input=data, check=False, stdout=sys.stderr)
    except OSError as error:
        raise ToolError(f"{words[0]} can't be run: {reason(error)}", UNREADABLE) from None


def audit_parts(folder: str, audit: str, jobs: int) -> int:
    """Judges each part's text by `actus_audit`, over its portfolio and its script; gives back 1 where one isn't right."""
    numbers = numbers_of(read_manifest(folder))
    if not numbers:
        raise ToolError(f"{folder} has no parts", WORDS)

    def one(number: int) -> str:
        where = folder_of(folder, number)
        if state_of(folder, number, None) != "done":
            return "not done: run-parts first"
        try:
            done = subprocess.run([audit, where / PORTFOLIO_FILE, where / TEXT, where / SCRIPT_FILE],
                                  stdin=subprocess.DEVNULL, capture_output=True)
        except OSError as error:
            return f"{audit} can't be run: {reason(error)}"
        line = done.stdout.decode("utf-8", "replace").strip()
        return line or f"status {done.returncode}"

    wrong = 0
    with ThreadPoolExecutor(jobs) as pool:
        for number, line in zip(numbers, pool.map(one, numbers)):
            if not line.startswith("right "):
                wrong += 1
                print(f"part {number}: {line}")
    print(f"{len(numbers) - wrong} of {len(numbers)} parts right")
    return VERDICT if wrong else 0
