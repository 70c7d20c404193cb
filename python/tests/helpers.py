"""Where the package, the program and the repository's files are."""

import os
import pathlib
import subprocess
import sys
import unittest

TOP = pathlib.Path(__file__).resolve().parents[2]
EXAMPLES = TOP / "examples"
CASES = TOP / "crates/cases/data"
sys.path.insert(0, str(TOP / "python"))


def _built(name: str) -> str | None:
    """The program by its environment variable, or as `./NAME` at the top has built it. (`./NAME` itself builds it where
    it is out of date, which takes long: that isn't done by a test.)"""
    given = os.environ.get(name.upper())
    if given:
        return os.path.abspath(given)
    built = TOP / "crates" / name / "out" / name
    return str(built) if os.access(built, os.X_OK) else None


PROGRAM = _built("actus")
AUDIT = _built("actus_audit")
needs_program = unittest.skipUnless(PROGRAM, "no program: build ./actus, or say where one is by ACTUS=PATH")
needs_audit = unittest.skipUnless(AUDIT, "no actus_audit: build it, or say where one is by ACTUS_AUDIT=PATH")


def command(*words: str, data: bytes | None = None, **kept) -> subprocess.CompletedProcess:
    """Runs `python3 -m actus WORDS` and gives back its status, output and errors as texts."""
    environment = dict(os.environ, PYTHONPATH=str(TOP / "python"))
    if PROGRAM:
        environment["ACTUS"] = PROGRAM
    done = subprocess.run([sys.executable, "-m", "actus", *map(str, words)], input=data, capture_output=True,
                          env=environment, timeout=120, **kept)
    done.stdout, done.stderr = done.stdout.decode(), done.stderr.decode()
    return done
