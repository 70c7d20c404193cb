"""Files that are read and written: standard input and output by `-`, one line where something can't be opened, and
texts that are written beside and renamed, so that no half of one stands under its name."""

from __future__ import annotations

import contextlib
import os
import stat
import sys
from collections.abc import Iterator
from pathlib import Path
from typing import BinaryIO, TextIO

from .errors import UNREADABLE, UNWRITABLE, ToolError, reason

Path_ = str | os.PathLike[str]


@contextlib.contextmanager
def reading(name: Path_) -> Iterator[BinaryIO]:
    """The file, open for reading bytes; `-` is the standard input."""
    if str(name) == "-":
        if sys.stdin is None:
            raise ToolError("the standard input is closed: name a file", UNREADABLE)
        yield sys.stdin.buffer
        return
    try:
        file = open(name, "rb")
    except OSError as error:
        raise ToolError(f"{name} can't be read: {reason(error)}", UNREADABLE) from None
    with file:
        yield file


def read_whole(name: Path_) -> bytes:
    """All bytes of a file; `-` is the standard input."""
    try:
        with reading(name) as file:
            return file.read()
    except OSError as error:
        raise ToolError(f"{name} can't be read: {reason(error)}", UNREADABLE) from None


@contextlib.contextmanager
def writing(name: Path_ | None, encoding: str = "utf-8") -> Iterator[TextIO]:
    """The file, open for writing text; none or `-` is the standard output. A file is written beside its name and
    renamed when all has been written."""
    if name is None or str(name) == "-":
        yield sys.stdout
        return
    with replacing(name) as path, _created(path, encoding) as file:
        yield file


@contextlib.contextmanager
def _created(path: Path, encoding: str) -> Iterator[TextIO]:
    with open(path, "w", encoding=encoding, newline="") as file:
        yield file


def is_replaceable(name: Path_) -> bool:
    """A regular file that is no symbolic link stands there, or nothing."""
    try:
        return stat.S_ISREG(os.lstat(name).st_mode)
    except OSError:
        return True


@contextlib.contextmanager
def replacing(name: Path_) -> Iterator[Path]:
    """A name beside the file's, which takes its place when the block is left without an error, and is removed with
    one. What is no regular file, as a device, a pipe or a link, is never replaced: it is its own name, and is written
    through."""
    goal = Path(name)
    if not is_replaceable(goal):
        try:
            yield goal
        except OSError as error:
            raise ToolError(f"{name} can't be written: {reason(error)}", UNWRITABLE) from None
        return
    beside = goal.with_name(f".{goal.name}.{os.getpid()}.part")
    try:
        yield beside
        os.replace(beside, goal)
    except OSError as error:
        raise ToolError(f"{name} can't be written: {reason(error)}", UNWRITABLE) from None
    finally:
        with contextlib.suppress(OSError):
            beside.unlink()
