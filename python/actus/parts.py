"""The folder of parts: its manifest, the files of each part, and what has come of it.

    parts/manifest.json         what was split, with its SHA-256, and into how many parts
    parts/00001/portfolio.json  the part's portfolio and script,
    parts/00001/script.txt
    parts/00001/part.json       their SHA-256, the places of its contracts in the file, and its asks in the whole script
    parts/00001/text            what the program has printed of them, and
    parts/00001/result.json     how that ended: status, SHA-256 of the files, the text and the program, time, memory
"""

from __future__ import annotations

import hashlib
import json
import os
import platform
from collections.abc import Iterator
from pathlib import Path
from typing import Any

from .errors import UNFINISHED, UNREADABLE, ToolError, reason
from .files import Path_

MANIFEST, PART, RESULT = "manifest.json", "part.json", "result.json"
PORTFOLIO_FILE, SCRIPT_FILE, TEXT = "portfolio.json", "script.txt", "text"
_BOOT = Path("/proc/sys/kernel/random/boot_id")


def folder_of(folder: Path_, number: int) -> Path:
    """The folder of a part."""
    return Path(folder) / f"{number:05d}"


def hash_of(name: Path_) -> str:
    """The SHA-256 of a file."""
    try:
        with open(name, "rb") as file:
            return hashlib.file_digest(file, "sha256").hexdigest()
    except OSError as error:
        raise ToolError(f"{name} can't be read: {reason(error)}", UNREADABLE) from None


def write_json(path: Path, value: Any) -> None:
    """Writes a value beside its name, on the disk, and renames it."""
    beside = path.with_name(f".{path.name}.{platform.node()}.{os.getpid()}.{id(value)}")
    with open(beside, "w", encoding="utf-8") as file:
        json.dump(value, file, indent=1)
        file.write("\n")
        file.flush()
        os.fsync(file.fileno())
    os.replace(beside, path)


def read_json(path: Path, what: str) -> dict[str, Any]:
    """Reads an object that was written so. Raises `ToolError` where there is none."""
    try:
        found = json.loads(path.read_bytes())
        if isinstance(found, dict):
            return found
    except OSError as error:
        raise ToolError(f"{path} can't be read: {reason(error)}; {what}", UNREADABLE) from None
    except ValueError:
        pass
    raise ToolError(f"{path} isn't what was written there: {what}", UNREADABLE)


def read_manifest(folder: Path_) -> dict[str, Any]:
    """The manifest of a folder of parts."""
    found = read_json(Path(folder) / MANIFEST, "`split` makes a folder of parts")
    if found.get("form") != 1 or not isinstance(found.get("parts"), int):
        raise ToolError(f"{folder} is no folder of parts of this version", UNREADABLE)
    return found


def read_part(folder: Path_, number: int) -> dict[str, Any]:
    """The manifest of a part."""
    found = read_json(folder_of(folder, number) / PART, "`split` makes it: split again")
    if not all(name in found for name in ("portfolio", "script", "places", "asks")):
        raise ToolError(f"{folder_of(folder, number) / PART} isn't what was written there: split again", UNREADABLE)
    return found


def numbers_of(manifest: dict[str, Any]) -> range:
    """The numbers of all parts."""
    return range(1, manifest["parts"] + 1)


def this_boot() -> str:
    """Which machine this is, since when it has been running: another one where it was started again."""
    try:
        return f"{platform.node()} {_BOOT.read_text().strip()}"
    except OSError:
        return platform.node()


def result_of(folder: Path_, number: int) -> dict[str, Any] | None:
    """How a part's run ended, or none where it hasn't."""
    try:
        found = json.loads((folder_of(folder, number) / RESULT).read_bytes())
    except (OSError, ValueError):
        return None
    return found if isinstance(found, dict) else None


def state_of(folder: Path_, number: int, program: str | None, part: dict[str, Any] | None = None,
             careful: bool = False) -> str:
    """`done`, `failed` or `open`: whether a part's text is there, made of the files that are there by the program of this
    hash (or by any, where none is given). The text's size is looked at, and its hash where it was written before this
    machine was started, or with `careful`; the hashes of its files are with `careful` alone."""
    part = part or read_part(folder, number)
    result = result_of(folder, number)
    if result is None or any(result.get(name) != part[name] for name in ("portfolio", "script")):
        return "open"
    if program is not None and result.get("program") != program:
        return "open"
    if result.get("status") not in (0, UNFINISHED):
        return "failed"
    path = folder_of(folder, number) / TEXT
    try:
        if path.stat().st_size != result.get("bytes"):
            return "open"
    except OSError:
        return "open"
    if careful and any(hash_of(path.with_name(name)) != part[key]
                       for name, key in ((PORTFOLIO_FILE, "portfolio"), (SCRIPT_FILE, "script"))):
        return "open"
    if (careful or result.get("boot") != this_boot()) and hash_of(path) != result.get("text"):
        return "open"
    return "done"


def failures(folder: Path_, numbers: Iterator[int] | range) -> list[tuple[int, str]]:
    """The parts that failed, each with why."""
    found = []
    for number in numbers:
        result = result_of(folder, number)
        if result and result.get("status") not in (0, UNFINISHED):
            found.append((number, f"status {result.get('status')}: {result.get('why') or 'no word'}"))
    return found
