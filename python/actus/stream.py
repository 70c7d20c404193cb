"""Portfolios of any size as a stream: the contracts of a list or of JSON Lines, one after the other, each with the bytes
at which it stands. The whole is never held.

Bytes are looked at as Latin-1, so that places of signs are places of bytes; what counts here, names and days, is ASCII.
"""

from __future__ import annotations

import json
import re
from collections.abc import Iterator
from typing import Any, BinaryIO

from .errors import PORTFOLIO, ToolError

CHUNK = 4 << 20
MOST_OBJECT = 64 << 20
_BETWEEN = re.compile(r"[ \t\r\n]*(?:,[ \t\r\n]*)?")
_SPACE = re.compile(r"[ \t\r\n]*")
_TOKEN = re.compile(r'"(?:[^"\\]|\\.)*"|[{}\[\]]|"', re.DOTALL)
_QUOTABLE = re.compile(r'"(?:[^"\\]|\\.)*"|([-0-9][-+.0-9eE]*)|[+.eE][-+.0-9eE]*', re.DOTALL)
_DECODER = json.JSONDecoder(parse_float=str, parse_int=str, parse_constant=str)


class Contracts:
    """Iterates over the contracts of a file from a place on: for each its first byte, the byte behind it, and its
    object, in which numbers are texts. `end` is the place where it stopped."""

    def __init__(self, file: BinaryIO, name: str, start: int = 0, stop: int | None = None, inside: bool = False) -> None:
        self._file, self._name, self._stop = file, name, stop
        self._text, self._base, self._more = "", start, True
        file.seek(start)
        self.is_list: bool | None = None
        self._first = not inside
        self.end = start

    def _read(self) -> bool:
        """Takes more of the file; false at its end."""
        data = self._file.read(CHUNK)
        self._more = bool(data)
        self._text += data.decode("latin-1")
        return self._more

    def _drop(self, at: int) -> None:
        self._text = self._text[at:]
        self._base += at

    def _skip(self, at: int, pattern: re.Pattern[str]) -> int:
        """The place behind blanks, at which a sign stands, or the end of the file."""
        while True:
            behind = pattern.match(self._text, at).end()
            if behind < len(self._text) or not self._more:
                return behind
            self._drop(at)
            at = 0
            self._read()

    def __iter__(self) -> Iterator[tuple[int, int, dict[str, Any]]]:
        at = 0
        if self._first:
            self._read()
            at = self._begin()
        decode = _DECODER.raw_decode
        while True:
            at = self._skip(at, _BETWEEN)
            self.end = self._base + at
            if self._stop is not None and self.end >= self._stop:
                return
            sign = self._text[at:at + 1]
            if sign != "{":
                self._close(at, sign)
                return
            try:
                value, end = decode(self._text, at)
            except (ValueError, RecursionError):
                self._drop(at)
                value, end = self._slowly()
                at = 0
            yield self._base + at, self._base + end, value
            at = end
            if at > CHUNK >> 1:
                self._drop(at)
                at = 0

    def _begin(self) -> int:
        if self._text.startswith(("\xef\xbb\xbf", "\xff\xfe", "\xfe\xff")):
            raise self._wrong(0, "a byte order mark stands at the beginning: save the file as UTF-8 without one")
        at = self._skip(0, _SPACE)
        sign = self._text[at:at + 1]
        if sign not in ("[", "{"):
            raise self._wrong(at, "a portfolio is a list of contracts, in [ ], or a contract a line")
        self.is_list = sign == "["
        return at + 1 if self.is_list else at

    def _close(self, at: int, sign: str) -> None:
        if sign == "]" and self.is_list is not False:
            at = self._skip(at + 1, _SPACE)
            if at < len(self._text):
                raise self._wrong(at, "something stands behind the list")
            self.end = self._base + at
        elif sign or self.is_list is not False:
            raise self._wrong(at, "a contract was wanted, an object in { }" if sign else
                              "the file ends within the list: close it by ]")

    def _slowly(self) -> tuple[dict[str, Any], int]:
        """The object that the text begins with, and its end: by its brackets, with bare numbers of any form."""
        end = self._end_of_object()
        text = self._text[:end]
        quoted = _QUOTABLE.sub(lambda found: f'"{found[1]}"' if found[1] else found[0], text)
        try:
            return json.loads(quoted), end
        except RecursionError:
            raise self._wrong(0, "lists and objects stand too deep in one another") from None
        except ValueError as error:
            raise self._wrong(0, f"this contract is no JSON ({error}); `lint` tells where") from None

    def _end_of_object(self) -> int:
        while True:
            deep = 0
            for found in _TOKEN.finditer(self._text):
                sign = found[0]
                if sign in "{[":
                    deep += 1
                elif sign in "}]":
                    deep -= 1
                    if not deep:
                        return found.end()
            if len(self._text) > MOST_OBJECT:
                raise self._wrong(0, "this contract is longer than 64 MiB, or a bracket or a quotation mark isn't closed")
            if not self._read():
                raise self._wrong(0, "the file ends within this contract: close its brackets and quotation marks")

    def _wrong(self, at: int, why: str) -> ToolError:
        place = self._base + at
        self._file.seek(0)
        line, left = 1, place
        while left and (data := self._file.read(min(left, CHUNK))):
            line += data.count(b"\n")
            left -= len(data)
        return ToolError(f"{self._name}:{line}: {why}", PORTFOLIO)
