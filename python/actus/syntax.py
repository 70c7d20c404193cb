"""JSON as the program reads it, with the place of each value (docs/TEXTS.md, "A portfolio file").

Bare numbers are texts: outside strings each maximal run of the signs 0 to 9, -, +, ., e and E that starts with a digit
or - stands for itself in quotes. An object has of a name that is given twice the value that it gives last. Lists and
objects stand at most 127 deep in one another.
"""

from __future__ import annotations

import re
from dataclasses import dataclass

MOST_DEEP = 127
_SPACE = re.compile(r"[ \t\n\r]*")
_NUMBER = re.compile(r"[-0-9][-+.0-9eE]*")
_PLAIN = re.compile(r'[^"\\\x00-\x1f]*')
_ESCAPES = {'"': '"', "\\": "\\", "/": "/", "b": "\b", "f": "\f", "n": "\n", "r": "\r", "t": "\t"}
_HEX = re.compile(r"[0-9a-fA-F]{4}")


class SyntaxFault(Exception):
    """The bytes are no JSON: the place in characters up to which none begins so, and what was wanted."""

    def __init__(self, place: int, why: str) -> None:
        super().__init__(why)
        self.place = place
        self.why = why


@dataclass(slots=True, eq=False)
class Node:
    """A value: `sort` is `text`, `list`, `object`, `true`, `false` or `null`; `value` a text, the nodes of a list, or
    the members of an object, each a name, its place and a node. It stands from `start` to `end`, in characters."""

    sort: str
    value: str | list[Node] | list[tuple[str, int, Node]] | None
    start: int
    end: int

    def get(self, name: str) -> Node | None:
        """The value of a name in an object, the last that it gives."""
        if self.sort == "object":
            for other, _, node in reversed(self.value):
                if other == name:
                    return node
        return None

    def given(self, name: str) -> Node | None:
        """The same, but none for `null` and the empty text."""
        node = self.get(name)
        return None if node is None or node.sort == "null" or node.sort == "text" and not node.value else node


def decode(data: bytes) -> str:
    """The characters of bytes; a fault where they are no UTF-8, or begin with a byte order mark."""
    if data[:2] in (b"\xff\xfe", b"\xfe\xff"):
        raise SyntaxFault(0, "the file is in UTF-16: save it as UTF-8")
    try:
        text = data.decode("utf-8")
    except UnicodeDecodeError as error:
        raise SyntaxFault(len(data[:error.start].decode("utf-8")), "bytes that are no UTF-8: save the file as UTF-8") from None
    if text[:1] == "\ufeff":
        raise SyntaxFault(0, "a byte order mark stands at the beginning: save the file as UTF-8 without one")
    return text


def parse(text: str) -> Node:
    """The value that a text is. Raises `SyntaxFault`."""
    reader = _Reader(text)
    node = reader.value(reader.space(0), 0)
    end = reader.space(node.end)
    if end != len(text):
        raise SyntaxFault(end, "the value ends before this; nothing may follow")
    return node


def place_of(text: str, place: int) -> tuple[int, int]:
    """The line and the column of a place, both from 1, columns in characters."""
    return text.count("\n", 0, place) + 1, place - (text.rfind("\n", 0, place) + 1) + 1


class _Reader:
    def __init__(self, text: str) -> None:
        self.text = text

    def space(self, at: int) -> int:
        return _SPACE.match(self.text, at).end()

    def value(self, at: int, deep: int) -> Node:
        sign = self.text[at:at + 1]
        if sign == '"':
            return self.string(at)
        if sign == "{":
            return self.object(at, deep + 1)
        if sign == "[":
            return self.list(at, deep + 1)
        if found := _NUMBER.match(self.text, at):
            return Node("text", found[0], at, found.end())
        for word in ("true", "false", "null"):
            if self.text.startswith(word, at):
                return Node(word, None, at, at + len(word))
        raise SyntaxFault(at, self.wanted(at, "a value"))

    def wanted(self, at: int, what: str) -> str:
        if at >= len(self.text):
            return f"the file ends, and {what} was wanted"
        if self.text[at] == "'":
            return "single quotes: texts stand in double ones"
        if self.text[at] == "+":
            return "a bare + : a number begins with a digit or -"
        if self.text.startswith(("//", "/*", "#"), at):
            return "a comment: there are none"
        return f"{what} was wanted"

    def deep(self, at: int, deep: int) -> None:
        if deep > MOST_DEEP:
            raise SyntaxFault(at, f"lists and objects stand more than {MOST_DEEP} deep in one another")

    def list(self, start: int, deep: int) -> Node:
        self.deep(start, deep)
        items: list[Node] = []
        at = self.space(start + 1)
        if self.text[at:at + 1] == "]":
            return Node("list", items, start, at + 1)
        while True:
            item = self.value(at, deep)
            items.append(item)
            at = self.space(item.end)
            sign = self.text[at:at + 1]
            if sign == "]":
                return Node("list", items, start, at + 1)
            if sign != ",":
                raise SyntaxFault(at, self.wanted(at, "a comma or ]"))
            at = self.space(at + 1)
            if self.text[at:at + 1] == "]":
                raise SyntaxFault(at, "a comma stands before ]: take it away")

    def object(self, start: int, deep: int) -> Node:
        self.deep(start, deep)
        members: list[tuple[str, int, Node]] = []
        at = self.space(start + 1)
        if self.text[at:at + 1] == "}":
            return Node("object", members, start, at + 1)
        while True:
            name = self.name(at)
            colon = self.space(name.end)
            if self.text[colon:colon + 1] != ":":
                raise SyntaxFault(colon, self.wanted(colon, "a colon"))
            node = self.value(self.space(colon + 1), deep)
            members.append((name.value, name.start, node))
            at = self.space(node.end)
            sign = self.text[at:at + 1]
            if sign == "}":
                return Node("object", members, start, at + 1)
            if sign != ",":
                raise SyntaxFault(at, self.wanted(at, "a comma or }"))
            at = self.space(at + 1)
            if self.text[at:at + 1] == "}":
                raise SyntaxFault(at, "a comma stands before }: take it away")

    def name(self, at: int) -> Node:
        if self.text[at:at + 1] == '"':
            return self.string(at)
        if found := _NUMBER.match(self.text, at):
            return Node("text", found[0], at, found.end())
        raise SyntaxFault(at, self.wanted(at, "a name in double quotes"))

    def string(self, start: int) -> Node:
        parts, at = [], start + 1
        while True:
            found = _PLAIN.match(self.text, at)
            parts.append(found[0])
            at = found.end()
            sign = self.text[at:at + 1]
            if sign == '"':
                return Node("text", "".join(parts), start, at + 1)
            if sign == "\\":
                part, at = self.escape(at)
                parts.append(part)
            elif sign:
                raise SyntaxFault(at, "a line end or another control sign stands in a text: write it as \\n or \\u000a")
            else:
                raise SyntaxFault(at, "the file ends in a text: close it by a double quote")

    def escape(self, at: int) -> tuple[str, int]:
        sign = self.text[at + 1:at + 2]
        if sign in _ESCAPES and sign:
            return _ESCAPES[sign], at + 2
        if sign != "u" or not (found := _HEX.match(self.text, at + 2)):
            raise SyntaxFault(at, "no escape: write \\\\ for a backslash")
        code = int(found[0], 16)
        if not 0xD800 <= code < 0xE000:
            return chr(code), at + 6
        other = _HEX.match(self.text, at + 8) if self.text.startswith("\\u", at + 6) else None
        low = int(other[0], 16) if other else 0
        if code >= 0xDC00 or not 0xDC00 <= low < 0xE000:
            raise SyntaxFault(at, "half a pair of surrogates: write both halves")
        return chr(0x10000 + ((code - 0xD800) << 10) + low - 0xDC00), at + 12
