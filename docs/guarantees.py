#!/usr/bin/env python3
"""Makes docs/GUARANTEES.md: the page docs/guarantees-head.md, and behind it the clauses of all public calls.

    python3 docs/guarantees.py            writes the page
    python3 docs/guarantees.py --check    says whether the page is stale, and ends with 1 where it is

The crates are those of crates.txt without the cases. Public is what a crate's lib.rt exports; a program exports
nothing, so of its main.rt the functions that have clauses are taken. The sources are read by their layout, which
`rt fmt` gives them: an item begins at the left edge, and so does the line on which its braces open or close.
"""

import re
import sys
import textwrap
from collections.abc import Iterable
from pathlib import Path
from typing import NamedTuple

DOCS = Path(__file__).resolve().parent
CRATES = DOCS.parent / "crates"
HEAD = DOCS / "guarantees-head.md"
PAGE = DOCS / "GUARANTEES.md"

INTRODUCTION = """\
## Call by call

All that follows is made from the sources by `python3 docs/guarantees.py`; don't edit it here. The crates stand in the
order of `crates.txt`, each on those before it alone. A heading in small letters is a module of the crate, with its
calls; one in capitals is a type or a trait, with its methods. Each call has its comment, and its clauses as they stand
in the code: what it asks for (`requires`), and what it then gives (`ensures`). Of a call without a clause it is said
that it is safe, and no more.
"""


class Item(NamedTuple):
    """A declaration: its doc comment, its head with the clauses, and the lines in its braces."""

    doc: list[str]
    head: list[str]
    body: list[str]

    def declares(self, kinds: str) -> str | None:
        """The name of a declaration of these kinds, as `struct|enum`, public or not; None of another item."""
        found = re.match(rf"(?:pub )?(?:const )?(?:{kinds}) (\w+)", self.head[0])
        return found and found[1]

    def is_public(self) -> bool:
        """Whether other crates see it, where they see what it stands in."""
        return self.head[0].startswith("pub ")

    def has_clauses(self) -> bool:
        """Whether it asks for something, or promises something."""
        return any(re.match(r"\s*(requires|ensures)\b", line) for line in self.head)

    def is_meaning(self) -> bool:
        """Whether it says what contracts see: a ghost that isn't an import, or a trait's own type."""
        return bool(re.match(r"ghost (?!use )|type ", self.head[0]))

    def implements(self) -> tuple[str | None, str] | None:
        """Of an `impl`, its trait, if it has one, and its type, both without parameters; None of another item."""
        head, bare = "", " ".join(self.head)
        while head != bare:
            head, bare = bare, re.sub(r"<[^<>]*>", "", bare)
        found = re.match(r"impl (?:(\w+) for )?(\w+)", bare)
        return found and (found[1], found[2])


class Module(NamedTuple):
    """A module's name, its items, and the names of those that are exported."""

    name: str
    items: list[Item]
    exports: set[str]

    def exported(self, kinds: str) -> list[Item]:
        """Its items of these kinds that are exported."""
        return [item for item in self.items if item.declares(kinds) in self.exports]


# ---- reading


def text_of(path: Path) -> str:
    """What a file says."""
    return path.read_text(encoding="utf-8")


def items_of(lines: list[str]) -> list[Item]:
    """The items that begin at the left edge. Of a link in a comment its name is kept."""
    items, doc, place = [], [], 0
    while place < len(lines):
        line = lines[place]
        if line.startswith("///"):
            doc.append(re.sub(r"\[(`.*?`)\](?:\(.*?\))?", r"\1", line[3:].strip()))
        elif line and not line.startswith(("//", "#", " ")):
            item, place = item_at(lines, place, doc)
            items.append(item)
            doc = []
        place += 1
    return items


def item_at(lines: list[str], place: int, doc: list[str]) -> tuple[Item, int]:
    """The item that begins at a place, and the place of its last line."""
    head = [lines[place]]
    while not ends_head(head):
        place += 1
        head.append(lines[place])
    opened = re.fullmatch(r"(.*?) ?\{(\}?)", head[-1])
    if not opened:
        return Item(doc, head, []), place
    head = head[:-1] + [opened[1]] * bool(opened[1])
    if opened[2]:
        return Item(doc, head, []), place
    last = next(at for at in range(place + 1, len(lines)) if lines[at].startswith("}"))
    return Item(doc, head, [line[4:] for line in lines[place + 1 : last]]), last


def ends_head(head: list[str]) -> bool:
    """Whether these lines are all of an item's head: its braces open now, or it ends without any."""
    if head[-1].lstrip().startswith("//"):
        return False
    text = "".join(line for line in head if not line.lstrip().startswith("//"))
    is_balanced = all(text.count(left) == text.count(right) for left, right in ("()", "[]", "{}"))
    opens = not head[-1].startswith(" ") and head[-1].endswith(("{", "{}"))
    return opens or (is_balanced and head[-1].endswith(";"))


def root_of(crate: str) -> Path:
    """The source with which a crate begins: its lib.rt, or the main.rt of a program."""
    library = CRATES / crate / "src" / "lib.rt"
    return library if library.exists() else library.with_name("main.rt")


def modules_of(root: Path) -> list[Module]:
    """The modules of the crate that begins with a source, this one first."""
    text = text_of(root)
    items = items_of(text.splitlines())
    if root.name == "main.rt":
        return [Module("", items, names_of(item for item in items if item.has_clauses()))]
    modules = [Module("", items, names_of(item for item in items if item.is_public()))]
    for visibility, name in re.findall(r"^(pub )?mod (\w+);", text, re.M):
        items = items_of(text_of(root.with_name(f"{name}.rt")).splitlines())
        used = "".join(re.findall(rf"^pub use {name}(::[^;]*);", text, re.M))
        public = names_of(item for item in items if item.is_public())
        modules.append(Module(name, items, public if visibility else set(re.findall(r"\w+", used))))
    return modules


def names_of(items: Iterable[Item]) -> set[str]:
    """The names of the calls, types and traits among items."""
    return {item.declares("fn|struct|enum|trait") for item in items} - {None}


def summary_of(root: Path) -> str:
    """The first sentence of a crate's own comment."""
    comment = re.match(r"(//!.*\n)*", text_of(root))[0].replace("//!", "")
    return re.match(r".*?\.(?= |$)", " ".join(comment.split()))[0]


# ---- choosing


def implemented(impls: list[Item]) -> list[Item]:
    """What implementations of traits say: what contracts see by each, and its calls that have clauses of their own."""
    said = []
    for impl in impls:
        members = items_of(impl.body)
        meanings = ["    " + line for member in members if member.is_meaning() for line in member.head]
        calls = [member for member in members if member.declares("fn") and member.has_clauses()]
        if meanings or calls:
            said += [impl._replace(head=impl.head + meanings), *calls]
    return said


def type_items(item: Item, modules: list[Module]) -> list[Item]:
    """A type, its public methods and what it implements but for `Model`; nothing where that is all."""
    name = item.declares("struct|enum")
    impls = [impl for module in modules for impl in module.items if impl.implements()]
    own = [member for impl in impls if impl.implements() == (None, name) for member in items_of(impl.body)]
    methods = [member for member in own if member.declares("fn") and member.is_public()]
    traits = [impl for impl in impls if impl.implements()[1] == name and impl.implements()[0] not in (None, "Model")]
    said = methods + implemented(traits)
    return [item] + said if said else []


def trait_items(item: Item, modules: list[Module]) -> list[Item]:
    """A trait, its members, and how types of other crates implement it."""
    members = [member for member in items_of(item.body) if member.is_meaning() or member.declares("fn")]
    name = item.declares("trait")
    types = {own.declares("struct|enum") for module in modules for own in module.items}
    impls = [impl for module in modules for impl in module.items if impl.implements()]
    others = [impl for impl in impls if impl.implements()[0] == name and impl.implements()[1] not in types]
    return [item, *members, *implemented(others)]


# ---- writing


def section(title: str, items: list[Item]) -> str:
    """Items below a heading, if there are any, each as the text of its comment and its head as code."""
    text = f"### {title}\n\n" if title and items else ""
    for item in items:
        text += "\n".join(item.doc) + "\n\n" if item.doc else ""
        text += "```rust\n" + "\n".join(item.head) + "\n```\n\n"
    return text


def crate_text(crate: str) -> str:
    """The public calls of a crate."""
    modules = modules_of(root_of(crate))
    text = ""
    for module in modules:
        text += section(module.name, module.exported("fn"))
        for item in module.exported("trait"):
            text += section(item.declares("trait"), trait_items(item, modules))
        for item in module.exported("struct|enum"):
            text += section(item.declares("struct|enum"), type_items(item, modules))
    summary = textwrap.fill(summary_of(root_of(crate)), 120)
    return f"## {crate}\n\n{summary}\n\n" + (text or "It has no public calls.\n\n")


def page_text() -> str:
    """The whole page."""
    listed = re.findall(r"^\w+", text_of(DOCS.parent / "crates.txt"), re.M)
    crates = [crate for crate in listed if not crate.startswith("cases")]
    return (text_of(HEAD) + "\n" + INTRODUCTION + "\n" + "".join(map(crate_text, crates))).rstrip() + "\n"


def main() -> None:
    """Writes the page, or tells whether it is stale."""
    text = page_text()
    if sys.argv[1:] == []:
        PAGE.write_text(text, encoding="utf-8")
    elif sys.argv[1:] != ["--check"]:
        sys.exit(__doc__)
    elif not PAGE.exists() or text_of(PAGE) != text:
        sys.exit("docs/GUARANTEES.md is stale: run python3 docs/guarantees.py")


main()
