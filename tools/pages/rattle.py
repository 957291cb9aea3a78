"""Reads Rattle in the layout of `rt fmt`, which the gate asks for: an item ends with the first line at its indentation that ends
with `;` or `}`, or with a `;` outside braces; each clause begins a line, and a body begins with a `{` that ends one."""
from __future__ import annotations

import functools
import pathlib
import re
from collections.abc import Iterable
from dataclasses import dataclass

CLAUSE = re.compile(r" +(requires|ensures)(?: (\w+))? \{")
# In a line: a text, and a comment.
NO_CODE = re.compile(r'"(?:[^"\\]|\\.)*"|//.*')
ITEM = re.compile(
    r'(?P<public>pub(?:\([^)]*\))? )?(?:unsafe |async |(?:const|extern "C") (?=\w+ \w+ *[<(]))*'
    r"(?:(?P<kind>fn|struct|enum|trait|type|const|static|mod|use|impl)\b *)?(?P<name>\w+)?"
)


@dataclass(frozen=True)
class Clause:
    """A clause, with the comment above it; one without a name is named by its kind."""

    kind: str
    name: str
    notes: list[str]
    lines: list[str]


@dataclass(frozen=True, eq=False)
class Item:
    """An item of a file or of an impl, a field or a variant: with its comment, its doc comment and its attributes, its lines and the
    number of the first of them. Its head is what stands before the body, without clauses; the body is the lines in its braces."""

    notes: list[str]
    docs: list[str]
    attributes: list[str]
    lines: list[str]
    line: int
    head: str
    clauses: list[Clause]
    has_body: bool
    body: list[str]
    kind: str
    name: str
    is_public: bool

    @functools.cached_property
    def items(self) -> list[Item]:
        """The items in an impl or a module."""
        return items_of(self.body, self.line + len(self.lines) - len(self.body) - 1)

    def parts(self) -> list[Item]:
        """The fields of a struct or of a variant, or the variants of an enum."""
        return items_of(self.body, ends=",")

    def ghosts(self) -> dict[str, Item]:
        """The ghost definitions of the impl of a trait."""
        items = self.items if self.kind == "impl" else []
        return {found[1]: it for it in items if (found := re.match(r"ghost (\w+) =", it.head))}


def indent_of(line: str) -> int:
    return len(line) - len(line.lstrip())


def item_of(notes: list[str], docs: list[str], attributes: list[str], lines: list[str], line: int) -> Item:
    clauses: list[Clause] = []
    above: list[str] = []
    at = next((i for i, it in enumerate(lines) if CLAUSE.match(it) or it.endswith((" {", ";", "{}", " }")) or it.strip() == "{"), 0)
    indent = indent_of(lines[at]) if CLAUSE.match(lines[at]) else 0
    while indent and lines[at - 1].startswith(" " * indent + "// "):
        at -= 1
    head = "\n".join(lines[:at] if indent else lines[: at + 1])
    while indent and indent_of(lines[at]) >= indent:
        if start := CLAUSE.match(lines[at]):
            clauses.append(Clause(start[1], start[2] or start[1], above, [lines[at]]))
            above = []
        else:
            (above if lines[at].startswith(" " * indent + "// ") else clauses[-1].lines).append(lines[at])
        at += 1
    found = ITEM.match(lines[0].strip())
    kind, name, public = (found["kind"], found["name"], found["public"]) if found else ("", "", "")
    has_body = not lines[at].endswith(";")
    head = re.sub(r"\s*(\{[^{}]*\}?;?|;)$", "", head).strip()
    return Item(notes, docs, attributes, lines, line, head, clauses, has_body, lines[at + 1 : -1], kind or "", name or "", public == "pub ")


def items_of(lines: Iterable[str], first: int = 1, ends: str | tuple[str, ...] = (";", "}")) -> list[Item]:
    """The items of lines, of which the first has this number."""
    found = []
    notes: list[str] = []
    docs: list[str] = []
    attributes: list[str] = []
    block: list[str] = []
    depth = 0
    for number, line in enumerate(lines, first):
        text = line.strip()
        if not block and (not text or text.startswith(("//", "#"))):
            docs += [text[3:].removeprefix(" ")] if text.startswith("///") else []
            notes = [*notes, line] if text.startswith("// ") else notes if text else []
            attributes += [text] if text.startswith("#[") else []
            continue
        block.append(line)
        code = NO_CODE.sub("", text).rstrip()
        depth += code.count("{") - code.count("}")
        if (depth == 0 and code.endswith(";")) or (indent_of(line) == indent_of(block[0]) and code.endswith(ends)):
            found.append(item_of(notes, docs, attributes, block, number - len(block) + 1))
            notes, docs, attributes, block, depth = [], [], [], [], 0
    return found


@functools.cache
def items_in(path: pathlib.Path) -> list[Item]:
    """The items of a file."""
    return items_of(path.read_text().splitlines())


def paths_of(tree: str) -> list[list[str]]:
    """The paths that a `use` names, each as a list of words; in its braces stand names, or paths without braces."""
    head, _, inside = tree.rstrip("; }\n").partition("{")
    return [(head + it.strip()).split("::") for it in inside.split(",") if it.strip()] or [head.strip().split("::")]


def words_of(text: str) -> list[str]:
    """The words of code without lifetimes and comments."""
    return re.findall(r"\w+", re.sub(r"(?m)//.*|'\w+", "", text))


def split_impl(head: str) -> tuple[str, str]:
    """The trait, or nothing, and the type of an impl's head, without its own generics and bounds."""
    text, depth = " ".join(head.split()).removeprefix("impl"), 0
    for at, mark in enumerate(text):
        depth += {"<": 1, ">": -1}.get(mark, 0) if text[at - 1 : at + 1] != "->" else 0
        if depth == 0:
            break
    trait, found, kind = text[at + 1 :].split(" where ")[0].strip().partition(" for ")
    return (trait, kind) if found else ("", trait)
