"""Reads the definitions of specs/: each with the comment above it and the heads of the modules around it."""
from __future__ import annotations

import pathlib
import re
from dataclasses import dataclass

from sources import CRATES

# Where a name is from: a module, and what it is called there.
Origin = tuple[str, str]


@dataclass(frozen=True, eq=False)
class Definition:
    """One definition. Its comment is what it means, and a worked example; `module` is its file, as `rectangle_pack.specs.Stats`."""

    name: str
    module: str
    line: int
    heads: list[str]
    meaning: str
    example: str
    lines: list[str]

    def length(self) -> int:
        """Its lines without comments."""
        return sum(not line.lstrip().startswith("--") for line in self.lines)

    def cases(self) -> list[str]:
        """The cases of a `data`."""
        is_data = re.match(r"\s*pub data ", self.lines[0])
        return re.findall(r"(?m)^\s+(\w+) : ", "\n".join(self.lines[1:])) if is_data else []

    def field(self, name: str) -> list[str]:
        """The lines of a field of a record."""
        lines = [line for line in self.lines if not line.lstrip().startswith("--")]
        starts = [i for i, line in enumerate(lines) if re.match(r"\s+pub \S+ :", line)] + [len(lines)]
        return next(lines[i:j] for i, j in zip(starts, starts[1:]) if lines[i].split()[1] == name)

    def call(self) -> str:
        """Its name, with those of its parameters; `_` for one that only cases stand for."""
        code = "\n".join(self.lines)
        if re.match(r"\s*pub record", code):
            return " ".join([self.name, *re.findall(r"\(([\w ]+) :", code.partition(" where\n")[0])])
        heads = re.findall(rf"(?m)^\s*{self.name} ([^=]*) =", re.sub(r" \{[^{}]*\}", "", code))
        columns = zip(*(re.findall(r"\((?:[^()]|\([^()]*\))*\)|\S+", it) for it in heads))
        names = [next((it for it in column if is_parameter(it, code, column.count(it))), "_") for column in columns]
        return " ".join([self.name, *names]) if set(names) != {"_"} else self.name


def is_parameter(word: str, code: str, times: int) -> bool:
    """Whether a word at the left of so many equations is no case: one with a capital is none where the equations go on to use it."""
    is_used = len(re.findall(rf"\b{word}\b", code)) > times if word.isidentifier() else False
    return word not in ("zero", "true", "false") and (is_used or re.fullmatch(r"[a-z]\w*", word) is not None)


def head_of(text: str) -> str:
    """The comment at the head of a file."""
    lines = re.match(r"(?:--.*\n)*", text)
    return " ".join(it.lstrip("- ") for it in lines[0].splitlines()) if lines else ""


def module_of(path: pathlib.Path) -> str:
    return ".".join(path.relative_to(CRATES).with_suffix("").parts)


def imports(text: str) -> dict[str, Origin]:
    """The names that `use` lines bring in, with their origins."""
    found: dict[str, Origin] = {}
    for path, names in re.findall(r"\buse (Rattle[\w.]*)\.\{([^}]*)\}", text):
        for name in (it.strip() for it in names.split(",") if it.strip()):
            there, _, here = name.partition(" as ")
            found[here or there] = (path, there)
    return found


def definitions_in(text: str, module: str) -> list[Definition]:
    """The definitions of the text of one file."""
    heads: list[tuple[int, list[str]]] = []
    comment: list[str] = []
    found: list[Definition] = []
    # What a further line of the block goes on with: the lines of a head or of a definition.
    block: list[str] = []
    for number, line in enumerate(text.splitlines(), 1):
        indent, stripped = len(line) - len(line.lstrip()), line.strip()
        if not stripped or re.match(r"(pub )?(use|mod) ", stripped):
            comment, block = [], []
        elif block:
            block.append(line)
        elif stripped.startswith("--"):
            comment.append(stripped.removeprefix("--").strip())
        else:
            heads, block = [it for it in heads if it[0] < indent], [line]
            if stripped.startswith("module _"):
                heads.append((indent, block))
            else:
                name = re.sub(r"^((abbrev|unfoldable|pub|record|data) )+", "", stripped).split()[0]
                meaning, _, example = " ".join(comment).partition(" Example: ")
                around = [it for _, lines in heads for it in lines]
                found.append(Definition(name, module, number, around, meaning, example, block))
        if heads and block is heads[-1][1] and stripped.endswith("where"):
            comment, block = [], []
    return found


def definitions_of(path: pathlib.Path) -> list[Definition]:
    """The definitions of a file."""
    return definitions_in(path.read_text(), module_of(path))


def words(lines: list[str]) -> list[str]:
    """The words of these lines, without comments, and without the names of fields where they are declared."""
    text = "\n".join(line for line in lines if not line.lstrip().startswith("--"))
    text = re.sub(r"(?m)^(\s+)pub \S+ :", r"\1", text)
    return re.findall(r"[^\s(){}\[\];,.λ]+", text)
