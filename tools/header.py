#!/usr/bin/env python3
"""Compares include/rectangle_pack.h with what crates/rectangle_pack_c exports.

header.py: the calls with their parameters in order, by name and by type, the fields of the structs with their places, and all
    numbers with a name. The crate's side is read from its sources, and written as C that the compiler then holds against the
    header. Without a C compiler that is skipped, and only names and numbers are compared."""

import os
import pathlib
import re
import shutil
import subprocess
import sys
import typing

TOP = pathlib.Path(__file__).resolve().parent.parent
HEADER = TOP / "include" / "rectangle_pack.h"
SOURCES = TOP / "crates" / "rectangle_pack_c" / "src"
NUMBERS = {"u32": "uint32_t", "u64": "uint64_t", "usize": "size_t"}
# The word that stands for no parameter in C, and for no place in a struct: the allocator has no fields.
NOTHING = "Global"


class Mismatch(Exception):
    """A place where the header is not what the crate exports."""


class Part(typing.NamedTuple):
    """A parameter or a field: its name, and its type in C without the name."""

    name: str
    kind: str


class Call(typing.NamedTuple):
    name: str
    parts: list[Part]
    answer: str


def words_of(text: str) -> str:
    """The text without comments and with single spaces."""
    return " ".join(re.sub(r"/\*.*?\*/|//[^\n]*", " ", text, flags=re.S).split())


def in_c(name: str) -> str:
    """What a struct of the crate is called in C: RpCutStep is rp_cut_step."""
    return re.sub(r"(?<!^)([A-Z])", r"_\1", re.sub(r"<.*>", "", name)).lower()


def kind_of(kind: str) -> str:
    """A type of the crate that is no slice, as C has it."""
    if found := re.fullmatch(r"&('\w+ )?(mut )?(.*)", kind):
        return f"{'' if found[2] else 'const '}{kind_of(found[3])} *"
    if found := re.fullmatch(r"\*mut (.*)", kind):
        return "void *"
    return NUMBERS.get(kind, in_c(kind))


def parts_of(text: str) -> list[Part]:
    """Parameters or fields of the crate, as C has them: a slice is a pointer and how many entries there are."""
    parts = []
    for field in filter(None, map(str.strip, text.split(","))):
        name, kind = field.removeprefix("pub ").split(": ", 1)
        if kind == NOTHING:
            continue
        if found := re.fullmatch(r"&('\w+ )?(mut )?\[(.*)\]", kind):
            parts += [Part(name, f"{'' if found[2] else 'const '}{kind_of(found[3])} *"), Part("", "size_t")]
        else:
            parts.append(Part(name, kind_of(kind)))
    return parts


def calls_of(text: str) -> list[Call]:
    found = re.findall(r'pub extern "C" fn (\w+)\((.*?)\)(?: -> (\w+))?(?= requires| ensures| \{)', text)
    return [Call(name, parts_of(parts), NUMBERS.get(answer, "void")) for name, parts, answer in found]


def structs_of(text: str) -> dict[str, list[Part]]:
    found = re.findall(r"#\[repr\(C\)\] #\[derive\([^)]*\)\] pub struct (\w+)(?:<'a>)? \{(.*?)\}", text)
    return {in_c(name): parts_of(re.sub(r"pub ghost .*", "", fields)) for name, fields in found}


def numbers_of(text: str) -> dict[str, int]:
    return {name: int(value, 0) for name, value in re.findall(r"pub const (RP_\w+): u(?:32|64) = (\w+);", text)}


def names_of(parts: str) -> list[str]:
    """The names of parameters or of fields in C, where one type may stand before several."""
    return re.findall(r"(\w+)(?=[,;]|$)", parts.strip())


def compare(what: str, ours: list[Part], theirs: list[str]) -> None:
    """By name; how many entries a list has is called so, or `length`, in C alone."""
    same = len(ours) == len(theirs) and all(
        name == part.name or not part.name and name.endswith(("count", "length")) for part, name in zip(ours, theirs)
    )
    if not same:
        raise Mismatch(f"{what}: the header has {', '.join(theirs)}, the crate {', '.join(part.name or '(a length)' for part in ours)}")


def compare_names(header: str, calls: list[Call], structs: dict[str, list[Part]], numbers: dict[str, int]) -> dict[str, list[str]]:
    """Holds names and numbers against each other; the fields of each struct in C."""
    theirs = {name: names_of(parts) for name, parts in re.findall(r"\w+ (rectangle_pack_\w+)\((.*?)\);", header)}
    if sorted(theirs) != sorted(call.name for call in calls):
        raise Mismatch(f"the header has the calls {sorted(theirs)}, the crate {sorted(call.name for call in calls)}")
    for call in calls:
        compare(call.name, call.parts, theirs[call.name])
    fields = {name: names_of(parts) for name, parts in re.findall(r"typedef struct (\w+) \{(.*?)\}", header)}
    if sorted(fields) != sorted(structs):
        raise Mismatch(f"the header has the structs {sorted(fields)}, the crate {sorted(structs)}")
    for name, parts in structs.items():
        compare(name, parts, fields[name])
    given = {name: int(value, 0) for name, value in re.findall(r"(RP_\w+)(?: = | UINT(?:32|64)_C\()(\w+)", header)}
    if given != numbers:
        raise Mismatch(f"numbers that differ: {sorted(set(given.items()) ^ set(numbers.items()))}")
    return fields


def as_c(calls: list[Call], structs: dict[str, list[Part]], fields: dict[str, list[str]]) -> str:
    """The crate's side in C: each call declared once more, and each struct once more under another name, with its places."""
    lines = ['#include "rectangle_pack.h"']
    for name, parts in structs.items():
        own = " ".join(f"{part.kind} {field};" for part, field in zip(parts, fields[name]))
        lines.append(f"struct own_{name} {{ {own} }};")
        lines.append(f'_Static_assert(sizeof({name}) == sizeof(struct own_{name}), "{name}");')
        lines += [
            f'_Static_assert(offsetof({name}, {field}) == offsetof(struct own_{name}, {field}), "{name}.{field}");'
            f"\n_Static_assert(_Generic((({name} *)0)->{field}, {part.kind}: 1, default: 0), "
            f'"{name}.{field}: its type");'
            for part, field in zip(parts, fields[name])
        ]
    lines += [f"{call.answer} {call.name}({', '.join(part.kind for part in call.parts)});" for call in calls]
    return "\n".join(lines) + "\n"


def compile_c(text: str) -> None:
    compiler = shutil.which(os.environ.get("CC", "cc"))
    if not compiler:
        print("skipped: types and places in the header: there is no C compiler")
        return
    words = [compiler, "-std=c11", "-Wall", "-Wextra", "-Werror", "-fsyntax-only", f"-I{HEADER.parent}", "-xc", "-"]
    ran = subprocess.run(words, input=text, capture_output=True, text=True)
    if ran.returncode:
        raise Mismatch(ran.stderr)


def main() -> int:
    header = words_of(HEADER.read_text())
    source = " ".join(words_of(path.read_text()) for path in sorted(SOURCES.glob("*.rt")))
    calls, structs, numbers = calls_of(source), structs_of(source), numbers_of(source)
    try:
        fields = compare_names(header, calls, structs, numbers)
        compile_c(as_c(calls, structs, fields))
    except Mismatch as why:
        print(f"header.py: {why}", file=sys.stderr)
        return 1
    print(f"the header for C is what the crate exports: {len(calls)} calls, {len(structs)} structs, {len(numbers)} numbers")
    return 0


if __name__ == "__main__":
    sys.exit(main())
