"""The page docs/CALLS.md: every public item of the library by its public module, with its signature, its doc comment, what is
proved of it, and the tests that call it; then the program and the calls for C. A plain reader is a line.

Of the doc comment of a call with claims stand there the first sentence and those that say what the caller sees to. The others say
in other words what the claims say, as when an error comes and what it leaves: the heading leads to the whole. Of a law its doc
comment stands there alone; its claims stand in its source, to which the heading leads."""
from __future__ import annotations

import pathlib
import re
from collections.abc import Iterable, Iterator

from examples import doc_lines, place_of
from library import KINDS, Call, Library, Module, Placed
from proved import Proved, is_plain, sentences, tells_premises
from rattle import Item, indent_of
from sources import CRATES, FOR_C, MAIN, ORDER, ROOT, fenced, files_of, shown

# Files of tests: what each is of (a public module, the program, the library for C, or laws), its name, and its text.
Test = tuple[str, str, str]

# Bounds of functions that the page says once.
BOUNDS_SAID_ONCE = {
    "H: Fn(WidthHeightDepth) -> u128",
    "C: Fn([WidthHeightDepth; 3], [WidthHeightDepth; 3], &H) -> Ordering",
    *(f"{it}: Ord + Clone + Drop" for it in ("Id", "BinId", "GroupId")),
    "A: Allocator + Copy",
}


def tests() -> list[Test]:
    found = []
    of_c = [it for it in files_of([FOR_C], "src", ".rt") if it.relative_to(CRATES / FOR_C / "src").parts[0].startswith("tests")]
    for path in files_of([it for it in ORDER if it.startswith("tests_of_")], "src", ".rt") + of_c:
        crate, _, *words = path.relative_to(CRATES).with_suffix("").parts
        home = {f"tests_of_{MAIN}": MAIN, FOR_C: FOR_C}.get(crate, words[0])
        found.append((home, "/".join(words), re.sub(r"//.*", "", path.read_text())))
    return found


class Page:
    """The page, whose sections are texts; an empty one is left out."""

    def __init__(self, library: Library, proved: Proved) -> None:
        self.library, self.proved, self.tests = library, proved, tests()
        self.told = [text for module in library.modules for text in self.module(module) if text]

    def sections(self, _: str) -> str:
        return "\n\n".join(self.told)

    def claims(self, names: str) -> str:
        """What these functions claim, and their tests."""
        calls = [self.proved.calls[it] for it in names.split(", ")]
        return "\n\n".join(filter(None, (text for it in calls for text in (f"### `{it.name}`", *self.proved_of(it)))))

    def proved_of(self, call: Call) -> Iterator[str]:
        yield "\n".join(self.proved.claims(call))
        yield tests_of(call, self.tests)

    def function(self, level: int, call: Call, kind: str = "") -> Iterator[str]:
        yield "#" * level + f" {kind} {linked(call.name, call)}".replace("  ", " ")
        if kind == "Law":
            yield stated(call.item.docs)
            yield tests_of(call, self.tests)
        else:
            yield signature(call.item.head)
            yield docs_of(call.item.docs, call.path, any(self.proved.claims(call)))
            yield from self.proved_of(call)

    def type(self, placed: Placed) -> Iterator[str]:
        item = placed.item
        visible = [part for part in item.parts() if item.kind == "enum" or part.is_public]
        yield f"### {KINDS[item.kind]} {linked(item.name, placed)}"
        # The heading says the rest.
        yield f"`{item.head.removeprefix('pub ')}`" if "<" in item.head else ""
        yield docs_of(item.docs, placed.path)
        yield "\n".join(line for part in visible for line in listed(part))
        yield from self.impls(item.name)
        yield from self.methods(item.name)

    def impls(self, name: str) -> Iterator[str]:
        """The impls of traits that say what they do, with their claims."""
        for it in self.library.told_impls():
            trait, _, kind = it.name.removeprefix("impl ").partition(" for ")
            if re.match(rf"{name}\b", kind):
                yield f"`{trait}`:\n\n" + "\n".join(self.proved.claims(it))

    def methods(self, name: str) -> Iterator[str]:
        """The plain ones first, a line each, then the others."""
        methods = [it for _, it in self.library.methods[name]]
        yield "\n".join(f"- `{it.item.head.removeprefix('pub ')}`: {' '.join(it.item.docs)}" for it in methods if is_plain(it))
        for method in (it for it in methods if not is_plain(it)):
            yield from self.function(4, method)

    def module(self, module: Module) -> Iterator[str]:
        yield f"## `{module.words[-1]}`"
        yield docs_of(module.docs, module.path)
        if module.words == [ROOT]:
            others = {name for name, home in self.library.homes.items() if home != ROOT}
            named = ", ".join(f"`{it}`" for it in sorted(self.library.again))
            yield f"Exported here too: {'all that stands under the other modules' if others == self.library.again else named}."
        # Types first, and laws last.
        for it in sorted(module.stands, key=lambda it: {"struct": 0, "enum": 0, "law": 2}.get(it.kind, 1)):
            if it.kind in ("struct", "enum"):
                yield from self.type(it)
            elif it.kind in ("fn", "law"):
                yield from self.function(3, self.proved.calls[it.item.name], KINDS[it.kind])
            else:
                yield f"### {KINDS[it.kind]} `{it.item.name}`"
                yield fenced([it.item.head + ";"], "rust")
                yield docs_of(it.item.docs, it.path)


def linked(name: str, placed: Placed) -> str:
    """The name, with a link to where the doc comment begins."""
    line = placed.item.line - len(placed.item.docs) - len(placed.item.attributes)
    return f"[`{name}`](../{shown(placed.path)}#L{line})"


def tests_of(call: Call, among: Iterable[Test]) -> str:
    """The files of tests that name the call, of those that are of its module: a method behind a dot or a path."""
    around, _, name = call.name.rpartition("::")
    named = re.compile(rf"(?:\.|::){name}\b" if around else rf"\b{name}\b")
    homes = {call.home, "laws"} if call.kind == "law" else {call.home}
    found = [name for home, name, text in among if home in homes and named.search(text)]
    return f"*{', '.join(gathered(found))}*" if found else ""


def gathered(names: list[str]) -> Iterator[str]:
    """Names of files, those of one folder in one word, as a shell reads it."""
    inside: dict[str, list[str]] = {}
    for name in names:
        folder, _, rest = name.partition("/")
        inside.setdefault(folder, []).append(rest)
    for folder, rests in inside.items():
        if "" in rests:
            yield f"`{folder}`"
        if left := [it for it in rests if it]:
            yield f"`{folder}/{left[0]}`" if len(left) == 1 else f"`{folder}/{{{','.join(left)}}}`"


def docs_of(docs: list[str], path: pathlib.Path, has_claims: bool = False) -> str:
    """A doc comment up to its example, and a link to that, in this file."""
    until = docs.index("```") if "```" in docs else len(docs)
    told = "\n".join(docs[:until]).strip()
    if has_claims:
        first, *others = sentences(told)
        told = " ".join([first, *filter(tells_premises, others)])
    if until == len(docs):
        return told
    lines = [it.strip() for it in path.read_text().splitlines()]
    line = place_of([it.strip() for it in docs], doc_lines(lines)) + until + 1
    return f"{told}\n\n[Example](../{shown(path)}#L{line})"


def stated(docs: list[str]) -> str:
    """What a law says, by its doc comment."""
    said = " ".join(docs).removeprefix("A law: ")
    return said[0].upper() + said[1:]


def signature(head: str) -> str:
    """The head of a public function, without bounds that the page says once; in a line where no others are left."""
    lines = [it for it in dedented(head.removeprefix("pub ")).split("\n") if it.strip().rstrip(",") not in BOUNDS_SAID_ONCE]
    if "where" in lines[:-1]:
        return fenced([*lines[:-1], lines[-1].rstrip(",")], "rust")
    line = " ".join(it.strip() for it in lines if it != "where")
    return f"`{line.replace('( ', '(').replace(', )', ')')}`"


def dedented(head: str) -> str:
    """A head whose lines after the first are moved to the left as far as the first stood to the right."""
    first, *rest = head.rstrip(",").split("\n")
    closed = rest and rest[-1].lstrip().startswith(")")
    shift = indent_of(rest[-1]) if closed else min(map(indent_of, rest), default=0)
    return "\n".join([first, *(line[min(shift, indent_of(line)) :] for line in rest)])


def listed(part: Item, indent: str = "") -> Iterator[str]:
    """A field or a variant with its types and its doc comment, and below it the fields of a variant."""
    yield f"{indent}- `{part.head.removeprefix('pub ').rstrip(',')}`: {' '.join(part.docs)}"
    for field in part.parts():
        yield from listed(field, indent + "  ")
