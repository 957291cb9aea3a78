"""The public items of the library, each under the public module where it stands, and the calls that contracts are of."""
from __future__ import annotations

import pathlib
import sys
from collections.abc import Iterable, Iterator
from dataclasses import dataclass, field

from rattle import Clause, Item, items_in, paths_of, split_impl, words_of
from sources import CRATES, LAYERS, ORDER, ROOT, files_of, shown

KINDS = dict(struct="Struct", enum="Enum", trait="Trait", type="Type", const="Constant", static="Static", fn="Function", law="Law")


@dataclass(frozen=True, eq=False)
class Placed:
    """An item and its file."""

    path: pathlib.Path
    item: Item

    @property
    def kind(self) -> str:
        return "law" if self.item.kind == "fn" and "laws" in pathlib.Path(shown(self.path)).with_suffix("").parts else self.item.kind

    def place(self) -> str:
        return f"{shown(self.path)}:{self.item.line}"


@dataclass(frozen=True, eq=False)
class Call(Placed):
    """A function, or the impl of a trait whose ghost definitions say what its functions do."""

    name: str
    home: str = ""

    def clauses(self) -> list[Clause]:
        return self.item.clauses or [Clause("ensures", name, it.notes, []) for name, it in self.item.ghosts().items()]

    def lines(self) -> list[str]:
        return [line for clause in self.clauses() for line in clause.lines]


@dataclass(frozen=True, eq=False)
class Module:
    """A public module of the root: its path, its file, and what stands in it."""

    words: list[str]
    path: pathlib.Path
    docs: list[str]
    items: list[Item]
    stands: list[Placed] = field(default_factory=list)

    def all(self) -> Iterator[Module]:
        """This module and the public ones inside it."""
        yield self
        for it in (it for it in self.items if it.kind == "mod" and it.is_public):
            inner = [*self.words, it.name]
            yield from (Module(inner, self.path, it.docs, it.items) if it.has_body else module_of_file(inner)).all()

    def exports(self) -> Iterator[list[str]]:
        """What this module's `pub use` names, as paths from the roots of crates."""
        uses = (" ".join(it.lines).strip().removeprefix("pub use ") for it in self.items if it.kind == "use" and it.is_public)
        for path in (path for use in uses for path in paths_of(use)):
            yield path if path[0] in LAYERS else [*self.words, *path]


def module_of_file(words: list[str]) -> Module:
    path = CRATES.joinpath(words[0], "src", *words[1:] or ["lib"]).with_suffix(".rt")
    docs = [it[3:].removeprefix(" ") for it in path.read_text().splitlines() if it.startswith("//!")]
    return Module(words, path, docs, items_in(path))


def words_of_path(path: pathlib.Path) -> list[str]:
    """The path of a module, by its file."""
    return [it for it in path.relative_to(CRATES).with_suffix("").parts if it not in ("src", "lib")]


class Library:
    """The public items by the modules where they stand, and the impls of their types."""

    def __init__(self) -> None:
        items = items_of_crates(LAYERS)
        self.public = [it for it in items if it.item.is_public and it.item.kind in KINDS]
        root, *others = module_of_file([ROOT]).all()
        self.modules = [root, *sorted(others, key=lambda it: it.words)]
        self.homes: dict[str, str] = {}
        # The root comes last, since it exports what stands elsewhere too.
        for module in self.modules[1:] + [root]:
            module.stands.extend(it for it in self.offered(module) if it.item.name not in self.homes)
            self.homes.update((it.item.name, module.words[-1]) for it in module.stands)
            # What stands lower comes first.
            module.stands.sort(key=lambda it: ([*ORDER].index(words_of_path(it.path)[0]), str(it.path)))
        self.again = {path[-1] for path in root.exports() if self.homes[path[-1]] != ROOT}
        self.hidden_laws = [it for it in self.public if it.kind == "law" and it.item.name not in self.homes]
        self.methods: dict[str, list[tuple[Item, Call]]] = {name: [] for name in self.homes}
        self.impls: dict[str, list[Call]] = {name: [] for name in self.homes}
        private = {it.item.name for it in items if it.kind == "trait"} - set(self.homes)
        for it in (it for it in items if it.kind == "impl"):
            trait, kind = split_impl(it.item.head)
            words = [word for word in words_of(kind) + words_of(trait) if word in self.homes]
            if not trait and words[:1] == words_of(kind)[:1]:
                self.methods[words[0]] += [(it.item, method) for method in methods_in(it, self.homes[words[0]])]
            elif trait and words_of(trait)[0] not in private:
                for word in dict.fromkeys(words):
                    self.impls[word] += functions_of(it, self.homes[words[0]])

    def offered(self, module: Module) -> list[Placed]:
        """The public items that a module defines, then those that it exports."""
        found = [it for it in self.public if it.item in module.items]
        for words in module.exports():
            there = [it for it in self.public if [*words_of_path(it.path)[: len(words) - 1], it.item.name] == words]
            found += there
            if len(there) != 1 and (there or module.words != [ROOT] or words[-1] not in self.homes):
                sys.exit(f"pages: {shown(module.path)}: cannot follow `pub use {'::'.join(words)}`")
        return found

    def calls(self) -> Iterator[Call]:
        """Every public function and method, and every trait impl whose ghost definitions say what it does."""
        for it in (it for module in self.modules for it in module.stands):
            if it.item.kind == "fn":
                yield Call(it.path, it.item, it.item.name, self.homes[it.item.name])
            yield from (call for _, call in self.methods[it.item.name])
        yield from self.told_impls()

    def told_impls(self) -> list[Call]:
        """The impls of traits, each once, whose ghost definitions say what their functions do."""
        found = {it.item: it for impls in self.impls.values() for it in impls}
        return [it for it in found.values() if it.clauses() and not it.name.startswith("impl Model ")]


def items_of_crates(crates: Iterable[str]) -> list[Placed]:
    return [Placed(path, item) for path in files_of(crates, "src", ".rt") for item in items_in(path)]


def functions_of(placed: Placed, home: str) -> list[Call]:
    """The function that an item is, the functions of a type's impl, or the impl of a trait, which says what its functions do."""
    item = placed.item
    if item.kind != "impl":
        return [Call(placed.path, item, item.name, home)] if item.kind == "fn" else []
    trait, kind = split_impl(item.head)
    if trait:
        return [Call(placed.path, item, f"impl {trait} for {kind}", home)]
    return [Call(placed.path, it, f"{words_of(kind)[0]}::{it.name}", home) for it in item.items if it.kind == "fn"]


def methods_in(placed: Placed, home: str) -> list[Call]:
    """The public functions of a type's impl."""
    return [it for it in functions_of(placed, home) if it.item.is_public]


def functions_in(crates: Iterable[str], home: str = "") -> Iterator[Call]:
    """The functions and methods of crates, public or not, and the impls of traits."""
    return (it for placed in items_of_crates(crates) for it in functions_of(placed, home))


def calls_in(crates: Iterable[str], home: str = "") -> Iterator[Call]:
    """The public functions and methods of crates, whether users have them or not."""
    return (it for it in functions_in(crates, home) if it.item.is_public)
