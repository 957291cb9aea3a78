"""What a reader of a public call has to believe: as a list on the page docs/HEADLINE.md, and with all texts for any one call.

A call rests on the definitions in specs/ that its contract names, that name how the types of its signature are seen (`Value`
and `view` of their models), and that these name. Lines are counted without comments."""
from __future__ import annotations

import itertools
import pathlib
import re
from collections.abc import Iterable, Iterator, Mapping

from antt import Definition, Origin, definitions_in, imports, module_of, words
from library import Call, calls_in, items_of_crates
from rattle import split_impl, words_of
from sources import LAYERS, PROGRAM, ROOT, fenced, files_of

# A definition; or the kind and the name of a type of the code, or of a word of std.
Told = Definition | tuple[str, str]


class Code:
    """Public calls, types and models of crates."""

    def __init__(self, crates: Iterable[str]) -> None:
        items = items_of_crates(crates)
        self.calls = {it.name: it for it in calls_in(crates)}
        self.types = {it.item.name: it for it in items if it.kind in ("struct", "enum") and it.item.lines[0].startswith("pub")}
        impls = [(*split_impl(it.item.head), it) for it in items if it.kind == "impl"]
        self.models = {words_of(kind)[0]: it for trait, kind, it in impls if trait == "Model"}
        self.names = {path: imports(path.read_text()) for path in files_of(crates, "src", ".rt")}

    def views(self, call: Call) -> Iterator[tuple[str, pathlib.Path, list[str]]]:
        """How the types of the call's signature, and those of their fields, are seen: each with its file and these lines."""
        own = call.name.split("::")[0]
        todo = words_of(call.item.head.replace("Self", own)) + ([own] if "self" in call.item.head else [])
        found = []
        while todo:
            name = todo.pop(0)
            if name in self.types and name not in found:
                found.append(name)
                todo += words_of("\n".join(self.types[name].item.lines))
        for name in (it for it in found if it in self.models):
            ghosts = self.models[name].item.ghosts()
            yield name, self.models[name].path, [line for it in ("Value", "view") if it in ghosts for line in ghosts[it].lines]


class Specs:
    """The definitions of modules, by their texts, and what each of these brings in."""

    def __init__(self, texts: Mapping[str, str]) -> None:
        self.known: dict[Origin, Definition] = {}
        for it in (it for module, text in texts.items() for it in definitions_in(text, module)):
            self.known.update(dict.fromkeys(((it.module, name) for name in (it.name, *it.cases())), it))
        self.by_name = {name: it for (_, name), it in self.known.items()}
        self.brought = {module: imports(text) for module, text in texts.items()}
        # The modules of its layers that the root hands on, by the names that they have there.
        handed = re.findall(r"(?m)^pub use Rattle\.(\S+\.(\w+))$", texts.get(f"{ROOT}.specs.Lib", ""))
        self.handed = {f"{ROOT}.specs.{name}": module for module, name in handed}

    def origin(self, path: str, name: str) -> Origin:
        """Where a name stands that this path has, or hands on."""
        inside = path.removeprefix("Rattle.")
        inside = self.handed.get(inside, inside)
        # The cases of a `data` are in a module of its own.
        around = inside.rpartition(".")[0]
        return (around if inside not in self.brought and around in self.brought else inside), name

    def named(self, lines: list[str], names: dict[str, Origin], module: str = "") -> Iterator[Told]:
        """The definitions, types of the code and words of std that these lines name, in the order in which they stand."""
        for word in words(lines):
            if (module, word) in self.known:
                yield self.known[module, word]
            elif word in names:
                origin = self.origin(*names[word])
                crate, _, rest = origin[0].partition(".specs.")
                if origin in self.known:
                    yield self.known[origin]
                elif crate in (*LAYERS, *PROGRAM) and rest.startswith("declared."):
                    yield "type" if crate in LAYERS else "line", rest.split(".TheVariants")[0].split(".")[-1]
                else:
                    yield "std", origin[1]

    def tell(self, roots: Iterable[Told], told: set[Told]) -> list[Told]:
        """What the roots rest on and `told` does not have yet, each after what it names; it is added to `told`."""
        order = []
        for root in (it for it in roots if it not in told):
            told.add(root)
            if isinstance(root, Definition):
                order += self.tell(self.named(root.heads + root.lines, self.brought[root.module], root.module), told)
            order.append(root)
        return order

    def roots(self, name: str) -> list[Told]:
        """What a definition, or one field of it, rests on."""
        record, _, field = name.partition(".")
        it = self.by_name[record]
        lines = it.heads + it.lines[:1] + it.field(field) if field else []
        return [other for other in self.named(lines, self.brought[it.module], it.module) if other is not it] if field else [it]


def path_of(it: Definition) -> str:
    return f"crates/{it.module.replace('.', '/')}.antt"


def beginning(meaning: str) -> str:
    """What stands before its first full stop or semicolon, with a mark where it goes on."""
    first, *rest = re.split(r"[.;] ", meaning, maxsplit=1)
    return f"{first}…" if rest else first


def listed(found: Iterable[Definition]) -> Iterator[str]:
    for is_function, them in itertools.groupby(found, lambda it: it.name[0].islower()):
        links = [(it, f"[`{it.name}`](../{path_of(it)}#L{it.line})") for it in them]
        yield from [", ".join(link for _, link in links)] if is_function else (f"{link}: {beginning(it.meaning)}" for it, link in links)


def definitions_among(order: Iterable[Told]) -> list[Definition]:
    return [it for it in order if isinstance(it, Definition)]


class Headline:
    """What the written text of the page asks for. A root is a call, a definition or one field of a definition."""

    def __init__(self) -> None:
        self.specs = Specs({module_of(path): path.read_text() for path in files_of([*LAYERS, *PROGRAM], "specs", ".antt")})
        self.library, self.program = Code(LAYERS), Code(PROGRAM)
        self.told: set[Told] = set()

    def call(self, name: str) -> tuple[Code, Call]:
        code = self.library if name in self.library.calls else self.program
        return code, code.calls[name]

    def roots(self, name: str) -> list[Told]:
        if name not in self.library.calls and name not in self.program.calls:
            return self.specs.roots(name)
        code, call = self.call(name)
        seen = [(call.path, call.lines()), *((path, lines) for _, path, lines in code.views(call))]
        return [it for path, lines in seen for it in self.specs.named(lines, code.names[path])]

    def place(self, name: str) -> str:
        return self.call(name)[1].place()

    def count(self, name: str) -> str:
        """How much a root rests on beside what was told."""
        found = definitions_among(self.specs.tell(self.roots(name), set(self.told)))
        return f"{len(found)} definitions, {sum(it.length() for it in found)} lines in {len({it.module for it in found})} files"

    def contract(self, name: str) -> str:
        call = self.call(name)[1]
        return fenced([call.item.head, *call.lines()])

    def views(self, name: str) -> str:
        """How the values of which clauses speak are seen: `self.old` is the view of the session before the call."""
        code, call = self.call(name)
        return "\n\n".join(f"`{it}`, {code.types[it].place()}\n\n{fenced(lines)}" for it, _, lines in code.views(call))

    def definitions(self, name: str) -> str:
        """What a root rests on beside what was told, which is told now, with links: a line each, and one for functions that follow
        one another, which stand there by name alone."""
        found = definitions_among(self.specs.tell(self.roots(name), self.told))
        return "\n".join(f"- {it}" for it in listed(found))

    def texts(self, name: str) -> str:
        """The same with its texts: types of the code and words of std, then definitions."""
        order, of = self.specs.tell(self.roots(name), self.told), {"type": self.library, "line": self.program}
        names = [it for it in order if not isinstance(it, Definition)]
        types = ", ".join(f"`{it}` ({of[kind].types[it].place()})" for kind, it in names if kind in of)
        std = ", ".join(f"`{it}`" for it in sorted({it for kind, it in names if kind == "std"}))
        said = [f"{title}: {them}." for title, them in (("Types of the code", types), ("Words of the standard library", std)) if them]
        for it in definitions_among(order):
            example = f" Example: {it.example}" if it.example else ""
            said.append(f"`{it.name}`, {path_of(it)}:{it.line}: {it.meaning}{example}\n\n{fenced(it.heads + it.lines)}")
        return "\n\n".join(said)

    def of_call(self, name: str) -> str:
        """A call's contract, and what it rests on."""
        parts = [f"# {name}\n\n{self.place(name)}: {self.count(name)}.", self.contract(name), self.views(name)]
        return "\n\n".join(filter(None, [*parts, self.texts(name)]))
