"""Makes the pages of docs/ that are made of the sources and of the texts in docs/templates, and checks these pages and the sources.

python3 tools/pages: makes docs/CALLS.md, docs/HEADLINE.md and docs/MAP.md anew.
python3 tools/pages --check: prints a line for each fault. A made page is not what that makes; a definition, a clause, a crate or a
    module has no comment that says what it is; a page names what is not there; no claim names a wrong body that the gate tries on
    the program; an example of a doc comment or of the README is no test.
python3 tools/pages CALL: the contract of a public call, as `pack_rects`, `Session::run` or `run_buffered`, and the definitions that it rests on,
    in an order in which none is used before it is told."""
from __future__ import annotations

import re
import sys

import calls
import definitions
import examples
import modules
from headline import Headline
from library import Library, calls_in, functions_in
from proved import Proved
from sources import DOCS, FOR_C, MAIN, PROGRAM, fill_page, shown


def main() -> None:
    library, headline = Library(), Headline()
    for_c = [it for it in calls_in([FOR_C], FOR_C) if 'extern "C"' in it.item.head]
    named = ", ".join(re.findall(r"\{\{claims (.*)\}\}", (DOCS / "templates/CALLS.md").read_text())).split(", ")
    proved = Proved([*library.calls(), *for_c], named, functions_in(PROGRAM, MAIN))
    page = calls.Page(library, proved)
    pages = {
        "CALLS.md": fill_page("CALLS.md", page.sections, page.claims),
        "HEADLINE.md": fill_page("HEADLINE.md", headline.place, headline.count, headline.definitions),
        "MAP.md": fill_page("MAP.md", modules.modules),
    }
    stale = [name for name, text in pages.items() if not (DOCS / name).exists() or (DOCS / name).read_text() != text]
    match sys.argv[1:]:
        case []:
            for name in stale:
                (DOCS / name).write_text(pages[name])
        case ["--check"]:
            faults = [f"docs/{name}: is not what `python3 tools/pages` makes" for name in stale]
            faults += [f"{shown(it.path)}: no public module exports the law `{it.item.name}`" for it in library.hidden_laws]
            faults += [f"docs/templates/CALLS.md: does not name `{it.name}`" for it in for_c if it.name not in named]
            faults += [*proved.faults(), *definitions.faults(), *modules.faults(), *examples.faults()]
            sys.exit("\n".join(f"pages: {it}" for it in faults) if faults else 0)
        case [name] if name in headline.library.calls or name in headline.program.calls:
            print(Headline().of_call(name))
        case _:
            sys.exit(__doc__)


main()
