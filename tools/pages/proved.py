"""What each clause of a public call, of a law or of a function of the program claims, in the words of the comment above it, and
the wrong bodies that show it, which stand behind a claim in brackets. Further lines of a claim are indented. A clause that has a
name and no comment claims what the first one does that reads the same; that of a plain reader, what its doc comment says. Whether
a claim says what its clause says, no tool can tell."""
from __future__ import annotations

import pathlib
import re
from collections.abc import Iterable, Iterator
from dataclasses import dataclass

from library import Call
from rattle import Clause
from sources import CRATES, FOR_C, LAYERS, MAIN, PROGRAM, coded, files_of, shown

# The wrong bodies that the gate tries, and the others.
TRIED = [it.stem for it in CRATES.glob("*/must-fail/*.edit")]
OTHERS = [it.stem for it in CRATES.glob("*/wrong-bodies/*.edit")]

# Sentences that the page says once, of all calls or of all those for C, so not of each, and what stands in place of one. Further
# ones say what an error leaves, which cases say too that are no error.
SAID_ONCE = {
    "No other error is answered.": "",
    "No other status is answered.": "",
    "What always holds of a session holds.": "",
    "What always holds of a session holds afterwards.": "",
    "The handle has a session.": "",
    "Without groups it succeeds.": "",
    "Where the status is not `RP_DONE`, nothing is written.": "",
    "Where the status is not `RP_DONE`, no placement is written.": "",
    "Else nothing is written.": "",
    "Else no number is written.": "",
    "The same is so of packings with a heuristic that has a name, as `pack_rects_best` makes them.": "The same.",
    "The same is so of a packing with a heuristic that has a name, as `pack_rects_best` makes it.": "The same.",
    "The same is so of a heuristic that has a name, as `pack_rects_fitting_best` takes it.": "The same.",
}
LEFT_BY_ERRORS = {
    "The bins are as they were, the order of their lists included.",
    "The session is as it was.",
    "The session is as it was, the order of its lists included.",
    "An error leaves the session as it was.",
    "An error leaves the bin as it was.",
    "An error leaves the collection as it was.",
}
NO_ERROR = re.compile(r"`(None|true|false)`|[A-Z]\w*:")
# What says in a doc comment what the caller sees to.
PREMISES = ("The caller sees to it", "onditions ")


@dataclass(frozen=True)
class Claim:
    text: str
    edits: list[str]


def claims_of(notes: list[str]) -> list[Claim]:
    """The claims of a comment."""
    found = re.findall(r"(?m)^// (\S.*(?:\n//   .*)*)", "\n".join(it.strip() for it in notes))
    texts = [" ".join(it.replace("\n//", "").split()) for it in found]
    parts = [it[:-1].rpartition(" [") if it.endswith("]") else (it, "", "") for it in texts]
    return [Claim(text, edits.split(", ") if edits else []) for text, _, edits in parts]


def shortened(claim: Claim) -> str:
    """What a claim says, without what the page says once."""
    once = SAID_ONCE if NO_ERROR.match(claim.text) else {**SAID_ONCE, **dict.fromkeys(LEFT_BY_ERRORS, "")}
    return " ".join(filter(None, (once.get(it, it) for it in sentences(claim.text))))


def sentences(text: str) -> list[str]:
    return re.split(r"(?<=\.) ", " ".join(text.split()))


def tells_premises(docs: str) -> bool:
    """Whether a doc comment says what the caller sees to."""
    return any(it in docs for it in PREMISES)


def is_told(call: Call) -> bool:
    """Whether a clause of it has a claim above it."""
    return any(claims_of(it.notes) for it in call.clauses())


def is_plain(call: Call) -> bool:
    """Whether a line says all of it, as of a reader: it has one clause, which has no name and no claim, and one sentence of docs."""
    clauses, docs = call.clauses(), " ".join(call.item.docs)
    is_alone = len(clauses) == 1 and clauses[0].name == "ensures" and not is_told(call)
    return is_alone and "\n" not in call.item.head and re.fullmatch(r"[^.]+\.", docs) is not None


class Proved:
    """What calls, laws and functions of the program claim; of the last those that a page names, and those that have claims."""

    def __init__(self, calls: list[Call], named: Iterable[str] = (), program: Iterable[Call] = ()) -> None:
        names = {*named}
        found = [*calls, *(it for it in program if it.name in names or is_told(it))]
        self.calls = {it.name: it for it in found}
        self.twice = [it for it in found if self.calls[it.name] is not it]
        self.told: dict[tuple[str, str], list[Claim]] = {}
        first: dict[str, list[Claim]] = {}
        for call, clause in ((call, clause) for call in found for clause in call.clauses()):
            said = claims_of(clause.notes)
            text = " ".join(" ".join(clause.lines).split())
            self.told[call.name, clause.name] = said or (first.get(text, []) if clause.name != clause.kind else [])
            if said:
                first.setdefault(text, said)

    def claims(self, call: Call) -> Iterator[str]:
        """A line for each claim: at the first of a clause its name, then what it says, and in brackets the wrong bodies. A star marks
        those that the gate does not try. What is said once of all is left out, and premises that the doc comment of the call tells."""
        has_premises = call.kind == "law" or not tells_premises(" ".join(call.item.docs))
        are_named = any(it.name != it.kind for it in call.clauses())
        for clause in (it for it in call.clauses() if it.kind == "ensures" or has_premises):
            name = f"**{clause.name}**: " if are_named else ""
            for it in (it for it in self.told[call.name, clause.name] if shortened(it)):
                said = shortened(it)
                text = f"Premise: {said[0].lower()}{said[1:]}" if clause.kind == "requires" else said
                edits = ", ".join(f"`{edit}`" if edit in TRIED else f"`{edit}`\\*" for edit in it.edits)
                yield f"- {name}{text} [{edits}]" if edits else f"- {name}{text}"
                name = ""

    def faults(self) -> Iterator[str]:
        """Clauses without a claim, claims that name what is not there, wrong bodies that none names, and what no claim says once more."""
        yield from (f"{it.place()}: another function is named `{it.name}`" for it in self.twice)
        words = words_of_sources()
        for call in self.calls.values():
            names = [clause.name for clause in call.clauses()]
            yield from (f"{call.place()}: two clauses of `{call.name}` are named `{it}`" for it in {*names} if names.count(it) > 1)
            for clause in call.clauses() if not is_plain(call) else []:
                yield from self.faults_of_clause(call, clause, words)
        said = {it for claims in self.told.values() for claim in claims for it in sentences(claim.text)}
        yield from (f"tools/pages/proved.py: no claim says `{it}`" for it in sorted({*SAID_ONCE, *LEFT_BY_ERRORS} - said))
        yield from self.faults_of_edits(files_of([*LAYERS, FOR_C, *PROGRAM], "must-fail", ".edit"))

    def faults_of_clause(self, call: Call, clause: Clause, words: set[str]) -> Iterator[str]:
        """That it has no claim, or what its claims name that is not there."""
        edits, said = TRIED + OTHERS, self.told[call.name, clause.name]
        if not said:
            yield f"{call.place()}: no comment says what `{clause.name}` of `{call.name}` claims"
        for edit in (edit for it in said for edit in it.edits if edits.count(edit) != 1):
            yield f"{call.place()}: there is {'more than one' if edit in edits else 'no'} wrong body `{edit}`"
        for word in {*re.findall(r"[A-Za-z]\w*", " ".join(span for it in said for span in coded(it.text)))} - words:
            yield f"{call.place()}: `{clause.name}` of `{call.name}` names `{word}`, and no source has that word"

    def faults_of_edits(self, edits: Iterable[pathlib.Path]) -> Iterator[str]:
        """Which of these wrong bodies no claim names."""
        named = {edit for said in self.told.values() for it in said for edit in it.edits}
        yield from (f"{shown(it)}: no claim names this wrong body" for it in edits if it.stem not in named)


def words_of_sources() -> set[str]:
    """The words of the library, of the library for C and of the program, but for comments."""
    crates = [*LAYERS, FOR_C, *PROGRAM, MAIN]
    files = files_of(crates, "src", ".rt") + files_of(crates, "specs", ".antt")
    lines = (line for path in files for line in path.read_text().splitlines() if not line.lstrip().startswith(("// ", "--")))
    return set(re.findall(r"\w+", " ".join(lines)))
