"""What is made and what is found wrong, on small texts."""
import functools
import pathlib
import tempfile
import unittest
from unittest import mock

import calls
import examples
import headline
import modules
import proved
from antt import definitions_in
from headline import Specs, Told, definitions_among
from library import Call, Placed, functions_of
from rattle import items_of
from sources import CRATES

BOXES = '''use Rattle.std.specs.Prelude.{ℕ}
use Rattle.rectangle_pack_sections.specs.declared.axis.Axis.{Axis}

-- a size
pub record Size : Type 0 where
  pub width : ℕ

-- a side
abbrev pub side : Size → Axis → ℕ
side s a = s.width
'''
BINS = '''use Rattle.rectangle_pack.specs.Boxes.{side as side_of}

-- a bin
pub record Bin : Type 0 where
  pub first : side_of
  pub next : Bin
'''
CALL = """pub fn NAME(n: u32)
    // `n` is small.
    requires small { n < 5 }
    // It is `n` then,
    //   whatever it was. [set.is_left, set.two]
    // It stays.
    // No other error is answered.
    ensures done { new ≡ n }
    ensures { kept }
{
}
"""


SILENT = "\n".join(line for line in CALL.splitlines() if "//" not in line)
WORD = """impl<A: Alloc> Word<A> {
    pub fn new() -> Word<A> {
        Word {}
    }

    fn order(&self) -> u8
        ensures { true }
    {
        0
    }
}

impl<A: Alloc> Ord for Word<A> {
    // Words are ordered.
    ghost cmp = { by_bytes };

    fn cmp(&self, other: &Word<A>) -> Order {
        Order::Less
    }
}

const MOST: u8 = 1;
pub(crate) fn pad() {}
"""
FILE = CRATES / "low/src/pack.rt"


def call_of(name: str, text: str) -> Call:
    return Call(FILE, items_of(text.replace("NAME", name).splitlines())[0], name, "pack")


class Rests(unittest.TestCase):
    def setUp(self) -> None:
        lib = "pub use Rattle.rectangle_pack_sections.specs.Boxes\n"
        low, high = "rectangle_pack_sections.specs.Boxes", "rectangle_pack.specs.Bins"
        self.specs = Specs({"rectangle_pack.specs.Lib": lib, low: BOXES, high: BINS})

    def test_what_is_named_is_told_first(self) -> None:
        order = self.specs.tell(self.specs.roots("Bin"), set())
        self.assertEqual([it.name for it in definitions_among(order)], ["Size", "side", "Bin"])
        self.assertEqual([it for it in order if isinstance(it, tuple)], [("std", "ℕ"), ("type", "Axis")])

    def test_what_was_told_is_left_out(self) -> None:
        told: set[Told] = set()
        self.specs.tell(self.specs.roots("Size"), told)
        order = self.specs.tell(self.specs.roots("Bin"), told)
        self.assertEqual([it.name for it in definitions_among(order)], ["side", "Bin"])

    def test_a_field_rests_on_what_it_names(self) -> None:
        self.assertEqual([it.name for it in definitions_among(self.specs.roots("Bin.first"))], ["side"])


class Listed(unittest.TestCase):
    def test_functions_in_a_row_stand_by_name(self) -> None:
        found = definitions_in("-- a\npub a : T\n\n-- b\npub b : T\n\n-- c; d\npub C : T\n\n-- e\npub e : T\n", "low.specs.It")
        links = [f"[`{name}`](../crates/low/specs/It.antt#L{line})" for name, line in (("a", 2), ("b", 5), ("C", 8), ("e", 11))]
        self.assertEqual(list(headline.listed(found)), [", ".join(links[:2]), f"{links[2]}: c…", links[3]])


READER = """/// How many there are.
pub fn NAME(&self) -> usize
    ensures { length self.now }
{
}
"""


class Claims(unittest.TestCase):
    def setUp(self) -> None:
        self.proved = proved.Proved([call_of("set", CALL), call_of("reset", SILENT)])

    def test_claims_of_a_comment(self) -> None:
        _, done, kept = call_of("set", CALL).clauses()
        self.assertEqual(proved.claims_of(done.notes), [
            proved.Claim("It is `n` then, whatever it was.", ["set.is_left", "set.two"]),
            proved.Claim("It stays.", []),
            proved.Claim("No other error is answered.", []),
        ])
        self.assertEqual((done.lines, kept.notes), (["    ensures done { new ≡ n }"], []))

    def test_a_line_for_each_claim(self) -> None:
        with mock.patch.object(proved, "TRIED", ["set.two"]):
            found = [*self.proved.claims(self.proved.calls["set"])]
        self.assertEqual(found, [
            "- **small**: Premise: `n` is small.",
            r"- **done**: It is `n` then, whatever it was. [`set.is_left`\*, `set.two`]",
            "- It stays.",
        ])

    def test_a_premise_of_the_same_words_is_told_again(self) -> None:
        found = [*self.proved.claims(self.proved.calls["reset"])]
        self.assertEqual([it.partition(":")[0] for it in found], ["- **small**", "- **done**", "- It stays."])

    def test_a_premise_that_the_docs_tell_is_left_out(self) -> None:
        call = call_of("set", "/// Sets it. The caller sees to it\n/// that `n` is small.\n" + CALL)
        self.assertEqual([it.partition(":")[0] for it in proved.Proved([call]).claims(call)], ["- **done**", "- It stays."])

    def test_what_is_said_once_is_left_out(self) -> None:
        left = {
            "`TooLarge`: it is 5 or more. The session is as it was. No other error is answered.": "`TooLarge`: it is 5 or more.",
            "An error leaves the bin as it was.": "",
            "`None`: it is not there. The session is as it was.": "`None`: it is not there. The session is as it was.",
            "Done: it is 2^32. The session is as it was.": "Done: it is 2^32. The session is as it was.",
            "An error leaves the bin as it was, and the list.": "An error leaves the bin as it was, and the list.",
            "The same is so of a packing with a heuristic that has a name, as `pack_rects_best` makes it.": "The same.",
        }
        self.assertEqual({it: proved.shortened(proved.Claim(it, [])) for it in left}, left)

    def test_a_clause_that_reads_the_same_claims_the_same(self) -> None:
        self.assertEqual(self.proved.told["reset", "small"], [proved.Claim("`n` is small.", [])])
        self.assertEqual(self.proved.told["reset", "ensures"], [])

    def test_functions_of_the_program_are_named_or_have_claims(self) -> None:
        program = [call_of("reset", SILENT), call_of("end", CALL), call_of("pad", SILENT)]
        self.assertEqual([*proved.Proved([call_of("set", CALL)], ["reset"], program).calls], ["set", "reset", "end"])

    def test_a_name_stands_for_one_function(self) -> None:
        program = [call_of("reset", SILENT), call_of("reset", SILENT)]
        self.assertEqual(proved.Proved([], ["reset"], program).twice, program[:1])
        self.assertEqual(self.proved.twice, [])

    def test_a_plain_reader_is_one_sentence(self) -> None:
        self.assertTrue(proved.is_plain(call_of("len", READER)))
        self.assertFalse(proved.is_plain(call_of("len", READER.replace("are.", "are. It is counted."))))
        self.assertFalse(proved.is_plain(call_of("set", CALL)))

    def test_each_clause_has_a_claim(self) -> None:
        reset = self.proved.calls["reset"]
        found = [[*self.proved.faults_of_clause(reset, it, {"n"})] for it in reset.clauses()]
        self.assertEqual(found[0], [])
        self.assertEqual(found[2], ["crates/low/src/pack.rt:1: no comment says what `ensures` of `reset` claims"])

    def test_what_a_claim_names_is_there(self) -> None:
        call = self.proved.calls["set"]
        with mock.patch.multiple(proved, TRIED=["set.two"], OTHERS=["set.two"]):
            found = [*self.proved.faults_of_clause(call, call.clauses()[1], set())]
        self.assertEqual(found, [f"crates/low/src/pack.rt:1: {it}" for it in (
            "there is no wrong body `set.is_left`",
            "there is more than one wrong body `set.two`",
            "`done` of `set` names `n`, and no source has that word",
        )])

    def test_a_claim_names_each_wrong_body(self) -> None:
        edits = [CRATES / "low/must-fail" / it for it in ("set.two.edit", "set.three.edit")]
        self.assertEqual([*self.proved.faults_of_edits(edits)], ["crates/low/must-fail/set.three.edit: no claim names this wrong body"])


class Functions(unittest.TestCase):
    def test_functions_of_items(self) -> None:
        found = [it for item in items_of(WORD.splitlines()) for it in functions_of(Placed(FILE, item), "pack")]
        self.assertEqual([(it.name, it.item.is_public) for it in found], [
            ("Word::new", True), ("Word::order", False), ("impl Ord for Word<A>", False), ("pad", False),
        ])
        self.assertEqual([[it.name for it in call.clauses()] for call in found[1:3]], [["ensures"], ["cmp"]])
        self.assertEqual(proved.claims_of(found[2].clauses()[0].notes), [proved.Claim("Words are ordered.", [])])


class Calls(unittest.TestCase):
    def test_an_example_is_a_link(self) -> None:
        docs = ["Sets it.", "", "```", "set(1);", "```", "", "It is 1 then."]
        with tempfile.TemporaryDirectory(dir=CRATES) as folder:
            path = pathlib.Path(folder, "set.rt")
            path.write_text("use it;\n" + "".join(f"    /// {it}".rstrip() + "\n" for it in docs) + "    pub fn set(n: u32) {}\n")
            link = f"[Example](../{path.relative_to(CRATES.parent)}#L4)"
            self.assertEqual(calls.docs_of(docs, path), f"Sets it.\n\n{link}")
            self.assertEqual(calls.docs_of(["Sets it."], path), "Sets it.")

    def test_head_is_moved_to_the_left(self) -> None:
        head = "pub fn set(\n        &self,\n    ) -> u32"
        self.assertEqual(calls.dedented(head), "pub fn set(\n    &self,\n) -> u32")
        self.assertEqual(calls.dedented("fn set()\n    where\n        u8: Copy,"), "fn set()\nwhere\n    u8: Copy")

    def test_docs_without_what_claims_say(self) -> None:
        docs = ["Sets", "it. An error leaves it.", "", "In detail.", "The caller sees to", "it that it is small. `No` says why."]
        self.assertEqual(calls.docs_of(docs, FILE, has_claims=True), "Sets it. The caller sees to it that it is small.")
        self.assertEqual(calls.docs_of(docs, FILE), "\n".join(docs))

    def test_tests_are_those_of_the_module(self) -> None:
        among = [("pack", "pack/groups", "set(1)"), ("pack", "pack/large", "reset()"), ("session", "session", "set(2)")]
        self.assertEqual(calls.tests_of(call_of("set", CALL), among), "*`pack/groups`*")

    def test_files_of_one_folder_are_one_word(self) -> None:
        found = [*calls.gathered(["pack", "pack/best", "pack/units/large", "laws", "session/run"])]
        self.assertEqual(found, ["`pack`", "`pack/{best,units/large}`", "`laws`", "`session/run`"])

    def test_a_heading_leads_to_the_doc_comment(self) -> None:
        text = "use it;\n\n/// Sets it.\n///\n/// Well.\n#[inline]\n" + CALL.replace("NAME", "set")
        call = Call(FILE, items_of(text.splitlines())[1], "set", "pack")
        page = mock.Mock(proved=proved.Proved([call]), tests=[])
        page.proved_of = functools.partial(calls.Page.proved_of, page)
        heading, head, docs, claims, _ = calls.Page.function(page, 3, call, "Function")
        self.assertEqual(heading, "### Function [`set`](../crates/low/src/pack.rt#L3)")
        self.assertEqual((head, docs, claims.count("\n")), ("`fn set(n: u32)`", "Sets it.", 2))

    def test_a_law_is_stated(self) -> None:
        self.assertEqual(calls.stated(["A law: it is", "so."]), "It is so.")

    def test_heads_stand_in_a_line_without_bounds_that_are_said_once(self) -> None:
        head = "pub fn set<H>(\n        n: u32,\n        by: &H,\n    ) -> u32\n    where\n        H: Fn(WidthHeightDepth) -> u128,"
        self.assertEqual(calls.signature(head), "`fn set<H>(n: u32, by: &H) -> u32`")
        fenced = "```rust\nfn set<H>(\n    n: u32,\n    by: &H,\n) -> u32\nwhere\n    N: Copy\n```"
        self.assertEqual(calls.signature(head.replace("    H:", "    N: Copy,\n        H:")), fenced)

    def test_variants_are_listed_with_their_fields(self) -> None:
        lines = ["    /// It moved.", "    Moved {", "        /// How far.", "        by: u32,", "    },"]
        (part,) = items_of(lines, ends=",")
        self.assertEqual(list(calls.listed(part)), ["- `Moved`: It moved.", "  - `by: u32`: How far."])


class Modules(unittest.TestCase):
    def test_first_sentence(self) -> None:
        self.assertEqual(modules.sentence_of("//! What `a.b` has, in\n//! order. Then more.\n\nfn a() {}\n"), "What `a.b` has, in order")
        self.assertEqual(modules.sentence_of("fn a() {}\n"), "")

    def test_module_of_a_file(self) -> None:
        paths = [CRATES / "low/src" / it for it in ("lib.rt", "main.rt", "pack/best.rt")]
        self.assertEqual([modules.words_of(it) for it in paths], [("low",), ("low",), ("low", "pack", "best")])

    def test_tree(self) -> None:
        says = {
            ("rectangle_pack",): "all",
            ("rectangle_pack", "pack"): "packs",
            ("rectangle_pack", "pack", "best"): "the best",
            ("rectangle_pack", "pack", "pack"): "one",
            ("rectangle_pack", "plan"): "plans",
            ("rectangle_pack", "plan", "axis"): "one axis",
            ("tests",): "tests",
            ("tests", "pack"): "of pack",
        }
        self.assertEqual(modules.tree(says, {"pack"}), [
            "rectangle_pack  all",
            "├── pack*       packs",
            "│   ├── best    the best",
            "│   └── pack    one",
            "└── plan        plans",
            "    └── axis    one axis",
            "tests           tests",
            "└── pack        of pack",
        ])


class Examples(unittest.TestCase):
    def test_blocks(self) -> None:
        lines = examples.doc_lines(["/// Sets it.", "/// ```", "///   set(1);", "/// ```", "fn set() {}"])
        self.assertEqual(list(examples.blocks(lines)), [(3, "```", ["set(1);"])])
        self.assertEqual(list(examples.blocks(["```c", "a", "", "b"])), [(2, "```c", ["a", "", "b"])])

    def test_a_block_stands_in_one_piece(self) -> None:
        self.assertEqual(examples.place_of(["b", "c"], ["a", "b", "c"]), 1)
        self.assertEqual(examples.place_of(["a", "c"], ["a", "b", "c"]), -1)


if __name__ == "__main__":
    unittest.main()
