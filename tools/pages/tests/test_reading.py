"""The readers, on small texts."""
import unittest

from antt import definitions_in, head_of, imports, words
from rattle import items_of, paths_of, split_impl
from sources import CRATE, coded, fenced, fill

CODE = '''//! A module.
use std::fmt;

/// Sets it.
///
/// ```
/// set(1);
/// ```
#[inline]
pub fn set(to: &mut u32, n: u32) -> Result<(), Error>
    where
        u32: Copy,
    // It is below five.
    //   So it is small.
    requires small { n < 5 }
    ensures done { let two = "}" in
        // This is no end: }
        to.new ≡ n }
    ensures { true }
{
    *to = n;
}

pub(crate) const MOST: u32 = 5;

impl<A: Fn(u8) -> u8> Model for Set<A>
where
    A: Copy,
{
    // What it is.
    ghost Value = { Size };

    ghost view = { λ s.
        record {
          width = s.width;
        } };
}
'''
SPECS = '''-- About sizes.
use Rattle.std.specs.Prelude.{ℕ, ◌+◌ as ◌plus◌}
use Rattle.one.specs.Boxes.{Size}

-- a pair
-- of numbers
-- Example: 1
-- and 2
pub record Two (a : ℕ) : Type 0 where
  pub first : ℕ
  -- said of the second
  pub second : Size
      → ℕ

-- what goes for all
module _ {A : Type 0}
    (all : A) where
  -- one of two
  pub data Which : Type 0 where
    One : Which
    Other : Which

  module _ (b : A) where
    -- the sum
    abbrev pub sum_of : ℕ → (ℕ → ℕ) → List ℕ → ℕ
    sum_of zero Rates [] = Rates zero
    sum_of {A = A} n Rates (m ∷ ms) = n + n

-- beyond them
unfoldable pub last : ℕ
last = 0
'''


class Rattle(unittest.TestCase):
    def setUp(self) -> None:
        self.use, self.function, self.constant, self.model = items_of(CODE.splitlines())

    def test_heads(self) -> None:
        found = [(it.kind, it.name, it.is_public) for it in (self.use, self.function, self.constant, self.model)]
        self.assertEqual(found, [("use", "std", False), ("fn", "set", True), ("const", "MOST", False), ("impl", "", False)])
        self.assertEqual(self.function.line, 10)
        self.assertEqual(self.function.head.split("\n"), [
            "pub fn set(to: &mut u32, n: u32) -> Result<(), Error>", "    where", "        u32: Copy,",
        ])
        self.assertEqual(self.model.head.split("\n")[0], "impl<A: Fn(u8) -> u8> Model for Set<A>")
        self.assertEqual([self.use.has_body, self.function.has_body, self.model.has_body], [False, True, True])

    def test_docs_and_attributes(self) -> None:
        self.assertEqual(self.function.docs, ["Sets it.", "", "```", "set(1);", "```"])
        self.assertEqual(self.function.attributes, ["#[inline]"])
        self.assertEqual(self.constant.docs, [])

    def test_clauses(self) -> None:
        small, done, last = self.function.clauses
        found = [(it.kind, it.name) for it in (small, done, last)]
        self.assertEqual(found, [("requires", "small"), ("ensures", "done"), ("ensures", "ensures")])
        self.assertEqual(small.lines, ["    requires small { n < 5 }"])
        self.assertEqual((small.notes, done.notes), (["    // It is below five.", "    //   So it is small."], []))
        self.assertEqual(done.lines[1:], ["        // This is no end: }", "        to.new ≡ n }"])
        self.assertEqual(last.lines, ["    ensures { true }"])

    def test_a_comment_ends_no_item(self) -> None:
        lines = ["fn set()", "    // One;", "    //   two, { and so on;", "    ensures { true }", "{", "}", "fn reset() {}"]
        self.assertEqual([(it.name, len(it.lines)) for it in items_of(lines)], [("set", 6), ("reset", 1)])

    def test_ghosts_of_a_model(self) -> None:
        ghosts = self.model.ghosts()
        self.assertEqual(list(ghosts), ["Value", "view"])
        self.assertEqual(ghosts["Value"].lines, ["    ghost Value = { Size };"])
        self.assertEqual((ghosts["view"].line, len(ghosts["view"].lines)), (33, 4))
        self.assertEqual((ghosts["Value"].notes, ghosts["view"].notes), (["    // What it is."], []))

    def test_impls(self) -> None:
        self.assertEqual(split_impl(self.model.head), ("Model", "Set<A>"))
        self.assertEqual(split_impl("impl Set<u8>"), ("", "Set<u8>"))
        self.assertEqual(split_impl("impl<A>\n    fmt::Display for Set<A>"), ("fmt::Display", "Set<A>"))

    def test_parts(self) -> None:
        lines = ["pub struct Set {", "    /// Its width, in cells.", "    pub width: u32,", "    map: Map<", "        u8,", "    >,", "}"]
        (item,) = items_of(lines)
        self.assertEqual([it.lines for it in item.parts()], [[lines[2]], lines[3:6]])
        self.assertEqual([it.docs for it in item.parts()], [["Its width, in cells."], []])

    def test_paths_of_a_use(self) -> None:
        self.assertEqual(paths_of("a::b;"), [["a", "b"]])
        self.assertEqual(paths_of("a::b::{ c, d, };"), [["a", "b", "c"], ["a", "b", "d"]])


class Definitions(unittest.TestCase):
    def setUp(self) -> None:
        self.found = {it.name: it for it in definitions_in(SPECS, "one.specs.Two")}

    def test_names_comments_and_heads(self) -> None:
        self.assertEqual(list(self.found), ["Two", "Which", "sum_of", "last"])
        self.assertEqual((self.found["Two"].meaning, self.found["Two"].example), ("a pair of numbers", "1 and 2"))
        self.assertEqual((self.found["last"].meaning, self.found["last"].example), ("beyond them", ""))
        self.assertEqual(head_of(SPECS), "About sizes.")
        self.assertEqual(self.found["Which"].meaning, "one of two")
        self.assertEqual(self.found["Which"].heads, ["module _ {A : Type 0}", "    (all : A) where"])
        self.assertEqual(self.found["sum_of"].heads[2:], ["  module _ (b : A) where"])
        self.assertEqual(self.found["last"].heads, [])
        self.assertEqual(self.found["last"].line, 30)

    def test_fields_and_cases(self) -> None:
        two, which = self.found["Two"], self.found["Which"]
        self.assertEqual(two.length(), 4)
        self.assertEqual(two.field("first"), ["  pub first : ℕ"])
        self.assertEqual(two.field("second"), ["  pub second : Size", "      → ℕ"])
        self.assertEqual((two.cases(), which.cases()), ([], ["One", "Other"]))

    def test_names_with_parameters(self) -> None:
        self.assertEqual(self.found["Two"].call(), "Two a")
        self.assertEqual(self.found["Which"].call(), "Which")
        self.assertEqual(self.found["sum_of"].call(), "sum_of n Rates _")
        self.assertEqual(self.found["last"].call(), "last")

    def test_words(self) -> None:
        self.assertEqual(words(["  pub second : Size", "-- ℕ", "      → (List ℕ)"]), ["Size", "→", "List", "ℕ"])
        brought = imports(SPECS)
        self.assertEqual(brought["◌plus◌"], ("Rattle.std.specs.Prelude", "◌+◌"))
        self.assertEqual(brought["Size"], ("Rattle.one.specs.Boxes", "Size"))


class Texts(unittest.TestCase):
    def test_crates(self) -> None:
        self.assertEqual(CRATE.findall("# layers: a b\nlow:\nc staticlib: low\n"), [("low", ""), ("c", " low")])

    def test_fill_goes_from_the_first_to_the_last(self) -> None:
        said: list[str] = []

        def put(it: str) -> str:
            said.append(it)
            return f"<{len(said)} {it}>"

        self.assertEqual(fill("{{put a b}}, {{put}}", {"put": put}), "<1 a b>, <2 >")

    def test_code(self) -> None:
        self.assertEqual(coded("`a b` and `c`"), ["a b", "c"])
        self.assertEqual(fenced(["x"], "rust"), "```rust\nx\n```")


if __name__ == "__main__":
    unittest.main()
