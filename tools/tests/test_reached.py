"""What a copy of a small program leaves out by a list, and that one of packrun has the other lines as they stand."""
from __future__ import annotations

import pathlib
import re
import tempfile
import unittest
from unittest import mock

import reached
import sources

SIZES = """//! Sizes.
mod laws;

use crate::names::{name_of, short_name};
pub use laws::{halves_are_smaller, sizes_are_ordered as ordered};

pub struct Size {
    pub width: u32,
}

impl Size {
    pub fn half(self) -> u32 {
        self.width / 2
    }

    // Its double.
    #[inline]
    pub fn twice(self) {}
}

impl Drop for Size {
    fn drop(&mut self) {}
}

/// The largest of all.
pub fn largest() -> Size {
    Size { width: short_name() }
}
"""
FILES = {
    "prog/src/main.rt": "//! A program.\n\nfn main(rt: HostRuntime) {\n    rt.exit(low::sizes::largest().half());\n}\n",
    "low/src/sizes.rt": SIZES,
    "low/src/sizes/laws.rt": "//! Laws.\n\npub fn halves_are_smaller() {}\n\npub fn sizes_are_ordered() {}\n",
    "low/src/names.rt": "pub fn name_of(width: u32) -> u64 {\n    1\n}\n\npub fn short_name() -> u32 {\n    1\n}\n",
    "low/specs/Lib.antt": "pub mod Small\npub use Rattle.plans.specs.Plans\n",
    "low/specs/Small.antt": "use Rattle.low.specs.declared.sizes.Size.{Size}\n\npub is_small : Size → Type 0\n",
    "low/proofs/lemmas.antt": "pub mod Halves\npub mod Orders\n",
    "low/proofs/lemmas/Halves.antt": "use Rattle.low.specs.Small.{is_small}\n",
    "low/proofs/lemmas/Orders.antt": "use Rattle.low.proofs.lemmas.Halves.{half}\n",
    "low/proofs/names/name_of/Answers.antt": "of a function\n",
    "low/proofs/sizes/Size/half/Answers.antt": "use Rattle.low.proofs.lemmas.Halves.{half}\n",
    "low/proofs/sizes/Size/twice/Answers.antt": "of a method\n",
    "low/proofs/sizes/SizeDrop/drop/Answers.antt": "of an impl\n",
    "low/proofs/sizes/laws/halves_are_smaller/Answers.antt": "use Rattle.low.proofs.lemmas.Orders.{order}\n",
    "plans/src/lib.rt": "//! Plans.\n",
}
ORDER = {"plans": [], "low": ["plans"], "prog": ["low"]}
LIST = """# A comment.
plans

low/src/sizes/laws.rt
low/proofs/lemmas/Orders.antt
low/src/names.rt
    name_of
low/src/sizes.rt
    Size::twice
    impl Drop for Size
"""


class CopyOfAProgram(unittest.TestCase):
    def copy_of(self, text: str, **more: str) -> dict[str, str]:
        """The files of the copy by this list, where further files stand, by their names."""
        with tempfile.TemporaryDirectory() as folder:
            crates = pathlib.Path(folder, "crates")
            for name, said in {**FILES, **more}.items():
                (crates / name).parent.mkdir(parents=True, exist_ok=True)
                (crates / name).write_text(said)
            with mock.patch.multiple(reached, CRATES=crates, ORDER=ORDER):
                return {str(path).removeprefix("crates/"): it for path, it in reached.Copy("prog", reached.listed(text)).texts()}

    def test_without_a_list_all_stands(self) -> None:
        self.assertEqual(self.copy_of(""), {**FILES, "crates.txt": "plans:\nlow: plans\nprog: low\n"})

    def test_what_is_listed_goes_with_its_proofs(self) -> None:
        gone = {"plans/src/lib.rt", "low/src/sizes/laws.rt", "low/proofs/lemmas/Orders.antt"}
        proofs = ("names/name_of", "sizes/Size/twice", "sizes/SizeDrop/drop", "sizes/laws/halves_are_smaller")
        gone |= {f"low/proofs/{it}/Answers.antt" for it in proofs}
        self.assertEqual({*FILES} - {*self.copy_of(LIST)}, gone)

    def test_lines_go_with_what_they_declare_and_pass_on(self) -> None:
        copy = self.copy_of(LIST)
        self.assertEqual(copy["crates.txt"], "low:\nprog: low\n")
        self.assertEqual(copy["low/specs/Lib.antt"], "pub mod Small\n")
        self.assertEqual(copy["low/proofs/lemmas.antt"], "pub mod Halves\n")
        self.assertEqual(copy["low/src/names.rt"], "\npub fn short_name() -> u32 {\n    1\n}\n")
        mod, half = SIZES.index("mod laws;"), SIZES.index("    // Its double.")
        left = SIZES[:mod] + "\nuse crate::names::short_name;\n" + SIZES[SIZES.index("\npub struct") : half]
        self.assertEqual(copy["low/src/sizes.rt"], left + "}\n\n\n" + SIZES[SIZES.index("/// The largest") :])

    def test_a_name_that_names_nothing_is_refused(self) -> None:
        for text in ("gone", "low/src/gone.rt", "low/src/names.rt\n    gone", "low/src/sizes.rt\n    twice"):
            with self.assertRaisesRegex(reached.Refused, "nothing is named"):
                self.copy_of(text)

    def test_what_cites_what_is_gone_is_refused(self) -> None:
        for cited in ("proofs.lemmas.Orders", "specs.contracts.names.name_of", "proofs.sizes.Size.twice.Met"):
            with self.assertRaisesRegex(reached.Refused, "cites what"):
                self.copy_of(LIST, **{"low/proofs/lemmas/Halves.antt": f"use Rattle.low.{cited}.{{it}}\n"})


class CopyOfPackrun(unittest.TestCase):
    def test_lines_are_those_of_the_sources(self) -> None:
        for path, text in reached.Copy("packrun", reached.listed(reached.LIST.read_text())).texts():
            lines = iter((sources.TOP / path).read_text().splitlines())
            for line in text.splitlines():
                if path.name != "crates.txt" and not re.match(r" *(pub )?use ", line):
                    # What was looked at is gone from the lines: each stands after the one before.
                    self.assertIn(line, lines, path)


if __name__ == "__main__":
    unittest.main()
