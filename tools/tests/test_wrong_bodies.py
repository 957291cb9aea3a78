"""Tests of tools/wrong_bodies.py: what of a check's words counts as a refusal of what an edit does."""
import pathlib
import tempfile
import unittest

import wrong_bodies

ANSWERS = "./proofs/word/Word/new/Answers.antt:8:54: error: "
REFUSED = f"{ANSWERS}`returns`: computed as far as they go, the two types differ only where one has `4096` (expected)\n"
NO_FIELD = f"{ANSWERS}`returns`: record `Rattle.p.proofs.word.Word.new.Lts.View.In-After-pad` has no field `if-name` (nearest: .if-len)\n"
NO_FIELD_IN_TWO_LINES = f"{ANSWERS}`returns`: record `Rattle.p.proofs.word.Word.new.Lts`\n  has no field `if-name` (nearest: .if-len)\n"
NO_GOAL = f"{ANSWERS}`returns-then-a`: `goal.returns-then-a`: module `Rattle.p.proofs.word.Word.new.Goals`\n  has no `returns-then-a`\n"
OPEN = "note: src/word.rt:57:13: it is not proved that what the function ensures holds when it returns (`returns-then-b`)\n"
ASKED = "note: src/word.rt:56:54: it is not proved that what `pad` requires holds at this call (`pad-requires`); `search` gave up\n"
OF_NEW = "fn p::word::Word::new: not proved\nfn p::word::push: no proof: it calls `p::word::Word::new`, which is not proved\n"
OF_PUSH = "fn p::word::push: no proof: expected answers in ./proofs/word/push/Answers.antt\n"
END = "logic=not-proved\n"


class Judged(unittest.TestCase):
    def says(self, said: str, is_refused: bool, words: str) -> None:
        found = wrong_bodies.judged(1, said + END)
        self.assertEqual(found[0], is_refused, found[1])
        self.assertIn(words, found[1])

    def test_an_answer_that_is_refused_counts(self) -> None:
        self.says(REFUSED + OF_NEW, True, "refused at word::Word::new: ")
        self.says(NO_FIELD + REFUSED + OF_NEW, True, "refused at word::Word::new: ")

    def test_a_goal_without_a_proof_counts(self) -> None:
        self.says(OPEN + OF_NEW, True, "refused at word::Word::new: src/word.rt:57:13")

    def test_a_name_that_is_gone_does_not_count(self) -> None:
        for said in (NO_FIELD, NO_FIELD_IN_TWO_LINES, NO_GOAL):
            self.says(said + OF_NEW, False, "refused for a name alone")

    def test_a_goal_whose_answer_has_another_name_does_not_count(self) -> None:
        self.says(NO_GOAL + OPEN + OF_NEW, False, "refused for a name alone")
        self.says(NO_GOAL + OF_NEW + OPEN + OF_PUSH, True, "refused at word::push: ")
        self.says(NO_GOAL + OPEN + ASKED + OF_NEW, True, "refused at word::Word::new: src/word.rt:56:54")

    def test_what_is_proved_or_cannot_be_read_is_not_refused(self) -> None:
        self.assertEqual(wrong_bodies.judged(0, "logic=proved\n")[0], False)
        self.assertIn("BAD EDIT", wrong_bodies.judged(1, "src/word.rt:1:1: error: a type is not known\n")[1])
        self.says("./src/word.rt:1:1: error: `returns`: `x` is not in scope\n" + OF_NEW, False, "BAD EDIT")


class Edits(unittest.TestCase):
    def setUp(self) -> None:
        folder = tempfile.TemporaryDirectory()
        self.addCleanup(folder.cleanup)
        self.top = pathlib.Path(folder.name)
        (self.top / "src").mkdir()
        (self.top / "src" / "lib.rt").write_text("one\ntwo\ntwo\n")

    def texts(self, text: str) -> dict[str, str]:
        path = self.top / "f.edit"
        path.write_text(text)
        return wrong_bodies.Edit(path, "low").texts(self.top)

    def test_pairs_follow_one_another(self) -> None:
        self.assertEqual(self.texts("file: src/lib.rt\nold: one\nnew: three\nold: three\nnew:\n"), {"src/lib.rt": "\ntwo\ntwo\n"})

    def test_an_old_text_stands_just_once(self) -> None:
        self.assertEqual(self.texts("file: src/lib.rt\nold: two\nnew: three\n"), {})
        self.assertEqual(self.texts("file: src/lib.rt\nold: four\nnew: three\n"), {})


if __name__ == "__main__":
    unittest.main()
