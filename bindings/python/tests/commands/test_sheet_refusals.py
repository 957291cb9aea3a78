"""What the command sheet refuses: each in one line that names the file, with nothing written."""
from __future__ import annotations

import contextlib
import os
import random
import subprocess
import sys
import unittest
from collections.abc import Iterator
from pathlib import Path
from unittest import mock

from .test_sheet_tools import PYTHON, SheetCase, framed, full, noise, png, run, run_alone

WRONG, NO_ROOM = 2, 1


class RefusalCase(SheetCase):
    def check(self, status: int, line: str, *words: object) -> None:
        """A run on the folder in/ is refused with this line, in which IN stands for that folder. Words are other folders, and
        then options."""
        done = run(self.source, *words, "-o", self.out / "atlas")
        self.assertEqual((done.status, done.out), (status, ""), done)
        self.assertEqual(done.err, line.replace("IN", str(self.source)) + "\n")
        self.assertFalse(self.out.exists())

    def raw(self, name: str, data: bytes) -> None:
        path = self.source / name
        path.parent.mkdir(parents=True, exist_ok=True)
        path.write_bytes(data)


class Files(RefusalCase):
    def test_no_folder(self) -> None:
        self.check(WRONG, "IN: cannot be read: No such file or directory")
        self.source.write_bytes(full(2, 2).as_png())
        self.check(WRONG, "IN: cannot be read: Not a directory")

    def test_no_files(self) -> None:
        other = self.folder / "other"
        for folder in (self.source, other):
            folder.mkdir()
            (folder / "a.txt").write_text("none")
        self.check(WRONG, f"no PNG files in: IN, {other}", other)

    def test_no_png(self) -> None:
        for data in (b"", b"GIF89a", b"\xff\xd8\xff\xe0" + bytes(40), b"\x89PNG\r\n\x1a\n", full(2, 2).as_png()[:20]):
            self.raw("a/b.png", data)
            self.check(WRONG, "IN/a/b.png: is no PNG file")

    def test_damaged(self) -> None:
        whole = noise(random.Random(1), 20, 20).as_png()
        broken = (
            whole[:60], whole[:-500], whole[:33], whole[:100] + b"\0\0\0\0" + whole[104:],
            png(0, 0, 8, 6, []), png(3, 3, 5, 6, [bytes(12)] * 3), png(2, 2, 8, 6, [bytes(3)]))
        self.raw("good.png", whole)
        for data in broken:
            self.raw("x y.png", data)
            done = run(self.source, "-o", self.out / "atlas")
            self.assertEqual((done.status, done.out), (WRONG, ""), data)
            self.assertTrue(done.err.startswith(f"{self.source}/x y.png: cannot be read"), done.err)
            self.assertEqual(done.err.count("\n"), 1)
            self.assertFalse(self.out.exists())

    def test_16_bits(self) -> None:
        for colour, width in ((0, 2), (2, 6), (4, 4), (6, 8)):
            self.raw("deep.png", png(1, 1, 16, colour, [bytes(width)]))
            self.check(WRONG, "IN/deep.png: has 16 bits a channel; save it with 8")

    def test_a_link_to_nothing(self) -> None:
        self.source.mkdir()
        (self.source / "gone.png").symlink_to("nowhere")
        self.check(WRONG, "IN/gone.png: cannot be read: No such file or directory")

    def test_what_may_not_be_read(self) -> None:
        self.write({"a": full(2, 2)})
        (self.source / "a.png").chmod(0)
        with self.nobody():
            self.check(WRONG, "IN/a.png: cannot be read: Permission denied")
        self.source.chmod(0)
        self.addCleanup(self.source.chmod, 0o700)
        with self.nobody():
            self.check(WRONG, "IN: cannot be read: Permission denied")

    @contextlib.contextmanager
    def nobody(self) -> Iterator[None]:
        """Root, who may read all, is nobody for so long."""
        if os.geteuid() != 0:
            yield
            return
        self.folder.chmod(0o755)
        os.seteuid(65534)
        try:
            if not os.access(self.folder, os.X_OK, effective_ids=True):
                self.skipTest("root may read all, and nobody may not enter the folder for temporary files")
            yield
        finally:
            os.seteuid(0)

    def test_a_name_that_is_no_text(self) -> None:
        self.source.mkdir()
        try:
            with open(os.fsencode(self.source) + b"/\xff.png", "wb") as file:
                file.write(full(2, 2).as_png())
        except OSError:
            self.skipTest("there are no such names here")
        done = run_alone(self.source, "-o", self.out / "x")
        self.assertEqual((done.status, done.out), (WRONG, ""))
        self.assertEqual(done.err, f"{self.source}/\\udcff.png: the name is no text in UTF-8\n")

    def test_equal_names(self) -> None:
        other = self.folder / "other"
        self.write({"a/hat": full(2, 2)})
        self.write({"a/hat": full(3, 2)}, other)
        self.check(WRONG, f"{other}/a/hat.png: has the name 'a/hat', as IN/a/hat.png has", other)
        self.check(WRONG, "IN/a/hat.png: has the name 'a/hat', as IN/a/hat.png has", self.source)

    def test_equal_names_without_png(self) -> None:
        self.write({"hat": full(2, 2)})
        self.raw("hat.PNG", full(3, 2).as_png())
        if len(list(self.source.iterdir())) == 1:
            self.skipTest("names that differ in capitals are one here")
        self.check(WRONG, "IN/hat.png: has the name 'hat', as IN/hat.PNG has")
        self.assertEqual(run(self.source, "-o", self.out / "x", "--with-png").status, 0)

    def test_equal_names_in_two_forms_of_unicode(self) -> None:
        self.write({"\u00e4": full(2, 2), "a\u0308": full(2, 2)})
        if len(list(self.source.iterdir())) == 1:
            self.skipTest("both forms are one name here")
        self.check(WRONG, "IN/\u00e4.png: has the name '\u00e4', as IN/a\u0308.png has")


class Room(RefusalCase):
    def test_larger_than_a_page(self) -> None:
        self.write({"ok": full(4, 4), "long": full(90, 5)})
        self.check(NO_ROOM, "IN/long.png: is 90x5, and a page of 64x128 takes 64x128 at most", "--size", "64x128")
        self.check(
            NO_ROOM, "IN/long.png: is 90x5, and a page of 95x95 takes 89x89 at most",
            "--size", "95", "--border", 1, "--extrude", 2)
        self.check(
            NO_ROOM, "IN/long.png: is 90x5, and a page of 64x64 takes 64x64 at most (64 is the greatest power of two up to 100)",
            "--size", "100x100", "--power-of-two")

    def test_larger_than_a_page_also_trimmed(self) -> None:
        self.write({"long": framed(full(90, 5), 1, 1, 1, 1)})
        self.check(
            NO_ROOM, "IN/long.png: is 90x5 after trimming, and a page of 64x64 takes 64x64 at most", "--size", "64", "--trim")
        self.check(NO_ROOM, "IN/long.png: is 92x7, and a page of 91x91 takes 91x91 at most", "--size", "91")
        self.assertEqual(run(self.source, "-o", self.out / "x", "--size", "91", "--trim").status, 0)

    def test_nothing_left_of_a_page(self) -> None:
        self.write({"dot": full(1, 1)})
        self.check(NO_ROOM, "IN/dot.png: is 1x1, and a page of 8x8 takes 0x0 at most", "--size", "8", "--border", 4)
        self.check(NO_ROOM, "IN/dot.png: is 1x1, and a page of 8x8 takes 0x0 at most", "--size", "8", "--extrude", 9)

    def test_a_group_that_fits_no_page(self) -> None:
        self.write({f"ok/{number}": full(40, 40) for number in range(4)})
        self.write({f"big one/{number}": full(40, 40) for number in range(5)})
        self.write({str(number): full(40, 40) for number in range(9)})
        words = ("--size", "80x80", "--padding", 0)
        self.check(NO_ROOM, "the group 'big one' (5 sprites) fits no page of 80x80", "--group-by", "folder", *words)
        self.assertEqual(run(self.source, "-o", self.out / "x", *words).status, 0)

    def test_a_group_that_has_the_cells_and_not_the_form(self) -> None:
        # 3 x 50x70 have fewer cells than 110x110, and no two of them fit one above the other.
        self.write({f"a/{number}": full(50, 70) for number in range(3)})
        self.check(
            NO_ROOM, "the group 'a' (3 sprites) fits no page of 110x110",
            "--size", "110", "--group-by", "top", "--heuristic", "volume", "--padding", 0)


class Output(RefusalCase):
    def test_where_it_would_be_read(self) -> None:
        self.write({"a/b": full(2, 2)})
        for output in ("x", "a/x", "new/x"):
            done = run(self.source, "-o", self.source / output)
            self.assertEqual((done.status, done.err), (WRONG, (
                f"{self.source / output}: lies in the folder {self.source}, which is read: "
                "its pages would be sprites of the next run\n")))
        self.assertEqual([path.name for path in self.source.rglob("*")], ["a", "b.png"])
        os.symlink(self.source, self.folder / "link")
        self.assertEqual(run(self.source, "-o", self.folder / "link" / "x").status, WRONG)

    def test_a_page_over_a_sprite(self) -> None:
        self.write({"a": full(2, 2)})
        path = self.source / "a.png"
        before = path.read_bytes()
        done = run(self.source, "-o", self.out / "x", "--page", path)
        why = f"{path}: is read, and would be lost: name another file to write\n"
        self.assertEqual((done.status, done.out, done.err), (WRONG, "", why))
        self.assertEqual((path.read_bytes(), self.out.exists()), (before, False))

    def test_what_cannot_be_written(self) -> None:
        self.write({"a": full(2, 2)})
        self.out.write_text("a file, and no folder")
        done = run(self.source, "-o", self.out / "x")
        self.assertEqual((done.status, done.out), (WRONG, ""))
        self.assertEqual(done.err, f"{self.out}/x.png: cannot be written: File exists\n")
        self.assertEqual(self.out.read_text(), "a file, and no folder")

    def test_a_page_to_look_at_that_cannot_be_written(self) -> None:
        self.write({"a": full(2, 2)})
        (self.folder / "look").mkdir()
        done = run(self.source, "-o", self.out / "x", "--page", self.folder / "look")
        self.assertEqual((done.status, done.err.count("\n")), (WRONG, 1), done)

    def test_names_that_libgdx_cannot_load(self) -> None:
        why = "it has a colon, a line break or blanks around it"
        for name in ("a:b", " a", "a ", "a\nb"):
            self.clean()
            self.write({f"x/{name}" if name != " a" else name: full(2, 2)})
            sprite = f"x/{name}" if name != " a" else name
            self.check(WRONG, f"IN/{sprite}.png: libgdx cannot have the name {sprite!r}: {why}", "--format", "json-hash,libgdx")
            self.assertEqual(run(self.source, "-o", self.folder / "new" / "x").status, 0)
        done = run(self.source, "-o", self.out / "a:b", "--format", "libgdx")
        self.assertEqual((done.status, done.err), (WRONG, f"{self.out}/a:b: libgdx cannot have the name 'a:b': {why}\n"))

    def test_the_name_that_phaser_has_itself(self) -> None:
        self.write({"__BASE": full(2, 2)})
        self.check(
            WRONG, "IN/__BASE.png: phaser-multi cannot have the name '__BASE': Phaser calls the whole page so",
            "--format", "phaser-multi")


class Words(RefusalCase):
    def test_words_that_are_wrong(self) -> None:
        self.write({"a": full(2, 2)})
        cases = {
            ("--size", "0"): "argument --size: '0' is no whole number from 1 to 16384",
            ("--size", "20000x10"): "argument --size: '20000' is no whole number from 1 to 16384",
            ("--size", "10x"): "argument --size: '' is no whole number from 1 to 16384",
            ("--size", "1x2x3"): "argument --size: '2x3' is no whole number from 1 to 16384",
            ("--padding", "257"): "argument --padding: '257' is no whole number from 0 to 256",
            ("--border", "1.5"): "argument --border: '1.5' is no whole number from 0 to 256",
            ("--extrude", "\u0663"): "argument --extrude: '\u0663' is no whole number from 0 to 256",
            ("--format", "json-hash,xml"): "argument --format: 'xml' is none of: json-hash, phaser-multi, libgdx",
            ("--format", ""): "argument --format: '' is none of: json-hash, phaser-multi, libgdx",
            ("-o", "x/a.png"): "argument -o/--output: 'x/a.png' has an ending, and each file gets its own: 'x/a'",
        }
        for words, line in cases.items():
            done = run(self.source, *words)
            self.assertEqual((done.status, done.out), (WRONG, ""), words)
            self.assertTrue(done.err.endswith(f"error: {line}\n"), done.err)
        self.assertEqual(run().status, WRONG)
        for others in (("--heuristic", "biggest"), ("--group-by", "name"), ("--colour",)):
            self.assertEqual(run(self.source, *others).status, WRONG)
        self.assertEqual(sorted(path.name for path in self.folder.iterdir()), ["in"])

    def test_help(self) -> None:
        done = run("--help")
        self.assertEqual((done.status, done.err), (0, ""))
        for word in ("--trim", "--extrude", "json-hash", "phaser-multi", "libgdx", "example:"):
            self.assertIn(word, done.out)


class WithoutPillow(RefusalCase):
    def setUp(self) -> None:
        super().setUp()
        self.write({"a": full(2, 2)})
        blocked = self.folder / "blocked" / "PIL"
        blocked.mkdir(parents=True)
        (blocked / "__init__.py").write_text("raise ImportError")
        self.path = f"{blocked.parent}{os.pathsep}{PYTHON}"

    def test_it_is_asked_for(self) -> None:
        done = run_alone(self.source, "-o", self.out / "x", PYTHONPATH=self.path)
        self.assertEqual((done.status, done.out), (WRONG, ""))
        self.assertEqual(done.err, "sheet needs Pillow: install it with `pip install Pillow`\n")

    def test_all_else_does_without(self) -> None:
        code = "import rectangle_pack.commands.sheet as it, sys; assert 'PIL' not in sys.modules"
        subprocess.run([sys.executable, "-c", code], env={**os.environ, "PYTHONPATH": self.path}, check=True)
        self.assertIn("--trim", run_alone("--help", PYTHONPATH=self.path).out)


class Interrupted(RefusalCase):
    def test_at_the_keyboard(self) -> None:
        self.write({"a": full(2, 2)})
        with mock.patch("rectangle_pack.commands.sheet.drawn_page", side_effect=KeyboardInterrupt):
            done = run(self.source, "-o", self.out / "x")
        self.assertEqual((done.status, done.out), (130, ""))
        self.assertFalse(self.out.exists())

    def test_by_want_of_memory(self) -> None:
        self.write({"a": full(2, 2)})
        with mock.patch("rectangle_pack.commands._sheet.pictures._decoded", side_effect=MemoryError):
            done = run(self.source, "-o", self.out / "x")
        self.assertEqual((done.status, done.err), (3, "out of memory\n"))
        self.assertFalse(Path(self.out).exists())


if __name__ == "__main__":
    unittest.main()
