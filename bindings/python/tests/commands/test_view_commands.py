"""The command view on files of packrun's commands: what is answered, what is refused, and what stands where after each step."""
from __future__ import annotations

import os
import random
import re
import subprocess
import unittest
from collections.abc import Iterator
from pathlib import Path
from unittest import mock

from .test_view_tools import TOP, ViewCase, cells_of, example, replay, run

from rectangle_pack.commands._common import Wrong
from rectangle_pack.commands._scene import Item, Scene

PACKRUN = Path(os.environ.get("PACKRUN") or TOP / "crates/packrun/out/packrun")


def documented() -> Iterator[tuple[int, list[str], list[str]]]:
    """The examples of docs/COMMANDS.md: where each begins, its lines in, and its lines out."""
    text = (TOP / "docs/COMMANDS.md").read_text(encoding="utf-8")
    for block in re.finditer(r"(?m)(?:^    .*\n)+", text):
        lines = [line[4:] for line in block[0].splitlines()]
        given = [line[2:] for line in lines if line == ">" or line.startswith("> ")]
        if given:
            yield text.count("\n", 0, block.start()) + 1, given, [line for line in lines if not line.startswith(">")]


def answers(scene: Scene) -> list[str]:
    return [line for step in scene.steps for line in step.answer]


class Documented(unittest.TestCase):
    def test_each_example_is_answered_as_the_page_says(self) -> None:
        count = 0
        for line, given, out in documented():
            with self.subTest(line=line):
                count += 1
                text = "".join(f"{it}\n" for it in given)
                bad = re.fullmatch(r"line (\d+) is bad", out[-1])
                if bad:
                    with self.assertRaises(Wrong) as refused:
                        replay(text)
                    self.assertTrue(str(refused.exception).startswith(f"session.txt:{bad[1]}: the line is bad: "))
                    # The lines before it are answered.
                    given, out = given[:int(bad[1]) - 1], out[:-1]
                    text = "".join(f"{it}\n" for it in given)
                if out:
                    scene = replay(text)
                    self.assertEqual(answers(scene), out)
                    self.assertEqual([step.text for step in scene.steps], [it for it in given if it])
        # Each of the nine commands has one, and so do lines, what is repeated, and the end of a run.
        self.assertGreaterEqual(count, 12)

    @unittest.skipUnless(PACKRUN.is_file(), "no packrun is built, and PACKRUN names none")
    def test_drawn_sessions_are_answered_as_packrun_does(self) -> None:
        for seed in range(150):
            text = drawn(random.Random(seed))
            told = subprocess.run([str(PACKRUN)], input=text, capture_output=True, text=True, check=True).stdout
            self.assertEqual(answers(replay(text)), told.splitlines(), f"seed {seed}")


def drawn(r: random.Random) -> str:
    """A session: bins of equal sizes, boxes in several groups, some without cells, and commands on what is not there."""
    bins, groups, flat = ["b", "a", "Z", "a-long-name-of-a-bin", "7"], ["g", "G", "h", "pack"], r.random() < 0.5

    def size(most: int) -> str:
        return f"{r.randint(r.random() > 0.05, most)} {r.randint(1, most)} {1 if flat else r.randint(1, most)}"

    def line() -> str:
        verb = r.choices(("bin", "rect", "exclude", "pack", "release", "coalesce", "sweep"), (12, 45, 6, 14, 15, 4, 4))[0]
        if verb == "bin":
            return f"bin {r.choice(bins)} {r.choice(['8 8 1', '8 8 8', '10 10 10', size(12)])}"
        if verb == "rect":
            return " ".join(["rect", f"r{r.randint(0, 9)}", size(5), *r.choices(groups, k=r.choice([0, 0, 1, 2, 3]))])
        return {
            "exclude": f"exclude {' '.join(r.sample(groups, 2))}", "pack": "pack", "release": f"release 0{r.randint(0, 12)}",
            "coalesce": f"coalesce {r.choice(bins)} {r.randint(0, 4)} 0 {r.choice([2, 2**64 - 1])}",
            "sweep": f"sweep {r.choice(bins)}",
        }[verb]

    head = [f"bin {name} 9 9 {1 if flat else 9}" for name in r.sample(bins, 2)]
    tail = [f"{verb} {name}" for name in bins for verb in ("sections", "stats")]
    return "".join(f"{it}\n" for it in [*head, *(line() for _ in range(r.randint(5, 50))), *tail])


class Steps(unittest.TestCase):
    def test_after_each_step_each_cell_of_a_bin_is_placed_or_free(self) -> None:
        steps = placed = 0
        for seed in range(40):
            scene = replay(drawn(random.Random(seed)))
            standing: dict[int, Item] = {}
            free: dict[str, list[set[tuple[int, int, int]]]] = {}
            for index, step in enumerate(scene.steps):
                for number in step.released:
                    del standing[number]
                standing.update((it.number, it) for it in step.placed)
                free.update((name, [cells_of(part) for part in parts]) for name, parts in step.free.items())
                steps, placed = steps + 1, placed + len(step.placed)
                for room in scene.rooms:
                    if room.since <= index:
                        filled = [cells_of((it.at, it.size)) for it in standing.values() if it.bin == room.name]
                        filled += free[room.name]
                        whole = cells_of(((0, 0, 0), room.size))
                        self.assertEqual(set().union(*filled), whole)
                        # Two that share a cell would have more cells than the bin.
                        self.assertEqual(sum(map(len, filled)), len(whole))
            self.assertTrue(all(scene.steps[room.since].text.split()[:2] == ["bin", room.name] for room in scene.rooms))
        self.assertGreater((steps, placed), (1000, 300))

    def test_a_refused_step_changes_nothing_and_says_so(self) -> None:
        text = "bin a 4 4 1\nbin a 9 9 9\nrect x 5 5 1\npack\nrelease 7\n"
        scene = replay(text + "sweep b\nsections b\nstats b\ncoalesce b 0 0 9\n")
        refused = [step for step in scene.steps if step.refused]
        self.assertEqual([step.answer[0] for step in refused], [
            "refused: bin a exists", "refused: Not enough space to place all of the rectangles.",
            "refused: placement 7 is unknown", *["refused: bin b is unknown"] * 4])
        for step in refused:
            self.assertEqual((step.placed, step.released, step.free), ((), (), {}))
        self.assertEqual([(room.name, room.size) for room in scene.rooms], [("a", (4, 4, 1))])
        self.assertEqual(dict(scene.facts), {"commands": "9", "refused": "7", "placed": "0"})

    def test_what_waits_is_told(self) -> None:
        scene = replay("rect x 5 5 1\nrect x 2 2 1 a b\nexclude a b\nexclude b a\nexclude a c\npack\nbin s 9 9 1\n")
        self.assertEqual([step.note for step in scene.steps], [
            "1 box waits for the next pack", "3 boxes wait for the next pack",
            *["3 boxes wait for the next pack, 1 pair of groups is kept apart"] * 2,
            *["3 boxes wait for the next pack, 2 pairs of groups are kept apart"] * 2, ""])

    def test_boxes_know_their_groups(self) -> None:
        scene = replay("bin s 9 9 1\nrect x 2 2 1 a b\nrect y 1 1 1\npack\n")
        self.assertEqual(sorted((it.name, it.group) for it in scene.steps[-1].placed), [("x", "a"), ("x", "b"), ("y", "")])


class Equals(unittest.TestCase):
    """How packrun decides between equals, by the rules of docs/COMMANDS.md."""

    def placed(self, text: str) -> list[str]:
        return [" ".join(line.split()[1:6]) for line in answers(replay(text)) if len(line.split()) == 9]

    def test_bins_of_equal_volume_by_their_names(self) -> None:
        text = "bin b 4 4 1\nbin a 2 8 1\nrect x 2 2 1\npack\nbin A 1 16 1\nrect y 1 1 1\npack\n"
        self.assertEqual(self.placed(text), ["x a 0 0 0", "y A 0 0 0"])

    def test_boxes_alone_by_their_names_and_before_groups(self) -> None:
        text = "bin s 8 2 1\nrect p 2 2 1 H\nrect q 2 2 1 G\nrect z 2 2 1\nrect Z 2 2 1\npack\n"
        self.assertEqual(self.placed(text), ["Z s 0 0 0", "z s 2 0 0", "q s 4 0 0", "p s 6 0 0"])

    def test_boxes_of_a_group_by_their_lines(self) -> None:
        # Group G has the boxes c, b and a, also where another group names c first.
        text = "bin s 4 1 1\nrect c 1 1 1 A G\nrect b 1 1 1 G\nrect a 1 1 1 G\npack\n"
        self.assertEqual(self.placed(text), ["c s 0 0 0", "b s 1 0 0", "a s 2 0 0", "c s 3 0 0"])


BAD = [
    ("Bin a 10 10 1", "'Bin'"), ("# a comment", "'#'"), ("bin a 10 10", "NAME W H D"), ("bin a 1 1 1 1", "NAME W H D"),
    ("rect a 1 1", "ID W H D [GROUP..]"), ("rect a 1 1 g", "D is 'g'"), ("pack now", "pack takes no word"), ("release", "N"),
    ("release -1", "'-1'"), ("release +1", "'+1'"), ("release 1.0", "'1.0'"),
    ("release 18446744073709551616", "18446744073709551615"),
    ("bin a 4294967296 1 1", "4294967295"), ("bin a 1 1 0x1", "'0x1'"), ("exclude a a", "itself"), ("exclude a", "GROUP GROUP"),
    ("exclude a b c", "GROUP GROUP"), ("coalesce a 0 0", "NAME I LO HI"), ("coalesce a 0 x 1", "LO"),
    ("coalesce a 0 0 99999999999999999999", "HI"), ("sweep", "NAME"), ("sections a b", "NAME"), ("stats", "NAME"),
    ("bin \u00e9 1 1 1", "byte"), ("bin\u00a0a 1 1 1", "byte"), ("bin a\x00 1 1 1", "byte"), ("bin a 1 1 1\x0b", "byte"),
    ("bin a 1 1 1\x7f", "byte"), ("rect " + "x" * 4090 + " 1 1 1", "4096"),
]
FINE = [
    ("  bin\ta   0010 10 1 \r", "bin a 0010 10 1", "ok"), ("rect " + "x" * 4085 + " 1 1 1", None, "ok"),
    ("rect ~! 0 0 0 ! ~ !", None, "ok"), ("exclude a A", None, "ok"), ("pack", None, "packed 0"),
    ("bin 4294967295 4294967295 04294967295 4294967295", None, "ok"),
    ("release 000018446744073709551615", None, "refused: placement 18446744073709551615 is unknown"),
    ("coalesce pack 18446744073709551615 0 1", None, "refused: bin pack is unknown"),
]


class Lines(ViewCase):
    def test_bad_lines_are_refused_by_file_and_number(self) -> None:
        for line, why in BAD:
            with self.subTest(line=line[:40]):
                path = self.file("in.txt", f"bin ok 1 1 1\n\n{line}\nbin ok 2 2 2\n")
                it = run(path, "--page", self.folder / "out.html")
                self.assert_refused(it, f"{path}:3: the line is bad: ", why)
                self.assertFalse((self.folder / "out.html").exists())
                self.assertLess(len(it.err), 300)

    def test_lines_that_only_look_bad_are_fine(self) -> None:
        for line, text, answer in FINE:
            with self.subTest(line=line[:40]):
                step, = replay(line).steps
                self.assertEqual((step.text, list(step.answer)), (text or line, [answer]))

    def test_lines_without_words_are_counted(self) -> None:
        with self.assertRaisesRegex(Wrong, "^session.txt:4: "):
            replay("\n \t\r\npack\nPACK")

    def test_a_file_without_commands_is_refused(self) -> None:
        for content in ("", "\n", " \r\n\t\n"):
            path = self.file("in.txt", content)
            self.assert_refused(run(path, "--page", self.folder / "out.html"), f"{path}: has no command")

    def test_a_page_over_its_own_file_is_refused(self) -> None:
        path = self.file("in.txt", "bin a 1 1 1\n")
        self.assert_refused(run(path, "--page", path), f"{path}: is read, and would be lost")
        self.assertEqual(path.read_text(encoding="utf-8"), "bin a 1 1 1\n")

    def test_a_folder_is_refused(self) -> None:
        for path in (".", "..", "/", self.folder):
            self.assert_refused(run(path), f"{Path(path)}: cannot be read: ")

    def test_a_table_is_recognised(self) -> None:
        for content, line in (("== the forest\n", 1), ("bin a 1 1 1\n0 x a 0 0 0 1 1 1\n", 2)):
            path = self.file("in.txt", content)
            self.assert_refused(run(path, "--page", self.folder / "out.html"), f"{path}:{line}: ", "--table")

    def test_a_long_run_keeps_its_pace(self) -> None:
        # 1,500 boxes and as many releases: the lists of free sections would be a million entries, written in full.
        head = "bin s 600 600 1\n" + "".join(f"rect r{i} {7 + i % 9} {5 + i % 7} 1\n" for i in range(1500)) + "pack\n"
        path = self.file("in.txt", head + "".join(f"release {i}\n" for i in range(0, 1500, 2)))
        page = self.folder / "out.html"
        self.assertEqual(run(path, "--page", page).status, 0)
        self.assertLess(page.stat().st_size, 1_500_000)

    def test_a_run_that_tells_too_much_ends_with_what_is_placed(self) -> None:
        lines = ["bin s 30 1 1"]
        for number in range(20):
            lines += [f"rect r{number} 1 1 1", "pack"]
        lines += [f"release {number}" for number in range(20)]
        whole = replay("\n".join(lines))
        with mock.patch("rectangle_pack.commands._view._replay.MOST_SECTIONS", 50):
            part = replay("\n".join(lines))
        self.assertEqual([step.text for step in whole.steps if step.free], [it for it in lines if "rect" not in it])
        self.assertEqual([step.placed for step in part.steps], [step.placed for step in whole.steps])
        self.assertEqual(answers(part), answers(whole))
        told = [index for index, step in enumerate(part.steps, 1) if step.free]
        self.assertTrue(20 < len(told) < 41 and part.facts[-1] == ("free sections", f"to step {told[-1]}"), part.facts)
        self.assertEqual(len(whole.facts), 3)

    def test_the_example(self) -> None:
        example(self.folder)
        pages, van = (replay((self.folder / name).read_text()) for name in ("pages.txt", "van.txt"))
        # The banner has 72x24 cells, and no section has, until what the forest leaves is joined with 48x24 above the map.
        self.assertEqual([step.refused for step in pages.steps if step.text == "pack"], [False, True, True, False])
        self.assertEqual([(it.name, it.at) for it in pages.steps[-3].placed], [("banner", (0, 40, 0))])
        homes = {it.group: it.bin for it in van.steps[12].placed}
        self.assertEqual(homes, {"dairy": "van", "paint": "van-2"})


if __name__ == "__main__":
    unittest.main()
