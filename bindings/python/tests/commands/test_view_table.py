"""The command view on tables as the example programs print them."""
from __future__ import annotations

import re
import unittest
from decimal import Decimal

from .test_view_tools import EXAMPLES, TOP, ViewCase, cells_of, run, table, unpacked

from rectangle_pack.commands._scene import Item, Scene
from rectangle_pack.commands._view._drawings import read_drawings
from rectangle_pack.commands._view._overlaps import first_overlap


def text_of(name: str) -> str:
    return (TOP / "crates" / f"example_{name}" / "stdout").read_text(encoding="utf-8")


def rows(text: str, pattern: str) -> list[tuple[str, ...]]:
    return [match.groups() for match in re.finditer(pattern, text, re.MULTILINE)]


def drawings(text: str) -> list[tuple[str, str]]:
    """The title and the text of each drawing."""
    _, *parts = re.split(r"(?m)^== (.*)$", text)
    return list(zip(parts[::2], parts[1::2]))


def items_of(scene: Scene) -> list[Item]:
    return [it for step in scene.steps for it in step.placed]


def numbers(words: tuple[str, ...]) -> tuple[int, ...]:
    return tuple(map(int, words))


class Examples(unittest.TestCase):
    def test_bins_and_boxes_are_those_of_the_table(self) -> None:
        counts = {}
        for name in EXAMPLES:
            scenes = table(text_of(name))
            counts[name] = [len(items_of(scene)) for scene in scenes]
            for scene, (title, text) in zip(scenes, drawings(text_of(name))):
                self.assertEqual(scene.title, title)
                bins = rows(text, r"^bin (\S+) (\d+) (\d+) (\d+)\b")
                self.assertEqual([(room.name, room.size) for room in scene.rooms], [(it[0], numbers(it[1:])) for it in bins])
                boxes = rows(text, r"^ *(\d+) +(\S+) +(\S+)" + r" +(\d+)" * 6 + r" (\S+)$")
                self.assertEqual(
                    [(it.number, it.name, it.bin, (*it.at, *it.size), it.group) for it in items_of(scene)],
                    sorted((int(it[0]), it[1], it[2], numbers(it[3:9]), it[9]) for it in boxes))
                self.assertEqual([len(step.placed) for step in scene.steps], [1] * len(boxes))
        self.assertEqual(counts, {"atlas": [189, 186], "panels": [60, 60, 59], "container": [73]})

    def test_no_two_boxes_share_a_cell(self) -> None:
        items = items_of(table(text_of("container"))[0])
        cells = [(it.bin, cell) for it in items for cell in cells_of((it.at, it.size))]
        self.assertEqual(len(cells), len(set(cells)))

    def test_cutting_plans_end_in_the_panels(self) -> None:
        text = text_of("panels")
        *others, scene = table(text)
        self.assertEqual([dict(it.cuts) for it in others], [{}, {}])
        self.assertEqual({cut.step.kerf for cuts in scene.cuts.values() for cut in cuts}, {"0"})
        plans = [it.split("\n") for it in text.split("-- sheet ")[1:]]
        cut = [f"sheet-{number}" for number, *lines in plans if any(" cut " in it for it in lines)]
        self.assertEqual(list(scene.cuts), cut)
        for number, *lines in plans[:4]:
            name = f"sheet-{number}"
            self.assertEqual(len(scene.cuts[name]), sum(" cut " in line for line in lines))
            leaves = unpacked(list(scene.cuts[name]), ((0, 0, 0), (2800, 2070, 1)))
            panels = {(it.at, it.size) for it in items_of(scene) if it.bin == name}
            self.assertLessEqual(panels, leaves)
            self.assertEqual(len(leaves - panels), sum("is an offcut" in line for line in lines))
            sizes = sorted(numbers(it) for it in rows("\n".join(lines), r"(\d+) x (\d+) +is "))
            self.assertEqual(sorted((size[0], size[1]) for _, size in leaves), sizes)

    def test_cuts_say_what_the_lines_of_the_table_say(self) -> None:
        """Each is counted from the edge of its part, in the unit that is asked for."""
        for unit, decimals in (("mm", 0), ("0.01 mm", 2)):
            scene = read_drawings(text_of("panels").encode(), "stdout", "panels", unit)[-1]
            for number, *lines in (it.split("\n") for it in text_of("panels").split("-- sheet ")[1:]):
                cuts, plan = scene.cuts.get(f"sheet-{number}", []), "\n".join(lines)
                found = rows(plan, r"^ +\d+\. +(\d+) x (\d+) +cut (\d+) mm from (below|the left)$")
                self.assertEqual([(it.step.piece.width, it.step.piece.height, it.step.at) for it in cuts],
                                 [tuple(f"{Decimal(size).scaleb(-decimals).normalize():f}" for size in it[:3]) for it in found])
                self.assertEqual([it.step.axis for it in cuts], ["y" if it[3] == "below" else "x" for it in found])
                leaves = [piece for it in cuts for piece in it.step.leaves if piece.role != "part"]
                ends = [(*(f"{Decimal(size).scaleb(-decimals).normalize():f}" for size in it[:2]), it[2])
                        for it in rows(plan, r"^ +\d+\. +(\d+) x (\d+) +is (.*)$") if cuts]
                self.assertEqual(sorted((it.width, it.height, it.name or "an offcut") for it in leaves), sorted(ends))


class Rows(ViewCase):
    def test_free_sections_are_known_at_the_end(self) -> None:
        scene, = table("bin a 4 4 1\n0 x a 0 0 0 2 4 1\n1 y a 2 0 0 2 2 1\nfree a 2 2 0 2 2 1\nfree a 0 0 0 0 4 1\n")
        free = {"a": [((2, 2, 0), (2, 2, 1)), ((0, 0, 0), (0, 4, 1))]}
        self.assertEqual([dict(step.free) for step in scene.steps], [{}, free])

    def test_lines_for_people_are_passed_over(self) -> None:
        text = "\ufeffbinary 1 2 3\r\nbin a 4 4 1 (100% filled)\r\nbin of apples\nfree lunch 1 2\n0 x a 0 0 0 4 4\n1 2 3\n"
        text += "  007  <b>&amp;  a  0 0 0  4 4 1  \"g'\"  \n-- nothing\n  1. 4 x 4 cut 1 mm from below\n"
        text += "abc 1 2 3 4 5 6 7 8 9 10\n"
        scene, = table(text)
        item, = items_of(scene)
        self.assertEqual((item.number, item.name, item.size, item.group), (7, "<b>&amp;", (4, 4, 1), "\"g'\""))
        self.assertEqual((scene.title, dict(scene.cuts)), ("table", {}))

    def test_boxes_come_by_their_numbers(self) -> None:
        scene, = table("bin a 4 1 1\n11 x a 0 0 0 1 1 1\n2 y a 1 0 0 1 1 1\n100 z a 2 0 0 1 1 1 g\n")
        told = [(step.text, step.placed[0].number) for step in scene.steps]
        self.assertEqual(told, [("y in a", 2), ("x in a", 11), ("z in a", 100)])

    def test_a_bin_without_boxes(self) -> None:
        scene, = table("bin a 4 1 1\n== nothing here\n")
        self.assertEqual(([room.name for room in scene.rooms], [step.text for step in scene.steps]), (["a"], ["no box"]))

    def test_bins_without_cells(self) -> None:
        scene, = table("bin a 0 5 1\n0 x a 0 0 0 0 5 1\n1 y a 0 5 1 0 0 0\n")
        self.assertEqual(len(items_of(scene)), 2)

    def test_what_cannot_be_is_refused_by_file_and_number(self) -> None:
        plan = "bin s-1 4 4 1\n-- s 1\n  1. 4 x 4 cut 1 mm from below\n"
        for text, line, why in (
            ("bin a 4 4 1\nbin a 4 4 1\n", 2, "the bin a has a row before this"),
            ("bin a 4 4 4294967296\n", 1, "greater than 4294967295"),
            ("bin a 4 4 1\n0 x b 0 0 0 1 1 1\n", 2, "placement 0 names the bin b"),
            ("0 x a 0 0 0 1 1 1\nbin a 4 4 1\n", 1, "names the bin a"),
            ("bin a 4 4 1\n0 x a 0 0 0 1 1 1\n\n0 y a 1 0 0 1 1 1\n", 4, "placement 0 has a row before this"),
            ("bin a 4 4 1\n5 x a 0 0 0 5 1 1\n", 2, "placement 5 is not inside the bin a"),
            ("bin a 4 4 1\n5 x a 0 0 1 1 1 1\n", 2, "not inside"),
            ("bin a 4 4 1\nfree a 0 4 0 1 1 1\n", 2, "the free section is not inside"),
            ("bin a 4 4 1\nfree b 0 0 0 1 1 1\n", 2, "the free section names the bin b"),
            ("bin a 9 9 9\n1 x a 0 0 0 5 5 5\n2 y a 5 0 0 1 1 1\n3 z a 4 4 4 1 1 1\n", 4, "placement 3 shares a cell with 1"),
            ("bin a 9 9 9\n9 x a 0 0 0 5 5 5\n3 z a 4 4 4 1 1 1\n", 3, "placement 3 shares a cell with 9"),
            ("bin a 9 9 9\n18446744073709551616 x a 0 0 0 5 5 5\n", 2, "18446744073709551615"),
            (plan + "  2. 4 x 2  is x\n", 4, "has come to a part of 4 x 1"),
            (plan + "  2. 4 x 1  cut 4 mm from the left\n", 4, "not inside its part"),
            (plan + "  2. 4 x 1  cut 0 mm from the left\n", 4, "not inside its part"),
            (plan + "  2. 4 x 1  is x\n  3. 4 x 3  is y\n  4. 1 x 1  is z\n", 6, "has ended"),
        ):
            with self.subTest(why=why):
                path = self.file("t.txt", text)
                self.assert_refused(run("--table", path, "--page", self.folder / "p.html"), f"{path}:{line}: ", why)
                self.assertFalse((self.folder / "p.html").exists())

    def test_what_is_no_table_is_refused(self) -> None:
        for content, why in ((b"", "has no row"), (b"pack\n", "has no row"), (b"bin a 1 1 1\n\xff", "is no text in UTF-8")):
            path = self.file("t.txt", content)
            self.assert_refused(run("--table", path, "--page", self.folder / "p.html"), f"{path}: {why}")

    def test_one_of_many_boxes_that_shares_a_cell_is_found(self) -> None:
        items = [Item(i, str(i), "a", (i % 20, i // 20 % 20, i // 400), (1, 1, 1)) for i in range(8000)]
        self.assertIsNone(first_overlap(items))
        pair = first_overlap([*items, Item(9000, "more", "a", (7, 8, 9), (1, 1, 1))])
        assert pair
        self.assertEqual({it.number for it in pair}, {9000, 7 + 8 * 20 + 9 * 400})
        # One that has no cells shares none.
        self.assertIsNone(first_overlap([*items, Item(9000, "more", "a", (7, 8, 9), (1, 0, 1))]))


if __name__ == "__main__":
    unittest.main()
