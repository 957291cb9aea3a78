"""Loads of what fits, and the table of what is left."""
import json
import unittest
from pathlib import Path

# This comes first: it skips these tests where the library is not there.
from .test_load_base import LoadCase
from .test_load_judge import faults_of

HEAD = "name,count,length,width,height"


class Partial(LoadCase):
    def partial(self, crates, containers, *words):
        """What is loaded, what is said, and the table of what is left."""
        self.path = self.folder / "rest" / "left.csv"
        tables = self.crates(*crates), self.containers(*containers)
        status, out, error = self.run_load(*tables, "--partial", "--left", self.path, "--json", *words)
        self.assertEqual(status, 1)
        answer = json.loads(out)
        # What is loaded and what is left is the list, and what is loaded is a load.
        rest = {it["line"]: it["count"] for it in answer["left"]}
        loaded = [crates[0]]
        for number, line in enumerate(crates[1:], start=2):
            name, count, *others = line.split(",")
            loaded.append(",".join([name, str(int(count) - rest.get(number, 0)), *others]))
        self.assertEqual(faults_of(self.table("loaded.csv", *loaded), tables[1], answer), [])
        return answer, error, self.path.read_text()

    def test_what_fits_is_loaded(self):
        # Three planks of four fill the van: so the fourth is left, as no plan has all.
        answer, error, left = self.partial([HEAD, "plank,4,4,2,1"], [HEAD, "van,1,4,2,3.5"])
        self.assertEqual(answer["crates"], 3)
        self.assertEqual(answer["left"], [{"crate": "plank", "line": 2, "count": 1}])
        self.assertEqual((answer["least"], answer["proved"]), (None, False))
        self.assertEqual(left, "name,count,length,width,height\nplank,1,4,2,1\n")
        self.assertEqual(error, f"1 of 4 crates are left over: 1 x 'plank' of line 2 (4 x 2 x 1); {self.path} lists them\n")

    def test_what_fits_nowhere_is_left(self):
        crates = [f"{HEAD},weight", "pole,2,99,1,1,5", "safe,1,1,1,1,900", "cube,2,1,1,1,5"]
        answer, error, left = self.partial(crates, [f"{HEAD},payload", "van,1,4,2,3,100"])
        self.assertEqual(answer["crates"], 2)
        self.assertEqual(left, "\n".join(crates[:3]) + "\n")
        self.assertIn("3 of 5 crates are left over: 2 x 'pole' of line 2 (99 x 1 x 1, 5), 1 x 'safe' of line 3 (1 x 1 x 1, 900)", error)

    def test_the_greatest_volume_is_loaded(self):
        # Only one of both stands in the box.
        answer, _, _ = self.partial([HEAD, "slab,1,6,6,4", "block,1,6,6,6", "pin,3,1,1,1"], [HEAD, "box,1,9,6,6"])
        self.assertEqual(answer["left"], [{"crate": "slab", "line": 2, "count": 1}])

    def test_what_is_over_the_payload_is_left(self):
        answer, _, left = self.partial([f"{HEAD},weight", "cube,5,1,1,1,30"], [f"{HEAD},payload", "van,2,9,9,9,60"])
        self.assertEqual((answer["crates"], [it["weight"] for it in answer["containers"]]), (4, [60, 60]))
        self.assertEqual(left.splitlines()[1:], ["cube,1,1,1,1,30"])

    def test_the_columns_of_the_list_stay(self):
        crates = self.table(
            "crates.csv", "Colour;Name;Length;Width;Height;Count", 'red;"a;b";1,5;1;1;3', "", "blue;c;1;1;1")
        containers = self.containers(HEAD, "van,1,1.5,1,2")
        status, _, error = self.run_load(crates, containers, "--partial", "--plans", self.folder / "plans")
        self.assertEqual(status, 1)
        self.assertIn("note: ", error)
        left = (self.folder / "plans" / "left.csv").read_text()
        self.assertEqual(left, 'Colour;Name;Length;Width;Height;Count\nred;"a;b";1,5;1;1;1\nblue;c;1;1;1;1\n')
        # What was left is the next list.
        status, out, _ = self.run_load(self.folder / "plans" / "left.csv", self.containers(HEAD, "van,1,1.5,1,2"), "--json")
        self.assertEqual((status, json.loads(out)["crates"]), (0, 2))

    def test_where_all_fits_nothing_is_left(self):
        tables = self.crates(HEAD, "cube,2,1,1,1"), self.containers(HEAD, "van,1,2,1,1")
        status, out, error = self.run_load(*tables, "--partial", "--left", self.folder / "left.csv", "--json")
        self.assertEqual((status, error, json.loads(out)["left"]), (0, "", []))
        self.assertFalse((self.folder / "left.csv").exists())

    def test_where_nothing_fits_it_is_refused(self):
        path = self.folder / "left.csv"
        tables = self.crates(HEAD, "cube,1,5,5,5"), self.containers(HEAD, "van,1,2,1,1")
        status, out, error = self.run_load(*tables, "--partial", "--left", path)
        self.assertEqual((status, out), (1, ""))
        self.assertEqual(
            error, "no container is large enough, however the list lets crates be turned, for 1 x 'cube' of line 2 (5 x 5 x 5)\n")
        self.assertFalse(path.exists())

    def test_the_list_is_not_written_over(self):
        crates, containers = self.table("left.csv", HEAD, "cube,9,1,1,1"), self.containers(HEAD, "van,1,2,1,1")
        for words in (("--left", crates), ("--plans", self.folder)):
            answer = self.run_load(crates, containers, "--partial", *words)
            self.assertEqual(answer, (2, "", f"{crates}: is read, and would be lost: name another file to write\n"))
        self.assertEqual(Path(crates).read_text().splitlines()[1], "cube,9,1,1,1")


if __name__ == "__main__":
    unittest.main()
