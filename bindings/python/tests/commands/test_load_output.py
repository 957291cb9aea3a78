"""What load prints and writes, in each form, and that it is the same each time."""
import csv
import json
import unittest
from decimal import Decimal

# This comes first: it skips these tests where the library is not there.
from .test_load_base import LoadCase, example

from rectangle_pack.commands import view
from rectangle_pack.commands._load.printing import scene_of
from rectangle_pack.commands._load.reading import read_job
from rectangle_pack.commands._load.report import report_of
from rectangle_pack.commands._load.search import Search

HEAD = "name,count,length,width,height"

# Two cubes in a row: there is one way to stand.
ROW = (f"{HEAD},customer", "cube,2,1,1,1,Miller")
VAN = (f"{HEAD},cost", "van,1,2,1,1,5.50")
ROW_TEXT = """\
x from the right wall, as one looks in at the door; y up from the floor; z from the end wall to the door, in cm

van: 1 wide, 1 high, 2 long; 2 crates, 100 % filled, 2 of the length in use

step  crate  customer  x  y  z  wide  high  long  down    on
   1  cube   Miller    0  0  0     1     1     1  bottom  floor
   2  cube   Miller    0  0  1     1     1     1  bottom  floor

1 container, cost 5.50, 2 crates, 100 % filled
no plan needs fewer containers: proved
"""

# Two lines for one container, and what its plan says.
MIXED = (f"{HEAD},customer,stackable", "cube,10,1,1,1,Miller,", "plank,1,5,2,1,,no")
MIXED_PLAN = """\
Container 1 of 1: van, 2 wide, 2 high, 5 long, in m
11 crates, 100 % filled, 5 of the length in use

  10 x cube, 1 x 1 x 1 m, Miller
   1 x plank, 5 x 2 x 1 m

X from the right wall, as one looks in at the door; y up from the floor; z from the end wall to the door.
Load in the order of the steps. Each crate goes straight in from the door, at the height at which it stands.

    step  crate  customer  x  y  z  wide  high  long  down    on
"""

# Nothing may stand on the plank, so it is on the five cubes.
PLANK = (f"{HEAD},stackable", "cube,5,1,1,1,", "plank,1,5,1,1,no")
LONG_VAN = (HEAD, "van,1,5,1,2")


class Output(LoadCase):
    def write_example(self):
        example().write(self.folder)
        return ["crates.csv", "containers.csv", "--apart-list", "apart.csv"]

    def example_words(self):
        return [word if word.startswith("-") else self.folder / word for word in self.write_example()]

    def test_the_text(self):
        status, out, error = self.run_load(self.crates(*ROW), self.containers(*VAN), "--unit", "cm")
        self.assertEqual((status, out, error), (0, ROW_TEXT, ""))

    def test_the_text_without_costs_and_unit(self):
        _, out, _ = self.run_load(self.crates(HEAD, "a,1,1,1,1"), self.containers(HEAD, "van,1,3,1,1"))
        self.assertEqual(out.splitlines()[0][-4:], "door")
        self.assertEqual(out.splitlines()[2], "van: 1 wide, 1 high, 3 long; 1 crate, 33.3 % filled, 1 of the length in use")
        self.assertEqual(out.splitlines()[-2], "1 container, 1 crate, 33.3 % filled")

    def test_bytes_that_are_no_text(self):
        status, out, _ = self.run_load(self.crates(*ROW), self.containers(*VAN), "--unit", "c\udcffm")
        self.assertEqual((status, out.splitlines()[0][-8:]), (0, ", in c?m"))

    def test_what_is_not_whole_is_not_said_to_be(self):
        _, out, _ = self.run_load(self.crates(HEAD, "a,1,9999,1,1"), self.containers(HEAD, "van,1,10000,1,1"))
        self.assertEqual(out.splitlines()[-2], "1 container, 1 crate, 99.9 % filled")

    def test_what_a_crate_stands_on(self):
        tables = self.crates(*PLANK), self.containers(*LONG_VAN)
        path = self.folder / "load.csv"
        _, out, _ = self.run_load(*tables, "--csv", path)
        self.assertRegex(out, r"\n   6  plank +0  1  0 +1 +1 +5  bottom  5 crates\n")
        self.assertTrue(path.read_text().endswith(",plank,,0,1,0,1,1,5,bottom,1 2 3 4 5\n"))
        self.assertEqual(self.loaded(*tables)["containers"][0]["steps"][5]["on"], [1, 2, 3, 4, 5])

    def test_the_plan_of_a_container(self):
        folder = self.folder / "new" / "plans"
        words = self.crates(*MIXED), self.containers(HEAD, "van,1,5,2,2"), "--unit", "m"
        status, out, error = self.run_load(*words, "--plans", folder)
        self.assertEqual((status, error, [path.name for path in folder.iterdir()]), (0, "", ["container-1.txt"]))
        plan = (folder / "container-1.txt").read_text()
        self.assertTrue(plan.startswith(MIXED_PLAN), plan)
        # Below its head it has the steps that are printed, each with a box to tick.
        printed = out.splitlines()
        steps = printed[printed.index(MIXED_PLAN.splitlines()[-1].strip()) + 1:-3]
        self.assertEqual(plan[len(MIXED_PLAN):].splitlines(), [f"[ ] {step}" for step in steps])
        self.assertEqual(len(steps), 11)

    def test_a_plan_for_each_container(self):
        folder = self.folder / "plans"
        words = self.crates(HEAD, "cube,2,1,1,1"), self.containers(HEAD, "van,3,1,1,1")
        self.assertEqual(self.loaded(*words, "--plans", folder)["crates"], 2)
        self.assertEqual(sorted(path.name for path in folder.iterdir()), ["container-1.txt", "container-2.txt"])
        for number in (1, 2):
            head, sums = (folder / f"container-{number}.txt").read_text().splitlines()[:2]
            self.assertEqual(head, f"Container {number} of 2: van {number}, 1 wide, 1 high, 1 long")
            self.assertEqual(sums, "1 crate, 100 % filled, 1 of the length in use")

    def test_columns_that_are_not_known(self):
        crates = self.crates(f"{HEAD},Owner,colour,owner", "cube,2,1,1,1,Miller,red,9")
        containers = self.containers("tare,name,count,length,width,height", "2300,van,1,2,1,1")
        apart = self.table("apart.csv", "customer,other,why", "Miller,Smith,smell")
        status, out, error = self.run_load(crates, containers, "--apart-list", apart)
        self.assertEqual((status, out.splitlines()[-2]), (0, "1 container, 2 crates, 100 % filled"))
        known = "name, length, width, height, count"
        self.assertEqual(error.splitlines()[:3], [
            f"note: {crates}:1: the columns 'owner', 'colour' are not known, and passed over; there are: {known}, customer, "
            "down, stackable, weight",
            f"note: {containers}:1: the column 'tare' is not known, and passed over; there are: {known}, cost, payload",
            f"note: {apart}:1: the column 'why' is not known, and passed over; there are: customer, other",
        ])
        self.assertEqual(len(error.splitlines()), 5)

    def test_the_table_has_what_the_answer_in_json_has(self):
        path = self.folder / "new" / "load.csv"
        answer = self.loaded(*self.example_words(), "--csv", path)
        with open(path, newline="") as file:
            rows = list(csv.DictReader(file))
        steps = [(it["name"], step) for it in answer["containers"] for step in it["steps"]]
        self.assertEqual(len(rows), len(steps))
        for row, (container, step) in zip(rows, steps):
            self.assertEqual([row["container"], row["crate"], row["customer"], row["down"]],
                             [container, step["crate"], step["customer"], step["down"]])
            self.assertEqual(row["on"], " ".join(map(str, step["on"])) or "floor")
            for column in ("step", "x", "y", "z", "wide", "high", "long"):
                self.assertEqual(Decimal(row[column]), Decimal(str(step[column])))

    def test_the_text_has_a_line_for_each_step(self):
        words = self.example_words()
        answer = self.loaded(*words)
        lines = self.run_load(*words)[1].splitlines()
        for it in answer["containers"]:
            start = next(at for at, line in enumerate(lines) if line.startswith(f"{it['name']}: "))
            for line, step in zip(lines[start + 3:], it["steps"]):
                self.assertEqual(line.split()[0], str(step["step"]))
                self.assertIn(step["crate"], line)

    def test_the_same_in_each_process(self):
        words = self.write_example()
        runs = [self.run_as_user(*words, *more, PYTHONHASHSEED=seed) for more in ((), ("--json",)) for seed in ("1", "2")]
        for run in runs:
            self.assertEqual((run.returncode, run.stderr), (0, ""))
        self.assertEqual(runs[0].stdout, runs[1].stdout)
        self.assertEqual(runs[2].stdout, runs[3].stdout)
        self.assertEqual(len(json.loads(runs[2].stdout)["containers"]), 2)

    def test_as_users_run_it(self):
        self.crates(*ROW)
        self.containers(*VAN)
        run = self.run_as_user("crates.csv", "containers.csv", "--unit", "cm")
        self.assertEqual((run.returncode, run.stdout, run.stderr), (0, ROW_TEXT, ""))
        self.crates(HEAD, "cube,3,1,1,1")
        run = self.run_as_user("crates.csv", "containers.csv")
        full = "the containers are full: they have a volume of 2 cubic units, and the crates 3 cubic units\n"
        self.assertEqual((run.returncode, run.stdout, run.stderr), (1, "", full))
        run = self.run_as_user("crates.csv", "none.csv")
        missing = "none.csv: cannot be read: No such file or directory\n"
        self.assertEqual((run.returncode, run.stdout, run.stderr), (2, "", missing))

    def test_the_help_names_each_column(self):
        status, out, _ = self.run_load("--help")
        self.assertEqual(status, 0)
        for column in ("name", "count", "length", "width", "height", "customer", "down", "stackable", "cost", "weight", "payload"):
            self.assertRegex(out, rf"\n  [a-z, ]*\b{column}\b")


class Page(LoadCase):
    def scene(self, crates, containers, **asked):
        job = read_job(self.crates(*crates), self.containers(*containers), **asked)
        search = Search(job, 20)
        search.run()
        return scene_of(report_of(search.short(), search.least), "Load of crates.csv")

    def test_a_step_for_each_crate_in_the_order_of_loading(self):
        scene = self.scene(PLANK, LONG_VAN)
        self.assertEqual([(room.name, room.size) for room in scene.rooms], [("van", (1, 2, 5))])
        self.assertEqual(len(scene.steps), 6)
        for number, step in enumerate(scene.steps):
            item, = step.placed
            self.assertEqual((item.number, item.bin, step.released), (number + 1, "van", ()))
            self.assertEqual((item.at, item.size), ((0, 0, number), (1, 1, 1)) if number < 5 else ((0, 1, 0), (1, 1, 5)))
        self.assertEqual(scene.steps[5].text, "van, step 6: plank at 0 1 0")
        self.assertEqual(scene.title, "Load of crates.csv")
        self.assertEqual((scene.unit, dict(scene.facts)), ("cells", {"containers": "1", "crates": "6", "filled": "100 %"}))

    def test_customers_faces_and_cost(self):
        scene = self.scene((f"{HEAD},customer,down", "a,1,3,1,1,Miller,end"), VAN[:1] + ("van,2,1,1,3,5.50",), units=("m", ""))
        item, = scene.steps[0].placed
        self.assertEqual((item.name, item.group, item.note, item.bin), ("a", "Miller", "end down", "van 1"))
        self.assertEqual((scene.unit, dict(scene.facts)["cost"]), ("m", "5.50"))

    def test_a_cell_is_the_last_decimal(self):
        tables = (HEAD, "a,1,0.5,0.25,1"), (HEAD, "van,1,1,1,1.5")
        scene = self.scene(*tables, units=("m", ""))
        self.assertEqual((scene.unit, scene.rooms[0].size), ("0.01 m", (100, 150, 100)))
        self.assertIn(scene.steps[0].placed[0].size, {(25, 100, 50), (50, 100, 25)})
        self.assertEqual(self.scene(*tables).unit, "0.01 units")

    @unittest.skipUnless(hasattr(view, "write_page"), "there is no page yet")
    def test_the_page_is_written(self):
        path = self.folder / "new" / "load.html"
        status, out, error = self.run_load(self.crates(*ROW), self.containers(*VAN), "--page", path, "--unit", "cm")
        self.assertEqual((status, out, error), (0, ROW_TEXT, ""))
        self.assertIn("<", path.read_text(encoding="utf-8"))


if __name__ == "__main__":
    unittest.main()
