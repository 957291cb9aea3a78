"""Each refusal: one line on standard error, the exit status, nothing on standard output, and no file."""
import os
import unittest

from .test_load_base import LoadCase

HEAD = "name,length,width,height"
ALL = "name,count,length,width,height,customer,down,stackable"


class Refusals(LoadCase):
    def refused(self, status, error, *words):
        """The command is refused like this, and no file is left but those that were there."""
        before = sorted(os.listdir(self.folder))
        outs = [self.folder / name for name in ("out.csv", "out.html")]
        answer = self.run_load(*words, "--csv", outs[0], "--page", outs[1])
        self.assertEqual(answer, (status, "", f"{error}\n"))
        self.assertEqual(sorted(os.listdir(self.folder)), before)

    def by_crates(self, lines, error, status=2, rooms=("box,9,9,9",), words=()):
        """Refused for a packing list, with {} for its path in the error."""
        crates = self.crates(*lines)
        self.refused(status, error.format(crates), crates, self.containers(HEAD, *rooms), *words)

    def test_packing_lists(self):
        cases = {
            "{}: is empty; its first line names the columns: name, length, width, height": (),
            "{}: lists no crates": (HEAD,),
            "{}:1: the column 'width' is missing": ("name,length,height", "a,1,1"),
            "{}:2: name is missing": (HEAD, ",1,1,1"),
            "{}:3: length is missing": (HEAD, "a,1,1,1", "b,,1,1"),
            "{}:2: width is 'wide', and must be a number": (HEAD, "a,1,wide,1"),
            "{}:2: height is -1, and must be at least 0": (HEAD, "a,1,1,-1"),
            "{}:2: height is 0.00, and must be more than 0": (HEAD, "a,1,1,0.00"),
            "{}:2: height is 'inf', and must be a number": (HEAD, "a,1,1,inf"),
            "{}:2: length is 1E999999999, which has too many digits": (HEAD, "a,1E999999999,1,1"),
            "{}:2: length is 1E-999999999, which has too many digits": (HEAD, "a,1E-999999999,1,1"),
            "{}:2: length is 4294967296, and must be at most 4294967295": (HEAD, "a,4294967296,1,1"),
            "{}:3: length is 42949673, and must be at most 42949672.95, as a size of the tables has 2 decimals":
                (HEAD, "a,1,1,0.25", "b,42949673,1,1"),
            "{}:2: count is '1.5', and must be a whole number": (ALL, "a,1.5,1,1,1,,,"),
            "{}:2: count is '-1', and must be a whole number": (ALL, "a,-1,1,1,1,,,"),
            "{}:2: down is 'top', and must be any, upright, or some of: bottom side end": (ALL, "a,1,1,1,1,,top,"),
            "{}:2: down is 'any side', and must be any, upright, or some of: bottom side end": (ALL, "a,1,1,1,1,,any side,"),
            "{}:2: down is '/', and must be any, upright, or some of: bottom side end": (ALL, "a,1,1,1,1,,/,"),
            "{}:2: stackable is 'maybe', and must be one of: yes, no": (ALL, "a,1,1,1,1,,,maybe"),
            "{}:3: count is 4000000000, and so there are 4000000001 crates: at most 20000 can be loaded":
                (ALL, "a,1,1,1,1,,,", "b,4000000000,1,1,1,,,"),
        }
        for error, lines in cases.items():
            with self.subTest(error):
                self.by_crates(lines, error)

    def test_what_is_no_text_or_cannot_be_read(self):
        rooms = self.containers(HEAD, "box,9,9,9")
        crates = self.folder / "crates.csv"
        self.refused(2, f"{crates}: cannot be read: No such file or directory", crates, rooms)
        crates.write_bytes(b"name,length\xff")
        self.refused(2, f"{crates}: is no text in UTF-8: save it as CSV in UTF-8", crates, rooms)
        self.refused(2, f"{self.folder}: cannot be read: Is a directory", self.folder, rooms)

    def test_containers(self):
        crates = self.crates(HEAD, "a,1,1,1")
        head = "name,count,length,width,height,cost"
        cases = {
            "{}: lists no containers": (head,),
            "{}:3: the name 'van' is that of line 2 too": (head, "van,1,9,9,9,", "van,1,8,8,8,"),
            "{}:3: cost is missing": (head, "van,1,9,9,9,5", "box,1,8,8,8,"),
            "{}:2: cost is -5, and must be at least 0": (head, "van,1,9,9,9,-5"),
            "{}:2: width is 0, and must be more than 0": (head, "van,1,9,0,9,5"),
            "{}:2: length is 4294967296, and must be at most 4294967295": (head, "van,1,4294967296,9,9,5"),
        }
        for error, lines in cases.items():
            with self.subTest(error):
                rooms = self.containers(*lines)
                self.refused(2, error.format(rooms), crates, rooms)
        rooms = self.containers(head, "van,0,9,9,9,5")
        self.refused(2, f"{rooms}: lists no containers", crates, rooms)

    def test_customers(self):
        lines = (ALL, "a,1,1,1,1,Miller,,", "b,1,1,1,1,Smith,,")
        cases = {
            "Miller": "--apart 'Miller' must name two customers, as in --apart 'Miller,Smith'",
            "Miller,": "--apart 'Miller,' must name two customers, as in --apart 'Miller,Smith'",
            "a,b,c": "--apart 'a,b,c' must name two customers, as in --apart 'Miller,Smith'",
            "": "--apart '' must name two customers, as in --apart 'Miller,Smith'",
            "Miller, Miller": "--apart 'Miller, Miller' names one customer twice",
            "Miller,Smit": "--apart 'Miller,Smit': no crate is for 'Smit'",
            "Miller\n,Smit": "--apart 'Miller\\n,Smit': no crate is for 'Smit'",
            '"Miller,Smith': "--apart '\"Miller,Smith' must name two customers, as in --apart 'Miller,Smith'",
        }
        for text, error in cases.items():
            with self.subTest(text):
                self.by_crates(lines, error, words=("--apart", text))
        pairs = self.table("apart.csv", "customer,other", "Miller,Miller")
        self.by_crates(lines, f"{pairs}:2: 'Miller' cannot be apart from itself", words=("--apart-list", pairs))
        pairs = self.table("apart.csv", "customer,other", "Miller,")
        self.by_crates(lines, f"{pairs}:2: other is missing", words=("--apart-list", pairs))

    def test_what_does_not_fit(self):
        crate = (HEAD, "small,1,1,1", "long one,9.5,1,1")
        self.by_crates(
            crate, "no container is large enough, however the list lets crates be turned, for 1 x 'long one' of line 3 "
            "(9.5 x 1 x 1)", 1)
        crate = (HEAD, "a,9,9,9", "b,9,9,9")
        full = "the containers are full: they have a volume of 729 cubic {}, and the crates 1458 cubic {}"
        self.by_crates(crate, full.format("units", "units"), 1)
        self.by_crates(crate, full.format("dm", "dm"), 1, words=("--unit", "dm"))
        crate = (ALL, "a,2,5,9,9,,,")
        self.by_crates(
            crate, "the containers are full: 1 of 2 crates are left over: 1 x 'a' of line 2 (5 x 9 x 9)", 1,
            rooms=("box,9,9,9", "other,4,9,9"))

    def test_each_kind_that_does_not_fit_is_named(self):
        # The second is too long as it stands, and the third either way.
        crates = (ALL, "small,1,1,1,1,,,", "pole,3,1,1,12,,upright,", "plank,2,12,1,1,,,")
        self.by_crates(
            crates, "no container is large enough, however the list lets crates be turned, for 3 x 'pole' of line 3 "
            "(1 x 1 x 12 cm), 2 x 'plank' of line 4 (12 x 1 x 1 cm)", 1, words=("--unit", "cm"))
        # One block goes into each box. No room has a place for more of them, nor any for a slab beside one.
        crates = (ALL, "block,3,6,6,6,,,", "slab,2,6,6,4,,,", "pin,1,1,1,1,,,")
        self.by_crates(
            crates, "the containers are full: 3 of 6 crates are left over: 1 x 'block' of line 2 (6 x 6 x 6 cm), "
            "2 x 'slab' of line 3 (6 x 6 x 4 cm)", 1, rooms=("box,9,9,6.5", "other,6,6,6", "flat,30,30,1"), words=("--unit", "cm"))

    def test_customers_that_do_not_fit(self):
        rooms = ("box,9,9,9", "other,9,9,9", "third,9,9,9")
        together = ("--together",)
        self.by_crates(
            (ALL, "a,2,9,9,9,Miller,,"),
            "the greatest container has a volume of 729 cubic units, and crates that are to be kept together have more: "
            "those of customer 'Miller' 1458 cubic units", 1, rooms, together)
        self.by_crates(
            (ALL, "a,2,9,9,5,Miller,,", "b,1,1,1,1,Jones,,", "c,10,9,9,1,Smith,,"),
            "the greatest container has a volume of 729 cubic m, and crates that are to be kept together have more: "
            "those of customer 'Miller' 810 cubic m, those of customer 'Smith' 810 cubic m", 1, rooms, (*together, "--unit", "m"))
        # Of two only one fits into each.
        self.by_crates(
            (ALL, "a,2,5,5,5,Miller,,", "b,1,1,5,9,Miller,,"),
            "no container that is free takes all crates of customer 'Miller'; 3 of 3 crates are left over: "
            "2 x 'a' of line 2 (5 x 5 x 5), 1 x 'b' of line 3 (1 x 5 x 9)", 1, rooms, together)
        # One container is left, and is too low.
        self.by_crates(
            (ALL, "a,1,9,9,9,Miller,,", "b,1,1,1,1,Smith,,"),
            "no container that is free takes all crates of customer 'Smith'; 1 of 2 crates are left over: "
            "1 x 'b' of line 3 (1 x 1 x 1)", 1, ("box,9,9,9", "low,2,1,0.9"), together)
        # None is left, as one crate is nobody's.
        self.by_crates(
            (ALL, "a,1,9,9,8,Miller,,no", "b,2,2,1,1,Smith,,", "c,1,1,1,1,,,"),
            "the containers are full: 2 of 4 crates are left over: 2 x 'b' of line 3 (2 x 1 x 1)",
            1, ("box,9,9,9", "small,3,1,1"), together)

    def test_words(self):
        tables = self.crates(HEAD, "a,1,1,1"), self.containers(HEAD, "box,9,9,9")
        for words, error in {
            ("--tries", "0"): "argument --tries: '0' is no whole number from 1 to 999999999",
            ("--tries", "1.5"): "argument --tries: '1.5' is no whole number from 1 to 999999999",
            ("--tries", "٣"): "argument --tries: '٣' is no whole number from 1 to 999999999",
            ("--turn",): "unrecognized arguments: --turn",
        }.items():
            status, out, printed = self.run_load(*tables, *words)
            self.assertEqual((status, out), (2, ""))
            self.assertEqual(printed.splitlines()[-1].split("error: ")[1], error)

    def test_files_that_cannot_be_written(self):
        tables = self.crates(HEAD, "a,1,1,1"), self.containers(HEAD, "box,9,9,9")
        path = tables[0] / "out.csv"
        status, out, error = self.run_load(*tables, "--csv", path)
        self.assertEqual((status, out), (2, ""))
        self.assertRegex(error, rf"^{path}: cannot be written: [^\n]+\n$")

    def test_files_that_are_read(self):
        crates, containers = self.crates(HEAD, "a,1,1,1"), self.containers(HEAD, "box,9,9,9")
        for word in ("--csv", "--page"):
            for path in (crates, containers):
                before = path.read_bytes()
                answer = self.run_load(crates, containers, word, path)
                self.assertEqual(answer, (2, "", f"{path}: is read, and would be lost: name another file to write\n"))
                self.assertEqual(path.read_bytes(), before)
        path = crates.rename(self.folder / "container-1.txt")
        answer = self.run_load(path, containers, "--plans", self.folder, "--replace")
        self.assertEqual(answer, (2, "", f"{path}: is read, and would be lost: name another file to write\n"))
        self.assertTrue(path.is_file())

    def test_plans_of_an_earlier_run(self):
        crates, containers = self.crates(HEAD, "a,1,1,1"), self.containers(HEAD, "box,9,9,9")
        folder = self.folder / "plans"
        folder.mkdir()
        kept, earlier = folder / "container-list.txt", folder / "container-7.txt"
        for path in (kept, earlier):
            path.write_text("mine")
        answer = self.run_load(crates, containers, "--plans", folder)
        self.assertEqual(answer, (2, "", f"{earlier}: is there already, of an earlier run: --replace lets it go\n"))
        # A load that is refused removes none.
        self.assertEqual(self.run_load(self.table("large.csv", HEAD, "a,10,1,1"), containers, "--plans", folder, "--replace")[0], 1)
        self.assertEqual(earlier.read_text(), "mine")
        self.assertEqual(self.run_load(crates, containers, "--plans", folder, "--replace")[0], 0)
        self.assertEqual(sorted(os.listdir(folder)), ["container-1.txt", "container-list.txt"])
        self.assertEqual(self.run_load(crates, containers, "--plans", crates)[1:], ("", f"{crates}: is not a folder\n"))


if __name__ == "__main__":
    unittest.main()
