#!/usr/bin/env python3

############################################################################
#
# MODULE:    Tests of r.rcell
# AUTHOR(S): Nibzoqel maintainers
# PURPOSE:   Compares r.rcell with GRASS modules, in the location of the session
#
############################################################################

import os
import re
import signal
import subprocess
import tempfile
import time

import grass.script as gs
from grass.gunittest.case import TestCase
from grass.gunittest.gmodules import SimpleModule
from grass.gunittest.main import test

SIDE = 1000  # rows and columns, for a million cells
NINE = ",".join("cover[%d,%d]" % (row, col) for row in (-1, 0, 1) for col in (-1, 0, 1))
MAPS = ["cover", "zones", "own", "taken", "heights", "wide", "part", "void", "many"]
LABELS = '1\ttown, old\n2\tbroad: leaved\n3\t"quoted" | piped\n4\tgroß\n'


class TestRcell(TestCase):
    """A million cells in the current projection, with edges that are not finite decimals."""

    @classmethod
    def setUpClass(cls):
        cls.use_temp_region()
        # A third of a degree or metre, so that the edges of cells are not finite decimals.
        cls.runModule("g.region", n=41, s=41 - 1.0 / 3, w=11, e=11 + 1.0 / 3, rows=SIDE, cols=SIDE)
        patchy = "int(3 * sin(row() / 7.) + 3 * cos(col() / 9.) + rand(0, 2))"
        cls.runModule(
            "r.mapcalc",
            seed=1,
            overwrite=True,
            expression="cover = if(rand(0, 20) == 0, null(), {})".format(patchy),
        )
        cls.runModule(
            "r.mapcalc",
            overwrite=True,
            expression="zones = if(row() > 900, null(), (row() / 100) % 4 + 1)",
        )
        cls.runModule("r.mapcalc", overwrite=True, expression="heights = row() / 3.")
        cls.runModule(
            "r.mapcalc",
            overwrite=True,
            expression="wide = if(col() == 1, 2147483646, if(col() == 2, -2147483646, row()))",
        )
        cls.runModule("r.mapcalc", overwrite=True, expression="many = row() * 1000 + col()")
        cls.runModule("r.mapcalc", overwrite=True, expression="void = int(null())")
        cls.runModule("r.category", map="zones", rules="-", separator="tab", stdin_=LABELS)
        cls.room = tempfile.TemporaryDirectory()

    @classmethod
    def tearDownClass(cls):
        cls.room.cleanup()
        cls.runModule("g.remove", flags="f", type="raster", name=MAPS)
        cls.del_temp_region()

    def tearDown(self):
        gs.run_command("g.remove", flags="f", type="raster", pattern="t_*", quiet=True)

    def script(self, text):
        path = os.path.join(self.room.name, "script")
        with open(path, "w", encoding="utf-8") as file:
            file.write(text)
        return path

    def rcell(self, text, **options):
        """Run r.rcell, which must succeed, and return its output."""
        module = SimpleModule("r.rcell", script=self.script(text), **options)
        self.assertModule(module)
        return module.outputs.stdout

    def refused(self, text, **options):
        """Run r.rcell, which must fail and leave no file, and return its message."""
        before = gs.list_strings("raster")
        module = SimpleModule("r.rcell", script=self.script(text), **options)
        self.assertModuleFail(module)
        self.assertEqual(gs.list_strings("raster"), before)
        self.assertEqual(module.outputs.stdout, "")
        return module.outputs.stderr

    def assert_same(self, ours, theirs):
        """Assert that two maps have the same cells and edges."""
        self.runModule(
            "r.mapcalc",
            overwrite=True,
            expression="t_differs = if(isnull({0}) && isnull({1}), 0, "
            "if(isnull({0}) || isnull({1}), 1, {0} != {1}))".format(ours, theirs),
        )
        self.assertRasterFitsUnivar("t_differs", {"max": 0, "n": SIDE * SIDE})
        edges = [gs.parse_command("r.info", flags="g", map=name) for name in (ours, theirs)]
        self.assertEqual(
            *[
                {key: info[key] for key in ("north", "south", "east", "west", "rows", "cols")}
                for info in edges
            ]
        )

    # Results

    def test_areas_are_those_of_r_clump(self):
        for flags in ("", "d"):
            name = "t_areas" + flags
            own = "r.clump {}input=cover output={}\n".format("-d " if flags else "", name)
            self.rcell(own, maps="cover", output=name)
            self.runModule("r.clump", flags=flags, input="cover", output="t_theirs", overwrite=True)
            pairs = gs.read_command(
                "r.stats", flags="n", input=name + ",t_theirs", quiet=True
            ).split("\n")[:-1]
            numbers = [int(pair.split()[0]) for pair in pairs]
            self.assertEqual(numbers, list(range(1, len(numbers) + 1)))
            self.assertEqual(len({pair.split()[1] for pair in pairs}), len(pairs))
            self.assertEqual(len(pairs), int(gs.raster_info("t_theirs")["max"]))

    def test_areas_are_numbered_by_first_cells(self):
        self.rcell("r.clump input=cover output=t_areas\n", maps="cover", output="t_areas")
        numbers = gs.read_command("r.stats", flags="1n", input="t_areas", quiet=True).split()
        greatest = 0
        for number in map(int, numbers):
            self.assertLessEqual(number, greatest + 1)
            greatest = max(greatest, number)

    def test_majority_is_that_of_r_neighbors(self):
        self.rcell("r.mapcalc t_most = nmode({})\n".format(NINE), maps="cover", output="t_most")
        self.runModule("r.neighbors", input="cover", output="t_theirs", method="mode", size=3)
        self.assert_same("t_most", "t_theirs")

    def test_classes_and_labels_are_those_of_r_reclass(self):
        rules = '1 2 = 1 low, "wet"\n3 thru 5 = 2 high: dry\n-5 thru 0 = 3\n* = NULL\nend\n'
        self.rcell("r.reclass input=cover output=t_class\n" + rules, maps="cover", output="t_class")
        self.runModule("r.reclass", input="cover", output="t_theirs", rules="-", stdin_=rules)
        self.assert_same("t_class", "t_theirs")
        ours, theirs = [gs.read_command("r.category", map=name) for name in ("t_class", "t_theirs")]
        self.assertEqual(ours, theirs)
        self.runModule("g.remove", flags="f", type="raster", name="t_theirs")

    def test_tables_are_those_of_r_stats(self):
        for flags in ("c", "cn", "cl", "cln", "n"):
            ours = self.rcell(
                "r.stats -{} input=zones,cover separator=pipe\n".format(flags), maps="zones,cover"
            )
            theirs = gs.read_command(
                "r.stats", flags=flags, input="zones,cover", separator="pipe", quiet=True
            )
            self.assertMultiLineEqual(ours, theirs)

    def test_flag_l_adds_labels_to_all_tables(self):
        ours = self.rcell(
            "  r.stats -c input=zones,cover\nr.stats\t-n input=zones separator=tab\n",
            flags="l",
            maps="zones,cover",
        )
        theirs = gs.read_command("r.stats", flags="cl", input="zones,cover", quiet=True)
        theirs += gs.read_command("r.stats", flags="ln", input="zones", separator="tab", quiet=True)
        self.assertMultiLineEqual(ours, theirs)

    def test_labels_of_an_input_are_handed_on(self):
        self.rcell("r.mapcalc t_x = zones\n", maps="zones", output="t_x,zones=t_zones")
        self.assert_same("t_zones", "zones")
        self.assertEqual(
            gs.read_command("r.category", map="t_zones"), gs.read_command("r.category", map="zones")
        )
        self.assertNotIn("town", gs.read_command("r.category", map="t_x"))

    def test_categories_of_any_range(self):
        script = "".join(
            "r.mapcalc t_{0} = {0}\n".format(name) for name in ("wide", "void", "many")
        )
        self.rcell(script, maps="wide,void,many", output="t_wide,t_void,t_many")
        for name in ("wide", "void", "many"):
            self.assert_same("t_" + name, name)

    # Names, streams and files

    def test_names_and_mapsets(self):
        mapset = gs.gisenv()["MAPSET"]
        script = "r.mapcalc big = lc + ws\nr.stats -cn input=big\n"
        ours = self.rcell(
            script,
            maps="lc=cover@{0},ws=zones@{0}".format(mapset),
            output="big=t_sum,big=t_again@" + mapset,
        )
        self.runModule("r.mapcalc", expression="t_theirs = cover + zones")
        self.assert_same("t_sum", "t_theirs")
        self.assert_same("t_again", "t_theirs")
        self.assertMultiLineEqual(
            ours, gs.read_command("r.stats", flags="cn", input="t_theirs", quiet=True)
        )

    def test_grids_and_tables_of_the_script_stay_in_its_table(self):
        path = os.path.join(self.room.name, "table")
        script = (
            "r.stats -c input=cover\nr.mapcalc t_a = 1\nr.out.ascii input=t_a\nr.stats -cn "
            "input=void\nr.stats -c input=t_a"
        )
        self.assertEqual(self.rcell(script, maps="cover,void", output="t_a", table=path), "")
        with open(path, encoding="ascii") as file:
            lines = file.read().splitlines()
        theirs = gs.read_command("r.stats", flags="c", input="cover", quiet=True).splitlines()
        self.assertEqual(lines[: len(theirs)], theirs)
        self.assertRegex(lines[len(theirs)], "^north: 41$")
        self.assertEqual(lines[-1], "1 {}".format(SIDE * SIDE))
        self.assertEqual(len(lines), len(theirs) + 6 + SIDE + 1)
        self.assertIn("> exists", self.refused(script, maps="cover,void", table=path))

    def test_script_from_standard_input(self):
        module = SimpleModule(
            "r.rcell", script="-", maps="cover", stdin_="r.stats -c input=cover\n"
        )
        self.assertModule(module)
        self.assertMultiLineEqual(
            module.outputs.stdout, gs.read_command("r.stats", flags="c", input="cover", quiet=True)
        )

    def test_mask_is_obeyed(self):
        self.runModule("r.mask", raster="zones", maskcats="2 3")
        try:
            ours = self.rcell(
                "r.stats -c input=cover\nr.clump input=cover output=t_areas\n",
                maps="cover",
                output="t_areas",
            )
            theirs = gs.read_command("r.stats", flags="c", input="cover", quiet=True)
        finally:
            self.runModule("r.mask", flags="r")
        self.assertMultiLineEqual(ours, theirs)
        outside = gs.read_command("r.stats", flags="cn", input="zones,t_areas", quiet=True).split(
            "\n"
        )
        self.assertEqual({line.split()[0] for line in outside if line}, {"2", "3"})

    def test_current_region(self):
        self.runModule("g.region", save="t_whole", overwrite=True)
        self.runModule("g.region", n=40.9, s=40.8, w=11.05, e=11.2, rows=77, cols=91)
        try:
            ours = self.rcell(
                "r.stats -c input=cover\nr.mapcalc t_part = cover\n", maps="cover", output="t_part"
            )
            self.assertMultiLineEqual(
                ours, gs.read_command("r.stats", flags="c", input="cover", quiet=True)
            )
            current = gs.parse_command("g.region", flags="g")
            info = gs.parse_command("r.info", flags="g", map="t_part")
        finally:
            self.runModule("g.region", region="t_whole")
            self.runModule("g.remove", flags="f", type="region", name="t_whole")
        self.assertEqual(
            [info[key] for key in ("north", "south", "east", "west")],
            [current[key] for key in "nsew"],
        )

    def test_inputs_and_outputs_are_looked_up_first(self):
        self.runModule("r.mapcalc", overwrite=True, expression="taken = 1")
        script = "r.mapcalc x = cover\nr.stats -c input=x\n"
        wrong = [
            (dict(maps="nowhere", output="x"), "Raster map <nowhere> not found"),
            (dict(maps="cover=nowhere@PERMANENT"), "Raster map <nowhere@PERMANENT> not found"),
            (dict(maps="cover,heights"), "Raster map <heights> has decimals"),
            (dict(maps="cover,cover=zones"), "The name <cover> is used for two maps"),
            (dict(maps="cover,3d=zones"), "rcell does not accept this name"),
            (dict(maps="cover", output="y"), "The script does not make a map <y>; it makes x"),
            (dict(maps="cover", output="x=taken"), "Raster map <taken> exists"),
            (dict(maps="cover", output="x=t_1,x=t_1"), "Raster map <t_1> would be written twice"),
            (
                dict(maps="cover", output="x=t_1@elsewhere"),
                "is not a valid name for a raster map in this mapset",
            ),
        ]
        for options, message in wrong:
            self.assertIn(message, re.sub(r"\s+", " ", self.refused(script, **options)))

    def test_overwrite(self):
        self.runModule("r.mapcalc", overwrite=True, expression="taken = 1")
        module = SimpleModule(
            "r.rcell",
            script=self.script("r.mapcalc x = zones\n"),
            maps="zones",
            output="x=taken",
            overwrite=True,
        )
        self.assertModule(module)
        self.assert_same("taken", "zones")
        module = SimpleModule(
            "r.rcell",
            script=self.script("r.mapcalc x = taken + 1\n"),
            maps="taken",
            output="x=taken",
            overwrite=True,
        )
        self.assertModule(module)
        self.runModule("r.mapcalc", expression="t_theirs = zones + 1")
        self.assert_same("taken", "t_theirs")

    def test_refusals_show_the_line(self):
        script = (
            "# wood\nr.reclass input=zones output=x\n1 = 1 town\nend\n\tr.mapcalc y = x + coverr\n"
        )
        for flags in ("", "l"):
            message = self.refused(
                script + "r.stats -c input=zones,x\n",
                maps="zones,cover",
                output="x=t_x,y=t_y",
                flags=flags,
            )
            self.assertIn("rcell: script:5: unknown map at column 20", message)
            self.assertIn("     r.mapcalc y = x + coverr\n                       ^\n", message)
        message = self.refused("r.stats -c input=zones --quiet\n", maps="zones", flags="l")
        self.assertIn(
            "rcell: script:1: bad option: --quiet\n    r.stats -c input=zones --quiet\n", message
        )
        message = self.refused(
            "r.reclass input=zones output=t_x\n1 = 1\n", maps="zones", output="t_x"
        )
        self.assertIn("rcell: script:1: missing end", message)

    def test_labels_with_tabs_are_refused(self):
        self.assertIn(
            "contains a tab",
            self.refused(
                "r.reclass input=zones output=t_x\n1 = 1 a\tb\nend\n", maps="zones", output="t_x"
            ),
        )

    def test_nothing_stays_where_it_is_stopped(self):
        words = [
            "r.rcell",
            "script=" + self.script("r.mapcalc t_a = many\nr.mapcalc t_b = many\n"),
            "maps=many",
            "output=t_a,t_b",
        ]
        before = gs.list_strings("raster")
        for seconds in (0.5, 0.9, 1.3, 1.7):
            running = subprocess.Popen(words, stdout=subprocess.DEVNULL, stderr=subprocess.DEVNULL)
            time.sleep(seconds)
            running.send_signal(signal.SIGTERM)
            if running.wait() == 0:
                gs.run_command("g.remove", flags="f", type="raster", name="t_a,t_b", quiet=True)
            self.assertEqual(gs.list_strings("raster"), before)


if __name__ == "__main__":
    test()
