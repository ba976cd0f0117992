"""Test r.rcell without GRASS: scripts, the exchange of maps with rcell-pipe, and output.

r.rcell is imported with stubs of GRASS's Python packages. The tests run the real rcell-pipe, which
is next to the program that RCELL names.
"""
import array
import builtins
import contextlib
import importlib.util
import os
import re
import stat
import subprocess
import sys
import tempfile
import threading
import types
import unittest
from unittest import mock

HERE = os.path.dirname(os.path.abspath(__file__))
ROOT = os.path.dirname(os.path.dirname(HERE))
PROGRAM = os.path.realpath(os.environ.get("RCELL") or f"{ROOT}/bin/rcell")
REGION = {"n": 2, "s": 0, "e": 3, "w": 0, "rows": 2, "cols": 3}
HEAD = "north: 2\nsouth: 0\neast: 3\nwest: 0\nrows: 2\ncols: 3\n"


def add_on():
    """Import r.rcell as a module, with stubs for GRASS."""
    script, exceptions = types.ModuleType("grass.script"), types.ModuleType("grass.exceptions")
    exceptions.CalledModuleError = type("CalledModuleError", (Exception,), {})
    grass = types.ModuleType("grass")
    grass.script, grass.exceptions = script, exceptions
    sys.modules.update({"grass": grass, "grass.script": script, "grass.exceptions": exceptions})
    builtins._ = lambda text: text
    spec = importlib.util.spec_from_file_location("r_rcell", f"{ROOT}/grass/r.rcell/r.rcell.py")
    module = importlib.util.module_from_spec(spec)
    spec.loader.exec_module(module)
    return module


rcell = add_on()
NULL = rcell.NULL
rcell.find_front(PROGRAM)


class Opened:
    """A stub of a GRASS module whose output is a file."""

    def __init__(self, path):
        self.stdout = open(path, "rb")

    def wait(self):
        return 0


@contextlib.contextmanager
def handing_out():
    """Simulate a session in which maps are files of cells and rcell-pipe is on the path."""
    with mock.patch.object(
        rcell, "program", lambda: os.path.join(os.path.dirname(PROGRAM), "rcell-pipe")
    ), mock.patch.object(
        rcell.gs, "pipe_command", lambda *_, input, **__: Opened(input), create=True
    ), mock.patch.object(
        rcell.gs, "percent", lambda *_: None, create=True
    ):
        yield


class Session(unittest.TestCase):
    def setUp(self):
        session = contextlib.ExitStack()
        self.addCleanup(session.close)
        self.room = session.enter_context(tempfile.TemporaryDirectory())
        session.enter_context(handing_out())
        with open(f"{self.room}/a", "wb") as file:
            array.array("i", [1, 2, NULL, 1, 1, 2]).tofile(file)

    def statements(self, script, names=("a",)):
        return rcell.judged(script, list(names))

    def run_(self, script, outputs=(), labels=None):
        """Run a script on the map `a`, and return its text, the cells of its outputs, and labels."""
        labels = labels or {}
        wanted = [rcell.Output(name, name) for name in outputs]
        statements = self.statements(script)

        def sources():
            raster = rcell.Input("a", f"{self.room}/a")
            return rcell.sources_of([raster], {"a": labels}, REGION, rcell.Progress(1))

        text = b"".join(rcell.tables_of(script, statements, sources)).decode()
        return text, *rcell.maps_of(script, statements, sources, wanted, {"a": labels})

    def refused(self, script, names=("a",)):
        with self.assertRaises(rcell.Stopped) as caught:
            self.statements(script, names)
        return str(caught.exception), caught.exception.beneath


class Scripts(Session):
    def test_flag_of_labels(self):
        script = (
            "r.stats -c input=a\n  r.stats -nl input=a\nr.stats input=a "
            "separator=-\r\n#r.stats\nr.mapcalc x = 1\nr.stats -1 input=a\nr.stats -l1 input=a"
        )
        wanted = (
            "r.stats -c input=a -l\n  r.stats -nl input=a\nr.stats input=a separator=-\r "
            "-l\n#r.stats\nr.mapcalc x = 1\nr.stats -1 input=a -l\n"
            "r.stats -l1 input=a"
        )
        labelled = rcell.with_labels(script, self.statements(script))
        self.assertEqual(labelled, wanted)
        self.assertEqual(
            ["l" in statement.options for statement in self.statements(labelled)],
            [True, True, True, False, True, True],
        )

    def test_maps_of_tables_with_labels(self):
        statements = self.statements(
            "r.stats -cl input=a,c\nr.stats -c input=b\nr.out.ascii input=e\nr.stats -1l "
            "input=d\nr.stats -1 input=b",
            "abcde",
        )
        self.assertEqual(rcell.labelled_maps(statements), {"a", "c", "d"})

    def test_errors_have_the_lines_of_the_user(self):
        self.assertEqual(
            self.refused("r.stats -c input=a\n\tr.mapcalc x = a + ab"),
            (
                "rcell: script:2: unknown map at column 20",
                "     r.mapcalc x = a + ab\n                       ^\n    try: r.mapcalc x = a + "
                "a\n",
            ),
        )
        self.assertEqual(
            self.refused('r.mapcalc "x = a * 2"')[0], "rcell: script:1: bad byte at column 11"
        )
        self.assertEqual(
            self.refused("r.reclass input=a output=b\n1 = 2")[0], "rcell: script:1: missing end"
        )

    def test_the_word_that_is_no_option_is_named(self):
        for line, word in (
            ("r.stats -cn a", "a"),
            ("r.stats in=a", "in=a"),
            ("r.clump -n input=a output=b", "-n"),
            ("r.stats input=a input=a", "input=a"),
            ("r.out.ascii input=a null_value=a:b", "null_value=a:b"),
            ("r.stats -c input=a output=t.txt", "output=t.txt"),
            ("r.stats input=a separator=ab", "separator=ab"),
        ):
            message, beneath = self.refused(line)
            self.assertEqual(message, "rcell: script:1: bad option: " + word)
            self.assertEqual(
                beneath.split("    try: ")[0],
                "    %s\n    %s^\n" % (line.replace("\t", " "), " " * line.rindex(word)),
            )
        self.assertEqual(
            self.refused("\tr.stats -c -1 input=a"),
            (
                "rcell: script:1: bad option",
                "     r.stats -c -1 input=a\n    try: use one of the two: `-1` cannot be "
                "combined with `-c` or `after=`\n",
            ),
        )
        self.assertEqual(
            self.refused("r.stats -cn a")[1].split("    try: ")[1], "r.stats -cn input=a\n"
        )

    def test_errors_of_other_places(self):
        from rcell.core.protocol import Rejected

        for end, text in (
            (Rejected(3, "request", 0, 0, 0, "no memory"), "rcell: a:0: no memory"),
            (Rejected(3, "", 0, 0, 0, "no memory"), "rcell: script:0: no memory"),
            (Rejected(1, "request", 0, 7, 0, "cell out of range"), "rcell: a:7: cell out of range"),
        ):
            self.assertEqual(str(rcell.stopped(end, "r.stats input=a\n", ["a"])), text)

    def test_another_program(self):
        with mock.patch.object(rcell, "program", lambda: "/bin/true"), self.assertRaises(
            rcell.Stopped
        ) as caught:
            self.statements("r.stats input=a")
        self.assertEqual(
            str(caught.exception),
            "/bin/true failed: the program ended with status 0 and printed: nothing",
        )


class Late(unittest.TestCase):
    """Standard input and output are non-blocking pipes."""

    def setUp(self):
        for number in (0, 1):
            copy = os.dup(number)
            self.addCleanup(os.close, copy)
            self.addCleanup(os.dup2, copy, number)

    def later(self, do):
        thread = threading.Timer(0.2, do)
        thread.start()
        return thread

    def test_a_script_is_read_whole(self):
        reads, writes = os.pipe()
        os.set_blocking(reads, False)
        os.dup2(reads, 0)
        os.write(writes, b"r.stats input=a\n")
        thread = self.later(lambda: (os.write(writes, b"r.stats -c input=a\n"), os.close(writes)))
        self.assertEqual(rcell.read_script("-"), "r.stats input=a\nr.stats -c input=a\n")
        thread.join()
        os.close(reads)

    def test_a_table_is_written_whole(self):
        reads, writes = os.pipe()
        os.set_blocking(writes, False)
        os.dup2(writes, 1)
        os.close(writes)
        text, read = b"1 2\n" * 50000, bytearray()

        def read_all():
            while len(read) < len(text):
                read.extend(os.read(reads, 1 << 16))

        thread = self.later(read_all)
        with rcell.table_file("", "script") as table:
            with open(table.path(), "wb") as file:
                file.write(text)
        thread.join()
        os.close(reads)
        self.assertEqual(read, text)


class Names(unittest.TestCase):
    def test_pairs(self):
        pairs = rcell.pairs_of("lc,ws=basins@P,zones@PERMANENT", rcell.Input)
        self.assertEqual(pairs, [("lc", "lc"), ("ws", "basins@P"), ("zones", "zones@PERMANENT")])
        self.assertEqual(rcell.pairs_of("", rcell.Output), [])

    def test_names_that_rcell_does_not_take(self):
        for text in ("land-use", "3d=a", "=a", "a b", "ü", "x" * 65, "a,a"):
            with self.assertRaises(rcell.Stopped):
                rcell.pairs_of(text, rcell.Input)


class Runs(Session):
    """Scripts are run over maps with rcell-pipe."""

    def test_what_is_printed(self):
        text, cells, texts = self.run_(
            'r.stats -c input=a\nr.reclass input=a output=b\n1 = 5 five, "5"\n* = '
            "*\nend\nr.stats -n input=a\nr.mapcalc c = null()\n"
            "r.stats -cn input=c\nr.out.ascii input=b\nr.stats -1l input=b "
            "separator=:\nr.out.ascii input=b null_value=-9",
            ["b", "c"],
        )
        listed = '5:five, "5"\n2:\n*:no data\n' + '5:five, "5"\n' * 2 + "2:\n"
        self.assertEqual(
            text,
            f"1 3\n2 2\n* 1\n1\n2\n{HEAD}5 2 *\n5 5 2\n{listed}{HEAD}null: -9\n5 2 -9\n5 5 2\n",
        )
        self.assertEqual(
            [(frame.type, frame.null, frame.cells.tolist()) for frame in cells],
            [("u8", 255, [5, 2, 255, 5, 5, 2]), ("u8", 255, [255] * 6)],
        )
        self.assertEqual(
            {name: rcell.label_lines(frame) for name, frame in texts.items()},
            {"b": [b'5\tfive, "5"\n']},
        )

    def test_labels_go_there_and_back(self):
        labels = {1: "town, old", 2: 'gro\u00df: "x" | y', 7: "\udcff"}
        text, _, texts = self.run_("r.stats -cl input=a separator=tab\n", ["a"], labels)
        self.assertEqual(text, '1\ttown, old\t3\n2\tgro\u00df: "x" | y\t2\n*\tno data\t1\n')
        self.assertEqual(
            rcell.label_lines(texts["a"]), [b"1\ttown, old\n", '2\tgro\u00df: "x" | y\n'.encode()]
        )
        with self.assertRaises(rcell.Stopped):
            rcell.label_lines(
                self.run_("r.reclass input=a output=b\n1 = 2 a\tb\nend", ["b"])[2]["b"]
            )

    def test_wide_categories(self):
        text, [frame], _ = self.run_("r.mapcalc b = a * -1000000000\nr.out.ascii input=b", ["b"])
        self.assertEqual(
            text, HEAD + "-1000000000 -2000000000 *\n-1000000000 -1000000000 -2000000000\n"
        )
        self.assertEqual((frame.type, frame.null, frame.cells[2]), ("i32", NULL, NULL))

    def test_a_map_that_ends_early(self):
        os.truncate(f"{self.room}/a", 4)
        with mock.patch.object(Opened, "wait", lambda _: 1), self.assertRaises(rcell.Stopped):
            self.run_("r.stats input=a")

    def test_edges(self):
        region = {"n": 41, "s": 41 - 1 / 3, "e": 1e-9, "w": -1e-9}
        self.assertEqual(rcell.edge_texts(region), ("41", "40.66666667", "0", "0"))


class Tables(unittest.TestCase):
    """The table file is complete or missing, and never replaces a device or FIFO."""

    def setUp(self):
        folder = tempfile.TemporaryDirectory()
        self.addCleanup(folder.cleanup)
        self.room = folder.name

    def write(self, path, script="-"):
        with rcell.table_file(path, script) as table:
            with open(table.path(), "wb") as file:
                file.write(b"1 2\n")

    def test_links_and_modes(self):
        path, link = f"{self.room}/t", f"{self.room}/link"
        self.write(path)
        os.chmod(path, 0o600)
        os.symlink("t", link)
        self.write(link)
        self.assertEqual((os.readlink(link), stat.S_IMODE(os.stat(path).st_mode)), ("t", 0o600))
        self.assertEqual(sorted(os.listdir(self.room)), ["link", "t"])

    def test_names_of_any_bytes(self):
        path = os.fsdecode(b"%s/\xff" % self.room.encode())
        self.write(path)
        self.assertEqual((os.listdir(self.room), rcell.read_script(path)), (["\udcff"], "1 2\n"))

    def test_pipes_stay_pipes(self):
        path = f"{self.room}/pipe"
        os.mkfifo(path)
        with subprocess.Popen(["cat", path], stdout=subprocess.PIPE) as reader:
            self.write(path)
            self.assertEqual(reader.communicate()[0], b"1 2\n")
        self.assertTrue(stat.S_ISFIFO(os.stat(path).st_mode))

    def test_what_cannot_be_written(self):
        with open(f"{self.room}/script", "w", encoding="ascii") as file:
            file.write("r.stats input=a\n")
        for path, script in (
            (f"{self.room}/script", f"{self.room}/script"),
            (self.room, "-"),
            (f"{self.room}/no/t", "-"),
            ("/dev/full", "-"),
        ):
            with self.assertRaises(rcell.Stopped):
                self.write(path, script)
        self.assertEqual(os.listdir(self.room), ["script"])


class Form(unittest.TestCase):
    """The folder has the layout of GRASS's add-on repository."""

    def test_files(self):
        folder = f"{ROOT}/grass/r.rcell"
        self.assertEqual(
            sorted(os.listdir(folder)), ["Makefile", "r.rcell.html", "r.rcell.py", "testsuite"]
        )
        with open(f"{folder}/Makefile", encoding="ascii") as file:
            self.assertIn("PGM = r.rcell\n", file.read())
        with open(f"{folder}/r.rcell.html", encoding="ascii") as file:
            page = file.read()
        for title in ("DESCRIPTION", "NOTES", "EXAMPLES", "SEE ALSO", "AUTHOR"):
            self.assertIn(f"<h2>{title}</h2>", page)
        with open(f"{folder}/r.rcell.py", encoding="utf-8") as file:
            keys = re.findall(r"^# % key: (\w+)$", file.read(), re.MULTILINE)
        self.assertEqual(keys, ["l", "script", "maps", "output", "table"])
        for key in keys:
            self.assertIn(f"<b>{'-l' if key == 'l' else key}</b>", page)


if __name__ == "__main__":
    result = unittest.TextTestRunner(verbosity=1).run(
        unittest.TestLoader().loadTestsFromModule(sys.modules[__name__])
    )
    wrong = len(result.failures) + len(result.errors)
    print(f"{result.testsRun - wrong} passed, {wrong} failed, 0 skipped")
    sys.exit(bool(wrong))
