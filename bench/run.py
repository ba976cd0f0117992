#!/usr/bin/env python3
"""Time rcell and a hand-written yardstick in C++ (bench/yardstick.cpp), task by task, and print
tables of the results.

    run.py [--short] [--rounds N] [--only WORD] [--program PATH] [--limit PATH] [--write]

First, both programs do each task once, and their outputs are compared byte for byte. Then they take
turns, and the smallest processor time (user and system) of all rounds counts, so that other work on
the machine matters little. Grids of up to 4 million cells are timed in three times as many rounds.
All times are milliseconds per million cells of one map, from start to end of the program, with
output to /dev/null. Memory is the peak of the process, in bytes per cell of one map.

"Ten tasks" is one run of N rounds. It shows the ratios of the smallest and of the median times,
memory and, if valgrind is installed, the instructions per cell as counted by callgrind. --limit
names a program that does some of the tasks as fast as possible for only digits and blanks
(LIMIT_WORDS). It is not in this repository.

--short uses grids of a million cells. Otherwise the grids are those in the tables, written once to
bench/out. If their requirements are installed, the real maps are made with bench/real_maps.py, and
GRASS is timed with bench/beside_grass.py; --short leaves out both. --only selects the parts whose
title contains the word. --write puts the results into bench/RESULTS.md. `make figures` does this
and updates everything that depends on it.
"""
import argparse
import filecmp
import os
import re
import shutil
import statistics
import subprocess
import sys
import time
from dataclasses import dataclass, field

sys.path.insert(1, os.path.abspath(f"{__file__}/../../tools/documents"))

import beside_grass
import figures

HERE = os.path.dirname(os.path.abspath(__file__))
ROOT = os.path.dirname(HERE)
OUT = f"{HERE}/out"
DOCUMENT = f"{ROOT}/bench/RESULTS.md"
# The marks before and after the tables in the document.
MARKS = ("<!-- The tables of bench/run.py -->\n", "<!-- End of the tables -->\n")
NAMES = "ghijklmnopqrstuv"
SHORT_SIDE = 1000
# Grids with few cells are timed in more rounds, because disturbances are a larger part of a short
# run.
FEW_SIDE = 2000
ROUNDS_FOR_FEW = 3
ROUNDS_OF_GRASS = 3
REAL = "real-"
# The yardstick, and its build without AVX-512, which valgrind does not support.
YARDSTICK, COUNTED_YARDSTICK = "yardstick", "yardstick-for-valgrind"
COLLECTED = re.compile(r"Collected : (\d+)")
HEADER_LINES = 6
MILLION = 1e6


@dataclass(frozen=True)
class Task:
    """A task: the lines of the script, and the arguments of the yardstick."""

    title: str
    script: str
    words: tuple[str, str]
    maps: int = 1


@dataclass(frozen=True)
class Bench:
    """Tasks, each over grids of some kinds of make_grid.cpp with the seeds 1, 2, .. `side` is the
    number of rows and columns, or a pair of both."""

    title: str
    side: int | tuple[int, int]
    tasks: tuple[tuple[Task, tuple[str, ...]], ...]


@dataclass
class Taken:
    """The processor time of each round, in seconds, and the largest peak of memory, in bytes."""

    rounds: list[float] = field(default_factory=list)
    peak: int = 0

    def add(self, seconds, peak):
        self.rounds.append(seconds)
        self.peak = max(self.peak, peak)

    @property
    def seconds(self):
        """Return the smallest time, in which other work interfered the fewest times."""
        return min(self.rounds)

    @property
    def median(self):
        return statistics.median(self.rounds)


@dataclass(frozen=True)
class Race:
    """Tasks, each over grids of one kind with the seeds 1, 2, .."""

    title: str
    tasks: tuple[tuple[Task, str], ...]
    side: int = FEW_SIDE


NINE = " + ".join(f"g[{row},{col}]" for row in (-1, 0, 1) for col in (-1, 0, 1))
CHOICE = (
    "if(isnull(g), 40, if(g == 1, 10, if(g == 2 || g == 3, 20, if(g > 6 && g < 10, 30, g + 100))))"
)
RULES = "1 thru 3 = 1\n4 6 = 2\n11 thru 24 = 3\n31 41 thru 43 = 4\n52 thru 71 = 5\n90 thru 95 = NULL\n* = 6\nend\n"

READ = Task("reading", "", ("none", "nothing"))
WRITE = Task("r.out.ascii", "r.out.ascii input=g\n", ("none", "ascii"))
STATS = Task("r.stats -c", "r.stats -c input=g\n", ("none", "stats"))
STATS_TWO = Task("r.stats -c of two maps", "r.stats -c input=g,h\n", ("none", "stats"), 2)
CLUMP = Task("r.clump", "r.clump input=g output=m\n", ("clump", "nothing"))
CLUMP_CORNERS = Task("r.clump -d", "r.clump -d input=g output=m\n", ("clump-d", "nothing"))
CLUMP_WRITE = Task(
    "r.clump, r.out.ascii", CLUMP.script + "r.out.ascii input=m\n", ("clump", "ascii")
)
CLUMP_CORNERS_WRITE = Task(
    "r.clump -d, r.out.ascii", CLUMP_CORNERS.script + "r.out.ascii input=m\n", ("clump-d", "ascii")
)
SUM = Task("sum of nine offsets", f"r.mapcalc m = {NINE}\n", ("sum", "nothing"))
SUM_WRITE = Task(
    "sum of nine offsets, r.out.ascii", SUM.script + "r.out.ascii input=m\n", ("sum", "ascii")
)
LONG_IF = Task("long `if`", f"r.mapcalc m = {CHOICE}\n", ("choice", "nothing"))
LONG_IF_STATS = Task(
    "long `if`, r.stats -c", LONG_IF.script + "r.stats -c input=m\n", ("choice", "stats")
)
RECLASS_STATS = Task(
    "r.reclass, r.stats -c",
    f"r.reclass input=g output=m\n{RULES}r.stats -c input=m\n",
    ("reclass", "stats"),
)

NARROW = (READ, STATS, WRITE, CLUMP_WRITE, SUM_WRITE)
REAL_TASKS = (READ, CLUMP, SUM)

TEN_TASKS = "Ten tasks"
RACED = (
    READ,
    STATS,
    STATS_TWO,
    CLUMP,
    CLUMP_CORNERS,
    CLUMP_WRITE,
    SUM_WRITE,
    LONG_IF_STATS,
    RECLASS_STATS,
    WRITE,
)
# The names of tasks in the program of --limit.
LIMIT_WORDS = {
    READ: "read",
    STATS: "count",
    STATS_TWO: "count2",
    CLUMP: "clump",
    CLUMP_CORNERS: "clumpd",
    CLUMP_WRITE: "clumpout",
    WRITE: "out",
}


def raced(title, kind, tasks=RACED):
    """Return the race of tasks over one kind of grid."""
    return Race(f"{title}, 4 million cells", tuple((task, kind) for task in tasks))


def over(kind, tasks):
    """Return tasks with their kind of grid."""
    return tuple((task, (kind,)) for task in tasks)


def counted(title, *kinds):
    """Return the task of counting combinations, with one map for each kind."""
    return Task(title, f"r.stats -c input={','.join(NAMES[:len(kinds)])}\n", STATS.words), kinds


COUNTED = (
    *(
        counted(f"{count:,} categories at random", f"random:{count}")
        for count in (100_000, 1_000_000)
    ),
    *(
        counted(f"two maps of {count:,} values at random", *[f"random:{count}"] * 2)
        for count in (100, 1000, 3000)
    ),
    counted("two maps of heights of five digits", *["heights:5"] * 2),
    counted("three land covers", *["cover"] * 3),
)

PARTS = {
    TEN_TASKS: (
        raced("patchy land cover", "patchy"),
        raced("noise", "noise"),
        raced("heights of five digits", "heights:5"),
    ),
    "Larger maps": (
        Bench("patchy land cover, 25 million cells", 5000, over("patchy", (READ,))),
        Bench("noise, 25 million cells", 5000, over("noise", (READ,))),
        Bench(
            "negative numbers at random, `null: -9999`, 25 million cells",
            5000,
            over("negative", (READ,)),
        ),
        Bench("negative patches, `null: -9999`, 25 million cells", 5000, over("cold", (READ,))),
    ),
    "Dimensions beside C++": (
        Bench("noise, 65,535 rows by 1", (65535, 1), over("noise", NARROW)),
        Bench("r.stats -c of 4 million cells", 2000, COUNTED),
        Bench(
            "r.stats -c of 10 million cells",
            3163,
            (counted("another category in each cell", "blocks:1"),),
        ),
        Bench(
            "r.stats -c of 1 million cells",
            1000,
            tuple(
                counted(f"{maps} maps of four values at random", *["random:4"] * maps)
                for maps in (8, 16)
            ),
        ),
    ),
}

REAL_MAPS = "Real maps"
PARTS[REAL_MAPS] = tuple(
    Bench(title, 0, over(kind, REAL_TASKS))
    for title, kind in (
        ("real land and lakes of South-East Asia, 27 million cells", f"{REAL}land"),
        ("real land cover, laid side by side, 25 million cells", f"{REAL}cover"),
        ("real heights of the globe, 9 million cells", f"{REAL}heights"),
    )
)
# The title of a GRASS table is the title of its grid.
GRASS_GRIDS = (("patchy land cover, 25 million cells", "patchy", 1, 5000),)
TITLES = (*PARTS, "GRASS")


def say(text):
    print(text, file=sys.stderr, flush=True)


def build():
    """Compile the C++ programs for this machine, with clang if it is installed, because it makes
    the faster yardstick."""
    os.makedirs(OUT, exist_ok=True)
    for name in ("make_grid", "measure", YARDSTICK):
        compile_to(name, name)
    compile_to(COUNTED_YARDSTICK, YARDSTICK, machine="x86-64-v3")


def compile_to(program, name, machine="native"):
    words = [
        compiler(),
        "-std=c++20",
        "-O3",
        f"-march={machine}",
        "-o",
        f"{OUT}/{program}",
        f"{HERE}/{name}.cpp",
    ]
    subprocess.run(words, check=True)


def grid_file(kind, seed, side):
    """Return the path of a grid. Write the grid if it does not exist."""
    if kind.startswith(REAL):
        return f"{OUT}/{kind}.txt"
    rows, cols = side if isinstance(side, tuple) else (side, side)
    path = f"{OUT}/{kind.replace(':', '-')}-{seed}-{rows}" + (
        f"-{cols}.txt" if cols != rows else ".txt"
    )
    if not os.path.exists(path):
        say(f"  writing {os.path.basename(path)}")
        with open(f"{path}.part", "wb") as file:
            subprocess.run(
                [f"{OUT}/make_grid", kind, str(rows), str(cols), str(seed)], stdout=file, check=True
            )
        os.rename(f"{path}.part", path)
    return path


def cells_of(path):
    """Return the number of cells in a grid, from its header."""
    with open(path, encoding="ascii") as file:
        header = dict(line.split(": ") for line, _ in zip(file, range(HEADER_LINES)))
    return int(header["rows"]) * int(header["cols"])


def measure(words, output="/dev/null", environment=None):
    """Return the processor seconds, and the peak of memory in bytes."""
    how = {"check": True, "stdout": subprocess.PIPE, "text": True, "env": environment}
    answer = subprocess.run([f"{OUT}/measure", output, *words], **how).stdout.split()
    micros, peak, status = (int(word) for word in answer)
    if status != 0:
        sys.exit(f"{' '.join(words)} ended with status {status}")
    return micros / 1e6, peak


def instructions(words, given=subprocess.DEVNULL):
    """Return the number of instructions of a run, or None if valgrind is not installed."""
    if not shutil.which("valgrind"):
        return None
    ran = subprocess.run(
        ["valgrind", "--tool=callgrind", "--callgrind-out-file=/dev/null", *words],
        check=True,
        stdin=given,
        stdout=subprocess.DEVNULL,
        stderr=subprocess.PIPE,
        text=True,
    )
    return int(COLLECTED.search(ran.stderr)[1])


@dataclass
class Contest:
    """One task with rcell, the yardstick and, if given, the program of --limit, over the same
    grids."""

    task: Task
    paths: list[str]
    program: str
    number: int
    limit: str | None = None
    rcell: Taken = field(default_factory=Taken)
    yardstick: Taken = field(default_factory=Taken)
    fastest: Taken = field(default_factory=Taken)

    def words(self):
        """Return the commands of rcell and of the yardstick."""
        script = f"{OUT}/script-{self.number}"
        with open(script, "w", encoding="ascii") as file:
            file.write(self.task.script)
        named = [f"{name}={path}" for name, path in zip(NAMES, self.paths)]
        return [self.program, script, *named], [f"{OUT}/{YARDSTICK}", *self.task.words, *self.paths]

    def check(self):
        """Check that both programs write the same bytes."""
        outputs = [f"{OUT}/output-of-{by}" for by in ("rcell", "yardstick")]
        for words, output in zip(self.words(), outputs):
            measure(words, output)
        if not filecmp.cmp(*outputs, shallow=False):
            sys.exit(f"the programs wrote different texts: {self.task.title}")
        for output in outputs:
            os.remove(output)

    def turn(self):
        ours, theirs = self.words()
        self.rcell.add(*measure(ours))
        self.yardstick.add(*measure(theirs))
        if self.limit:
            self.fastest.add(*measure([self.limit, LIMIT_WORDS[self.task], *self.paths]))

    def instructions(self):
        """Return the instructions of rcell and of the yardstick."""
        ours, (_, *words) = self.words()
        return instructions(ours), instructions([f"{OUT}/{COUNTED_YARDSTICK}", *words])


def row(contest):
    """Return a line of a part's table."""
    cells = cells_of(contest.paths[0])
    times = [it.seconds * 1000 * MILLION / cells for it in (contest.rcell, contest.yardstick)]
    peaks = [it.peak / cells for it in (contest.rcell, contest.yardstick)]
    return [
        contest.task.title,
        *(f"{time:.1f}" for time in times),
        f"{times[0] / times[1]:.2f}",
        *(f"{it:.2f}" for it in peaks),
    ]


HEAD = ("Task", "rcell ms", "yardstick ms", "ratio", "bytes a cell: rcell", "yardstick")


def run(bench, wanted, side):
    """Yield the lines of a table."""
    contests = [
        Contest(
            task,
            [grid_file(kind, seed, side) for seed, kind in enumerate(kinds, 1)],
            wanted.program,
            number,
        )
        for number, (task, kinds) in enumerate(bench.tasks)
    ]
    is_small = cells_of(contests[0].paths[0]) <= FEW_SIDE * FEW_SIDE
    take_turns(contests, wanted.rounds * (ROUNDS_FOR_FEW if is_small else 1))
    return [row(contest) for contest in contests]


def take_turns(contests, rounds):
    for contest in contests:
        contest.check()
    for number in range(rounds):
        print(
            f"\r  round {number + 1} of {rounds}",
            end="\n" if number + 1 == rounds else "",
            file=sys.stderr,
            flush=True,
        )
        for contest in contests:
            contest.turn()


RACE_HEAD = (
    "Task",
    "rcell ms",
    "yardstick ms",
    "ratio: smallest, median",
    "over the limit: smallest, median",
    "instructions a cell: rcell, yardstick",
    "bytes a cell: rcell, yardstick",
)


def race(bench, wanted, side):
    """Yield the lines of a table for a race, in which programs take turns."""
    contests = [
        Contest(
            task,
            [grid_file(kind, seed + 1, side) for seed in range(task.maps)],
            wanted.program,
            number,
            wanted.limit if task in LIMIT_WORDS else None,
        )
        for number, (task, kind) in enumerate(bench.tasks)
    ]
    take_turns(contests, wanted.rounds)
    for contest in contests:
        times = [
            f"{it.seconds * 1000 * MILLION / side ** 2:.1f}"
            for it in (contest.rcell, contest.yardstick)
        ]
        counts = [
            f"{count / side ** 2:.1f}" for count in contest.instructions() if count is not None
        ]
        peaks = [f"{it.peak / side ** 2:.2f}" for it in (contest.rcell, contest.yardstick)]
        yield (
            contest.task.title,
            *times,
            ratios_cell(contest.rcell, contest.yardstick),
            ratios_cell(contest.rcell, contest.fastest),
            ", ".join(counts),
            ", ".join(peaks),
        )


def ratios_cell(ours, theirs):
    """Return the ratios of the smallest and of the median times."""
    if not theirs.rounds:
        return ""
    return f"{ours.seconds / theirs.seconds:.2f}, {ours.median / theirs.median:.2f}"


def line_of(words):
    """Return a line of a table in the document."""
    return "| " + " | ".join(words) + " |"


def has_real_maps(wanted):
    """Return whether the real maps exist. Make them first if possible."""
    if wanted.short:
        return False
    made = (
        subprocess.run(
            ["/usr/bin/python3", f"{HERE}/real_maps.py"], stdout=subprocess.DEVNULL
        ).returncode
        == 0
    )
    if not made:
        say("  the real maps cannot be made here (bench/real_maps.py), they are left out")
    return made


def tables(benches, wanted):
    """Yield the lines of a part: one table, which names the map of each task."""
    head = RACE_HEAD if isinstance(benches[0], Race) else HEAD
    yield from map(line_of, (("Map", *head), ["---"] * (len(head) + 1)))
    for bench in benches:
        side = SHORT_SIDE if wanted.short else bench.side
        say(f"{bench.title}")
        title = bench.title + (
            " (here 1 million)" if wanted.short and bench.side != SHORT_SIDE else ""
        )
        for words in (race if isinstance(bench, Race) else run)(bench, wanted, side):
            yield line_of((title, *words))


def grass_tables(wanted):
    """Return the tables of GRASS for some tasks, if GRASS is installed."""
    if wanted.short or not shutil.which("grass"):
        say("  GRASS is not installed, or the run is a short one: it is left out")
        return
    head = beside_grass.HEAD
    yield from map(line_of, (("Map", *head), ["---"] * (len(head) + 1)))
    for title, kind, seed, side in GRASS_GRIDS:
        path = grid_file(kind, seed, side)
        if os.path.exists(path):
            say(f"beside GRASS: {title}")

            def seconds(words, environment):
                return measure(words, environment=environment)[0]

            for words in beside_grass.table(
                path, cells_of(path), wanted.program, ROUNDS_OF_GRASS, seconds
            ):
                yield line_of((title, *words))


def part(title, wanted):
    """Return the lines of a part."""
    if title == REAL_MAPS and not has_real_maps(wanted):
        return []
    return tables(PARTS[title], wanted) if title in PARTS else grass_tables(wanted)


def print_table(rows, marks, program, is_written):
    """Print the lines of a table as they are produced, and put them into the document if
    requested."""
    lines = [mark(program)]
    for line in rows:
        print(line, flush=True)
        lines.append(line + "\n")
    if is_written:
        put_between(marks, lambda _: "".join(lines))


def mark(program):
    """Return the mark that names, in the document, the program measured in the table below
    (tools/documents/figures.py)."""
    return f"{figures.mark_of(program)}\n\n"


def machine(program, rounds):
    """Return a mark, and a sentence about what was measured and where."""
    with open("/proc/cpuinfo", encoding="utf-8") as file:
        model = next(
            (line.split(":")[1].strip() for line in file if line.startswith("model name")),
            "an unknown processor",
        )
    day, load = time.strftime("%Y-%m-%d"), os.getloadavg()[0]
    return (
        f"{mark(program)}Measured on {day}: {len(os.sched_getaffinity(0))} processors ({model}), "
        f"Linux {os.uname().release.split('-')[0]}, {compiler()}, load {load:.0f} at the start, {rounds} rounds.\n"
    )


def compiler():
    return "clang++" if shutil.which("clang++") else "g++"


def put_between(marks, text):
    """Replace the text between two marks in the document."""
    with open(DOCUMENT, encoding="utf-8") as file:
        before, _, rest = file.read().partition(marks[0])
    old, _, after = rest.partition(marks[1])
    new = text(old)
    with open(DOCUMENT, "w", encoding="utf-8") as file:
        file.write(before + marks[0] + new + marks[1] + after)


def parts_of(text):
    """Return the parts of the document, by title."""
    return {
        title: rest for title, _, rest in (part.partition("\n") for part in text.split("\n## ")[1:])
    }


def write(found):
    """Replace the measured parts in the document."""

    def with_parts(old):
        parts = parts_of(old) | found
        return (
            "".join(
                f"\n## {title}\n{parts[title].rstrip()}\n" for title in TITLES if title in parts
            )
            + "\n"
        )

    put_between(MARKS, with_parts)


def main():
    parser = argparse.ArgumentParser()
    parser.add_argument("--short", action="store_true")
    parser.add_argument("--rounds", type=int, default=5)
    parser.add_argument("--only", default="")
    parser.add_argument("--program", default=f"{ROOT}/bin/rcell", type=os.path.abspath)
    parser.add_argument("--limit", type=os.path.abspath)
    parser.add_argument("--write", action="store_true")
    wanted = parser.parse_args()
    build()
    found, where = {}, machine(wanted.program, wanted.rounds)
    for title in TITLES:
        if wanted.only.lower() not in title.lower():
            continue
        print(f"## {title}\n", flush=True)
        lines = []
        for line in part(title, wanted):
            print(line, flush=True)
            lines.append(line)
        if lines:
            found[title] = f"\n{where}\n" + "\n".join(lines) + "\n"
    if wanted.write:
        write(found)


if __name__ == "__main__":
    main()
