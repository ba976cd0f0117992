#!/usr/bin/env python3
"""Prove the crates that a program needs, and put the program into bin/.

    build.py [--jobs N] PROGRAM..       PROGRAM is rcell or rcell-pipe
    build.py --list PROGRAM|all         the crates that it needs, each after those it uses

`rt ci` runs in a folder with only these crates, without tests and edits. If the kit keeps proofs,
as 13f does, the gate does not repeat what passes here, nor the other way round. One line is printed
for each finished crate; the full log is bin/proofs.log.
"""
import argparse
import contextlib
import functools
import hashlib
import os
import pathlib
import re
import shutil
import subprocess
import sys
import tempfile
import threading
import time

ROOT = os.path.abspath(f"{__file__}/../../..")
PROGRAMS = {"rcell_program": "rcell", "rcell_pipe": "rcell-pipe"}
LOG = f"{ROOT}/bin/proofs.log"
PROVED = ("src", "specs", "proofs")
RUN_ON = ("stdin", "args", "data", "status", "stdout")
LINES_OF_A_LOG = 40
SECONDS_BETWEEN_NEWS = 60
# The fixed cost of a check and the cost of a line of proofs, in lines of source.
LINES_OF_A_START, LINES_OF_A_PROOF = 150, 0.2
LEAST_SHARE = 0.1  # of the work, done before the rest is estimated
DONE = re.compile(r"rt: (\w+) (proved|NOT PROVED|is kept)")
HERE = "proved on this machine"


class Crate:
    """A crate of a repository: its line in crates.txt, the crates that it uses directly, and its
    libraries of the kit."""

    def __init__(self, name, uses, crates, root=ROOT):
        self.name, self.root, self.folder = name, root, f"{root}/crates/{name}"
        self.line = f"{name}: {' '.join(uses)}\n"
        self.rlib = f"{self.folder}/out/rlib/{name}.rlib"
        self.below = [crates[it] for it in uses if it in crates]
        self.of_kit = ["std", *[it for it in uses if it not in crates]]

    @functools.cached_property
    def all_below(self):
        return {it.name: it for below in self.below for it in [*below.all_below.values(), below]}

    @functools.cached_property
    def files(self):
        found = [
            f"{at}/{name}"
            for part in PROVED
            for at, _, names in os.walk(f"{self.folder}/{part}")
            for name in names
        ]
        return {
            os.path.relpath(it, self.folder): pathlib.Path(it).read_bytes() for it in sorted(found)
        }

    @functools.cached_property
    def work(self):
        """Return the amount of work to prove the crate, in lines of source."""
        lines = {path: text.count(b"\n") for path, text in self.files.items()}
        return LINES_OF_A_START + sum(
            it if path.endswith(".rt") else LINES_OF_A_PROOF * it for path, it in lines.items()
        )

    @functools.cached_property
    def stamp(self):
        """Return a hash of everything that the crate's proof depends on."""
        parts = [kit_version(), self.of_kit, self.name, self.files, [it.stamp for it in self.below]]
        return hashlib.sha256(repr(parts).encode()).hexdigest()

    @property
    def proved(self):
        """The file with the stamp of the library that the gate left. `rt check` leaves a library
        with its own stamp."""
        return pathlib.Path(os.path.dirname(self.rlib), "proved")

    def note_proved(self):
        if os.path.isdir(self.rlib) and not self.proved.with_name("stamp").exists():
            self.proved.write_text(self.stamp, encoding="ascii")

    def has_proved(self):
        """Return whether the gate left the library of exactly these sources."""
        return self.proved.exists() and self.proved.read_text(encoding="ascii") == self.stamp

    def command(self, verb, jobs=1):
        """Return the command that proves the crate (`check`), or also compiles it (`build`), over
        the libraries that `rt` left."""
        words = [
            f"{kit()}/bin/rattle",
            verb,
            "--crate-name",
            self.name,
            f"src/{'main' if self.name in PROGRAMS else 'lib'}.rt",
        ]
        words += [
            word for it in self.of_kit for word in ("--extern", f"{it}={kit()}/rlibs/{it}.rlib")
        ]
        words += [word for it in self.below for word in ("--extern", f"{it.name}={it.rlib}")]
        words += ["-L", f"dependency={kit()}/rlibs"]
        words += [
            word
            for it in self.all_below.values()
            for word in ("-L", f"dependency={os.path.dirname(it.rlib)}")
        ]
        words += [
            "--antt-project",
            f"{kit()}/rattle/logic/antt-project.json",
            "--logic-built",
            f"{kit()}/logic_built",
        ]
        return [*words, "--links", f"{self.name}=", "--jobs", str(jobs)]


@functools.cache
def kit():
    """Return the kit's folder."""
    return os.path.dirname(subprocess.check_output(["rt", "doc"], text=True).strip())


@functools.cache
def kit_version():
    return subprocess.check_output(["rt", "version"], text=True).strip()


@functools.cache
def uses():
    """Return the libraries that crates.txt lists for each crate."""
    with open(f"{ROOT}/crates.txt", encoding="utf-8") as file:
        lines = [line.split("#")[0].split(":") for line in file if ":" in line]
    return {name.strip(): used.split() for name, used in lines}


def crates_of(programs, root=ROOT):
    """Return programs' crates and the crates that they need, each after those it uses."""
    crates = {}

    def visit(name):
        for it in uses()[name]:
            if it in uses() and it not in crates:
                visit(it)
        crates[name] = Crate(name, uses()[name], crates, root)

    for program in programs:
        visit(program)
    return list(crates.values())


@contextlib.contextmanager
def cut(crates):
    """Make a folder with only these crates: what is proved, and what their programs are run on."""
    with tempfile.TemporaryDirectory(prefix="rcell-build-") as folder:
        shutil.copy(f"{ROOT}/HANDLES", folder)
        pathlib.Path(folder, "crates.txt").write_text(
            "".join(it.line for it in crates), encoding="utf-8"
        )
        for it in crates:
            for part in (*PROVED, *RUN_ON):
                if os.path.isdir(f"{it.folder}/{part}"):
                    shutil.copytree(f"{it.folder}/{part}", f"{folder}/crates/{it.name}/{part}")
                elif os.path.exists(f"{it.folder}/{part}"):
                    shutil.copy(f"{it.folder}/{part}", f"{folder}/crates/{it.name}/{part}")
        yield folder


class News:
    """Reports finished crates, the elapsed time and an estimate of the remaining time, at least
    once a minute."""

    def __init__(self, crates):
        self.left, self.begun, self.done = {it.name: it.work for it in crates}, time.monotonic(), 0
        self.all, self.proved, self.told = len(crates), 0, time.monotonic()
        self.ended = threading.Event()
        self.clock = threading.Thread(target=self.tick, daemon=True)

    def __enter__(self):
        self.clock.start()
        return self

    def __exit__(self, *_):
        self.ended.set()
        self.clock.join()

    def tick(self):
        while not self.ended.wait(1):
            if time.monotonic() - self.told > SECONDS_BETWEEN_NEWS:
                self.say("still proving")

    def say(self, text):
        self.told = time.monotonic()
        spent, left = self.told - self.begun, sum(self.left.values())
        is_known = left and self.proved > LEAST_SHARE * (self.proved + left)
        rest = f", about {minutes(spent * left / self.proved)} left" if is_known else ""
        print(f"{self.done:2} of {self.all}  {text}, {minutes(spent)} so far{rest}", flush=True)

    def take(self, line):
        """Process a line of rt's log about a crate."""
        found = DONE.match(line)
        if found and found[1] in self.left:
            work, self.done = self.left.pop(found[1]), self.done + 1
            self.proved += work if found[2] == "proved" else 0
            self.say(f"{found[1]}: {'proved before' if found[2] == 'is kept' else found[2]}")


def minutes(seconds):
    return f"{seconds / 60:.0f} min" if seconds >= 100 else f"{seconds:.0f} s"


def failure(lines):
    """Return rt's message about the first crate that is not proved."""
    at = next(
        (number for number, line in enumerate(lines) if " NOT PROVED" in line), len(lines) - 1
    )
    begin = max((number for number in range(at) if lines[number].startswith("== ")), default=0)
    return "".join(lines[max(begin, at + 1 - LINES_OF_A_LOG) : at + 1])


def prove(folder, crates, jobs, log):
    """Run `rt ci` over the crates in a folder with progress reports, and return its status."""
    environment = {**os.environ, **({"RT_JOBS": str(jobs)} if jobs else {})}
    with News(crates) as news, open(log, "w", encoding="utf-8") as file:
        with subprocess.Popen(
            ["rt", "ci"],
            cwd=folder,
            env=environment,
            stdin=subprocess.DEVNULL,
            stdout=subprocess.PIPE,
            stderr=subprocess.STDOUT,
            text=True,
            errors="replace",
        ) as ran:
            lines = []
            for line in ran.stdout:
                lines.append(line.replace(folder, "."))
                file.write(lines[-1])
                news.take(line)
    if ran.returncode:
        print(
            f"NOT proved; the whole log is {os.path.relpath(log, ROOT)}",
            failure(lines),
            "".join(lines[-3:]),
            sep="\n",
        )
        print("If this names no error, memory or disk may have run out: try make JOBS=1.")
    return ran.returncode


def put(path, name):
    """Put a file into bin/ atomically."""
    shutil.copyfile(path, f"{ROOT}/bin/{name}.new")
    os.chmod(f"{ROOT}/bin/{name}.new", 0o644 if "." in name else 0o755)
    os.replace(f"{ROOT}/bin/{name}.new", f"{ROOT}/bin/{name}")


def take_built(crate, root, where=HERE):
    """Put a program that `rt ci` built into bin/, with its object if this run made one."""
    name, out = PROGRAMS[crate], f"{root}/crates/{crate}/out/{crate}"
    os.makedirs(f"{ROOT}/bin", exist_ok=True)
    if os.path.exists(f"{out}.o"):
        put(f"{out}.o", f"{name}.o")
    pathlib.Path(ROOT, "bin", f"{name}.origin").write_text(f"{where}\n", encoding="utf-8")
    put(out, name)


def build(programs, jobs):
    """Prove programs' crates in one run, put the programs into bin/, and return the exit status."""
    crates, names = crates_of(programs), " and ".join(f"bin/{PROGRAMS[it]}" for it in programs)
    print(f"Proving {len(crates)} crates, then building {names}.", flush=True)
    os.makedirs(f"{ROOT}/bin", exist_ok=True)
    with cut(crates) as folder:
        status = prove(folder, crates, jobs, LOG)
        if not status:
            for it in programs:
                take_built(it, folder)
            print(f"proved and built: {names}", flush=True)
    return status


def main():
    words = argparse.ArgumentParser(
        description=__doc__, formatter_class=argparse.RawDescriptionHelpFormatter
    )
    words.add_argument(
        "--jobs",
        type=int,
        default=0,
        help="how many crates are proved at a time; else one a processor, as memory allows",
    )
    words.add_argument("--list", choices=[*PROGRAMS.values(), "all"])
    words.add_argument("programs", nargs="*", choices=[*PROGRAMS.values(), []], metavar="PROGRAM")
    given = words.parse_args()
    if given.list:
        print(
            *(
                it.name
                for it in crates_of(
                    crate for crate, name in PROGRAMS.items() if given.list in (name, "all")
                )
            ),
            sep="\n",
        )
        return 0
    if not given.programs:
        words.error("no program is named")
    return build([crate for crate, name in PROGRAMS.items() if name in given.programs], given.jobs)


if __name__ == "__main__":
    sys.exit(main())
