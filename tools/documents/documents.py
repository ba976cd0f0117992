#!/usr/bin/env python3
"""Run the examples in the documents on the built programs, and compare the results byte for byte.

    documents.py [--program PATH] [--pipe PATH] [--write] [--texts [WORD..] | DOCUMENT..]

A document is run in its own folder, which contains the programs in bin/ with the helpers, and
examples/. Its fenced blocks are processed from the top:
    console          lines that begin with `$ ` are given to sh, and lines with `> ` continue the
                     command above; the lines after a command are its expected standard output and
                     standard error together
    pycon            a Python session, which must print what is shown
    console needs=A,B  a console block that is skipped unless A and B are installed: programs, files
                     by their paths, or packages such as python3-rasterio
    text file=PATH   a file (also python file=PATH), which later commands can use
    text, sh, antt, rust  not run, so the block must not show a command with its output
A block that changes the folder with `cd` also changes it for later blocks. With --write, the output
replaces the text shown. For docs/grass.md, the program's side of each table is also run
(differences.py), and the flags and keys in docs/commands.md are tested (command_options.py).

Checks that need no program are run first. With --texts, only these are run, or only those that end
in a WORD, as in `--texts links`:
- docs/errors.md lists all messages of the program (messages.py)
- docs/crates.svg shows the crates of crates.txt (crate_graph.py)
- docs/proofs.md and README.md state the numbers of lines to be believed (reading.py)
- README.md and docs/speed.md show the figures of bench/RESULTS.md (figures.py)
- each link and anchor exists (links.py)
- the cited edits, clauses and laws exist (citations.py)
- the text before a block to be saved names its file (saved_blocks.py)
- the code of the site equals its source (site/spans.py)
- the definitions shown are in the crates (definitions.py)
- the manual pages pass the warnings of man, if it is installed

The last line is 'N passed, M failed'.
"""
import argparse
import difflib
import glob
import os
import pathlib
import re
import shutil
import subprocess
import sys
import tempfile
from dataclasses import dataclass, field

ROOT = os.path.abspath(f"{__file__}/../../..")
BIN = os.environ.get("RCELL_BIN", f"{ROOT}/bin")
sys.path.insert(1, f"{ROOT}/tools/grass")

import citations
import command_options
import crate_graph
import definitions
import differences
import figures
import links
import manual
import messages
import saved_blocks

DOCUMENTS = [
    "README.md",
    "docs/tutorial.md",
    "docs/howto.md",
    "docs/large-maps.md",
    "docs/commands.md",
    "docs/pipe.md",
    "docs/errors.md",
    "docs/grass.md",
    "examples/islands/README.md",
    "docs/validation.md",
    "docs/compared.md",
    *(
        f"examples/{name}/README.md"
        for name in ("change", "woodland", "stream", "majority", "protected", "large-map")
    ),
]
FENCE = re.compile(
    r"```(\S*)(?: file=(\S+))?(?: needs=(\S+))?\n(.*?)^```$", re.MULTILINE | re.DOTALL
)
# The text about the lines to be believed: the numbers, and the words around them.
READING_ROW = re.compile(
    r"(`make reading(?: (?P<what>(?:COMMAND|PROGRAM)=\S+))?` \| )(\d+)( \| )(\d+)( \| )(\d+)( \|)"
)
READING_SENTENCE = re.compile(
    r"(for a table of (?P<what>r\.\w+), )(\d+)( lines, or )(\d+)( with comments)"
)
# The sentence in README.md about the sizes of code and proofs, in thousands of lines.
SIZES_SENTENCE = re.compile(r"(\d+)(,000 lines, for )(\d+)(?=,000 lines of code)")
SIZES_DIFFER_BY = 0.05  # a larger difference requires new numbers
LANGUAGES = {"console", "pycon", "text", "python", "sh", "antt", "rust"}
PACKAGES = {
    "gdal_retile.py": "python3-gdal",
    "gdalinfo": "gdal-bin",
    "Rscript": "r-base-core",
    "/usr/share/gmt-gshhg/binned_GSHHS_f.nc": "gmt-gshhg-full",
    "/usr/share/qgis/resources/data/world_map.gpkg": "qgis-common",
}
PYTHON_PACKAGES = "/usr/lib/python3/dist-packages"
SESSION = "import sys; sys.path.insert(0, sys.argv[1]); import documents; print(documents.by_session(sys.stdin.read(), {}), end='')"
SECONDS = 600  # only hanging commands take longer, even on a busy machine
END_OF_COMMAND = "==== a command of a document has ended ===="


@dataclass
class Block:
    """A fenced block: the line of the document at which it begins, and the span of its text."""

    line: int
    span: tuple[int, int]
    language: str
    file: str
    needs: list[str]
    text: str


@dataclass
class Command:
    """A command, and its expected output."""

    text: str
    output: list[str] = field(default_factory=list)


def blocks_of(document):
    for found in FENCE.finditer(document):
        needs = found[3].split(",") if found[3] else []
        yield Block(
            document.count("\n", 0, found.start()) + 1,
            found.span(4),
            found[1],
            found[2] or "",
            needs,
            found[4],
        )


def commands_of(block):
    """Return the commands of a console block. Raises ValueError if it does not begin with a
    command."""
    commands = []
    for line in block.text.splitlines():
        if line.startswith("$ "):
            commands.append(Command(line[2:]))
        elif not commands:
            raise ValueError("no command at the top of the block")
        elif line.startswith("> ") and not commands[-1].output:
            commands[-1].text += "\n" + line[2:]
        else:
            commands[-1].output.append(line)
    return commands


def script_of(commands):
    """Return the commands as one sh script, which prints a line after each command and keeps its
    status for the next."""
    return "".join(
        f"{command.text}\nended=$?; echo '{END_OF_COMMAND}'; (exit $ended)\n"
        for command in commands
    )


class Room:
    """The folder in which the blocks of a document are run, and the current folder in it."""

    def __init__(self, path, programs):
        self.top = self.here = os.path.realpath(path)
        os.mkdir(f"{path}/bin")
        for name, program in programs.items():
            shutil.copy(program, f"{path}/bin/{name}")
        for helper in glob.glob(f"{ROOT}/helpers/rcell-*[a-z]"):
            shutil.copy(helper, f"{path}/bin")
        shutil.copytree(
            f"{ROOT}/helpers",
            f"{path}/share/rcell",
            ignore=shutil.ignore_patterns("__pycache__", "rcell-*", "tests"),
        )
        shutil.copytree(
            f"{ROOT}/python/src",
            f"{path}/share/rcell",
            ignore=shutil.ignore_patterns("__pycache__"),
            dirs_exist_ok=True,
        )
        shutil.copytree(
            f"{ROOT}/examples", f"{path}/examples", ignore=shutil.ignore_patterns("__pycache__")
        )

    def put(self, block):
        path = f"{self.here}/{block.file}"
        os.makedirs(os.path.dirname(path), exist_ok=True)
        with open(path, "w", encoding="utf-8") as file:
            file.write(block.text)

    def environment(self):
        """Return the environment of the commands, in which the programs and helpers are on the path
        and the Python package can be imported."""
        return {
            "PATH": f"{self.top}/bin:/usr/bin:/bin",
            "HOME": self.top,
            "LC_ALL": "C.UTF-8",
            "PYTHONPATH": f"{ROOT}/python/src",
            "PYTHONDONTWRITEBYTECODE": "1",
        }

    def session(self, text):
        """Return the output of a Python session, together with its input."""
        words = ["/usr/bin/python3", "-c", SESSION, f"{ROOT}/python/tools"]
        ran = subprocess.run(
            words,
            cwd=self.here,
            env=self.environment(),
            input=text,
            capture_output=True,
            text=True,
            timeout=SECONDS,
        )
        return ran.stdout + ran.stderr

    def printed(self, commands):
        """Return the output of each command. Raises ValueError if they do not all end."""
        script = f"exec 2>&1\n{script_of(commands)}pwd\n"
        ran = subprocess.run(
            ["sh", "-c", script],
            cwd=self.here,
            env=self.environment(),
            timeout=SECONDS,
            stdin=subprocess.DEVNULL,
            stdout=subprocess.PIPE,
        )
        *texts, here = ran.stdout.decode(errors="replace").split(f"{END_OF_COMMAND}\n")
        if len(texts) != len(commands):
            raise ValueError(f"only {len(texts)} of {len(commands)} commands ended")
        self.here = here.rstrip("\n")
        return texts


def shown_text(commands, texts):
    """Return a console block of the commands with their outputs."""
    spelled = ["$ " + command.text.replace("\n", "\n> ") + "\n" for command in commands]
    return "".join(command + text for command, text in zip(spelled, texts))


def is_installed(name):
    """Return whether a program, a file at a path, or a Debian package of Python, such as
    python3-rasterio, is installed."""
    module = {"python3-gdal": "osgeo"}.get(name, name.removeprefix("python3-"))
    return bool(
        shutil.which(name) or os.path.isfile(name) or os.path.exists(f"{PYTHON_PACKAGES}/{module}")
    )


def judge(block, room):
    """Return the error of a block, or '', and its correct text. The error is None if nothing is
    run."""
    if block.language not in LANGUAGES:
        return f"a block of an unknown kind: {block.language!r}", block.text
    if block.file:
        room.put(block)
        return None, block.text
    missing = [name for name in block.needs if not is_installed(name)]
    if missing:
        packages = " ".join(PACKAGES.get(name, name) for name in missing)
        print(
            f"skipped  documents: {', '.join(missing)} is not installed, for the block at line {block.line}; install: apt-get install {packages}"
        )
        return None, block.text
    if block.language == "pycon":
        right = room.session(block.text)
        return unlike(block.text, right), right
    if block.language != "console":
        has_command = re.search(r"^\$ ", block.text, re.MULTILINE)
        return (
            "a command with its output in a block that is not run" if has_command else None,
            block.text,
        )
    try:
        commands = commands_of(block)
        right = shown_text(commands, room.printed(commands))
    except (ValueError, subprocess.TimeoutExpired) as fault:
        return str(fault), block.text
    return unlike(block.text, right), right


def unlike(shown, printed):
    """Return the difference between the text shown and the output, or ''."""
    if shown == printed:
        return ""
    differs = difflib.unified_diff(
        shown.splitlines(), printed.splitlines(), "shown", "printed", lineterm="", n=1
    )
    return "\n    ".join(differs) or "the last line has no end"


def run_document(name, programs, write):
    """Return the number of correct blocks of a document, and the errors of the others."""
    with open(f"{ROOT}/{name}", encoding="utf-8") as file:
        document = file.read()
    passed, faults, right, at = 0, [], "", 0
    with tempfile.TemporaryDirectory(prefix="rcell-documents-") as path:
        room = Room(path, programs)
        for block in blocks_of(document):
            fault, text = judge(block, room)
            right, at = right + document[at : block.span[0]] + text, block.span[1]
            passed += fault == ""
            if fault:
                faults.append(f"{name}:{block.line}: {fault}")
    if write:
        with open(f"{ROOT}/{name}", "w", encoding="utf-8") as file:
            file.write(right + document[at:])
    return passed, faults


def check_differences(program):
    """Check the program's side of the tables in docs/grass.md."""
    passed, faults = 0, []
    with tempfile.TemporaryDirectory(prefix="rcell-differences-") as room:
        for row in differences.rows():
            answer = differences.by_rcell(row, program, room)
            passed += answer == row.rcell
            if answer != row.rcell:
                faults.append(
                    f"{differences.DOCUMENT}:{row.line}: rcell answers {answer!r}, and not {row.rcell!r}"
                )
    return passed, faults


def counts_of_reading(what):
    """Return the numbers of lines to be believed: of definitions, with comments, and of Rust types.
    `what` is a command, also as COMMAND=NAME, or PROGRAM=NAME, or empty."""
    words = [sys.executable, f"{ROOT}/tools/lint/reading.py", "--count"]
    kind, _, name = what.rpartition("=")
    words += ["--program", name] if kind == "PROGRAM" else [name] if name else []
    return re.findall(r"\d+", subprocess.check_output(words, text=True))


def lines_below(pattern):
    """Return the number of lines in the crates' files that match a pattern."""
    return sum(
        path.read_bytes().count(b"\n") for path in pathlib.Path(ROOT, "crates").glob(pattern)
    )


def check_sizes(write):
    """Check the sizes of code and of definitions with proofs in README.md, approximately. `write`
    corrects them."""
    code = lines_below("*/src/**/*.rt")
    proofs = lines_below("*/specs/**/*.antt") + lines_below("*/proofs/**/*.antt")
    path = pathlib.Path(ROOT, "README.md")
    document = path.read_text(encoding="utf-8")
    told = [1000 * int(number) for number in SIZES_SENTENCE.search(document).group(1, 3)]
    if all(abs(one - own) <= SIZES_DIFFER_BY * own for one, own in zip(told, (proofs, code))):
        return 1, []
    if write:
        right = rf"{round(proofs / 1000)}\g<2>{round(code / 1000)}"
        path.write_text(SIZES_SENTENCE.sub(right, document), encoding="utf-8")
    return 0, [f"README.md: definitions and proofs have {proofs} lines, for {code} lines of code"]


def check_reading(write):
    """Check the numbers of lines to be believed in docs/proofs.md and README.md. `write` corrects
    them."""
    counted, faults = 0, []
    for name, pattern in (("docs/proofs.md", READING_ROW), ("README.md", READING_SENTENCE)):
        with open(f"{ROOT}/{name}", encoding="utf-8") as file:
            document = file.read()

        def with_counts(found):
            nonlocal counted
            around, what, *parts = found.groups()
            told, between = parts[0::2], [around, *parts[1::2]]
            wanted = counts_of_reading(what or "")[: len(told)]
            counted += told == wanted
            if told != wanted:
                faults.append(
                    f"{name}: {what or 'all'} has {', '.join(wanted)} lines, and not {', '.join(told)}"
                )
            return "".join(text for pair in zip(between, [*wanted, ""]) for text in pair)

        right = pattern.sub(with_counts, document)
        if write:
            with open(f"{ROOT}/{name}", "w", encoding="utf-8") as file:
                file.write(right)
    return counted + (not (missing := names_not_read())), faults + missing


def names_not_read():
    """Return the names that tools/lint/reading.py leaves out although a printed definition uses
    them."""
    words = [sys.executable, f"{ROOT}/tools/lint/reading.py", "--check", "--program"]
    return [
        line
        for program in ("rcell", "rcell-pipe")
        for line in subprocess.run(
            [*words, program], stdout=subprocess.PIPE, text=True
        ).stdout.splitlines()[:-1]
    ]


def warnings_of_man(page):
    """Return the warnings of man about a manual page of the sources, or at a path."""
    environment = {**os.environ, "LC_ALL": "C.UTF-8", "MANROFFSEQ": "", "MANWIDTH": "80"}
    ran = subprocess.run(
        ["man", "--warnings", "-E", "UTF-8", "-l", "-Tutf8", "-Z", os.path.join(ROOT, page)],
        env=environment,
        stdout=subprocess.DEVNULL,
        stderr=subprocess.PIPE,
        text=True,
    )
    return [
        f"{page}: {warning}"
        for warning in ran.stderr.splitlines() or ["man fails"] * bool(ran.returncode)
    ]


def has_man():
    return bool(shutil.which("man") and shutil.which("groff"))


def check_pages():
    """Check that man has no warnings about the manual pages and the pages of the helpers, if man is
    installed."""
    if not has_man():
        print(
            "skipped  documents: man or groff is not installed, for the manual pages; install: apt-get install man-db groff"
        )
        return 0, []
    pages = sorted(glob.glob(f"{ROOT}/docs/*.1") + glob.glob(f"{ROOT}/helpers/*.1"))
    with tempfile.TemporaryDirectory(prefix="rcell-pages-") as room:
        for name in manual.PAGES:
            pages.append(f"{room}/{name}.1")
            pathlib.Path(pages[-1]).write_text(manual.page(name), encoding="utf-8")
        faults = [warnings_of_man(page) for page in pages]
    return faults.count([]), [fault for found in faults for fault in found]


def check_site_code():
    """Check that the site shows the code of each page unchanged, if python3-markdown is
    installed."""
    if not is_installed("python3-markdown"):
        print(
            "skipped  documents: python3-markdown is not installed, for the code of the site; install: apt-get install python3-markdown"
        )
        return 0, []
    words = ["/usr/bin/python3", f"{ROOT}/tools/documents/site", "--code"]
    ran = subprocess.run(words, capture_output=True, text=True)
    faults = (ran.stdout + ran.stderr).splitlines()
    return int(ran.returncode == 0), faults


def main():
    words = argparse.ArgumentParser(
        description=__doc__, formatter_class=argparse.RawDescriptionHelpFormatter
    )
    words.add_argument("--program", default=f"{BIN}/rcell")
    words.add_argument("--pipe", default=f"{BIN}/rcell-pipe")
    words.add_argument("--write", action="store_true")
    words.add_argument("--texts", action="store_true")
    words.add_argument("documents", nargs="*")
    settings = words.parse_args()
    program = os.path.abspath(settings.program)
    programs = {"rcell": program, "rcell-pipe": os.path.abspath(settings.pipe)}
    texts = [
        ("the messages", lambda: messages.check()),
        ("the links", links.check),
        ("the citations", citations.check),
        ("the blocks to be saved", saved_blocks.check),
        ("the code of the site", check_site_code),
        ("the definitions", definitions.check),
        ("the picture of the crates", crate_graph.check),
        ("the manual pages", check_pages),
        ("the numbers of lines", lambda: check_reading(settings.write)),
        ("the sizes", lambda: check_sizes(settings.write)),
        ("the figures", figures.check),
    ]
    runs = [
        (name, lambda name=name: run_document(name, programs, settings.write))
        for name in settings.documents or DOCUMENTS
    ]
    if not settings.documents:
        runs += [
            ("the tables of differences", lambda: check_differences(program)),
            ("the flags, keys and functions", lambda: command_options.check(program)),
        ]
    checks = (
        [it for it in texts if not settings.documents or it[0].split()[-1] in settings.documents]
        if settings.texts
        else runs
        if settings.documents
        else texts + runs
    )
    passed = failed = 0
    for name, check in checks:
        good, faults = check()
        print(f"{name}: {good} as shown" + "".join(f"\n  {fault}" for fault in faults), flush=True)
        passed, failed = passed + good, failed + len(faults)
    print(f"{passed} passed, {failed} failed")
    return 1 if failed else 0


if __name__ == "__main__":
    sys.exit(main())
