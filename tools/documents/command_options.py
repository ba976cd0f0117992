#!/usr/bin/env python3
"""Compare the flags, keys and functions in the documents with those that the program accepts.

    command_options.py [--program PATH]

For each command, docs/commands.md contains a synopsis and a table of flags and options, which must
agree. The program is run with each letter and digit as a flag, and with each key of any command or
of GRASS. It must accept exactly those in the document, and require exactly the keys that the table
marks as required. The functions of r.mapcalc are tested in the same way. The last line is
'N passed, M failed'.
"""
import argparse
import os
import re
import string
import subprocess
import sys
import tempfile

ROOT = os.path.abspath(f"{__file__}/../../..")
BIN = os.environ.get("RCELL_BIN", f"{ROOT}/bin")
DOCUMENT = "docs/commands.md"
COMMANDS = ("r.reclass", "r.clump", "r.stats", "r.out.ascii")
GRID = "north: 1\nsouth: 0\neast: 2\nwest: 0\nrows: 1\ncols: 2\n1 2\n"
# A value for each key of any command, and keys of GRASS that no command accepts.
VALUES = {"input": "land", "output": "made", "separator": "comma", "null_value": "NA", "after": "1"}
KEYS_OF_GRASS = (
    "rules",
    "title",
    "minsize",
    "threshold",
    "sort",
    "nsteps",
    "precision",
    "width",
    "region",
    "expression",
    "map",
)
FLAGS = string.ascii_letters + string.digits
# Functions of GRASS that rcell does not have, each with its number of arguments.
FUNCTIONS_OF_GRASS = {
    "round": 1,
    "int": 1,
    "float": 1,
    "double": 1,
    "sqrt": 1,
    "exp": 1,
    "log": 1,
    "median": 3,
    "nmedian": 3,
    "xor": 2,
    "not": 1,
    "rand": 2,
    "x": 0,
    "y": 0,
    "z": 0,
    "ewres": 0,
    "nsres": 0,
    "area": 0,
    "graph": 5,
    "pow": 2,
}


class Named:
    """The letters of the flags, and the keys, that a text names for a command."""

    def __init__(self, flags, keys):
        self.flags, self.keys = set(flags), set(keys)

    @classmethod
    def of_synopsis(cls, text):
        return cls("".join(re.findall(r"\[-(\w+)\]", text)), re.findall(r"(\w+)=", text))

    def __eq__(self, other):
        return (self.flags, self.keys) == (other.flags, other.keys)

    def __str__(self):
        return f"flags {''.join(sorted(self.flags)) or 'none'}, keys {' '.join(sorted(self.keys))}"


def read(name):
    with open(f"{ROOT}/{name}", encoding="utf-8") as file:
        return file.read()


def section(command):
    """Return the section about a command."""
    return re.search(
        rf"^## {re.escape(command)}\n(.*?)^## ", read(DOCUMENT), re.MULTILINE | re.DOTALL
    )[1]


def synopsis(command):
    return re.search(
        r"^### Synopsis\n+```text\n(.*?)```", section(command), re.MULTILINE | re.DOTALL
    )[1]


def rows(command):
    """Return the rows of a command's table of flags and options: a name and its description."""
    table = re.search(
        r"^### (?:Flags and options|Options)\n(.*?)^### ",
        section(command),
        re.MULTILINE | re.DOTALL,
    )[1]
    return re.findall(r"^\| `([^`]+)` \| (.*) \|$", table, re.MULTILINE)


def in_table(command):
    names = [name.removesuffix("=") for name, _ in rows(command)]
    return Named(
        [name[1:] for name in names if name.startswith("-")],
        [name for name in names if not name.startswith("-")],
    )


def required(command):
    return {name for name, says in rows(command) if says.endswith("(required)")}


def functions_of_document():
    """Return the functions of r.mapcalc, each with the number of arguments in an example, or two
    numbers if more may follow."""
    table = re.search(r"^\| Function \|.*?\n\n", section("r.mapcalc"), re.MULTILINE | re.DOTALL)[0]
    examples = [
        example
        for row in table.splitlines()
        for example in re.findall(r"`(\w+)\(([^)]*)\)`", row.split(" | ")[0])
    ]
    return {
        name: len([word for word in words.split(",") if word.strip(".")])
        for name, words in examples
    }


class Tried:
    """Runs the program on scripts of one command, in a separate folder."""

    def __init__(self, program, folder):
        self.program, self.folder = program, folder
        with open(f"{folder}/land.txt", "w", encoding="ascii") as file:
            file.write(GRID)

    def refusal(self, line):
        """Return the error of a script of one line (and a rule, for r.reclass), without `rcell:
        script:`."""
        script = f"{line}\n1 = 1\nend\n" if line.startswith("r.reclass ") else f"{line}\n"
        with open(f"{self.folder}/script", "w", encoding="ascii") as file:
            file.write(script)
        ran = subprocess.run(
            [self.program, "script", "land=land.txt"],
            cwd=self.folder,
            capture_output=True,
            text=True,
        )
        return ran.stderr.strip().removeprefix("rcell: script:") if ran.returncode else ""

    def options(self, command, flags, keys):
        options = [f"-{flag}" for flag in flags] + [f"{key}={VALUES.get(key, '1')}" for key in keys]
        return self.refusal(" ".join([command, *options]))


def faults_of_flags(tried, command, named, needs):
    """Yield the error for each flag by itself, or ''."""
    for flag in FLAGS:
        wanted = "" if flag in named.flags else "1: bad option"
        said = tried.options(command, flag, needs)
        yield "" if said == wanted else f"{command} -{flag}: {said or 'taken'}, and not {wanted or 'taken'}"


def faults_of_keys(tried, command, named, needs):
    """Yield the error, or '', for each key added to the required ones, and for each required key
    left out."""
    for key in (*VALUES, *KEYS_OF_GRASS):
        wanted = "" if key in named.keys else "1: bad option"
        said = tried.options(command, "", [*needs, *({key} - set(needs))])
        yield "" if said == wanted else f"{command} {key}=: {said or 'taken'}, and not {wanted or 'taken'}"
    for key in needs:
        said = tried.options(command, "", [other for other in needs if other != key])
        yield "" if said == "1: missing option" else f"{command} without {key}=: {said or 'taken'}"


def faults_of_functions(tried):
    named = functions_of_document()
    for name, count in {**FUNCTIONS_OF_GRASS, **named}.items():
        said = tried.refusal(f"r.mapcalc made = {name}({', '.join(['land'] * count)})")
        wanted = "" if name in named else "1: unknown function at column 18"
        yield "" if said == wanted else f"r.mapcalc {name}(..): {said or 'taken'}, and not {wanted or 'taken'}"


def faults(program):
    """Yield the error of each comparison, or ''."""
    with tempfile.TemporaryDirectory(prefix="rcell-options-") as folder:
        tried = Tried(os.path.abspath(program), folder)
        for command in COMMANDS:
            named, needs = in_table(command), sorted(required(command))
            other = Named.of_synopsis(synopsis(command))
            yield "" if other == named else f"{DOCUMENT}, synopsis: {command} has {other}, but {named} in its table"
            yield from faults_of_flags(tried, command, named, needs)
            yield from faults_of_keys(tried, command, named, needs)
        yield from faults_of_functions(tried)


def check(program):
    """Return the number of comparisons that agree, and the errors of the others."""
    found = list(faults(program))
    return found.count(""), [fault for fault in found if fault]


def main():
    words = argparse.ArgumentParser(
        description="Compares the flags and keys of the documents with those of the programs."
    )
    words.add_argument("--program", default=f"{BIN}/rcell")
    passed, wrong = check(words.parse_args().program)
    print("".join(f"{fault}\n" for fault in wrong) + f"{passed} passed, {len(wrong)} failed")
    return 1 if wrong else 0


if __name__ == "__main__":
    sys.exit(main())
