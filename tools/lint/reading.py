#!/usr/bin/env python3
"""Print what has to be believed of the program: the definitions that its theorem uses, in reading
order.

    reading.py [--count | --check] [--program PROGRAM] [COMMAND]

The theorem about `rcell` is the clause `headline` of rcell::run, and the theorem about `rcell-pipe`
is the clause `done` of rcell_pipe::exchange. The definitions and the declarations of Rust types
that it cites are followed from there. Each is printed after those that it uses, with its
comment and under the name of its file. COMMAND (r.mapcalc, r.reclass, r.clump, r.stats,
r.out.ascii) leaves out what only the other commands use, with their equations and constructors. For
r.stats, it also leaves out the lines of single cells (-1).

The last line is 'N lines of definitions, M with comments, T of Rust types'. With --count, it is the
only line. Definitions of the standard library and the language are not printed. --check prints each
name that a printed definition uses but that is not printed, and exits with status 1 if there is
one.
"""
import argparse
import itertools
import re
import signal
import sys

import sources

# For each program, the file, function and clause of its theorem.
THEOREMS = {
    "rcell": ("rcell/src/running.rt", "run", "headline"),
    "rcell-pipe": ("rcell_pipe/src/exchanging.rt", "exchange", "done"),
}
# What only one command uses begins at these definitions: how a line spells the command, and what it
# makes or prints.
BEGINNINGS = {
    "r.mapcalc": ["SpellsMapcalcCommand", "IsShelfAfterMapcalc"],
    "r.reclass": [
        "SpellsReclassCommand",
        "IsShelfAfterReclass",
        "LinesSpellRules",
        "EndsReclassRules",
    ],
    "r.clump": ["SpellsClumpCommand", "IsShelfAfterClump"],
    "r.stats": ["SpellsStatsCommand", "stats_text"],
    "r.out.ascii": ["SpellsOutAsciiCommand", "out_ascii_text"],
}
# Definitions used only by a secondary output of a command.
BESIDES = {"r.stats": ["cell_lines"]}


class Reading:
    """The definitions and Rust types that others use."""

    def __init__(self):
        self.definitions = sources.read_definitions("specs")
        self.given_on = {}
        self.constructors = {}
        self.types = {}
        self.own = {}
        for (module, name), it in self.definitions.items():
            self.own.setdefault(module, set()).add(name)
            if it.kind == "data":
                found = (re.match(r"\s+(\w+) :", line) for line in it.lines[1:])
                self.constructors.update(
                    {(module, match.group(1)): (module, name) for match in found if match}
                )
        self.find_given_on()
        self.find_types()

    def find_given_on(self):
        """Find what modules re-export from others."""
        for _, path, text in sources.read_files("specs"):
            for line in text.split("\n"):
                if match := re.match(r"pub use Rattle\.([^\s{}]+?)\.\{(.*)\}", line):
                    names = (it.strip() for it in match.group(2).split(","))
                    self.given_on.update(
                        {(sources.module_of(path), name): (match.group(1), name) for name in names}
                    )

    def find_types(self):
        """Find the declarations of public structs, enums and constants, by crate, module and
        name."""
        for crate, path, text in sources.read_files("src"):
            module = path[len(crate) + len("/src/") :].removesuffix(".rt").replace("/", ".")
            blanked = sources.blank_literals(text)
            for match in sources.RUST_TYPE.finditer(blanked):
                end = sources.closing_place(blanked, match.end() - 1)
                self.types[(crate, module, match.group(1))] = (path, text[match.start() : end + 1])
            for match in sources.RUST_CONSTANT.finditer(blanked):
                self.types[(crate, module, match.group(1))] = (
                    path,
                    text[match.start() : match.end()],
                )

    def resolve(self, target):
        """Return the definition or type that a (module, name) pair denotes, or None."""
        while target in self.given_on:
            target = self.given_on[target]
        if target in self.definitions:
            return target
        if target in self.constructors:
            return self.constructors[target]
        match = re.match(r"(\w+)\.specs\.declared\.([\w.]+)", target[0])
        if match is None:
            return None
        crate, parts = match.group(1), [
            it for it in match.group(2).split(".") if it not in ("TheVariants", "TheConstants")
        ]
        places = [
            (crate, ".".join(parts[: end - 1]), parts[end - 1]) for end in range(len(parts), 1, -1)
        ]
        return next(
            (it for it in [*places, (crate, ".".join(parts), target[1])] if it in self.types), None
        )

    def lines_without(self, key, stops):
        """Return the lines of a definition, without equations and constructors that cite names in
        `stops`, if others remain."""
        it = self.definitions[key]
        begins = re.compile(r"  \S+ : " if it.kind == "data" else re.escape(it.name) + r" (?!: )")
        starts = [place for place, line in enumerate(it.lines) if begins.match(line)]
        parts = [it.lines[start:end] for start, end in zip(starts, [*starts[1:], len(it.lines)])]
        kept = [
            part
            for part in parts
            if not {*sources.words_of(sources.without_comment("\n".join(part)))} & stops
        ]
        return (
            [*it.lines[: starts[0]], *(line for part in kept for line in part)]
            if kept
            else it.lines
        )

    def cited_by(self, key, stops):
        """Return the keys that a definition cites, in the order of its words."""
        it, found = self.definitions[key], {}
        for word in sources.words_of(
            sources.without_comment("\n".join(self.lines_without(key, stops)))
        ):
            found.update(
                {
                    resolved: None
                    for target in self.targets_of(it, word)
                    if (resolved := self.resolve(target)) not in (None, key)
                }
            )
        return list(found)

    def targets_of(self, definition, word):
        """Return the (module, name) pairs that a word in a definition may denote, imported or from
        its own module."""
        head, targets = word.strip(".:").split(".")[0], definition.imports.targets(word)
        if head in self.own[definition.module] or (definition.module, head) in self.constructors:
            targets = [*targets, (definition.module, head)]
        return targets

    def starts(self, file, function, label):
        """Return the clause of a theorem, and what it cites."""
        text = next(text for _, path, text in sources.read_files("src") if path == file)
        imports, found = sources.read_imports(text), {}
        clauses = [
            clause
            for it in sources.read_functions()
            if (it.path, it.name) == (file, function)
            for clause in it.clauses
        ]
        headline = next(it for it in clauses if it.label == label)
        for word in sources.words_of(headline.condition):
            found.update(
                {it: None for target in imports.targets(word) if (it := self.resolve(target))}
            )
        return headline, list(found)

    def walk(self, starts, stops):
        """Return everything that the starts use, each after what it uses, without the names in
        `stops`."""
        order, seen = [], set()

        def visit(key):
            if key in seen or key[-1] in stops:
                return
            seen.add(key)
            for it in self.cited_by(key, stops) if key in self.definitions else []:
                visit(it)
            order.append(key)

        for key in starts:
            visit(key)
        return order


def unprinted(reading, order):
    """Return the names that printed definitions use but that are not printed: PATH: DEFINITION uses
    NAME.

    Each definition is read again from its file up to a blank line, so that this also finds what the
    reader of sources leaves out.
    """
    found, printed, crates = [], set(order), sources.crate_names(True)
    for key in order:
        if key not in reading.definitions:
            continue
        it = reading.definitions[key]
        for word in words_up_to_blank(sources.CRATES / it.path, it.line):
            targets = reading.targets_of(it, word)
            resolved = [target for target in map(reading.resolve, targets) if target]
            is_ours = any(module.partition(".")[0] in crates for module, _ in targets)
            if any(target not in printed for target in resolved) or (is_ours and not resolved):
                found.append(f"{it.path}: {it.name} uses {word}")
    return found


def words_up_to_blank(path, line):
    """Return the words in a file from a line to the next blank line, without comments."""
    lines = path.read_text(encoding="utf-8").split("\n")[line - 1 :]
    return sources.words_of(
        sources.without_comment("\n".join(itertools.takewhile(str.strip, lines)))
    )


def lines_of_code(text):
    return [line for line in text.split("\n") if line.strip() and not line.strip().startswith("//")]


def print_reading(reading, theorem, order, stops):
    """Print a theorem and what was found, under the names of files."""
    file, headline = theorem
    print(f"-- {file}: the theorem\n{headline.text}")
    last = None
    for key in order:
        path, text = (
            reading.types[key] if key in reading.types else (reading.definitions[key].path, None)
        )
        if path != last:
            print(f"\n-- {path}")
            last = path
        it = reading.definitions.get(key)
        print(
            "\n"
            + (
                text
                if it is None
                else "\n".join([*it.comments, *reading.lines_without(key, stops)])
            )
        )


def main():
    # If the output is a pipe that is closed early, for example with head, no error is reported.
    signal.signal(signal.SIGPIPE, signal.SIG_DFL)
    parser = argparse.ArgumentParser(description=__doc__.splitlines()[0])
    parser.add_argument("--count", action="store_true", help="print the numbers of lines alone")
    parser.add_argument(
        "--check",
        action="store_true",
        help="print the names that a printed definition uses and that are not printed",
    )
    parser.add_argument("--program", choices=THEOREMS, default="rcell", help="whose theorem")
    parser.add_argument(
        "command",
        nargs="?",
        choices=[*BEGINNINGS, []],
        default=[],
        metavar="COMMAND",
        help=", ".join(BEGINNINGS),
    )
    words = parser.parse_args()
    reading = Reading()
    stops = {
        name
        for command, names in BEGINNINGS.items()
        if words.command and command != words.command
        for name in names
    }
    stops.update(BESIDES.get(words.command, []) if words.command else [])
    theorem = THEOREMS[words.program]
    headline, starts = reading.starts(*theorem)
    order = reading.walk(starts, stops)
    if words.check:
        missing = unprinted(reading, order)
        print("\n".join([*missing, f"{len(missing)} names are not printed"]))
        return 1 if missing else 0
    if not words.count:
        print_reading(reading, (theorem[0], headline), order, stops)
    found = [key for key in order if key in reading.definitions]
    lines = sum(1 for key in found for line in reading.lines_without(key, stops) if line.strip())
    types = sum(len(lines_of_code(reading.types[key][1])) for key in order if key in reading.types)
    commented = lines + sum(len(reading.definitions[key].comments) for key in found)
    print(f"{lines} lines of definitions, {commented} with comments, {types} of Rust types")
    return 0


if __name__ == "__main__":
    sys.exit(main())
