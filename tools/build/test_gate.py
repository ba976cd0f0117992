#!/usr/bin/env python3
"""Test the gate's tools: how results are counted (tools/check.py, tools/counting.sh), which
libraries are left for edits.py, how it reads and groups edits and reads a check, how unproved
programs are made, and parts of the lint. The last line is 'N passed, M failed'."""
import argparse
import os
import pathlib
import subprocess
import sys
import tempfile
from unittest import mock

sys.path[1:1] = [os.path.abspath(f"{__file__}/../.."), os.path.abspath(f"{__file__}/../../lint")]

import build
import check
import commits
import edit_files
import edits
import exceptions
import passed
import turned_definitions
import unproved

# The output of a command, its status, whether it has counts, and the expected counts.
COUNTED = [
    ("its own counts", "3 passed, 1 failed\n", 1, True, (3, 1, 0)),
    ("skipped ones", "3 passed, 0 failed, 2 skipped\n", 0, True, (3, 0, 2)),
    ("the last of several", "9 passed, 9 failed\n3 passed, 0 failed\n", 0, True, (3, 0, 0)),
    (
        "a late word",
        "3 passed, 0 failed\nFuture exception was never retrieved\n",
        0,
        True,
        (3, 0, 0),
    ),
    (
        "lines of skipped pieces",
        "skipped  r: R is not installed\nskipped  r: neither is terra\n3 passed, 0 failed\n",
        0,
        True,
        (3, 0, 2),
    ),
    ("no counts", "all is well\n", 0, True, (0, 1, 0)),
    ("a bad status", "3 passed, 0 failed\n", 2, True, (3, 1, 0)),
    ("one check that passes", "12 passed, 3 failed\n", 0, False, (1, 0, 0)),
    ("one check that fails", "", 1, False, (0, 1, 0)),
]
SCRIPT = """room=$1
. tools/counting.sh
check good true
(cd / && check bad false > "$room/shown")
add part sh -c 'echo "3 passed, 1 failed"; echo late; echo "7 passed, 0 failed" >&2'
add binary sh -c 'printf "\\000\\n"; echo "1 passed, 0 failed"'
add silent true
add ended sh -c 'echo "2 passed, 0 failed, 1 skipped"; exit 3'
skip -n 5 part 'it is not installed' package other
closing
"""
SHOWN = """3 passed, 1 failed
late
\0
1 passed, 0 failed
FAILED: silent ended without its counts, with status 0
2 passed, 0 failed, 1 skipped
skipped  part: it is not installed; install: apt-get install package other
7 passed, 4 failed, 6 skipped
"""

SOURCE = """const MOST: u64 = 3;

pub fn first(text: &[u8]) -> u64 {
    let found = text.len();
    found as u64
}

impl Reader {
    pub(crate) fn next(&mut self) -> Option<u8> {
        self.source.take()
    }
}

impl<'a> Iterator for Range<'a> {
    fn least(&self) -> u64 {
        self.low
    }
}
"""
PLACES = {
    "MOST": "",
    "let found": "first",
    "found as": "first",
    "self.source": "Reader::next",
    "self.low": "RangeIterator::least",
    "impl": "",
}
BY_ANOTHER = "no proof: it calls `first`, which is not proved"
OPEN = "no proof: at `found as u64`, `search` did not prove `result = 3`"
WAITS = "not proved; it calls `all::second`, which is not proved"
NOTE = "note: src/lib.rt:3:1: it is not proved that what the function ensures holds when it returns (`returns`)"
# The output of a check, and the kind of each function that it rejects; `?` if a search has not
# tried all of its goals.
OUTPUTS = [
    (f"fn all::first: {OPEN}", {"first": "goal"}),
    (
        f"{NOTE}; the facts known there allow values at which this goal is false\nfn all::first: {OPEN}",
        {"first": "values"},
    ),
    (f"{NOTE}\nfn all::first: {WAITS}\nfn all::second: {BY_ANOTHER}", {"first": "goal"}),
    (
        "./proofs/words/first/Answers.antt:9:40: error: `returns`\nfn all::words::first: not proved",
        {"words::first": "written"},
    ),
    (
        f"./proofs/words/first/Answers.antt:9:40: error: `returns`\nfn all::words::first: {WAITS}",
        {"words::first": "written"},
    ),
    (
        "proofs/first/Answers.antt:9:40: error: `returns`\nnote: `search` has not tried the goals of `all::first`, which wait"
        f"\nfn all::first: {WAITS}",
        {"first": "written?"},
    ),
    (f"fn all::first: {WAITS}\nfn all::second: proved\nimpl all::ThreeDebug: proved", {}),
    ("fn all::first: no holes\nfn all::second: depends on a hole in `all.proofs.first.Proof`", {}),
    ("fn all::first: no proof: it calls `all::a` and `all::b`, which are not proved", {}),
    ("impl all::ThreeEq: not proved; it waits for the proof of `eq`", {}),
    ("fn all::first: not proved", {"first": "written"}),
]
# The function that an edit changes, the function that is rejected, and whether this rejects the
# edit.
CHANGED = [
    (("src/lib.rt", "first"), "first", True),
    (("src/lib.rt", "first"), "second", False),
    (("src/lib.rt", "first"), "words::first", False),
    (("src/lib.rt", "Reader::next"), "Reader::next", True),
    (("src/lib.rt", "RangeIterator::least"), "ranges::RangeIterator::least", True),
    (("src/lib.rt", "RangeIterator::least"), "ranges::Range::least", False),
    (("src/words.rt", "first"), "words::first", True),
    (("src/words.rt", "first"), "blanks::first", False),
    (("src/words.rt", "Reader::next"), "readers::Reader::next", True),
    (("src/words.rt", "Reader::next"), "readers::next", False),
    (("src/words.rt", "first"), "words::fn::first::map+2", True),
    (("src/lib.rt", ""), "anything", True),
]
SPREAD = """use Rattle.std.specs.Prelude.{
  pos,
  suc,
}
meant = pos 3
"""


def made(name, *functions):
    return edit_files.Edit(pathlib.Path("crates/one/edits", name), functions=set(functions))


def faults_of_verdicts():
    for output, wanted in OUTPUTS:
        found = {
            path: it.kind + "?" * it.is_untried for path, it in edits.reasons_of(output) if it.kind
        }
        yield "" if found == wanted else f"{output!r}: {found}, and not {wanted}"
    for function, rejected, wanted in CHANGED:
        found = edits.reason_of(made("edit", function), [(rejected, edits.Reason("goal"))])
        yield "" if bool(found.kind) == wanted else f"{function}, {rejected}: not {wanted}"
    several = [("first", edits.Reason("written")), ("first", edits.Reason("values"))]
    found = edits.reason_of(made("edit", ("src/lib.rt", "first")), several)
    yield "" if found.kind == "values" else f"the weaker of two reasons: {found}"


def faults_of_groups():
    for text, wanted in PLACES.items():
        found = edit_files.function_at(SOURCE, SOURCE.index(text), len(text))
        yield "" if found == wanted else f"{text!r} is in {found!r}, and not in {wanted!r}"
    one, two, other, outside = (
        made(name, ("src/lib.rt", function)) for name, function in zip("abcd", ("f", "f", "g", ""))
    )
    yield "" if edits.groups_of([one, two, other, outside], False) == [
        [one, other],
        [two],
        [outside],
    ] else "edits in other groups"
    yield "" if edits.groups_of([one, other], True) == [
        [one],
        [other],
    ] else "edits in company, one by one"


class OneAtATime(edits.Checks):
    """Imitates the prover: rejects `bad` edits only in a check of their own, and cannot read a
    group with an `unread` edit."""

    def __init__(self):
        super().__init__(None, "")
        self.tried = []

    def of_edits(self, edits_of_check, is_full=False):
        names = [it.path.name for it in edits_of_check]
        self.tried.append(names)
        if "unread" in names:
            return [], "error: expected `;`"
        rejected = [it for it in names if it == "good" or (it == "bad" and len(names) == 1)]
        others = [("caller", edits.Reason("goal"))] * (is_full and names == ["inlined"])
        return others + [(it, edits.Reason("goal" if it in rejected else "")) for it in names], ""


def faults_of_trying():
    several = [
        made(it, ("src/lib.rt", it)) for it in ("good", "bad", "proved", "unread", "inlined")
    ]
    checks = OneAtATime()
    found = {edit.path.name: kind for edit, kind, _ in edits.try_bodies(checks, several, False)}
    wanted = {"good": "goal", "bad": "goal", "proved": "", "unread": "", "inlined": "elsewhere"}
    yield "" if found == wanted else f"edits tried: {found}, and not {wanted}"
    yield "" if max(map(checks.tried.count, checks.tried)) < 4 else f"too often: {checks.tried}"
    kinds = {"one/edits/weak": "written", "one/edits/strong": "goal"}
    pages = dict.fromkeys(kinds, "proofs.md")
    with mock.patch.object(edit_files, "cited", lambda: pages):
        faults = edits.faults_of_evidence(kinds)
    yield "" if len(faults) == 1 and "one/edits/weak" in faults[0] else f"evidence: {faults}"


def faults_of_files():
    with tempfile.TemporaryDirectory() as room:
        crate = pathlib.Path(room, "crates/one")
        for name, text in {
            "src/lib.rt": SOURCE,
            "specs/Three.antt": SPREAD,
            "edits/good.edit": "file: src/lib.rt\nold: let found\nnew: let lost\nold: let lost\nnew: let less\n",
            "edits/twice.edit": "file: src/lib.rt\nold: self\nnew: other\n",
            "edits/empty.edit": "file: src/lib.rt\n",
            "edits/other.txt": "",
            "named/turned.edit": "falls: three\nfile: ../one/specs/Three.antt\nold: {pos, suc}\nnew: {pos}\n",
        }.items():
            crate.joinpath(name).parent.mkdir(parents=True, exist_ok=True)
            crate.joinpath(name).write_text(text, encoding="utf-8")
        with mock.patch.object(build, "ROOT", room):
            paths = edit_files.paths_in("one")
            named = edits.edits_of("one", argparse.Namespace(crates=["two"]))
            tried = edits.edits_of("one", argparse.Namespace(crates=["one"]))
        found = {it.name: len(edit_files.faults_of(it)) for it in paths}
        wanted = {"good.edit": 0, "twice.edit": 1, "empty.edit": 1, "other.txt": 1}
        yield "" if found == {**wanted, "turned.edit": 0} else f"faults of edits: {found}"
        found = [it.path.name for it in named], len(tried)
        yield "" if found == (["turned.edit"], len(wanted) + 1) else f"edits to try: {found}"
        good, turned = (
            edit_files.edit_of(crate / it) for it in ("edits/good.edit", "named/turned.edit")
        )
        yield "" if good.functions == {("src/lib.rt", "first")} else f"changed: {good.functions}"
        home = turned_definitions.home_of("one", turned)
        yield "" if (turned.falls, home) == (("three",), ("one", "specs.Three")) else f"{turned}"


def faults_of_libraries():
    with tempfile.TemporaryDirectory() as room:
        source, library = pathlib.Path(room, "crates/one/src/lib.rt"), pathlib.Path(
            room, "crates/one/out/rlib/one.rlib"
        )
        for folder in (source.parent, library):
            folder.mkdir(parents=True)
        source.write_text(SOURCE, encoding="utf-8")
        one = build.Crate("one", [], {}, room)
        yield "a library that the gate did not leave" if one.has_proved() else ""
        one.note_proved()
        yield "" if one.has_proved() else "the library that the gate left is not taken"
        source.write_text(f"{SOURCE}// changed", encoding="utf-8")
        yield "a library of other sources" if build.Crate("one", [], {}, room).has_proved() else ""
        one.proved.unlink()
        one.proved.with_name("stamp").touch()
        one.note_proved()
        yield "a library of rt check" if one.has_proved() else ""


def faults_of_counts():
    for what, text, status, has_counts, wanted in COUNTED:
        found = check.counts_of(text.splitlines(keepends=True), status, has_counts)
        yield "" if found == wanted else f"{what}: {found}, and not {wanted}"
    with tempfile.TemporaryDirectory() as room:
        ran = subprocess.run(
            ["sh", "-c", SCRIPT, "sh", room],
            cwd=check.ROOT,
            stdout=subprocess.PIPE,
            stderr=subprocess.DEVNULL,
            text=True,
            check=False,
        )
    yield "" if (ran.returncode, ran.stdout) == (
        1,
        SHOWN,
    ) else f"counting.sh: status {ran.returncode}, {ran.stdout}"


def faults_of_holes():
    """Check that all written proofs are replaced with holes, except for a changed function, its
    closure, and a cycle."""
    kept = ("words/first", "words/fn/first/map", "words/+all", "words/Reader/next")
    with tempfile.TemporaryDirectory() as room:
        for name in (*kept, "words/second", "first", "words/fn/second/map"):
            folder = pathlib.Path(room, "proofs", name)
            folder.mkdir(parents=True)
            (folder / "Answers.antt").touch()
        changed = {("src/words.rt", "first"), ("src/words.rt", "Reader::next")}
        edits.leave_holes("one", changed, room)
        found = {
            str(it.parent.relative_to(f"{room}/proofs"))
            for it in pathlib.Path(room, "proofs").rglob("Answers.antt")
        }
        text = pathlib.Path(room, "proofs/words/second/Proof.antt").read_text(encoding="utf-8")
    yield "" if found == set(kept) else f"written proofs that stay: {found}"
    yield "" if "proofs.words.second.Statement" in text and "second_spec = ?" in text else text


def faults_of_unproved():
    """Check that the substitute for clang passes on everything but the program's code, which it
    keeps, and that a part about proofs is skipped."""
    with tempfile.TemporaryDirectory() as folder:
        room = pathlib.Path(folder)
        script, code = room / "clang", room / "program.bc"
        text = unproved.SUBSTITUTE.format(clang="echo", code=code)
        script.write_text(text, encoding="utf-8")
        (room / "module.bc").write_text("code", encoding="utf-8")
        words = ["sh", script, "-c", room / "module.bc"]
        found = subprocess.run(words, capture_output=True, text=True, check=False)
        yield "" if found.stdout.startswith("-c ") and not code.exists() else f"{found}"
        found = subprocess.run([*words, "-fsanitize=address"], capture_output=True, check=False)
        is_taken = found.returncode == 1 and code.read_text(encoding="utf-8") == "code"
        yield "" if is_taken else f"the code of a program is not taken: {found}"
    with mock.patch.object(check, "print", lambda *_, **__: None, create=True):
        result = check.run_unproved(check.PROOFS)
    yield "" if (result.passed, result.skipped) == (0, 1) else f"proofs without proofs: {result}"
    names = {part.name for part in check.PARTS}
    yield "" if set(check.LONGEST) <= names else f"no parts: {set(check.LONGEST) - names}"


SUBJECTS = {
    "qgis: read polygons with the core": True,
    "cells, runs: embed short rows": True,
    "Read polygons with the core": False,
    "qgis: reads polygons with the core": False,
    "qgis: added polygons": False,
    "qgis: pass over null": True,
    "qgis: read polygons.": False,
    f"qgis: read {'p' * 72}": False,
}


def faults_of_lint():
    for subject, wanted in SUBJECTS.items():
        found = commits.fault_of(subject)
        yield "" if (not found) == wanted else f"{subject}: {found}"
    with tempfile.TemporaryDirectory() as folder:
        room = pathlib.Path(folder)
        with mock.patch.object(exceptions, "PATH", room / "exceptions.txt"):
            exceptions.PATH.write_text("# Why.\n\n[a]\none\n\n[b]\ntwo\n", encoding="utf-8")
            exceptions.write("a", [])
            exceptions.write("c", ["three"])
            text = exceptions.PATH.read_text(encoding="utf-8")
        yield "" if text == "# Why.\n\n[b]\ntwo\n\n[c]\nthree\n" else f"exceptions: {text!r}"
        (room / "good.py").write_text("good", encoding="utf-8")
        with mock.patch.object(passed, "FOLDER", room / "kept"):
            known = passed.Passed(b"check", room)
            before = known.has("good.py")
            known.keep(["good.py"])
            found = before, known.has("good.py"), passed.Passed(b"other", room).has("good.py")
        yield "" if found == (False, True, False) else f"files that passed: {found}"


def main():
    found = [
        fault
        for faults in (
            faults_of_counts,
            faults_of_libraries,
            faults_of_verdicts,
            faults_of_groups,
            faults_of_trying,
            faults_of_files,
            faults_of_holes,
            faults_of_unproved,
            faults_of_lint,
        )
        for fault in faults()
    ]
    bad = [it for it in found if it]
    print(*bad, f"{len(found) - len(bad)} passed, {len(bad)} failed", sep="\n")
    return 1 if bad else 0


if __name__ == "__main__":
    sys.exit(main())
