#!/usr/bin/env python3
"""Try the edits of crates, many per check: the proof must reject each.

    edits.py [--one-by-one] [--list] [--evidence] [CRATE..]    without names, all crates with edits
    edits.py --named [CRATE..]           also the edits in the folder named of all other crates
    edits.py --stale                     only check, in a second, that each edit still fits its
    files

A check judges each function separately, given the contracts of the functions that it calls.
Therefore edits of different functions are made in one copy of the crate, and only these functions
are checked; all other written proofs are replaced with holes. An edit is rejected if a function
that it changes is not proved for a reason of its own, not only because it calls an unproved
function. Edits that are not rejected together are tried again, in the end one by one. An altered
definition (edit_files.py) is tried by itself: the proof of each law that it names must fail.

The tool reports why each edit is rejected: `values`: a goal is false at values that the prover
found; `goal`: a goal remained open; `written`: only a written proof step no longer fits, which says
little about the contract; `elsewhere`: only another function of the crate is rejected. An edit that
a page cites as evidence should be of the first two kinds, and must be with --evidence. Rejected
edits are recorded next to the kit, with a hash of all that they use, and are not tried again. The
last line is 'N passed, M failed'.
"""
import argparse
import collections
import hashlib
import os
import pathlib
import re
import shutil
import subprocess
import sys
import tempfile
import time
from concurrent.futures import ThreadPoolExecutor
from dataclasses import dataclass

import build
import edit_files
import turned_definitions

VERDICT = re.compile(r"^(?:fn|impl|enum|struct|trait) \w+::(\S+): (.*)$")
PROVED = re.compile(
    r"proved\b|assumed\b|no holes|depends on a hole|no proof: it calls .*, which (?:is|are) not proved$"
)
BY_CALL = re.compile(r"not proved; it (?:calls|waits for)\b")
OPEN = re.compile(r"`search` did not prove|^note: \S+: it is not proved that")
FALSE = "allow values at which this goal is false"
UNTRIED = re.compile(r"^note: `search` has not tried the goals of `\w+::([^`]+)`")
OF_PROOF = re.compile(r"^(?:\./)?proofs/(\S+)/\w+\.antt:\d+:\d+: error")
NO_FUNCTION = re.compile(r"error: `\w+` has no function `\w+::([^`]+)`")
KINDS = ("values", "goal", "written", "elsewhere")
BYTES_OF_A_CHECK = 4 << 30  # at most
ROUNDS_IN_COMPANY = 2
MOST_IN_COMPANY = 24  # in a larger check, more callees are unproved


@dataclass
class Reason:
    """Why a function is rejected: the kind, or '' if it has no reason of its own, and whether a
    search has not tried all of its goals."""

    kind: str
    is_untried: bool = False


@dataclass
class Tally:
    """The results of a crate's edits."""

    crate: str
    kinds: dict
    missed: list
    kept: int = 0
    checks: int = 0
    seconds: float = 0


def reasons_of(output):
    """Return the reasons of the functions in a check's output, in order: a list of (path,
    Reason)."""
    found, notes, broken, untried = [], [], set(), set()
    for line in output.splitlines():
        if at := OF_PROOF.match(line):
            broken.add(at[1].replace("/", "::"))
        elif at := UNTRIED.match(line):
            untried.add(at[1])
        elif line.startswith("note: "):
            notes.append(line)
        elif at := VERDICT.match(line):
            found.append((at[1], at[2], notes))
            notes = []
    return [
        (path, Reason(kind_of(said, notes, path in broken), path in untried))
        for path, said, notes in found
    ]


def kind_of(said, notes, is_broken):
    """Return the kind of a function's verdict, given the notes before it. `is_broken` states that a
    written part of its proof has an error."""
    if PROVED.match(said):
        return ""
    is_open = OPEN.search(said) or any(map(OPEN.match, notes))
    if is_open:
        return "values" if any(FALSE in it for it in notes) else "goal"
    return "" if BY_CALL.match(said) and not is_broken else "written"


def is_of(path, name, function):
    """Return whether a verdict's path names the function of a file, or a closure in it. A method is
    in the module of its type."""
    parts = [it.split("+")[0] for it in path.split("::")]
    owner, _, function = function.rpartition("::")
    if owner:
        return any(
            before.startswith(owner) and after == function
            for before, after in zip(parts, parts[1:])
        )
    module = modules_of(name)
    if parts[: len(module)] != module or function not in parts[len(module) :]:
        return False
    return all(it == "fn" for it in parts[len(module) : parts.index(function, len(module))])


def modules_of(name):
    """Return the modules that lead to a file of src/."""
    parts = list(pathlib.PurePath(name).with_suffix("").parts[1:])
    return [] if parts in (["lib"], ["main"]) else [it for it in parts if it != "mod"]


def reason_of(edit, found):
    """Return why an edit is rejected: the strongest reason of a function that it changes, or of a
    closure in it."""
    reasons = [
        reason
        for name, function in edit.functions
        for path, reason in found
        if reason.kind and (not function or is_of(path, name, function))
    ]
    return min(reasons, key=lambda it: KINDS.index(it.kind), default=Reason(""))


def groups_of(edits, one_by_one):
    """Group edits so that no two edits in a group change the same function. An edit that changes
    something outside functions is in a group of its own."""
    groups = []
    for edit in edits:
        is_alone = one_by_one or edit.is_outside
        fits = (
            it
            for it in groups
            if len(it) < MOST_IN_COMPANY
            and not it[0].is_outside
            and not any(edit.functions & other.functions for other in it)
        )
        group = None if is_alone else next(fits, None)
        if group is None:
            groups.append([edit])
        else:
            group.append(edit)
    return groups


def changed_copy(crate, edits, room):
    """Copy what is proved of the crate to a folder, and apply some edits.

    Pairs of several edits are located in the original file, so that no pair applies to the result
    of another edit.
    """
    for part in build.PROVED:
        if os.path.isdir(f"{crate.folder}/{part}"):
            shutil.copytree(f"{crate.folder}/{part}", f"{room}/{part}")
    texts = {
        name: pathlib.Path(room, name).read_text(encoding="utf-8")
        for edit in edits
        for name, _, _ in edit.pairs
    }
    pairs = [pair for edit in edits for pair in edit.pairs]
    if len(edits) > 1:
        pairs.sort(key=lambda pair: texts[pair[0]].find(pair[1]), reverse=True)
    for name, old, new in pairs:
        at = texts[name].find(old)
        texts[name] = texts[name][:at] + new + texts[name][at + len(old) :]
    for name, text in texts.items():
        pathlib.Path(room, name).write_text(text, encoding="utf-8")


# The proof of a function whose written proof is left out.
HOLE = """use Rattle.{crate}.proofs.{module}.Statement.{{statement}}

pub {name}_spec : {{M : Type 1}} → statement M
{name}_spec = ?
"""
WRITTEN = ("Answers.antt", "Invariants.antt")


def leave_holes(crate, changed, room):
    """Replace each written proof with a hole, except for some functions (file, name) and their
    closures.

    A check then uses only the contracts of all other functions.
    """
    proofs = pathlib.Path(room, "proofs")
    for folder in {it.parent for name in WRITTEN for it in proofs.rglob(name)}:
        parts = folder.relative_to(proofs).parts
        # The functions in a cycle of calls share one proof.
        if folder.name.startswith("+") or any(is_of("::".join(parts), *it) for it in changed):
            continue
        for name in WRITTEN:
            (folder / name).unlink(missing_ok=True)
        text = HOLE.format(crate=crate, module=".".join(parts), name=folder.name)
        (folder / "Proof.antt").write_text(text, encoding="utf-8")


class Checks:
    """Runs checks of a crate on top of what previous checks kept, and counts them and their
    processor seconds."""

    def __init__(self, crate, kept):
        self.crate, self.kept, self.count, self.seconds = crate, kept, 0, 0.0

    def run(self, room, functions, crate=None, words=()):
        """Check the crate in a folder, or only some of its functions, and return the output."""
        words = [*(crate or self.crate).command("check"), "--incremental", self.kept, *words]
        words += [word for it in sorted(functions) for word in ("--only", it)]
        with tempfile.TemporaryFile("w+", encoding="utf-8", errors="replace") as output:
            ran = subprocess.Popen(  # pylint: disable=consider-using-with
                words, cwd=room, stdin=subprocess.DEVNULL, stdout=output, stderr=subprocess.STDOUT
            )
            _, ran.returncode, used = os.wait4(ran.pid, 0)
            self.count, self.seconds = self.count + 1, self.seconds + used.ru_utime + used.ru_stime
            output.seek(0)
            return output.read()

    def of_edits(self, edits, is_full=False):
        """Check what these edits change, or the full crate with them. Return the reasons of
        functions, and the output."""
        changed = {it for edit in edits for it in edit.functions}
        is_full = is_full or any(edit.is_outside for edit in edits)
        functions = {"::".join([*modules_of(name), function]) for name, function in changed}
        with tempfile.TemporaryDirectory(prefix="rcell-edits-") as room:
            changed_copy(self.crate, edits, room)
            if is_full:
                said = self.run(room, ())
            else:
                leave_holes(self.crate.name, changed, room)
                said = self.run(room, functions, words=["--allow-holes"])
        if not is_full and NO_FUNCTION.search(said):
            # Only the full check judges what has no name.
            return self.of_edits(edits, is_full=True)
        return reasons_of(said), said

    def of_laws(self, edit, home, is_wide):
        """Check the laws that must fail with an altered definition. Return those that fail, and the
        output."""
        crate = turned_definitions.crate_with(self.crate.name, home, is_wide, self.crate.root)
        with tempfile.TemporaryDirectory(prefix="rcell-turned-") as room:
            turned_definitions.lay_out(
                self.crate.name, home, is_wide, edit.pairs, pathlib.Path(room)
            )
            said = self.run(room, edit.falls, crate)
        return [law for law in edit.falls if not is_proved(law, said)], said


def is_proved(law, said):
    return re.search(rf"^fn \w+::(?:\w+::)*{law}: proved", said, re.MULTILINE) is not None


class Kept:
    """Edits that were rejected before, with their kinds, keyed by a hash of the kit, the crate with
    all that it uses, and the edit."""

    def __init__(self, crate):
        self.folder = pathlib.Path(os.path.dirname(build.kit()), "rcell-kept-edits")
        tools = [
            pathlib.Path(it.__file__).read_text(encoding="utf-8")
            for it in (sys.modules[__name__], edit_files, turned_definitions)
        ]
        self.sum = hashlib.sha256(f"{crate.stamp} {tools}".encode())

    def place(self, edit):
        found = self.sum.copy()
        found.update(edit.path.name.encode() + edit.path.read_bytes())
        return self.folder / found.hexdigest()

    def kind(self, edit):
        place = self.place(edit)
        return place.read_text(encoding="ascii") if place.exists() else ""

    def keep(self, edit, kind):
        try:
            self.folder.mkdir(mode=0o700, exist_ok=True)
            self.place(edit).write_text(kind, encoding="ascii")
        except OSError:
            pass


def try_bodies(checks, edits, one_by_one):
    """Yield each wrong body with its kind, or '' and a message if it is not rejected."""
    groups = [(it, 1) for it in groups_of(edits, one_by_one)]
    again, unsure = collections.defaultdict(list), set()
    while groups:
        group, round_ = groups.pop(0)
        found, said = checks.of_edits(group)
        if not found and len(group) > 1:
            half = len(group) // 2
            groups[:0] = [(group[:half], round_), (group[half:], round_)]
            continue
        for edit in group:
            reason = reason_of(edit, found)
            is_last = len(group) == 1 or round_ > ROUNDS_IN_COMPANY
            if reason.kind == "written" and reason.is_untried and not is_last:
                unsure.add(edit.name)
                again[round_ + 1].append(edit)
            elif reason.kind or edit.name in unsure:
                yield edit, reason.kind or "written", ""
            elif len(group) == 1:
                yield edit, *last_try(checks, edit)
            else:
                again[round_ + 1].append(edit)
        if not groups and again:
            next_round = min(again)
            is_alone = next_round > ROUNDS_IN_COMPANY
            groups = [
                (it, next_round) for it in groups_of(again.pop(next_round), one_by_one or is_alone)
            ]


def last_try(checks, edit):
    """Check the full crate with an edit that its own function does not reject. Return the kind, and
    a message."""
    found, said = checks.of_edits([edit], is_full=True)
    kind = reason_of(edit, found).kind or ("elsewhere" if any(it.kind for _, it in found) else "")
    return kind, "NOT REFUSED" if found else "BAD EDIT: " + said[-600:]


def try_definitions(checks, edits):
    """Yield each altered definition with its kind, like try_bodies. The laws must be provable
    without alterations."""
    homes = collections.defaultdict(list)
    for edit in edits:
        homes[turned_definitions.home_of(checks.crate.name, edit)].append(edit)
    for home, turned in sorted(homes.items()):
        laws = sorted({law for edit in turned for law in edit.falls})
        unaltered, is_wide = edit_files.Edit(turned[0].path, falls=tuple(laws)), False
        broken, said = checks.of_laws(unaltered, home, is_wide)
        if broken:
            is_wide = True
            broken, said = checks.of_laws(unaltered, home, is_wide)
        for edit in turned:
            if set(broken) & set(edit.falls):
                yield edit, "", "its laws do not prove if nothing is turned: " + said[-600:]
                continue
            fallen, said = checks.of_laws(edit, home, is_wide)
            stand = set(edit.falls) - set(fallen)
            yield edit, "" if stand else "goal", f"NOT REFUSED: {', '.join(sorted(stand))}"


def edits_of(crate, choice):
    """Return the edits of a crate that a run tries: all, or only the named ones."""
    edits = edit_files.edits_in(crate)
    return edits if crate in choice.crates else [it for it in edits if it.is_named]


def try_crate(crate, choice):
    """Try the edits of a crate, and return the results."""
    edits, kept = edits_of(crate.name, choice), Kept(crate)
    tally = Tally(crate.name, {it.name: kept.kind(it) for it in edits}, [])
    left = [it for it in edits if not tally.kinds[it.name]]
    tally.kept = len(edits) - len(left)
    with tempfile.TemporaryDirectory(prefix="rcell-edits-kept-") as room:
        checks = Checks(crate, f"{room}/kept")
        bodies = [it for it in left if not it.falls]
        tried = [try_bodies(checks, bodies, choice.one_by_one)] if bodies else []
        for edit, kind, said in (
            it
            for several in [*tried, try_definitions(checks, [it for it in left if it.falls])]
            for it in several
        ):
            tally.kinds[edit.name] = kind
            if kind:
                kept.keep(edit, kind)
            else:
                tally.missed.append(edit.name)
            if choice.list or not kind:
                print(f"{edit.name}: {kind or said}", flush=True)
    tally.checks, tally.seconds = checks.count, checks.seconds
    print(line_of(tally), flush=True)
    return tally


def line_of(tally):
    counts = collections.Counter(tally.kinds.values())
    kinds = ", ".join(f"{counts[it]} by {it}" for it in KINDS if counts[it])
    refused = len(tally.kinds) - counts[""]
    return (
        f"{tally.crate}: {refused} of {len(tally.kinds)} edits refused ({kinds or 'none'}); "
        f"{tally.kept} kept, {tally.checks} checks, {tally.seconds:.0f} processor seconds"
    )


def checks_at_a_time():
    """Return one check per processor, or fewer if memory is short."""
    available = re.search(
        r"^MemAvailable: *(\d+) kB",
        pathlib.Path("/proc/meminfo").read_text(encoding="ascii"),
        re.MULTILINE,
    )
    return max(1, min(len(os.sched_getaffinity(0)), int(available[1]) * 1024 // BYTES_OF_A_CHECK))


def try_over(root, names, choice):
    """Try the edits of crates over the libraries below a root, largest crates first. Return the
    results of each."""
    tried = [it for it in build.crates_of(names, root) if it.name in names]
    for crate in tried:
        crate.folder = f"{build.ROOT}/crates/{crate.name}"
    with ThreadPoolExecutor(checks_at_a_time()) as pool:
        return list(
            pool.map(
                lambda crate: try_crate(crate, choice),
                sorted(tried, key=lambda crate: -crate.work),
            )
        )


def try_all(choice):
    """Try the edits of crates over the libraries that the gate left, or over a copy that is proved
    here."""
    names = [it for it in sorted(build.uses()) if edits_of(it, choice)]
    crates = build.crates_of(names)
    below = [it for it in crates if any(it.name in other.all_below for other in crates)]
    if all(it.has_proved() for it in below):
        return try_over(build.ROOT, names, choice)
    with build.cut(below) as folder:
        if build.prove(folder, below, 0, f"{folder}/log"):
            return []
        return try_over(folder, names, choice)


def faults_of_evidence(kinds):
    """Return the edits that a page cites as evidence although they say little about the
    contract."""
    return [
        f"{name}: evidence on {page}, and rejected only by `{kinds[name]}`"
        for name, page in edit_files.cited().items()
        if kinds.get(name) in ("written", "elsewhere")
    ]


def closing(tallies, wall, is_strict):
    """Print all counts, and return the status. `is_strict` states that weak evidence counts as a
    failure."""
    kinds = {name: kind for it in tallies for name, kind in it.kinds.items()}
    counts = collections.Counter(kinds.values())
    for fault in (faults := faults_of_evidence(kinds)):
        print(f"note: {fault}")
    kept = sum(it.kept for it in tallies)
    print(
        f"{counts['values']} refused at values that make a goal false, {counts['goal']} by an open goal, "
        f"{counts['written']} only since a written step no longer fits, {counts['elsewhere']} only elsewhere; "
        f"{sum(it.seconds for it in tallies):.0f} processor seconds in {wall / 60:.0f} minutes"
    )
    print(
        f"ran: {len(kinds) - kept} of {len(kinds)} edits; the others are kept from earlier runs on this machine"
    )
    failed = counts[""] + (len(faults) if is_strict else 0) + (not tallies)
    print(f"{len(kinds) - counts['']} passed, {failed} failed")
    return 1 if failed else 0


def main():
    words = argparse.ArgumentParser(
        description=__doc__, formatter_class=argparse.RawDescriptionHelpFormatter
    )
    words.add_argument("--one-by-one", action="store_true", help="each in a check of its own")
    words.add_argument("--list", action="store_true", help="print the kind of each edit")
    words.add_argument(
        "--evidence", action="store_true", help="fail if a page cites an edit that says little"
    )
    words.add_argument(
        "--named", action="store_true", help="also the named edits of all other crates"
    )
    words.add_argument("--stale", action="store_true", help="only whether edits fit their files")
    words.add_argument("crates", nargs="*", metavar="CRATE")
    given, begun = words.parse_args(), time.monotonic()
    paths = edit_files.paths_in()
    if given.stale:
        faults = [fault for path in paths for fault in edit_files.faults_of(path)]
        print(*faults, f"{len(paths) - len(faults)} passed, {len(faults)} failed", sep="\n")
        return 1 if faults else 0
    if not given.crates and not given.named:
        given.crates = sorted({it.parents[1].name for it in paths})
    tallies = try_all(given)
    return closing(tallies, time.monotonic() - begun, given.evidence)


if __name__ == "__main__":
    sys.exit(main())
