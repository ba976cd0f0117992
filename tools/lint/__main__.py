"""Lint the crates, documents and Python: `make lint`, in seconds and without proofs.

    python3 tools/lint [--write | --words] [RULE..]

Each rule has findings, one per line, and allowed findings in exceptions.txt. A finding that is not
listed there is an error, and so is a listed line that is no longer a finding: the lists may only
shrink. Rules that count list a number per file or crate, which may only fall. The documents and
messages for users must not contain retired words (prose.py), and pages must keep to their lengths
and share no sentences (pages.py). Rules are run in parallel. Python files that passed are recorded
by their hashes (passed.py), and not checked again.

--write updates the lists, for a commit that removes findings; a list that would grow is not
changed. --words prints the retired words in docstrings and comments. The last line is 'N passed, M
failed, K skipped'.
"""
import argparse
import pathlib
import shutil
import subprocess
import sys
from concurrent.futures import ProcessPoolExecutor

import exceptions
import pages
import passed
import prose
import rules

ROOT = pathlib.Path(__file__).resolve().parent.parent.parent
MANUAL = ".1"  # the ending of a manual page
# These rules share a graph of citations, which takes longer to build than the rules.
TOGETHER = [("uncited", "dead_lemmas")]


def as_counts(lines):
    return {key: int(number) for key, number in (line.rsplit(" ", 1) for line in lines)}


def faults_of(rule, findings, allowed):
    """Return the errors in findings and exceptions, as a list of lines."""
    if rule in rules.COUNTED:
        found, listed = as_counts(findings), as_counts(allowed)
        grown = [key for key, number in found.items() if number > listed.get(key, 0)]
        more = [
            f"{key}: {found[key]}, and at most {listed.get(key, 0)} are listed" for key in grown
        ]
        if rule == rules.words.__name__:
            more += [place for key in grown for place in prose.retired_in_comments(key)]
        fewer = [
            f"{key}: {found.get(key, 0)}, fewer than the {number} listed (lower the list: make lint WRITE=1)"
            for key, number in listed.items()
            if found.get(key, 0) < number
        ]
        return more + fewer
    new = [f"{it}: not listed" for it in findings if it not in set(allowed)]
    gone = [
        f"{it}: listed, and no finding any more (make lint WRITE=1)"
        for it in allowed
        if it not in set(findings)
    ]
    return new + gone


def total(rule, lines):
    return sum(as_counts(lines).values()) if rule in rules.COUNTED else len(lines)


def write_exceptions(rule, findings, allowed):
    """Write the findings as exceptions, unless there would be more of them."""
    if any("not listed" in it or "at most" in it for it in faults_of(rule, findings, allowed)):
        print(f"{rule}: the list would grow, and is left as it is")
    elif findings != allowed:
        exceptions.write(rule, findings)


def python_files():
    tracked = subprocess.run(
        ["git", "ls-files", "*.py", "helpers/rcell-*"],
        cwd=ROOT,
        capture_output=True,
        text=True,
        check=True,
    )
    return [
        it
        for it in tracked.stdout.splitlines()
        if not it.endswith(MANUAL) and (ROOT / it).is_file()
    ]


def faults_of_tool(tool):
    """Return the errors of black, flake8 or mypy, or None if it is not installed."""
    if not shutil.which(tool):
        return None
    settings = [ROOT / ".flake8", ROOT / "pyproject.toml"]
    files = python_files()
    if tool == "mypy":
        # mypy checks files in the context of one another.
        files = [it for it in files if it.startswith("tools/lint/")]
        settings += [ROOT / it for it in files]
    known = passed.Passed(passed.tool(tool, *settings), ROOT)
    left = [it for it in files if not known.has(it)]
    if not left:
        return []
    words = {
        "black": ["black", "--config", "pyproject.toml", "--check", "--quiet", *left],
        "flake8": ["flake8", *left],
        "mypy": ["mypy", "--no-error-summary", "tools/lint"],
    }[tool]
    done = subprocess.run(words, cwd=ROOT, capture_output=True, text=True, check=False)
    if done.returncode:
        return done.stdout.splitlines() or [f"{tool}: some files are not formatted: black ."]
    known.keep(left)
    return []


TOOLS = ("black", "flake8", "mypy")


def findings_of(names):
    """Return the findings of some rules, by rule. The Python tools and the prose are also tasks."""
    tasks = {**rules.ALL, "prose": lambda: prose.faults() + pages.faults()}
    return {it: faults_of_tool(it) if it in TOOLS else tasks[it]() for it in names}


def all_findings(names):
    """Return the findings of rules, by rule. The rules are run in parallel."""
    shared = [tuple(it for it in group if it in names) for group in TOGETHER]
    alone = [(it,) for it in names if not any(it in group for group in shared)]
    with ProcessPoolExecutor() as pool:
        parts = list(pool.map(findings_of, [it for it in [*shared, *alone] if it]))
    return {rule: found for part in parts for rule, found in part.items()}


def report(rule, findings, is_written):
    """Print the findings of a rule, and return whether all is well."""
    allowed = exceptions.of(rule)
    if is_written:
        write_exceptions(rule, findings, allowed)
        allowed = exceptions.of(rule)
    faults = faults_of(rule, findings, allowed)
    for fault in faults:
        print(f"{rule}: {fault}")
    print(
        f"{rule}: {total(rule, findings)} found, {total(rule, allowed)} listed{'' if faults else ', good'}"
    )
    return not faults


def report_others(found):
    """Print the errors in Python files and documents. Return which are right, and the number of
    tools that are not installed."""
    missing = [it for it in TOOLS if found[it] is None]
    for tool in missing:
        print(f"skipped  lint: {tool} is not installed; install: apt-get install {tool}")
    python = [fault for tool in TOOLS for fault in found[tool] or []]
    for what, faults in (("python", python), ("prose", found["prose"])):
        for fault in faults:
            print(f"{what}: {fault}")
    return [not python, not found["prose"]], len(missing)


def main():
    parser = argparse.ArgumentParser(prog="lint", description=__doc__.splitlines()[0])
    parser.add_argument(
        "--write",
        action="store_true",
        help="write the findings as the exceptions, where there are no more",
    )
    parser.add_argument("rules", nargs="*", metavar="RULE", help=", ".join(rules.ALL))
    parser.add_argument(
        "--words", action="store_true", help="print the retired words of docstrings and comments"
    )
    words = parser.parse_args()
    if words.words:
        print(*(it for name in prose.retired_by_file() for it in prose.retired_in_comments(name)))
        return 0
    names = words.rules or [*rules.ALL]
    found = all_findings([*TOOLS, "prose", *names] if not words.rules else names)
    well, skipped = [report(rule, found[rule], words.write) for rule in names], 0
    if not words.rules:
        others, skipped = report_others(found)
        well += others
    print(f"{sum(well)} passed, {len(well) - sum(well)} failed, {skipped} skipped")
    return 0 if all(well) else 1


if __name__ == "__main__":
    sys.exit(main())
