"""Check the subjects of commits: `room: imperative sentence`, at most 72 characters, without a full
stop."""
import pathlib
import re
import subprocess

ROOT = pathlib.Path(__file__).resolve().parent.parent.parent
LAST_OLD = "45e62915"  # the last commit before the rule
MOST_COLUMNS = 72
SUBJECT = re.compile(r"[a-z][\w./-]*(, [a-z][\w./-]*)*: (?P<verb>[a-z]+) .*[^.]")
# `adds` and `added` are not imperatives. These words are, although they have the same endings.
NOT_IMPERATIVE = re.compile(r".*(ed|ing|[^s]s)")
IMPERATIVE = set("embed exceed feed need shed seed speed bring string focus discus bias".split())


def subjects():
    """Yield the commits after the last old one, each with its subject, or none if the history is
    not available."""
    words = ["git", "log", "--no-merges", "--format=%H %s", f"{LAST_OLD}..HEAD"]
    listed = subprocess.run(words, cwd=ROOT, capture_output=True, text=True, check=False).stdout
    # The length of git's short hashes grows with the repository, so the list of exceptions has a
    # fixed length.
    pairs = (line.split(" ", 1) for line in listed.splitlines())
    return [(commit[: len(LAST_OLD)], subject) for commit, subject in pairs]


def fault_of(subject):
    """Return the error of a subject, or ''."""
    if len(subject) > MOST_COLUMNS:
        return f"{len(subject)} characters, at most {MOST_COLUMNS}"
    found = SUBJECT.fullmatch(subject)
    if not found:
        return "not of the form `room: imperative sentence`"
    verb = found["verb"]
    if NOT_IMPERATIVE.fullmatch(verb) and verb not in IMPERATIVE:
        return f"'{verb}' is not imperative"
    return ""


def commits():
    """Commits whose subject is not `room: imperative sentence` of at most 72 characters."""
    return [
        f"{commit} {subject}: {fault_of(subject)}"
        for commit, subject in subjects()
        if fault_of(subject)
    ]
