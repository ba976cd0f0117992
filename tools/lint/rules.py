"""The rules of the lint. Each function returns its findings, one per line, and the first line of
its docstring describes them."""
import functools
import re
import subprocess
from collections import Counter, defaultdict

import commits as commits_of_history
import exceptions
import licences as licences_of_files
import prose
import sources

CLAUSE_COLUMNS, LONGEST_CLAUSE, SPECS_COLUMNS, PROOF_COLUMNS = 100, 120, 120, 120
MOST_FUNCTIONS, MOST_CODE, MOST_PROOFS = 100, 1800, 5200
# Names that have the same meaning everywhere: Rust's own, and those that std's traits require.
COMMON_FUNCTIONS = {"new", "len", "get", "next", "from", "is_empty", "bytes", "drop", "clone"}
COMMON_FILES = {"lib", "main", "law"}
COMMON_SPECS = {"Lib", "parts"}
ANSWERS = {"Answers.antt", "Invariants.antt", "Proof.antt"}
WORKED = "Worked.antt"
# The crates that use the steps of an expression: they make them, evaluate them, or compute how far
# they reach.
CRATES_OF_STEPS = {
    "cell_calc_grammar",
    "cell_calc_language",
    "cell_calc",
    "rcell_plan",
}
EXAMPLE = re.compile(r"^//! ```\n(.*?)^//! ```$", re.MULTILINE | re.DOTALL)
STEPS = re.compile(r"\.steps\(|\bstep::Step\b|declared\.step\b")
GHOST_MEMBER = re.compile(r"^ *ghost \w+ = \{(.*?)\};", re.MULTILINE | re.DOTALL)


def counted(counts):
    return [f"{key} {number}" for key, number in sorted(counts.items()) if number]


def wide_clauses():
    """Clauses whose first line is over 100 columns, by file."""
    counts = Counter()
    for _, path, text in sources.read_files("src"):
        counts[path] += sum(
            1
            for line in text.split("\n")
            if re.match(r"\s*(requires|ensures)\b", line) and len(line) > CLAUSE_COLUMNS
        )
    return counted(counts)


def widest_clauses():
    """Clauses that have a line over 120 columns, by file."""
    counts = Counter()
    for it in sources.read_functions():
        counts[it.path] += sum(
            1
            for clause in it.clauses
            if any(len(line) > LONGEST_CLAUSE for line in clause.text.split("\n"))
        )
    return counted(counts)


def wide_lines(kind, most):
    """Return the numbers of lines with more columns, by crate."""
    counts = Counter()
    for crate, _, text in sources.read_files(kind):
        counts[crate] += sum(1 for line in text.split("\n") if len(line) > most)
    return counted(counts)


def wide_specs():
    """Lines of definitions over 120 columns, by crate."""
    return wide_lines("specs", SPECS_COLUMNS)


def wide_proofs():
    """Lines of proofs over 120 columns, by crate."""
    return wide_lines("proofs", PROOF_COLUMNS)


def crate_limits():
    """Crates over 100 functions, 1,600 lines of code or 5,000 lines of proofs."""
    functions, code, proofs = (
        Counter(it.crate for it in sources.read_functions()),
        Counter(),
        Counter(),
    )
    for crate, _, text in sources.read_files("src"):
        code[crate] += sum(
            1 for line in text.split("\n") if line.strip() and not line.strip().startswith("//")
        )
    for crate, _, text in sources.read_files("proofs"):
        proofs[crate] += text.count("\n")
    limits = (
        ("functions", functions, MOST_FUNCTIONS),
        ("lines of code", code, MOST_CODE),
        ("lines of proofs", proofs, MOST_PROOFS),
    )
    return [
        f"{crate} {what} {counts[crate]}"
        for crate in sources.crate_names()
        for what, counts, most in limits
        if counts[crate] > most
    ]


def undocumented():
    """Public functions without a doc comment."""
    return [
        f"{it.path} {it.name}"
        for it in sources.read_functions()
        if it.is_public
        and not it.is_of_trait_impl
        and not any(line.startswith("///") for line in it.comments)
    ]


def names_alike():
    """Return the names that are meant to be in several files, as kind and name."""
    return {line.partition(": ")[0] for line in exceptions.of("names_alike")}


def in_several(places, what):
    """Return the names that are in several files without being meant to, and the names that are
    meant to be but are not."""
    several, alike = {
        name: paths for name, paths in places.items() if len(paths) > 1
    }, names_alike()
    found = [
        f"{what} {name}: {', '.join(sorted(paths))}"
        for name, paths in sorted(several.items())
        if f"{what} {name}" not in alike
    ]
    return found + [
        f"{it}: under names_alike in exceptions.txt, and in one file"
        for it in sorted(alike)
        if it.startswith(f"{what} ") and it.partition(" ")[2] not in several
    ]


def names():
    """Names that stand for several things: of modules, public functions, definitions and types."""
    modules, files, functions, definitions, types = (defaultdict(set) for _ in range(5))
    for _, path, text in sources.read_files("src"):
        name = path.rpartition("/")[2].removesuffix(".rt")
        if name not in COMMON_FILES:
            modules[name].add(path)
        for match in re.finditer(
            r"^(?:pub(?:\(crate\))? )?(?:struct|enum|trait|type) (\w+)",
            sources.blank_literals(text),
            re.MULTILINE,
        ):
            types[match.group(1)].add(path)
    for _, path, _ in sources.read_files("specs"):
        name = path.rpartition("/")[2].removesuffix(".antt")
        if name not in COMMON_SPECS:
            files[name].add(path)
    for it in sources.read_functions():
        if (
            it.is_public
            and not it.is_of_trait_impl
            and not it.container.startswith(("pub trait", "trait"))
            and it.name not in COMMON_FUNCTIONS
        ):
            functions[it.name].add(it.path)
    for it in sources.read_definitions("specs").values():
        definitions[it.name].add(it.path)
        if it.kind in ("record", "data"):
            types[it.name].add(it.path)
    return [
        line
        for places, what in (
            (modules, "module"),
            (files, "specs"),
            (functions, "function"),
            (definitions, "definition"),
            (types, "type"),
        )
        for line in in_several(places, what)
    ]


@functools.cache
def citations(kinds):
    """Return who cites what among definitions: from (module, name), or None for citations in proofs
    or sources, to (module, name) pairs."""
    edges = defaultdict(set)
    of_module = defaultdict(list)
    for kind in kinds:
        for it in sources.read_definitions(kind, True).values():
            of_module[it.module].append(it)
    for kind in ("src", *kinds):
        for crate, path, text in sources.read_files(kind, True):
            cite_file(
                edges,
                crate,
                path,
                text,
                of_module.get(sources.module_of(path), []) if kind != "src" else [],
            )
    return edges


def cite_file(edges, crate, path, text, definitions):
    """Add the citations in a file to the edges."""
    imports, own = sources.read_imports(text), {it.name for it in definitions}
    is_root = path.endswith(".rt") or path.rpartition("/")[2] in ANSWERS
    starts = {it.line: it for it in definitions}
    current = None
    for number, line in enumerate(sources.with_short_imports(text).split("\n"), 1):
        current = None if re.match(r"\s*module ", line) else starts.get(number, current)
        if sources.is_import(line):
            continue
        source = None if is_root or current is None else (current.module, current.name)
        for word in sources.words_of(line if "using(" in line else sources.without_comment(line)):
            found = imports.targets(word)
            head = word.strip(".:").split(".")[0]
            if not found and head in own:
                found = [(sources.module_of(path), head)]
            edges[source].update(it for it in found if it != source)
    for match in sources.CITED_PATH.finditer(text):
        parts = match.group().split("::")
        parts[0] = crate if parts[0] == "crate" else parts[0]
        edges[None].add((".".join(parts[:-1]), parts[-1]))


def reached_from(edges, starts):
    seen, waiting = set(starts), list(starts)
    while waiting:
        for target in edges.get(waiting.pop(), ()):
            if target not in seen:
                seen.add(target)
                waiting.append(target)
    return seen


def uncited():
    """Definitions that no clause, definition or proof cites."""
    seen = reached_from(citations(("specs", "proofs")), [None])
    found = [
        it
        for key, it in sources.read_definitions("specs").items()
        if key not in seen and it.kind != "lemma" and not is_infix(it.name)
    ]
    return [f"{it.path} {it.name}" for it in sorted(found, key=lambda it: (it.path, it.line))]


def dead_lemmas():
    """Definitions and lemmas that nothing proved uses, except worked examples (Worked.antt)."""
    seen = reached_from(citations(("specs", "proofs")), [None])
    return [
        f"{it.path} {it.name}"
        for key, it in sorted(
            sources.read_definitions("proofs", True).items(),
            key=lambda pair: (pair[1].path, pair[1].line),
        )
        if key not in seen
        and it.path.rpartition("/")[2] not in {*ANSWERS, WORKED}
        and not is_infix(it.name)
    ]


def is_infix(name):
    """Return whether a name is an operator's, which occurs between its operands without its
    marks."""
    return "◌" in name


def citing_of_public():
    """Return the (module, name) pairs cited in clauses of public functions, traits and models, and
    members of their implementations."""
    texts = {path: text for _, path, text in sources.read_files("src", True)}
    found = {
        it
        for text in texts.values()
        for member in GHOST_MEMBER.findall(text)
        for it in sources.targets_in(member, sources.read_imports(text))
    }
    for it in sources.read_functions(True):
        if it.is_public or it.container:
            imports = sources.read_imports(texts[it.path])
            for clause in it.clauses:
                found |= sources.targets_in(clause.condition, imports)
    return found


def parts():
    """Definitions outside specs/parts/ that no contract of a public function uses."""
    definitions = sources.read_definitions("specs", True)
    seen = reached_from(citations(("specs",)), citing_of_public())
    return [
        f"{it.path} {it.name}"
        for key, it in sorted(definitions.items(), key=lambda pair: (pair[1].path, pair[1].line))
        if key not in seen
        and "/specs/parts/" not in it.path
        and not sources.OF_TESTS.match(it.crate)
        and it.kind != "lemma"
    ]


def steps():
    """Places outside the crates of expressions that see the steps of one."""
    return sorted(
        {
            path
            for kind in ("src", "specs")
            for crate, path, text in sources.read_files(kind, True)
            if crate not in CRATES_OF_STEPS and STEPS.search(sources.without_comment(text))
        }
    )


def unused_edges():
    """Libraries that crates.txt lists for a crate whose sources do not name them."""
    found = []
    for crate, used in sources.crate_edges().items():
        texts = [
            text
            for kind in ("src", "specs", "proofs")
            for of, _, text in sources.read_files(kind, True)
            if of == crate
        ]
        found += [
            f"{crate} {name}"
            for name in used
            if not any(re.search(rf"\b{name}\b", text) for text in texts)
        ]
    return found


def without_layout(text):
    """Return a text without blanks, line ends and the commas that a formatter adds."""
    return "".join(text.split()).replace(",)", ")")


def examples():
    """Crates whose first comment has an example that is in no test, word for word."""
    tests = [
        text for crate, _, text in sources.read_files("src", True) if sources.OF_TESTS.match(crate)
    ]
    tests += [
        path.read_text(encoding="utf-8")
        for path in (sources.CRATES.parent / "tools").rglob("test_*.py")
    ]
    known = [without_layout(text) for text in tests]
    return [
        crate
        for crate, _, text in sources.read_files("src")
        for found in EXAMPLE.findall(text)
        if not any(without_layout(found.replace("//!", "")) in it for it in known)
    ]


def symbolic_links():
    """Symbolic links, which rt ci rejects wherever they are."""
    listed = subprocess.run(
        ["git", "ls-files", "-s"],
        cwd=sources.CRATES.parent,
        capture_output=True,
        text=True,
        check=True,
    ).stdout
    return [line.split("\t")[1] for line in listed.splitlines() if line.startswith("120000 ")]


def words():
    """Retired words in docstrings and comments, by file."""
    return counted(prose.retired_by_file())


ALL = {
    it.__name__: it
    for it in (
        wide_clauses,
        widest_clauses,
        wide_specs,
        wide_proofs,
        crate_limits,
        undocumented,
        names,
        uncited,
        dead_lemmas,
        parts,
        steps,
        unused_edges,
        examples,
        symbolic_links,
        licences_of_files.licences,
        words,
        commits_of_history.commits,
    )
}
COUNTED = {"wide_clauses", "widest_clauses", "wide_specs", "wide_proofs", "words"}
