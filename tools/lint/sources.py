"""Read the crates' sources: functions with their clauses, definitions with their comments, and who
cites what.

Used by reading.py, rules.py and documents/citations.py. This module understands the layout that `rt
fmt` produces, and only the part of the language that is needed.
"""
import functools
import pathlib
import re
from collections import defaultdict
from dataclasses import dataclass, field

CRATES = pathlib.Path(__file__).resolve().parents[2] / "crates"
OF_TESTS = re.compile(r".*_tests$|cell_core_test_maps$")
FUNCTION = re.compile(
    r"^([ \t]*)((?:pub(?:\([a-z]+\))? )?(?:const )?(?:unsafe )?)fn (\w+)", re.MULTILINE
)
KEYWORD = re.compile(r"requires\b|ensures\b|decreases\b|\{|;")
CONTAINER = re.compile(r"^(impl\b[^{;]*|(?:pub )?trait [^{;]*)\{", re.MULTILINE)
IMPORT = re.compile(
    r"\s*(?:pub )?(?:ghost )?use Rattle\.([^\s{}]+?)(?:\.\{(.*)\})?(?: as (\w+))?;?\s*$"
)
USE = re.compile(r"\s*(?:pub )?(?:ghost )?use ")
USE_OF_MANY_LINES = re.compile(
    r"^(\s*(?:pub )?(?:ghost )?use [^{}\n]*\{)([^{}]*\n[^{}]*)(\}.*)$", re.MULTILINE
)
CITED_PATH = re.compile(r"(?:crate|\w+)::(?:specs|proofs)::[\w:\-]+")
WORD = re.compile(r"[^\s(){}\[\],;=]+")
DEFINITION = re.compile(r"(\s*)(abbrev |unfoldable )?(pub )?([^\s:(){}]+) (?:\([^:]*\) )*: ")
TYPE_DEFINITION = re.compile(r"(\s*)(?:abbrev |unfoldable )?(pub )?(record|data) ([\w'\-]+)")
RUST_TYPE = re.compile(r"^pub(?:\(crate\))? (?:struct|enum) (\w+)[^{;\n]*\{", re.MULTILINE)
RUST_CONSTANT = re.compile(r"^pub const (\w+): [^;]*;", re.MULTILINE)
LITERAL = re.compile(r"'(\\x..|\\.|[^\\'])'")
CLOSING = {"{": "}", "(": ")", "[": "]"}


@dataclass
class Clause:
    """A clause of a contract: its keyword, label and condition, its full text, and the line at
    which it begins."""

    keyword: str
    label: str
    condition: str
    text: str
    line: int


@dataclass
class Function:
    """A function of a crate."""

    crate: str
    path: str
    name: str
    is_public: bool
    line: int
    container: str
    comments: list[str]
    clauses: list[Clause] = field(default_factory=list)

    @property
    def is_of_trait_impl(self):
        return re.match(r"impl\b.* for ", self.container) is not None


@dataclass
class Definition:
    """A definition or lemma: its module, comment and lines, and the meaning of the names that its
    file imports."""

    crate: str
    path: str
    module: str
    name: str
    kind: str
    line: int
    comments: list[str]
    lines: list[str]
    imports: "Imports"

    @property
    def size(self):
        """Return the number of nonblank lines."""
        return sum(1 for line in self.lines if line.strip())


@dataclass
class Imports:
    """The imports of a file: names with the module and the name that they denote, and modules by
    name."""

    names: dict[str, tuple[str, str]] = field(default_factory=dict)
    modules: dict[str, str] = field(default_factory=dict)

    def targets(self, word):
        """Return the (module, name) pairs that a word in the file may denote."""
        parts = word.strip(".:").split(".")
        head, rest = parts[0], parts[1] if len(parts) > 1 else ""
        if head in self.names:
            module, name = self.names[head]
            return [(module, name), (f"{module}.{name}", rest)]
        if head in self.modules:
            module = self.modules[head]
            outer, _, name = module.rpartition(".")
            return [(module, rest), (outer, name)]
        return []


@functools.cache
def crate_names(with_tests=False):
    found = sorted(it.name for it in CRATES.iterdir() if it.is_dir())
    return [name for name in found if with_tests or not OF_TESTS.match(name)]


def with_short_imports(text):
    """Return a text with each import on one line, followed by blank lines, so that line numbers do
    not change."""

    def joined(match):
        names = ", ".join(name.strip() for name in match[2].split(",") if name.strip())
        return match[1] + names + match[3] + "\n" * match[2].count("\n")

    return USE_OF_MANY_LINES.sub(joined, text)


@functools.cache
def read_files(kind, with_tests=False):
    """Return the files of src, specs or proofs: a list of crate, path below crates/ and text."""
    suffix = ".rt" if kind == "src" else ".antt"
    return [
        (crate, str(path.relative_to(CRATES)), path.read_text(encoding="utf-8"))
        for crate in crate_names(with_tests)
        for path in sorted((CRATES / crate / kind).rglob(f"*{suffix}"))
    ]


def module_of(path):
    """Return the module name of a file of specs or proofs."""
    return path.removesuffix(".antt").replace("/", ".")


def is_import(line):
    return USE.match(line) is not None


def without_comment(text):
    return re.sub(r"(--|//).*", "", text)


def blank_literals(text):
    """Return the text with comments, strings and characters blanked out, with the same length."""
    parts, at = [], 0
    while at < len(text):
        if text.startswith("//", at):
            end = text.find("\n", at)
            end = len(text) if end < 0 else end
            parts.append(" " * (end - at))
        elif text[at] == '"':
            end = at + 1
            while text[end] != '"':
                end += 2 if text[end] == "\\" else 1
            end += 1
            parts.append('"' + "_" * (end - at - 2) + '"')
        elif text[at] == "'" and (literal := LITERAL.match(text, at)):
            end = literal.end()
            parts.append("_" * (end - at))
        else:
            end = at + 1
            parts.append(text[at])
        at = end
    return "".join(parts)


def closing_place(text, at):
    """Return the position at which the bracket that opens at `at` closes."""
    opening, closing, depth = text[at], CLOSING[text[at]], 0
    for place in range(at, len(text)):
        depth += (text[place] == opening) - (text[place] == closing)
        if depth == 0:
            return place
    raise ValueError(f"a bracket is not closed: {text[at:at + 40]!r}")


def comments_above(text, start):
    """Return the lines of comments and attributes right above a position."""
    found = []
    for line in reversed(
        text[:start].rstrip("\n").split("\n")
        if text[:start].endswith("\n")
        else text[:start].split("\n")
    ):
        if not re.match(r"\s*(///|//|#\[)", line):
            break
        found.append(line.strip())
    return found[::-1]


def clauses_after(text, blanked, at):
    """Return the clauses that follow a function's parameters, which end at `at`."""
    found = []
    while keyword := KEYWORD.search(blanked, at):
        if keyword.group() in "{;":
            break
        opening = blanked.index("{", keyword.end())
        end = closing_place(blanked, opening)
        found.append(
            Clause(
                keyword.group(),
                text[keyword.end() : opening].strip(),
                text[opening + 1 : end].strip(),
                text[keyword.start() : end + 1],
                blanked[: keyword.start()].count("\n") + 1,
            )
        )
        at = end + 1
    return found


def container_of(blanked, start):
    """Return the head of the impl or trait around a position, or nothing."""
    around = ""
    for found in CONTAINER.finditer(blanked, 0, start):
        if closing_place(blanked, found.end() - 1) > start:
            around = " ".join(found.group(1).split())
    return around


@functools.cache
def read_functions(with_tests=False):
    found = []
    for crate, path, text in read_files("src", with_tests):
        blanked = blank_literals(text)
        for match in FUNCTION.finditer(blanked):
            parameters = closing_place(blanked, blanked.index("(", match.end()))
            found.append(
                Function(
                    crate,
                    path,
                    match.group(3),
                    match.group(2).startswith("pub "),
                    blanked[: match.start()].count("\n") + 1,
                    container_of(blanked, match.start()),
                    comments_above(text, match.start()),
                    clauses_after(text, blanked, parameters + 1),
                )
            )
    return found


def read_imports(text):
    found = Imports()
    for line in with_short_imports(text).split("\n"):
        match = IMPORT.match(line)
        if match is None:
            continue
        module, names, alias = match.groups()
        for name in names.split(",") if names else []:
            own, _, other = name.strip().partition(" as ")
            found.names[other or own] = (module, own)
        if alias:
            found.modules[alias] = module
        elif names is None:
            found.modules[module.rpartition(".")[2]] = module
    return found


def definitions_of(crate, path, text):
    """Return the definitions in a file, in order. A definition ends at a blank line, and includes
    the comments inside it."""
    imports, found, current, comments, outermost = read_imports(text), [], None, [], 0
    for number, line in enumerate(text.split("\n"), 1):
        words, indent = line.strip(), len(line) - len(line.lstrip())
        if re.match(r"(abbrev |unfoldable )?mutual\b|module ", words):
            # The contents of a module or a mutual block are indented by two.
            outermost, current, comments = indent + 2, None, []
            continue
        if not words or is_import(line) or re.match(r"(pub )?mod ", line):
            current, comments = None, []
            continue
        if words.startswith("--"):
            comments.append(line)
            continue
        outermost = min(outermost, indent)
        of_type, of_value = TYPE_DEFINITION.match(line), DEFINITION.match(line)
        if of_type and indent == outermost:
            kind, name = of_type.group(3), of_type.group(4)
        elif (
            of_value
            and (current is None or comments)
            and indent == outermost
            and not re.match(r"\s*unfolding", line)
        ):
            kind, name = (
                "definition" if of_value.group(2) or outermost else "lemma"
            ), of_value.group(4)
        else:
            if current is not None:
                current.lines += [*comments, line]
            comments = []
            continue
        above = [comment.strip() for comment in comments]
        current = Definition(
            crate, path, module_of(path), name, kind, number, above, [line], imports
        )
        comments = []
        found.append(current)
    return found


@functools.cache
def read_definitions(kind, with_tests=False):
    """Return the definitions of specs or proofs, by (module, name)."""
    return {
        (it.module, it.name): it
        for crate, path, text in read_files(kind, with_tests)
        for it in definitions_of(crate, path, text)
    }


def words_of(text):
    return WORD.findall(text)


def targets_in(text, imports):
    """Return the (module, name) pairs that words in a text may denote."""
    return {target for word in words_of(without_comment(text)) for target in imports.targets(word)}


@functools.cache
def crate_edges():
    """Return what each crate uses according to crates.txt: crates of the repository and libraries
    of the kit."""
    edges = defaultdict(list)
    for line in (CRATES.parent / "crates.txt").read_text(encoding="utf-8").splitlines():
        name, colon, used = line.partition("#")[0].partition(":")
        if colon:
            edges[name.strip().split()[0]] = used.split()
    return dict(edges)
