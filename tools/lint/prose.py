"""Check the English of the documents: retired words (retired.txt), and the lengths of sentences.

Documents for users, messages of the helpers and of rcell.core, docstrings and comments must not
contain retired words. In a page for users, sentences have at most 18 words on average, at most 10 %
of them have more than 25 words, and at most 1 % more than 45.
"""
import ast
import functools
import io
import json
import pathlib
import re
import subprocess
import tokenize

import passed

ROOT = pathlib.Path(__file__).resolve().parent.parent.parent
MEAN_WORDS, LONG, MOST_LONG, VERY_LONG, MOST_VERY_LONG = 18, 25, 0.10, 45, 0.01
# Documents for developers of the program, not for its users.
FOR_DEVELOPERS = {
    "docs/DECISIONS.md",
    "docs/architecture.md",
    "bench/RESULTS.md",
    "bench/hostile.md",
    "packaging/object.md",
    "fronts/README.md",
    "qgis/README.md",
    "grass/README.md",
}
# Modules whose messages are checked, and the sentences that the packages print.
MESSAGES_OF, SENTENCES = (
    re.compile(
        r"python/src/rcell/core/(converting|esri_grids|explaining|files|grid_files|hints|process|protocol)\.py"
    ),
    "python/src/rcell/core/messages.json",
)
FENCED = re.compile(r"^```.*?^```$", re.MULTILINE | re.DOTALL)
# Phrases that must not occur in documents, helpers and packages, including the code and tests of R.
IN_SOURCES = re.compile(r"README\.md|docs/[^/]*\.(md|1)|(helpers|python/src|r/rcell|qgis/rcell)/.*")
PHRASES = re.compile(
    r"\b(is|are|was) told\b|\btells?\b|\banswers (a|an|the|all|which|one)\b|\bwhat (no|the) [a-z]+ (names|refuses|has|gives|makes)\b"
    r"|\bthe (least|greatest) of\b|\bof the whole\b|\b(by|behind) (awk|GDAL|it)\b|\bwhere (there is|it is|none|one|no|memory|nothing)\b"
    r"|\bstands? (in|for|on|beside|behind|alone)\b",
    re.IGNORECASE,
)
# Code in docstrings and comments: text in backticks, paths, options, make targets, and keys of
# tables and parameters.
CODE = re.compile(
    r"`[^`]*`|[\w.*]*/[\w./*]*|(?<=[\s[])--[\w-]+|^# make [\w-]+|\b\w+\.py\b|^[\w, ]+ : |^\w+  "
)
DOCUMENTED = (ast.Module, ast.ClassDef, ast.FunctionDef, ast.AsyncFunctionDef)
PYTHON = re.compile(r".*\.py|helpers/rcell-[a-z]+")
COMMENT_OF = {
    ".rt": "//",
    ".antt": "--",
    ".sh": "#",
    ".mk": "#",
    ".R": "#",
    ".c": "//",
    ".cpp": "//",
    ".h": "//",
}


@functools.cache
def patterns():
    """Return the retired patterns, each with its replacement."""
    lines = (pathlib.Path(__file__).parent / "retired.txt").read_text(encoding="utf-8").splitlines()
    return [
        (re.compile(pattern), instead)
        for pattern, _, instead in (
            line.partition("\t") for line in lines if line and not line.startswith("#")
        )
    ]


@functools.cache
def tracked():
    """Return the files of the repository, as relative paths."""
    listed = subprocess.run(
        ["git", "ls-files", "--cached", "--others", "--exclude-standard"],
        cwd=ROOT,
        capture_output=True,
        text=True,
        check=True,
    )
    return [name for name in listed.stdout.splitlines() if (ROOT / name).is_file()]


def documents():
    """Return the documents for users: Markdown pages, manual pages, R pages, the page of r.rcell
    and notebooks."""
    return [
        name
        for name in tracked()
        if re.search(r"\.(md|1|Rd|ipynb)$|/r\.rcell\.html$", name) and name not in FOR_DEVELOPERS
    ]


def text_cells(notebook):
    """Return the prose cells of a notebook, each on separate lines."""
    cells = json.loads(notebook)["cells"]
    return "\n\n".join("".join(it["source"]) for it in cells if it["cell_type"] == "markdown")


def plain(name):
    """Return the prose of a document with code, links and markup blanked out. Lines are preserved,
    except for notebooks."""
    text = (ROOT / name).read_text(encoding="utf-8")
    if name.endswith(".ipynb"):
        return re.sub(r"`[^`\n]*`", "CODE", text_cells(text))
    if name.endswith(".html"):
        text = re.sub(r"<pre>.*?</pre>", lambda it: "\n" * it[0].count("\n"), text, flags=re.DOTALL)
        return re.sub(r"<[^>]*>", "", re.sub(r"<code>.*?</code>", "CODE", text))
    if name.endswith(".md"):
        text = FENCED.sub(lambda found: "\n" * found[0].count("\n"), text)
        text = re.sub(
            r"<!--.*?-->", lambda found: "\n" * found[0].count("\n"), text, flags=re.DOTALL
        )
        text = re.sub(r"`[^`\n]*`|[\w/]+/must-fail/[\w-]+|\b\w+-\w+-[\w-]+\b", "CODE", text)
        return re.sub(r"\]\([^)\s]*\)", "]", text)
    if name.endswith(".Rd"):
        text = re.sub(r"\\(code|link|href|preformatted|dQuote)\{[^{}]*\}", "CODE", text)
        return re.sub(
            r"\\(usage|examples|name|alias)\{.*?^\}",
            lambda found: "\n" * found[0].count("\n"),
            text,
            flags=re.MULTILINE | re.DOTALL,
        )
    return re.sub(r'^\.\\".*$|^\.[BI]R? .*$|\\f[BI].*?\\f[RP]', "", text, flags=re.MULTILINE)


def retired_in(text):
    """Yield the retired words in a text: the line, the word, and its replacement."""
    for number, line in enumerate(text.split("\n"), 1):
        for pattern, instead in patterns():
            for found in pattern.finditer(line):
                yield number, found[0].strip(" .:,"), instead


def sentences(text):
    """Return the sentences of a page, without headings and tables. A list item is a paragraph."""
    lines = [
        re.sub(r"^\s*(?:[-*]|\d+\.) ", "\n", line)
        for line in text.split("\n")
        if not re.match(r"\s*(\||#|!\[)", line)
    ]
    for paragraph in re.split(r"\n\s*\n", "\n".join(lines)):
        joined = re.sub(r"[*_\[\]]", "", " ".join(paragraph.split()))
        yield from (
            it for it in re.split(r"(?<=[.!?])\s+(?=[A-Z(\"])", joined) if len(it.split()) > 2
        )


def long_winded(name):
    """Return the error in the sentence lengths of a page, or ''."""
    lengths = [len(re.findall(r"[^\s·]*\w[^\s·]*", it)) for it in sentences(plain(name))]
    if len(lengths) < 10:
        return ""
    mean = sum(lengths) / len(lengths)
    long, very_long = (
        sum(it > most for it in lengths) / len(lengths) for most in (LONG, VERY_LONG)
    )
    if mean <= MEAN_WORDS and long <= MOST_LONG and very_long <= MOST_VERY_LONG:
        return ""
    return f"{mean:.1f} words a sentence, {100 * long:.0f} % over {LONG}, {100 * very_long:.1f} % over {VERY_LONG}"


def strings_of(name):
    """Return the strings of several words in a Python file, each with its line, except for
    docstrings."""
    tree = ast.parse((ROOT / name).read_text(encoding="utf-8"))
    documenting = {id(node.value) for node in ast.walk(tree) if isinstance(node, ast.Expr)}
    for node in ast.walk(tree):
        if (
            isinstance(node, ast.Constant)
            and isinstance(node.value, str)
            and " " in node.value.strip()
            and id(node) not in documenting
        ):
            yield node.lineno, node.value


def messages():
    """Yield the messages that are checked, each with its file and line."""
    for name in filter(MESSAGES_OF.fullmatch, tracked()):
        yield from ((name, number, text) for number, text in strings_of(name))
    for sentences in json.loads((ROOT / SENTENCES).read_text(encoding="utf-8")).values():
        yield from ((SENTENCES, text, sentence) for text, sentence in sentences.items())


def phrases_in_sources():
    """Yield each retired phrase in the documents, helpers and packages, with its file and line."""
    for name in filter(IN_SOURCES.fullmatch, tracked()):
        content = (ROOT / name).read_bytes()
        for number, line in enumerate(
            [] if b"\0" in content else content.decode("utf-8", "replace").split("\n"), 1
        ):
            yield from (
                f"{name}:{number}: '{found[0]}' is retired: say it as english readers do"
                for found in PHRASES.finditer(line)
            )


def faults():
    """Return the errors in the documents for users, one per line."""
    found = list(phrases_in_sources())
    for name in documents():
        found += [
            f"{name}:{number}: '{word}' is retired: {instead}"
            for number, word, instead in retired_in(plain(name))
        ]
        if name.endswith(".md") and (winded := long_winded(name)):
            found.append(f"{name}: {winded}")
    for name, place, text in messages():
        found += [
            f"{name}:{place}: '{word}' is retired: {instead}"
            for _, word, instead in retired_in(re.sub(r"`[^`]*`", "CODE", text))
        ]
    return found


def comments_of_python(text):
    """Return the lines of the docstrings and comments in a Python file, by line number."""
    lines, found = text.split("\n"), {}
    for node in ast.walk(ast.parse(text)):
        if isinstance(node, DOCUMENTED) and ast.get_docstring(node) is not None:
            places = range(node.body[0].lineno, (node.body[0].end_lineno or 0) + 1)
            found.update(
                {number: re.sub(r'^r?"""|"""$', "", lines[number - 1].strip()) for number in places}
            )
    for token in tokenize.generate_tokens(io.StringIO(text).readline):
        if token.type == tokenize.COMMENT:
            found[token.start[0]] = token.string
    return found


def comments_of(name):
    """Return the lines of the docstrings and comments in a source file, by line number."""
    text = (ROOT / name).read_text(encoding="utf-8", errors="replace")
    if PYTHON.fullmatch(name):
        return comments_of_python(text)
    mark = COMMENT_OF[pathlib.Path(name).suffix]
    return {
        number: line.strip()
        for number, line in enumerate(text.split("\n"), 1)
        if line.strip().startswith(mark)
    }


def retired_in_comments(name):
    """Yield each retired word in the docstrings and comments of a file, with its file and line.
    Code is left out."""
    is_code = False
    for number, line in sorted(comments_of(name).items()):
        is_code ^= "```" in line
        for _, word, instead in retired_in("" if is_code else CODE.sub("CODE ", line)):
            yield f"{name}:{number}: '{word}' is retired: {instead}"


def retired_by_file():
    """Return the number of retired words in the docstrings and comments of each file that contains
    some."""
    rules = [pathlib.Path(__file__), pathlib.Path(__file__).parent / "retired.txt"]
    known = passed.Passed(b"".join(path.read_bytes() for path in rules), ROOT)
    sources = [
        it for it in tracked() if PYTHON.fullmatch(it) or pathlib.Path(it).suffix in COMMENT_OF
    ]
    left = [it for it in sources if not known.has(it)]
    found = {name: sum(1 for _ in retired_in_comments(name)) for name in left}
    known.keep([name for name, count in found.items() if not count])
    return {name: count for name, count in found.items() if count}
