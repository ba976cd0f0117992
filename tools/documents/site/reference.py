"""Make the references of the site: Python's from docstrings, R's from its Rd files, and the manual
pages as man shows them."""
import html
import importlib
import inspect
import re
import subprocess
import sys

# The order of use. Public names that are not listed here follow under the last heading.
GROUPS = {
    "Calls": "composition cross change trajectories patches adjacency zonal dominant accuracy sample metrics majority "
    "within reclass clump sieve aggregate align",
    "Records": "record verify report",
    "Scripts": "run table grid",
    "Maps and results": "Raster MapLike bands Region Accuracy Aggregate Aligned Change Result Shares Sieved Trajectories",
    "Errors": "RcellError BadArgument Refused BadMap OtherRegion OtherCrs ReadFailed WriteFailed OutOfMemory Killed "
    "MissingLibrary MissingProgram WrongProgram",
    "Others": "",
}
MODULES = ("rcell.xarray",)
UNDERLINED = re.compile(r"^(\w[\w ]*)\n-{3,}$\n?", re.MULTILINE)
ENTRY = re.compile(r"^(\S[^\n]*)\n((?:[ \t]+[^\n]*\n?|\n)*)", re.MULTILINE)


def in_code(text):
    """Return text as HTML, with the text in backticks as code."""
    return re.sub(r"``?([^`]+)``?", r"<code>\1</code>", html.escape(text.strip()))


def as_html(documented):
    """Return a numpydoc docstring as HTML: paragraphs, and its sections as lists or code."""
    lead, *sections = UNDERLINED.split(documented)
    parts = [f"<p>{in_code(it)}</p>" for it in lead.split("\n\n") if it.strip()]
    for title, body in zip(sections[::2], sections[1::2]):
        parts.append(f"<h4>{title}</h4>")
        if title == "Examples":
            parts.append(
                f'<pre><code class="language-pycon">{html.escape(body.strip())}</code></pre>'
            )
        elif re.search(r"^[ \t]+\S", body, re.MULTILINE):
            entries = ENTRY.findall(body.strip("\n") + "\n")
            rows = "".join(
                f"<dt>{in_code(it)}</dt><dd>{in_code(text)}</dd>" for it, text in entries
            )
            parts.append(f"<dl>{rows}</dl>")
        else:
            parts.append(f"<p>{in_code(body)}</p>")
    return "\n".join(parts)


def signature_of(thing):
    """Return the signature of a callable, or '' for exceptions and for objects without a
    signature."""
    if not callable(thing) or (inspect.isclass(thing) and issubclass(thing, Exception)):
        return ""
    try:
        shown = re.sub(r"ForwardRef\(('[^']*')\)", r"\1", str(inspect.signature(thing)))
    except ValueError:
        return ""
    return re.sub(r"(: |-> )'([^']*)'", r"\1\2", shown)


def described(name, thing, level):
    """Return the Markdown of a public object, and of its public methods."""
    parts = [
        f"{'#' * level} {name}\n",
        f'<pre class="signature">{html.escape(name + signature_of(thing))}</pre>\n',
    ]
    parts.append(as_html(inspect.getdoc(thing)) + "\n")
    if inspect.isclass(thing):
        own = [it for it in vars(thing) if not it.startswith("_") and callable(getattr(thing, it))]
        parts += [
            described(f"{name}.{it}", getattr(thing, it), level + 1)
            for it in own
            if inspect.getdoc(getattr(thing, it))
        ]
    return "\n".join(parts)


def python(root):
    """Return the page of the Python package: each public name with its docstring, in the order of
    use."""
    sys.path.insert(0, str(root / "python" / "src"))
    package = importlib.import_module("rcell")
    public = [
        it
        for it in package.__all__
        if not it.startswith("__") and inspect.getdoc(getattr(package, it))
    ]
    parts, grouped = ["# Python reference\n"], {
        it for names in GROUPS.values() for it in names.split()
    }
    for heading, names in GROUPS.items():
        wanted = names.split() or [it for it in public if it not in grouped]
        parts.append(f"## {heading}\n")
        parts += [
            described(f"rcell.{it}", getattr(package, it), 3) for it in wanted if it in public
        ]
    for name in MODULES:
        module = importlib.import_module(name)
        parts.append(f"## {name}\n\n{as_html(inspect.getdoc(module))}\n")
        things = {it: getattr(module, it) for it in getattr(module, "__all__", ())}
        parts += [
            described(f"{name}.{it}", thing, 3)
            for it, thing in things.items()
            if inspect.getdoc(thing)
        ]
    return "\n".join(parts)


def r(root):
    """Return the help pages of the R package, as R shows them in a browser."""
    parts = ["# R reference\n"]
    for page in sorted((root / "r" / "rcell" / "man").glob("*.Rd")):
        words = ["R", "CMD", "Rdconv", "-t", "html", str(page)]
        shown = subprocess.run(words, capture_output=True, text=True, check=True).stdout
        body = re.search(r"<h2[^>]*>.*?</h2>(.*)</body>", shown, re.DOTALL)[1]
        body = re.sub(r"<a href=[^>]*>(.*?)</a>", r"\1", body, flags=re.DOTALL)
        body = re.sub(r"<(/?)h3>", r"<\1h4>", body).partition("<hr")[0]
        body = (
            re.sub(r"</div>\s*\Z", "", body) if body.count("</div>") > body.count("<div") else body
        )
        parts.append(f"## {page.stem}\n\n<div>\n{re.sub(chr(10) + '+', chr(10), body)}\n</div>\n")
    return "\n".join(parts)


def manual_pages(root):
    return sorted([*(root / "docs").glob("*.1"), *(root / "helpers").glob("*.1")])


def manual(page):
    """Return a manual page as the text that man shows."""
    words = ["groff", "-man", "-Tutf8", "-P-c", "-P-b", "-P-u", "-rLL=78n", "-K", "utf8", str(page)]
    shown = subprocess.run(words, capture_output=True, text=True, check=True)
    text = re.sub(r"\x1b\[[\d;]*m|.\x08", "", shown.stdout)
    return f"# {page.stem}(1)\n\n<pre>{html.escape(text.strip())}</pre>\n"
