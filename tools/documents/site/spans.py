"""Compare the code of pages in Markdown with the code in HTML.

In a table row, GitHub reads `\|` as `|`, also in code, and it keeps the tabs in a block. Python's
Markdown keeps the backslash and expands tabs, so such code is passed to the site as HTML.
"""
import html
import re

FENCE = re.compile(r"^```(\w*)[^\n]*\n(.*?)^```$", re.MULTILINE | re.DOTALL)
SPAN = re.compile(r"(?<!`)(`+)(?!`)(.+?)(?<!`)\1(?!`)", re.DOTALL)
ROW = re.compile(r"^\|.*$", re.MULTILINE)
PIPE = r"\|"


def as_html(text):
    """Return a page in which code spans with an escaped `|` and blocks with tabs are HTML."""

    def escaped(span):
        if PIPE not in span[2]:
            return span[0]
        code = span[2].replace(PIPE, "|")
        return f"<code>{re.sub('[^A-Za-z0-9 ]', lambda it: f'&#{ord(it[0])};', code)}</code>"

    def with_tabs(block):
        if "\t" not in block[2]:
            return block[0]
        code = html.escape(block[2]).replace("\t", "&#9;")
        return f'<pre><code class="language-{block[1]}">{code}</code></pre>'

    return FENCE.sub(with_tabs, ROW.sub(lambda row: SPAN.sub(escaped, row[0]), text))


def collapsed(code):
    return " ".join(code.split())


def of_markdown(text):
    """Return the code spans and the blocks of a page, each in order."""
    blocks = [code for _, code in FENCE.findall(text)]
    prose = re.sub(r"<!--.*?-->", "", FENCE.sub("", text), flags=re.DOTALL)
    prose = ROW.sub(lambda row: row[0].replace(PIPE, "|"), prose)
    return [collapsed(found[1]) for found in SPAN.findall(prose)], blocks


def of_html(text):
    """Return the code spans and the blocks of a page in HTML, each in order."""
    blocks = re.findall(r"<pre><code[^>]*>(.*?)</code></pre>", text, re.DOTALL)
    prose = re.sub(r"<pre>.*?</pre>", "", text, flags=re.DOTALL)
    spans = re.findall(r"<code>(.*?)</code>", prose, re.DOTALL)
    return [collapsed(html.unescape(it)) for it in spans], [html.unescape(it) for it in blocks]


def faults(source, shown):
    """Yield each place where code in HTML differs from its Markdown."""
    for meant, seen in zip(of_markdown(source), of_html(shown)):
        yield from (
            f"{one!r} is shown as {other!r}" for one, other in zip(meant, seen) if one != other
        )
        if len(meant) != len(seen):
            yield f"{len(meant)} pieces of code, and {len(seen)} are shown"
