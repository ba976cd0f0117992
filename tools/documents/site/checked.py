"""Test the site in a browser: pages open without errors, links work, code equals its source, search
finds pages, and nothing is too wide."""
import html
import pathlib
import re
import subprocess
import tempfile

import pages

WIDTHS = (400, 1400)
CHROMIUM = [
    "chromium",
    "--headless=new",
    "--no-sandbox",
    "--disable-gpu",
    "--enable-logging=stderr",
    "--allow-file-access-from-files",
    "--virtual-time-budget=4000",
]
NOTHING_ELSE = re.compile(r'(?:src|href)="(https?:)?//', re.IGNORECASE)
# A page that opens other pages in a frame, and writes their widths.
FRAMES = """<body><pre id="widths"></pre><script>
const names = %s, widths = [];
function next() {
  const name = names.shift();
  if (!name) { document.getElementById("widths").textContent = widths.join("\\n"); return; }
  const frame = document.createElement("iframe");
  frame.style.width = "%dpx"; frame.style.height = "800px"; frame.style.border = "0";
  frame.onload = () => { widths.push(name + " " + frame.contentDocument.documentElement.scrollWidth); frame.remove(); next(); };
  frame.src = name;
  document.body.append(frame);
}
next();
</script></body>"""


def opened(url, *words):
    """Return the page as the browser sees it after running its scripts, and the errors on its
    console."""
    ran = subprocess.run(
        [*CHROMIUM, *words, "--dump-dom", url], capture_output=True, text=True, timeout=180
    )
    return ran.stdout, [
        line for line in ran.stderr.splitlines() if "CONSOLE" in line and "error" in line.lower()
    ]


def dead_links(out):
    """Return the broken links of the site, as PAGE: LINK."""
    texts = {path: path.read_text(encoding="utf-8") for path in out.rglob("*.html")}
    anchors = {
        path: set(re.findall(r'(?:id|name)="([^"]+)"', text)) for path, text in texts.items()
    }
    for path, text in texts.items():
        for link in map(html.unescape, re.findall(r'(?:href|src)="([^"]+)"', text)):
            name, _, anchor = link.partition("#")
            target = (path.parent / name.partition("?")[0]).resolve() if name else path
            if re.match(r"\w+:", link) or path.name == "404.html":
                continue
            if not target.exists() or (
                anchor and target in anchors and anchor not in anchors[target]
            ):
                yield f"{path.relative_to(out)}: {link}"


def too_wide(out, width):
    """Return the pages that are wider than a window of this width."""
    names = sorted(
        path.relative_to(out).as_posix() for path in out.rglob("*.html") if path.name != "404.html"
    )
    with tempfile.NamedTemporaryFile("w", dir=out, suffix=".frames.html", encoding="utf-8") as file:
        file.write(FRAMES % (names, width))
        file.flush()
        shown, _ = opened(
            pathlib.Path(file.name).as_uri(),
            "--window-size=1500,900",
            "--virtual-time-budget=60000",
        )
    widths = re.findall(r"([\w./-]+\.html) (\d+)", shown)
    missing = set(names) - {name for name, _ in widths}
    return [f"{name}: {wide} pixels" for name, wide in widths if int(wide) > width] + [
        f"{name}: not opened" for name in sorted(missing)
    ]


def main_of(out, name):
    """Return the part of a page that is not shared with other pages."""
    text = (out / name).with_suffix(".html").read_text(encoding="utf-8")
    found = re.search(r'role="main">(.*?)<footer', text, re.DOTALL)
    return found[1] if found else ""


def check(root, out):
    passed, faults = 0, []
    names = sorted(path for path in out.rglob("*.html") if path.name != "404.html")
    for path in names:
        _, errors = opened(path.as_uri())
        outside = NOTHING_ELSE.findall(
            re.sub(r'<a [^>]*href="[^"]*"', "", path.read_text(encoding="utf-8"))
        )
        passed += not errors and not outside
        faults += [f"{path.relative_to(out)}: {error}" for error in errors] + [
            f"{path.relative_to(out)}: it loads from elsewhere"
        ] * bool(outside)
    for name, found in (
        ("links", list(dead_links(out))),
        ("code", pages.code_faults(root, lambda name: main_of(out, name))),
        *((f"{width} pixels", too_wide(out, width)) for width in WIDTHS),
    ):
        passed += not found
        faults += [f"{name}: {fault}" for fault in found]
    results, _ = opened(f"{(out / 'search.html').as_uri()}?q=r.clump")
    first = re.search(r'id="search-results"><li><a href="([^"]*)"', results)
    is_found = bool(first and first[1] == "commands.html#rclump")
    passed += is_found
    faults += [] if is_found else ["search.html?q=r.clump: the section of the command is not first"]
    print("".join(f"{fault}\n" for fault in faults) + f"{passed} passed, {len(faults)} failed")
    return 1 if faults else 0
