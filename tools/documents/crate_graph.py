#!/usr/bin/env python3
"""Draw which crate uses which, from crates.txt: `make pictures`, or by itself.

    crate_graph.py OUT.svg          the picture, drawn with dot (Debian: graphviz)

An arrow leads from a crate to a crate that it uses. Implied arrows, tests and the kit's libraries
are left out.
"""
import html
import os
import re
import subprocess
import sys

ROOT = os.path.abspath(f"{__file__}/../../..")
PICTURE = f"{ROOT}/docs/crates.svg"
ROOMS = {
    "core": "#dcecf7",
    "ascii": "#e4f3df",
    "calc": "#fdf1d3",
    "cats": "#f9e2e2",
    "stats": "#ece3f5",
    "tiles": "#eeeeee",
    "rcell": "#dff2f0",
}
PROGRAMS = ("rcell_program", "rcell_pipe")
TITLE = re.compile(r"<title>([^<]+)</title>")
HEAD = """digraph crates {
    rankdir=BT; ranksep=0.45; nodesep=0.18; newrank=true; bgcolor=white;
    style=filled; labeljust=l; fontname="Helvetica"; fontsize=13;
    node [shape=box, style="filled,rounded", fillcolor=white, fontname="Helvetica", fontsize=11, height=0.3, margin="0.08,0.04"];
    edge [arrowsize=0.5, color="#777777"];
"""


def crates():
    """Return the crates of the product that each crate of the product uses."""
    with open(f"{ROOT}/crates.txt", encoding="ascii") as file:
        found = {
            name: words.split()
            for name, _, words in (line.partition(":") for line in file)
            if name.strip()
        }
    is_of_tests = re.compile(r"_tests$|_test_maps$")
    product = {name: words for name, words in found.items() if not is_of_tests.search(name)}
    return {name: [word for word in words if word in product] for name, words in product.items()}


def all_below(name, uses):
    """Return all crates that a crate uses, directly or through others."""
    return (
        set(uses[name]).union(*(all_below(below, uses) for below in uses[name]))
        if uses[name]
        else set()
    )


def edges(uses):
    """Yield each crate with the crates that it uses, except for those that another of them uses."""
    for name, direct in uses.items():
        implied = set().union(*(all_below(below, uses) for below in direct)) if direct else set()
        for below in direct:
            if below not in implied:
                yield name, below


def room(name):
    found = "rcell" if name.startswith("rcell") else name.split("_")[1]
    return found if found in ROOMS else "tiles"


def dot():
    """Return the graph in the dot language, with a frame around each room. Crates that the program
    does not use have a dashed line."""
    uses, lines = crates(), []
    of_the_program = {it for program in PROGRAMS for it in (program, *all_below(program, uses))}
    for place, colour in ROOMS.items():
        lines.append(f'    subgraph cluster_{place} {{ label="{place}"; color="{colour}";')
        for name in (name for name in uses if room(name) == place):
            style = "" if name in of_the_program else ' [style="filled,rounded,dashed"]'
            lines.append(f"        {name}{' [penwidth=2]' if name in PROGRAMS else style};")
        lines.append("    }")
    lines += [f"    {name} -> {below};" for name, below in edges(uses)]
    return HEAD + "\n".join(lines) + "\n}\n"


def draw(path):
    made = subprocess.run(
        ["dot", "-Tsvg"], input=dot(), check=True, capture_output=True, text=True
    ).stdout
    # Comments name the version of dot. Without them, the picture changes only if the crates do.
    with open(path, "w", encoding="utf-8") as file:
        file.write(re.sub(r"<!--.*?-->\n?", "", made, flags=re.DOTALL))


def check():
    """Return the number of crates and edges on which the picture and crates.txt agree, and the
    differences."""
    uses = crates()
    wanted = {*uses, *(f"{name}->{below}" for name, below in edges(uses))}
    with open(PICTURE, encoding="utf-8") as file:
        shown = {html.unescape(title) for title in TITLE.findall(file.read())}
    shown = {title for title in shown if title != "crates" and not title.startswith("cluster_")}
    name = os.path.relpath(PICTURE, ROOT)
    faults = [
        f"{name}: {title} is missing (make pictures draws it)" for title in sorted(wanted - shown)
    ]
    faults += [
        f"{name}: {title} is not in crates.txt (make pictures leaves it out)"
        for title in sorted(shown - wanted)
    ]
    return len(wanted & shown), faults


def main():
    if len(sys.argv) != 2 or sys.argv[1].startswith("-"):
        sys.exit(__doc__)
    draw(sys.argv[1])


if __name__ == "__main__":
    main()
